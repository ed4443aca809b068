// A small made-up recording, whole, in chunks, and saved and taken up, without and with a score cap, and a picture of its weights.

mod recording;

use crate::args::Args;
use crate::outputs::{identity, Outputs};
use crate::picture::{svg, Heatmap, Panel};
use crate::{say, Failure};
use recording::{Recording, Whole, KV_HEADS, POSITIONS, Q_HEADS, SIZE};
use std::ffi::OsString;
use std::fmt::Display;
use std::fs::File;
use std::io;
use std::path::PathBuf;

pub const HELP: &str = "\
klaverdomp demo - a small recording, whole, in chunks, and saved and taken up

  klaverdomp demo [--output FILE] [--session FILE] [--force] [--head N] [--softcap C]

Makes a recording of 48 positions by a fixed rule (4 query heads, 2 key heads, head size 16), attends to it in one plain
causal call and again in chunks with a KV cache, and compares the bits. Then it saves the session after every chunk of 5,
stops after 25 positions in the middle of a save, takes the session up from its file and goes on, and compares again. Then
all of it with a score cap. It draws the weights of one query head, without the cap and with it side by side.

  --output FILE   the picture, SVG (default klaverdomp-demo.svg)
  --session FILE  the saved session (default: the picture's name with .session); 'klaverdomp session info' reads it
  --force         writes the saved session anew where a file is there already, which is lost; without this that is an error
  --head N        the query head that is drawn, 0 to 3 (default 0)
  --softcap C     the cap, at most 65536 (default 2); 0 leaves out the part with a cap

Exit status: 0 all bits agree; 1 some do not, or the cap is refused; 2 bad usage, or a file cannot be written.
";

/// The files of the demonstration.
struct Files {
    picture: NamedFile,
    session: NamedFile,
}

/// A file, and how an error names it: by words of the command line alone.
struct NamedFile {
    path: PathBuf,
    name: String,
}

impl NamedFile {
    fn failed(&self, words: impl Display) -> Failure {
        Failure::File(format!("{}: {words}", self.name))
    }

    /// Makes the file, where it may not write over one.
    fn claim(&self) -> Result<(), Failure> {
        match File::create_new(&self.path) {
            Ok(_) => Ok(()),
            Err(error) if error.kind() == io::ErrorKind::AlreadyExists => {
                Err(self.failed("a file is there already; --force writes it anew, and --session names another one"))
            }
            Err(error) => Err(self.failed(error)),
        }
    }
}

fn usage(words: String) -> Failure {
    Failure::Usage(words, "demo")
}

impl Files {
    fn named(args: &Args) -> Result<Files, Failure> {
        let named = |option: &str| {
            args.path(option).map(|path| NamedFile { path: path.to_path_buf(), name: format!("{option} {}", path.display()) })
        };
        let default = || NamedFile { path: "klaverdomp-demo.svg".into(), name: "the default of --output".to_string() };
        let picture = named("--output").unwrap_or_else(default);
        let session = named("--session").unwrap_or_else(|| NamedFile {
            path: picture.path.with_extension("session"),
            name: format!("the saved session beside {}", picture.name),
        });
        if identity(&picture.path).is_ok_and(|picture| identity(&session.path).is_ok_and(|session| session == picture)) {
            return Err(usage(format!("{} and {} are one file", picture.name, session.name)));
        }
        Ok(Files { picture, session })
    }
}

pub fn run(words: Vec<OsString>) -> Result<(), Failure> {
    let args = Args::parse(words, &["--output", "--session", "--head", "--softcap"], &["--force"]).map_err(usage)?;
    let head: usize = args.number("--head", "a whole number").map_err(usage)?.unwrap_or(0);
    if head >= Q_HEADS {
        return Err(usage(format!("--head {head}: there are heads 0 to {}", Q_HEADS - 1)));
    }
    let softcap: f32 = args.number("--softcap", "a number").map_err(usage)?.unwrap_or(2.0);
    let Files { picture, session } = Files::named(&args)?;
    let outputs = Outputs::find("demo", [("--output", picture.name, picture.path.as_path())])?;

    let recording = Recording::make();
    let caps = if softcap == 0.0 { vec![0.0] } else { vec![0.0, softcap] };
    let wholes = caps.iter().map(|cap| recording.whole(*cap)).collect::<Result<Vec<Whole>, Failure>>()?;
    if !args.flag("--force") {
        session.claim()?;
    }
    say(&format!(
        "A recording of {POSITIONS} positions: {Q_HEADS} query heads, {KV_HEADS} key heads, head size {SIZE}, causal.\n\
         One plain call gives {} outputs. The same positions in chunks, each after the KV cache of those before:\n",
        recording.outputs()
    ))?;
    let mut same = recording.compare(&wholes[0], &session)?;
    for whole in &wholes[1..] {
        say(&format!("The same with {}:\n", whole.label()))?;
        same &= recording.compare(whole, &session)?;
    }
    say(&format!("The saved session: {}\n", session.path.display()))?;
    let svg = draw(&wholes, head);
    outputs.write(|_, target| target.write_all(svg.as_bytes()))?;
    say(&format!("The weights of query head {head}: {}\n", picture.path.display()))?;
    match same {
        true => Ok(()),
        false => Err(Failure::Differs("the chunks and the plain call differ in some bits".to_string())),
    }
}

fn draw(wholes: &[Whole], head: usize) -> String {
    let labels: Vec<String> = wholes.iter().map(Whole::label).collect();
    let panels: Vec<Panel> =
        wholes.iter().zip(&labels).map(|(whole, label)| Panel { label, weights: whole.weights(head) }).collect();
    let title = format!("Attention weights of query head {head} (key head {})", head / (Q_HEADS / KV_HEADS));
    let subtitle =
        format!("Made-up recording of {POSITIONS} positions, head size {SIZE}, causal; chunks of 8 give the same bits");
    let chunks: Vec<usize> = (0..POSITIONS).step_by(8).collect();
    let looks = match head {
        0 => "A query of this head looks for keys of its own sound, the latest first.",
        1 => "A query of this head looks for keys of its own sound, near and far alike.",
        2 => "A query of this head looks for keys of the sound before its own, the latest first.",
        _ => "A query of this head looks for keys of the sound before its own, near and far alike.",
    };
    let mut notes = vec![looks, "Each row of weights adds up to 1. Dashed: where one chunk ends and the next begins."];
    if wholes.len() > 1 {
        notes.push("A cap keeps scores between minus the cap and the cap, so that no weight is far above the others.");
    }
    let positions = POSITIONS;
    svg(&Heatmap { title: &title, subtitle: &subtitle, positions, panels: &panels, tick: 4, chunks: &chunks, notes: &notes })
}
