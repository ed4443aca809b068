// The command line tool: attention on .npy files, saved sessions, a demonstration, and measurements.

#![deny(unsafe_code)]

mod args;
mod attend;
mod bench;
mod clock;
mod demo;
mod npy;
mod outputs;
mod picture;
mod prepared;
#[cfg(reference)]
mod reference;
mod session;

use std::ffi::OsString;
use std::io::{self, Write};
use std::process::ExitCode;

const HELP: &str = "\
klaverdomp - attention for speech recognition (ONNX Attention 24, f32, KV caches)

  klaverdomp attend ...   one call: tensors from .npy files, results to .npy files
  klaverdomp session ...  what a saved session holds
  klaverdomp demo ...     a small recording, whole, in chunks, and saved and taken up; its weights as a picture
  klaverdomp bench ...    how long calls and saved sessions take, beside a plain C program of the same rounding order

'klaverdomp COMMAND --help' or 'klaverdomp help COMMAND' says more about each.

Exit status: 0 done; 1 the operator refuses the call or the saved session, or the demonstration finds bits that differ;
2 bad usage, a file that cannot be read or written.
";

/// Why a command ends without being done.
pub enum Failure {
    /// The operator refuses the call or the saved session, in words.
    Refused(String),
    /// Two results that should have equal bits do not.
    Differs(String),
    /// Bad usage, with the command whose help says more.
    Usage(String, &'static str),
    /// A file that cannot be read or written.
    File(String),
    /// Standard output is closed.
    Closed(io::Error),
}

impl From<io::Error> for Failure {
    fn from(error: io::Error) -> Failure {
        Failure::Closed(error)
    }
}

fn main() -> ExitCode {
    let mut words = std::env::args_os().skip(1);
    let command = words.next();
    match run(command.as_ref().map(|word| word.to_string_lossy()).as_deref(), words.collect()) {
        Ok(()) => ExitCode::SUCCESS,
        Err(failure) => report(failure),
    }
}

/// A command: its name, its help, and what it does.
type Command = (&'static str, &'static str, fn(Vec<OsString>) -> Result<(), Failure>);

const COMMANDS: [Command; 4] = [
    ("attend", attend::HELP, attend::run),
    ("session", session::HELP, session::run),
    ("demo", demo::HELP, demo::run),
    ("bench", bench::HELP, bench::run),
];

fn run(command: Option<&str>, words: Vec<OsString>) -> Result<(), Failure> {
    let usage = |words: String| Failure::Usage(words, "");
    match command {
        Some("--help" | "-h") => say(HELP),
        Some("help") => match &words[..] {
            [] => say(HELP),
            [word] if word == "help" => say(HELP),
            [word] => say(find(&word.to_string_lossy())?.1),
            _ => Err(usage("help is for one command at a time".to_string())),
        },
        Some(name) => {
            let (_, help, run) = find(name)?;
            match words.iter().any(|word| word == "--help" || word == "-h") {
                true => say(help),
                false => run(words),
            }
        }
        None => Err(usage("a command is missing: attend, session, demo or bench".to_string())),
    }
}

fn find(name: &str) -> Result<Command, Failure> {
    let found = COMMANDS.into_iter().find(|command| command.0 == name);
    found.ok_or_else(|| Failure::Usage(format!("there is no command '{name}'"), ""))
}

/// Writes to standard output.
pub fn say(text: &str) -> Result<(), Failure> {
    let mut out = io::stdout().lock();
    out.write_all(text.as_bytes())?;
    Ok(out.flush()?)
}

/// A line on standard error that the next one replaces, on a terminal; nothing elsewhere.
pub fn progress(text: &str) {
    use std::io::IsTerminal;
    let mut out = io::stderr().lock();
    if out.is_terminal() {
        // a line that cannot be shown is no failure
        let _ = write!(out, "\r\x1b[K{text}");
        let _ = out.flush();
    }
}

fn report(failure: Failure) -> ExitCode {
    let (words, status) = match failure {
        Failure::Refused(words) | Failure::Differs(words) => (words, 1),
        Failure::Usage(words, command) => {
            let space = if command.is_empty() { "" } else { " " };
            (format!("{words}\n'klaverdomp{space}{command} --help' shows the options"), 2)
        }
        Failure::File(words) => (words, 2),
        // whoever read the output has gone
        Failure::Closed(error) if error.kind() == io::ErrorKind::BrokenPipe => return ExitCode::from(2),
        Failure::Closed(error) => (format!("standard output: {error}"), 2),
    };
    let _ = writeln!(io::stderr(), "klaverdomp: {words}");
    ExitCode::from(status)
}
