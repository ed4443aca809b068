// Two processes and one file, a process that is killed while it has the lock, a full disk, and a change of the working folder.

mod common;

use common::Place;
use klaverdomp::{saved_in, SaveFault, SavedSession, Session, Settings};
use std::env;
use std::fs;
use std::io::{BufRead, BufReader, Write};
use std::path::Path;
use std::process::{Child, ChildStdout, Command, Stdio};

fn settings() -> Settings {
    Settings::new(1, 1, 64)
}

/// Feeds a position, and tries to save it.
fn save(saved: &mut SavedSession) -> Result<u64, String> {
    saved.append(&[1.0; 64], &[1.0; 64], &[1.0; 64], &mut [0.0; 64]).unwrap();
    saved.save().map_err(|error| error.to_string())
}

/// The other process: opens the file, and saves a position for each line that it is given.
fn other(path: &Path) {
    let mut saved = match SavedSession::open(settings(), path) {
        Ok(saved) => saved,
        Err(error) => return println!("{error}"),
    };
    println!("open {}", saved.saved());
    for _ in std::io::stdin().lines() {
        println!("{:?}", save(&mut saved));
    }
}

/// The other process, and what it says line by line.
struct Other {
    child: Child,
    says: BufReader<ChildStdout>,
}

impl Other {
    fn start(mut command: Command, path: &Path) -> Other {
        let mut child = command.arg("other").arg(path).stdin(Stdio::piped()).stdout(Stdio::piped()).spawn().unwrap();
        let says = BufReader::new(child.stdout.take().unwrap());
        Other { child, says }
    }

    fn line(&mut self) -> String {
        let mut line = String::new();
        self.says.read_line(&mut line).unwrap();
        line.trim_end().to_string()
    }

    fn save(&mut self) -> String {
        writeln!(self.child.stdin.as_mut().unwrap()).unwrap();
        self.line()
    }
}

fn this_program() -> Command {
    Command::new(env::current_exe().unwrap())
}

/// One that may not write files beyond so many blocks of 512 bytes, and gets an error instead of a signal.
fn with_a_full_disk(blocks: u32) -> Command {
    let mut command = Command::new("sh");
    command.arg("-c").arg(format!("trap '' XFSZ; ulimit -f {blocks} && exec \"$0\" \"$@\"")).arg(env::current_exe().unwrap());
    command
}

fn two_processes(path: &Path) {
    let mut other = Other::start(this_program(), path);
    assert_eq!(other.line(), "open 0");
    assert_eq!(other.save(), "Ok(1)");
    assert!(matches!(SavedSession::open(settings(), path).unwrap_err().fault, SaveFault::Locked));
    assert!(matches!(Session::new(settings()).save_to(path).unwrap_err().fault, SaveFault::Locked));
    assert_eq!(Session::resume(settings(), path).unwrap().len(), 1);
    assert_eq!(other.save(), "Ok(2)");
    // a process that is killed keeps no lock
    other.child.kill().unwrap();
    other.child.wait().unwrap();
    let mut ours = SavedSession::open(settings(), path).unwrap();
    assert_eq!(save(&mut ours), Ok(3));
    let mut other = Other::start(this_program(), path);
    assert_eq!(other.line(), format!("{}: another session has this file open to save in it", path.display()));
    assert!(other.child.wait().unwrap().success());
    assert_eq!(save(&mut ours), Ok(4));
    println!("two processes: the second is kept out, and a killed one keeps no lock");
}

fn full_disk(path: &Path) {
    // a record has 518 bytes, and `ulimit -f` counts blocks of 512 in some shells and of 1,024 in others
    let mut other = Other::start(with_a_full_disk(4), path);
    assert_eq!(other.line(), "open 0");
    let mut said = 0;
    let error = loop {
        match other.save() {
            saved if saved.starts_with("Ok(") => said += 1,
            error => break error,
        }
    };
    assert!((1..=8).contains(&said), "{said} positions before the disk is full");
    assert!(error.contains(&format!("{}: ", path.display())) && error.contains("File too large"), "{error}");
    assert!(other.save().starts_with("Err("));
    drop(other.child.stdin.take());
    assert!(other.child.wait().unwrap().success());
    // what was said to be saved is there, and the next one goes on
    assert_eq!(saved_in(path).unwrap().0.positions, said);
    assert_eq!(save(&mut SavedSession::open(settings(), path).unwrap()), Ok(said + 1));
    println!("a full disk: {said} positions were said to be saved, and are there");
}

fn no_room_to_begin(path: &Path) {
    let mut other = Other::start(with_a_full_disk(0), path);
    assert!(other.line().contains("File too large"));
    assert!(other.child.wait().unwrap().success());
    assert_eq!(SavedSession::open(settings(), path).unwrap().saved(), 0);
}

/// A path from the working folder names the same file after that has changed.
fn another_working_folder(folder: &Path) {
    env::set_current_dir(folder).unwrap();
    let mut saved = SavedSession::open(settings(), "relative").unwrap();
    env::set_current_dir("/").unwrap();
    assert_eq!(save(&mut saved), Ok(1));
    fs::remove_file(folder.join("relative")).unwrap();
    assert!(save(&mut saved).unwrap_err().starts_with("relative: the file that was opened is not at this path any more"));
}

fn main() {
    if let (Some("other"), Some(path)) = (env::args().nth(1).as_deref(), env::args_os().nth(2)) {
        return other(Path::new(&path));
    }
    let place = Place::new("processes");
    two_processes(&place.0.join("two"));
    full_disk(&place.0.join("full"));
    no_room_to_begin(&place.0.join("no-room"));
    another_working_folder(&place.0);
}
