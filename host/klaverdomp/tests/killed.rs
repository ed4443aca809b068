// A process that saves a session and says so after each save is killed, again and again, at random moments. Every position that it had
// said to be saved is in the file with its bits, whatever else is there is the session's too, and the next process takes it up. A kill
// rarely falls into the middle of a record, so half of the time a part of the next one is written behind the file.

mod common;

use common::{bits, Generator};
use klaverdomp::session_file::{append, begin};
use klaverdomp::{SavedSession, Session, Settings};
use std::fs::OpenOptions;
use std::io::{Read, Write};
use std::os::unix::process::ExitStatusExt;
use std::path::Path;
use std::process::{Child, Command, Stdio};
use std::time::Duration;
use std::{env, fs, thread};

const SIZE: usize = 256;
const KILLS: u32 = 60;
const SIGKILL: i32 = 9;

fn settings() -> Settings {
    Settings::new(1, 1, SIZE as u64)
}

/// Query, key and value of some positions, each of which has rows of its own.
fn rows(first: u64, end: u64) -> [Vec<f32>; 3] {
    let mut rows = [Vec::new(), Vec::new(), Vec::new()];
    for position in first..end {
        let mut generator = Generator::new(position + 1);
        rows.iter_mut().for_each(|rows| rows.extend(generator.tensor(SIZE)));
    }
    rows
}

/// The process that is killed: goes on with the session in the file, in chunks, up to 2,048 positions.
fn save(path: &Path) {
    let mut saved = SavedSession::open(settings(), path).unwrap();
    println!("taken up {}", saved.saved());
    let mut generator = Generator::new(u64::from(std::process::id()));
    while saved.saved() < 2048 {
        let first = saved.saved();
        let end = 2048.min(first + 1 + generator.below(24));
        let [query, key, value] = rows(first, end);
        let mut out = vec![0.0; query.len()];
        saved.append(&query, &key, &value, &mut out).unwrap();
        println!("saved {}", saved.save().unwrap());
    }
}

/// What the process said before it ended: how many positions it took up, if it came so far, and how many it saved. A line that is not
/// whole was not said.
fn said(child: &mut Child) -> (Option<u64>, Option<u64>) {
    let mut text = String::new();
    child.stdout.take().unwrap().read_to_string(&mut text).unwrap();
    let whole = &text[..text.rfind('\n').map_or(0, |end| end + 1)];
    let last = |words: &str| whole.lines().filter_map(|line| line.strip_prefix(words)).next_back().map(|n| n.parse().unwrap());
    (last("taken up "), last("saved "))
}

/// Positions in the file, each of which has the bits of the session's.
fn check(path: &Path) -> u64 {
    let session = Session::resume(settings(), path).unwrap();
    let [_, key, value] = rows(0, session.len());
    assert!(bits(session.keys()) == bits(&key) && bits(session.values()) == bits(&value), "the rows in the file");
    session.len()
}

/// Writes some of the bytes of the next position's record, but not all, behind the last whole one.
fn cut_record(path: &Path, position: u64, generator: &mut Generator) {
    let (sizes, [_, key, value]) = (settings().sizes(), rows(position, position + 1));
    let mut bytes = vec![0; sizes.file_len(1)];
    let begun = begin(&mut bytes, &sizes).unwrap().used;
    append(&mut bytes, begun, 1, &key, &value).unwrap();
    let record = &bytes[begun as usize..];
    let part = &record[..1 + generator.below(record.len() as u64 - 1) as usize];
    let mut file = OpenOptions::new().append(true).open(path).unwrap();
    file.set_len(sizes.file_len(position) as u64).unwrap();
    file.write_all(part).unwrap();
}

fn main() {
    if let (Some("save"), Some(path)) = (env::args().nth(1).as_deref(), env::args_os().nth(2)) {
        return save(Path::new(&path));
    }
    let folder = env::temp_dir().join(format!("klaverdomp-killed-{}", std::process::id()));
    fs::create_dir_all(&folder).unwrap();
    let path = folder.join("session");
    let mut generator = Generator::new(7);
    let length = || fs::metadata(&path).map_or(0, |file| file.len() as usize);
    let (mut killed, mut ends, mut cut_by_kill, mut cut, mut ahead, mut there) = (0, 0, 0, 0, 0, 0);
    while killed < KILLS {
        let before = length();
        let mut command = Command::new(env::current_exe().unwrap());
        let mut child = command.arg("save").arg(&path).stdout(Stdio::piped()).spawn().unwrap();
        thread::sleep(Duration::from_micros(1000 + generator.below(100_000)));
        child.kill().unwrap();
        let status = child.wait().unwrap();
        assert!(status.success() || status.signal() == Some(SIGKILL), "{status}");
        let (taken_up, saved) = said(&mut child);
        assert!(taken_up.is_none_or(|positions| positions == there), "taken up {taken_up:?} of {there}");
        let least = saved.unwrap_or(there);
        if length() > 0 {
            there = check(&path);
        }
        assert!(there >= least, "{least} positions were saved, and {there} are there");
        ahead += u32::from(there > least);
        killed += u32::from(!status.success());
        cut_by_kill += u32::from(length() != before && length() > settings().sizes().file_len(there));
        if status.success() {
            assert_eq!(there, 2048);
            fs::remove_file(&path).unwrap();
            (ends, there) = (ends + 1, 0);
        } else if there > 0 && there < 2048 && generator.below(2) == 0 {
            cut_record(&path, there, &mut generator);
            assert_eq!(check(&path), there);
            cut += 1;
        }
    }
    fs::remove_dir_all(&folder).unwrap();
    println!(
        "killed {killed} times; {ends} files filled, {cut_by_kill} records cut by a kill and {cut} afterwards, {ahead} times more in the \
         file than was said"
    );
}
