// What may happen to the file of a session: a second session, a link, a file that is removed, replaced or moved, one that was being
// begun, one that is damaged, what is no file, and settings that no call can use.

mod common;

use common::Place;
use klaverdomp::session_file::{append, begin, Damage, Sizes};
use klaverdomp::{saved_in, SaveError, SaveFault, SavedSession, Session, Settings};
use std::fs;
use std::os::unix::fs::symlink;
use std::path::Path;
use std::process::Command;
use std::sync::mpsc;
use std::thread;
use std::time::Duration;

fn settings() -> Settings {
    Settings::new(1, 1, 1)
}

/// Feeds one position.
fn feed(saved: &mut SavedSession, number: f32) {
    saved.append(&[1.0], &[number], &[number], &mut [0.0]).unwrap();
}

fn begun(path: &Path) -> SavedSession {
    let mut saved = SavedSession::open(settings(), path).unwrap();
    feed(&mut saved, 1.0);
    assert_eq!(saved.save().unwrap(), 1);
    saved
}

/// The error names the file as the caller did, and then says this.
fn says<T>(answer: Result<T, SaveError>, path: &Path, words: &str) -> SaveFault {
    let error = answer.err().expect("an error");
    let text = error.to_string();
    assert!(text.starts_with(&format!("{}: ", path.display())) && text.contains(words), "{text} has not {words}");
    assert_eq!(error.path, path);
    error.fault
}

fn locked<T>(answer: Result<T, SaveError>, path: &Path) {
    assert!(matches!(says(answer, path, "another session has this file open"), SaveFault::Locked));
}

#[test]
fn a_second_session_is_kept_out() {
    let place = Place::new("second");
    let path = &place.file();
    let first = begun(path);
    let before = fs::read(path).unwrap();
    let (soft, hard) = (&place.0.join("soft"), &place.0.join("hard"));
    symlink(path, soft).unwrap();
    fs::hard_link(path, hard).unwrap();
    for name in [path, soft, hard, &place.0.join("../").join(place.0.file_name().unwrap()).join("session")] {
        locked(SavedSession::open(settings(), name), name);
        locked(SavedSession::begin_anew(settings(), name), name);
        locked(first.session().save_to(name), name);
        assert_eq!(fs::read(path).unwrap(), before);
        // to read needs no lock
        assert_eq!(Session::resume(settings(), name).unwrap().len(), 1);
        assert_eq!(saved_in(name).unwrap().0.positions, 1);
    }
    drop(first);
    assert_eq!(SavedSession::open(settings(), soft).unwrap().saved(), 1);
    assert!(fs::symlink_metadata(soft).unwrap().is_symlink());
    assert_eq!(SavedSession::begin_anew(settings(), path).unwrap().saved(), 0);
    assert_eq!(fs::read(path).unwrap(), before[..14]);
}

/// Saves a position, changes something, and fails to save the next one; the session saves it elsewhere.
fn gone_after(name: &str, change: impl Fn(&Place)) -> (Place, SavedSession) {
    let place = Place::new(name);
    let mut saved = begun(&place.file());
    change(&place);
    for number in [2.0, 3.0] {
        feed(&mut saved, number);
        assert!(matches!(says(saved.save(), &place.file(), "is not at this path any more"), SaveFault::Gone));
        assert_eq!(saved.saved(), 1);
    }
    fs::create_dir_all(&place.0).unwrap();
    let other = place.0.join("other");
    assert_eq!(saved.session().save_to(&other).unwrap(), 3);
    assert_eq!(Session::resume(settings(), other).unwrap().keys(), [1.0, 2.0, 3.0]);
    (place, saved)
}

#[test]
fn a_file_that_is_removed_is_missed() {
    gone_after("removed", |place| fs::remove_file(place.file()).unwrap());
}

#[test]
fn a_file_that_is_replaced_is_missed_and_left() {
    let copy = |place: &Place| {
        fs::copy(place.file(), place.0.join("copy")).unwrap();
        fs::rename(place.0.join("copy"), place.file()).unwrap();
    };
    let (place, _saved) = gone_after("replaced", copy);
    assert_eq!(saved_in(place.file()).unwrap().0.positions, 1);
}

#[test]
fn a_link_that_is_turned_is_missed() {
    let place = Place::new("turned");
    let (path, link) = (&place.file(), &place.0.join("link"));
    symlink(path, link).unwrap();
    let mut saved = begun(link);
    fs::remove_file(link).unwrap();
    symlink(place.0.join("nowhere"), link).unwrap();
    feed(&mut saved, 2.0);
    assert!(matches!(says(saved.save(), link, "not at this path"), SaveFault::Gone));
    // turned back, it is the file that is open
    fs::remove_file(link).unwrap();
    symlink(path, link).unwrap();
    assert_eq!(saved.save().unwrap(), 2);
    assert_eq!(Session::resume(settings(), path).unwrap().len(), 2);
}

#[test]
fn a_folder_that_is_moved_is_missed() {
    let place = Place::new("moved");
    let (here, there) = (place.0.join("here"), place.0.join("there"));
    fs::create_dir(&here).unwrap();
    let mut saved = begun(&here.join("session"));
    feed(&mut saved, 2.0);
    fs::rename(&here, &there).unwrap();
    assert!(matches!(says(saved.save(), &here.join("session"), "not at this path"), SaveFault::Gone));
    fs::write(&here, "a file where the folder was").unwrap();
    assert!(matches!(says(saved.save(), &here.join("session"), "not at this path"), SaveFault::Gone));
    fs::remove_file(&here).unwrap();
    fs::rename(&there, &here).unwrap();
    assert_eq!(saved.save().unwrap(), 2);
}

#[test]
fn a_file_that_was_being_begun_is_begun_anew() {
    let place = Place::new("being-begun");
    let path = &place.file();
    let mut first = [0; 14];
    begin(&mut first, &settings().sizes()).unwrap();
    for length in 0..14 {
        fs::write(path, &first[..length]).unwrap();
        assert_eq!(SavedSession::open(settings(), path).unwrap().saved(), 0);
        assert_eq!(fs::read(path).unwrap(), first);
        // any other bytes stay
        for at in 0..length {
            let mut other = first[..length].to_vec();
            other[at] ^= 2;
            fs::write(path, &other).unwrap();
            let fault = says(SavedSession::open(settings(), path), path, "refusal 11: ");
            assert!(matches!(fault, SaveFault::Refused(Damage { sound: None, .. })));
            assert_eq!(fs::read(path).unwrap(), other);
        }
    }
    // of other sizes: cut, and not ours
    fs::write(path, &first[..9]).unwrap();
    says(SavedSession::open(Settings::new(2, 2, 1), path), path, "the first record is cut after 9 of 14 bytes");
    assert_eq!(fs::read(path).unwrap(), first[..9]);
}

#[test]
fn settings_that_no_call_can_use_make_no_file() {
    let place = Place::new("unusable");
    let path = &place.file();
    let unusable = [
        (Settings::new(4, 3, 1), "refusal 2: ", "4 query heads, 3 key heads"),
        (Settings::new(33, 1, 1), "refusal 1: ", "the number of query heads is 33"),
        (settings().with_batches(9), "refusal 1: ", "the batch is 9"),
        (Settings::new(1, 1, 257), "refusal 1: ", "the head size is 257"),
        (settings().with_rank(5), "refusal 3: ", "the rank is 5"),
        (settings().with_scale(0.0), "refusal 3: ", "the scale is 0"),
        (settings().with_softcap(-1.0), "refusal 3: ", "the softcap is -1"),
    ];
    for (unusable, number, words) in unusable {
        for _ in 0..2 {
            let before = fs::read(path).ok();
            for answer in [SavedSession::open(unusable, path).err(), SavedSession::begin_anew(unusable, path).err()] {
                says(answer.map_or(Ok(()), Err), path, number);
            }
            says(Session::new(unusable).save_to(path), path, words);
            says(Session::resume(unusable, path), path, words);
            assert_eq!(fs::read(path).ok(), before);
            SavedSession::open(settings(), path).unwrap();
        }
        fs::remove_file(path).unwrap();
    }
}

#[test]
fn what_is_no_file_is_refused_at_once() {
    let place = Place::new("no-file");
    let pipe = place.0.join("pipe");
    assert!(Command::new("mkfifo").arg(&pipe).status().unwrap().success());
    let things =
        [(pipe, "a pipe"), (place.0.clone(), "a folder"), ("/dev/null".into(), "a device"), ("/dev/zero".into(), "a device")];
    for (path, kind) in things {
        let (done, wait) = mpsc::channel();
        thread::spawn(move || {
            let words = format!("is {kind}, and a saved session is a regular file");
            says(SavedSession::open(settings(), &path), &path, &words);
            says(SavedSession::begin_anew(settings(), &path), &path, &words);
            says(Session::new(settings()).save_to(&path), &path, &words);
            says(Session::resume(settings(), &path), &path, &words);
            says(saved_in(&path), &path, &words);
            done.send(()).unwrap();
        });
        wait.recv_timeout(Duration::from_secs(20)).unwrap_or_else(|_| panic!("{kind}"));
    }
}

/// A file of so many positions, all sizes 1.
fn file(positions: usize) -> Vec<u8> {
    let sizes = Sizes { batches: 1, kv_heads: 1, size: 1, v_size: 1 };
    let rows = vec![1.0; positions];
    let mut file = vec![0; sizes.file_len(positions as u64)];
    begin(&mut file, &sizes).unwrap();
    append(&mut file, 14, positions as u64, &rows, &rows).unwrap();
    file
}

#[test]
fn damage_in_words() {
    let changed = |at: usize, bytes: &[u8]| {
        let mut file = file(3);
        file[at..at + bytes.len()].copy_from_slice(bytes);
        file
    };
    let sound = |positions: u64, used: usize| {
        let sizes = "batch 1, key heads 1, head size 1, value head size 1";
        format!("\n  sound before that: {sizes}, positions {positions}; up to byte {used}\n  the first {used} bytes are a whole file: ")
    };
    let damaged = [
        (changed(46, &[3]), "refusal 11: byte 42: the record that begins there is of the wrong kind or length", sound(2, 42)),
        (changed(14, &[9]), "refusal 11: byte 14: ", sound(0, 14)),
        (changed(36, &[0x80, 0x7F]), "refusal 9: position 1 has an element that is not a number", sound(1, 28)),
        (
            [&file(2048)[..], &file(1)[14..20]].concat(),
            "refusal 1: a 2,049th position begins at byte 28686, and",
            sound(2048, 28686),
        ),
        (changed(6, &[9]), "refusal 1: the first record has sizes outside their limits: batch 9 (1 to 8), key", "nothing".into()),
        (changed(12, &[1, 1]), "value head size 257 (1 to 256)", "nothing before that is sound: only another copy".into()),
        (Vec::new(), "refusal 11: the file is empty", "begins it".into()),
        (file(0)[..13].to_vec(), "refusal 11: the first record is cut after 13 of 14 bytes", "begins it anew".into()),
        (b"PK\x03\x04 and more bytes".to_vec(), "refusal 11: not a saved session: ", "is it the right file?".into()),
        (b"PK".to_vec(), "refusal 11: not a saved session: ", "right file".into()),
        (changed(4, &[2]), "refusal 11: not a saved session: ", "right file".into()),
    ];
    let place = Place::new("words");
    for (bytes, fault, rest) in damaged {
        let words = Damage::of(&bytes).unwrap().to_string();
        assert!(words.contains(fault) && words.contains(&rest), "{words} has not {fault} and {rest}");
        assert_eq!(words.matches("refusal").count(), 1, "{words}");
        fs::write(place.file(), &bytes).unwrap();
        says(Session::resume(settings(), place.file()), &place.file(), &words);
    }
    assert_eq!(Damage::of(&file(3)), None);
    // what can be done is true
    let damage = Damage::of(&changed(46, &[3])).unwrap();
    fs::write(place.file(), &changed(46, &[3])[..damage.sound.unwrap().used as usize]).unwrap();
    assert_eq!(SavedSession::open(settings(), place.file()).unwrap().saved(), 2);
}
