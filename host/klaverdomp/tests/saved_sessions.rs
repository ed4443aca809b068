// Saved sessions: the bytes of a file, what is refused and in which words, and that a session that is saved, stopped and taken up goes
// on with the bits of one that was never stopped.

mod common;

use common::{bits, Generator, Place};
use klaverdomp::session_file::{append, begin, inspect, load, Reading, Refusal, Saving, Sizes};
use klaverdomp::{SavedSession, Session, Settings};
use std::fs;
use std::path::Path;

/// One position, all sizes 1, key 1, value 2.
const EXAMPLE: [u8; 28] = [8, 0, 0, 0, 1, 0, 1, 0, 1, 0, 1, 0, 1, 0, 8, 0, 0, 0, 2, 0, 0, 0, 0x80, 0x3F, 0, 0, 0, 0x40];
const ONES: Sizes = Sizes { batches: 1, kv_heads: 1, size: 1, v_size: 1 };

fn settings() -> Settings {
    Settings::new(4, 2, 5).with_value_size(3).with_batches(2).with_rank(3)
}

/// The rows of so many positions, as one chunk.
fn chunk(settings: &Settings, positions: u64, generator: &mut Generator) -> [Vec<f32>; 3] {
    let rows = |heads: u64, size: u64| (settings.batches * positions * heads * size) as usize;
    [(settings.q_heads, settings.size), (settings.kv_heads, settings.size), (settings.kv_heads, settings.v_size)]
        .map(|(heads, size)| generator.tensor(rows(heads, size)))
}

/// Feeds a chunk and gives the bits of the output.
fn feed(session: &mut Session, chunk: &[Vec<f32>; 3]) -> Vec<u32> {
    let s = *session.settings();
    let [query, key, value] = chunk;
    let mut out = vec![0.0; query.len() / s.size as usize * s.v_size as usize];
    session.append(query, key, value, &mut out).unwrap();
    bits(&out)
}

fn fed(settings: Settings, chunks: &[[Vec<f32>; 3]]) -> Session {
    let mut session = Session::new(settings);
    chunks.iter().for_each(|chunk| drop(feed(&mut session, chunk)));
    session
}

fn same(a: &Session, b: &Session) -> bool {
    (a.len(), bits(a.keys()), bits(a.values())) == (b.len(), bits(b.keys()), bits(b.values()))
}

#[test]
fn a_file_has_the_bytes_of_the_example() {
    let mut buffer = [0xEE; 30];
    assert_eq!(begin(&mut buffer, &ONES), Ok(Saving { positions: 0, used: 14 }));
    assert_eq!((&buffer[..14], &buffer[14..]), (&EXAMPLE[..14], &[0xEE; 16][..]));
    assert_eq!(append(&mut buffer, 14, 1, &[1.0], &[2.0]), Ok(Saving { positions: 1, used: 28 }));
    assert_eq!((&buffer[..28], &buffer[28..]), (&EXAMPLE[..], &[0xEE; 2][..]));
    for cut in 0..=28 {
        let (mut keys, mut values) = (vec![-7.0; usize::from(cut == 28)], vec![-7.0; usize::from(cut == 28)]);
        let found = load(&EXAMPLE[..cut], &mut keys, &mut values);
        assert_eq!(found, inspect(&EXAMPLE[..cut]));
        match cut {
            0..=13 => assert_eq!(found, Err(Refusal { number: 11, place: 0 })),
            14..=27 => assert_eq!(found, Ok(Reading { sizes: ONES, positions: 0, used: 14 })),
            _ => assert_eq!((found, keys, values), (Ok(Reading { sizes: ONES, positions: 1, used: 28 }), vec![1.0], vec![2.0])),
        }
    }
}

#[test]
fn refusals_in_words() {
    let file = |at: usize, bytes: &[u8]| {
        let mut file = [&EXAMPLE[..], &EXAMPLE[14..]].concat();
        file[at..at + bytes.len()].copy_from_slice(bytes);
        inspect(&file).unwrap_err().to_string()
    };
    assert_eq!(file(4, &[2]), "refusal 11: byte 0: the first record is missing, cut or of the wrong kind or length");
    assert_eq!(file(33, &[1]), "refusal 11: byte 28: the record that begins there is of the wrong kind or length");
    assert!(file(6, &[9]).starts_with("refusal 1: a size is outside its limits (batch 1 to 8"));
    assert_eq!(file(40, &[0x80, 0x7F]), "refusal 9: position 1 has an element that is not a number of magnitude at most 65,536");
    let mut buffer = EXAMPLE;
    let mut add = |count: u64, keys: &[f32]| append(&mut buffer, 28, count, keys, &[2.0]).unwrap_err().to_string();
    assert_eq!(add(1, &[]), "refusal 5: the keys or values to be added have the wrong length");
    assert_eq!(add(1, &[1.0]), "refusal 16: the buffer is too small");
    assert!(add(u64::MAX, &[]).starts_with("refusal 1: "));
    assert_eq!(
        load(&EXAMPLE, &mut [], &mut [0.0]).unwrap_err().to_string(),
        "refusal 6: a cache to be filled has the wrong length"
    );
    assert_eq!(begin(&mut [], &Sizes::default()), Err(Refusal { number: 1, place: 0 }));
    assert_eq!(begin(&mut [0; 13], &ONES), Err(Refusal { number: 16, place: 0 }));
}

#[test]
fn lengths_of_any_sizes_do_not_overflow() {
    let sizes = Sizes { batches: 8, kv_heads: 32, size: 256, v_size: 255 };
    assert_eq!((sizes.keys_len(3), sizes.values_len(3)), (8 * 32 * 3 * 256, 8 * 32 * 3 * 255));
    assert_eq!((sizes.record_len(), sizes.file_len(3)), (6 + 4 * 256 * 511, 14 + 3 * (6 + 4 * 256 * 511)));
    let huge = Sizes { batches: u64::MAX, kv_heads: u64::MAX, size: u64::MAX, v_size: 1 };
    assert_eq!((huge.keys_len(2), huge.record_len(), huge.file_len(u64::MAX)), (usize::MAX, usize::MAX, usize::MAX));
}

#[test]
fn a_session_taken_up_goes_on_with_the_same_bits() {
    let mut generator = Generator::new(4);
    let capped = settings().with_softcap(0.5).with_scale(0.7);
    for settings in [settings(), capped, Settings::new(1, 1, 1), Settings::new(2, 1, 3).with_value_size(7)] {
        let place = Place::new("taken-up");
        let chunks: Vec<_> = [3, 1, 1, 7, 2].map(|len| chunk(&settings, len, &mut generator)).into();
        let mut never_stopped = Session::new(settings);
        for chunk in &chunks {
            let expected = feed(&mut never_stopped, chunk);
            let mut session = match place.file().exists() {
                true => Session::resume(settings, place.file()).unwrap(),
                false => Session::new(settings),
            };
            assert_eq!(feed(&mut session, chunk), expected);
            assert_eq!(session.save_to(place.file()).unwrap(), never_stopped.len());
            assert!(same(&session, &never_stopped));
        }
        // the file is the one that the library writes at once
        let sizes = settings.sizes();
        let mut whole = vec![0; sizes.file_len(never_stopped.len())];
        begin(&mut whole, &sizes).unwrap();
        append(&mut whole, 14, never_stopped.len(), never_stopped.keys(), never_stopped.values()).unwrap();
        assert_eq!(fs::read(place.file()).unwrap(), whole);
    }
}

#[test]
fn every_cut_of_a_file_is_taken_up() {
    let settings = Settings::new(2, 2, 1);
    let chunks: Vec<_> = [2, 1].map(|len| chunk(&settings, len, &mut Generator::new(len))).into();
    let session = fed(settings, &chunks);
    let place = Place::new("cuts");
    session.save_to(place.file()).unwrap();
    let whole = fs::read(place.file()).unwrap();
    for cut in 0..=whole.len() {
        fs::write(place.file(), &whole[..cut]).unwrap();
        if cut < 14 {
            // what a stop leaves of a first record: begun anew, where it is opened to be saved
            assert!(Session::resume(settings, place.file()).unwrap_err().to_string().contains("refusal 11"));
            assert_eq!(fs::read(place.file()).unwrap(), whole[..cut]);
            assert_eq!(SavedSession::open(settings, place.file()).unwrap().saved(), 0);
            assert_eq!(fs::read(place.file()).unwrap(), whole[..14]);
            fs::write(place.file(), &whole[..cut]).unwrap();
        } else {
            let positions = ((cut - 14) / settings.sizes().record_len()) as u64;
            assert_eq!(Session::resume(settings, place.file()).unwrap().len(), positions);
            // nothing to add: what is cut goes
            let mut saved = SavedSession::open(settings, place.file()).unwrap();
            assert_eq!((saved.saved(), saved.save().unwrap()), (positions, positions));
            assert_eq!(fs::read(place.file()).unwrap(), whole[..settings.sizes().file_len(positions)]);
            drop(saved);
            fs::write(place.file(), &whole[..cut]).unwrap();
        }
        assert_eq!(session.save_to(place.file()).unwrap(), 3);
        assert_eq!(fs::read(place.file()).unwrap(), whole);
    }
}

#[test]
fn a_saved_session_writes_what_is_new() {
    let settings = Settings::new(2, 1, 3);
    let mut generator = Generator::new(9);
    let place = Place::new("new");
    let mut saved = SavedSession::open(settings, place.file()).unwrap();
    assert_eq!((saved.saved(), fs::read(place.file()).unwrap().len()), (0, 14));
    let mut never_stopped = Session::new(settings);
    for turn in 1..=12 {
        let rows = chunk(&settings, 1, &mut generator);
        let mut out = vec![0.0; 6];
        match turn % 3 {
            0 => saved.append(&rows[0], &rows[1], &rows[2], &mut out).unwrap(),
            _ => saved.step(&rows[0], &rows[1], &rows[2], &mut out).unwrap(),
        };
        assert_eq!(bits(&out), feed(&mut never_stopped, &rows));
        if turn % 2 == 0 {
            assert_eq!((saved.saved(), saved.save().unwrap(), saved.saved()), (turn - 2, turn, turn));
        }
        if turn == 6 {
            drop(saved);
            saved = SavedSession::open(settings, place.file()).unwrap();
        }
    }
    assert!(same(saved.session(), &never_stopped));
    assert!(same(&Session::resume(settings, place.file()).unwrap(), &never_stopped));
    // a refused chunk leaves the session and the file
    let bytes = fs::read(place.file()).unwrap();
    assert_eq!(saved.step(&[f32::NAN; 6], &[1.0; 3], &[1.0; 3], &mut [0.0; 6]).unwrap_err().number, 9);
    assert_eq!((saved.save().unwrap(), fs::read(place.file()).unwrap()), (12, bytes));
    // a file that someone else has cut is not written
    fs::write(place.file(), &EXAMPLE[..14]).unwrap();
    assert!(saved.save().unwrap_err().to_string().contains("shorter"));
    assert_eq!(fs::read(place.file()).unwrap(), EXAMPLE[..14]);
}

#[test]
fn more_than_a_part_is_written() {
    let settings = Settings::new(1, 1, 64);
    let place = Place::new("parts");
    let session = fed(settings, &[chunk(&settings, 2048, &mut Generator::new(1))]);
    assert!(settings.sizes().file_len(2048) > 1 << 20);
    assert_eq!(session.save_to(place.file()).unwrap(), 2048);
    assert!(same(&Session::resume(settings, place.file()).unwrap(), &session));
    assert_eq!(session.save_to(place.file()).unwrap(), 2048);
}

/// The file is not taken, in these words, and keeps its bytes.
fn not_taken(path: &Path, session: &Session, words: &str) {
    let before = fs::read(path).unwrap();
    let error = session.save_to(path).unwrap_err().to_string();
    assert!(error.contains(words), "{error} has not {words}");
    assert_eq!(fs::read(path).unwrap(), before);
}

#[test]
fn files_that_are_not_taken() {
    let (settings, place) = (settings(), Place::new("not-taken"));
    let path = &place.file();
    let chunks: Vec<_> = [4, 2].map(|len| chunk(&settings, len, &mut Generator::new(len))).into();
    let session = fed(settings, &chunks);
    let resume = |settings| Session::resume(settings, path).unwrap_err().to_string();
    assert!(resume(settings).contains("No such file"));
    assert!(session.save_to(place.0.join("no/session")).unwrap_err().to_string().contains("No such file"));
    session.save_to(path).unwrap();
    let (whole, record) = (fs::read(path).unwrap(), settings.sizes().record_len());

    let words =
        "the file is of other sizes (batch 2, key heads 2, head size 5, value head size 3) than the session (batch 2, key heads \
                 2, head size 5, value head size 4)";
    not_taken(path, &Session::new(settings.with_value_size(4)), words);
    for other in [settings.with_batches(1), Settings { kv_heads: 4, ..settings }, Settings { size: 4, ..settings }] {
        assert!(resume(other).contains("other sizes"));
        assert!(SavedSession::open(other, path).unwrap_err().to_string().contains("other sizes"));
    }
    not_taken(path, &Session::new(settings.with_batches(9)), "refusal 1: ");
    // the file has more than the session, or something else
    not_taken(path, &fed(settings, &chunks[..1]), "position 4 of the file is not that of the session");
    not_taken(path, &fed(settings, &[chunks[1].clone(), chunks[0].clone()]), "position 0 of the file");
    let mut damaged = whole.clone();
    damaged[14 + 3 * record + 6] ^= 1;
    fs::write(path, &damaged).unwrap();
    not_taken(path, &session, "position 3 of the file is not that of the session");
    damaged[14 + 3 * record + 9] = 0x7F;
    fs::write(path, &damaged).unwrap();
    not_taken(path, &session, "refusal 9: position 3 has an element");
    damaged[14 + 2 * record] ^= 0x80;
    fs::write(path, &damaged).unwrap();
    not_taken(path, &session, &format!("refusal 11: byte {}: the record that begins there", 14 + 2 * record));
    assert!(resume(settings).contains("refusal 11: byte"));
}

#[test]
fn an_empty_session_begins_a_file() {
    let place = Place::new("empty");
    for empty_file in [false, true] {
        if empty_file {
            fs::write(place.file(), []).unwrap();
        }
        assert_eq!(Session::new(Settings::new(1, 1, 1)).save_to(place.file()).unwrap(), 0);
        assert_eq!(fs::read(place.file()).unwrap(), EXAMPLE[..14]);
        assert!(Session::resume(Settings::new(5, 1, 1), place.file()).unwrap().is_empty());
        fs::remove_file(place.file()).unwrap();
    }
}
