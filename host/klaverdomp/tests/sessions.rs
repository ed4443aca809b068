// Sessions: however a recording is cut into chunks, its outputs have the bits of one plain causal call.

mod common;

use common::{accepted, bits, Generator};
use klaverdomp::{Call, Done, Inputs, Refusal, Session, Settings};

/// All positions of a recording, and where the rows of a position stand.
#[derive(Clone)]
struct Recording {
    settings: Settings,
    positions: u64,
    query: Vec<f32>,
    key: Vec<f32>,
    value: Vec<f32>,
}

impl Recording {
    fn new(settings: Settings, positions: u64, generator: &mut Generator) -> Recording {
        let lengths = plain(&settings, positions).lengths();
        let query = generator.tensor(lengths.query);
        let key = generator.tensor(lengths.key);
        let value = generator.tensor(lengths.value);
        Recording { settings, positions, query, key, value }
    }

    /// The output of one plain causal call over everything.
    fn whole(&self) -> Vec<f32> {
        let inputs = Inputs { query: &self.query, key: &self.key, value: &self.value, ..Inputs::default() };
        accepted(&plain(&self.settings, self.positions), &inputs).1.output
    }

    fn chunk(&self, start: u64, len: u64) -> [Vec<f32>; 3] {
        let s = &self.settings;
        [
            cut(&self.query, s, s.q_heads, s.size, self.positions, start, len),
            cut(&self.key, s, s.kv_heads, s.size, self.positions, start, len),
            cut(&self.value, s, s.kv_heads, s.v_size, self.positions, start, len),
        ]
    }
}

fn plain(s: &Settings, positions: u64) -> Call {
    let call = Call::plain(positions, positions).with_batches(s.batches).with_heads(s.q_heads, s.kv_heads).with_causal();
    Call { scale: s.scale, softcap: s.softcap, rank: s.rank, size: s.size, v_size: s.v_size, ..call }
}

/// The positions from `start` on, in the same layout.
fn cut(tensor: &[f32], s: &Settings, heads: u64, size: u64, positions: u64, start: u64, len: u64) -> Vec<f32> {
    // in rank 3 a position has the rows of all heads together
    let (outer, row) = if s.rank == 4 { (s.batches * heads, size) } else { (s.batches, heads * size) };
    let part = |n| {
        let first = ((n * positions + start) * row) as usize;
        &tensor[first..first + (len * row) as usize]
    };
    (0..outer).flat_map(part).copied().collect()
}

/// `Session::append` or `Session::step`.
type Feed = fn(&mut Session, &[f32], &[f32], &[f32], &mut [f32]) -> Result<Done, Refusal>;

/// The outputs of the chunks of these lengths, each held to the plain call's.
fn agrees(recording: &Recording, whole: &[f32], chunks: &[u64], session: &mut Session) {
    let chunks: Vec<(u64, Feed)> = chunks.iter().map(|len| (*len, Session::append as Feed)).collect();
    agrees_fed(recording, whole, &chunks, session);
}

fn agrees_fed(recording: &Recording, whole: &[f32], chunks: &[(u64, Feed)], session: &mut Session) {
    let s = &recording.settings;
    let mut start = 0;
    for (len, feed) in chunks {
        let [query, key, value] = recording.chunk(start, *len);
        let mut out = vec![f32::NAN; (s.batches * s.q_heads * len * s.v_size) as usize];
        let done = feed(session, &query, &key, &value, &mut out).expect("the chunk is accepted");
        assert_eq!(done, Done { total: start + len, masked_rows: 0 });
        let expected = cut(whole, s, s.q_heads, s.v_size, recording.positions, start, *len);
        assert_eq!(bits(&out), bits(&expected), "chunk of {len} positions at {start}");
        start += len;
    }
    assert_eq!(session.len(), start);
}

fn random_cut(positions: u64, generator: &mut Generator) -> Vec<u64> {
    let mut left = positions;
    let mut chunks = Vec::new();
    while left > 0 {
        let len = 1 + generator.below(left.min(9));
        chunks.push(len);
        left -= len;
    }
    chunks
}

#[test]
fn every_cut_has_the_bits_of_one_plain_call() {
    let mut generator = Generator::new(3);
    for rank in [3, 4] {
        for (batches, q_heads, kv_heads, size, v_size) in [(1, 1, 1, 1, 1), (2, 4, 2, 5, 3), (1, 6, 1, 16, 16), (3, 2, 2, 8, 9)] {
            let settings = Settings::new(q_heads, kv_heads, size).with_value_size(v_size).with_batches(batches).with_rank(rank);
            for settings in [settings, settings.with_scale(0.7), settings.with_softcap(0.5)] {
                let recording = Recording::new(settings, 23, &mut generator);
                let whole = recording.whole();
                let mut session = Session::new(settings);
                let mut cuts = vec![vec![23], vec![1; 23], vec![22, 1], vec![1, 22], vec![7, 7, 7, 2]];
                cuts.extend((0..4).map(|_| random_cut(23, &mut generator)));
                for cut in cuts {
                    agrees(&recording, &whole, &cut, &mut session);
                    session.clear();
                    assert!(session.is_empty() && session.keys().is_empty() && session.values().is_empty());
                }
            }
        }
    }
}

#[test]
fn steps_have_the_bits_of_one_plain_call() {
    let mut generator = Generator::new(13);
    for (q_heads, kv_heads, size, v_size) in [(1, 1, 1, 1), (4, 2, 5, 3), (6, 1, 16, 16), (2, 2, 8, 9)] {
        let settings = Settings::new(q_heads, kv_heads, size).with_value_size(v_size);
        for settings in [settings, settings.with_scale(0.7), settings.with_softcap(0.5)] {
            let recording = Recording::new(settings, 23, &mut generator);
            let whole = recording.whole();
            let mut session = Session::new(settings);
            let all: Vec<(u64, Feed)> = vec![(1, Session::step); 23];
            let after_prefill = [vec![(9, Session::append as Feed)], vec![(1, Session::step); 14]].concat();
            let mut cuts = vec![all, after_prefill];
            for _ in 0..6 {
                let cut = [random_cut(20, &mut generator), vec![1; 3]].concat();
                let mut fed = |len: u64| -> (u64, Feed) {
                    let stepped = len == 1 && generator.below(3) > 0;
                    (len, if stepped { Session::step } else { Session::append })
                };
                cuts.push(cut.into_iter().map(&mut fed).collect());
            }
            for cut in cuts {
                agrees_fed(&recording, &whole, &cut, &mut session);
                assert_eq!((bits(session.keys()), bits(session.values())), (bits(&recording.key), bits(&recording.value)));
                session.clear();
            }
        }
    }
}

#[test]
fn a_session_keeps_its_cap() {
    let settings = Settings::new(4, 2, 8);
    let recording = Recording::new(settings, 12, &mut Generator::new(21));
    let whole = recording.whole();
    for softcap in [-0.0, f32::from_bits(1), 0.25, 30.0, 65_536.0] {
        let capped = Recording { settings: settings.with_softcap(softcap), ..recording.clone() };
        let (capped_whole, mut session) = (capped.whole(), Session::new(capped.settings));
        assert_eq!(bits(&capped_whole) == bits(&whole), softcap == 0.0, "{softcap:e}");
        agrees(&capped, &capped_whole, &[5, 1, 1, 3, 2], &mut session);
        session.clear();
        agrees_fed(&capped, &capped_whole, &[(1, Session::step as Feed); 12], &mut session);
        assert_eq!(session.settings().softcap.to_bits(), softcap.to_bits());
    }
}

#[test]
fn a_refused_step_leaves_the_session() {
    let settings = Settings::new(4, 2, 8);
    let recording = Recording::new(settings, 8, &mut Generator::new(6));
    let whole = recording.whole();
    let mut session = Session::new(settings);
    agrees(&recording, &whole, &[6], &mut session);
    let (keys, values) = (session.keys().to_vec(), session.values().to_vec());

    let [query, key, value] = recording.chunk(6, 1);
    let [two_queries, two_keys, two_values] = recording.chunk(6, 2);
    let mut bad_key = key.clone();
    bad_key[9] = f32::NAN;
    let mut out = vec![0.25; 2 * query.len()];
    let mut refuse = |query: &[f32], key: &[f32], value: &[f32], len: usize| {
        let refusal = session.step(query, key, value, &mut out[..len]).unwrap_err();
        (refusal.number, refusal.tensor, refusal.index)
    };
    assert_eq!(refuse(&two_queries, &two_keys, &two_values, 64), (10, 0, 0));
    assert_eq!(refuse(&[], &two_keys, &[f32::NAN], 0), (10, 0, 0));
    assert_eq!(refuse(&query, &[], &value, 32), (10, 0, 0));
    assert_eq!(refuse(&query[1..], &key, &value, 32), (5, 0, 0));
    assert_eq!(refuse(&query, &key, &value, 31), (6, 0, 0));
    assert_eq!(refuse(&query, &bad_key, &value, 32), (9, 2, 9));
    assert_eq!(session.len(), 6);
    assert_eq!((bits(session.keys()), bits(session.values())), (bits(&keys), bits(&values)));
    assert!(out.iter().all(|x| *x == 0.25));

    // and the recording goes on as if nothing had been there
    session.step(&query, &key, &value, &mut out[..32]).unwrap();
    assert_eq!(bits(&out[..32]), bits(&cut(&whole, &settings, 4, 8, 8, 6, 1)));
}

#[test]
fn a_session_of_other_settings_is_fed_by_append_alone() {
    for settings in [Settings::new(2, 1, 3).with_rank(3), Settings::new(2, 1, 3).with_batches(2)] {
        let recording = Recording::new(settings, 5, &mut Generator::new(2));
        let mut session = Session::new(settings);
        let [query, key, value] = recording.chunk(0, 1);
        let mut out = vec![0.25; query.len()];
        assert_eq!(session.step(&query, &key, &value, &mut out).unwrap_err().number, 10);
        assert!(session.is_empty() && out.iter().all(|x| *x == 0.25));
        agrees(&recording, &recording.whole(), &[1, 2, 1, 1], &mut session);
    }
}

#[test]
fn caches_hold_all_positions_in_order() {
    let settings = Settings::new(2, 2, 3).with_value_size(2).with_batches(2).with_rank(3);
    let recording = Recording::new(settings, 11, &mut Generator::new(8));
    let mut session = Session::new(settings);
    agrees(&recording, &recording.whole(), &[4, 1, 6], &mut session);
    let in_cache_order = |tensor: &[f32], size: usize| {
        let mut rows = Vec::new();
        for b in 0..2 {
            for h in 0..2 {
                for j in 0..11 {
                    let at = ((b * 11 + j) * 2 + h) * size;
                    rows.extend_from_slice(&tensor[at..at + size]);
                }
            }
        }
        rows
    };
    assert_eq!(bits(session.keys()), bits(&in_cache_order(&recording.key, 3)));
    assert_eq!(bits(session.values()), bits(&in_cache_order(&recording.value, 2)));
}

#[test]
fn a_refused_chunk_changes_nothing() {
    let settings = Settings::new(4, 2, 8);
    let recording = Recording::new(settings, 20, &mut Generator::new(5));
    let whole = recording.whole();
    let mut session = Session::new(settings);
    agrees(&recording, &whole, &[6], &mut session);
    let (keys, values) = (session.keys().to_vec(), session.values().to_vec());

    let [query, key, value] = recording.chunk(6, 3);
    let mut bad_value = value.clone();
    *bad_value.last_mut().unwrap() = f32::INFINITY;
    let mut out = vec![0.25; query.len()];
    let mut refuse = |query: &[f32], key: &[f32], value: &[f32]| session.append(query, key, value, &mut out).unwrap_err().number;
    assert_eq!(refuse(&query, &key, &bad_value), 9);
    assert_eq!(refuse(&query[1..], &key, &value), 5);
    assert_eq!(refuse(&query, &key[1..], &value), 5);
    assert_eq!(refuse(&query, &key, &value[1..]), 5);
    assert_eq!(refuse(&[], &[], &[]), 1);
    assert_eq!(session.append(&query, &key, &value, &mut out[1..]).unwrap_err().number, 6);
    assert_eq!(session.len(), 6);
    assert_eq!((bits(session.keys()), bits(session.values())), (bits(&keys), bits(&values)));
    assert!(out.iter().all(|x| *x == 0.25));

    // and the recording goes on as if nothing had been there
    session.append(&query, &key, &value, &mut out).unwrap();
    assert_eq!(bits(&out), bits(&cut(&whole, &settings, 4, 8, 20, 6, 3)));
}

#[test]
fn a_recording_ends_at_2048_positions() {
    let settings = Settings::new(1, 1, 1);
    let mut session = Session::new(settings);
    let mut out = vec![0.0; 2049];
    let ones = vec![1.0; 2049];
    assert_eq!(session.append(&ones, &ones, &ones, &mut out).unwrap_err().number, 1);
    session.append(&ones[..2047], &ones[..2047], &ones[..2047], &mut out[..2047]).unwrap();
    assert_eq!(session.append(&ones[..2], &ones[..2], &ones[..2], &mut out[..2]).unwrap_err().number, 1);
    session.append(&ones[..1], &ones[..1], &ones[..1], &mut out[..1]).unwrap();
    assert_eq!(session.len(), 2048);
    for feed in [Session::append as Feed, Session::step] {
        assert_eq!(feed(&mut session, &ones[..1], &ones[..1], &ones[..1], &mut out[..1]).unwrap_err().number, 1);
    }
}

#[test]
fn settings_of_any_numbers_are_refused_in_order() {
    let mut out = [0.0];
    let mut first = |settings| {
        [Session::append as Feed, Session::step]
            .map(|feed| feed(&mut Session::new(settings), &[1.0], &[1.0], &[1.0], &mut out).unwrap_err().number)
    };
    assert_eq!(first(Settings::new(0, 0, 0)), [1, 10]);
    assert_eq!(first(Settings::new(u64::MAX, u64::MAX, u64::MAX)), [1, 10]);
    assert_eq!(first(Settings::new(1, 2, 1).with_batches(u64::MAX)), [1, 10]);
    assert_eq!(first(Settings::new(3, 1, 1).with_rank(5)), [3, 10]);
    assert_eq!(first(Settings::new(33, 1, 1)), [1, 1]);
    assert_eq!(first(Settings::new(1, 1, 1).with_scale(0.0)), [3, 3]);
    assert_eq!(first(Settings::new(1, 1, 1).with_softcap(-1.0)), [3, 3]);
    assert_eq!(first(Settings::new(33, 1, 1).with_softcap(f32::NAN)), [1, 1]);
}
