// The recording of the demonstration: made by a fixed rule, and attended to whole, in chunks, and saved and taken up.

use super::NamedFile;
use crate::{say, Failure};
use klaverdomp::{attention, explain, Buffers, Call, Inputs, Outputs};
use klaverdomp::{Done, Refusal, SaveError, SaveFault, SavedSession, Session, Settings};
use std::fs::{File, TryLockError};
use std::path::Path;

pub const POSITIONS: usize = 48;
pub const Q_HEADS: usize = 4;
pub const KV_HEADS: usize = 2;
pub const SIZE: usize = 16;

/// Ways to cut the recording into chunks.
fn cuts() -> Vec<(&'static str, Vec<usize>)> {
    vec![
        ("one chunk", vec![48]),
        ("6 chunks of 8", vec![8; 6]),
        ("48 decode steps", vec![1; 48]),
        ("prefill of 30, 18 decode steps", [vec![30], vec![1; 18]].concat()),
        ("uneven: 13, 7, 1, 16, 2, 9", vec![13, 7, 1, 16, 2, 9]),
    ]
}

/// Query, key and value of a chunk, and the answer to it.
type Chunk = [Vec<f32>; 3];
type Answer = Result<Done, Refusal>;

/// One plain causal call over the recording, with its weights.
pub struct Whole {
    softcap: f32,
    buffers: Buffers,
}

impl Whole {
    pub fn label(&self) -> String {
        if self.softcap == 0.0 {
            "no score cap".to_string()
        } else {
            format!("a score cap of {}", self.softcap)
        }
    }

    pub fn weights(&self, head: usize) -> &[f32] {
        &self.buffers.scores[head * POSITIONS * POSITIONS..][..POSITIONS * POSITIONS]
    }
}

/// Q, K and V, (1, heads, positions, size).
pub struct Recording {
    query: Vec<f32>,
    key: Vec<f32>,
    value: Vec<f32>,
}

/// The sounds of the recording, each with the number of positions that it lasts.
const SOUNDS: [(usize, usize); 10] = [(0, 5), (1, 4), (2, 6), (0, 4), (3, 5), (1, 6), (2, 4), (4, 5), (0, 5), (3, 4)];

impl Recording {
    /// Keys of the same sound are alike, and a query looks for its own sound (heads 0, 1) or the one before it (heads 2, 3);
    /// even heads prefer recent positions.
    pub fn make() -> Recording {
        let mut noise = Noise(2024);
        let mut sounds = Vec::new();
        let mut before = Vec::new();
        for (n, (sound, lasts)) in SOUNDS.iter().enumerate() {
            sounds.extend(vec![*sound; *lasts]);
            before.extend(vec![SOUNDS[n.saturating_sub(1)].0; *lasts]);
        }
        let features: Vec<f32> = (0..KV_HEADS * 5 * SIZE).map(|_| noise.next()).collect();
        let feature = |head: usize, sound: usize, k: usize| features[(head * 5 + sound) * SIZE + k];
        let (mut query, mut key, mut value) = (Vec::new(), Vec::new(), Vec::new());
        for h in 0..Q_HEADS {
            let wanted = if h < 2 { &sounds } else { &before };
            let recent = if h % 2 == 0 { 4.0 } else { 0.0 };
            for sound in wanted {
                query.extend((0..SIZE - 1).map(|k| 1.5 * feature(h / 2, *sound, k) + 0.3 * noise.next()));
                query.push(recent);
            }
        }
        for h in 0..KV_HEADS {
            for (position, sound) in sounds.iter().enumerate() {
                key.extend((0..SIZE - 1).map(|k| 1.5 * feature(h, *sound, k) + 0.3 * noise.next()));
                key.push(position as f32 / 16.0);
                value.extend((0..SIZE).map(|_| noise.next()));
            }
        }
        Recording { query, key, value }
    }

    pub fn whole(&self, softcap: f32) -> Result<Whole, Failure> {
        let call = Call::plain(POSITIONS as u64, POSITIONS as u64).with_heads(Q_HEADS as u64, KV_HEADS as u64);
        let call = call.with_size(SIZE as u64).with_causal().with_softcap(softcap).with_scores(3);
        let inputs = Inputs { query: &self.query, key: &self.key, value: &self.value, ..Inputs::default() };
        let mut buffers = Buffers::new(&call);
        attention(&call, &inputs, &mut buffers.lend())
            .map_err(|refusal| Failure::Refused(explain(&call, &inputs, &Outputs::default(), &refusal)))?;
        Ok(Whole { softcap, buffers })
    }

    /// How many outputs a plain call gives.
    pub fn outputs(&self) -> usize {
        self.query.len()
    }

    /// Says for each way to cut the recording, and for a saved session, how many outputs have the bits of the whole call; whether all
    /// do, and the caches too.
    pub fn compare(&self, whole: &Whole, file: &NamedFile) -> Result<bool, Failure> {
        let expected = &whole.buffers.output;
        let mut all = Vec::new();
        for (name, chunks) in cuts() {
            all.push((name, self.in_chunks(whole.softcap, &chunks)?));
        }
        all.push(("chunks of 5, saved and taken up", self.saved(whole.softcap, file)?));
        let mut same = true;
        for (name, (outputs, caches)) in all {
            let agree = outputs.iter().zip(expected).filter(|(a, b)| a.to_bits() == b.to_bits()).count();
            same &= agree == expected.len() && caches;
            let caches = if caches { "the caches too" } else { "the caches do not" };
            say(&format!("  {name:<34} {agree} of {} outputs have the same bits, {caches}\n", expected.len()))?;
        }
        Ok(same)
    }

    /// The outputs of the chunks, put together, and whether the session's caches then have the bits of all keys and values.
    fn in_chunks(&self, softcap: f32, chunks: &[usize]) -> Result<(Vec<f32>, bool), Failure> {
        let mut session = Session::new(settings(softcap));
        let mut outputs = vec![0.0; self.query.len()];
        for len in chunks {
            let start = session.len() as usize;
            self.feed(|[q, k, v], out| session.append(q, k, v, out), start, *len, &mut outputs)?;
        }
        Ok((outputs, self.caches_agree(&session)))
    }

    /// The same of a session that is saved after every chunk of 5, and after 25 positions is stopped in the middle of a save and taken
    /// up from its file, which is written anew.
    fn saved(&self, softcap: f32, file: &NamedFile) -> Result<(Vec<f32>, bool), Failure> {
        let failed = |error: SaveError| file.failed(error.fault);
        let settings = settings(softcap);
        let mut outputs = vec![0.0; self.query.len()];
        let mut saved = SavedSession::begin_anew(settings, &file.path).map_err(failed)?;
        let mut stopped = false;
        while saved.session().len() < POSITIONS as u64 {
            let start = saved.session().len() as usize;
            self.feed(|[q, k, v], out| saved.append(q, k, v, out), start, 5.min(POSITIONS - start), &mut outputs)?;
            saved.save().map_err(failed)?;
            if saved.saved() == 25 && !stopped {
                drop(saved);
                let half = settings.sizes().file_len(24) + settings.sizes().record_len() / 2;
                cut_file(&file.path, half as u64).map_err(|error| file.failed(error))?;
                saved = SavedSession::open(settings, &file.path).map_err(failed)?;
                stopped = true;
            }
        }
        Ok((outputs, self.caches_agree(saved.session())))
    }

    /// Feeds the positions of the recording from `start` on, and puts their outputs where they belong.
    fn feed(
        &self,
        append: impl FnOnce(&Chunk, &mut [f32]) -> Answer,
        start: usize,
        len: usize,
        outputs: &mut [f32],
    ) -> Result<(), Failure> {
        let chunk = [&self.query, &self.key, &self.value].map(|tensor| cut(tensor, start, len));
        let mut out = vec![0.0; chunk[0].len()];
        append(&chunk, &mut out).map_err(|refusal| Failure::Refused(refusal.to_string()))?;
        for (h, rows) in out.chunks(len * SIZE).enumerate() {
            let at = (h * POSITIONS + start) * SIZE;
            outputs[at..at + rows.len()].copy_from_slice(rows);
        }
        Ok(())
    }

    fn caches_agree(&self, session: &Session) -> bool {
        same_bits(session.keys(), &self.key) && same_bits(session.values(), &self.value)
    }
}

/// Cuts a saved session, as a stop in the middle of a save does, under the lock that all who write it take.
fn cut_file(path: &Path, length: u64) -> Result<(), SaveFault> {
    let file = File::options().write(true).open(path)?;
    file.try_lock().map_err(|error| match error {
        TryLockError::WouldBlock => SaveFault::Locked,
        TryLockError::Error(error) => SaveFault::File(error),
    })?;
    Ok(file.set_len(length)?)
}

fn settings(softcap: f32) -> Settings {
    Settings::new(Q_HEADS as u64, KV_HEADS as u64, SIZE as u64).with_softcap(softcap)
}

/// The rows of some positions, of every head.
fn cut(tensor: &[f32], start: usize, len: usize) -> Vec<f32> {
    tensor.chunks(POSITIONS * SIZE).flat_map(|head| &head[start * SIZE..(start + len) * SIZE]).copied().collect()
}

fn same_bits(a: &[f32], b: &[f32]) -> bool {
    a.len() == b.len() && a.iter().zip(b).all(|(a, b)| a.to_bits() == b.to_bits())
}

/// Numbers from -1 to 1 by a fixed rule.
struct Noise(u32);

impl Noise {
    fn next(&mut self) -> f32 {
        self.0 = self.0.wrapping_mul(1_664_525).wrapping_add(1_013_904_223);
        (self.0 >> 8) as f32 / (1 << 23) as f32 - 1.0
    }
}

#[cfg(test)]
mod tests {
    use super::*;
    use std::fs;

    #[test]
    fn every_cut_covers_the_recording() {
        assert_eq!(SOUNDS.iter().map(|(_, lasts)| lasts).sum::<usize>(), POSITIONS);
        for (name, chunks) in cuts() {
            assert_eq!(chunks.iter().sum::<usize>(), POSITIONS, "{name}");
        }
    }

    #[test]
    fn chunks_have_the_bits_of_the_plain_call() {
        let recording = Recording::make();
        for softcap in [0.0, 2.0] {
            let whole = recording.whole(softcap).ok().unwrap();
            for (_, chunks) in cuts() {
                let (outputs, caches) = recording.in_chunks(softcap, &chunks).ok().unwrap();
                assert!(same_bits(&outputs, &whole.buffers.output) && caches);
            }
            let path = std::env::temp_dir().join(format!("klaverdomp-demo-{}", std::process::id()));
            let file = NamedFile { path: path.clone(), name: String::new() };
            let (outputs, caches) = recording.saved(softcap, &file).ok().unwrap();
            assert!(same_bits(&outputs, &whole.buffers.output) && caches);
            assert_eq!(fs::read(&path).unwrap().len(), settings(softcap).sizes().file_len(POSITIONS as u64));
            fs::remove_file(path).unwrap();
        }
    }

    #[test]
    fn a_cap_makes_the_largest_weights_smaller() {
        let recording = Recording::make();
        let [without, capped] = [0.0, 2.0].map(|softcap| recording.whole(softcap).ok().unwrap());
        for head in 0..Q_HEADS {
            let most =
                |whole: &Whole| whole.weights(head).chunks(POSITIONS).next_back().unwrap().iter().copied().fold(0.0, f32::max);
            assert!(most(&capped) < most(&without), "head {head}");
        }
    }
}
