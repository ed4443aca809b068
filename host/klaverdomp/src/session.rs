//! The KV cache of a recording that comes in chunks.

use crate::session_file::Sizes;
use crate::{attention, before_outputs, check, explain, is_step, step};
use crate::{Call, Done, Inputs, Outputs, Refusal, StepInputs, StepOutputs};

/// What stays the same through a session.
///
/// ```
/// use klaverdomp::Settings;
///
/// let settings = Settings::new(8, 2, 64).with_rank(3);
/// assert_eq!((settings.batches, settings.v_size, settings.scale, settings.softcap), (1, 64, None, 0.0));
/// ```
#[derive(Clone, Copy, Debug, PartialEq)]
pub struct Settings {
    pub rank: u64,
    pub batches: u64,
    pub q_heads: u64,
    pub kv_heads: u64,
    pub size: u64,
    pub v_size: u64,
    pub scale: Option<f32>,
    /// The score cap of every chunk; 0 means none.
    pub softcap: f32,
}

impl Settings {
    /// One batch of rank 4, with so many query heads and key heads, all of one size, the default scale and no cap.
    pub fn new(q_heads: u64, kv_heads: u64, size: u64) -> Settings {
        Settings { rank: 4, batches: 1, q_heads, kv_heads, size, v_size: size, scale: None, softcap: 0.0 }
    }

    pub fn with_rank(self, rank: u64) -> Settings {
        Settings { rank, ..self }
    }

    pub fn with_batches(self, batches: u64) -> Settings {
        Settings { batches, ..self }
    }

    pub fn with_value_size(self, v_size: u64) -> Settings {
        Settings { v_size, ..self }
    }

    pub fn with_scale(self, scale: f32) -> Settings {
        Settings { scale: Some(scale), ..self }
    }

    pub fn with_softcap(self, softcap: f32) -> Settings {
        Settings { softcap, ..self }
    }

    /// Asks the operator whether a call can use these settings: the refusal of number 1 to 3 that every chunk gets, if there is one.
    ///
    /// ```
    /// use klaverdomp::Settings;
    ///
    /// assert!(Settings::new(4, 2, 64).check().is_ok());
    /// assert_eq!(Settings::new(4, 3, 64).check().unwrap_err().number, 2);
    /// ```
    pub fn check(&self) -> Result<(), Refusal> {
        match check(&self.call(0, 1), &Inputs::default()) {
            // the lengths of the tensors, of which there are none yet, are tested after the settings
            Err(refusal) if refusal.number < 5 => Err(refusal),
            _ => Ok(()),
        }
    }

    /// What is wrong with the settings, in words.
    pub(crate) fn explain(&self, refusal: &Refusal) -> String {
        explain(&self.call(0, 1), &Inputs::default(), &Outputs::default(), refusal)
    }

    /// The sizes of the caches.
    pub fn sizes(&self) -> Sizes {
        Sizes { batches: self.batches, kv_heads: self.kv_heads, size: self.size, v_size: self.v_size }
    }

    /// The causal cached call of `len` positions after `past` ones.
    fn call(&self, past: u64, len: u64) -> Call {
        Call {
            scale: self.scale,
            softcap: self.softcap,
            rank: self.rank,
            batches: self.batches,
            q_heads: self.q_heads,
            kv_heads: self.kv_heads,
            size: self.size,
            v_size: self.v_size,
            ..Call::cached(past, len).with_causal()
        }
    }
}

/// A recording in chunks: it keeps keys and values, and each chunk attends, causally, to all positions so far.
///
/// However the positions are cut into chunks, the outputs have the bits of one plain causal call over all of them.
///
/// ```
/// use klaverdomp::{Session, Settings};
///
/// let mut session = Session::new(Settings::new(1, 1, 1).with_scale(1.0));
/// let mut out = [0.0];
/// session.append(&[1.0], &[1.0], &[6.0], &mut out)?;
/// assert_eq!(out, [6.0]);
/// session.append(&[1.0], &[1.0], &[12.0], &mut out)?;
/// assert_eq!(out, [9.0]);
/// assert_eq!((session.len(), session.values()), (2, &[6.0, 12.0][..]));
///
/// // a refused chunk changes nothing
/// assert!(session.append(&[f32::NAN], &[1.0], &[0.0], &mut out).is_err());
/// assert_eq!((session.len(), out), (2, [9.0]));
/// # Ok::<(), klaverdomp::Refusal>(())
/// ```
#[derive(Clone, Debug)]
pub struct Session {
    settings: Settings,
    len: u64,
    keys: Cache,
    values: Cache,
    work: Vec<f32>,
}

/// The entries that a chunk may go through. No chunk of a session has a mask or scores, so a step's tensors are those of both.
#[derive(Clone, Copy)]
enum Entry {
    General,
    Step,
}

impl Entry {
    /// The step entry for the calls that it takes.
    fn of(call: &Call) -> Entry {
        if is_step(call) {
            Entry::Step
        } else {
            Entry::General
        }
    }

    fn answer(self, call: &Call, inputs: StepInputs, mut outputs: StepOutputs) -> Result<Done, Refusal> {
        match self {
            Entry::General => attention(call, &inputs.into(), &mut outputs.into()),
            Entry::Step => step(call, &inputs, &mut outputs),
        }
    }
}

/// Two buffers that change places: one holds the past, the call writes the present into the other.
#[derive(Clone, Debug, Default)]
struct Cache {
    past: Vec<f32>,
    present: Vec<f32>,
}

impl Session {
    /// A session of no positions. Settings outside the limits are refused by the first chunk.
    pub fn new(settings: Settings) -> Session {
        Session { settings, len: 0, keys: Cache::default(), values: Cache::default(), work: Vec::new() }
    }

    /// A session of `len` positions whose caches these are, of the settings' sizes and that length.
    pub(crate) fn from_caches(settings: Settings, len: u64, keys: Vec<f32>, values: Vec<f32>) -> Session {
        let cache = |past| Cache { past, present: Vec::new() };
        Session { len, keys: cache(keys), values: cache(values), ..Session::new(settings) }
    }

    /// One chunk of one or more positions: its queries, keys and values in the layout of the session's rank, and its output.
    ///
    /// How many positions there are is read from the length of `key`. A chunk that [`step`] takes goes through it, any other through
    /// [`attention`]. A refused chunk changes neither the session nor `out`.
    pub fn append(&mut self, query: &[f32], key: &[f32], value: &[f32], out: &mut [f32]) -> Result<Done, Refusal> {
        self.feed(Entry::of, query, key, value, out)
    }

    /// A chunk of one position through [`step`]. Refusal 10 where the chunk has another number of positions, or the session another
    /// rank than 4 or another number of batches than 1; for the rest as [`Session::append`].
    ///
    /// ```
    /// use klaverdomp::{Session, Settings};
    ///
    /// let mut session = Session::new(Settings::new(1, 1, 1).with_scale(1.0));
    /// let mut out = [0.0; 2];
    /// session.append(&[1.0, 1.0], &[1.0, 1.0], &[6.0, 12.0], &mut out)?;
    /// session.step(&[1.0], &[1.0], &[3.0], &mut out[..1])?;
    /// assert_eq!((session.len(), out[0]), (3, 7.0));
    /// assert_eq!(session.step(&[1.0; 2], &[1.0; 2], &[0.0; 2], &mut out).unwrap_err().number, 10);
    /// # Ok::<(), klaverdomp::Refusal>(())
    /// ```
    pub fn step(&mut self, query: &[f32], key: &[f32], value: &[f32], out: &mut [f32]) -> Result<Done, Refusal> {
        self.feed(|_| Entry::Step, query, key, value, out)
    }

    /// The chunk through the entry that is chosen for its call.
    fn feed(
        &mut self,
        choose: fn(&Call) -> Entry,
        query: &[f32],
        key: &[f32],
        value: &[f32],
        out: &mut [f32],
    ) -> Result<Done, Refusal> {
        let row = self.settings.call(0, 1).lengths().key;
        let positions = key.len().checked_div(row).unwrap_or(0);
        let call = self.settings.call(self.len, positions as u64);
        let (entry, lengths) = (choose(&call), call.lengths());
        let inputs = StepInputs {
            query,
            key,
            value,
            past_key: &self.keys.past[..lengths.past_key],
            past_value: &self.values.past[..lengths.past_value],
        };
        before_outputs(entry.answer(&call, inputs, StepOutputs::default()))?;
        // the call is within the limits, and so are the lengths that room is made for
        let full = self.settings.call(0, LONGEST).lengths();
        let outputs = StepOutputs {
            output: out,
            present_key: room(&mut self.keys.present, lengths.present_key, full.present_key),
            present_value: room(&mut self.values.present, lengths.present_value, full.present_value),
            work: room(&mut self.work, lengths.work, full.work),
        };
        let done = entry.answer(&call, inputs, outputs)?;
        self.keys.change_places();
        self.values.change_places();
        self.len = done.total;
        Ok(done)
    }

    /// The positions so far.
    pub fn len(&self) -> u64 {
        self.len
    }

    pub fn is_empty(&self) -> bool {
        self.len == 0
    }

    pub fn settings(&self) -> &Settings {
        &self.settings
    }

    /// The key cache, (B, Hkv, len, D) in both ranks.
    pub fn keys(&self) -> &[f32] {
        &self.keys.past[..self.settings.call(self.len, 0).lengths().past_key]
    }

    /// The value cache, (B, Hkv, len, Dv) in both ranks.
    pub fn values(&self) -> &[f32] {
        &self.values.past[..self.settings.call(self.len, 0).lengths().past_value]
    }

    /// Back to no positions. The buffers stay for the next recording.
    pub fn clear(&mut self) {
        self.len = 0;
    }
}

impl Cache {
    fn change_places(&mut self) {
        std::mem::swap(&mut self.past, &mut self.present);
    }
}

/// The longest recording that the operator takes.
const LONGEST: u64 = 2048;

/// The first `len` elements of a buffer. A buffer that is too short becomes a new one, with room to grow up to `full`; what it
/// held is not kept, since a call writes every element.
fn room(buffer: &mut Vec<f32>, len: usize, full: usize) -> &mut [f32] {
    if buffer.len() < len {
        *buffer = vec![0.0; len.saturating_mul(2).min(full).max(len)];
    }
    &mut buffer[..len]
}
