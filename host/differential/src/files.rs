//! One call of a function of saved sessions, made by the library and by the reference: the answer and every byte and float that is
//! lent must be the same, and a refused call must leave them as they were. Floats are kept as their bits.

use crate::compare::random_side;
use crate::guard::{Region, Side};
use crate::random::Random;
use crate::session_ffi::{self, Lent};

#[derive(Clone, Copy, Debug, PartialEq)]
pub enum Function {
    Inspect,
    Load,
    Begin,
    Append,
}

pub const FUNCTIONS: [Function; 4] = [Function::Inspect, Function::Load, Function::Begin, Function::Append];

/// A call with all that it lends; what its function does not take is empty or 0.
#[derive(Clone, PartialEq)]
pub struct FileCall {
    pub function: Function,
    /// The file, or the buffer.
    pub bytes: Vec<u8>,
    /// The caches, or the rows to be added.
    pub keys: Vec<u32>,
    pub values: Vec<u32>,
    /// The sizes of a begin, or `used` and `count` of an append.
    pub numbers: [u64; 4],
}

/// Place is the byte of refusal 11 or the position of refusal 9. Sizes are for the readers.
#[derive(Clone, Copy, Debug, Default, PartialEq)]
pub struct Answer {
    pub refusal: u64,
    pub place: u64,
    pub sizes: [u64; 4],
    pub positions: u64,
    pub used: u64,
}

impl FileCall {
    pub fn inspect(file: &[u8]) -> FileCall {
        FileCall { function: Function::Inspect, bytes: file.to_vec(), keys: Vec::new(), values: Vec::new(), numbers: [0; 4] }
    }

    pub fn load(file: &[u8], keys: Vec<u32>, values: Vec<u32>) -> FileCall {
        FileCall { function: Function::Load, keys, values, ..FileCall::inspect(file) }
    }

    pub fn begin(buffer: &[u8], sizes: [u64; 4]) -> FileCall {
        FileCall { function: Function::Begin, numbers: sizes, ..FileCall::inspect(buffer) }
    }

    pub fn append(buffer: &[u8], used: u64, count: u64, keys: Vec<u32>, values: Vec<u32>) -> FileCall {
        FileCall { function: Function::Append, keys, values, numbers: [used, count, 0, 0], ..FileCall::inspect(buffer) }
    }

    /// The parameters and the first bytes, for a report.
    pub fn describe(&self) -> String {
        let shown: Vec<String> = self.bytes.iter().take(64).map(|byte| format!("{byte:02X}")).collect();
        format!(
            "{:?}, {} bytes, keys {}, values {}, numbers {:?}; bytes {} ..",
            self.function,
            self.bytes.len(),
            self.keys.len(),
            self.values.len(),
            self.numbers,
            shown.join("")
        )
    }

    /// The first place in which what is lent differs.
    fn difference(&self, other: &FileCall) -> Option<String> {
        fn first<T: PartialEq + std::fmt::LowerHex + Copy>(name: &str, mine: &[T], theirs: &[T]) -> Option<String> {
            let at = (0..mine.len()).find(|&at| mine[at] != theirs[at])?;
            Some(format!("{name}[{at}] is {:x}, not {:x}", mine[at], theirs[at]))
        }
        first("bytes", &self.bytes, &other.bytes)
            .or_else(|| first("keys", &self.keys, &other.keys))
            .or_else(|| first("values", &self.values, &other.values))
    }
}

/// Memory for everything a call lends, each between its own unreadable pages.
pub struct Memory {
    bytes: Region,
    rows: [Region; 2],
    slots: [Region; 7],
}

impl Memory {
    pub fn new() -> Memory {
        let region = |_| Region::new();
        Memory { bytes: Region::new(), rows: std::array::from_fn(region), slots: std::array::from_fn(region) }
    }
}

/// What the library answers, and the call with what is lent as it is then. Every slot holds `unwritten` before.
fn by_library(memory: &mut Memory, call: &FileCall, side: Side, unwritten: u64) -> (Answer, FileCall) {
    let bytes = memory.bytes.place(&call.bytes, side);
    let [keys, values] = &mut memory.rows;
    let (keys, values) = (keys.place(&call.keys, side), values.place(&call.values, side));
    let mut slots = memory.slots.each_mut().map(|region| &mut region.place(&[unwritten], side)[0]);
    let lent = Lent { bytes, keys, values, numbers: call.numbers };
    let refusal = session_ffi::library(call.function, lent, slots.each_mut().map(|slot| &mut **slot));
    let [batches, key_heads, head_size, value_size, positions, used, place] = slots.map(|slot| *slot);
    let reads = matches!(call.function, Function::Inspect | Function::Load);
    let sizes = if reads { [batches, key_heads, head_size, value_size] } else { [0; 4] };
    let after = FileCall { bytes: bytes.to_vec(), keys: keys.to_vec(), values: values.to_vec(), ..*call };
    (Answer { refusal: refusal.into(), place, sizes, positions, used }, after)
}

/// The same by the reference, on copies.
pub fn by_reference(call: &FileCall) -> (Answer, FileCall) {
    let mut after = call.clone();
    let lent = Lent { bytes: &mut after.bytes, keys: &mut after.keys, values: &mut after.values, numbers: call.numbers };
    (session_ffi::reference(call.function, lent), after)
}

/// Makes the call by both and compares. The outcome is what the library answered and left.
pub fn compare(memory: &mut Memory, call: &FileCall, random: &mut Random) -> Result<(Answer, FileCall), String> {
    let (answer, after) = by_library(memory, call, random_side(random), random.bits64());
    let (expected, left) = by_reference(call);
    let fault = if answer != expected {
        Some(format!("the library answered {answer:?}, the reference {expected:?}"))
    } else if answer.refusal != 0 {
        after.difference(call).map(|text| format!("a refused call wrote: {text}"))
    } else {
        after.difference(&left)
    };
    match fault {
        Some(text) => Err(format!("{text}\n  {}", call.describe())),
        None => Ok((answer, after)),
    }
}
