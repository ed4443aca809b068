//! Saved sessions as bytes: the KV cache of a session in a form that can be taken up after a stop.
//!
//! A file is a row of records, each a `u32` payload length, a `u16` kind and the payload, little-endian. The first has kind 1 and the
//! sizes B, Hkv, D, Dv as `u16`. Then comes one of kind 2 for each position: for each batch and key head the f32 bits of the key row
//! and then of the value row. A file that is cut after any byte behind its first record gives back exactly the positions that are
//! whole in it.
//!
//! These functions work on bytes in memory. [`crate::SavedSession`], [`crate::Session::save_to`] and [`crate::Session::resume`] are
//! for files.
//!
//! ```
//! use klaverdomp::session_file::{append, begin, inspect, load, Reading, Saving, Sizes};
//!
//! let sizes = Sizes { batches: 1, kv_heads: 1, size: 1, v_size: 1 };
//! let mut buffer = vec![0; sizes.file_len(2)];
//! let begun = begin(&mut buffer, &sizes)?;
//! let saved = append(&mut buffer, begun.used, 2, &[1.0, 3.0], &[2.0, 4.0])?;
//! assert_eq!(saved, Saving { positions: 2, used: 42 });
//! assert_eq!(buffer[14..28], [8, 0, 0, 0, 2, 0, 0, 0, 0x80, 0x3F, 0, 0, 0, 0x40]);
//!
//! // the second position is cut, and the first is whole
//! let reading = inspect(&buffer[..41])?;
//! assert_eq!(reading, Reading { sizes, positions: 1, used: 28 });
//! let (mut keys, mut values) = ([0.0], [0.0]);
//! load(&buffer[..41], &mut keys, &mut values)?;
//! assert_eq!((keys, values), ([1.0], [2.0]));
//! # Ok::<(), klaverdomp::session_file::Refusal>(())
//! ```

use crate::call::product;
use crate::ffi;
use std::error::Error;
use std::fmt;

pub use crate::damage::Damage;

/// The bytes of the first record, and those of every record's length and kind.
pub(crate) const FIRST: usize = 14;
const HEAD: usize = 6;

/// So many bytes of any file decide what [`inspect`] and [`load`] answer: those of 2,048 positions of the greatest sizes and six more. A
/// sound file has fewer.
pub const ENOUGH: u64 = 14 + 2048 * (6 + 4 * 8 * 32 * (256 + 256)) + 6;

/// The sizes of the caches.
#[derive(Clone, Copy, Debug, Default, PartialEq, Eq)]
pub struct Sizes {
    /// B, 1 to 8.
    pub batches: u64,
    /// Hkv, 1 to 32.
    pub kv_heads: u64,
    /// D, the head size of keys, 1 to 256.
    pub size: u64,
    /// Dv, the head size of values, 1 to 256.
    pub v_size: u64,
}

impl Sizes {
    /// The elements of a key cache of so many positions; `usize::MAX` where there are more.
    pub fn keys_len(&self, positions: u64) -> usize {
        product(&[self.batches, self.kv_heads, positions, self.size])
    }

    /// The elements of a value cache of so many positions; `usize::MAX` where there are more.
    pub fn values_len(&self, positions: u64) -> usize {
        product(&[self.batches, self.kv_heads, positions, self.v_size])
    }

    /// The bytes of one position's record.
    pub fn record_len(&self) -> usize {
        self.keys_len(1).saturating_add(self.values_len(1)).saturating_mul(4).saturating_add(HEAD)
    }

    /// The bytes of a file with so many positions; `usize::MAX` where there are more.
    pub fn file_len(&self, positions: u64) -> usize {
        product(&[self.record_len() as u64, positions]).saturating_add(FIRST)
    }
}

impl fmt::Display for Sizes {
    fn fmt(&self, f: &mut fmt::Formatter) -> fmt::Result {
        let Sizes { batches, kv_heads, size, v_size } = self;
        write!(f, "batch {batches}, key heads {kv_heads}, head size {size}, value head size {v_size}")
    }
}

/// What a file holds.
#[derive(Clone, Copy, Debug, Default, PartialEq, Eq)]
pub struct Reading {
    pub sizes: Sizes,
    /// How many positions are whole in the file.
    pub positions: u64,
    /// The byte behind the last whole record; a cut record begins there.
    pub used: u64,
}

/// What a buffer holds after a [`begin`] or an [`append`].
#[derive(Clone, Copy, Debug, Default, PartialEq, Eq)]
pub struct Saving {
    /// How many positions stand whole in the buffer: these are saved.
    pub positions: u64,
    /// The byte behind the last of them: the file is what stands before it.
    pub used: u64,
}

/// Why bytes are not read or written.
#[derive(Clone, Copy, Debug, PartialEq, Eq)]
pub struct Refusal {
    /// 1, 5, 6, 9, 11 or 16.
    pub number: u32,
    /// For 9 the position, from 0, and for 11 the byte at which the record begins. Else 0.
    pub place: u64,
}

impl fmt::Display for Refusal {
    fn fmt(&self, f: &mut fmt::Formatter) -> fmt::Result {
        write!(f, "refusal {}: ", self.number)?;
        let place = self.place;
        match self.number {
            1 => f.write_str(
                "a size is outside its limits (batch 1 to 8, key heads 1 to 32, head sizes 1 to 256), \
                 or there are more than 2,048 positions",
            ),
            5 => f.write_str("the keys or values to be added have the wrong length"),
            6 => f.write_str("a cache to be filled has the wrong length"),
            9 => write!(f, "position {place} has an element that is not a number of magnitude at most 65,536"),
            11 if place == 0 => f.write_str("byte 0: the first record is missing, cut or of the wrong kind or length"),
            11 => write!(f, "byte {place}: the record that begins there is of the wrong kind or length"),
            16 => f.write_str("the buffer is too small"),
            _ => f.write_str("unknown"),
        }
    }
}

impl Error for Refusal {}

/// The sizes of a file, its whole positions and the bytes that they use.
///
/// The fault that comes first in byte order is the refusal: 11 where the first record is missing or cut, or the six bytes of a record's
/// length and kind are there and wrong; 1 where sizes are outside their limits or a 2,049th position begins; 9 where a whole record has
/// an element that is not a number of magnitude at most 65,536.
pub fn inspect(file: &[u8]) -> Result<Reading, Refusal> {
    ffi::session_inspect(file)
}

/// The same, and fills the caches, (B, Hkv, positions, D) and (B, Hkv, positions, Dv). A cache of another length is refusal 6, after
/// every refusal of the file. A refusal leaves the caches as they were.
pub fn load(file: &[u8], keys: &mut [f32], values: &mut [f32]) -> Result<Reading, Refusal> {
    ffi::session_load(file, keys, values)
}

/// Begins a file of these sizes: writes the first 14 bytes of the buffer, of which nothing is looked at, and no others. Refusal 1 for
/// sizes outside their limits, then 16 for a buffer of fewer bytes.
pub fn begin(buffer: &mut [u8], sizes: &Sizes) -> Result<Saving, Refusal> {
    ffi::session_begin(buffer, sizes)
}

/// Adds `count` positions, keys (B, Hkv, count, D) and values (B, Hkv, count, Dv), to the file in the first `used` bytes of the
/// buffer, behind its last whole record; a cut record is written over. Bytes behind the new end stay as they were.
///
/// A refusal leaves the buffer as it was. In this order: 16 where `used` is beyond the buffer; that of the file as [`inspect`] gives
/// it; 1 for more than 2,048 positions in all; 5 for keys or values of another length; 9 with the least position at fault, counted as
/// in the file; 16 where the buffer ends before the last of the records to be written.
pub fn append(buffer: &mut [u8], used: u64, count: u64, keys: &[f32], values: &[f32]) -> Result<Saving, Refusal> {
    ffi::session_append(buffer, used, count, keys, values)
}
