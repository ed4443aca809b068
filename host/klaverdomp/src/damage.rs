//! A file that is refused: the fault, what is sound before it, and what can be done.

use crate::session_file::{inspect, Reading, Refusal, FIRST};
use std::error::Error;
use std::fmt;

/// The most positions that a session has.
const MOST: u64 = 2048;

/// The length and kind of the first record.
const FIRST_HEAD: [u8; 6] = [8, 0, 0, 0, 1, 0];

/// Why the bytes of a file are refused, and what is sound before the fault.
///
/// ```
/// use klaverdomp::session_file::{append, begin, inspect, Damage, Sizes};
///
/// let sizes = Sizes { batches: 1, kv_heads: 1, size: 1, v_size: 1 };
/// let mut file = vec![0; sizes.file_len(2)];
/// begin(&mut file, &sizes)?;
/// append(&mut file, 14, 2, &[1.0, 3.0], &[2.0, 4.0])?;
/// file[28] = 9;
/// let damage = Damage::of(&file).unwrap();
/// assert_eq!((damage.refusal.number, damage.refusal.place), (11, 28));
/// assert_eq!(damage.sound, inspect(&file[..28]).ok());
/// # Ok::<(), klaverdomp::session_file::Refusal>(())
/// ```
#[derive(Clone, Copy, Debug, PartialEq, Eq)]
pub struct Damage {
    pub refusal: Refusal,
    /// What the bytes before the fault hold: they are a sound file by themselves. None where the fault is in the first record.
    pub sound: Option<Reading>,
    first: First,
}

/// What stands where the first record is expected.
#[derive(Clone, Copy, Debug, PartialEq, Eq)]
enum First {
    /// The right head and four numbers.
    Sizes([u16; 4]),
    /// So many bytes, which may be the beginning of a first record, and no more.
    Cut(usize),
    Other,
}

impl First {
    fn of(file: &[u8]) -> First {
        let head = file.len().min(FIRST_HEAD.len());
        match file.get(FIRST_HEAD.len()..FIRST) {
            _ if file[..head] != FIRST_HEAD[..head] => First::Other,
            Some(sizes) => First::Sizes([0, 2, 4, 6].map(|at| u16::from_le_bytes([sizes[at], sizes[at + 1]]))),
            None => First::Cut(file.len()),
        }
    }
}

impl Damage {
    /// The damage of a file that [`inspect`] refuses; none of one that it reads.
    pub fn of(file: &[u8]) -> Option<Damage> {
        inspect(file).err().map(|refusal| Damage::new(file, refusal))
    }

    /// The damage of a file that is refused so.
    pub(crate) fn new(file: &[u8], refusal: Refusal) -> Damage {
        Damage { refusal, sound: sound_before(file, &refusal), first: First::of(file) }
    }
}

/// What the library reads in the bytes before the fault.
fn sound_before(file: &[u8], refusal: &Refusal) -> Option<Reading> {
    let sizes = inspect(file.get(..FIRST)?).ok()?.sizes;
    let end = match refusal.number {
        1 => sizes.file_len(MOST),
        9 => sizes.file_len(refusal.place),
        _ => usize::try_from(refusal.place).ok()?,
    };
    inspect(file.get(..end)?).ok()
}

impl fmt::Display for Damage {
    fn fmt(&self, f: &mut fmt::Formatter) -> fmt::Result {
        match (self.sound, self.refusal.number, self.first) {
            (Some(Reading { sizes, positions, used }), number, _) => {
                match number {
                    1 => write!(f, "refusal 1: a 2,049th position begins at byte {used}, and a session has at most 2,048")?,
                    _ => write!(f, "{}", self.refusal)?,
                }
                write!(
                    f,
                    "\n  sound before that: {sizes}, positions {positions}; up to byte {used}\n  \
                     the first {used} bytes are a whole file: in a copy that is cut there the session can be taken up"
                )
            }
            (None, _, First::Sizes([batches, kv_heads, size, v_size])) => write!(
                f,
                "refusal 1: the first record has sizes outside their limits: batch {batches} (1 to 8), key heads {kv_heads} (1 to 32), \
                 head size {size} and value head size {v_size} (1 to 256)\n  \
                 nothing before that is sound: only another copy of the file helps"
            ),
            (None, _, First::Cut(0)) => f.write_str(
                "refusal 11: the file is empty\n  no position was saved in it: a session that is opened to be saved here begins it",
            ),
            (None, _, First::Cut(bytes)) => write!(
                f,
                "refusal 11: the first record is cut after {bytes} of {FIRST} bytes\n  \
                 no position was saved in it: a session of the same sizes that is opened to be saved here begins it anew"
            ),
            (None, _, First::Other) => {
                f.write_str("refusal 11: not a saved session: the file does not begin with a record of 8 bytes and kind 1\n  ")?;
                f.write_str("it is left as it is: is it the right file?")
            }
        }
    }
}

impl Error for Damage {}
