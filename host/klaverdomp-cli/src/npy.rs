// NumPy .npy files: versions 1, 2 and 3, little-endian, C order; f4, i8, and bool or u1 as bytes. A bad file is an error in words.

mod header;
#[cfg(test)]
mod tests;

use header::{parse_header, Header};
use std::fmt;
use std::fs::File;
use std::io::{self, Read, Write};
use std::path::Path;

/// The elements of a file.
#[derive(Clone, Debug, PartialEq)]
pub enum Data {
    F32(Vec<f32>),
    I64(Vec<i64>),
    Bytes(Vec<u8>),
}

/// A tensor as it stands in a file.
#[derive(Clone, Debug, PartialEq)]
pub struct Tensor {
    pub shape: Vec<u64>,
    pub data: Data,
}

/// The kinds of elements that can be read.
#[derive(Clone, Copy, Debug, PartialEq, Eq)]
pub enum Kind {
    F4,
    I8,
    Bytes,
}

impl Kind {
    fn of(descr: &str) -> Option<Kind> {
        match descr {
            "<f4" => Some(Kind::F4),
            "<i8" => Some(Kind::I8),
            "|b1" | "|u1" | "?" | "b1" | "u1" | "<u1" => Some(Kind::Bytes),
            _ => None,
        }
    }

    fn size(self) -> u64 {
        match self {
            Kind::F4 => 4,
            Kind::I8 => 8,
            Kind::Bytes => 1,
        }
    }

    /// The types in a file that are of this kind, and how NumPy makes one of them.
    fn words(self) -> (&'static str, &'static str) {
        match self {
            Kind::F4 => ("'<f4'", "x.astype('<f4')"),
            Kind::I8 => ("'<i8'", "x.astype('<i8')"),
            Kind::Bytes => ("'|b1' or '|u1'", "x.astype(bool)"),
        }
    }
}

/// Why a file could not be read.
#[derive(Debug)]
pub enum NpyError {
    Io(io::Error),
    Bad(String),
    /// The type of the elements that are there, in words, where another one is needed.
    Type(String),
}

impl NpyError {
    /// The error in words, where elements of these kinds are needed.
    pub fn words(&self, needed: &[Kind]) -> String {
        let NpyError::Type(there) = self else {
            return self.to_string();
        };
        let or = |words: fn(Kind) -> &'static str| needed.iter().map(|kind| words(*kind)).collect::<Vec<_>>().join(" or ");
        let (types, how) = (or(|kind| kind.words().0), or(|kind| kind.words().1));
        format!("holds elements of {there}, and {types} is needed; in NumPy {how} converts them")
    }
}

impl fmt::Display for NpyError {
    fn fmt(&self, f: &mut fmt::Formatter) -> fmt::Result {
        match self {
            NpyError::Io(error) => error.fmt(f),
            NpyError::Bad(words) => f.write_str(words),
            NpyError::Type(there) => write!(f, "holds elements of {there}"),
        }
    }
}

impl From<io::Error> for NpyError {
    fn from(error: io::Error) -> NpyError {
        NpyError::Io(error)
    }
}

fn bad<T>(words: impl Into<String>) -> Result<T, NpyError> {
    Err(NpyError::Bad(words.into()))
}

/// Reads a file whose elements are of one of these kinds.
pub fn read(path: &Path, needed: &[Kind]) -> Result<Tensor, NpyError> {
    let file = File::open(path)?;
    if file.metadata()?.is_dir() {
        return bad("is a folder");
    }
    read_from(io::BufReader::new(file), needed)
}

const MAGIC: &[u8; 6] = b"\x93NUMPY";

/// How an archive begins, which is what .npz files are.
const ARCHIVE: &[u8; 2] = b"PK";

/// The longest header that is read; NumPy's own limit is 10,000.
const LONGEST_HEADER: u64 = 65_536;

/// The most bytes of elements that are read; the longest tensor of a call, a whole float mask, has half of that.
const MOST_BYTES: u64 = 1 << 33;

pub fn read_from(mut source: impl Read, needed: &[Kind]) -> Result<Tensor, NpyError> {
    let header = read_header(&mut source)?;
    let Ok(text) = std::str::from_utf8(&header) else {
        return bad("has a header that is not text");
    };
    let Header { descr, fortran_order, shape } = parse_header(text)?;
    let Some(kind) = Kind::of(&descr).filter(|kind| needed.contains(kind)) else {
        let order = if descr.starts_with('>') { " (big-endian)" } else { "" };
        return Err(NpyError::Type(format!("type '{descr}'{order}")));
    };
    // in one dimension or none, both orders are the same
    if fortran_order && shape.len() > 1 {
        return bad("is in Fortran order, and C order is needed; in NumPy numpy.ascontiguousarray(x) makes it so");
    }
    let bytes = shape.iter().try_fold(kind.size(), |all: u64, dim| all.checked_mul(*dim));
    let Some(bytes) = bytes.filter(|bytes| *bytes <= MOST_BYTES) else {
        return bad(format!("has shape {}, which is too large", shape_text(&shape)));
    };
    let elements = elements(source, bytes, &shape)?;
    let data = match kind {
        Kind::F4 => Data::F32(elements.chunks_exact(4).map(|x| f32::from_le_bytes([x[0], x[1], x[2], x[3]])).collect()),
        Kind::I8 => Data::I64(elements.chunks_exact(8).map(|x| i64::from_le_bytes(x.try_into().unwrap_or_default())).collect()),
        Kind::Bytes => Data::Bytes(elements),
    };
    Ok(Tensor { shape, data })
}

/// The bytes of the header, behind which the elements stand.
fn read_header(source: &mut impl Read) -> Result<Vec<u8>, NpyError> {
    let mut start = [0; 8];
    exactly(source, &mut start, "its first 8 bytes")?;
    if start[..2] == ARCHIVE[..] {
        return bad(
            "is an archive (.npz), and a .npy file of one tensor is needed; in NumPy numpy.save('x.npy', numpy.load('x.npz')['NAME']) \
             takes one out",
        );
    }
    if start[..6] != MAGIC[..] {
        return bad("is not a .npy file: it does not begin with \\x93NUMPY");
    }
    let mut len = [0; 4];
    match start[6] {
        1 => exactly(source, &mut len[..2], "the length of its header")?,
        2 | 3 => exactly(source, &mut len, "the length of its header")?,
        version => return bad(format!("has .npy version {version}, and 1, 2 and 3 can be read")),
    }
    let header_len = u64::from(u32::from_le_bytes(len));
    if header_len > LONGEST_HEADER {
        return bad(format!("says that its header has {header_len} bytes, and at most {LONGEST_HEADER} can be read"));
    }
    let mut header = vec![0; header_len as usize];
    exactly(source, &mut header, "its header")?;
    Ok(header)
}

/// The rest of the file, which must have so many bytes.
fn elements(source: impl Read, bytes: u64, shape: &[u64]) -> Result<Vec<u8>, NpyError> {
    let mut elements = Vec::new();
    source.take(bytes.saturating_add(1)).read_to_end(&mut elements)?;
    let found = elements.len() as u64;
    if found < bytes {
        return bad(format!("is cut short: shape {} needs {bytes} bytes of elements, and {found} are there", shape_text(shape)));
    }
    if found > bytes {
        return bad(format!("is too long: shape {} needs {bytes} bytes of elements, and more are there", shape_text(shape)));
    }
    Ok(elements)
}

fn exactly(source: &mut impl Read, buffer: &mut [u8], what: &str) -> Result<(), NpyError> {
    match source.read_exact(buffer) {
        Err(error) if error.kind() == io::ErrorKind::UnexpectedEof => {
            bad(format!("is not a whole .npy file: it ends inside {what}"))
        }
        other => Ok(other?),
    }
}

/// A shape as Python writes it.
pub fn shape_text(shape: &[u64]) -> String {
    let dims: Vec<String> = shape.iter().map(u64::to_string).collect();
    match dims.len() {
        1 => format!("({},)", dims[0]),
        _ => format!("({})", dims.join(", ")),
    }
}

/// Writes a tensor of f32 as version 1. The header is padded so that the elements begin at a multiple of 64 bytes.
pub fn write_to(mut target: impl Write, shape: &[u64], elements: &[f32]) -> io::Result<()> {
    let dictionary = format!("{{'descr': '<f4', 'fortran_order': False, 'shape': {}, }}", shape_text(shape));
    let unpadded = MAGIC.len() + 4 + dictionary.len() + 1;
    let padding = unpadded.next_multiple_of(64) - unpadded;
    let header_len = (dictionary.len() + padding + 1) as u16;
    target.write_all(MAGIC)?;
    target.write_all(&[1, 0])?;
    target.write_all(&header_len.to_le_bytes())?;
    writeln!(target, "{dictionary}{:padding$}", "")?;
    for element in elements {
        target.write_all(&element.to_le_bytes())?;
    }
    Ok(())
}
