//! Why a session is not saved or not taken up.

use crate::session_file::{self, Damage, Sizes};
use crate::Refusal;
use std::error::Error;
use std::fmt;
use std::io;
use std::path::{Path, PathBuf};

/// A session that is not saved or not taken up: the file, and why.
#[derive(Debug)]
pub struct SaveError {
    /// The file, as the caller named it.
    pub path: PathBuf,
    pub fault: SaveFault,
}

/// Why a session is not saved or not taken up.
#[derive(Debug)]
pub enum SaveFault {
    /// No call can use the settings: the refusal that every chunk of them would get, and in words what is wrong.
    Settings(Refusal, String),
    /// The file cannot be read, written or brought to the disk.
    File(io::Error),
    /// The path names something else than a regular file: what it is.
    NotAFile(&'static str),
    /// Another session, of this process or of another one, has the file open to save in it.
    Locked,
    /// The file that was opened is not at its path any more: it, or a folder above it, was removed, renamed or replaced.
    Gone,
    /// The file has become shorter since it was opened.
    Shorter,
    /// The file is damaged, or no saved session.
    Refused(Damage),
    /// The file is of a session of other sizes.
    Sizes { file: Sizes, session: Sizes },
    /// The file has a position that is not this session's; the first such one.
    Position(u64),
}

impl SaveFault {
    /// The fault of this file.
    pub(crate) fn at(self, path: &Path) -> SaveError {
        SaveError { path: path.to_path_buf(), fault: self }
    }
}

impl fmt::Display for SaveError {
    fn fmt(&self, f: &mut fmt::Formatter) -> fmt::Result {
        write!(f, "{}: {}", self.path.display(), self.fault)
    }
}

impl fmt::Display for SaveFault {
    fn fmt(&self, f: &mut fmt::Formatter) -> fmt::Result {
        match self {
            SaveFault::Settings(_, words) => f.write_str(words),
            SaveFault::File(error) => write!(f, "{error}"),
            SaveFault::NotAFile(kind) => write!(f, "is {kind}, and a saved session is a regular file"),
            SaveFault::Locked => f.write_str("another session has this file open to save in it"),
            SaveFault::Gone => f.write_str(
                "the file that was opened is not at this path any more (removed, renamed or replaced): the new positions are not saved",
            ),
            SaveFault::Shorter => f.write_str("the file has become shorter since it was opened: the new positions are not saved"),
            SaveFault::Refused(damage) => write!(f, "{damage}"),
            SaveFault::Sizes { file, session } => write!(f, "the file is of other sizes ({file}) than the session ({session})"),
            SaveFault::Position(position) => write!(f, "position {position} of the file is not that of the session"),
        }
    }
}

impl Error for SaveError {
    fn source(&self) -> Option<&(dyn Error + 'static)> {
        match &self.fault {
            SaveFault::Settings(refusal, _) => Some(refusal),
            SaveFault::File(error) => Some(error),
            SaveFault::Refused(damage) => Some(&damage.refusal),
            _ => None,
        }
    }
}

impl From<io::Error> for SaveFault {
    fn from(error: io::Error) -> SaveFault {
        SaveFault::File(error)
    }
}

/// Where bytes that the crate makes itself are refused: then there is no file at fault to speak of.
impl From<session_file::Refusal> for SaveFault {
    fn from(refusal: session_file::Refusal) -> SaveFault {
        SaveFault::File(io::Error::other(refusal))
    }
}
