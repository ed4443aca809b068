//! The file of a session, open to be written: locked, and known to stand at its path.

use crate::contents::{file_of, regular, Contents};
use crate::session_file::{begin, Refusal, Sizes, FIRST};
use crate::{SaveFault, Session};
use std::fs::{self, File, OpenOptions, TryLockError};
use std::io;
use std::os::unix::fs::{FileExt, MetadataExt};
use std::path::{absolute, Path, PathBuf};

/// A file that is open to be written, and what is known of it: it begins with these sizes, and so many positions are whole in it. It is
/// locked as long as this lives, so that nothing else of this crate writes it, in any process.
#[derive(Debug)]
pub(crate) struct OpenFile {
    file: File,
    /// Where it stood when it was opened. A later change of the working folder does not change it.
    path: PathBuf,
    sizes: Sizes,
    pub positions: u64,
}

/// So many bytes are written at a time, or one position.
const PART: usize = 1 << 20;

impl OpenFile {
    /// Opens the file, or begins it where there is none, an empty one, or the beginning of a first record of these sizes, which is all
    /// that a stop may leave of one that is begun. It and its entry in the folder are on the disk then.
    pub fn open(path: &Path, sizes: &Sizes) -> Result<(OpenFile, Contents), SaveFault> {
        let first = first_record(sizes)?;
        let mut open = OpenFile::locked(path, sizes)?;
        if open.has_only_beginning_of(&first)? {
            open.file.write_all_at(&first, 0)?;
        }
        open.to_disk()?;
        let contents = Contents::read(&open.file)?.of_sizes(sizes)?;
        open.positions = contents.reading.positions;
        Ok((open, contents))
    }

    /// Begins the file, whatever stands in it.
    pub fn begin_anew(path: &Path, sizes: &Sizes) -> Result<OpenFile, SaveFault> {
        let first = first_record(sizes)?;
        let open = OpenFile::locked(path, sizes)?;
        open.file.set_len(0)?;
        open.file.write_all_at(&first, 0)?;
        open.to_disk()?;
        Ok(open)
    }

    /// Opens the file, which nothing has locked, or makes an empty one.
    fn locked(path: &Path, sizes: &Sizes) -> Result<OpenFile, SaveFault> {
        if let Ok(there) = fs::metadata(path) {
            regular(&there)?;
        }
        let file = OpenOptions::new().read(true).write(true).create(true).truncate(false).open(path)?;
        regular(&file.metadata()?)?;
        file.try_lock().map_err(|error| match error {
            TryLockError::WouldBlock => SaveFault::Locked,
            TryLockError::Error(error) => SaveFault::File(explained("the file cannot be locked", error)),
        })?;
        let open = OpenFile { file, path: absolute(path)?, sizes: *sizes, positions: 0 };
        // what had the lock may have put another file there meanwhile
        open.stands_at_its_path()?;
        Ok(open)
    }

    /// Whether all that stands in the file is a beginning of these bytes, and not all of them.
    fn has_only_beginning_of(&self, first: &[u8; FIRST]) -> io::Result<bool> {
        let length = self.file.metadata()?.len() as usize;
        if length >= FIRST {
            return Ok(false);
        }
        let mut there = [0; FIRST];
        self.file.read_exact_at(&mut there[..length], 0)?;
        Ok(there[..length] == first[..length])
    }

    /// Brings the file, and its entry in the folder in which it really stands, to the disk.
    fn to_disk(&self) -> Result<(), SaveFault> {
        self.file.sync_all()?;
        let real = fs::canonicalize(&self.path)?;
        let synced = File::open(real.parent().unwrap_or(&real)).and_then(|folder| folder.sync_all());
        Ok(synced.map_err(|error| explained("its folder cannot be brought to the disk", error))?)
    }

    /// Whether the path still names this file, and no other one.
    fn stands_at_its_path(&self) -> Result<(), SaveFault> {
        let ours = self.file.metadata()?;
        match fs::metadata(&self.path) {
            Ok(there) if (there.dev(), there.ino()) == (ours.dev(), ours.ino()) => Ok(()),
            Ok(_) => Err(SaveFault::Gone),
            Err(error) if matches!(error.kind(), io::ErrorKind::NotFound | io::ErrorKind::NotADirectory) => Err(SaveFault::Gone),
            Err(error) => Err(SaveFault::File(error)),
        }
    }

    /// Writes the session's positions behind those of the file, over a cut record, and brings them to the disk. The file ends with the
    /// last of them. They count once all that is done and the file is found at its path: after an error the next save begins at the
    /// same place.
    pub fn add(&mut self, session: &Session) -> Result<u64, SaveFault> {
        let end_of = |positions| self.sizes.file_len(positions) as u64;
        if self.file.metadata()?.len() < end_of(self.positions) {
            return Err(SaveFault::Shorter);
        }
        let most = (PART / self.sizes.record_len()).max(1) as u64;
        let mut written = self.positions;
        while written < session.len() {
            let next = session.len().min(written + most);
            let bytes = file_of(&self.sizes, session, written, next)?;
            self.file.write_all_at(&bytes[FIRST..], end_of(written))?;
            written = next;
        }
        if self.file.metadata()?.len() > end_of(written) {
            self.file.set_len(end_of(written))?;
        }
        self.file.sync_all()?;
        self.stands_at_its_path()?;
        self.positions = written;
        Ok(written)
    }
}

/// The lock goes with this, also where a process that was started meanwhile still has the file open by inheritance.
impl Drop for OpenFile {
    fn drop(&mut self) {
        let _ = self.file.unlock();
    }
}

fn first_record(sizes: &Sizes) -> Result<[u8; FIRST], Refusal> {
    let mut first = [0; FIRST];
    begin(&mut first, sizes)?;
    Ok(first)
}

/// The error with what was tried, in words.
fn explained(what: &str, error: io::Error) -> io::Error {
    io::Error::new(error.kind(), format!("{what}: {error}"))
}
