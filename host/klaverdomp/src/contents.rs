//! What the file of a session holds.

use crate::session_file::{append, begin, inspect, load, Damage, Reading, Refusal, Sizes, ENOUGH, FIRST};
use crate::{SaveFault, Session, Settings};
use std::fs::{self, File, Metadata};
use std::io::Read;
use std::os::unix::fs::FileTypeExt;
use std::path::Path;

/// The bytes of a file up to the end of its last whole record, and what they hold.
pub(crate) struct Contents {
    bytes: Vec<u8>,
    pub reading: Reading,
    /// The bytes of the file, those of a cut record included.
    pub length: u64,
}

impl Contents {
    /// Reads a file that is open at its start.
    pub fn read(file: &File) -> Result<Contents, SaveFault> {
        let mut bytes = Vec::new();
        file.take(ENOUGH).read_to_end(&mut bytes)?;
        let reading = inspect(&bytes).map_err(|refusal| SaveFault::Refused(Damage::new(&bytes, refusal)))?;
        let length = bytes.len() as u64;
        bytes.truncate(reading.used as usize);
        Ok(Contents { bytes, reading, length })
    }

    /// Reads the file at a path, which is neither locked nor changed.
    pub fn at(path: &Path) -> Result<Contents, SaveFault> {
        regular(&fs::metadata(path)?)?;
        Contents::read(&File::open(path)?)
    }

    /// These contents, where they are of a session of these sizes.
    pub fn of_sizes(self, session: &Sizes) -> Result<Contents, SaveFault> {
        if self.reading.sizes == *session {
            return Ok(self);
        }
        Err(SaveFault::Sizes { file: self.reading.sizes, session: *session })
    }

    /// The session of these positions.
    pub fn session(&self, settings: Settings) -> Result<Session, SaveFault> {
        let Reading { sizes, positions, .. } = self.reading;
        let (mut keys, mut values) = (vec![0.0; sizes.keys_len(positions)], vec![0.0; sizes.values_len(positions)]);
        load(&self.bytes, &mut keys, &mut values)?;
        Ok(Session::from_caches(settings, positions, keys, values))
    }

    /// The first position that is not the session's, by its bits.
    pub fn first_other(&self, session: &Session) -> Result<Option<u64>, SaveFault> {
        let Reading { sizes, positions, .. } = self.reading;
        let shared = positions.min(session.len());
        let ours = file_of(&sizes, session, 0, shared)?;
        let differs = ours.iter().zip(&self.bytes).position(|(ours, theirs)| ours != theirs);
        let position = differs.map(|byte| ((byte - FIRST) / sizes.record_len()) as u64);
        Ok(position.or((shared < positions).then_some(shared)))
    }
}

/// A file of the session's positions from `first` to before `end` alone. Behind its first record stand their records, which are the same
/// whatever stands before them.
pub(crate) fn file_of(sizes: &Sizes, session: &Session, first: u64, end: u64) -> Result<Vec<u8>, Refusal> {
    let count = end - first;
    let rows = |cache: &[f32], size: u64| -> Vec<f32> {
        let [head, start, end] = [session.len() * size, first * size, end * size].map(|n| n as usize);
        cache.chunks(head.max(1)).flat_map(|head| &head[start..end]).copied().collect()
    };
    let (keys, values) = (rows(session.keys(), sizes.size), rows(session.values(), sizes.v_size));
    let mut bytes = vec![0; sizes.file_len(count)];
    let begun = begin(&mut bytes, sizes)?;
    append(&mut bytes, begun.used, count, &keys, &values)?;
    Ok(bytes)
}

/// Refuses what is no regular file before it is opened: to open or to read a pipe or a device may wait for ever.
pub(crate) fn regular(there: &Metadata) -> Result<(), SaveFault> {
    let kind = there.file_type();
    if kind.is_file() {
        return Ok(());
    }
    Err(SaveFault::NotAFile(match kind {
        _ if kind.is_dir() => "a folder",
        _ if kind.is_fifo() => "a pipe",
        _ if kind.is_socket() => "a socket",
        _ => "a device",
    }))
}
