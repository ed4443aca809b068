//! Sessions in files: a session that is saved as it goes, and taken up after a stop.

use crate::contents::Contents;
use crate::open_file::OpenFile;
use crate::session_file::Reading;
use crate::{Done, Refusal, SaveError, SaveFault, Session, Settings};
use std::path::{Path, PathBuf};

/// The settings, where a call can use them.
fn usable(settings: &Settings) -> Result<(), SaveFault> {
    settings.check().map_err(|refusal| SaveFault::Settings(refusal, settings.explain(&refusal)))
}

/// What a file holds, and how many bytes it has, those of a cut record included. It is only read, and may be a session's that goes on.
///
/// ```
/// use klaverdomp::{saved_in, SavedSession, Settings};
///
/// # let path = &std::env::temp_dir().join(format!("klaverdomp-doc-saved-in-{}", std::process::id()));
/// SavedSession::open(Settings::new(1, 1, 1), path)?;
/// let (reading, bytes) = saved_in(path)?;
/// assert_eq!((reading.positions, reading.used, bytes), (0, 14, 14));
/// # std::fs::remove_file(path)?;
/// # Ok::<(), Box<dyn std::error::Error>>(())
/// ```
pub fn saved_in(path: impl AsRef<Path>) -> Result<(Reading, u64), SaveError> {
    let contents = Contents::at(path.as_ref()).map_err(|fault| fault.at(path.as_ref()))?;
    Ok((contents.reading, contents.length))
}

impl Session {
    /// Saves the session's positions in a file, and says how many there are once they are on the disk.
    ///
    /// The file is begun where there is none or an empty one, or one that a stop has cut inside its first record. Else its positions
    /// must be the first ones of this session, bit for bit; those that are not whole in it are added, over a record that a stop has
    /// cut. It is read each time: [`SavedSession`] saves a session again and again without that. The file is locked meanwhile, as a
    /// [`SavedSession`] locks it.
    ///
    /// ```
    /// use klaverdomp::{Session, Settings};
    ///
    /// # let path = &std::env::temp_dir().join(format!("klaverdomp-doc-save-to-{}", std::process::id()));
    /// let settings = Settings::new(1, 1, 1).with_scale(1.0);
    /// let mut session = Session::new(settings);
    /// let mut out = [0.0];
    /// session.append(&[1.0], &[1.0], &[6.0], &mut out)?;
    /// assert_eq!(session.save_to(path)?, 1);
    ///
    /// let mut taken_up = Session::resume(settings, path)?;
    /// taken_up.append(&[1.0], &[1.0], &[12.0], &mut out)?;
    /// assert_eq!(out, [9.0]);
    /// assert_eq!(taken_up.save_to(path)?, 2);
    /// # std::fs::remove_file(path)?;
    /// # Ok::<(), Box<dyn std::error::Error>>(())
    /// ```
    pub fn save_to(&self, path: impl AsRef<Path>) -> Result<u64, SaveError> {
        self.add_to(path.as_ref()).map_err(|fault| fault.at(path.as_ref()))
    }

    fn add_to(&self, path: &Path) -> Result<u64, SaveFault> {
        usable(self.settings())?;
        let (mut file, contents) = OpenFile::open(path, &self.settings().sizes())?;
        match contents.first_other(self)? {
            Some(position) => Err(SaveFault::Position(position)),
            None => file.add(self),
        }
    }

    /// The session of the positions that are whole in a file. It goes on as one that was never stopped, where the settings and the
    /// chunks are the same. The file must be of the settings' batch, key heads and sizes; it is not changed.
    pub fn resume(settings: Settings, path: impl AsRef<Path>) -> Result<Session, SaveError> {
        Session::read_from(settings, path.as_ref()).map_err(|fault| fault.at(path.as_ref()))
    }

    fn read_from(settings: Settings, path: &Path) -> Result<Session, SaveFault> {
        usable(&settings)?;
        Contents::at(path)?.of_sizes(&settings.sizes())?.session(settings)
    }
}

/// A session and its file: each [`SavedSession::save`] writes the positions since the last one and no others.
///
/// The file is locked as long as this lives: meanwhile another `SavedSession` or a [`Session::save_to`] on it, under whatever name and in
/// whatever process, gets [`SaveFault::Locked`]. To read it needs no lock.
///
/// ```
/// use klaverdomp::{SavedSession, Settings};
///
/// # let path = &std::env::temp_dir().join(format!("klaverdomp-doc-saved-{}", std::process::id()));
/// let settings = Settings::new(1, 1, 1).with_scale(1.0);
/// let mut saved = SavedSession::open(settings, path)?; // begins the file, or takes up what it holds
/// let mut out = [0.0];
/// saved.append(&[1.0], &[1.0], &[6.0], &mut out)?;
/// assert_eq!(saved.save()?, 1);
/// drop(saved); // the box is switched off
///
/// let mut saved = SavedSession::open(settings, path)?;
/// assert_eq!(saved.session().len(), 1);
/// saved.append(&[1.0], &[1.0], &[12.0], &mut out)?;
/// assert_eq!((out, saved.saved()), ([9.0], 1));
/// assert_eq!(saved.save()?, 2);
/// # std::fs::remove_file(path)?;
/// # Ok::<(), Box<dyn std::error::Error>>(())
/// ```
#[derive(Debug)]
pub struct SavedSession {
    session: Session,
    /// As the caller named it.
    path: PathBuf,
    file: OpenFile,
}

impl SavedSession {
    /// Begins the file where there is none or an empty one, or one of which a stop has left no more than a beginning of the first
    /// record with these sizes; else takes up the session that is in it, as [`Session::resume`] does. Settings that no call can use are
    /// refused, and then no file is made.
    pub fn open(settings: Settings, path: impl AsRef<Path>) -> Result<SavedSession, SaveError> {
        let path = path.as_ref();
        let open = || {
            usable(&settings)?;
            let (file, contents) = OpenFile::open(path, &settings.sizes())?;
            Ok(SavedSession { session: contents.session(settings)?, path: path.to_path_buf(), file })
        };
        open().map_err(|fault: SaveFault| fault.at(path))
    }

    /// Begins the file of a session of no positions, whatever the file holds: that is lost, unless something has it locked.
    pub fn begin_anew(settings: Settings, path: impl AsRef<Path>) -> Result<SavedSession, SaveError> {
        let path = path.as_ref();
        let begin = || {
            usable(&settings)?;
            let file = OpenFile::begin_anew(path, &settings.sizes())?;
            Ok(SavedSession { session: Session::new(settings), path: path.to_path_buf(), file })
        };
        begin().map_err(|fault: SaveFault| fault.at(path))
    }

    /// [`Session::append`]; the positions are not saved yet.
    pub fn append(&mut self, query: &[f32], key: &[f32], value: &[f32], out: &mut [f32]) -> Result<Done, Refusal> {
        self.session.append(query, key, value, out)
    }

    /// [`Session::step`]; the position is not saved yet.
    pub fn step(&mut self, query: &[f32], key: &[f32], value: &[f32], out: &mut [f32]) -> Result<Done, Refusal> {
        self.session.step(query, key, value, out)
    }

    /// Saves all positions, and says how many there are once they are on the disk, in the file that the path names.
    ///
    /// Where the file is not at its path any more, or a folder above it was moved, that is [`SaveFault::Gone`], and [`SavedSession::saved`]
    /// stays. The session itself is still here: [`Session::save_to`] saves it in another file.
    pub fn save(&mut self) -> Result<u64, SaveError> {
        self.file.add(&self.session).map_err(|fault| fault.at(&self.path))
    }

    /// How many positions are saved.
    pub fn saved(&self) -> u64 {
        self.file.positions
    }

    pub fn session(&self) -> &Session {
        &self.session
    }
}
