// An output that stands written beside its place, and how several of them are put in place, all or none.

use crate::outputs::Output;
use crate::Failure;
use std::fs::{self, File, Metadata, OpenOptions};
use std::io::{self, BufWriter, Write};
use std::os::unix::fs::{fchown, MetadataExt, OpenOptionsExt};
use std::path::{Path, PathBuf};
use std::process;

/// A file of this process's own, which is removed with this.
struct Temporary {
    path: PathBuf,
    /// Whether it is still here, and not in a place of its own.
    here: bool,
}

impl Drop for Temporary {
    fn drop(&mut self) {
        if self.here {
            let _ = fs::remove_file(&self.path);
        }
    }
}

impl Temporary {
    fn rename(&mut self, to: &Path) -> io::Result<()> {
        fs::rename(&self.path, to)?;
        self.here = false;
        Ok(())
    }

    /// Makes one in the folder under a name that nothing has.
    fn make<T>(folder: &Path, make: impl Fn(&Path) -> io::Result<T>) -> io::Result<(Temporary, T)> {
        let mut n = 0;
        loop {
            let path = folder.join(format!(".klaverdomp-{}-{n}.tmp", process::id()));
            match make(&path) {
                Ok(made) => return Ok((Temporary { path, here: true }, made)),
                Err(error) if error.kind() == io::ErrorKind::AlreadyExists && n < 10_000 => n += 1,
                Err(error) => return Err(error),
            }
        }
    }
}

/// An output that is written, and on the disk, beside its place.
pub struct Prepared<'a> {
    output: &'a Output,
    /// Where it goes.
    real: &'a Path,
    /// Whether a file is there that it replaces.
    replaces: bool,
    new: Temporary,
    /// The file that it replaces, under another name.
    old: Option<Temporary>,
}

impl<'a> Prepared<'a> {
    /// Writes what goes to `real`, with the owner and the permissions of the file that is there now.
    pub fn new(
        output: &'a Output,
        real: &'a Path,
        old: Option<&Metadata>,
        write: impl Fn(&mut dyn Write) -> io::Result<()>,
    ) -> io::Result<Prepared<'a>> {
        // what may be private is so from the beginning
        let mode = if old.is_some() { 0o600 } else { 0o666 };
        let made = Temporary::make(folder_of(real), |path| create(path, mode));
        let (new, file) = made.map_err(|error| io::Error::other(format!("its folder cannot be written: {error}")))?;
        let mut target = BufWriter::new(&file);
        write(&mut target)?;
        target.flush()?;
        drop(target);
        if let Some(old) = old {
            keep_owner(&file, old);
            file.set_permissions(old.permissions())?;
        }
        file.sync_all()?;
        Ok(Prepared { output, real, replaces: old.is_some(), new, old: None })
    }

    /// Gives the file that is there another name, so that it can be put back.
    fn keep_old(&mut self) -> io::Result<()> {
        if self.replaces {
            let keep =
                |how: fn(&Path, &Path) -> io::Result<()>| Temporary::make(folder_of(self.real), |path| how(self.real, path));
            // some file systems have no links
            self.old = Some(keep(|real, path| fs::hard_link(real, path)).or_else(|_| keep(copy))?.0);
        }
        Ok(())
    }

    /// What was there is there again, or else it is left under its other name.
    fn put_back(&mut self) -> io::Result<()> {
        match &mut self.old {
            Some(old) => old.rename(self.real).inspect_err(|_| old.here = false),
            None => fs::remove_file(self.real),
        }
    }
}

fn create(path: &Path, mode: u32) -> io::Result<File> {
    OpenOptions::new().write(true).create_new(true).mode(mode).open(path)
}

fn copy(real: &Path, path: &Path) -> io::Result<()> {
    create(path, 0o600)?;
    fs::copy(real, path).map(drop).inspect_err(|_| drop(fs::remove_file(path)))
}

/// The owner and the group of the file that is replaced, as far as this process may set them.
fn keep_owner(file: &File, old: &Metadata) {
    if fchown(file, Some(old.uid()), Some(old.gid())).is_err() {
        let _ = fchown(file, None, Some(old.gid()));
    }
}

fn folder_of(real: &Path) -> &Path {
    real.parent().unwrap_or(real)
}

/// Puts all in their places, one after the other. If one cannot be, those before it are taken back.
pub fn put_in_place(mut prepared: Vec<Prepared>) -> Result<(), Failure> {
    let but_last = prepared.len().saturating_sub(1);
    for one in &mut prepared[..but_last] {
        one.keep_old().map_err(|error| one.output.failed(error))?;
    }
    for n in 0..prepared.len() {
        let (before, rest) = prepared.split_at_mut(n);
        let one = &mut rest[0];
        if let Err(error) = one.new.rename(one.real) {
            return Err(one.output.failed(format!("{error}{}", put_back(before))));
        }
    }
    sync_folders(&prepared)
}

/// Takes back those that are in their places; in words what could not be.
fn put_back(prepared: &mut [Prepared]) -> String {
    let mut words = String::new();
    for one in prepared.iter_mut().rev() {
        if let Err(error) = one.put_back() {
            words.push_str(&format!("\n  {} is written, and what was there could not be put back: {error}", one.output.name));
            if one.old.is_some() {
                words.push_str("\n  it is kept beside it, in a file named .klaverdomp-*.tmp");
            }
        }
    }
    words
}

/// Brings the entries of the files in their folders to the disk, where a folder may be read and the file system can do that.
fn sync_folders(prepared: &[Prepared]) -> Result<(), Failure> {
    let mut synced: Vec<&Path> = Vec::new();
    for one in prepared {
        let folder = folder_of(one.real);
        if synced.contains(&folder) {
            continue;
        }
        synced.push(folder);
        match File::open(folder).map(|folder| folder.sync_all().err()) {
            Ok(Some(error)) if !matches!(error.kind(), io::ErrorKind::InvalidInput | io::ErrorKind::Unsupported) => {
                let words = format!("is written, but its folder cannot be brought to the disk: {error}");
                return Err(one.output.failed(words));
            }
            _ => {}
        }
    }
    Ok(())
}
