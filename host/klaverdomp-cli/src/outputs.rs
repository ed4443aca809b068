// Files that are written: each is prepared beside its place, and when all stand on the disk they are put in their places together.

use crate::prepared::{put_in_place, Prepared};
use crate::Failure;
use std::ffi::OsString;
use std::fmt::Display;
use std::fs::{self, File, Metadata, OpenOptions};
use std::io::{self, BufWriter, Write};
use std::os::fd::AsFd;
use std::os::unix::ffi::OsStrExt;
use std::os::unix::fs::MetadataExt;
use std::path::{Path, PathBuf};

/// What file a path names, however it is written and through whatever links.
#[derive(Clone, Debug, PartialEq, Eq)]
pub enum Identity {
    /// Device and inode of one that is there.
    There(u64, u64),
    /// Device and inode of the folder, and the name in it, of one that is not there yet.
    New(u64, u64, OsString),
}

impl Identity {
    /// That of a file that is not there yet, by where it will stand.
    fn of_new(real: &Path) -> io::Result<Identity> {
        let folder = fs::metadata(real.parent().unwrap_or(real))?;
        Ok(Identity::New(folder.dev(), folder.ino(), real.file_name().unwrap_or_default().to_os_string()))
    }
}

/// Where an output goes.
#[derive(Debug)]
pub enum Place {
    /// A regular file: where it really stands, and what stands there now.
    File(PathBuf, Option<Metadata>),
    /// A pipe or a device, which cannot be replaced.
    Direct,
    /// What standard output already is.
    Stdout,
}

/// A file to be written.
#[derive(Debug)]
pub struct Output {
    /// The option that names it.
    option: &'static str,
    path: PathBuf,
    /// The option and the file, as an error has them.
    pub name: String,
    place: Place,
    identity: Identity,
}

/// The files of one call, in the order in which they are put in place.
#[derive(Debug)]
pub struct Outputs(Vec<Output>);

impl Output {
    fn find(option: &'static str, name: String, path: &Path) -> Result<Output, Failure> {
        let found = match fs::metadata(path) {
            Ok(there) => of_what_is_there(path, there),
            Err(error) if error.kind() == io::ErrorKind::NotFound => {
                new_place(path).and_then(|real| Ok((Identity::of_new(&real)?, Place::File(real, None))))
            }
            Err(error) => Err(error),
        };
        let (identity, place) = found.map_err(|error| Failure::File(format!("{name}: {error}")))?;
        Ok(Output { option, path: path.to_path_buf(), name, place, identity })
    }

    pub fn failed(&self, error: impl Display) -> Failure {
        Failure::File(format!("{}: {error}", self.name))
    }
}

fn of_what_is_there(path: &Path, there: Metadata) -> io::Result<(Identity, Place)> {
    let identity = Identity::There(there.dev(), there.ino());
    if there.is_dir() {
        return Err(io::Error::other("is a folder"));
    }
    if stdout_is().is_some_and(|stdout| stdout == identity) {
        return Ok((identity, Place::Stdout));
    }
    if !there.is_file() {
        return Ok((identity, Place::Direct));
    }
    // a file that may not be written is not replaced either
    let there = OpenOptions::new().write(true).open(path)?.metadata()?;
    match fs::canonicalize(path).and_then(|real| Ok((fs::metadata(&real)?, real))) {
        Ok((real, at)) if (real.dev(), real.ino()) == (there.dev(), there.ino()) => Ok((identity, Place::File(at, Some(there)))),
        // an open file that stands in no folder
        _ => Ok((identity, Place::Direct)),
    }
}

fn stdout_is() -> Option<Identity> {
    let stdout = File::from(io::stdout().as_fd().try_clone_to_owned().ok()?).metadata().ok()?;
    Some(Identity::There(stdout.dev(), stdout.ino()))
}

/// Where a file that is not there yet will stand: its folder is there, and links to it are followed.
fn new_place(path: &Path) -> io::Result<PathBuf> {
    let mut path = path.to_path_buf();
    for _ in 0..40 {
        let folder = path.parent().filter(|folder| !folder.as_os_str().is_empty()).unwrap_or(Path::new(".")).to_path_buf();
        match fs::read_link(&path) {
            Ok(target) => path = folder.join(target),
            Err(_) if path.as_os_str().as_bytes().ends_with(b"/") => return Err(io::Error::other("there is no such folder")),
            Err(_) => {
                let name = path.file_name().ok_or(io::ErrorKind::NotFound)?;
                return Ok(fs::canonicalize(folder)?.join(name));
            }
        }
    }
    Err(io::Error::other("goes through too many links"))
}

/// What file a path names.
pub fn identity(path: &Path) -> io::Result<Identity> {
    match fs::metadata(path) {
        Ok(there) => Ok(Identity::There(there.dev(), there.ino())),
        Err(_) => Identity::of_new(&new_place(path)?),
    }
}

impl Outputs {
    /// Finds where the files go, before anything is done: each by its option, what an error calls it, and its path. Each is another file.
    pub fn find<'a>(
        command: &'static str,
        named: impl IntoIterator<Item = (&'static str, String, &'a Path)>,
    ) -> Result<Outputs, Failure> {
        let mut outputs: Vec<Output> = Vec::new();
        for (option, name, path) in named {
            let output = Output::find(option, name, path)?;
            if let Some(same) = outputs.iter().find(|other| other.identity == output.identity) {
                return Err(Failure::Usage(format!("{} and {} are one file", same.name, output.name), command));
            }
            outputs.push(output);
        }
        Ok(Outputs(outputs))
    }

    /// Whether one of them goes to standard output.
    pub fn have_stdout(&self) -> bool {
        self.0.iter().any(|output| matches!(output.place, Place::Stdout))
    }

    /// Writes all of them, or leaves every file as it was; `content` writes that of an option. What cannot be replaced is written when all
    /// others are prepared and none is in its place yet: if its reader is gone, the call can be made again.
    pub fn write(&self, content: impl Fn(&str, &mut dyn Write) -> io::Result<()>) -> Result<(), Failure> {
        let mut prepared = Vec::new();
        for output in &self.0 {
            if let Place::File(real, old) = &output.place {
                let write = |target: &mut dyn Write| content(output.option, target);
                prepared.push(Prepared::new(output, real, old.as_ref(), write).map_err(|error| output.failed(error))?);
            }
        }
        for output in &self.0 {
            let written = match output.place {
                Place::File(..) => Ok(()),
                Place::Direct => {
                    OpenOptions::new().write(true).truncate(true).open(&output.path).and_then(|file| fill(file, output, &content))
                }
                Place::Stdout => fill(io::stdout().lock(), output, &content),
            };
            written.map_err(|error| output.failed(error))?;
        }
        put_in_place(prepared)
    }
}

fn fill(file: impl Write, output: &Output, content: &impl Fn(&str, &mut dyn Write) -> io::Result<()>) -> io::Result<()> {
    let mut target = BufWriter::new(file);
    content(output.option, &mut target)?;
    target.flush()
}
