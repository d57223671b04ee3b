//! A file that is changed: read, and then replaced whole by what it is to be. A command
//! that is killed, or a power cut, leaves the old file or the new one.

use std::ffi::{OsStr, OsString};
use std::fs::{self, File, Metadata};
use std::io;
use std::os::unix::fs::MetadataExt;
use std::path::{Path, PathBuf};

use crate::failure::Failure;
use crate::input::Input;
use crate::output;

/// A file that no other of these commands changes before this one is done: they wait for
/// each other, so that none takes back what another did.
pub struct Change {
    name: OsString,
    /// Where the file is, all links followed.
    path: PathBuf,
    /// Locked until it is closed, which the end of the process sees to at the latest.
    file: File,
    found: Metadata,
}

impl Change {
    pub fn begin(name: &OsStr) -> Result<Change, Failure> {
        let locked = loop {
            // Where it was replaced while this one waited, the lock is on the old file.
            if let Some(locked) = locked(Path::new(name)).transpose() {
                break locked;
            }
        };
        let (path, file, found) = locked.map_err(|error| Failure::File(name.into(), error))?;
        Ok(Change {
            name: name.into(),
            path,
            file,
            found,
        })
    }

    /// What the file holds so far.
    pub fn bytes(&self) -> Result<Vec<u8>, Failure> {
        let file = self.file.try_clone();
        let file = file.map_err(|error| Failure::File(self.name.clone(), error))?;
        Input::of(&self.name, file).bytes()
    }

    /// Gives it its new content. When this returns that is on the disk, and so is its
    /// name.
    pub fn end(self, content: &[u8]) -> Result<(), Failure> {
        let replaced = || {
            // Opened before anything is changed: it may be a folder that can't be.
            let folder = File::open(self.path.parent().unwrap_or(Path::new("/")))?;
            output::replace(&self.path, Some(&self.found), content)?;
            folder.sync_all()
        };
        replaced().map_err(|error| Failure::File(self.name.clone(), error))
    }
}

/// The file, locked; nothing where the name leads to another one by now.
fn locked(name: &Path) -> io::Result<Option<(PathBuf, File, Metadata)>> {
    // To write, too: replacing takes a right to the folder only.
    let file = File::options().read(true).write(true).open(name)?;
    let found = file.metadata()?;
    if !found.is_file() {
        return Err(io::Error::other("not a file that can be replaced"));
    }
    file.lock()?;
    let path = fs::canonicalize(name)?;
    let there = fs::metadata(&path)?;
    let same = (there.dev(), there.ino()) == (found.dev(), found.ino());
    Ok(same.then_some((path, file, found)))
}
