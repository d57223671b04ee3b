//! What the command writes: a file is there whole, or as it was before.

use std::ffi::OsStr;
use std::fs::{self, File, Metadata};
use std::io::{self, BufWriter, Write};
use std::os::fd::AsFd;
use std::os::unix::fs::{fchown, MetadataExt, OpenOptionsExt};
use std::path::{Path, PathBuf};
use std::process;

use crate::failure::Failure;

/// Writes to the file, or to standard output where none is named.
pub fn write(file: Option<&OsStr>, content: &[u8]) -> Result<(), Failure> {
    let Some(name) = file else {
        return to_standard_output(content)
            .map_err(|error| Failure::File("standard output".into(), error));
    };
    to_file(Path::new(name), content).map_err(|error| Failure::File(name.into(), error))
}

/// Writes lines to standard output, one after the other: all of them together can be
/// far longer than what they are made from.
pub fn lines(lines: impl Iterator<Item = String>) -> Result<(), Failure> {
    let mut out = BufWriter::new(io::stdout().lock());
    let write = || {
        for line in lines {
            writeln!(out, "{line}")?;
        }
        out.flush()
    };
    write().map_err(|error| Failure::File("standard output".into(), error))
}

fn to_standard_output(content: &[u8]) -> io::Result<()> {
    let mut out = io::stdout().lock();
    out.write_all(content)?;
    out.flush()
}

/// Replaces a regular file, or the one that a link leads to; anything else, such as
/// a device or a pipe, is written as it stands.
fn to_file(name: &Path, content: &[u8]) -> io::Result<()> {
    match fs::metadata(name) {
        // `/dev/stdout` can be a file too, to which others write before and after.
        Ok(found) if is_standard_output(&found)? => to_standard_output(content),
        Ok(found) if found.is_file() => {
            // Replacing takes a right to the folder only: ask for that to the file.
            File::options().write(true).open(name)?;
            replace(&fs::canonicalize(name)?, Some(&found), content)
        }
        Err(error) if error.kind() == io::ErrorKind::NotFound && !name.is_symlink() => {
            replace(name, None, content)
        }
        // A link that leads to no file yet is among these: it makes one.
        Ok(_) | Err(_) => fs::write(name, content),
    }
}

fn is_standard_output(found: &Metadata) -> io::Result<bool> {
    let out = File::from(io::stdout().as_fd().try_clone_to_owned()?).metadata()?;
    Ok((out.dev(), out.ino()) == (found.dev(), found.ino()))
}

/// Writes a second file in the same folder and then gives it the name, so that
/// nobody finds a part of the content there. `old` is what has the name so far.
pub fn replace(name: &Path, old: Option<&Metadata>, content: &[u8]) -> io::Result<()> {
    let folder = name.parent().unwrap_or(Path::new(""));
    // Nobody else reads it before it has the old file's permissions.
    let mode = if old.is_some() { 0o600 } else { 0o666 };
    let (file, second) = create_in(folder, mode)?;
    let replaced = fill(file, old, content).and_then(|()| fs::rename(&second, name));
    if replaced.is_err() {
        // What is told is why it could not be done, not why this could not be undone.
        let _ = fs::remove_file(&second);
    }
    replaced
}

/// A new file in the folder, under a name that nothing has.
fn create_in(folder: &Path, mode: u32) -> io::Result<(File, PathBuf)> {
    let mut turn = 0;
    loop {
        let path = folder.join(format!(".jarrovento-{}-{turn}", process::id()));
        let created = File::options()
            .write(true)
            .create_new(true)
            .mode(mode)
            .open(&path);
        match created {
            // Left by an earlier process of this number, which was killed.
            Err(error) if error.kind() == io::ErrorKind::AlreadyExists => turn += 1,
            created => return Ok((created?, path)),
        }
    }
}

fn fill(mut file: File, old: Option<&Metadata>, content: &[u8]) -> io::Result<()> {
    if let Some(old) = old {
        // Only root may give a file away. Where it can't be done the file is the
        // caller's. Permissions come after: a change of owner takes some away.
        let _ = fchown(&file, Some(old.uid()), Some(old.gid()));
        file.set_permissions(old.permissions())?;
    }
    file.write_all(content)?;
    // On the disk before it has the name, or a machine that stops could leave the
    // name with nothing behind it.
    file.sync_all()
}
