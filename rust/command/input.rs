//! What the command reads: no more than it can use.

use std::ffi::{OsStr, OsString};
use std::fs::File;
use std::io::{self, Read};
use std::os::fd::AsFd;
use std::os::unix::ffi::OsStrExt;

use jarrovento::{Key, Refusal, KEY_LENGTH, LONGEST_SEALED};

use crate::failure::Failure;
use crate::hex;

/// How many bytes are read. At one byte more than the longest sealed string each
/// answer is settled: a text or a string of that length is too long, and so is a
/// header, whose bad entry is met within the bytes of 16 strings or right behind
/// them; a day file of that length does not read; a key is shorter by far.
const LIMIT: usize = LONGEST_SEALED + 1;

/// A file or standard input, up to the limit.
pub struct Input {
    name: OsString,
    file: File,
}

impl Input {
    /// The file, or standard input where none is named.
    pub fn open(file: Option<&OsStr>) -> Result<Input, Failure> {
        let (name, opened) = match file {
            Some(name) => (name, File::open(name)),
            None => (OsStr::new("standard input"), standard_input()),
        };
        let name = name.into();
        match opened {
            Ok(file) => Ok(Input { name, file }),
            Err(error) => Err(Failure::File(name, error)),
        }
    }

    /// A file that is open.
    pub fn of(name: &OsStr, file: File) -> Input {
        let name = name.into();
        Input { name, file }
    }

    /// The bytes as they are.
    pub fn bytes(self) -> Result<Vec<u8>, Failure> {
        let mut content = Vec::new();
        match self.file.take(LIMIT as u64).read_to_end(&mut content) {
            Ok(_) => Ok(content),
            Err(error) => Err(Failure::File(self.name, error)),
        }
    }

    /// The bytes that the hex digits stand for.
    pub fn hex(self) -> Result<Vec<u8>, Failure> {
        hex::read(self.file, LIMIT).map_err(|trouble| match trouble {
            hex::Trouble::NotHex => Failure::NotHex,
            hex::Trouble::Unreadable(error) => Failure::File(self.name, error),
        })
    }

    /// Its name and itself, for those who know where to stop.
    pub fn parts(self) -> (OsString, File) {
        (self.name, self.file)
    }
}

/// Without the buffer of `io::Stdin`, which reads beyond what it is asked for.
fn standard_input() -> io::Result<File> {
    Ok(File::from(io::stdin().as_fd().try_clone_to_owned()?))
}

/// The key that a key file holds.
pub fn key(content: Vec<u8>) -> Result<Key, Refusal> {
    Key::try_from(&key_bytes(content)[..])
}

/// The bytes of the key that a key file holds: 48 bytes as they are, or 96 hex digits
/// with white space anywhere. Where it holds no key they are not 48.
pub fn key_bytes(content: Vec<u8>) -> Vec<u8> {
    // Behind the limit there may be more, which nobody has looked at.
    if content.len() == KEY_LENGTH || content.len() == LIMIT {
        return content;
    }
    hex::decode(&content).unwrap_or(content)
}

/// The bytes of an option whose value is hex digits.
pub fn hex_argument(name: &str, digits: &OsStr) -> Result<Vec<u8>, Failure> {
    hex::decode(digits.as_bytes())
        .ok_or_else(|| Failure::usage(format!("{name} is not pairs of hex digits")))
}
