//! Why the command did not do its work, and the exit status that says so.

use std::ffi::OsString;
use std::fmt;
use std::io;

use jarrovento::Refusal;

pub enum Failure {
    /// The library's refusal, whose number is the exit status.
    Refused(Refusal),
    /// A refusal, and more words on it.
    RefusedWith(Refusal, String),
    /// The command line is wrong.
    Usage(String),
    /// What was read is not hex digits, though `--hex-in` says so.
    NotHex,
    /// The line of this number is not what it should be.
    Line(usize, &'static str),
    /// A step of the demo came out otherwise than it tells.
    Demo(&'static str),
    /// A file, or a standard stream, can't be read or written.
    File(OsString, io::Error),
}

impl Failure {
    pub fn usage(message: impl Into<String>) -> Failure {
        Failure::Usage(message.into())
    }

    /// The refusal's number; for the rest the values of BSD's sysexits.h, which lie
    /// far above.
    pub fn exit_status(&self) -> u8 {
        match self {
            Failure::Refused(refusal) | Failure::RefusedWith(refusal, _) => refusal.number() as u8,
            Failure::Usage(_) => 64,
            Failure::NotHex | Failure::Line(..) => 65,
            Failure::Demo(_) => 70,
            Failure::File(..) => 74,
        }
    }
}

impl fmt::Display for Failure {
    fn fmt(&self, f: &mut fmt::Formatter<'_>) -> fmt::Result {
        match self {
            Failure::Refused(refusal) => refusal.fmt(f),
            Failure::RefusedWith(refusal, more) => write!(f, "{refusal}; {more}"),
            Failure::Usage(message) => write!(f, "{message}; see jarrovento --help"),
            Failure::NotHex => write!(f, "what was read is not pairs of hex digits"),
            Failure::Line(number, what) => write!(f, "line {number} {what}"),
            Failure::Demo(step) => write!(f, "the demo came out otherwise: {step}"),
            Failure::File(name, error) => write!(f, "{}: {error}", name.display()),
        }
    }
}

impl From<Refusal> for Failure {
    fn from(refusal: Refusal) -> Failure {
        Failure::Refused(refusal)
    }
}
