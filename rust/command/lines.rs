//! Sealed records as lines of text: the header, the stretch and the sealed string, the
//! bytes in hex.

use std::io::{BufRead, BufReader, Read};
use std::str;

use jarrovento::Record;

use crate::failure::Failure;
use crate::hex;
use crate::input::Input;

/// What stands for a sealed string without bytes.
const NO_BYTES: &[u8] = b"-";

/// No line that can be of use is longer: the longest header that reads has 16,417 bytes,
/// and no sealed string of a day file 65,536.
const LIMIT: usize = 200_000;

pub struct Line {
    /// Its number, from 1.
    pub number: usize,
    pub header: Vec<u8>,
    pub stretch: u64,
    pub sealed: Vec<u8>,
}

/// The line of a record.
pub fn of(record: &Record) -> String {
    let sealed = match record.sealed {
        [] => String::from_utf8_lossy(NO_BYTES).into_owned(),
        sealed => hex::encode(sealed),
    };
    format!("{} {} {sealed}", hex::encode(record.header), record.stretch)
}

/// The lines of an input, one after the other; those of white space alone are left out.
pub fn read(input: Input) -> impl Iterator<Item = Result<Line, Failure>> {
    let (name, file) = input.parts();
    let mut file = BufReader::new(file);
    let lines = (1..).map_while(move |number| {
        let mut text = Vec::new();
        let room = LIMIT as u64 + 1;
        match (&mut file).take(room).read_until(b'\n', &mut text) {
            Ok(0) => None,
            Ok(_) => Some(line(number, &text)),
            Err(error) => Some(Err(Failure::File(name.clone(), error))),
        }
    });
    lines.filter_map(Result::transpose)
}

/// Nothing for a line of white space.
fn line(number: usize, text: &[u8]) -> Result<Option<Line>, Failure> {
    if text.len() > LIMIT {
        return Err(Failure::Line(number, "is too long"));
    }
    let fields: Vec<&[u8]> = text
        .split(u8::is_ascii_whitespace)
        .filter(|field| !field.is_empty())
        .collect();
    let (header, stretch, sealed) = match fields[..] {
        [] => return Ok(None),
        [header, stretch, sealed] => (header, stretch, sealed),
        _ => {
            return Err(Failure::Line(
                number,
                "is not a header, a stretch and a sealed string",
            ))
        }
    };
    let wrong = |what| Failure::Line(number, what);
    let not_hex = "has a header or a sealed string that is not pairs of hex digits";
    let stretch = str::from_utf8(stretch)
        .ok()
        .and_then(|text| text.parse().ok());
    Ok(Some(Line {
        number,
        header: hex::decode(header).ok_or_else(|| wrong(not_hex))?,
        stretch: stretch.ok_or_else(|| wrong("has a stretch that is not a number of bytes"))?,
        sealed: match sealed {
            NO_BYTES => Vec::new(),
            digits => hex::decode(digits).ok_or_else(|| wrong(not_hex))?,
        },
    }))
}
