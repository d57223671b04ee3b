//! `jarrovento day clear` and `day add`, which change a day file.

use std::ffi::{OsStr, OsString};

use jarrovento::{Day, DayBuffer, Refusal, LONGEST_DAY, LONGEST_SEALED};

use crate::arguments::Arguments;
use crate::change::Change;
use crate::day::{last_of, outside_layout};
use crate::failure::Failure;
use crate::input::{self, Input};
use crate::{header_given, input_given};

pub fn clear(words: &[OsString]) -> Result<(), Failure> {
    let (arguments, name) = Arguments::read_with_file(words, &["--drop"], &[])?;
    let dropped = record_numbers(arguments.required("--drop")?)?;
    changed(name, |day| {
        let records = Day::count(day.file())?;
        match (day.clear(&dropped), wrong_number(&dropped, records)) {
            (Ok(_), _) => Ok(()),
            (Err(refusal), Some(why)) => Err(Failure::RefusedWith(refusal, why)),
            (Err(refusal), None) => Err(refusal.into()),
        }
    })
}

pub fn add(words: &[OsString]) -> Result<(), Failure> {
    let values = [
        "--header",
        "--header-file",
        "--header-number",
        "--stretch",
        "--key",
        "--in",
    ];
    let (arguments, name) = Arguments::read_with_file(words, &values, &["--hex-in"])?;
    // All but the day file is read before: nobody waits for that while this one waits
    // for its input.
    let new = New::given(&arguments)?;
    changed(name, |day| new.append_to(day))
}

/// Reads a day file, changes it, and replaces it by what comes of that.
fn changed(
    name: &OsStr,
    change: impl FnOnce(&mut DayBuffer) -> Result<(), Failure>,
) -> Result<(), Failure> {
    let file = Change::begin(name)?;
    let mut buffer = file.bytes()?;
    let length = buffer.len();
    // Room for the longest file; one that is longer does not read.
    buffer.resize(LONGEST_DAY.max(length), 0);
    let mut day = DayBuffer::read(&mut buffer, length)
        .map_err(|refusal| Failure::RefusedWith(refusal, "the file does not read".into()))?;
    change(&mut day)?;
    file.end(day.file())
}

/// Numbers with commas between them; none where there is nothing.
fn record_numbers(list: &OsStr) -> Result<Vec<u64>, Failure> {
    let numbers = match list.to_str() {
        Some("") => Some(Vec::new()),
        Some(list) => list.split(',').map(|number| number.parse().ok()).collect(),
        None => None,
    };
    numbers.ok_or_else(|| {
        Failure::usage(format!(
            "--drop {} is not a list of record numbers like 1,4,7",
            list.display()
        ))
    })
}

/// Of the first number of the list that is wrong, why: for the message alone.
fn wrong_number(dropped: &[u64], records: usize) -> Option<String> {
    let mut before = None;
    for &number in dropped {
        if let Some(before) = before.filter(|&before| before >= number) {
            return Some(format!("{number} is listed after {before}"));
        }
        if number >= records as u64 {
            return Some(last_of(records, "record"));
        }
        before = Some(number);
    }
    None
}

/// What a record is added under.
enum Under {
    /// The header of this number.
    Number(u64),
    /// This header, which the file has or gets.
    Header(Vec<u8>),
}

impl Under {
    fn given(arguments: &Arguments) -> Result<Under, Failure> {
        let options = ["--header", "--header-file", "--header-number"];
        let given = |name: &&str| arguments.value(name).is_some();
        match options.into_iter().filter(given).collect::<Vec<_>>()[..] {
            [] => Err(Failure::usage(
                "--header, --header-file or --header-number is missing",
            )),
            ["--header-number"] => {
                let number = arguments.number("--header-number", "the number of a header")?;
                Ok(Under::Number(number))
            }
            [_] => Ok(Under::Header(header_given(arguments)?)),
            [one, other, ..] => Err(Failure::usage(format!("{one} and {other} are both given"))),
        }
    }

    /// The number that names the header, and the header. One that the file has is not
    /// brought a second time.
    fn found_in(self, day: &DayBuffer) -> Result<(u64, Vec<u8>), Failure> {
        let mut places = vec![0; Day::places(day.file().len())];
        let mut headers = day.day(&mut places)?.headers();
        let count = headers.len();
        match self {
            Under::Number(number) => {
                let place = usize::try_from(number).ok();
                let found = place.and_then(|place| headers.nth(place));
                // As the library has it: no header is brought that would read.
                let missing =
                    || Failure::RefusedWith(Refusal::DayUnreadable, last_of(count, "header"));
                Ok((number, found.ok_or_else(missing)?.to_vec()))
            }
            Under::Header(header) => {
                let place = headers.position(|there| there == header);
                Ok((place.unwrap_or(count) as u64, header))
            }
        }
    }
}

/// A record to be added.
struct New {
    under: Under,
    stretch: u64,
    /// What is in the key file, where there is one: then `input` is a text, which is
    /// sealed. Otherwise it is a sealed string.
    key_file: Option<Vec<u8>>,
    input: Vec<u8>,
}

impl New {
    fn given(arguments: &Arguments) -> Result<New, Failure> {
        let under = Under::given(arguments)?;
        let stretch = arguments.number("--stretch", "a number of bytes")?;
        let key_file = match arguments.value("--key") {
            Some(name) => Some(Input::open(Some(name))?.bytes()?),
            None => None,
        };
        Ok(New {
            under,
            stretch,
            key_file,
            input: input_given(arguments)?,
        })
    }

    fn append_to(self, day: &mut DayBuffer) -> Result<(), Failure> {
        let (number, header) = self.under.found_in(day)?;
        let sealed = match self.key_file {
            Some(content) => sealed(content, &header, self.stretch, &self.input)?,
            None => self.input,
        };
        let length = day.file().len();
        match day.append(number, &header, self.stretch, &sealed) {
            Ok(_) => Ok(()),
            Err(refusal) => {
                // Outside the layout, or too long for it.
                let why = outside_layout(&header, self.stretch).unwrap_or_else(|| {
                    format!("the file has {length} bytes of at most {LONGEST_DAY}")
                });
                Err(Failure::RefusedWith(refusal, why))
            }
        }
    }
}

fn sealed(key_file: Vec<u8>, header: &[u8], stretch: u64, text: &[u8]) -> Result<Vec<u8>, Refusal> {
    let mut out = vec![0; LONGEST_SEALED];
    let sealed = input::key(key_file)?.seal(header, stretch, text, &mut out)?;
    Ok(sealed.to_vec())
}
