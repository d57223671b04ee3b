//! `jarrovento day`: lists, opens and writes day files. `day_edits.rs` has the commands
//! that change one.

use std::collections::HashMap;
use std::ffi::{OsStr, OsString};

use jarrovento::{Day, DayWriter, Record, Refusal, LONGEST_DAY, LONGEST_SEALED};

use crate::arguments::Arguments;
use crate::failure::Failure;
use crate::input::{self, Input};
use crate::{day_edits, lines, output, write_result, HELP};

pub fn run(words: &[OsString]) -> Result<(), Failure> {
    let Some((command, words)) = words.split_first() else {
        return Err(Failure::usage("no command after day"));
    };
    if words.first().is_some_and(|word| word == "--help") {
        return output::write(None, HELP.as_bytes());
    }
    match command.to_str() {
        Some("list") => list(words),
        Some("open") => open(words),
        Some("write") => write(words),
        Some("clear") => day_edits::clear(words),
        Some("add") => day_edits::add(words),
        _ => Err(Failure::usage(format!(
            "no such command: day {}",
            command.display()
        ))),
    }
}

/// A line for each record. The whole file is checked before the first is written.
fn list(words: &[OsString]) -> Result<(), Failure> {
    let (arguments, name) = Arguments::read_with_file(words, &[], &["--hex-out"])?;
    let file = file_named(name)?;
    let mut places = vec![0; Day::places(file.len())];
    let day = Day::read(&file, &mut places).map_err(|refusal| told(refusal, &file))?;
    if arguments.flag("--hex-out") {
        return output::lines(day.records().map(|record| lines::of(&record)));
    }
    let records = day.records().enumerate();
    output::lines(records.map(|(number, record)| shown(number, &record)))
}

/// A record's number, stretch and length, and the strings of its header. These may
/// have come from anywhere: what a terminal would not show as it stands is escaped.
pub fn shown(number: usize, record: &Record) -> String {
    let (stretch, length) = (record.stretch, record.sealed.len());
    let quoted = |string: &&[u8]| format!(" \"{}\"", string.escape_ascii());
    // Each header of a file that reads does read.
    let header = jarrovento::read_header(record.header);
    let strings: String = header
        .iter()
        .flat_map(|strings| strings.iter().map(quoted))
        .collect();
    format!("record {number}, stretch {stretch}, length {length}, header{strings}")
}

fn open(words: &[OsString]) -> Result<(), Failure> {
    let values = ["--record", "--key", "--out"];
    let (arguments, name) = Arguments::read_with_file(words, &values, &["--hex-out"])?;
    let record = arguments.number("--record", "the number of a record")?;
    let key_file = Input::open(Some(arguments.required("--key")?))?.bytes()?;
    let file = file_named(name)?;
    // All is read. From here on the tests of the request: 9, and then the key.
    let key = input::key_bytes(key_file);
    let mut out = vec![0; LONGEST_SEALED];
    let text = jarrovento::open_record(&key, &file, record, &mut out)
        .map_err(|refusal| told(refusal, &file))?;
    write_result(&arguments, text)
}

pub fn file_named(name: &OsStr) -> Result<Vec<u8>, Failure> {
    Input::open(Some(name))?.bytes()
}

/// The refusal, and with 9 which of its meanings it is.
pub fn told(refusal: Refusal, file: &[u8]) -> Failure {
    if refusal != Refusal::DayUnreadable {
        return refusal.into();
    }
    let why = match Day::count(file) {
        Err(_) => "the file does not read".to_string(),
        Ok(records) => last_of(records, "record"),
    };
    Failure::RefusedWith(refusal, why)
}

/// Which numbers a file that reads has: of its records, or of its headers.
pub fn last_of(count: usize, what: &str) -> String {
    match count {
        0 => format!("the file reads, and has no {what}s"),
        _ => format!("the file reads, and its last {what} is {}", count - 1),
    }
}

fn write(words: &[OsString]) -> Result<(), Failure> {
    let arguments = Arguments::read(words, &["--in", "--out"], &["--hex-out"])?;
    let (writer, outside) = collected(Input::open(arguments.value("--in"))?)?;
    let mut out = vec![0; LONGEST_DAY];
    let file = writer.write(&mut out).map_err(|refusal| match outside {
        Some(why) if refusal == Refusal::DayUnreadable => Failure::RefusedWith(refusal, why),
        _ => refusal.into(),
    })?;
    write_result(&arguments, file)
}

type Writer = DayWriter<Vec<u8>, Vec<u64>>;

/// The records of the lines, up to the one with which the file is too long; and of the
/// first that can't be in a day file, why. Equal headers are kept once, in the order in
/// which they come.
fn collected(input: Input) -> Result<(Writer, Option<String>), Failure> {
    let mut writer = Writer::new();
    let mut outside = None;
    let mut numbers = HashMap::new();
    // Of the file: at first the three counts.
    let mut length = 12;
    for line in lines::read(input) {
        let line = line?;
        outside = outside.or_else(|| {
            let why = outside_layout(&line.header, line.stretch)?;
            Some(format!("line {}: {why}", line.number))
        });
        let number = *numbers.entry(line.header).or_insert_with_key(|header| {
            // A header after its length.
            length += 2 + header.len();
            writer.header(header)
        });
        // A record, and its entry of the index.
        length += 7 + line.sealed.len() + 4;
        writer.record(number, line.stretch, &line.sealed);
        if length > LONGEST_DAY {
            break;
        }
    }
    Ok((writer, outside))
}

/// Why no record under this header and with this stretch can be in a day file: for the
/// message alone. The answer is the library's.
pub fn outside_layout(header: &[u8], stretch: u64) -> Option<String> {
    if let Err(entry) = jarrovento::read_header(header) {
        return Some(format!("the header does not read, {entry}"));
    }
    (stretch > 64).then(|| "the stretch is above 64 bytes".to_string())
}
