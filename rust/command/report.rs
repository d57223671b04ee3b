//! `jarrovento report`: what the pauses of a day file come to.

use std::ffi::OsString;

use jarrovento::{Day, Mean, Record, Refusal, Report, LONGEST_REPORT, LONGEST_SEALED};

use crate::arguments::Arguments;
use crate::day::{file_named, told};
use crate::failure::Failure;
use crate::input::{self, Input};
use crate::output;

pub fn run(words: &[OsString]) -> Result<(), Failure> {
    let (arguments, name) = Arguments::read_with_file(words, &["--key", "--out"], &["--long"])?;
    let key_file = Input::open(Some(arguments.required("--key")?))?.bytes()?;
    let file = file_named(name)?;
    // All is read. From here on the tests of the request: 9, and then the key.
    let key = input::key_bytes(key_file);
    let out = arguments.value("--out");
    if arguments.flag("--long") {
        let text = long(&key, &file).map_err(|refusal| told(refusal, &file))?;
        return output::write(out, text.as_bytes());
    }
    let mut line = [0; LONGEST_REPORT];
    let line =
        jarrovento::report_line(&key, &file, &mut line).map_err(|refusal| told(refusal, &file))?;
    output::write(out, line)
}

/// The figures with their names, and for which refusals the records were refused.
fn long(key: &[u8], file: &[u8]) -> Result<String, Refusal> {
    let report = jarrovento::report(key, file)?;
    let refusals = refusals(key, file)?;
    Ok(shown(&report, &refusals))
}

/// The refusal of each record that is refused: every record is opened and read by
/// itself.
fn refusals(key: &[u8], file: &[u8]) -> Result<Vec<Refusal>, Refusal> {
    let mut places = vec![0; Day::places(file.len())];
    let mut out = vec![0; LONGEST_SEALED];
    let records = Day::read(file, &mut places)?.records();
    let refusals = records.filter_map(|record| pause_of(key, &record, &mut out).err());
    Ok(refusals.collect())
}

/// The microseconds of a record.
fn pause_of(key: &[u8], record: &Record, out: &mut [u8]) -> Result<u64, Refusal> {
    let text = jarrovento::open(key, record.header, record.stretch, record.sealed, out)?;
    jarrovento::read_pause(record.header, text)
}

fn shown(report: &Report, refusals: &[Refusal]) -> String {
    let Report {
        read,
        refused,
        sum,
        longest,
        mean,
    } = report;
    let counted: String = Refusal::ALL
        .iter()
        .map(|one| count(one, refusals))
        .collect();
    format!(
        "\
records read     {read}
records refused  {refused}
{counted}\
sum              {sum} microseconds, {}
longest          {longest} microseconds, {}
mean             {mean} microseconds, {}
",
        seconds(*sum),
        seconds(*longest),
        seconds_of_mean(mean)
    )
}

/// A line on how many are this refusal; nothing where none is.
fn count(refusal: &Refusal, refusals: &[Refusal]) -> String {
    let (number, meaning) = (refusal.number(), refusal.meaning());
    match refusals.iter().filter(|one| *one == refusal).count() {
        0 => String::new(),
        count => format!("  by refusal {number:<2}  {count}: {meaning}\n"),
    }
}

/// Seconds, with a point and six digits after it, so that nobody takes it for a
/// thousands mark.
fn seconds(microseconds: u64) -> String {
    format!(
        "{}.{:06} s",
        microseconds / 1_000_000,
        microseconds % 1_000_000
    )
}

/// Nothing is rounded: what is left below a microsecond follows as a fraction.
fn seconds_of_mean(Mean { over, under }: &Mean) -> String {
    let whole = seconds(over / under);
    match over % under {
        0 => whole,
        left => format!("{whole} and {left}/{under} of a microsecond"),
    }
}
