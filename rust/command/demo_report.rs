//! The demo's last part: the day's pauses, read by their locale and summed.

use jarrovento::{read_header, read_pause, Day, Key, Record, Refusal};

use crate::demo::expect;
use crate::demo_day::{FILE, PAUSES};
use crate::failure::Failure;

/// What each pause of the day comes to, in microseconds.
const EXPECTED: [Result<u64, Refusal>; PAUSES.len()] = [
    Ok(1_204_000),
    Ok(870_000),
    Ok(1_204_000),
    Err(Refusal::NotAPause),
];

pub fn story(key: &Key) -> Result<String, Failure> {
    let mut places = vec![0; Day::places(FILE.len())];
    let mut listed = String::new();
    let day = Day::read(FILE, &mut places)?;
    for ((record, pause), expected) in day.records().zip(PAUSES).zip(EXPECTED) {
        let read = read_pause(record.header, pause.as_bytes());
        expect(read == expected, "each pause is read by its locale")?;
        let value = match read {
            Ok(microseconds) => format!("{microseconds} microseconds"),
            Err(refusal) => refusal.to_string(),
        };
        let locale = locale_of(&record)?;
        listed += &format!("  {pause:<7} in {locale} {value}\n");
    }

    let report = key.report(FILE)?;
    let read = EXPECTED.iter().flatten();
    expect(
        report.read == read.clone().count() as u64 && report.refused == 1,
        "the report counts the records read and the one refused",
    )?;
    expect(
        report.sum == read.sum::<u64>(),
        "the report sums the pauses of the day",
    )?;
    Ok(format!(
        "\
What the pauses of that day come to, each by the locale of its header
{listed}  report        {report}
  Read, refused, sum, longest and mean, in microseconds, the mean as a fraction in
  lowest terms. A comma is read where the locale, which the record was sealed with,
  has it for a decimal mark, and nowhere else. So \"{}\" of n7 is a little over a
  second, the same text of n8 is refused, and neither is ever twenty minutes.
",
        PAUSES[0]
    ))
}

/// The last of the four strings of a record's header.
fn locale_of(record: &Record) -> Result<String, Refusal> {
    let strings = read_header(record.header)?;
    let locale = strings.last().copied().unwrap_or_default();
    Ok(locale.escape_ascii().to_string())
}
