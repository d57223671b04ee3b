//! The demo's part on a day of records in one file.

use jarrovento::{Day, Key, Record, Refusal};

use crate::day::shown;
use crate::demo::expect;
use crate::failure::Failure;

pub const FILE: &[u8] = include_bytes!("../sample/pauses.day");
pub const PAUSES: [&str; 4] = ["1,204 s", "870 ms", "1.204 s", "1,204 s"];

/// The last byte of the number of record 0's header.
const HEADER_OF_0: usize = 0x49;

pub fn story(key: &Key) -> Result<String, Failure> {
    let mut places = vec![0; Day::places(FILE.len())];
    let day = Day::read(FILE, &mut places)?;
    expect(day.len() == PAUSES.len(), "the day file has its records")?;
    let mut listed = String::new();
    for (number, (record, pause)) in day.records().zip(PAUSES).enumerate() {
        expect(
            opened(key, &record)? == pause.as_bytes(),
            "each record of the day file opens to its text",
        )?;
        listed += &format!("  {}\n  text          {pause}\n", shown(number, &record));
    }

    let misplaced = refusal_after(key, FILE.len() - 1, 1)?;
    expect(
        misplaced == Refusal::DayUnreadable,
        "a wrong place in the index is noticed",
    )?;
    // Header 2 in place of header 0.
    let renamed = refusal_after(key, HEADER_OF_0, 2)?;
    expect(
        renamed == Refusal::CheckFails,
        "a record is refused under another record's header",
    )?;
    Ok(format!(
        "\
A day of records in one file, rust/sample/pauses.day
{listed}
Record 0 of the same file, with the place of the last record wrong by one
  answer        {misplaced}
  The file is read whole or not at all: what an index entry names is the record's
  own first byte, and no byte is left over. So whoever has the file knows which
  records are in it.

Record 0, with the number of its header made that of host n8
  answer        {renamed}
  The file reads: its layout is right. That a record is under its own header is
  the check's to tell, as before. The file has no check of its own: whoever writes
  it anew can leave a record out.
"
    ))
}

fn opened(key: &Key, record: &Record) -> Result<Vec<u8>, Refusal> {
    let mut out = [0; 64];
    Ok(record.open(key, &mut out)?.to_vec())
}

/// What opening record 0 answers where a byte of the file is changed.
fn refusal_after(key: &Key, place: usize, change: u8) -> Result<Refusal, Failure> {
    let mut changed = FILE.to_vec();
    changed[place] ^= change;
    let opened = key.open_record(&changed, 0, &mut [0; 64]).err();
    opened.ok_or(Failure::Demo("a changed day file is refused"))
}
