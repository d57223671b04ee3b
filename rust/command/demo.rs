//! The customer's story, told on the sample: what the header is for, why all of its
//! items are written, what the stretch is for, what a day file is, and what its pauses
//! come to. A step that comes out otherwise than told is a failure.

use jarrovento::{log_header, Key, Refusal, LONGEST_LOG_HEADER};

use crate::demo_day;
use crate::demo_report;
use crate::failure::Failure;
use crate::hex;
use crate::input;

const KEY_FILE: &[u8] = include_bytes!("../sample/not-secret.key");
const RECORD: &str = include_str!("../sample/record.txt");
const NONCE: &[u8] = &[1];

/// The headers of the two hosts, and of the first with a collector of the name that
/// its locale has, and no locale.
struct Headers {
    n7: Vec<u8>,
    n8: Vec<u8>,
    n7_by_collector: Vec<u8>,
}

pub fn story() -> Result<String, Failure> {
    let key = input::key(KEY_FILE.to_vec())?;
    let headers = Headers {
        n7: header_of("n7", "", "de")?,
        n8: header_of("n8", "", "en")?,
        n7_by_collector: header_of("n7", "de", "")?,
    };
    let stretch_of_4 = with_a_stretch(&key, &headers)?;
    let collector = with_a_collector(&key, &headers)?;
    let stretch_of_0 = without_a_stretch(&key, &headers)?;
    let day = demo_day::story(&key)?;
    let report = demo_report::story(&key)?;
    Ok(format!(
        "\
A pause was logged as \"{RECORD}\" on host n7. Its locale is de, where the comma is
the decimal mark: a little over a second. Where the locale is en the same text
reads as twenty minutes. So the record is sealed with host and locale as header.

{stretch_of_4}
{collector}
{stretch_of_0}
What a stretch of 0 can promise: the sealed string is no longer than the text,
and it opens to the text under its own header; that is proved. If AEZ is as strong
as its authors hold, it also hides the text from those without the key, and a
change anywhere, in string or header, scrambles the whole text.
What it can't promise: that a wrong string or a wrong header is noticed. Every
string opens to something, and only the reader can tell that it makes no sense.

{day}
{report}"
    ))
}

fn with_a_stretch(key: &Key, Headers { n7, n8, .. }: &Headers) -> Result<String, Failure> {
    let sealed = seal_record(key, n7, 4)?;
    let at_home = open_record(key, n7, 4, &sealed)?;
    expect(at_home == RECORD.as_bytes(), "the record opens on its host")?;
    let refusal = Refusal::CheckFails;
    expect(
        open_record(key, n8, 4, &sealed) == Err(refusal),
        "the record is refused under another host's header",
    )?;
    Ok(format!(
        "\
Sealed on n7, with a stretch of 4 bytes
  header        {}
  sealed        {}
  {} bytes of text and 4 of stretch, as {} bytes.

Opened on n7, under the same header
  text          {}

Opened under the header of another host, n8 with locale en
  header        {}
  answer        {refusal}
  No byte of the text is handed out. If AEZ is as strong as its authors hold, a
  string that was not sealed under this header passes the check about once in
  2^32 times, 32 being the bits of 4 bytes; a longer stretch makes that rarer.
",
        hex::encode(n7),
        hex::encode(&sealed),
        RECORD.len(),
        sealed.len(),
        String::from_utf8_lossy(&at_home),
        hex::encode(n8),
    ))
}

/// What request E2 ended.
fn with_a_collector(key: &Key, headers: &Headers) -> Result<String, Failure> {
    let before = header_before_e2("n7", "", "de");
    expect(
        before == header_before_e2("n7", "de", ""),
        "under the old rule a locale de and a collector de had one header",
    )?;
    let sealed = seal_record(key, &headers.n7, 4)?;
    let refusal = Refusal::CheckFails;
    expect(
        open_record(key, &headers.n7_by_collector, 4, &sealed) == Err(refusal),
        "the record is refused where de is the collector",
    )?;
    Ok(format!(
        "\
Opened under the header of n7 with a collector called de, and no locale
  locale de     {}
  collector de  {}
  answer        {refusal}
  old, for both {}
  A collector or a locale without bytes used to be left out, so that these two had
  one header, and a record of one opened under the other. Now nonce, host, collector
  and locale are always written, one without bytes as a string of length 0, and the
  record is bound to each of them by itself.
",
        hex::encode(&headers.n7),
        hex::encode(&headers.n7_by_collector),
        hex::encode(&before),
    ))
}

fn without_a_stretch(key: &Key, Headers { n7, n8, .. }: &Headers) -> Result<String, Failure> {
    let sealed = seal_record(key, n7, 0)?;
    expect(sealed.len() == RECORD.len(), "a stretch of 0 adds nothing")?;
    let at_home = open_record(key, n7, 0, &sealed)?;
    expect(
        at_home == RECORD.as_bytes(),
        "with a stretch of 0 the record opens on its host",
    )?;
    let elsewhere = open_record(key, n8, 0, &sealed)?;
    expect(
        elsewhere != RECORD.as_bytes(),
        "with a stretch of 0 another text opens under another host's header",
    )?;
    Ok(format!(
        "\
The same record with a stretch of 0
  sealed on n7  {}
  opened on n7  {}
  under n8      {}, as hex: another text, and no refusal
",
        hex::encode(&sealed),
        String::from_utf8_lossy(&at_home),
        hex::encode(&elsewhere),
    ))
}

pub fn expect(holds: bool, step: &'static str) -> Result<(), Failure> {
    if holds {
        Ok(())
    } else {
        Err(Failure::Demo(step))
    }
}

fn header_of(host: &str, collector: &str, locale: &str) -> Result<Vec<u8>, Refusal> {
    let [host, collector, locale] = [host, collector, locale].map(str::as_bytes);
    let mut out = [0; LONGEST_LOG_HEADER];
    let header = log_header(NONCE, host, collector, locale, &mut out)?;
    Ok(header.to_vec())
}

/// The header by the rule of before: a collector or a locale without bytes is left
/// out. For short items only.
fn header_before_e2(host: &str, collector: &str, locale: &str) -> Vec<u8> {
    let mut items = vec![NONCE, host.as_bytes()];
    let optional = [collector, locale].map(str::as_bytes);
    items.extend(optional.into_iter().filter(|item| !item.is_empty()));
    let mut header = vec![items.len() as u8];
    for item in items {
        header.extend([0, item.len() as u8]);
        header.extend(item);
    }
    header
}

fn seal_record(key: &Key, header: &[u8], stretch: u64) -> Result<Vec<u8>, Refusal> {
    let mut out = [0; 64];
    let sealed = key.seal(header, stretch, RECORD.as_bytes(), &mut out)?;
    Ok(sealed.to_vec())
}

fn open_record(key: &Key, header: &[u8], stretch: u64, sealed: &[u8]) -> Result<Vec<u8>, Refusal> {
    let mut out = [0; 64];
    let text = key.open(header, stretch, sealed, &mut out)?;
    Ok(text.to_vec())
}
