//! Request E12: the text of a pause, read by its locale in exact microseconds.

use crate::document01::read_header;

/// The decimal mark of each locale.
const MARKS: [(&[u8], u8); 4] = [(b"de", b','), (b"fr", b','), (b"it", b','), (b"en", b'.')];

/// The microseconds of an opened text under its header; otherwise 3, the header does
/// not read, 15, its locale is unknown or it has not four items, or 16, the text is
/// no pause.
pub fn read_pause(header: &[u8], text: &[u8]) -> Result<u64, u32> {
    let items = read_header(header).map_err(|_| 3_u32)?;
    let mark = mark_of(&items).ok_or(15_u32)?;
    microseconds(text, mark).ok_or(16)
}

/// The mark of the fourth of four items.
fn mark_of(items: &[Vec<u8>]) -> Option<u8> {
    let [_nonce, _host, _collector, locale] = items else {
        return None;
    };
    let row = MARKS.iter().find(|(name, _)| name == locale)?;
    Some(row.1)
}

/// Digits, perhaps a mark with digits after it, one space, and ms or s.
fn microseconds(text: &[u8], mark: u8) -> Option<u64> {
    // What stands before the space has none, and what stands after it neither.
    let (number, unit) = cut_at(text, b' ')?;
    let (whole, fraction) = match cut_at(number, mark) {
        Some((whole, fraction)) => (decimal(whole, 9)?, thousandths(fraction)?),
        None => (decimal(number, 9)?, 0),
    };
    let of_unit = match unit {
        b"ms" => 1,
        b"s" => 1_000,
        _ => return None,
    };
    Some((1_000 * whole + fraction) * of_unit)
}

/// What stands before and after the first such byte.
fn cut_at(text: &[u8], byte: u8) -> Option<(&[u8], &[u8])> {
    let place = text.iter().position(|&found| found == byte)?;
    Some((&text[..place], &text[place + 1..]))
}

/// The digits after the mark: "2" is 200 thousandths.
fn thousandths(digits: &[u8]) -> Option<u64> {
    let value = decimal(digits, 3)?;
    Some(value * [1_000, 100, 10, 1][digits.len()])
}

/// One digit up to so many, and nothing else.
fn decimal(digits: &[u8], most: usize) -> Option<u64> {
    if digits.is_empty() || digits.len() > most || !digits.iter().all(u8::is_ascii_digit) {
        return None;
    }
    std::str::from_utf8(digits).ok()?.parse().ok()
}
