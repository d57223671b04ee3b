//! Document 01's door: headers, the order of the refusals, and what each call
//! leaves in its output. Requests E2 and E5 are followed where they add to it.

use crate::figure5::{decrypt, encrypt};
use crate::figure6::Key;

/// The longest stretch, in bytes.
pub(crate) const STRETCH_LIMIT: u64 = 64;
/// The longest sealed string, in bytes.
const SEALED_LIMIT: usize = 65_536;
/// The longest header string, in bytes.
const ITEM_LIMIT: usize = 1_024;

/// The answer number, document 01's or a request's, and the length returned with it;
/// beside answer 3 the number of the entry at which the header fails (request E5),
/// beside every other 0.
#[derive(Clone, Copy, Debug, PartialEq, Eq)]
pub struct Answer {
    pub number: u32,
    pub length: usize,
    pub place: u64,
}

pub(crate) fn done(length: usize) -> Answer {
    Answer {
        number: 0,
        length,
        place: 0,
    }
}

pub(crate) fn refusal(number: u32) -> Answer {
    Answer {
        number,
        length: 0,
        place: 0,
    }
}

fn unreadable(place: u64) -> Answer {
    Answer {
        place,
        ..refusal(3)
    }
}

/// The header's strings, the nonce first: a count from 1 to 16, then each
/// string after its two-byte length, and nothing after the last. Otherwise which
/// entry failed, by request E5: 0 for the count itself, 1 to 16 for a string whose
/// length bytes are missing, are too large or run past the end, 17 for leftover
/// bytes after the last string.
pub fn read_header(header: &[u8]) -> Result<Vec<Vec<u8>>, u64> {
    let (&count, mut rest) = header.split_first().ok_or(0_u64)?;
    if !(1..=16).contains(&count) {
        return Err(0);
    }
    let mut strings = Vec::new();
    for entry in 1..=u64::from(count) {
        let (string, after) = read_string(rest).ok_or(entry)?;
        strings.push(string.to_vec());
        rest = after;
    }
    match rest {
        [] => Ok(strings),
        _ => Err(17),
    }
}

/// The first string and all that follows it.
fn read_string(bytes: &[u8]) -> Option<(&[u8], &[u8])> {
    let (length, rest) = bytes.split_first_chunk()?;
    let length = usize::from(u16::from_be_bytes(*length));
    if length > ITEM_LIMIT {
        return None;
    }
    rest.split_at_checked(length)
}

/// Puts the header of a log first in `out`: the four items, each of them in any
/// case. Document 01 leaves out a collector or a locale that has no bytes; request
/// E2 overrides it here, because a host with the locale "de" and one with a
/// collector called "de" had the same header then.
pub fn log_header(
    nonce: &[u8],
    host: &[u8],
    collector: &[u8],
    locale: &[u8],
    out: &mut [u8],
) -> Answer {
    let items = [nonce, host, collector, locale];
    if items.iter().any(|item| item.len() > ITEM_LIMIT) {
        return refusal(8);
    }
    let header = write_header(&items);
    let Some(place) = out.get_mut(..header.len()) else {
        return refusal(6);
    };
    place.copy_from_slice(&header);
    done(header.len())
}

/// The count, and then each item, one without bytes as a string of length 0.
fn write_header(items: &[&[u8]; 4]) -> Vec<u8> {
    let mut header = vec![4];
    for item in items {
        write_string(&mut header, item);
    }
    header
}

/// A string of at most 1,024 bytes after its length, high byte first.
fn write_string(header: &mut Vec<u8>, string: &[u8]) {
    header.push((string.len() >> 8) as u8);
    header.push(string.len() as u8);
    header.extend_from_slice(string);
}

/// Tests 1 to 3, which sealing and opening have in common. A stretch that
/// passes fits a `usize`.
fn read_inputs(
    key: &[u8],
    header: &[u8],
    stretch: u64,
) -> Result<(Key, Vec<Vec<u8>>, usize), Answer> {
    let key = Key::read(key).ok_or(refusal(1))?;
    if stretch > STRETCH_LIMIT {
        return Err(refusal(2));
    }
    let header = read_header(header).map_err(unreadable)?;
    Ok((key, header, stretch as usize))
}

/// Puts the sealed string first in `out`.
pub fn seal(key: &[u8], header: &[u8], stretch: u64, text: &[u8], out: &mut [u8]) -> Answer {
    let (key, header, stretch) = match read_inputs(key, header, stretch) {
        Ok(inputs) => inputs,
        Err(answer) => return answer,
    };
    if text.len() > SEALED_LIMIT - stretch {
        return refusal(4);
    }
    let Some(place) = out.get_mut(..text.len() + stretch) else {
        return refusal(6);
    };
    place.copy_from_slice(&encrypt(&key, &header, stretch, text));
    done(place.len())
}

/// Puts the text first in `out`, then as many zero bytes as the stretch; after
/// a failed check, zero bytes alone, as many as the sealed string has.
pub fn open(key: &[u8], header: &[u8], stretch: u64, sealed: &[u8], out: &mut [u8]) -> Answer {
    let (key, header, stretch) = match read_inputs(key, header, stretch) {
        Ok(inputs) => inputs,
        Err(answer) => return answer,
    };
    if sealed.len() > SEALED_LIMIT {
        return refusal(4);
    }
    if sealed.len() < stretch {
        return refusal(5);
    }
    let Some(place) = out.get_mut(..sealed.len()) else {
        return refusal(6);
    };
    place.fill(0);
    let Some(text) = decrypt(&key, &header, stretch, sealed) else {
        return refusal(7);
    };
    place[..text.len()].copy_from_slice(&text);
    done(text.len())
}
