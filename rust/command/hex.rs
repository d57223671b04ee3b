//! Hex digits, and the bytes that they stand for.

use std::io::{self, BufReader, Read};

/// Why there are no bytes.
pub enum Trouble {
    NotHex,
    Unreadable(io::Error),
}

/// The bytes of pairs of hex digits, with white space anywhere. After `limit` bytes
/// it stops, whatever follows.
pub fn read(source: impl Read, limit: usize) -> Result<Vec<u8>, Trouble> {
    let mut digits = BufReader::new(source).bytes().filter_map(digit);
    let mut bytes = Vec::new();
    while bytes.len() < limit {
        let Some(high) = digits.next().transpose()? else {
            break;
        };
        let low = digits.next().transpose()?.ok_or(Trouble::NotHex)?;
        bytes.push(16 * high + low);
    }
    Ok(bytes)
}

/// The number of a hex digit; nothing for white space.
fn digit(byte: io::Result<u8>) -> Option<Result<u8, Trouble>> {
    match byte {
        Ok(byte) if byte.is_ascii_whitespace() => None,
        Ok(byte) => {
            let digit = char::from(byte).to_digit(16);
            Some(digit.map(|digit| digit as u8).ok_or(Trouble::NotHex))
        }
        Err(error) => Some(Err(Trouble::Unreadable(error))),
    }
}

/// The bytes of a string of digits at hand.
pub fn decode(digits: &[u8]) -> Option<Vec<u8>> {
    read(digits, usize::MAX).ok()
}

pub fn encode(bytes: &[u8]) -> String {
    bytes.iter().map(|byte| format!("{byte:02x}")).collect()
}
