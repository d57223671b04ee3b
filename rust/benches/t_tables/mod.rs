//! AEZ in plain Rust with T-tables, the fastest plain way that a user could pick: no
//! unsafe code, no instruction of the processor's for AES, no package. Written from
//! Figures 5 and 6 of the AEZ paper, as `docs/FIGURES.md` reads them, and from document
//! 01's answers; it shares nothing with the proved library or the second program. Its
//! time depends on secrets, by way of the tables.

mod aes;
mod core;
mod hash;
mod key;
mod tiny;

use key::Key;

/// Enciphering or deciphering.
#[derive(Clone, Copy, PartialEq)]
enum Way {
    There,
    Back,
}

const LONGEST: usize = 65_536;

/// The sealed string, which stands first in the output; none where document 01 refuses.
pub fn seal<'a>(
    key: &[u8],
    header: &[u8],
    stretch: u64,
    text: &[u8],
    out: &'a mut [u8],
) -> Option<&'a [u8]> {
    let (key, stretch) = (Key::new(key.try_into().ok()?), read_stretch(stretch)?);
    let delta = hash::hash(&key, stretch, header)?;
    let length = text.len() + stretch;
    if LONGEST < length {
        return None;
    }
    let sealed = out.get_mut(..length)?;
    if text.is_empty() {
        hash::prf(&key, delta, sealed);
    } else {
        sealed[..text.len()].copy_from_slice(text);
        sealed[text.len()..].fill(0);
        encipher(&key, delta, sealed, Way::There);
    }
    Some(sealed)
}

/// The text, which stands first in the output; none where document 01 refuses. Where
/// the check fails the output has zeros instead.
pub fn open<'a>(
    key: &[u8],
    header: &[u8],
    stretch: u64,
    sealed: &[u8],
    out: &'a mut [u8],
) -> Option<&'a [u8]> {
    let (key, stretch) = (Key::new(key.try_into().ok()?), read_stretch(stretch)?);
    let delta = hash::hash(&key, stretch, header)?;
    let length = sealed.len().checked_sub(stretch)?;
    if LONGEST < sealed.len() {
        return None;
    }
    let opened = out.get_mut(..sealed.len())?;
    if length == 0 {
        hash::prf(&key, delta, opened);
        let differences = opened.iter_mut().zip(sealed);
        differences.for_each(|(made, lent)| *made ^= lent);
    } else {
        opened.copy_from_slice(sealed);
        encipher(&key, delta, opened, Way::Back);
    }
    if opened[length..].iter().fold(0, |all, byte| all | byte) != 0 {
        opened.fill(0);
        return None;
    }
    Some(&opened[..length])
}

fn read_stretch(stretch: u64) -> Option<usize> {
    (stretch <= 64).then_some(stretch as usize)
}

/// Lines 200 to 202 of Figure 5, both ways.
fn encipher(key: &Key, delta: aes::Block, text: &mut [u8], way: Way) {
    if text.len() < 32 {
        tiny::tiny(key, delta, text, way);
    } else {
        core::core(key, delta, text, way);
    }
}
