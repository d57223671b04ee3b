//! Request E12: what a day file's pauses come to, in one line.

use crate::day_file::{self, Day, Record};
use crate::document01::{self, done, refusal, Answer};
use crate::pause::read_pause;

/// The bytes of a key.
const KEY_LENGTH: usize = 48;

/// The records read, the records refused, the sum of pauses, the longest, and the
/// mean's numerator and denominator. In 128 bits, where no sum of pauses wraps.
pub type Figures = [u128; 6];

/// The figures of a day file; otherwise 9, it does not read, or 1, the key has not 48
/// bytes.
pub fn figures(key: &[u8], file: &[u8]) -> Result<Figures, u32> {
    let day = day_file::read(file).ok_or(9_u32)?;
    if key.len() != KEY_LENGTH {
        return Err(1);
    }
    let records = day.records.iter();
    let answers: Vec<_> = records
        .map(|record| pause_of(key, file, &day, record))
        .collect();
    let pauses: Vec<u128> = answers
        .iter()
        .flatten()
        .map(|&pause| pause.into())
        .collect();

    let read = pauses.len() as u128;
    let refused = answers.len() as u128 - read;
    let sum = pauses.iter().sum();
    let longest = pauses.iter().max().copied().unwrap_or(0);
    let (over, under) = lowest_terms(sum, read);
    Ok([read, refused, sum, longest, over, under])
}

/// The pause of a record, or the number for which it is refused.
fn pause_of(key: &[u8], file: &[u8], day: &Day, record: &Record) -> Result<u64, u32> {
    let header = &file[day.headers[record.header].clone()];
    let sealed = &file[record.sealed.clone()];
    let mut text = vec![0; sealed.len()];
    let opened = document01::open(key, header, record.stretch.into(), sealed, &mut text);
    match opened.number {
        0 => read_pause(header, &text[..opened.length]),
        number => Err(number),
    }
}

/// The fraction over the largest number that divides both; 0/1 where `under` is 0.
fn lowest_terms(over: u128, under: u128) -> (u128, u128) {
    let divides = |&number: &u128| over.is_multiple_of(number) && under.is_multiple_of(number);
    match (1..=under).rev().find(divides) {
        Some(divisor) => (over / divisor, under / divisor),
        None => (0, 1),
    }
}

/// Puts the line first in `out`.
pub fn report(key: &[u8], file: &[u8], out: &mut [u8]) -> Answer {
    let [read, refused, sum, longest, over, under] = match figures(key, file) {
        Ok(figures) => figures,
        Err(number) => return refusal(number),
    };
    let line = format!("{read} {refused} {sum} {longest} {over}/{under}\n");
    let Some(place) = out.get_mut(..line.len()) else {
        return refusal(6);
    };
    place.copy_from_slice(line.as_bytes());
    done(line.len())
}

/// Puts the six figures first in `out`, and returns the answer number.
pub fn report_figures(key: &[u8], file: &[u8], out: &mut [u64]) -> u32 {
    let figures = match figures(key, file) {
        Ok(figures) => figures,
        Err(number) => return number,
    };
    let Some(places) = out.get_mut(..figures.len()) else {
        return 6;
    };
    for (place, figure) in places.iter_mut().zip(figures) {
        *place = figure
            .try_into()
            .expect("a figure of a day file is below 2^64");
    }
    0
}
