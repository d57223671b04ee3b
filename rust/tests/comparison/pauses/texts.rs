//! Texts that are pauses and texts that are not, under every locale.

use support::Source;

use super::both::{header_of, pause, LOCALES};

const PREFIXES: [&str; 6] = ["", "0", " ", "+", "-", "x"];
const DIGITS: &str = "1204567890";
const MARKS: [&str; 8] = ["", ",", ".", ",,", "..", ",.", "'", "\u{66b}"];
const SPACES: [&str; 6] = ["", " ", "  ", "\t", "\u{a0}", "_"];
const UNITS: [&str; 16] = [
    "ms", "s", "", "MS", "S", "Ms", "mS", "m", "us", "sm", "mss", "min", "ms ", "s ", "s\n", "s\0",
];

/// A text in its parts: the digits after the mark are `fraction` many.
struct Parts {
    prefix: &'static str,
    digits: usize,
    mark: &'static str,
    fraction: usize,
    space: &'static str,
    unit: &'static str,
}

impl Parts {
    fn whole(&self) -> String {
        self.prefix.to_string() + &DIGITS[..self.digits]
    }

    /// Other digits than the first of the whole, so that an exchange is seen.
    fn fraction(&self) -> &'static str {
        &"0370"[..self.fraction]
    }

    fn text(&self) -> String {
        let (whole, fraction) = (self.whole(), self.fraction());
        let Parts {
            mark, space, unit, ..
        } = self;
        format!("{whole}{mark}{fraction}{space}{unit}")
    }

    /// What the text is under a locale with this mark, told from its parts.
    fn microseconds(&self, mark: &str) -> Option<u64> {
        let (whole, fraction) = match self.mark {
            "" => (self.whole() + self.fraction(), ""),
            _ if self.mark == mark && self.fraction > 0 => (self.whole(), self.fraction()),
            _ => return None,
        };
        let digits = whole.bytes().all(|byte| byte.is_ascii_digit());
        if !digits || !(1..=9).contains(&whole.len()) || fraction.len() > 3 || self.space != " " {
            return None;
        }
        let zeros = match self.unit {
            "ms" => "",
            "s" => "000",
            _ => return None,
        };
        Some(format!("{whole}{fraction:0<3}{zeros}").parse().unwrap())
    }
}

fn all_parts() -> impl Iterator<Item = Parts> {
    let shapes = (0..=10).flat_map(|digits| (0..=4).map(move |fraction| (digits, fraction)));
    let marked = shapes.flat_map(|shape| MARKS.map(|mark| (shape, mark)));
    let spaced = marked.flat_map(|shape| SPACES.map(|space| (shape, space)));
    let of_units = spaced.flat_map(|shape| UNITS.map(|unit| (shape, unit)));
    of_units.flat_map(|((((digits, fraction), mark), space), unit)| {
        PREFIXES.map(|prefix| Parts {
            prefix,
            digits,
            mark,
            fraction,
            space,
            unit,
        })
    })
}

/// Every shape: no digits to ten, each mark, no digits to four after it, each space and
/// each unit, and something before it.
#[test]
fn every_shape() {
    for (locale, mark) in LOCALES {
        let header = header_of(locale.as_bytes());
        let mut read = 0;
        for parts in all_parts() {
            let text = parts.text();
            let expected = parts.microseconds(mark).ok_or(16);
            let got = pause(&header, text.as_bytes());
            assert_eq!(got, expected, "{text:?} under {locale}");
            read += u32::from(got.is_ok());
        }
        assert!(read > 100, "{read} pauses under {locale}");
    }
}

/// A text with a mark is a pause under commas or under points, not both; one without is
/// the same under all locales.
#[test]
fn no_text_has_two_values() {
    let headers = LOCALES.map(|(locale, _)| header_of(locale.as_bytes()));
    for parts in all_parts() {
        let text = parts.text();
        let mut values: Vec<u64> = headers
            .iter()
            .filter_map(|header| pause(header, text.as_bytes()).ok())
            .collect();
        let marked = text.contains([',', '.']);
        match values.len() {
            0 => (),
            1 | 3 => assert!(marked, "{text:?}"),
            4 => assert!(!marked, "{text:?}"),
            count => panic!("{text:?} is a pause under {count} locales"),
        }
        values.dedup();
        assert!(values.len() <= 1, "{text:?}: {values:?}");
    }
}

/// Each byte of a pause changed to every value, left out, and each value put in before
/// it and behind the last.
#[test]
fn one_byte_changed_left_out_or_put_in() {
    for (locale, mark) in LOCALES {
        let header = header_of(locale.as_bytes());
        for text in ["1,204 s", "0 ms", "999999999,999 ms", "12345678,5 s"] {
            let text = text.replace(',', mark).into_bytes();
            assert!(pause(&header, &text).is_ok());
            let mut read = 0;
            for place in 0..=text.len() {
                let (before, after) = text.split_at(place);
                for value in 0..=255 {
                    let put_in = [before, &[value], after].concat();
                    read += u32::from(pause(&header, &put_in).is_ok());
                    if let Some((_, rest)) = after.split_first() {
                        let changed = [before, &[value], rest].concat();
                        read += u32::from(pause(&header, &changed).is_ok());
                    }
                }
                if place < text.len() {
                    let _ = pause(&header, &[before, &after[1..]].concat());
                }
            }
            // At least the ten digits in the place of the first.
            assert!((10..300).contains(&read), "{read}");
        }
    }
}

/// Bytes that stand in pauses, in any order, and any bytes.
#[test]
fn made_up_texts() {
    const COMMON: &[u8] = b"0123456789019,. ms s";
    let mut source = Source::new(111);
    let mut read = 0;
    for turn in 0..200_000 {
        let (locale, _) = LOCALES[turn % 4];
        let header = header_of(locale.as_bytes());
        let length = source.below(9);
        let mut text: Vec<u8> = (0..length)
            .map(|_| COMMON[source.below(COMMON.len())])
            .collect();
        match turn % 3 {
            0 => text.extend(b" s"),
            1 => text.extend(source.bytes(2)),
            _ => text.extend(b" ms"),
        }
        read += u32::from(pause(&header, &text).is_ok());
    }
    assert!((1_000..100_000).contains(&read), "{read}");
}

/// Long texts that start, or end, as a pause does.
#[test]
fn long_texts() {
    let header = header_of(b"de");
    for length in [17, 18, 64, 80, 81, 1_000, 65_536] {
        for (before, after) in [("1 s", ""), ("", "1 s"), ("1,204", " s"), ("1", " ms")] {
            for fill in [b'0', b' ', 0] {
                let filled = vec![fill; length - before.len() - after.len()];
                let text = [before.as_bytes(), &filled, after.as_bytes()].concat();
                assert_eq!(pause(&header, &text), Err(16));
            }
        }
    }
}
