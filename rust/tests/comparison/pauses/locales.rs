//! Headers: which locales are known, and 3, 15 and 16 in their order.

use support::{header, Source};

use super::both::{header_of, pause, LOCALES};

/// Of all strings of at most two bytes exactly four are a locale.
#[test]
fn every_locale_of_two_bytes() {
    let known = LOCALES.map(|(locale, _)| locale.as_bytes());
    let short = (0..=255).map(|byte| vec![byte]);
    let pairs = (0..=255).flat_map(|one| (0..=255).map(move |other| vec![one, other]));
    for locale in [vec![]].into_iter().chain(short).chain(pairs) {
        let header = header_of(&locale);
        let (read, not) = match known.contains(&&locale[..]) {
            true => (Ok(7_000), Err(16)),
            false => (Err(15), Err(15)),
        };
        assert_eq!(pause(&header, b"7 ms"), read, "{locale:?}");
        assert_eq!(pause(&header, b"7 m"), not, "{locale:?}");
    }
}

#[test]
fn longer_locales() {
    for (locale, _) in LOCALES {
        for more in ["\0", " ", "-DE", "_US.UTF-8", "de", "e"] {
            let longer = header_of(&[locale, more].concat().into_bytes());
            assert_eq!(pause(&longer, b"7 ms"), Err(15));
            let before = header_of(&[more, locale].concat().into_bytes());
            assert_eq!(pause(&before, b"7 ms"), Err(15));
        }
        let longest = locale.repeat(512);
        assert_eq!(pause(&header_of(longest.as_bytes()), b"7 ms"), Err(15));
    }
}

/// Four strings, whatever the first three are; no other count.
#[test]
fn counts_of_strings() {
    let mut source = Source::new(112);
    for count in 1..=16 {
        for length in [0, 1, 2, 1_024] {
            for (locale, _) in LOCALES {
                // The locale stands in the fourth place, and in the last.
                let mut strings = vec![source.bytes(length); count];
                if let Some(fourth) = strings.get_mut(3) {
                    *fourth = locale.into();
                }
                strings[count - 1] = locale.into();
                let expected = if count == 4 { Ok(7_000) } else { Err(15) };
                assert_eq!(pause(&header(&strings), b"7 ms"), expected);
            }
        }
    }
    // In another place of four.
    for place in 0..3 {
        let mut strings = [&b"x"[..]; 4];
        strings[place] = b"de";
        assert_eq!(pause(&header(&strings), b"7 ms"), Err(15));
    }
}

/// 3 comes before 15, and both before 16.
#[test]
fn headers_that_do_not_read() {
    let good = header_of(b"de");
    for text in [&b"7 ms"[..], b"no pause", b""] {
        for cut in 0..good.len() {
            assert_eq!(pause(&good[..cut], text), Err(3));
        }
        assert_eq!(pause(&[&good[..], &[0]].concat(), text), Err(3));
        assert_eq!(pause(&header(&[[]; 17]), text), Err(3));
        let long = [&[7; 1_025][..], b"n7", b"", b"de"];
        assert_eq!(pause(&header(&long), text), Err(3));
    }
}

/// One byte of a header changed to every value.
#[test]
fn damaged_headers() {
    let mut seen = [0; 17];
    for (locale, _) in LOCALES {
        let good = header_of(locale.as_bytes());
        for place in 0..good.len() {
            for value in 0..=255 {
                let mut damaged = good.clone();
                damaged[place] = value;
                for text in [&b"1,5 s"[..], b"7 ms"] {
                    let number = pause(&damaged, text).err().unwrap_or(0);
                    seen[number as usize] += 1;
                }
            }
        }
    }
    for number in [0, 3, 15, 16] {
        assert!(seen[number] > 100, "{number} came {} times", seen[number]);
    }
}
