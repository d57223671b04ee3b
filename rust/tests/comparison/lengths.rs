//! Every short length, the lengths around the ends of full groups, 4,096 and 65,536, and
//! every stretch.

use support::{header, Source};

use crate::both::{open, seal};

/// Seals a text, opens what came, and finds the text again.
#[track_caller]
fn there_and_back(source: &mut Source, stretch: u64, length: usize) {
    let key = source.key();
    let header = header(&[source.bytes(8), source.bytes(2), source.bytes(5)]);
    let text = source.bytes(length);
    let room = length + stretch as usize + source.below(4);
    let sealed = seal(&key, &header, stretch, &text, room);
    assert_eq!(
        sealed.number, 0,
        "sealing {length} bytes, stretch {stretch}"
    );
    let opened = open(&key, &header, stretch, sealed.part(), room);
    assert_eq!(
        opened.number, 0,
        "opening {length} bytes, stretch {stretch}"
    );
    assert!(
        opened.part() == text,
        "another text of {length} bytes, stretch {stretch}"
    );
}

#[test]
fn every_length_to_300() {
    let mut source = Source::new(1);
    for length in 0..=300 {
        for stretch in [0, 1, 4, 16, 64] {
            there_and_back(&mut source, stretch, length);
        }
    }
}

/// The passes take sixteen pairs of blocks at a time. From 544 bytes on there is a full
/// group, and what is left after one or two of them goes one by one or as a group that is
/// partly filled; each number of pairs that are left is here, with each length of u and v.
#[test]
fn lengths_around_full_groups() {
    let mut source = Source::new(6);
    for whole in (512..=700).chain(1_024..=1_248) {
        there_and_back(&mut source, 4, whole - 4);
    }
}

#[test]
fn every_stretch() {
    let mut source = Source::new(2);
    for stretch in 0..=64 {
        for length in (0..=80).chain([100, 127, 128]) {
            there_and_back(&mut source, stretch, length);
        }
    }
}

/// 01, "Where the cuts fall", with the stretch on either side of each cut.
#[test]
fn every_stretch_at_every_cut() {
    let mut source = Source::new(3);
    for whole in [16, 31, 32, 33, 47, 48, 63, 64] {
        for stretch in 0..=whole {
            there_and_back(&mut source, stretch as u64, whole - stretch);
        }
    }
}

#[test]
fn lengths_around_4096() {
    let mut source = Source::new(4);
    for whole in 4_090..=4_130 {
        there_and_back(&mut source, 4, whole - 4);
    }
    for (stretch, length) in [(0, 4_096), (64, 4_096), (64, 4_032)] {
        there_and_back(&mut source, stretch, length);
    }
}

#[test]
fn lengths_up_to_65536() {
    let mut source = Source::new(5);
    for whole in [
        65_472, 65_503, 65_504, 65_519, 65_520, 65_521, 65_535, 65_536,
    ] {
        there_and_back(&mut source, 4, whole - 4);
    }
    there_and_back(&mut source, 0, 65_536);
    there_and_back(&mut source, 64, 65_472);
}

#[test]
fn one_byte_more_than_65536() {
    let mut source = Source::new(6);
    let (key, header) = (source.key(), header(&[source.bytes(8)]));
    let bytes = source.bytes(65_537);
    for stretch in [0, 1, 4, 63, 64] {
        let text = &bytes[..65_537 - stretch as usize];
        for room in [0, 65_536, 65_537, 65_700] {
            assert_eq!(seal(&key, &header, stretch, text, room).number, 4);
            assert_eq!(open(&key, &header, stretch, &bytes, room).number, 4);
        }
    }
}
