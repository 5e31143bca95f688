//! The hardest song, rule by rule (R13.1, R13.3, R13.4, R13.6); that none is harder is in `no_harder_song.rs`.

mod common;

use common::*;
use paper::{most_thefts, write_song, Number, LONGEST_SONG};

/// What a byte of a buffer was before.
const BEFORE: u8 = 0xA5;

/// The song of a call that must be accepted, in a buffer of its length, and its thefts.
fn song(polyphony: u8, n: usize) -> (Vec<u8>, u32) {
    let mut buffer = vec![BEFORE; n];
    let thefts = write_song(polyphony, n, &mut buffer).expect("within its ranges");
    (buffer, thefts)
}

/// The thefts of these bytes on a fresh device.
fn played(polyphony: u8, bytes: &[u8]) -> u32 {
    let mut device = start(polyphony, 0);
    let stolen = |&&byte: &&u8| device.byte(byte).is_theft();
    bytes.iter().filter(stolen).count() as u32
}

const SHORT: std::ops::RangeInclusive<usize> = 0..=400;

/// Lengths up to the longest: all short ones, then ever fewer.
fn lengths() -> impl Iterator<Item = usize> {
    let longer = [521, 1000, 1023, 4096, 9999, 32_767, 32_768, 65_534, 65_535];
    SHORT.chain(longer).chain([LONGEST_SONG])
}

/// Every P with the short lengths, some with all.
fn calls() -> impl Iterator<Item = (u8, usize)> {
    let short = (1..=64).flat_map(|polyphony| SHORT.map(move |n| (polyphony, n)));
    let few = [1, 2, 33, 63, 64].into_iter();
    short.chain(few.flat_map(|polyphony| lengths().map(move |n| (polyphony, n))))
}

#[test]
fn the_formula_by_hand() {
    // P 1: five bytes are a status and two notes, of which the second steals.
    let of_1 = [0, 0, 0, 0, 0, 1, 1, 2, 2, 3];
    assert_eq!(std::array::from_fn(|n| most_thefts(1, n)), of_1);
    let of_2 = [0, 0, 0, 0, 0, 0, 0, 1, 1, 2];
    assert_eq!(std::array::from_fn(|n| most_thefts(2, n)), of_2);
    assert_eq!((most_thefts(64, 130), most_thefts(64, 131)), (0, 1));
    assert_eq!((most_thefts(64, 132), most_thefts(64, 133)), (1, 2));
    assert_eq!(
        (most_thefts(1, 65_536), most_thefts(64, 65_536)),
        (32_766, 32_703)
    );
    assert_eq!(
        (most_thefts(1, 65_535), most_thefts(1, 65_534)),
        (32_766, 32_765)
    );
}

/// The same by whole numbers that may be negative.
#[test]
fn the_formula_with_signs() {
    for (polyphony, n) in calls() {
        let less_p = (n as i64 - 1).div_euclid(2) - i64::from(polyphony);
        let expected = if n == 0 || less_p < 0 { 0 } else { less_p };
        assert_eq!(
            most_thefts(polyphony, n) as i64,
            expected,
            "P {polyphony}, {n} bytes"
        );
    }
}

#[test]
fn every_song_reaches_the_formula() {
    for (polyphony, n) in calls() {
        let (bytes, thefts) = song(polyphony, n);
        assert_eq!(
            thefts as usize,
            most_thefts(polyphony, n),
            "P {polyphony}, {n} bytes"
        );
        assert_eq!(
            played(polyphony, &bytes),
            thefts,
            "P {polyphony}, {n} bytes"
        );
    }
}

/// A song ends where its n bytes end, in the middle of a note or not: another length changes no byte before.
#[test]
fn a_shorter_song_is_the_beginning_of_a_longer_one() {
    let (longest, _) = song(64, LONGEST_SONG);
    assert!(lengths().all(|n| song(3, n).0 == longest[..n]));
}

#[test]
fn a_song_is_one_status_and_then_notes() {
    let (bytes, _) = song(64, LONGEST_SONG);
    assert!(bytes[0] == 0x99 && bytes[1..].iter().all(|&byte| byte < 0x80));
    assert!(bytes[2..].iter().step_by(2).all(|&velocity| velocity > 0));
    // No key among the 64 before it, none of an exclusive group.
    let keys: Vec<u8> = bytes[1..].iter().step_by(2).copied().collect();
    assert!(keys.windows(65).all(|few| !few[..64].contains(&few[64])));
    assert!(keys.iter().all(|key| !(42..=81).contains(key)));
}

#[test]
fn bytes_after_the_nth_keep_their_content() {
    for (n, more) in lengths().flat_map(|n| [(n, 1), (n, 2), (n, 300)]) {
        let mut buffer = vec![BEFORE; n + more];
        let thefts = write_song(5, n, &mut buffer);
        assert_eq!(thefts, Ok(most_thefts(5, n) as u32));
        assert_eq!(buffer[..n], song(5, n).0);
        assert!(buffer[n..].iter().all(|&byte| byte == BEFORE), "{n} bytes");
    }
}

#[test]
fn no_bytes_in_an_empty_buffer_are_no_theft() {
    assert!((1..=64).all(|polyphony| write_song(polyphony, 0, &mut []) == Ok(0)));
}

/// A call that must be refused, and leave its buffer.
fn refused(polyphony: u8, n: usize, length: usize) -> Number {
    let mut buffer = vec![BEFORE; length];
    let number = write_song(polyphony, n, &mut buffer).expect_err("out of its ranges");
    assert!(buffer.iter().all(|&byte| byte == BEFORE));
    number
}

#[test]
fn number_1_exactly_where_p_is_not_1_to_64() {
    for polyphony in (0..=0).chain(65..=255) {
        assert_eq!(refused(polyphony, 5, 10), Number::PolyphonyOutOfRange);
    }
    assert!((1..=64).all(|polyphony| write_song(polyphony, 5, &mut [0; 10]).is_ok()));
}

#[test]
fn number_25_on_both_sides_of_each_limit() {
    assert_eq!(Number::SongTooLong as u8, 25);
    for polyphony in 1..=64 {
        assert_eq!(refused(polyphony, 1, 0), Number::SongTooLong);
        assert_eq!(refused(polyphony, 11, 10), Number::SongTooLong);
        assert_eq!(refused(polyphony, usize::MAX, 10), Number::SongTooLong);
        assert!(write_song(polyphony, 10, &mut [0; 10]).is_ok());
    }
    assert_eq!(refused(1, 65_536, 65_535), Number::SongTooLong);
    assert_eq!(refused(1, 65_537, 65_537), Number::SongTooLong);
    assert_eq!(refused(1, 65_537, 100_000), Number::SongTooLong);
    assert!(write_song(1, 65_536, &mut [0; 65_536]).is_ok());
    assert!(write_song(1, 65_536, &mut [0; 100_000]).is_ok());
}

#[test]
fn number_1_comes_before_25() {
    for (n, length) in [(1, 0), (11, 10), (65_537, 65_537), (usize::MAX, 0)] {
        assert_eq!(refused(0, n, length), Number::PolyphonyOutOfRange);
        assert_eq!(refused(65, n, length), Number::PolyphonyOutOfRange);
    }
}

#[test]
fn a_refusal_and_the_end_of_a_release_are_no_thefts() {
    // P 1: the same key again takes its own releasing generator.
    assert_eq!(played(1, &bytes("90 3C 40 3C 40 3C 40")), 0);
    // A drum holds the only generator, so that channel 1 is turned away by number 11.
    assert_eq!(played(1, &bytes("99 24 40 90 3C 40 3D 40")), 0);
    assert_eq!(played(1, &bytes("90 3C 40 3D 40 3C 40")), 2);
}
