//! Pitches over the library, held against R11.1 to R11.3 computed anew with integers that have a sign.
use muntinorris::{pitch, Pitch, Refused};

/// The position, by R11.1: `div_euclid` is the floor for a positive divisor.
fn position(key: i32, sensitivity: i32, bend: i32) -> i32 {
    16 * key + (16 * sensitivity * (bend - 8192)).div_euclid(8192)
}

#[test]
fn octave_of_every_position() {
    let entry = |i: u32| pitch((i / 16) as u8, 1, (8192 + i % 16 * 512) as u16).unwrap().entry;
    let table: Vec<u32> = (0..192).map(entry).collect();
    assert_eq!((table[0], table[191]), (65536, 130599));
    for key in [0, 1, 11, 12, 60, 126, 127] {
        for sensitivity in 0..=24 {
            for bend in 0..=16383 {
                let p = position(key, sensitivity, bend);
                let wanted = Pitch { octave: p.div_euclid(192) as i8, entry: table[p.rem_euclid(192) as usize] };
                assert_eq!(pitch(key as u8, sensitivity as u8, bend as u16), Ok(wanted), "{key} {sensitivity} {bend}");
            }
        }
    }
}

#[test]
fn floor_and_not_truncation() {
    // one step below the centre is a sixteenth lower at every sensitivity above 0
    for sensitivity in 1..=24 {
        assert_eq!(pitch(60, sensitivity, 8191), pitch(59, 1, 8192 + 15 * 512), "{sensitivity}");
    }
    assert_eq!(pitch(0, 1, 8191), Ok(Pitch { octave: -1, entry: 130599 }));
}

#[test]
fn refused() {
    assert_eq!(pitch(128, 0, 0), Err(Refused(21)));
    assert_eq!(pitch(0, 25, 0), Err(Refused(21)));
    assert_eq!(pitch(0, 0, 16384), Err(Refused(21)));
    assert_eq!(pitch(255, 255, 65535), Err(Refused(21)));
    assert!(pitch(127, 24, 16383).is_ok());
}
