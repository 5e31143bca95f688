//! The pitch of a note, rule by rule (R11.1 to R11.5), and the whole table.

use paper::{pitch, Number, Pitch};

const STEPS: i32 = 192;

/// A whole number of any size: digits of 32 bits, the lowest first, none of them 0 at the end.
#[derive(Clone, Debug, PartialEq, Eq)]
struct Whole(Vec<u32>);

impl Whole {
    fn power_of_2(exponent: usize) -> Whole {
        let mut digits = vec![0; exponent / 32];
        digits.push(1 << (exponent % 32));
        Whole(digits)
    }

    /// By the school's method: a factor of one digit, a carry.
    fn times(&self, factor: u32) -> Whole {
        let mut digits = Vec::with_capacity(self.0.len() + 1);
        let mut carry = 0;
        for &digit in &self.0 {
            let product = u64::from(digit) * u64::from(factor) + carry;
            digits.push(product as u32);
            carry = product >> 32;
        }
        digits.extend((carry > 0).then_some(carry as u32));
        Whole(digits)
    }

    fn power(base: u32, exponent: u32) -> Whole {
        (0..exponent).fold(Whole(vec![1]), |power, _| power.times(base))
    }

    /// The longer one is larger; of two as long, the highest digit that differs decides.
    fn is_at_most(&self, other: &Whole) -> bool {
        let size = |whole: &Whole| {
            (
                whole.0.len(),
                whole.0.iter().rev().copied().collect::<Vec<_>>(),
            )
        };
        size(self) <= size(other)
    }
}

/// A pitch as a fraction over 4, which the lowest octave needs: the entry times 2 to the power of octave + 2.
fn quarters(pitch: Pitch) -> u64 {
    u64::from(pitch.entry) << (pitch.octave + 2)
}

/// The octave and the entry of a call that must be accepted.
fn accepted(key: u8, sensitivity: u8, bend: u16) -> (i8, u32) {
    let pitch = pitch(key, sensitivity, bend).expect("within its ranges");
    (pitch.octave, pitch.entry)
}

/// The position that a call's pitch has, read back from its octave and entry.
fn position(key: u8, sensitivity: u8, bend: u16) -> i32 {
    let (octave, entry) = accepted(key, sensitivity, bend);
    let found = (0..STEPS).find(|&i| Pitch::at(i).entry == entry);
    STEPS * i32::from(octave) + found.expect("an entry of the table")
}

#[test]
fn the_big_numbers_of_this_test_are_right() {
    assert_eq!(Whole::power(2, 100), Whole::power_of_2(100));
    assert_eq!(Whole::power(65536, 192), Whole::power_of_2(3072));
    assert_eq!(Whole::power(10, 10), Whole(vec![1_410_065_408, 2]));
    let (less, more) = (Whole::power(3, 100), Whole::power(3, 100).times(3));
    assert!(less.is_at_most(&more) && less.is_at_most(&less) && !more.is_at_most(&less));
    assert!(!Whole(vec![0, 2]).is_at_most(&Whole(vec![9, 1])));
    assert!(Whole(vec![9, 1]).is_at_most(&Whole(vec![0, 2])));
}

#[test]
fn each_entry_is_the_largest_whose_192nd_power_is_at_most_its_power_of_2() {
    for i in 0..192 {
        let (entry, bound) = (Pitch::at(i).entry, Whole::power_of_2(3072 + i as usize));
        assert!(Whole::power(entry, 192).is_at_most(&bound), "entry {i}");
        assert!(
            !Whole::power(entry + 1, 192).is_at_most(&bound),
            "entry {i}"
        );
    }
}

#[test]
fn entry_0_is_65536_and_the_table_covers_one_octave() {
    assert_eq!(
        Pitch::at(0),
        Pitch {
            octave: 0,
            entry: 65536
        }
    );
    assert_eq!(Pitch::at(191).octave, 0);
    assert_eq!(
        Pitch::at(192),
        Pitch {
            octave: 1,
            entry: 65536
        }
    );
    assert!((0..STEPS).all(|i| (65536..131072).contains(&Pitch::at(i).entry)));
}

#[test]
fn a_higher_position_never_gives_a_lower_pitch() {
    // From the first position of octave -2 to the last of octave 12; every step is even a higher pitch.
    for position in -384..2495 {
        let (low, high) = (Pitch::at(position), Pitch::at(position + 1));
        assert!(
            quarters(low) < quarters(high),
            "{position}: {low:?}, {high:?}"
        );
    }
}

#[test]
fn octave_and_remainder_are_those_of_the_floor() {
    for position in -384..=2495 {
        let Pitch { octave, entry } = Pitch::at(position);
        let remainder = position - STEPS * i32::from(octave);
        assert!((0..STEPS).contains(&remainder) && (-2..=12).contains(&octave));
        assert_eq!(entry, Pitch::at(remainder).entry);
    }
    assert_eq!(Pitch::at(-1).octave, -1);
    assert_eq!(
        Pitch::at(-192),
        Pitch {
            octave: -1,
            entry: 65536
        }
    );
    assert_eq!(Pitch::at(-193).octave, -2);
}

/// Every sensitivity and bend, by R11.1: the position is the largest whole number p for which
/// 8192 (p - 16 k) is at most 16 s (b - 8192).
#[test]
fn the_position_is_that_of_the_formula() {
    let keys = [0, 1, 11, 12, 60, 127];
    for (sensitivity, bend) in (0..=24).flat_map(|s| (0..16384).map(move |b| (s, b))) {
        let key = keys[usize::from(bend) % keys.len()];
        let bent = position(key, sensitivity, bend) - 16 * i32::from(key);
        let product = 16 * i32::from(sensitivity) * (i32::from(bend) - 8192);
        assert!(bent * 8192 <= product && product < (bent + 1) * 8192);
    }
}

#[test]
fn each_key_is_sixteen_positions_above_the_one_below() {
    for (sensitivity, bend) in [
        (0, 0),
        (2, 8192),
        (2, 8191),
        (12, 16383),
        (24, 0),
        (24, 16383),
    ] {
        for key in 0..127 {
            let step = position(key + 1, sensitivity, bend) - position(key, sensitivity, bend);
            assert_eq!(step, 16);
        }
    }
}

#[test]
fn the_centre_bends_nothing_whatever_the_sensitivity() {
    for sensitivity in 0..=24 {
        assert_eq!(accepted(60, sensitivity, 8192), (5, 65536));
        assert_eq!(accepted(69, sensitivity, 8192), (5, Pitch::at(144).entry));
    }
    for bend in 0..16384 {
        assert_eq!(
            accepted(60, 0, bend),
            (5, 65536),
            "sensitivity 0, bend {bend}"
        );
    }
}

#[test]
fn the_floor_and_not_the_nearer_to_zero() {
    // One step below the centre is already a whole position lower, one above is none.
    for sensitivity in 1..=24 {
        assert_eq!(position(60, sensitivity, 8191), 959);
        assert_eq!(position(60, sensitivity, 8192), 960);
        assert_eq!(position(60, sensitivity, 8193), 960);
    }
    // The next one lower comes where the quotient is whole and one further.
    assert_eq!((position(60, 1, 7680), position(60, 1, 7679)), (959, 958));
    assert_eq!((position(60, 2, 7936), position(60, 2, 7935)), (959, 958));
    // Below position 0: an octave down with the table's last entry.
    assert_eq!(accepted(0, 1, 8191), (-1, Pitch::at(191).entry));
    assert_eq!(accepted(0, 12, 0), (-1, 65536));
}

#[test]
fn the_smallest_steps_up() {
    assert_eq!((position(60, 1, 8703), position(60, 1, 8704)), (960, 961));
    assert_eq!((position(60, 2, 8447), position(60, 2, 8448)), (960, 961));
    assert_eq!((position(60, 24, 8213), position(60, 24, 8214)), (960, 961));
}

#[test]
fn the_lowest_and_the_highest_pitch() {
    assert_eq!(accepted(0, 24, 0), (-2, 65536));
    // 2032 + 383: a full bend up misses its semitones by a sixteenth.
    assert_eq!(position(127, 24, 16383), 2415);
    assert_eq!(accepted(127, 24, 16383), (12, Pitch::at(111).entry));
    assert_eq!(position(60, 2, 16383), 960 + 31);
    assert_eq!(position(60, 2, 0), 960 - 32);
}

#[test]
fn number_21_on_both_sides_of_each_limit() {
    assert!(pitch(127, 24, 16383).is_ok());
    for (key, sensitivity, bend) in [(128, 24, 16383), (127, 25, 16383), (127, 24, 16384)] {
        let answer = pitch(key, sensitivity, bend);
        assert_eq!(answer, Err(Number::PitchOutOfRange));
    }
    assert_eq!(Number::PitchOutOfRange as u8, 21);
}

#[test]
fn number_21_exactly_outside_of_the_ranges() {
    let bends = [0, 8191, 8192, 16383, 16384, 16385, 32768, 65535];
    for (key, sensitivity) in (0..=255).flat_map(|k| (0..=255).map(move |s| (k, s))) {
        for bend in bends {
            let within = key < 128 && sensitivity < 25 && bend < 16384;
            assert_eq!(pitch(key, sensitivity, bend).is_ok(), within);
        }
    }
    assert!((0..=65535).all(|bend| pitch(60, 2, bend).is_ok() == (bend < 16384)));
}

#[test]
fn refused_calls_answer_octave_0_and_65536() {
    let refused = pitch(255, 255, 65535).unwrap_or(Pitch::REFUSED);
    assert_eq!((refused.octave, refused.entry), (0, 65536));
}
