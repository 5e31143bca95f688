//! Asks two implementations for the same pitches and compares what they give.
//!
//! A pitch depends on the call alone, so there is nothing to feed before: what matters is which calls are made.

use crate::compare::same;
use crate::record::Given;
use paper::{Number, Pitch};
use random::Random;

/// Key, sensitivity and bend.
pub type Call = (u8, u8, u16);

/// What was compared.
#[derive(Clone, Copy, Debug, Default)]
pub struct Compared {
    pub calls: u64,
    pub refused: u64,
}

/// Makes each call on both sides, up to the first that differs.
pub fn compare(
    mut calls: impl Iterator<Item = Call>,
    a: impl Fn(Call) -> Given<Result<Pitch, Number>>,
    b: impl Fn(Call) -> Given<Result<Pitch, Number>>,
) -> Result<Compared, String> {
    let mut compared = Compared::default();
    calls.try_for_each(|call| -> Result<(), String> {
        let answer = same_pitch(call, a(call), b(call))?;
        compared.calls += 1;
        compared.refused += u64::from(answer.is_err());
        Ok(())
    })?;
    Ok(compared)
}

/// As `same`, and its words are made only where they are needed: the calls are many.
fn same_pitch<T: Copy + PartialEq + std::fmt::Debug>(
    call: Call,
    a: Given<T>,
    b: Given<T>,
) -> Result<T, String> {
    match (&a, &b) {
        (Ok(one), Ok(other)) if one == other => Ok(*one),
        _ => {
            let (key, sensitivity, bend) = call;
            let what = format!("pitch: key {key}, sensitivity {sensitivity}, bend {bend}");
            same(&what, a, b)
        }
    }
}

/// The ends of the bend, and where the floor and the nearer to 0 part.
const BENDS: [u16; 9] = [0, 1, 8190, 8191, 8192, 8193, 8194, 16382, 16383];

/// Both sides of each limit, and values far above that lose bits in a narrower number.
const KEYS_AND_MORE: [u8; 10] = [0, 1, 60, 126, 127, 128, 129, 188, 254, 255];
const SENSITIVITIES_AND_MORE: [u8; 12] = [0, 1, 2, 12, 23, 24, 25, 26, 32, 127, 128, 255];
const BENDS_AND_MORE: [u16; 14] = [
    0, 1, 8191, 8192, 8193, 16382, 16383, 16384, 16385, 24576, 32767, 32768, 65534, 65535,
];

/// Random calls of the sample.
const RANDOM_CALLS: usize = 1_100_000;

/// Some two million calls: every limit, every key and sensitivity with the edges of the bend, every sensitivity and
/// bend with the lowest and the highest key, each argument through all its values, and random ones.
pub fn sample(random: &mut Random) -> impl Iterator<Item = Call> + '_ {
    grid(KEYS_AND_MORE, SENSITIVITIES_AND_MORE, BENDS_AND_MORE)
        .chain(grid(0..=127, 0..=24, BENDS))
        .chain(grid([0, 127], 0..=24, 0..=16383))
        .chain(grid(0..=255, [2], [8192]))
        .chain(grid([60], 0..=255, [8192]))
        .chain(grid([60], [2], 0..=65535))
        .chain((0..RANDOM_CALLS).map(|_| some_call(random)))
}

/// Mostly a call within the ranges, sometimes any numbers.
fn some_call(random: &mut Random) -> Call {
    let [keys, sensitivities, bends] = match random.below(16) {
        0 => [256, 256, 65536],
        _ => [128, 25, 16384],
    };
    (
        random.below(keys) as u8,
        random.below(sensitivities) as u8,
        random.below(bends) as u16,
    )
}

/// Every call within the ranges, each once; then refused ones: every key and sensitivity with bends about the limits,
/// and every bend with keys and sensitivities about theirs.
pub fn all() -> impl Iterator<Item = Call> {
    let outside = |&(key, sensitivity, bend): &Call| key > 127 || sensitivity > 24 || bend > 16383;
    let refused = grid(0..=255, 0..=255, BENDS_AND_MORE).chain(grid(
        KEYS_AND_MORE,
        SENSITIVITIES_AND_MORE,
        0..=65535,
    ));
    grid(0..=127, 0..=24, 0..=16383).chain(refused.filter(outside))
}

/// Every call of one of these keys with one of these sensitivities and bends.
fn grid<S, B>(
    keys: impl IntoIterator<Item = u8>,
    sensitivities: S,
    bends: B,
) -> impl Iterator<Item = Call>
where
    S: IntoIterator<Item = u8> + Clone,
    B: IntoIterator<Item = u16> + Clone,
{
    let of_a_key = move |key| {
        let bends = bends.clone();
        let of_both = move |sensitivity| {
            bends
                .clone()
                .into_iter()
                .map(move |b| (key, sensitivity, b))
        };
        sensitivities.clone().into_iter().flat_map(of_both)
    };
    keys.into_iter().flat_map(of_a_key)
}
