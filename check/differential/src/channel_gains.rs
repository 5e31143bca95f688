//! Asks two implementations for the gains of a channel's numbers: three of the thirteen count, and the other ten must
//! be seen not to.

use crate::gains::{is_identical, Answered, Compared};
use proved::Channel;
use random::Random;

/// Places among the thirteen numbers.
pub const NUMBERS: usize = 13;
pub const VOLUME: usize = 2;
pub const PAN: usize = 3;
pub const EXPRESSION: usize = 4;
pub const THREE: [usize; 3] = [EXPRESSION, VOLUME, PAN];

pub const NAMES: [&str; NUMBERS] = [
    "program",
    "modulation",
    "volume",
    "pan",
    "expression",
    "hold",
    "RPN MSB",
    "RPN LSB",
    "bend MSB",
    "bend LSB",
    "sensitivity",
    "bank MSB",
    "bank LSB",
];

/// So many channels, each with every value of every one of its numbers.
const CHANNELS: usize = 400;

/// Makes each call on both sides, up to the first that differs, and sees of the second side which numbers count.
pub fn compare(
    random: &mut Random,
    a: impl Fn(Channel) -> Answered,
    b: impl Fn(Channel) -> Answered,
) -> Result<Compared, String> {
    let mut compared = Compared::default();
    let mut counted = [false; NUMBERS];
    for _ in 0..CHANNELS {
        let channel = some_channel(random);
        changed(channel, &a, &b, &mut compared, &mut counted)?;
    }
    match THREE.into_iter().find(|&place| !counted[place]) {
        Some(place) => Err(format!("channel gains: the {} never counts", NAMES[place])),
        None => Ok(compared),
    }
}

/// A channel with each of its numbers through all values.
fn changed(
    channel: Channel,
    a: impl Fn(Channel) -> Answered,
    b: impl Fn(Channel) -> Answered,
    compared: &mut Compared,
    counted: &mut [bool; NUMBERS],
) -> Result<(), String> {
    let unchanged = b(channel);
    compared.take(|| words(channel), &a(channel), &unchanged)?;
    let values = |place| (0..=255).map(move |value| (place, value));
    for (place, value) in (0..NUMBERS).flat_map(values) {
        let mut channel = channel;
        channel[place] = value;
        let answer = b(channel);
        compared.take(|| words(channel), &a(channel), &answer)?;
        let counts = !is_identical(&unchanged, &answer);
        counted[place] |= counts;
        if counts && !THREE.contains(&place) {
            let name = NAMES[place];
            return Err(format!("{}: the {name} counts", words(channel)));
        }
    }
    Ok(())
}

fn words(channel: Channel) -> String {
    format!("channel gains: numbers {channel:?}")
}

/// Any bytes, but the three that count mostly within their ranges.
fn some_channel(random: &mut Random) -> Channel {
    let anything = random.one_in(16);
    std::array::from_fn(|place| match THREE.contains(&place) && !anything {
        true => random.data(),
        false => random.byte(),
    })
}
