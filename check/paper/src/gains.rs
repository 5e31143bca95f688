//! The gains of a channel for the mixer (R12.1 to R12.9), each as an exact fraction.

use crate::answer::Number;

/// The highest expression, volume and pan: what a data byte can hold.
const HIGHEST: u8 = 127;
/// The last place of the table; the weights at p and at 126 - p belong together.
const LAST: usize = 126;
/// A weight is over this (R12.6).
const WHOLE_WEIGHT: u32 = 32768;

/// R12.4, from hard left in fourteens. tests/gains.rs holds every weight against the sine.
#[rustfmt::skip]
pub static WEIGHTS: [u32; LAST + 1] = [
    0, 408, 817, 1225, 1633, 2041, 2449, 2856, 3263, 3669, 4074, 4480, 4884, 5287,
    5690, 6092, 6493, 6893, 7292, 7689, 8086, 8481, 8875, 9267, 9659, 10048, 10436, 10823,
    11207, 11590, 11971, 12351, 12728, 13104, 13477, 13848, 14218, 14584, 14949, 15311, 15671, 16029,
    16384, 16736, 17086, 17434, 17778, 18120, 18459, 18795, 19128, 19458, 19785, 20110, 20431, 20748,
    21063, 21374, 21682, 21987, 22288, 22586, 22880, 23170, 23458, 23741, 24021, 24297, 24569, 24837,
    25102, 25362, 25619, 25872, 26120, 26365, 26606, 26842, 27074, 27302, 27526, 27745, 27961, 28171,
    28378, 28580, 28778, 28971, 29159, 29343, 29523, 29698, 29868, 30034, 30195, 30351, 30503, 30650,
    30792, 30929, 31062, 31189, 31312, 31430, 31543, 31651, 31755, 31853, 31946, 32035, 32118, 32197,
    32270, 32339, 32402, 32460, 32514, 32562, 32605, 32643, 32676, 32704, 32727, 32745, 32758, 32765,
    32768,
];

/// A gain, 0 to 1, as the exact fraction: this numerator over `DENOMINATOR`.
#[derive(Clone, Copy, Debug, PartialEq, Eq)]
pub struct Gain {
    pub numerator: u64,
}

impl Gain {
    /// Of both squares and the weight (R12.1, R12.6): 127 to the fourth power times 32768.
    pub const DENOMINATOR: u64 = (HIGHEST as u64).pow(4) * WHOLE_WEIGHT as u64;
}

/// The gains left and right.
#[derive(Clone, Copy, Debug, PartialEq, Eq)]
pub struct Gains {
    pub left: Gain,
    pub right: Gain,
}

impl Gains {
    /// R12.9: what stands beside number 24.
    pub const REFUSED: Gains = Gains {
        left: Gain { numerator: 0 },
        right: Gain { numerator: 0 },
    };
}

/// The places of the left and the right weight for a pan from 0 to 127, which is lowered first (R12.2, R12.6).
fn places(pan: u8) -> (usize, usize) {
    let p = usize::from(pan.saturating_sub(1));
    (LAST - p, p)
}

fn is_refused(expression: u8, volume: u8, pan: u8) -> bool {
    expression > HIGHEST || volume > HIGHEST || pan > HIGHEST
}

/// The gains of a channel with this expression, volume and pan.
pub fn gains(expression: u8, volume: u8, pan: u8) -> Result<Gains, Number> {
    if is_refused(expression, volume, pan) {
        return Err(Number::LevelOutOfRange);
    }
    let (e, v) = (u64::from(expression), u64::from(volume));
    let squares = e * e * v * v;
    let gain = |place: usize| Gain {
        numerator: squares * u64::from(WEIGHTS[place]),
    };
    let (left, right) = places(pan);
    Ok(Gains {
        left: gain(left),
        right: gain(right),
    })
}

/// The same, left and right, in floats: what one would write by hand for a mixer, and so the baseline of the benchmark.
pub fn float_gains(expression: u8, volume: u8, pan: u8) -> Result<(f32, f32), Number> {
    if is_refused(expression, volume, pan) {
        return Err(Number::LevelOutOfRange);
    }
    let squared = |level: u8| {
        let part = f32::from(level) / f32::from(HIGHEST);
        part * part
    };
    let squares = squared(expression) * squared(volume);
    let gain = |place: usize| squares * (WEIGHTS[place] as f32 / WHOLE_WEIGHT as f32);
    let (left, right) = places(pan);
    Ok((gain(left), gain(right)))
}
