//! How far a float is from an exact gain, by whole numbers alone: the float is taken apart into its bits.

use crate::gains::Gain;

const MILLION: u64 = 1_000_000;
/// Distances are counted in parts of the whole: so many, that a millionth of it is `Gain::DENOMINATOR` of them.
const PARTS: u64 = MILLION * Gain::DENOMINATOR;

/// Bits of the fraction of an `f32`, below its exponent.
const FRACTION_BITS: u32 = 23;
/// A float of exponent e, with the bit before its fraction, is a whole number over 2 to the power 150 - e.
const BIAS: u32 = 150;

/// How far a float is from an exact gain, rounded up to a whole part.
#[derive(Clone, Copy, Debug, Default, PartialEq, Eq, PartialOrd, Ord)]
pub struct Distance(u64);

impl Distance {
    /// R12.7: at most one millionth off?
    pub fn is_within_one_millionth(self) -> bool {
        self.0 <= Gain::DENOMINATOR
    }

    /// In thousandths of a billionth, rounded up.
    pub fn thousandths_of_a_billionth(self) -> u64 {
        let million = u128::from(MILLION) * u128::from(self.0);
        million.div_ceil(u128::from(Gain::DENOMINATOR)) as u64
    }
}

/// A float from 0 to 1 as a whole number over a power of 2, given by its exponent. None for any other float: below 0,
/// -0, above 1, infinite, or no number.
fn taken_apart(float: f32) -> Option<(u32, u32)> {
    let bits = float.to_bits();
    // Bits without a sign rise with their floats, and every other float has higher ones.
    if bits > 1f32.to_bits() {
        return None;
    }
    let (exponent, fraction) = (bits >> FRACTION_BITS, bits & ((1 << FRACTION_BITS) - 1));
    Some(match exponent {
        0 => (fraction, BIAS - 1),
        _ => (fraction | 1 << FRACTION_BITS, BIAS - exponent),
    })
}

impl Gain {
    /// The distance of a float from this gain, if it is one from 0 to 1.
    pub fn distance(self, float: f32) -> Option<Distance> {
        let (whole, power) = taken_apart(float)?;
        // Below 2 to the power 87.
        let dividend = u128::from(whole) * u128::from(PARTS);
        let floor = dividend.checked_shr(power).unwrap_or(0);
        let is_whole = dividend == 0 || dividend.trailing_zeros() >= power;
        let ceiling = floor + u128::from(!is_whole);
        let exact = u128::from(MILLION) * u128::from(self.numerator);
        let (above, below) = (ceiling.saturating_sub(exact), exact.saturating_sub(floor));
        Some(Distance(above.max(below) as u64))
    }
}
