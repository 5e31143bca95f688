//! Asks two implementations for the same gains and compares what they give: exact fractions, or floats that must be
//! near them.
//!
//! Gains depend on the call alone, and there are so few calls that all are made in every run.

use crate::record::{Given, Malformed};
use paper::{Distance, Gains, Number};
use std::fmt;

/// Expression, volume and pan.
pub type Call = (u8, u8, u8);

/// Gains as an implementation gives them.
#[derive(Clone, Copy)]
pub enum Levels {
    Exact(Gains),
    /// Left and right.
    Floats(f32, f32),
}

/// What a call for gains gave.
pub type Answered = Given<Result<Levels, Number>>;

impl fmt::Debug for Levels {
    fn fmt(&self, f: &mut fmt::Formatter<'_>) -> fmt::Result {
        let decimal = |gain: paper::Gain| gain.numerator as f64 / paper::Gain::DENOMINATOR as f64;
        match self {
            Levels::Exact(gains) => {
                let (left, right) = (decimal(gains.left), decimal(gains.right));
                write!(f, "left {left:.9}, right {right:.9}")
            }
            Levels::Floats(left, right) => write!(f, "left {left:?}, right {right:?}"),
        }
    }
}

impl Levels {
    /// How far apart two are; none if that is too far. Of one kind they must be the same, to the last bit.
    fn distance(self, other: Levels) -> Option<Distance> {
        match (self, other) {
            (Levels::Exact(exact), Levels::Floats(left, right))
            | (Levels::Floats(left, right), Levels::Exact(exact)) => {
                let farther = exact.left.distance(left)?.max(exact.right.distance(right)?);
                Some(farther).filter(|distance| distance.is_within_one_millionth())
            }
            _ => self.is_identical(other).then_some(Distance::default()),
        }
    }

    fn is_identical(self, other: Levels) -> bool {
        match (self, other) {
            (Levels::Exact(a), Levels::Exact(b)) => a == b,
            (Levels::Floats(left, right), Levels::Floats(left_too, right_too)) => {
                [left, right].map(f32::to_bits) == [left_too, right_too].map(f32::to_bits)
            }
            _ => false,
        }
    }
}

/// The very same answer, to the last bit.
pub fn is_identical(a: &Answered, b: &Answered) -> bool {
    match (a, b) {
        (Ok(Ok(a)), Ok(Ok(b))) => a.is_identical(*b),
        (Ok(Err(a)), Ok(Err(b))) => a == b,
        _ => false,
    }
}

/// What was compared.
#[derive(Clone, Copy, Debug, Default)]
pub struct Compared {
    pub calls: u64,
    pub refused: u64,
    /// The largest distance between a float and its exact fraction.
    pub farthest: Distance,
}

impl Compared {
    /// Takes both sides' answers to one call. The words for it are made only where they are needed: the calls are many.
    pub fn take(
        &mut self,
        call: impl Fn() -> String,
        a: &Answered,
        b: &Answered,
    ) -> Result<(), String> {
        self.calls += 1;
        match (a, b) {
            (Ok(Ok(one)), Ok(Ok(other))) => match one.distance(*other) {
                Some(distance) => self.farthest = self.farthest.max(distance),
                None => return Err(format!("{}: {one:?} against {other:?}", call())),
            },
            (Ok(Err(one)), Ok(Err(other))) if one == other => self.refused += 1,
            (Err(Malformed(found)), _) | (_, Err(Malformed(found))) => {
                return Err(format!("{}: nobody may give {found}", call()));
            }
            (Ok(one), Ok(other)) => {
                return Err(format!("{}: {one:?} against {other:?}", call()));
            }
        }
        Ok(())
    }
}

/// Makes each call on both sides, up to the first that differs.
pub fn compare(
    mut calls: impl Iterator<Item = Call>,
    a: impl Fn(Call) -> Answered,
    b: impl Fn(Call) -> Answered,
) -> Result<Compared, String> {
    let mut compared = Compared::default();
    calls.try_for_each(|call| {
        let (expression, volume, pan) = call;
        let words = || format!("gains: expression {expression}, volume {volume}, pan {pan}");
        compared.take(words, &a(call), &b(call))
    })?;
    Ok(compared)
}

/// Every call that there is, each once, from the limit on both ways: there a wrong weight shows most.
pub fn all() -> impl Iterator<Item = Call> {
    let bytes = || (0..=127).rev().flat_map(|below: u8| [below, 255 - below]);
    let of_both = move |e, v| bytes().map(move |pan| (e, v, pan));
    bytes().flat_map(move |e| bytes().flat_map(move |v| of_both(e, v)))
}
