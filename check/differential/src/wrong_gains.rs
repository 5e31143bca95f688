//! What can be wrong about gains beside their rules (that is in `wrong`): what a refused call gives, the floats, and
//! single weights.

use crate::gains::Call;
use proved::GainsAnswer;

/// Places of the table of weights.
pub const WEIGHTS: usize = 127;

/// The answer in the header's form, so that one that has no meaning can be given too.
pub type Slip = fn(Call, GainsAnswer) -> GainsAnswer;

#[rustfmt::skip]
pub const SLIPS: &[(&str, Slip)] = &[
    // What a refused call gives.
    ("RefusedYetComputed", |(e, v, p), answer| {
        let held = right((e.min(127), v.min(127), p.min(127)));
        refused(answer, GainsAnswer { number: 24, ..held })
    }),
    ("RefusedWithLeft1", |_, answer| refused(answer, GainsAnswer { left: 1.0, ..answer })),
    ("RefusedWithRight1", |_, answer| refused(answer, GainsAnswer { right: 1.0, ..answer })),
    ("RefusedWithTheLeastLeft", |_, answer| refused(answer, GainsAnswer { left: f32::from_bits(1), ..answer })),
    ("RefusedWithTheLeastRight", |_, answer| refused(answer, GainsAnswer { right: f32::from_bits(1), ..answer })),
    ("RefusedWithMinusZeroLeft", |_, answer| refused(answer, GainsAnswer { left: -0.0, ..answer })),
    ("RefusedWithMinusZeroRight", |_, answer| refused(answer, GainsAnswer { right: -0.0, ..answer })),
    ("RefusedWithLeftNan", |_, answer| refused(answer, GainsAnswer { left: f32::NAN, ..answer })),
    ("RefusedWithRightNan", |_, answer| refused(answer, GainsAnswer { right: f32::NAN, ..answer })),
    ("RefusalUnnumbered", |_, answer| refused(answer, GainsAnswer { number: 0, ..answer })),
    ("RefusalNumbered14", |_, answer| refused(answer, GainsAnswer { number: 14, ..answer })),
    ("RefusalNumbered21", |_, answer| refused(answer, GainsAnswer { number: 21, ..answer })),
    ("RefusalNumbered23", |_, answer| refused(answer, GainsAnswer { number: 23, ..answer })),
    ("RefusalNumbered25", |_, answer| refused(answer, GainsAnswer { number: 25, ..answer })),
    ("AcceptedYetNumbered24", |_, answer| GainsAnswer { number: 24, ..answer }),
    ("AcceptedYetNumbered1", |_, answer| accepted(answer, GainsAnswer { number: 1, ..answer })),
    // The floats.
    ("GainsSquared", |_, answer| each(answer, |gain| gain * gain)),
    ("GainsHalved", |_, answer| each(answer, |gain| gain / 2.0)),
    ("GainsInSixteenBits", |_, answer| each(answer, |gain| (gain * 65536.0).round() / 65536.0)),
    ("GainsInElevenBits", |_, answer| each(answer, |gain| (gain * 2048.0).round() / 2048.0)),
    ("OneLeftNan", |call, answer| once(call, answer, GainsAnswer { left: f32::NAN, ..answer })),
    ("OneRightNan", |call, answer| once(call, answer, GainsAnswer { right: f32::NAN, ..answer })),
    ("OneLeftInfinite", |call, answer| once(call, answer, GainsAnswer { left: f32::INFINITY, ..answer })),
    ("OneRightInfinite", |call, answer| once(call, answer, GainsAnswer { right: f32::INFINITY, ..answer })),
    ("OneLeftMinusInfinite", |call, answer| once(call, answer, GainsAnswer { left: f32::NEG_INFINITY, ..answer })),
    ("OneLeftNegative", |call, answer| once(call, answer, GainsAnswer { left: -answer.left, ..answer })),
    ("OneRightNegative", |call, answer| once(call, answer, GainsAnswer { right: -answer.right, ..answer })),
    ("FullGainAFloatAbove1", |_, answer| each(answer, |gain| if gain == 1.0 { gain.next_up() } else { gain })),
    ("SilenceMinusZeroLeft", |_, answer| accepted(answer, GainsAnswer { left: minus_zero(answer.left), ..answer })),
    ("SilenceMinusZeroRight", |_, answer| accepted(answer, GainsAnswer { right: minus_zero(answer.right), ..answer })),
    ("OneLeftTwoMillionthsHigher", |call, all| once(call, all, GainsAnswer { left: all.left + 2e-6, ..all })),
    ("OneRightTwoMillionthsLower", |call, all| once(call, all, GainsAnswer { right: all.right - 2e-6, ..all })),
];

fn refused(answer: GainsAnswer, other: GainsAnswer) -> GainsAnswer {
    if answer.number == 0 {
        answer
    } else {
        other
    }
}

fn accepted(answer: GainsAnswer, other: GainsAnswer) -> GainsAnswer {
    if answer.number == 0 {
        other
    } else {
        answer
    }
}

/// The other answer to one call alone.
fn once(call: Call, answer: GainsAnswer, other: GainsAnswer) -> GainsAnswer {
    if call == (125, 90, 33) {
        other
    } else {
        answer
    }
}

fn each(answer: GainsAnswer, change: fn(f32) -> f32) -> GainsAnswer {
    let (left, right) = (change(answer.left), change(answer.right));
    GainsAnswer {
        left,
        right,
        ..answer
    }
}

fn minus_zero(gain: f32) -> f32 {
    if gain == 0.0 {
        -0.0
    } else {
        gain
    }
}

/// The gains by the fault that is being made, as floats.
pub fn right((expression, volume, pan): Call) -> GainsAnswer {
    let float =
        |gain: wrong::Gain| (gain.numerator as f64 / wrong::Gain::DENOMINATOR as f64) as f32;
    match wrong::gains(expression, volume, pan) {
        Ok(gains) => GainsAnswer {
            left: float(gains.left),
            right: float(gains.right),
            number: 0,
        },
        Err(number) => GainsAnswer {
            left: 0.0,
            right: 0.0,
            number: number as u8,
        },
    }
}

/// The same with one weight so much higher, of one side alone.
pub fn with_another_weight(call: Call, (is_left, at, more): (bool, usize, f64)) -> GainsAnswer {
    let (answer, (expression, volume, pan)) = (right(call), call);
    let place = usize::from(pan.saturating_sub(1));
    let place = if is_left {
        (WEIGHTS - 1).saturating_sub(place)
    } else {
        place
    };
    if answer.number != 0 || place != at {
        return answer;
    }
    let levels = f64::from(expression) * f64::from(volume) / (127.0 * 127.0);
    let more = levels * levels * more / 32768.0;
    let (left, right) = if is_left { (more, 0.0) } else { (0.0, more) };
    off_by(answer, left, right)
}

/// The same with gains so much higher.
fn off_by(answer: GainsAnswer, left: f64, right: f64) -> GainsAnswer {
    let (left, right) = (
        f64::from(answer.left) + left,
        f64::from(answer.right) + right,
    );
    GainsAnswer {
        left: left as f32,
        right: right as f32,
        ..answer
    }
}

/// The same with every gain so many millionths higher, but not below 0 nor above 1.
pub fn with_millionths(call: Call, left: f64, right_more: f64) -> GainsAnswer {
    let answer = right(call);
    let held = |gain: f32, more: f64| (f64::from(gain) + more / 1e6).clamp(0.0, 1.0) as f32;
    match (answer.number, left == 0.0 && right_more == 0.0) {
        (0, false) => GainsAnswer {
            left: held(answer.left, left),
            right: held(answer.right, right_more),
            number: 0,
        },
        _ => answer,
    }
}
