//! The gains of a channel, rule by rule (R12.1 to R12.9), and every weight held against the sine.

use paper::{float_gains, gains, Gain, Gains, Number, WEIGHTS};

/// Fixed-point numbers: so many bits behind the point, some thirty decimal digits. A unit is the last bit.
const BITS: u32 = 100;
const ONE: u128 = 1 << BITS;

/// The product of two numbers below 4, at most 2 units too low: a unit for the lowest part that is left out, one for
/// the bits cut off.
fn times(a: u128, b: u128) -> u128 {
    let halves = |x: u128| (x >> (BITS / 2), x & ((1 << (BITS / 2)) - 1));
    let ((a, a_low), (b, b_low)) = (halves(a), halves(b));
    a * b + ((a * b_low + a_low * b) >> (BITS / 2))
}

/// Terms with signs in turn, the first one plus.
fn alternating_sum(terms: impl Iterator<Item = u128>) -> i128 {
    let signed = |(k, term): (usize, u128)| match k % 2 {
        0 => term as i128,
        _ => -(term as i128),
    };
    terms.enumerate().map(signed).sum()
}

/// The arctangent of 1 / n, a unit wrong at most for each term and one for the terms left out: 23 for 5, 8 for 239.
fn arctangent_of_one_over(n: u128) -> i128 {
    let powers = std::iter::successors(Some(ONE / n), |power| Some(power / (n * n)));
    let powers = powers.take_while(|&power| power > 0);
    let odd_numbers = (1..).step_by(2);
    alternating_sum(powers.zip(odd_numbers).map(|(power, odd)| power / odd))
}

/// By Machin's formula, wrong by 16 × 23 + 4 × 8 = 400 units at most.
fn pi() -> u128 {
    let pi = 16 * arctangent_of_one_over(5) - 4 * arctangent_of_one_over(239);
    pi as u128
}

/// How wrong `sine` can be, in units: 201 for its argument (half of what pi is wrong, and 1), and 2 for each of 17
/// terms and of those left out.
const SINE_ERROR: i128 = 256;

/// sin(pi × p / 252), for p up to 126, by its power series.
fn sine(p: usize) -> i128 {
    let x = pi() * p as u128 / 252;
    let next = |&(k, term): &(u128, u128)| {
        let dividend = times(times(term, x), x);
        Some((k + 1, dividend / (2 * k * (2 * k + 1))))
    };
    let terms = std::iter::successors(Some((1, x)), next).map(|(_, term)| term);
    alternating_sum(terms.take_while(|&term| term > 0))
}

/// How far 32768 × sin(pi × p / 252) is from this number, in units of the sine; 2 to the power 85 of them are a whole.
fn from_weight(p: usize, weight: i128) -> i128 {
    (sine(p) - weight * A_WHOLE).abs()
}

const A_WHOLE: i128 = ONE as i128 / 32768;

/// Nearest, however wrong the sine is within its bound.
fn is_nearest(p: usize, weight: i128) -> bool {
    from_weight(p, weight) < A_WHOLE / 2 - SINE_ERROR
}

fn weight(p: usize) -> i128 {
    i128::from(WEIGHTS[p])
}

/// The numerators of a call that must be accepted.
fn accepted(expression: u8, volume: u8, pan: u8) -> (u64, u64) {
    let gains = gains(expression, volume, pan).expect("within its ranges");
    (gains.left.numerator, gains.right.numerator)
}

/// Every call that is accepted.
fn all_accepted() -> impl Iterator<Item = (u8, u8, u8)> {
    let of_both = |e, v| (0..=127).map(move |pan| (e, v, pan));
    (0..=127).flat_map(move |e| (0..=127).flat_map(move |v| of_both(e, v)))
}

#[test]
fn the_fixed_point_numbers_of_this_test_are_right() {
    // The digits of pi, to base 16.
    let digits = 0x3_243F_6A88_85A3_08D3_1319_8A2E_0u128;
    assert!(pi().abs_diff(digits) <= 400);
    assert_eq!(times(ONE, ONE), ONE);
    assert_eq!(times(3 * ONE / 2, 5 * ONE / 4), 15 * ONE / 8);
    assert_eq!(times(ONE / 3, 3).abs_diff(1), 1);
    // A third of a right angle, and the whole one.
    assert!((sine(42) - ONE as i128 / 2).abs() <= SINE_ERROR);
    assert!((sine(126) - ONE as i128).abs() <= SINE_ERROR);
    assert_eq!(sine(0), 0);
}

#[test]
fn the_sines_of_this_test_are_on_the_circle() {
    // An error of the bound in each makes 2 × (sine + cosine) times as much in the sum, and the products lose 4 units.
    for p in 0..=126 {
        let square = |at| times(sine(at) as u128, sine(at) as u128);
        let sum = square(p) + square(126 - p);
        assert!(
            sum.abs_diff(ONE) <= 3 * SINE_ERROR as u128 + 4,
            "place {p}: {sum}"
        );
    }
}

#[test]
fn each_weight_is_the_nearest_to_its_sine() {
    for p in 0..=126 {
        assert!(is_nearest(p, weight(p)), "weight {p}");
    }
}

#[test]
fn no_weight_one_higher_or_lower_is_the_nearest() {
    for (p, more) in (0..=126).flat_map(|p| [(p, 1), (p, -1)]) {
        let moved = weight(p) + more;
        assert!(!is_nearest(p, moved), "weight {p} with {more} added");
        assert!(from_weight(p, moved) > A_WHOLE / 2 + SINE_ERROR);
    }
}

#[test]
fn no_sine_is_near_a_half() {
    // The nearest is that of 36, 0.00236 of a weight away; the bound of the error is below a hundred-trillionth of it.
    let from_half = |p| (A_WHOLE / 2 - from_weight(p, weight(p))).abs();
    assert!((0..=126).all(|p| from_half(p) > A_WHOLE / 500));
    assert!(from_half(36) < A_WHOLE / 400);
    assert!(A_WHOLE / 500 > 100_000_000_000_000 * SINE_ERROR);
}

#[test]
fn weights_rise_strictly_from_0_to_32768() {
    assert_eq!(WEIGHTS.len(), 127);
    assert_eq!((WEIGHTS[0], WEIGHTS[126]), (0, 32768));
    assert!(WEIGHTS.windows(2).all(|pair| pair[0] < pair[1]));
}

#[test]
fn squares_of_both_weights_are_within_46342_of_the_whole() {
    for p in 0..=126 {
        let sum = u64::from(WEIGHTS[p]).pow(2) + u64::from(WEIGHTS[126 - p]).pow(2);
        assert!(sum.abs_diff(1_073_741_824) <= 46_342, "place {p}: {sum}");
    }
}

#[test]
fn pan_0_and_1_are_alike_and_no_other_two() {
    for (expression, volume) in [(127, 127), (1, 1), (64, 100)] {
        assert_eq!(
            accepted(expression, volume, 0),
            accepted(expression, volume, 1)
        );
        let differ =
            |pan| accepted(expression, volume, pan) != accepted(expression, volume, pan + 1);
        assert!((1..127).all(differ));
    }
}

#[test]
fn left_at_126_less_p_and_right_at_p() {
    let whole = 127u64.pow(4);
    for p in 0..=126u8 {
        let (left, right) = accepted(127, 127, p + 1);
        let at = usize::from(p);
        assert_eq!(left, whole * u64::from(WEIGHTS[126 - at]));
        assert_eq!(right, whole * u64::from(WEIGHTS[at]));
    }
}

#[test]
fn hard_left_centre_and_hard_right() {
    let whole = Gain::DENOMINATOR;
    assert_eq!(accepted(127, 127, 0), (whole, 0));
    assert_eq!(accepted(127, 127, 127), (0, whole));
    let (left, right) = accepted(127, 127, 64);
    assert_eq!((left, right), (127u64.pow(4) * 23170, left));
}

#[test]
fn expression_and_volume_count_by_their_squares() {
    assert_eq!(Gain::DENOMINATOR, 127 * 127 * 127 * 127 * 32768);
    for (expression, volume, pan) in all_accepted() {
        let [e, v] = [expression, volume].map(u64::from);
        let p = usize::from(pan.max(1)) - 1;
        let gains = accepted(expression, volume, pan);
        let gain = |at: usize| e * e * v * v * u64::from(WEIGHTS[at]);
        assert_eq!(gains, (gain(126 - p), gain(p)));
        assert!(gains.0 <= Gain::DENOMINATOR && gains.1 <= Gain::DENOMINATOR);
    }
}

#[test]
fn half_the_level_is_a_quarter() {
    for pan in [0, 1, 2, 63, 64, 65, 126, 127] {
        let (left, right) = accepted(126, 100, pan);
        let quarter = (left / 4, right / 4);
        assert_eq!((left % 4, right % 4), (0, 0));
        assert_eq!(accepted(63, 100, pan), quarter);
        assert_eq!(accepted(126, 50, pan), quarter);
    }
}

#[test]
fn number_24_on_both_sides_of_each_limit() {
    assert!(gains(127, 127, 127).is_ok());
    for (expression, volume, pan) in [(128, 127, 127), (127, 128, 127), (127, 127, 128)] {
        let answer = gains(expression, volume, pan);
        assert_eq!(answer, Err(Number::LevelOutOfRange));
    }
    assert_eq!(Number::LevelOutOfRange as u8, 24);
}

#[test]
fn number_24_exactly_where_one_of_the_three_is_above_127() {
    for (expression, volume) in (0..=255).flat_map(|e| (0..=255).map(move |v| (e, v))) {
        for pan in 0..=255 {
            let within = expression < 128 && volume < 128 && pan < 128;
            assert_eq!(gains(expression, volume, pan).is_ok(), within);
            assert_eq!(float_gains(expression, volume, pan).is_ok(), within);
        }
    }
}

#[test]
fn refused_calls_give_0_and_0() {
    let refused = gains(255, 255, 255).unwrap_or(Gains::REFUSED);
    assert_eq!((refused.left.numerator, refused.right.numerator), (0, 0));
}

/// The baseline of the benchmark does the same work: without it a comparison of costs would mean little.
#[test]
fn the_gains_in_floats_are_within_one_millionth() {
    for (expression, volume, pan) in all_accepted() {
        let exact = gains(expression, volume, pan).expect("within its ranges");
        let (left, right) = float_gains(expression, volume, pan).expect("within its ranges");
        let near = |gain: Gain, float| {
            let distance = gain.distance(float);
            distance.is_some_and(|distance| distance.is_within_one_millionth())
        };
        assert!(near(exact.left, left) && near(exact.right, right));
    }
}

const SILENT: Gain = Gain { numerator: 0 };
const FULL: Gain = Gain {
    numerator: Gain::DENOMINATOR,
};

#[test]
fn no_other_float_than_one_from_0_to_1_has_a_distance() {
    let least = f32::from_bits(1);
    let others = [
        -0.0,
        -least,
        -1e-9,
        -1.0,
        1.0 + f32::EPSILON,
        2.0,
        f32::MAX,
        f32::INFINITY,
        f32::NEG_INFINITY,
        f32::NAN,
        -f32::NAN,
    ];
    for float in others {
        assert!(SILENT.distance(float).is_none() && FULL.distance(float).is_none());
    }
    for float in [0.0, least, f32::MIN_POSITIVE, 0.5, 1.0] {
        assert!(SILENT.distance(float).is_some() && FULL.distance(float).is_some());
    }
}

#[test]
fn distances_that_are_known() {
    let billionths =
        |gain: Gain, float| gain.distance(float).map(|d| d.thousandths_of_a_billionth());
    assert_eq!(billionths(SILENT, 0.0), Some(0));
    assert_eq!(billionths(FULL, 1.0), Some(0));
    assert_eq!(billionths(SILENT, 1.0), Some(1_000_000_000_000));
    assert_eq!(billionths(FULL, 0.0), Some(1_000_000_000_000));
    // The smallest float counts as something, and 2 to the power -24 is 59.6046 billionths.
    assert_eq!(billionths(SILENT, f32::from_bits(1)), Some(1));
    assert_eq!(billionths(FULL, 1.0 - f32::EPSILON / 2.0), Some(59_605));
}

#[test]
fn one_millionth_is_the_limit_on_both_sides() {
    let near = |gain: Gain, float: f32| {
        gain.distance(float)
            .is_some_and(|d| d.is_within_one_millionth())
    };
    // The float for 0.000001 is somewhat below it.
    let millionth = 1e-6f32;
    assert!(near(SILENT, millionth) && !near(SILENT, millionth.next_up()));
    // Floats below 1 are 59.6 billionths apart: sixteen of them are within a millionth, seventeen are not.
    let below = |steps: u32| f32::from_bits(1f32.to_bits() - steps);
    assert!(near(FULL, below(16)) && !near(FULL, below(17)));
}

/// The same question by one inequality between whole numbers, for floats that are not too small for it.
#[test]
fn distances_are_those_of_cross_multiplication() {
    let (whole, million, power) = (i128::from(Gain::DENOMINATOR), 1_000_000, 50);
    for (expression, step) in (0..=127).flat_map(|e| (-40..=40).map(move |step| (e, step))) {
        let gains = gains(expression, 127, 100).expect("within its ranges");
        let numerator = gains.right.numerator;
        let near = numerator as f64 / Gain::DENOMINATOR as f64;
        let float = (near + f64::from(step) / 2e7) as f32;
        let dividend = (f64::from(float) * 2f64.powi(power)) as i128;
        let apart = (million * (dividend * whole - (i128::from(numerator) << power))).abs();
        let within = float.is_sign_positive() && apart <= whole << power;
        let judged = gains.right.distance(float);
        assert_eq!(judged.is_some_and(|d| d.is_within_one_millionth()), within);
    }
}
