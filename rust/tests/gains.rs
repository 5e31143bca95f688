//! Gains over the library. Its weights are read back, and each is held against the sine, of which no proof speaks, with
//! more digits than an f64 has. Then every gain of every accepted call is held against its exact fraction, and a
//! channel of the record against the call by its numbers.
use muntinorris::{gains, Device, Gains, Refused};

/// Fixed point: 60 bits behind the point. No float has a part in the sine.
const ONE: i128 = 1 << 60;
/// Pi, cut off behind its last bit.
const PI: i128 = 3622009729038561421;

/// 32768 × sin(pi × p / 252) by the sine's series, for p from 0 to 126. Pi and each of the at most 30 terms are off by
/// less than 4 of the last place, so that the sum is off by less than 2^-52, and 32768 times it by less than 2^-37.
fn sine(p: usize) -> i128 {
    let x = PI * p as i128 / 252;
    let square = x * x / ONE;
    let (mut sum, mut term, mut k) = (x, x, 1);
    while term != 0 {
        term = -(term * square / ONE) / ((k + 1) * (k + 2));
        sum += term;
        k += 2;
    }
    32768 * sum
}

/// Whether w is the whole number nearest to the sine: less than a half away.
fn is_nearest(p: usize, w: i128) -> bool {
    2 * (w * ONE - sine(p)).abs() < ONE
}

/// At full expression and volume a gain is its weight over 32768, to a millionth, so that the weight is the nearest
/// whole number to 32768 times it.
fn weight(gain: f32) -> i128 {
    let scaled = f64::from(gain) * 32768.0;
    assert!((scaled - scaled.round()).abs() <= 0.033, "{gain}");
    scaled.round() as i128
}

/// The weights, as the right side gives them.
fn weights() -> Vec<i128> {
    (1..=127).map(|pan| weight(gains(127, 127, pan).unwrap().right)).collect()
}

#[test]
fn the_sine_has_digits_enough() {
    // sin(pi / 6) is a half, and sin(pi / 2) is 1
    assert!((sine(42) - 16384 * ONE).abs() < 1 << 23 && (sine(126) - 32768 * ONE).abs() < 1 << 23);
    // no sine is within 2^-9 of the middle between two whole numbers (the closest, of place 36, is 0.0023 away), so
    // that the last digits decide nothing
    assert!((0..127).all(|p| (sine(p).rem_euclid(ONE) - ONE / 2).abs() > ONE >> 9));
}

#[test]
fn each_weight_is_nearest_to_the_sine() {
    for (p, w) in weights().into_iter().enumerate() {
        assert!(is_nearest(p, w), "W({p}) = {w}");
    }
}

#[test]
fn the_comparison_fails_for_each_weight_moved_by_one() {
    for (p, w) in weights().into_iter().enumerate() {
        assert!(!is_nearest(p, w + 1) && !is_nearest(p, w - 1), "{p}");
    }
}

#[test]
fn pan_0_and_1_are_alike_and_left_mirrors_right() {
    let w = weights();
    for pan in 0..=127u8 {
        let p = usize::from(pan.saturating_sub(1));
        let g = gains(127, 127, pan).unwrap();
        assert_eq!((weight(g.left), weight(g.right)), (w[126 - p], w[p]), "{pan}");
    }
    assert_eq!(gains(127, 127, 0), gains(127, 127, 1));
    assert_eq!(
        gains(127, 127, 0),
        Ok(Gains { left: 1.0, right: 0.0 }),
        "1 to the last bit, which is more than the contract says"
    );
}

#[test]
fn every_gain_is_within_a_millionth_and_not_above_1() {
    let w = weights();
    for (e, v, pan) in (0..1 << 21).map(|n: u64| (n >> 14, n >> 7 & 127, n & 127)) {
        let g = gains(e as u8, v as u8, pan as u8).unwrap();
        let p = pan.saturating_sub(1) as usize;
        for (x, w) in [(g.left, w[126 - p]), (g.right, w[p])] {
            // numerator and denominator are whole numbers below 2^53, so that an f64 holds them
            let fraction = (e * e * v * v * w as u64) as f64 / (16129.0 * 16129.0 * 32768.0);
            assert!((f64::from(x) - fraction).abs() <= 1e-6 && (0.0..=1.0).contains(&x), "{e} {v} {pan}: {x}");
        }
    }
}

#[test]
fn gains_of_a_channel_are_those_of_its_numbers() {
    let (mut device, _) = Device::start(4, 0);
    assert_eq!(device.instrument().channels[0].gains(), gains(127, 100, 64));
    for byte in [0xB2, 11, 90, 7, 50, 10, 20, 1, 99, 64, 77] {
        device.byte(byte);
    }
    let channels = device.instrument().channels;
    assert_eq!(channels[2].gains(), gains(90, 50, 20));
    assert!(channels.iter().enumerate().all(|(i, c)| i == 2 || c.gains() == gains(127, 100, 64)));
    let mut odd = channels[2];
    odd.volume = 128;
    assert_eq!(odd.gains(), Err(Refused(24)));
}

#[test]
fn refused() {
    assert_eq!(gains(128, 0, 0), Err(Refused(24)));
    assert_eq!(gains(0, 128, 0), Err(Refused(24)));
    assert_eq!(gains(0, 0, 128), Err(Refused(24)));
    assert_eq!(gains(255, 255, 255), Err(Refused(24)));
    assert!(gains(127, 127, 127).is_ok());
}
