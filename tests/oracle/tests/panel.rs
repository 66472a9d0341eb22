//! The doubles of the panel: the exact nearest double against the machine's own division, and the
//! limits a panel takes.

use oracle::panel::{panel, seconds, Reading};
use oracle::refused::refuse;
use oracle::rounding::nearest;
use oracle::xorshift::XorShift;

const SEED: u64 = 0x9E37_79B9_7F4A_7C15;

#[test]
fn nearest_equals_one_rounded_division() {
    println!("seed {SEED:#x}");
    let mut random = XorShift::new(SEED);
    let compare = |rate: u64, buffer: u64, fullness: u64| {
        let answer = seconds(rate, buffer, fullness).unwrap();
        let wait = fullness as f64 / rate as f64;
        let fill = buffer as f64 / rate as f64;
        assert_eq!(answer.wait.to_bits(), wait.to_bits());
        assert_eq!(answer.fill.to_bits(), fill.to_bits());
    };
    for rate in [1, 2, 3, 1000, (1 << 27) - 1, 1 << 27] {
        for buffer in [1, 2, 3, 10_000, (1 << 36) - 1, 1 << 36] {
            compare(rate, buffer, 1);
            compare(rate, buffer, buffer);
        }
    }
    for _ in 0..20_000 {
        let rate_bits = random.range(0, 27);
        let buffer_bits = random.range(0, 36);
        let rate = random.range(1, 1 << rate_bits);
        let buffer = random.range(1, 1 << buffer_bits);
        let fullness = random.range(1, buffer);
        compare(rate, buffer, fullness);
    }
}

/// No quotient of a bucket is a tie, so ties are tried with larger numbers.
#[test]
fn nearest_sends_ties_to_even() {
    assert_eq!(nearest((1 << 53) + 1, 1), 9_007_199_254_740_992.0);
    assert_eq!(nearest((1 << 53) + 3, 1), 9_007_199_254_740_996.0);
    assert_eq!(nearest((1 << 54) - 1, 1), 18_014_398_509_481_984.0);
    assert_eq!(nearest((1 << 55) - 1, 1), 36_028_797_018_963_968.0);
    assert_eq!(nearest((1 << 54) - 1, 1 << 54), 1.0);
    assert_eq!(nearest(u64::MAX, 1), 18_446_744_073_709_551_616.0);
    let mut random = XorShift::new(SEED);
    for _ in 0..20_000 {
        let large = random.draw() | 1 << 63;
        assert_eq!(nearest(large, 1).to_bits(), (large as f64).to_bits());
        assert_eq!(
            nearest(1, large >> 11).to_bits(),
            (1.0 / (large >> 11) as f64).to_bits()
        );
    }
}

#[test]
fn limits_of_the_panel() {
    let least_subnormal = f64::from_bits(1);
    for limit in [
        0.0,
        -0.0,
        -1.0,
        -least_subnormal,
        f64::NAN,
        f64::INFINITY,
        f64::NEG_INFINITY,
    ] {
        assert_eq!(panel(3, 2, 1, limit), refuse(13, 0));
    }
    let third = 1.0_f64 / 3.0;
    let (below, above) = (third.to_bits() - 1, third.to_bits() + 1);
    for limit in [least_subnormal, f64::MIN_POSITIVE, f64::from_bits(below)] {
        assert_eq!(panel(3, 2, 1, limit), Ok(Reading::Over(third, limit)));
    }
    for limit in [third, f64::from_bits(above), f64::MAX] {
        assert_eq!(panel(3, 2, 1, limit), Ok(Reading::Within(third)));
    }
}
