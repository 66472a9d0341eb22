//! The two roundings the planner uses: a quotient rounded up to a whole number, and a fraction
//! rounded to the nearest double.

/// The least whole number not below numerator/divisor, for a divisor above 0.
pub fn round_up(numerator: i128, divisor: i128) -> i128 {
    let below = numerator.div_euclid(divisor);
    if numerator.rem_euclid(divisor) == 0 {
        below
    } else {
        below + 1
    }
}

/// The double nearest to numerator/denominator, a tie going to the even one; both are above 0.
/// It is built from its bits: a whole number q of 53 bits and an exponent, the value q x 2^exponent.
pub fn nearest(numerator: u64, denominator: u64) -> f64 {
    assert!(numerator > 0 && denominator > 0);
    let mut numerator = u128::from(numerator);
    let mut denominator = u128::from(denominator);
    let mut exponent: i64 = 0;
    while numerator / denominator < 1 << 52 {
        numerator *= 2;
        exponent -= 1;
    }
    while numerator / denominator >= 1 << 53 {
        denominator *= 2;
        exponent += 1;
    }
    let mut q = numerator / denominator;
    let twice_rest = 2 * (numerator % denominator);
    if twice_rest > denominator || (twice_rest == denominator && q % 2 == 1) {
        q += 1;
    }
    if q == 1 << 53 {
        q = 1 << 52;
        exponent += 1;
    }
    let exponent_field = (exponent + 52 + 1023) as u64;
    let fraction_field = (q - (1 << 52)) as u64;
    f64::from_bits(exponent_field << 52 | fraction_field)
}
