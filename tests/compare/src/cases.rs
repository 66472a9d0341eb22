//! The cases: one call of one operation each, made from a seed and a number alone.

use crate::draws::one_in;
use crate::operations::{Case, Operation, OPERATIONS, PROGRAM};
use oracle::xorshift::XorShift;

/// The operation that a case of this number is of. A run of the program takes far longer than a call
/// of the library, so one case in a thousand is one.
pub fn operation(number: u64) -> &'static Operation {
    if number % 1000 == 999 {
        return &PROGRAM;
    }
    &OPERATIONS[(number % OPERATIONS.len() as u64) as usize]
}

pub fn case(seed: u64, number: u64) -> Box<dyn Case> {
    let random = &mut stream(seed, number);
    let mut case = (operation(number).draw)(random);
    if one_in(random, 3) {
        for _ in 0..random.range(1, 3) {
            let first = one_in(random, 2);
            case.damage(random, first);
        }
    }
    case
}

/// A stream of its own for each seed and number.
fn stream(seed: u64, number: u64) -> XorShift {
    let mut state = seed;
    for word in [number, 1] {
        state = state.wrapping_add(word).wrapping_add(0x9E37_79B9_7F4A_7C15);
        state = (state ^ (state >> 30)).wrapping_mul(0xBF58_476D_1CE4_E5B9);
        state = (state ^ (state >> 27)).wrapping_mul(0x94D0_49BB_1331_11EB);
        state ^= state >> 31;
    }
    XorShift::new(state.max(1))
}
