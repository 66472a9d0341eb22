//! The wrapper and the library as a Rust program meets them: refusals in words, small stacks, and
//! calls from several threads at once.

use compare::operations::OPERATIONS;
use oracle::xorshift::XorShift;
use planner::{judge, look_up, refusals, Recording, Refused, Table};
use std::error::Error;
use std::thread;

/// Bytes of stack that include/planner.h calls enough for every call.
const STACK: usize = 192 * 1024;

const D: Recording = Recording {
    sizes: &[100, 100, 900, 100],
    ticks: &[0, 1, 1, 3],
    ts: 1,
    nu: 1,
};

fn through_a_box() -> Result<(), Box<dyn Error>> {
    judge(&D)?;
    Ok(())
}

#[test]
fn a_refusal_in_words() {
    let said = through_a_box().unwrap_err().to_string();
    let words = "a tick not above the one before, or too far from the first";
    assert_eq!(said, format!("refused 5 at 2: {words}"));
    let table = Table {
        rates: &[],
        buffers: &[],
        fullnesses: &[],
        ts: 1,
        nu: 1,
        span: 0,
    };
    let refused = look_up(&table, 1).unwrap_err();
    assert_eq!(refused.number, refusals::RATE);
    let unknown = Refused {
        number: 99,
        place: 7,
    };
    assert_eq!(unknown.to_string(), "refused 99 at 7");
}

/// The answers to cases of every operation.
fn answers(seed: u64) -> Vec<String> {
    let mut random = XorShift::new(seed);
    let mut answers = Vec::new();
    for operation in OPERATIONS {
        for _ in 0..40 {
            let case = (operation.draw)(&mut random);
            answers.push(format!("{:?}", case.by_library()));
        }
    }
    answers
}

#[test]
fn a_small_stack_and_eight_threads_at_once() {
    let expected = answers(14);
    let start = || {
        let thread = thread::Builder::new().stack_size(STACK);
        thread.spawn(|| answers(14)).unwrap()
    };
    let threads: Vec<_> = (0..8).map(|_| start()).collect();
    for thread in threads {
        assert!(thread.join().unwrap() == expected);
    }
}
