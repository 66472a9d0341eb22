//! The targets meet an answer and every refusal of their operations on random inputs alone, and an
//! answer on each seed.

use compare::operations::OPERATIONS;
use compare::outcome::Answer;
use fuzz::{judge, Target, TARGETS};
use oracle::xorshift::XorShift;
use std::collections::BTreeSet;
use std::fs::{read, read_dir};
use std::path::Path;

/// The numbers of the refusals met, and `None` for an answer.
fn met(target: &Target) -> BTreeSet<Option<u8>> {
    let random = &mut XorShift::new(20);
    (0..20_000)
        .map(|_| match judge(target, &input(random)) {
            Answer::Refused { number, .. } => Some(number),
            Answer::Given { .. } => None,
        })
        .collect()
}

fn input(random: &mut XorShift) -> Vec<u8> {
    let length = random.range(0, 100);
    (0..length).map(|_| random.draw() as u8).collect()
}

#[test]
fn an_answer_and_every_refusal() {
    for target in &TARGETS {
        let named = OPERATIONS.iter().find(|one| one.name == target.name);
        let refusals = named.unwrap().refusals.iter().copied().map(Some);
        let expected: BTreeSet<_> = [None].into_iter().chain(refusals).collect();
        assert_eq!(met(target), expected, "{}", target.name);
    }
}

#[test]
fn the_seeds_are_answered() {
    for target in &TARGETS {
        let folder = Path::new(env!("CARGO_MANIFEST_DIR")).join("seeds");
        for seed in read_dir(folder.join(target.name)).unwrap() {
            let path = seed.unwrap().path();
            let answer = judge(target, &read(&path).unwrap());
            assert!(!matches!(answer, Answer::Refused { .. }), "{path:?}");
        }
    }
}
