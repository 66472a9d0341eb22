//! Random cases of every operation, the built library against the second program, and that these
//! cases meet every kind of answer and every refusal.

use compare::cases::{case, operation};
use compare::operations::{OPERATIONS, PROGRAM};
use compare::outcome::Answer;
use std::collections::BTreeSet;

const SEED: u64 = 20;
const CASES: u64 = 220_000;

fn name(answer: Answer) -> String {
    match answer {
        Answer::Refused { number, .. } => format!("refused {number}"),
        Answer::Given { kind, .. } => kind.to_string(),
    }
}

#[test]
fn library_and_oracle_agree() {
    let mut met = BTreeSet::new();
    for number in 0..CASES {
        let case = case(SEED, number);
        let by_library = case.by_library();
        let by_oracle = case.by_oracle();
        assert_eq!(
            by_library, by_oracle,
            "--seed {SEED} --only {number}: {case:?}"
        );
        met.insert((operation(number).name, name(by_oracle.answer)));
    }

    let mut expected = BTreeSet::new();
    for operation in OPERATIONS.iter().chain([&PROGRAM]) {
        let kinds = operation.kinds.iter().map(|kind| kind.to_string());
        let refusals = operation.refusals.iter().map(|n| format!("refused {n}"));
        let all = kinds.chain(refusals);
        expected.extend(all.map(|answer| (operation.name, answer)));
    }
    assert_eq!(met, expected);
}
