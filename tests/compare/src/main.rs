//! Runs random cases through the built library and program and through the second program, prints every
//! difference so that it can be run again, and fails if there was one.

use compare::cases::{case, operation};
use std::collections::BTreeMap;
use std::process::ExitCode;
use std::time::{Instant, SystemTime, UNIX_EPOCH};

const USAGE: &str = "usage: compare [--seed N] [--cases N] [--only K]";

struct Options {
    seed: u64,
    cases: u64,
    only: Option<u64>,
}

fn main() -> ExitCode {
    let Some(options) = options() else {
        eprintln!("{USAGE}");
        return ExitCode::from(2);
    };
    println!("seed {}", options.seed);
    let numbers = match options.only {
        Some(number) => number..number.saturating_add(1),
        None => 0..options.cases,
    };
    let count = numbers.end - numbers.start;
    let mut counts = BTreeMap::new();
    let mut differences = 0u64;
    let begun = Instant::now();
    for number in numbers {
        *counts.entry(operation(number).name).or_insert(0) += 1;
        if differs(options.seed, number, options.only.is_some()) {
            differences += 1;
        }
    }
    let took = begun.elapsed().as_secs_f64();
    for (name, count) in counts {
        println!("{name} {count}");
    }
    println!(
        "{count} cases, {differences} differences, {:.0} cases per second",
        count as f64 / took
    );
    ExitCode::from(u8::from(differences > 0))
}

fn options() -> Option<Options> {
    let now = SystemTime::now().duration_since(UNIX_EPOCH).ok()?;
    let mut options = Options {
        seed: now.as_micros() as u64,
        cases: 1_000_000,
        only: None,
    };
    let mut words = std::env::args().skip(1);
    while let Some(word) = words.next() {
        let value: u64 = words.next()?.parse().ok()?;
        match word.as_str() {
            "--seed" => options.seed = value,
            "--cases" => options.cases = value,
            "--only" => options.only = Some(value),
            _ => return None,
        }
    }
    Some(options)
}

fn differs(seed: u64, number: u64, show: bool) -> bool {
    let case = case(seed, number);
    let library = case.by_library();
    let oracle = case.by_oracle();
    let differs = library != oracle;
    if differs || show {
        let word = if differs { "difference" } else { "same" };
        println!("{word}: --seed {seed} --only {number}");
        println!("  case    {case:?}");
        println!("  library {library:?}");
        println!("  oracle  {oracle:?}");
    }
    differs
}
