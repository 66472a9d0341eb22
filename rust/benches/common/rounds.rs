//! Two pieces of work that take turns on one machine, each round on input made afresh before its
//! clocks start, so that the input is warm and no branch has been learnt.

use std::time::Instant;

const ROUNDS: u64 = 301;

/// Seconds of one piece of work.
pub struct Times {
    pub median: f64,
    pub least: f64,
}

/// The input is made from the round's number; the two work in turned order every other round.
pub fn in_turns<T>(
    mut fresh: impl FnMut(u64) -> T,
    mut first: impl FnMut(&T),
    mut second: impl FnMut(&T),
) -> [Times; 2] {
    let mut seconds = [Vec::new(), Vec::new()];
    for round in 1..=ROUNDS {
        let input = fresh(round);
        if round % 2 == 0 {
            seconds[0].push(timed(|| first(&input)));
            seconds[1].push(timed(|| second(&input)));
        } else {
            seconds[1].push(timed(|| second(&input)));
            seconds[0].push(timed(|| first(&input)));
        }
    }
    seconds.map(times)
}

/// Prints both medians and least times in microseconds, and how the first compares with the second.
pub fn report(names: [&str; 2], [first, second]: &[Times; 2]) {
    for (name, times) in names.iter().zip([first, second]) {
        let (median, least) = (times.median * 1e6, times.least * 1e6);
        println!("{name}: median {median:.1} us, least {least:.1} us");
    }
    let (medians, least) = (first.median / second.median, first.least / second.least);
    println!("ratio {medians:.2} of the medians, {least:.2} of the least");
}

fn timed(work: impl FnOnce()) -> f64 {
    let begun = Instant::now();
    work();
    begun.elapsed().as_secs_f64()
}

fn times(mut seconds: Vec<f64>) -> Times {
    seconds.sort_by(f64::total_cmp);
    Times {
        median: seconds[seconds.len() / 2],
        least: seconds[0],
    }
}
