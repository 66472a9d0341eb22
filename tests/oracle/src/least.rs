//! The least bucket of a recording at a rate, and the table of least buckets over several rates:
//! document 01, "How bits arrive and leave", the least figures.

use crate::ranges::{judge_rate, judge_rates, judge_room};
use crate::recording::{judge, Recording};
use crate::refused::Refused;
use crate::rounding::round_up;

#[derive(Clone, Copy, Debug, PartialEq, Eq)]
pub struct Least {
    pub buffer: u64,
    pub fullness: u64,
}

pub fn least(rec: &Recording, rate: u64) -> Result<Least, Refused> {
    judge(rec)?;
    judge_rate(rate)?;
    Ok(least_of_judged(rec, rate))
}

fn least_of_judged(rec: &Recording, rate: u64) -> Least {
    let ts = i128::from(rec.clock.ts);
    let rate_nu = i128::from(rate) * i128::from(rec.clock.nu);
    let ticks: Vec<i128> = rec.ticks.iter().map(|&tick| i128::from(tick)).collect();
    let mut bits_before: Vec<i128> = vec![0];
    for i in 0..rec.sizes.len() {
        bits_before.push(bits_before[i] + i128::from(rec.sizes[i]));
    }
    let term = |i: usize, j: usize| {
        ts * (bits_before[j + 1] - bits_before[i]) - rate_nu * (ticks[j] - ticks[i])
    };

    let mut largest_from_first = term(0, 0);
    let mut largest = term(0, 0);
    for j in 0..ticks.len() {
        largest_from_first = largest_from_first.max(term(0, j));
        for i in 0..=j {
            largest = largest.max(term(i, j));
        }
    }
    Least {
        buffer: bits(round_up(largest, ts)),
        fullness: bits(round_up(largest_from_first, ts)),
    }
}

fn bits(figure: i128) -> u64 {
    u64::try_from(figure).expect("a least figure is from 1 to the sum of the sizes")
}

/// Writes the least bucket of each rate to two lent lists from entry `from` on. The document names
/// a first entry for the schedule only; the table takes one in the same way, and its rates stay in
/// the caller's own list.
pub fn table(
    rec: &Recording,
    rates: &[u64],
    from: u64,
    buffers: &mut [u64],
    fullnesses: &mut [u64],
) -> Result<(), Refused> {
    judge(rec)?;
    judge_rates(rates)?;
    judge_room(buffers.len(), from, rates.len())?;
    judge_room(fullnesses.len(), from, rates.len())?;
    for (row, &rate) in rates.iter().enumerate() {
        let least = least_of_judged(rec, rate);
        let entry = from as usize + row;
        buffers[entry] = least.buffer;
        fullnesses[entry] = least.fullness;
    }
    Ok(())
}
