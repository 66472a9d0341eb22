//! The single judgements that several operations share: refusals 3, 6, 7 and 8 of document 01,
//! "When the planner says no".

use crate::limits::{BUFFER_MAX, NU_MAX, RATES_MAX, RATE_MAX, TS_MAX};
use crate::recording::Clock;
use crate::refused::{refuse, Refused};

pub(crate) fn judge_clock(clock: Clock) -> Result<(), Refused> {
    if !(1..=TS_MAX).contains(&clock.ts) || !(1..=NU_MAX).contains(&clock.nu) {
        return refuse(3, 0);
    }
    Ok(())
}

pub(crate) fn judge_rate_count(count: u64) -> Result<(), Refused> {
    if !(1..=RATES_MAX).contains(&count) {
        return refuse(6, 0);
    }
    Ok(())
}

/// The count comes first, then the list, at the first rate out of range or not above the one before.
pub(crate) fn judge_rates(rates: &[u64]) -> Result<(), Refused> {
    judge_rate_count(rates.len() as u64)?;
    for k in 0..rates.len() {
        let in_range = (1..=RATE_MAX).contains(&rates[k]);
        let rises = k == 0 || rates[k] > rates[k - 1];
        if !in_range || !rises {
            return refuse(6, k as u64);
        }
    }
    Ok(())
}

pub(crate) fn judge_rate(rate: u64) -> Result<(), Refused> {
    if !(1..=RATE_MAX).contains(&rate) {
        return refuse(6, 0);
    }
    Ok(())
}

pub(crate) fn judge_bucket(buffer: u64, fullness: u64, place: u64) -> Result<(), Refused> {
    if !(1..=BUFFER_MAX).contains(&buffer) || !(1..=buffer).contains(&fullness) {
        return refuse(7, place);
    }
    Ok(())
}

/// Whether a lent list of `room` entries can take `count` of them from entry `from` on.
pub(crate) fn judge_room(room: usize, from: u64, count: usize) -> Result<(), Refused> {
    if u128::from(from) + count as u128 > room as u128 {
        return refuse(8, 0);
    }
    Ok(())
}
