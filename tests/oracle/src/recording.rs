//! A recording, its clock, and refusals 1 to 5: document 01, "A recording and its units".

use crate::limits::{PICTURES_MAX, SIZE_MAX, SPAN_MAX};
use crate::ranges::judge_clock;
use crate::refused::{refuse, Refused};

/// A tick lasts nu/ts seconds.
#[derive(Clone, Copy, Debug, PartialEq, Eq)]
pub struct Clock {
    pub ts: u64,
    pub nu: u64,
}

#[derive(Clone, Copy, Debug)]
pub struct Recording<'a> {
    pub sizes: &'a [u64],
    pub ticks: &'a [u64],
    pub clock: Clock,
}

/// The first tick may be any value and is never at fault; a later one is at fault where it does
/// not rise or lies too far from the first, at the first picture where either holds.
pub fn judge(rec: &Recording) -> Result<(), Refused> {
    if !(1..=PICTURES_MAX).contains(&(rec.sizes.len() as u64)) {
        return refuse(1, 0);
    }
    if rec.ticks.len() != rec.sizes.len() {
        return refuse(2, 0);
    }
    judge_clock(rec.clock)?;
    for i in 0..rec.sizes.len() {
        if !(1..=SIZE_MAX).contains(&rec.sizes[i]) {
            return refuse(4, i as u64);
        }
    }
    for i in 1..rec.ticks.len() {
        let rises = rec.ticks[i] > rec.ticks[i - 1];
        if !rises || ticks_from_first(rec, i) > i128::from(SPAN_MAX) {
            return refuse(5, i as u64);
        }
    }
    Ok(())
}

/// tick i - tick 0.
pub fn ticks_from_first(rec: &Recording, i: usize) -> i128 {
    i128::from(rec.ticks[i]) - i128::from(rec.ticks[0])
}
