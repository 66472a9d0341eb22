//! A bucket at its rate in seconds, and the panel reading against the driver's limit: document 01,
//! "Looking up a rate in a table", the panel reading.

use crate::ranges::{judge_bucket, judge_rate};
use crate::refused::{refuse, Refused};
use crate::rounding::nearest;

#[derive(Clone, Copy, Debug, PartialEq)]
pub struct Seconds {
    pub wait: f64,
    pub fill: f64,
}

#[derive(Clone, Copy, Debug, PartialEq)]
pub enum Reading {
    /// The wait.
    Within(f64),
    /// The wait and the limit.
    Over(f64, f64),
}

/// F/R and B/R. The fill time is in no case of the reading, so the two doubles are an operation of
/// their own, and the bucket is judged in both.
pub fn seconds(rate: u64, buffer: u64, fullness: u64) -> Result<Seconds, Refused> {
    judge_rate(rate)?;
    judge_bucket(buffer, fullness, 0)?;
    Ok(Seconds {
        wait: nearest(fullness, rate),
        fill: nearest(buffer, rate),
    })
}

pub fn panel(rate: u64, buffer: u64, fullness: u64, limit: f64) -> Result<Reading, Refused> {
    let wait = seconds(rate, buffer, fullness)?.wait;
    if !(limit.is_finite() && limit > 0.0) {
        return refuse(13, 0);
    }
    if wait <= limit {
        Ok(Reading::Within(wait))
    } else {
        Ok(Reading::Over(wait, limit))
    }
}
