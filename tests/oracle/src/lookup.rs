//! Looking up a bucket for any rate in a table handed in: document 01, "Looking up a rate in a
//! table", with the whole-number comparison of demand 3.

use crate::limits::SPAN_MAX;
use crate::ranges::{judge_bucket, judge_clock, judge_rate, judge_rates};
use crate::recording::Clock;
use crate::refused::{refuse, Refused};
use crate::rounding::round_up;

/// A looked-up bucket; below the first row its figures may pass 2^36.
#[derive(Clone, Copy, Debug, PartialEq, Eq)]
pub struct Found {
    pub buffer: u64,
    pub fullness: u64,
}

/// The clock and the span are judged even where the answer does not use them. Buffers need not
/// fall as the rates rise: the document asks no more of a row than F not above B.
pub fn look_up(
    rates: &[u64],
    buffers: &[u64],
    fullnesses: &[u64],
    clock: Clock,
    span: u64,
    rate: u64,
) -> Result<Found, Refused> {
    if buffers.len() != rates.len() || fullnesses.len() != rates.len() {
        return refuse(2, 0);
    }
    judge_clock(clock)?;
    if span > SPAN_MAX {
        return refuse(3, 0);
    }
    judge_rates(rates)?;
    judge_rate(rate)?;
    for row in 0..rates.len() {
        judge_bucket(buffers[row], fullnesses[row], row as u64)?;
    }
    Ok(Found {
        buffer: figure(rates, buffers, clock, span, rate),
        fullness: figure(rates, fullnesses, clock, span, rate),
    })
}

/// One figure at rate r, `column` being the B or the F of every row.
fn figure(rates: &[u64], column: &[u64], clock: Clock, span: u64, r: u64) -> u64 {
    let rate = |row: usize| i128::from(rates[row]);
    let x = |row: usize| i128::from(column[row]);
    let last = rates.len() - 1;
    let r = i128::from(r);

    let answer = if r < rate(0) {
        let growth = (rate(0) - r) * i128::from(clock.nu) * i128::from(span);
        x(0) + round_up(growth, i128::from(clock.ts))
    } else if r >= rate(last) {
        x(last)
    } else {
        let mut a = 0;
        while rate(a + 1) <= r {
            a += 1;
        }
        let b = a + 1;
        if r == rate(a) {
            x(a)
        } else {
            let weighted = x(a) * (rate(b) - r) + x(b) * (r - rate(a));
            round_up(weighted, rate(b) - rate(a))
        }
    };
    u64::try_from(answer).expect("an answer of a judged call is below 2^60")
}

/// Demand 3's allowance for the excess of a looked-up figure over the least one at a rate r
/// between ra and rb. It judges nothing: the values are those of a call that was not refused, for
/// which both sides stay below 2^85.
pub fn within_allowance(
    excess: u64,
    ts: u64,
    nu: u64,
    ticks_span: u64,
    ra: u64,
    rb: u64,
    r: u64,
) -> bool {
    let [excess, ts, nu, span] = [excess, ts, nu, ticks_span].map(i128::from);
    let [ra, rb, r] = [ra, rb, r].map(i128::from);
    excess * ts * (rb - ra) < 2 * ts * (rb - ra) + nu * span * (r - ra) * (rb - r)
}
