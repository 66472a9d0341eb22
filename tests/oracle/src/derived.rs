//! What the command works out itself beside the planner's figures: how long a recording is and how
//! fast, and what the buffer holds. Nothing is judged: the values are those of a call that was not
//! refused.

use crate::recording::{ticks_from_first, Recording};
use crate::rounding::nearest;
use crate::schedule::{arrivals, removal};

/// The duration in seconds, (last tick - first tick) x NU / TS.
pub fn duration(rec: &Recording) -> f64 {
    match span_units(rec) {
        0 => 0.0,
        units => nearest(units, rec.clock.ts),
    }
}

/// All bits over the duration; none where that is 0.
pub fn mean_rate(rec: &Recording) -> Option<f64> {
    let bits: u64 = rec.sizes.iter().sum();
    let units = span_units(rec);
    (units > 0).then(|| nearest(bits * rec.clock.ts, units))
}

/// One picture less than there are, over the duration.
pub fn pictures_a_second(rec: &Recording) -> Option<f64> {
    let units = span_units(rec);
    (units > 0).then(|| nearest((rec.sizes.len() as u64 - 1) * rec.clock.ts, units))
}

fn span_units(rec: &Recording) -> u64 {
    ticks_from_first(rec, rec.ticks.len() - 1) as u64 * rec.clock.nu
}

/// What the buffer holds just before picture i is removed and just after, a bit counting TS parts: of
/// every picture what has arrived by then, less the sizes that have been removed.
pub fn content(rec: &Recording, rate: u64, buffer: u64, fullness: u64, i: usize) -> (i128, i128) {
    let now = removal(rec, rate, fullness, i);
    let parts = |sizes: &[u64]| -> i128 {
        let bits: i128 = sizes.iter().map(|&size| i128::from(size)).sum();
        bits * i128::from(rec.clock.ts)
    };
    let arrived: i128 = arrivals(rec, rate, buffer, fullness)
        .iter()
        .map(|arrival| now.clamp(arrival.start, arrival.end) - arrival.start)
        .sum();
    (
        arrived - parts(&rec.sizes[..i]),
        arrived - parts(&rec.sizes[..=i]),
    )
}
