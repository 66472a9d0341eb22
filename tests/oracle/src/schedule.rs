//! The arrival schedule and the verdict on a bucket: document 01, "How bits arrive and leave".
//! All times are in units of 1/(R x TS) second.

use crate::ranges::{judge_bucket, judge_rate, judge_room};
use crate::recording::{judge, ticks_from_first, Recording};
use crate::refused::Refused;

#[derive(Clone, Copy, Debug, PartialEq, Eq)]
pub enum Verdict {
    Holds,
    Late { picture: usize, units: u64 },
}

pub(crate) struct Arrival {
    pub(crate) start: i128,
    pub(crate) end: i128,
}

/// The removal time of picture i of a recording that has been judged.
pub fn removal(rec: &Recording, rate: u64, fullness: u64, i: usize) -> i128 {
    let ts = i128::from(rec.clock.ts);
    let nu = i128::from(rec.clock.nu);
    ts * i128::from(fullness) + i128::from(rate) * nu * ticks_from_first(rec, i)
}

pub(crate) fn arrivals(rec: &Recording, rate: u64, buffer: u64, fullness: u64) -> Vec<Arrival> {
    let ts = i128::from(rec.clock.ts);
    let mut arrivals: Vec<Arrival> = Vec::new();
    for i in 0..rec.sizes.len() {
        let start = match arrivals.last() {
            None => 0,
            Some(before) => {
                let earliest = removal(rec, rate, fullness, i) - ts * i128::from(buffer);
                before.end.max(earliest)
            }
        };
        let end = start + ts * i128::from(rec.sizes[i]);
        arrivals.push(Arrival { start, end });
    }
    arrivals
}

fn first_late(rec: &Recording, rate: u64, fullness: u64, arrivals: &[Arrival]) -> Verdict {
    for (picture, arrival) in arrivals.iter().enumerate() {
        let late = arrival.end - removal(rec, rate, fullness, picture);
        if late > 0 {
            let units = whole(late);
            return Verdict::Late { picture, units };
        }
    }
    Verdict::Holds
}

fn whole(time: i128) -> u64 {
    u64::try_from(time).expect("a time of a judged call is from 0 to below 2^64")
}

/// The verdict asked of R, B and F.
pub fn verdict(rec: &Recording, rate: u64, buffer: u64, fullness: u64) -> Result<Verdict, Refused> {
    judge(rec)?;
    judge_rate(rate)?;
    judge_bucket(buffer, fullness, 0)?;
    let arrivals = arrivals(rec, rate, buffer, fullness);
    Ok(first_late(rec, rate, fullness, &arrivals))
}

/// Writes the schedule from entry `from` on, late or not, and gives the verdict too. The two lent
/// lists may differ in length: that is no refusal 2, each only needs room (8).
pub fn schedule(
    rec: &Recording,
    rate: u64,
    buffer: u64,
    fullness: u64,
    from: u64,
    starts: &mut [u64],
    ends: &mut [u64],
) -> Result<Verdict, Refused> {
    judge(rec)?;
    judge_rate(rate)?;
    judge_bucket(buffer, fullness, 0)?;
    judge_room(starts.len(), from, rec.sizes.len())?;
    judge_room(ends.len(), from, rec.sizes.len())?;
    let arrivals = arrivals(rec, rate, buffer, fullness);
    for (i, arrival) in arrivals.iter().enumerate() {
        let entry = from as usize + i;
        starts[entry] = whole(arrival.start);
        ends[entry] = whole(arrival.end);
    }
    Ok(first_late(rec, rate, fullness, &arrivals))
}
