//! The least buffer and start fullness of a recording at a rate.

use super::Case;
use crate::arguments::Record;
use crate::outcome::{bucket, settled, Outcome};
use crate::{by_library, by_oracle, damage, draws};
use oracle::limits::RATE_MAX;
use oracle::xorshift::XorShift;

pub const KINDS: &[&str] = &["bucket"];
pub const REFUSALS: &[u8] = &[1, 2, 3, 4, 5, 6];

#[derive(Debug)]
pub struct Least {
    pub rec: Record,
    pub rate: u64,
}

pub fn draw(random: &mut XorShift) -> Box<dyn Case> {
    let rec = draws::record(random, 2000);
    let rate = draws::rate_of(random, &rec);
    Box::new(Least { rec, rate })
}

impl Case for Least {
    fn damage(&mut self, random: &mut XorShift, first: bool) {
        if first {
            damage::record(random, &mut self.rec)
        } else {
            self.rate = damage::outside(random, RATE_MAX)
        }
    }

    fn by_library(&self) -> Outcome {
        let result = planner::least(&by_library::recording(&self.rec), self.rate);
        settled(result, |least| bucket(least.buffer, least.fullness)).into()
    }

    fn by_oracle(&self) -> Outcome {
        let result = oracle::least::least(&by_oracle::recording(&self.rec), self.rate);
        settled(result, |least| bucket(least.buffer, least.fullness)).into()
    }
}
