//! The least figures of a recording at every rate of a list, written to two lent lists.

use super::Case;
use crate::arguments::Record;
use crate::lent::Lent;
use crate::outcome::{passed, settled, Outcome};
use crate::{by_library, by_oracle, damage, draws};
use oracle::xorshift::XorShift;

pub const KINDS: &[&str] = &["passed"];
pub const REFUSALS: &[u8] = &[1, 2, 3, 4, 5, 6, 8];

#[derive(Debug)]
pub struct Table {
    pub rec: Record,
    pub rates: Vec<u64>,
    pub lent: Lent,
}

pub fn draw(random: &mut XorShift) -> Box<dyn Case> {
    let rec = draws::record(random, 2000);
    let rates = draws::rates(random);
    let lent = draws::lent(random, rates.len());
    Box::new(Table { rec, rates, lent })
}

impl Case for Table {
    fn damage(&mut self, random: &mut XorShift, first: bool) {
        if first {
            damage::record(random, &mut self.rec)
        } else if draws::one_in(random, 2) {
            damage::rate_list(random, &mut self.rates)
        } else {
            damage::room(random, &mut self.lent)
        }
    }

    fn by_library(&self) -> Outcome {
        self.lent.lend(|buffers, fullnesses| {
            let (rec, at) = (by_library::recording(&self.rec), self.lent.at);
            let result = planner::table(&rec, &self.rates, at, buffers, fullnesses);
            settled(result, passed)
        })
    }

    fn by_oracle(&self) -> Outcome {
        self.lent.lend(|buffers, fullnesses| {
            let (rec, at) = (by_oracle::recording(&self.rec), self.lent.at as u64);
            let result = oracle::least::table(&rec, &self.rates, at, buffers, fullnesses);
            settled(result, passed)
        })
    }
}
