//! The arrival starts and ends of a recording, written to two lent lists, with the verdict.

use super::Case;
use crate::arguments::{Asked, Record};
use crate::lent::Lent;
use crate::outcome::{settled, Outcome};
use crate::{by_library, by_oracle, damage, draws};
use oracle::xorshift::XorShift;

pub const KINDS: &[&str] = &["holds", "late"];
pub const REFUSALS: &[u8] = &[1, 2, 3, 4, 5, 6, 7, 8];

#[derive(Debug)]
pub struct Schedule {
    pub rec: Record,
    pub asked: Asked,
    pub lent: Lent,
}

pub fn draw(random: &mut XorShift) -> Box<dyn Case> {
    let rec = draws::record(random, 200);
    let asked = draws::asked_of(random, &rec);
    let lent = draws::lent(random, rec.sizes.len());
    Box::new(Schedule { rec, asked, lent })
}

impl Case for Schedule {
    fn damage(&mut self, random: &mut XorShift, first: bool) {
        if first {
            damage::record(random, &mut self.rec)
        } else if draws::one_in(random, 2) {
            damage::bucket(random, &mut self.asked)
        } else {
            damage::room(random, &mut self.lent)
        }
    }

    fn by_library(&self) -> Outcome {
        self.lent.lend(|starts, ends| {
            let rec = by_library::recording(&self.rec);
            let (rate, bucket) = (self.asked.rate, by_library::bucket(&self.asked));
            let result = planner::schedule(&rec, rate, bucket, self.lent.at, starts, ends);
            settled(result, by_library::held)
        })
    }

    fn by_oracle(&self) -> Outcome {
        self.lent.lend(|starts, ends| {
            let result = oracle::schedule::schedule(
                &by_oracle::recording(&self.rec),
                self.asked.rate,
                self.asked.buffer,
                self.asked.fullness,
                self.lent.at as u64,
                starts,
                ends,
            );
            settled(result, by_oracle::held)
        })
    }
}
