//! The verdict of a recording, a rate and a bucket.

use super::Case;
use crate::arguments::{Asked, Record};
use crate::outcome::{settled, Outcome};
use crate::{by_library, by_oracle, damage, draws};
use oracle::xorshift::XorShift;

pub const KINDS: &[&str] = &["holds", "late"];
pub const REFUSALS: &[u8] = &[1, 2, 3, 4, 5, 6, 7];

#[derive(Debug)]
pub struct Verdict {
    pub rec: Record,
    pub asked: Asked,
}

pub fn draw(random: &mut XorShift) -> Box<dyn Case> {
    let rec = draws::record(random, 200);
    let asked = draws::asked_of(random, &rec);
    Box::new(Verdict { rec, asked })
}

impl Case for Verdict {
    fn damage(&mut self, random: &mut XorShift, first: bool) {
        if first {
            damage::record(random, &mut self.rec)
        } else {
            damage::bucket(random, &mut self.asked)
        }
    }

    fn by_library(&self) -> Outcome {
        let rec = by_library::recording(&self.rec);
        let bucket = by_library::bucket(&self.asked);
        let result = planner::verdict(&rec, self.asked.rate, bucket);
        settled(result, by_library::held).into()
    }

    fn by_oracle(&self) -> Outcome {
        let (rec, asked) = (by_oracle::recording(&self.rec), &self.asked);
        let result = oracle::schedule::verdict(&rec, asked.rate, asked.buffer, asked.fullness);
        settled(result, by_oracle::held).into()
    }
}
