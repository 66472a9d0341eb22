//! Judging a recording and its clock.

use super::Case;
use crate::arguments::Record;
use crate::outcome::{passed, settled, Outcome};
use crate::{by_library, by_oracle, damage, draws};
use oracle::xorshift::XorShift;

pub const KINDS: &[&str] = &["passed"];
pub const REFUSALS: &[u8] = &[1, 2, 3, 4, 5];

#[derive(Debug)]
pub struct Judge {
    pub rec: Record,
}

pub fn draw(random: &mut XorShift) -> Box<dyn Case> {
    Box::new(Judge {
        rec: draws::record(random, 200),
    })
}

impl Case for Judge {
    fn damage(&mut self, random: &mut XorShift, _: bool) {
        damage::record(random, &mut self.rec);
    }

    fn by_library(&self) -> Outcome {
        settled(planner::judge(&by_library::recording(&self.rec)), passed).into()
    }

    fn by_oracle(&self) -> Outcome {
        let rec = by_oracle::recording(&self.rec);
        settled(oracle::recording::judge(&rec), passed).into()
    }
}
