//! Judging a parameter record.

use super::Case;
use crate::outcome::{passed, settled, Outcome};
use crate::{by_oracle, damage, draws};
use oracle::xorshift::XorShift;
use planner::Params;

pub const KINDS: &[&str] = &["passed"];
pub const REFUSALS: &[u8] = &[10];

#[derive(Debug)]
pub struct JudgeParams {
    pub params: Params,
}

pub fn draw(random: &mut XorShift) -> Box<dyn Case> {
    Box::new(JudgeParams {
        params: draws::params(random),
    })
}

impl Case for JudgeParams {
    fn damage(&mut self, random: &mut XorShift, _: bool) {
        damage::fields(random, &mut self.params);
    }

    fn by_library(&self) -> Outcome {
        settled(planner::judge_params(&self.params), passed).into()
    }

    fn by_oracle(&self) -> Outcome {
        let params = by_oracle::params_of(&self.params);
        settled(oracle::bits::judge_params(&params), passed).into()
    }
}
