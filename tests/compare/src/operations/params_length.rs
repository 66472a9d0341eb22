//! The number of bits that a parameter record takes.

use super::Case;
use crate::outcome::{settled, Answer, Outcome};
use crate::{by_oracle, damage, draws};
use oracle::xorshift::XorShift;
use planner::Params;

pub const KINDS: &[&str] = &["bits"];
pub const REFUSALS: &[u8] = &[10];

#[derive(Debug)]
pub struct ParamsLength {
    pub params: Params,
}

pub fn draw(random: &mut XorShift) -> Box<dyn Case> {
    Box::new(ParamsLength {
        params: draws::params(random),
    })
}

impl Case for ParamsLength {
    fn damage(&mut self, random: &mut XorShift, _: bool) {
        damage::fields(random, &mut self.params);
    }

    fn by_library(&self) -> Outcome {
        settled(planner::params_length(&self.params), bits).into()
    }

    fn by_oracle(&self) -> Outcome {
        let params = by_oracle::params_of(&self.params);
        settled(oracle::bits::params_length(&params), bits).into()
    }
}

fn bits(length: u64) -> Answer {
    Answer::given("bits", [length])
}
