//! Writing a parameter record at a bit position.

use super::Case;
use crate::lent::Bytes;
use crate::outcome::{settled, Answer, Outcome};
use crate::{by_oracle, damage, draws};
use oracle::xorshift::XorShift;
use planner::Params;

pub const KINDS: &[&str] = &["written"];
pub const REFUSALS: &[u8] = &[8, 10];

#[derive(Debug)]
pub struct WriteParams {
    pub params: Params,
    pub lent: Bytes,
}

pub fn draw(random: &mut XorShift) -> Box<dyn Case> {
    let params = draws::params(random);
    let lent = draws::bytes_for(random, &params);
    Box::new(WriteParams { params, lent })
}

impl Case for WriteParams {
    fn damage(&mut self, random: &mut XorShift, first: bool) {
        if first {
            damage::fields(random, &mut self.params)
        } else {
            damage::bytes(random, &mut self.lent)
        }
    }

    fn by_library(&self) -> Outcome {
        self.lent.lend(|bytes| {
            let result = planner::write_params(&self.params, bytes, self.lent.start);
            settled(result, written)
        })
    }

    fn by_oracle(&self) -> Outcome {
        self.lent.lend(|bytes| {
            let params = by_oracle::params_of(&self.params);
            let result = oracle::bits::write_params(&params, bytes, self.lent.start);
            settled(result, written)
        })
    }
}

fn written(next: u64) -> Answer {
    Answer::given("written", [next])
}
