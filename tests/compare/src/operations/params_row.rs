//! Rate and size of a row of a parameter record.

use super::Case;
use crate::draws::pick;
use crate::outcome::{settled, Answer, Outcome};
use crate::{by_oracle, damage, draws};
use oracle::bits::{rate_of, size_of};
use oracle::xorshift::XorShift;
use planner::{Params, Row};

pub const KINDS: &[&str] = &["row"];
pub const REFUSALS: &[u8] = &[6, 10];

#[derive(Debug)]
pub struct ParamsRow {
    pub params: Params,
    pub row: usize,
}

pub fn draw(random: &mut XorShift) -> Box<dyn Case> {
    let params = draws::params(random);
    let row = random.range(0, params.cpb_cnt as u64 - 1) as usize;
    Box::new(ParamsRow { params, row })
}

impl Case for ParamsRow {
    fn damage(&mut self, random: &mut XorShift, first: bool) {
        if first {
            return damage::fields(random, &mut self.params);
        }
        self.row = pick(random, &[self.params.cpb_cnt, usize::MAX]);
    }

    fn by_library(&self) -> Outcome {
        settled(planner::params_row(&self.params, self.row), figures).into()
    }

    fn by_oracle(&self) -> Outcome {
        let params = by_oracle::params_of(&self.params);
        let row = self.row as u64;
        let found = rate_of(&params, row)
            .and_then(|rate| size_of(&params, row).map(|size| Row { rate, size }));
        settled(found, figures).into()
    }
}

fn figures(row: Row) -> Answer {
    Answer::given("row", [row.rate, row.size])
}
