//! The verdict of a recording, a start fullness and a row of a parameter record.

use super::Case;
use crate::arguments::{Asked, Record};
use crate::draws::{one_in, pick};
use crate::outcome::{settled, Outcome};
use crate::{by_library, by_oracle, damage, draws};
use oracle::limits::{BUFFER_MAX, VALUE_MINUS1_MAX};
use oracle::xorshift::XorShift;
use planner::Params;

pub const KINDS: &[&str] = &["holds", "late"];
pub const REFUSALS: &[u8] = &[1, 2, 3, 4, 5, 6, 7, 10, 11];

#[derive(Debug)]
pub struct RowVerdict {
    pub rec: Record,
    pub params: Params,
    pub row: usize,
    pub fullness: u64,
}

pub fn draw(random: &mut XorShift) -> Box<dyn Case> {
    let rec = draws::record(random, 200);
    let asked = draws::asked_of(random, &rec);
    let params = params_for(random, &asked);
    let row = random.range(0, params.cpb_cnt as u64 - 1) as usize;
    Box::new(RowVerdict {
        rec,
        params,
        row,
        fullness: asked.fullness,
    })
}

/// A record of one row with the least rate and size of a row that are no less than those asked; or
/// any record, most of whose rows no bucket can be.
fn params_for(random: &mut XorShift, asked: &Asked) -> Params {
    let mut params = draws::params(random);
    if one_in(random, 4) {
        return params;
    }
    params.cpb_cnt = 1;
    params.bit_rate_scale = 0;
    params.cpb_size_scale = 0;
    params.bit_rate_value_minus1[0] = asked.rate.div_ceil(64) - 1;
    params.cpb_size_value_minus1[0] = (asked.buffer.div_ceil(16) - 1).min(VALUE_MINUS1_MAX);
    params.cbr_flag[0] = one_in(random, 4) as u64;
    params
}

impl Case for RowVerdict {
    fn damage(&mut self, random: &mut XorShift, first: bool) {
        if first {
            return damage::record(random, &mut self.rec);
        }
        match random.range(0, 2) {
            0 => damage::fields(random, &mut self.params),
            1 => self.row = pick(random, &[self.params.cpb_cnt, usize::MAX]),
            _ => self.fullness = damage::outside(random, BUFFER_MAX),
        }
    }

    fn by_library(&self) -> Outcome {
        let rec = by_library::recording(&self.rec);
        let result = planner::row_verdict(&rec, &self.params, self.row, self.fullness);
        settled(result, by_library::held).into()
    }

    fn by_oracle(&self) -> Outcome {
        let rec = by_oracle::recording(&self.rec);
        let params = by_oracle::params_of(&self.params);
        let result = oracle::bits::row_verdict(&rec, &params, self.row as u64, self.fullness);
        settled(result, by_oracle::held).into()
    }
}
