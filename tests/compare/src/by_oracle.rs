//! Arguments as the second program takes them and answers as it gives them, where several operations
//! share them.

use crate::arguments::Record;
use crate::outcome::Answer;
use oracle::bits::{Params, Row};
use oracle::recording::{Clock, Recording};
use oracle::schedule::Verdict;
use oracle::Refused;

pub fn recording(rec: &Record) -> Recording<'_> {
    Recording {
        sizes: &rec.sizes,
        ticks: &rec.ticks,
        clock: Clock {
            ts: rec.ts,
            nu: rec.nu,
        },
    }
}

/// The record with a row for each that is counted; of a count over 32, one row too many.
pub fn params_of(params: &planner::Params) -> Params {
    let count = params.cpb_cnt.min(params.cbr_flag.len() + 1);
    let entry = |list: &[u64], k| list.get(k).copied().unwrap_or(0);
    let row = |k| Row {
        bit_rate_value_minus1: entry(&params.bit_rate_value_minus1, k),
        cpb_size_value_minus1: entry(&params.cpb_size_value_minus1, k),
        cbr_flag: entry(&params.cbr_flag, k),
    };
    Params {
        bit_rate_scale: params.bit_rate_scale,
        cpb_size_scale: params.cpb_size_scale,
        rows: (0..count).map(row).collect(),
        initial_cpb_removal_delay_length_minus1: params.initial_cpb_removal_delay_length_minus1,
        cpb_removal_delay_length_minus1: params.cpb_removal_delay_length_minus1,
        dpb_output_delay_length_minus1: params.dpb_output_delay_length_minus1,
        time_offset_length: params.time_offset_length,
    }
}

/// The record as the library has it, with zeros after its rows.
pub fn params_from(params: &Params) -> planner::Params {
    let mut fixed = planner::Params {
        cpb_cnt: params.rows.len(),
        bit_rate_scale: params.bit_rate_scale,
        cpb_size_scale: params.cpb_size_scale,
        initial_cpb_removal_delay_length_minus1: params.initial_cpb_removal_delay_length_minus1,
        cpb_removal_delay_length_minus1: params.cpb_removal_delay_length_minus1,
        dpb_output_delay_length_minus1: params.dpb_output_delay_length_minus1,
        time_offset_length: params.time_offset_length,
        ..planner::Params::default()
    };
    for (k, row) in params.rows.iter().enumerate() {
        fixed.bit_rate_value_minus1[k] = row.bit_rate_value_minus1;
        fixed.cpb_size_value_minus1[k] = row.cpb_size_value_minus1;
        fixed.cbr_flag[k] = row.cbr_flag;
    }
    fixed
}

impl From<Refused> for Answer {
    fn from(Refused { number, place }: Refused) -> Answer {
        Answer::Refused { number, place }
    }
}

pub fn held(verdict: Verdict) -> Answer {
    match verdict {
        Verdict::Holds => Answer::given("holds", []),
        Verdict::Late { picture, units } => Answer::given("late", [picture as u64, units]),
    }
}
