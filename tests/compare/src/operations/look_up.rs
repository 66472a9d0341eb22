//! Buffer and start fullness for any rate, from a table.

use super::Case;
use crate::draws::{one_in, pick, up_to};
use crate::outcome::{bucket, settled, Outcome};
use crate::{by_oracle, damage, draws};
use oracle::least::least;
use oracle::limits::{BUFFER_MAX, NU_MAX, RATES_MAX, RATE_MAX, SPAN_MAX, TS_MAX};
use oracle::recording::Clock;
use oracle::xorshift::XorShift;

pub const KINDS: &[&str] = &["bucket"];
pub const REFUSALS: &[u8] = &[2, 3, 6, 7];

#[derive(Debug)]
pub struct LookUp {
    pub rows: Rows,
    pub rate: u64,
}

#[derive(Debug)]
pub struct Rows {
    pub rates: Vec<u64>,
    pub buffers: Vec<u64>,
    pub fullnesses: Vec<u64>,
    pub ts: u64,
    pub nu: u64,
    pub span: u64,
}

pub fn draw(random: &mut XorShift) -> Box<dyn Case> {
    let rows = draw_rows(random);
    let rate = rate_beside(random, &rows.rates);
    Box::new(LookUp { rows, rate })
}

/// The table of a recording, or one that is no recording's.
fn draw_rows(random: &mut XorShift) -> Rows {
    let rates = draws::rates(random);
    if one_in(random, 2) {
        let rec = draws::record(random, 100_000);
        let table: Vec<_> = rates
            .iter()
            .map(|&rate| least(&by_oracle::recording(&rec), rate))
            .map(|least| least.expect("a drawn recording has no fault"))
            .collect();
        return Rows {
            rates,
            buffers: table.iter().map(|least| least.buffer).collect(),
            fullnesses: table.iter().map(|least| least.fullness).collect(),
            ts: rec.ts,
            nu: rec.nu,
            span: draws::span(&rec),
        };
    }
    let buffers: Vec<u64> = if one_in(random, 8) {
        vec![BUFFER_MAX; rates.len()]
    } else {
        rates.iter().map(|_| up_to(random, BUFFER_MAX)).collect()
    };
    let fullnesses = buffers.iter().map(|&b| up_to(random, b)).collect();
    let (ts, nu) = draws::clock(random);
    let any = random.range(0, SPAN_MAX);
    Rows {
        rates,
        buffers,
        fullnesses,
        ts,
        nu,
        span: pick(random, &[0, any, SPAN_MAX]),
    }
}

/// A rate on a row, beside one, or anywhere.
fn rate_beside(random: &mut XorShift, rates: &[u64]) -> u64 {
    let row = pick(random, rates);
    let any = up_to(random, RATE_MAX);
    let (first, last) = (rates[0], rates[rates.len() - 1]);
    let between = random.range(first, last);
    let beside = pick(random, &[row - 1, row, row + 1]);
    pick(random, &[any, between, beside]).clamp(1, RATE_MAX)
}

impl Case for LookUp {
    fn damage(&mut self, random: &mut XorShift, _: bool) {
        if one_in(random, 6) {
            self.rate = damage::outside(random, RATE_MAX)
        } else {
            damage_rows(random, &mut self.rows)
        }
    }

    fn by_library(&self) -> Outcome {
        let table = planner::Table {
            rates: &self.rows.rates,
            buffers: &self.rows.buffers,
            fullnesses: &self.rows.fullnesses,
            ts: self.rows.ts,
            nu: self.rows.nu,
            span: self.rows.span,
        };
        let result = planner::look_up(&table, self.rate);
        settled(result, |found| bucket(found.buffer, found.fullness)).into()
    }

    fn by_oracle(&self) -> Outcome {
        let Rows {
            rates,
            buffers,
            fullnesses,
            ts,
            nu,
            span,
        } = &self.rows;
        let clock = Clock { ts: *ts, nu: *nu };
        let result = oracle::lookup::look_up(rates, buffers, fullnesses, clock, *span, self.rate);
        settled(result, |found| bucket(found.buffer, found.fullness)).into()
    }
}

fn damage_rows(random: &mut XorShift, rows: &mut Rows) {
    match random.range(0, 9) {
        0 => rows.ts = damage::outside(random, TS_MAX),
        1 => rows.nu = damage::outside(random, NU_MAX),
        2 => rows.span = damage::above(random, SPAN_MAX),
        3 => damage::other_length(random, &mut rows.buffers),
        4 => damage::other_length(random, &mut rows.fullnesses),
        5 => {
            let count = pick(random, &[0, RATES_MAX as usize + 1]);
            rows.rates = draws::rising(random, count);
            rows.buffers.resize(count, 1);
            rows.fullnesses.resize(count, 1);
        }
        6 => damage::set_outside(random, &mut rows.buffers, BUFFER_MAX),
        7 | 8 => {
            if let Some(i) = damage::place(random, &rows.fullnesses) {
                let buffer = rows.buffers.get(i).copied().unwrap_or(1);
                rows.fullnesses[i] = damage::too_full(random, buffer);
            }
        }
        _ => damage::rate_list(random, &mut rows.rates),
    }
}
