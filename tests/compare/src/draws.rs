//! Draws of values in their ranges, the ends of the ranges often among them, where several operations
//! share them.

use crate::arguments::{Asked, Record};
use crate::by_oracle::{params_of, recording};
use crate::lent::{Bytes, Lent, MARGIN};
use oracle::bits::write_params;
use oracle::least::least;
use oracle::limits::{
    BUFFER_MAX, LENGTH_MAX, NU_MAX, PICTURES_MAX, RATES_MAX, RATE_MAX, RECORD_ROWS_MAX, SCALE_MAX,
    SIZE_MAX, SPAN_MAX, TS_MAX, VALUE_MINUS1_MAX,
};
use oracle::sheet::make_sheet;
use oracle::xorshift::XorShift;
use planner::Params;
use std::collections::BTreeSet;

/// The largest word of a sheet.
const WORD_MAX: u64 = u32::MAX as u64;

/// Recordings up to this length are planned by the oracle while a case is drawn.
const SHORT: usize = 64;

pub fn one_in(random: &mut XorShift, times: u64) -> bool {
    random.range(1, times) == 1
}

pub fn pick<T: Copy>(random: &mut XorShift, choices: &[T]) -> T {
    choices[random.range(0, choices.len() as u64 - 1) as usize]
}

/// From 1 to `largest`, numbers of any width alike.
pub fn up_to(random: &mut XorShift, largest: u64) -> u64 {
    if one_in(random, 6) {
        return pick(random, &[1, largest.div_ceil(2), largest]);
    }
    let width = random.range(0, u64::from(largest.ilog2()));
    random.range(1 << width, (1 << width) * 2 - 1).min(largest)
}

/// A recording, long one time in so many.
pub fn record(random: &mut XorShift, one_long_in: u64) -> Record {
    let count = if one_in(random, one_long_in) {
        let length = random.range(SHORT as u64, PICTURES_MAX);
        pick(random, &[length, length, PICTURES_MAX])
    } else if one_in(random, 20) {
        random.range(13, SHORT as u64)
    } else {
        random.range(1, 12)
    };
    let largest = pick(random, &[4, 1_000, 100_000, SIZE_MAX]);
    let sizes = if one_in(random, 10) {
        vec![largest; count as usize]
    } else {
        (0..count).map(|_| up_to(random, largest)).collect()
    };
    let (ts, nu) = clock(random);
    Record {
        sizes,
        ticks: ticks(random, count),
        ts,
        nu,
    }
}

pub fn clock(random: &mut XorShift) -> (u64, u64) {
    let any = (up_to(random, TS_MAX), up_to(random, NU_MAX));
    let small = (random.range(1, 10), random.range(1, 10));
    let usual = [(1, 1), (50, 1), (60_000, 1_001)];
    pick(random, &[any, any, small, usual[0], usual[1], usual[2]])
}

fn ticks(random: &mut XorShift, count: u64) -> Vec<u64> {
    let widest = SPAN_MAX / (count - 1).max(1);
    let step = pick(random, &[1, 3.min(widest), widest]);
    let mut offsets = vec![0];
    for i in 1..count as usize {
        offsets.push(offsets[i - 1] + random.range(1, step));
    }
    let last = count as usize - 1;
    if last > 0 && one_in(random, 5) {
        offsets[last] = SPAN_MAX;
    }
    let latest = u64::MAX - offsets[last];
    let small = random.range(0, 100);
    let any = random.draw().min(latest);
    let first = pick(random, &[0, small, any, latest]);
    offsets.iter().map(|offset| first + offset).collect()
}

/// A rate, near the mean rate of the recording or anywhere.
pub fn rate_of(random: &mut XorShift, rec: &Record) -> u64 {
    if one_in(random, 2) {
        return up_to(random, RATE_MAX);
    }
    let bits: u64 = rec.sizes.iter().sum();
    let mean = bits * rec.ts / (span(rec).max(1) * rec.nu);
    let percent = random.range(30, 170);
    (mean.min(RATE_MAX) * percent / 100).clamp(1, RATE_MAX)
}

pub fn span(rec: &Record) -> u64 {
    rec.ticks[rec.ticks.len() - 1] - rec.ticks[0]
}

/// A rate and a bucket, anywhere or near the least figures of a short recording.
pub fn asked_of(random: &mut XorShift, rec: &Record) -> Asked {
    let rate = rate_of(random, rec);
    if rec.sizes.len() > SHORT || one_in(random, 4) {
        return Asked {
            rate,
            ..asked(random)
        };
    }
    let least = least(&recording(rec), rate).expect("a drawn recording has no fault");
    let fullness = near(random, least.fullness);
    let buffer = near(random, least.buffer).max(fullness);
    Asked {
        rate,
        buffer,
        fullness,
    }
}

fn near(random: &mut XorShift, figure: u64) -> u64 {
    let away = pick(random, &[1, 1, 1, figure]);
    let low = figure.saturating_sub(away).max(1);
    random.range(low, (figure + away).min(BUFFER_MAX))
}

pub fn asked(random: &mut XorShift) -> Asked {
    let buffer = up_to(random, BUFFER_MAX);
    let fullness = up_to(random, buffer);
    Asked {
        rate: up_to(random, RATE_MAX),
        buffer,
        fullness,
    }
}

/// Two lists with room for so many entries, and some before and after them.
pub fn lent(random: &mut XorShift, count: usize) -> Lent {
    let at = random.range(0, 3) as usize;
    Lent {
        at,
        lists: [room(random, at + count), room(random, at + count)],
    }
}

/// A list with room for so many entries, and some after them.
pub fn room(random: &mut XorShift, count: usize) -> Vec<u64> {
    let after = random.range(0, 3) as usize;
    let length = MARGIN + count + after + MARGIN;
    (0..length).map(|_| random.draw()).collect()
}

pub fn rates(random: &mut XorShift) -> Vec<u64> {
    let any = random.range(1, RATES_MAX);
    let few = random.range(1, 4);
    let count = pick(random, &[few, few, few, few, few, few, any, RATES_MAX]);
    rising(random, count as usize)
}

/// So many rates that rise, one time in four with both ends of the range where two fit.
pub fn rising(random: &mut XorShift, count: usize) -> Vec<u64> {
    let mut rates = BTreeSet::new();
    if count >= 2 && one_in(random, 4) {
        rates.extend([1, RATE_MAX]);
    }
    while rates.len() < count {
        rates.insert(up_to(random, RATE_MAX));
    }
    rates.into_iter().collect()
}

/// From 0 to `largest`, both ends often.
fn from_zero(random: &mut XorShift, largest: u64) -> u64 {
    let any = random.range(0, largest);
    pick(random, &[0, any, largest])
}

/// A value of a row, the ends of its range often.
fn value(random: &mut XorShift) -> u64 {
    up_to(random, VALUE_MINUS1_MAX + 1) - 1
}

/// A record, with anything in the entries after its rows.
pub fn params(random: &mut XorShift) -> Params {
    let any = random.range(1, RECORD_ROWS_MAX);
    let few = random.range(1, 4);
    let count = pick(random, &[few, few, any, RECORD_ROWS_MAX]) as usize;
    let mut params = Params {
        cpb_cnt: count,
        bit_rate_scale: from_zero(random, SCALE_MAX),
        cpb_size_scale: from_zero(random, SCALE_MAX),
        bit_rate_value_minus1: std::array::from_fn(|_| random.draw()),
        cpb_size_value_minus1: std::array::from_fn(|_| random.draw()),
        cbr_flag: std::array::from_fn(|_| random.draw()),
        initial_cpb_removal_delay_length_minus1: from_zero(random, LENGTH_MAX),
        cpb_removal_delay_length_minus1: from_zero(random, LENGTH_MAX),
        dpb_output_delay_length_minus1: from_zero(random, LENGTH_MAX),
        time_offset_length: from_zero(random, LENGTH_MAX),
    };
    let mut rates = BTreeSet::new();
    if count >= 2 && one_in(random, 4) {
        rates.extend([0, VALUE_MINUS1_MAX]);
    }
    while rates.len() < count {
        rates.insert(value(random));
    }
    let mut sizes: Vec<u64> = if one_in(random, 4) {
        vec![value(random); count]
    } else {
        (0..count).map(|_| value(random)).collect()
    };
    sizes.sort_by(|a, b| b.cmp(a));
    for (k, rate) in rates.into_iter().enumerate() {
        params.bit_rate_value_minus1[k] = rate;
        params.cpb_size_value_minus1[k] = sizes[k];
        params.cbr_flag[k] = random.range(0, 1);
    }
    params
}

pub fn any_bytes(random: &mut XorShift, length: usize) -> Vec<u8> {
    (0..length).map(|_| random.draw() as u8).collect()
}

/// Bytes with room for a record from any bit offset on, and some before and after it.
pub fn bytes_for(random: &mut XorShift, params: &Params) -> Bytes {
    let start = random.range(0, 31);
    let mut room = vec![0; 600];
    let next = write_params(&params_of(params), &mut room, start)
        .expect("a drawn record has no fault and fits");
    let after = random.range(0, 3);
    let length = (next.div_ceil(8) + after) as usize;
    Bytes {
        start,
        list: any_bytes(random, MARGIN + length + MARGIN),
    }
}

/// A sheet of a recording and rates, and how many pictures and rates it has.
pub fn sheet(random: &mut XorShift) -> (Vec<u8>, usize, usize) {
    let mut rec = record(random, 2000);
    let latest = WORD_MAX - span(&rec);
    let any = random.range(0, latest);
    let (first, before) = (pick(random, &[0, any, latest]), rec.ticks[0]);
    for tick in &mut rec.ticks {
        *tick = *tick - before + first;
    }
    let rates = rates(random);
    let sheet = make_sheet(&recording(&rec), &rates);
    (sheet, rec.sizes.len(), rates.len())
}
