//! Values and lists put out of their ranges, where several operations share them.

use crate::arguments::{Asked, Record};
use crate::draws::{one_in, pick, rising};
use crate::lent::{Bytes, Lent, MARGIN};
use oracle::limits::{
    BUFFER_MAX, HEADER_BYTES, LENGTH_MAX, NU_MAX, PICTURES_MAX, RATES_MAX, RATE_MAX,
    RECORD_ROWS_MAX, SCALE_MAX, SIZE_MAX, SPAN_MAX, TS_MAX, VALUE_MINUS1_MAX,
};
use oracle::xorshift::XorShift;
use planner::Params;

pub fn outside(random: &mut XorShift, largest: u64) -> u64 {
    pick(random, &[0, largest + 1, u64::MAX])
}

/// A place in a list that may be empty.
pub fn place(random: &mut XorShift, list: &[u64]) -> Option<usize> {
    let last = list.len().checked_sub(1)?;
    Some(random.range(0, last as u64) as usize)
}

pub fn set_outside(random: &mut XorShift, list: &mut [u64], largest: u64) {
    if let Some(i) = place(random, list) {
        list[i] = outside(random, largest);
    }
}

pub fn other_length(random: &mut XorShift, list: &mut Vec<u64>) {
    match random.range(0, 3) {
        0 => list.clear(),
        1 => list.push(1),
        2 => list.resize(PICTURES_MAX as usize + random.range(0, 1) as usize, 1),
        _ => {
            list.pop();
        }
    }
}

pub fn record(random: &mut XorShift, rec: &mut Record) {
    match random.range(0, 8) {
        0 | 1 => set_outside(random, &mut rec.sizes, SIZE_MAX),
        2 | 3 => tick(random, &mut rec.ticks),
        4 => rec.ts = outside(random, TS_MAX),
        5 => rec.nu = outside(random, NU_MAX),
        6 => other_length(random, &mut rec.sizes),
        7 => other_length(random, &mut rec.ticks),
        _ => {
            let count = pick(random, &[0, PICTURES_MAX as usize + 1]);
            rec.sizes.resize(count, 1);
            rec.ticks.resize(count, u64::MAX);
        }
    }
}

fn tick(random: &mut XorShift, ticks: &mut [u64]) {
    let Some(i) = place(random, ticks) else {
        return;
    };
    let before = ticks[i.saturating_sub(1)];
    let too_far = ticks[0].wrapping_add(SPAN_MAX + 1);
    let choices = [before, before.wrapping_sub(1), too_far, 0, u64::MAX];
    ticks[i] = pick(random, &choices);
}

pub fn bucket(random: &mut XorShift, asked: &mut Asked) {
    match random.range(0, 2) {
        0 => asked.rate = outside(random, RATE_MAX),
        1 => asked.buffer = outside(random, BUFFER_MAX),
        _ => asked.fullness = too_full(random, asked.buffer),
    }
}

pub fn too_full(random: &mut XorShift, buffer: u64) -> u64 {
    pick(random, &[0, buffer.wrapping_add(1), u64::MAX])
}

pub fn rate_list(random: &mut XorShift, rates: &mut Vec<u64>) {
    match random.range(0, 3) {
        0 => rates.clear(),
        1 => *rates = rising(random, RATES_MAX as usize + 1),
        2 => set_outside(random, rates, RATE_MAX),
        _ => {
            if let Some(i) = place(random, rates) {
                let before = rates[i.saturating_sub(1)];
                rates[i] = pick(random, &[before, before.saturating_sub(1)]);
            }
        }
    }
}

/// The first entry at the end, past it or far past it, or lists that are too short.
pub fn room(random: &mut XorShift, lent: &mut Lent) {
    let either = one_in(random, 2) as usize;
    let list = &mut lent.lists[either];
    let length = list.len() - 2 * MARGIN;
    match random.range(0, 4) {
        0 => lent.at = length,
        1 => lent.at = length + random.range(1, 3) as usize,
        2 => lent.at = usize::MAX - random.range(0, 12) as usize,
        3 => list.truncate(2 * MARGIN),
        _ => {
            let shorter = length.saturating_sub(random.range(1, 4) as usize);
            list.truncate(shorter + 2 * MARGIN);
        }
    }
}

/// A list that is cut, or a start at the end, past it or far past it.
pub fn bytes(random: &mut XorShift, lent: &mut Bytes) {
    let length = lent.list.len() - 2 * MARGIN;
    let end = 8 * length as u64;
    match random.range(0, 5) {
        0 => lent.start = end,
        1 => lent.start = end.saturating_sub(random.range(1, 40)),
        2 => lent.start = end + random.range(1, 40),
        3 => {
            let far = u64::MAX - random.range(0, 40);
            lent.start = pick(random, &[far, u64::MAX, 1 << 32, (1 << 32) - 1]);
        }
        4 => {
            let shorter = random.range(0, length as u64) as usize;
            lent.list.truncate(shorter + 2 * MARGIN);
        }
        _ => {
            let shorter = length.saturating_sub(random.range(1, 4) as usize);
            lent.list.truncate(shorter + 2 * MARGIN);
        }
    }
}

pub fn above(random: &mut XorShift, largest: u64) -> u64 {
    pick(random, &[largest + 1, u64::MAX])
}

pub fn fields(random: &mut XorShift, params: &mut Params) {
    let rows = params.cpb_cnt.min(RECORD_ROWS_MAX as usize);
    match random.range(0, 9) {
        0 => {
            let over = RECORD_ROWS_MAX as usize + 1;
            params.cpb_cnt = pick(random, &[0, over, usize::MAX]);
        }
        1 => params.bit_rate_scale = above(random, SCALE_MAX),
        2 => params.cpb_size_scale = above(random, SCALE_MAX),
        3 => length_field(random, params),
        4 => {
            if let Some(k) = place(random, &params.cbr_flag[..rows]) {
                params.cbr_flag[k] = above(random, 1);
            }
        }
        5 => {
            if let Some(k) = place(random, &params.bit_rate_value_minus1[..rows]) {
                params.bit_rate_value_minus1[k] = above(random, VALUE_MINUS1_MAX);
            }
        }
        6 => {
            if let Some(k) = place(random, &params.cpb_size_value_minus1[..rows]) {
                params.cpb_size_value_minus1[k] = above(random, VALUE_MINUS1_MAX);
            }
        }
        7 | 8 => {
            if let Some(k) = place(random, &params.bit_rate_value_minus1[..rows]) {
                let before = params.bit_rate_value_minus1[k.saturating_sub(1)];
                params.bit_rate_value_minus1[k] = pick(random, &[before, before.saturating_sub(1)]);
            }
        }
        _ => {
            if let Some(k) = place(random, &params.cpb_size_value_minus1[..rows]) {
                let before = params.cpb_size_value_minus1[k.saturating_sub(1)];
                params.cpb_size_value_minus1[k] = before.saturating_add(1);
            }
        }
    }
}

fn length_field(random: &mut XorShift, params: &mut Params) {
    let value = above(random, LENGTH_MAX);
    match random.range(0, 3) {
        0 => params.initial_cpb_removal_delay_length_minus1 = value,
        1 => params.cpb_removal_delay_length_minus1 = value,
        2 => params.dpb_output_delay_length_minus1 = value,
        _ => params.time_offset_length = value,
    }
}

/// A sheet with another word, or of another length.
pub fn sheet(random: &mut XorShift, sheet: &mut Vec<u8>, word: bool) {
    if word {
        sheet_word(random, sheet)
    } else {
        sheet_length(random, sheet)
    }
}

/// A word of the header, or of the lists, that is another.
fn sheet_word(random: &mut XorShift, sheet: &mut [u8]) {
    let words = sheet.len() as u64 / 4;
    let Some(last) = words.checked_sub(1) else {
        return;
    };
    let (header, any) = (random.range(0, last.min(6)), random.range(0, last));
    let at = 4 * pick(random, &[header, any]) as usize;
    let word = u32::from_le_bytes([sheet[at], sheet[at + 1], sheet[at + 2], sheet[at + 3]]);
    let limits = [PICTURES_MAX, RATES_MAX, SIZE_MAX, TS_MAX, NU_MAX, RATE_MAX];
    let limit = pick(random, &limits) as u32;
    let near = [
        word.wrapping_sub(1),
        word.wrapping_add(1),
        word.wrapping_add(4),
    ];
    let beside = pick(random, &near);
    let other = pick(random, &[0, beside, beside, limit, limit + 1, u32::MAX]);
    sheet[at..at + 4].copy_from_slice(&other.to_le_bytes());
}

/// A sheet that is cut, or goes on for a few bytes or for many.
fn sheet_length(random: &mut XorShift, sheet: &mut Vec<u8>) {
    let length = sheet.len() as u64;
    let shorter = [
        random.range(0, length),
        random.range(0, HEADER_BYTES).min(length),
        length.saturating_sub(1),
    ];
    let largest = HEADER_BYTES + 8 * PICTURES_MAX + 4 * RATES_MAX;
    let longer = [length + 1, length + 4, largest + random.range(0, 2), 70_000];
    let (shorter, longer) = (pick(random, &shorter), pick(random, &longer));
    sheet.resize(pick(random, &[shorter, longer]) as usize, 0);
}
