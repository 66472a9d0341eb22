//! HRD parameter records: reading, writing and judging their bits, and the verdict asked of a row.
//! Document 01, "HRD parameter bits" and "How bits arrive and leave".

use crate::limits::{
    BYTES_MAX, CBR_FLAG_MAX, LENGTH_MAX, RECORD_ROWS_MAX, SCALE_MAX, VALUE_MINUS1_MAX,
    ZEROS_REFUSED,
};
use crate::recording::Recording;
use crate::refused::{refuse, Refused};
use crate::schedule::{verdict, Verdict};

/// A record; cpb_cnt_minus1 is the number of its rows less one.
#[derive(Clone, Debug, PartialEq, Eq)]
pub struct Params {
    pub bit_rate_scale: u64,
    pub cpb_size_scale: u64,
    pub rows: Vec<Row>,
    pub initial_cpb_removal_delay_length_minus1: u64,
    pub cpb_removal_delay_length_minus1: u64,
    pub dpb_output_delay_length_minus1: u64,
    pub time_offset_length: u64,
}

#[derive(Clone, Copy, Debug, PartialEq, Eq)]
pub struct Row {
    pub bit_rate_value_minus1: u64,
    pub cpb_size_value_minus1: u64,
    pub cbr_flag: u64,
}

/// The first bit position past a lent list of that many bytes. A next bit of 2^32 is an answer,
/// though nothing can start there.
pub fn bit_end(byte_count: u64) -> u64 {
    byte_count.min(BYTES_MAX) * 8
}

struct Reader<'a> {
    bytes: &'a [u8],
    position: u64,
}

impl Reader<'_> {
    fn bit(&mut self) -> Result<u64, Refused> {
        if self.position >= bit_end(self.bytes.len() as u64) {
            return refuse(9, 0);
        }
        let byte = self.bytes[(self.position / 8) as usize];
        let bit = (byte >> (7 - self.position % 8)) & 1;
        self.position += 1;
        Ok(u64::from(bit))
    }

    fn u(&mut self, width: u32) -> Result<u64, Refused> {
        let mut value = 0;
        for _ in 0..width {
            value = 2 * value + self.bit()?;
        }
        Ok(value)
    }

    fn ue(&mut self, place: u64) -> Result<u64, Refused> {
        let mut zeros = 0;
        while self.bit()? == 0 {
            zeros += 1;
            if zeros == ZEROS_REFUSED {
                return refuse(10, place);
            }
        }
        Ok((1u64 << zeros) - 1 + self.u(zeros)?)
    }
}

fn judge_at_most(value: u64, largest: u64, place: u64) -> Result<(), Refused> {
    if value > largest {
        return refuse(10, place);
    }
    Ok(())
}

fn judge_count(count: u64) -> Result<(), Refused> {
    if !(1..=RECORD_ROWS_MAX).contains(&count) {
        return refuse(10, 0);
    }
    Ok(())
}

fn judge_rate_value(value: u64, before: Option<&Row>, place: u64) -> Result<(), Refused> {
    judge_at_most(value, VALUE_MINUS1_MAX, place)?;
    match before {
        Some(before) if value <= before.bit_rate_value_minus1 => refuse(10, place),
        _ => Ok(()),
    }
}

fn judge_size_value(value: u64, before: Option<&Row>, place: u64) -> Result<(), Refused> {
    judge_at_most(value, VALUE_MINUS1_MAX, place)?;
    match before {
        Some(before) if value > before.cpb_size_value_minus1 => refuse(10, place),
        _ => Ok(()),
    }
}

/// Reads a record and gives the next bit position; the first fault in bit order is the refusal.
pub fn read_params(bytes: &[u8], position: u64) -> Result<(Params, u64), Refused> {
    let mut reader = Reader { bytes, position };
    let count = reader.ue(0)? + 1;
    judge_count(count)?;
    let bit_rate_scale = reader.u(4)?;
    let cpb_size_scale = reader.u(4)?;
    let mut rows: Vec<Row> = Vec::new();
    for place in 0..count {
        let bit_rate_value_minus1 = reader.ue(place)?;
        judge_rate_value(bit_rate_value_minus1, rows.last(), place)?;
        let cpb_size_value_minus1 = reader.ue(place)?;
        judge_size_value(cpb_size_value_minus1, rows.last(), place)?;
        let cbr_flag = reader.u(1)?;
        rows.push(Row {
            bit_rate_value_minus1,
            cpb_size_value_minus1,
            cbr_flag,
        });
    }
    let params = Params {
        bit_rate_scale,
        cpb_size_scale,
        rows,
        initial_cpb_removal_delay_length_minus1: reader.u(5)?,
        cpb_removal_delay_length_minus1: reader.u(5)?,
        dpb_output_delay_length_minus1: reader.u(5)?,
        time_offset_length: reader.u(5)?,
    };
    Ok((params, reader.position))
}

/// Judges a record handed in: every fault is 10, at the row for a fault of a row and at 0 for the
/// count, the scales and the lengths, and the first in bit order is given.
pub fn judge_params(params: &Params) -> Result<(), Refused> {
    judge_count(params.rows.len() as u64)?;
    judge_at_most(params.bit_rate_scale, SCALE_MAX, 0)?;
    judge_at_most(params.cpb_size_scale, SCALE_MAX, 0)?;
    let mut before = None;
    for (place, row) in params.rows.iter().enumerate() {
        let place = place as u64;
        judge_rate_value(row.bit_rate_value_minus1, before, place)?;
        judge_size_value(row.cpb_size_value_minus1, before, place)?;
        judge_at_most(row.cbr_flag, CBR_FLAG_MAX, place)?;
        before = Some(row);
    }
    judge_at_most(
        params.initial_cpb_removal_delay_length_minus1,
        LENGTH_MAX,
        0,
    )?;
    judge_at_most(params.cpb_removal_delay_length_minus1, LENGTH_MAX, 0)?;
    judge_at_most(params.dpb_output_delay_length_minus1, LENGTH_MAX, 0)?;
    judge_at_most(params.time_offset_length, LENGTH_MAX, 0)
}

fn push_u(bits: &mut Vec<bool>, value: u64, width: u32) {
    for k in (0..width).rev() {
        bits.push((value >> k) & 1 == 1);
    }
}

fn push_ue(bits: &mut Vec<bool>, value: u64) {
    let code = value + 1;
    let mut zeros = 0;
    while code >> (zeros + 1) != 0 {
        zeros += 1;
    }
    push_u(bits, 0, zeros);
    push_u(bits, code, zeros + 1);
}

fn record_bits(params: &Params) -> Vec<bool> {
    let mut bits = Vec::new();
    push_ue(&mut bits, params.rows.len() as u64 - 1);
    push_u(&mut bits, params.bit_rate_scale, 4);
    push_u(&mut bits, params.cpb_size_scale, 4);
    for row in &params.rows {
        push_ue(&mut bits, row.bit_rate_value_minus1);
        push_ue(&mut bits, row.cpb_size_value_minus1);
        push_u(&mut bits, row.cbr_flag, 1);
    }
    push_u(&mut bits, params.initial_cpb_removal_delay_length_minus1, 5);
    push_u(&mut bits, params.cpb_removal_delay_length_minus1, 5);
    push_u(&mut bits, params.dpb_output_delay_length_minus1, 5);
    push_u(&mut bits, params.time_offset_length, 5);
    bits
}

/// The number of bits that writing a record takes.
pub fn params_length(params: &Params) -> Result<u64, Refused> {
    judge_params(params)?;
    Ok(record_bits(params).len() as u64)
}

/// Writes a record, changing its own bits only, and gives the next bit position. The record is
/// judged before the room, so a faulty record with a start past the end is 10.
pub fn write_params(params: &Params, bytes: &mut [u8], position: u64) -> Result<u64, Refused> {
    judge_params(params)?;
    let bits = record_bits(params);
    let next = u128::from(position) + bits.len() as u128;
    if next > u128::from(bit_end(bytes.len() as u64)) {
        return refuse(8, 0);
    }
    let mut position = position;
    for bit in bits {
        let mask = 0x80 >> (position % 8);
        let byte = &mut bytes[(position / 8) as usize];
        if bit {
            *byte |= mask;
        } else {
            *byte &= !mask;
        }
        position += 1;
    }
    Ok(position)
}

/// The row asked for. The record is judged first (10), the row number next (6 at 0).
fn row_of(params: &Params, row: u64) -> Result<Row, Refused> {
    judge_params(params)?;
    if row >= params.rows.len() as u64 {
        return refuse(6, 0);
    }
    Ok(params.rows[row as usize])
}

/// A row's rate, which may lie above the rates a bucket is judged at.
pub fn rate_of(params: &Params, row: u64) -> Result<u64, Refused> {
    let row = row_of(params, row)?;
    Ok((row.bit_rate_value_minus1 + 1) << (6 + params.bit_rate_scale))
}

/// A row's size, which may lie above the largest buffer.
pub fn size_of(params: &Params, row: u64) -> Result<u64, Refused> {
    let row = row_of(params, row)?;
    Ok((row.cpb_size_value_minus1 + 1) << (4 + params.cpb_size_scale))
}

/// The verdict asked of F and a row: 10, the row number, then the lowest of the rest, in which 11
/// comes last; other rows' rates and sizes are not judged against the ranges of a bucket.
pub fn row_verdict(
    rec: &Recording,
    params: &Params,
    row: u64,
    fullness: u64,
) -> Result<Verdict, Refused> {
    let asked = row_of(params, row)?;
    let rate = rate_of(params, row)?;
    let buffer = size_of(params, row)?;
    let verdict = verdict(rec, rate, buffer, fullness)?;
    if asked.cbr_flag == 1 {
        return refuse(11, row);
    }
    Ok(verdict)
}
