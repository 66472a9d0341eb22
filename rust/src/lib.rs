//! The leaky bucket planner for Rust: a safe function for each exported operation of the proved
//! library.
//!
//! Every operation judges what it is handed and answers, or is [`Refused`] with a number of
//! [`refusals`] and a place; [`limits`] has what is accepted. The library keeps nothing from one call
//! to the next.

#![deny(missing_docs)]

mod boundary;
pub mod limits;
pub mod refusals;

use boundary::{
    PlannerBucket, PlannerJudgement, PlannerVerdict, KIND_GIVEN, KIND_HOLDS, KIND_LATE, KIND_LINE,
    KIND_OVER, KIND_REFUSED, KIND_TABLE, KIND_WITHIN,
};
use limits::CPB_CNT_MAX;
use std::error::Error;
use std::fmt::{self, Display, Formatter};

/// The version of this wrapper: major x 10000 + minor x 100 + patch. [`version`] gives that of the
/// library which is linked.
pub const VERSION: u64 = 200;

/// A refusal; a refused call leaves its lent lists unchanged. It is displayed with what its number
/// says.
#[derive(Clone, Copy, Debug, PartialEq, Eq)]
pub struct Refused {
    /// One of [`refusals`].
    pub number: u8,
    /// The picture, rate or row at fault, counted from 0; 0 where the fault is none of these.
    pub place: u64,
}

impl Display for Refused {
    fn fmt(&self, f: &mut Formatter<'_>) -> fmt::Result {
        write!(f, "refused {} at {}", self.number, self.place)?;
        match refusals::meaning(self.number) {
            Some(words) => write!(f, ": {words}"),
            None => Ok(()),
        }
    }
}

impl Error for Refused {}

/// The bits and the removal tick of every picture; a tick lasts nu/ts seconds.
#[derive(Clone, Copy, Debug)]
pub struct Recording<'a> {
    /// Bits of each picture.
    pub sizes: &'a [u64],
    /// Removal tick of each picture, strictly rising from any first value.
    pub ticks: &'a [u64],
    /// time_scale.
    pub ts: u64,
    /// num_units_in_tick.
    pub nu: u64,
}

/// Buffer and start fullness in bits.
#[derive(Clone, Copy, Debug, PartialEq, Eq)]
pub struct Bucket {
    /// Bits of the buffer.
    pub buffer: u64,
    /// Bits in it before the first picture is removed.
    pub fullness: u64,
}

/// Whether a bucket holds a recording.
#[derive(Clone, Copy, Debug, PartialEq, Eq)]
pub enum Verdict {
    /// No picture is late.
    Holds,
    /// The first late picture, counted from 0.
    Late {
        /// Its number.
        picture: u64,
        /// How many units of 1/(R x TS) second late it is.
        units: u64,
    },
}

/// The rows of a table, a list for each column, with the clock and the span in ticks of its
/// recording.
#[derive(Clone, Copy, Debug)]
pub struct Table<'a> {
    /// Bits per second, strictly rising.
    pub rates: &'a [u64],
    /// Bits of the buffer at each rate.
    pub buffers: &'a [u64],
    /// Start fullness in bits at each rate.
    pub fullnesses: &'a [u64],
    /// time_scale.
    pub ts: u64,
    /// num_units_in_tick.
    pub nu: u64,
    /// Last tick less first tick.
    pub span: u64,
}

/// Wait and fill time in seconds.
#[derive(Clone, Copy, Debug, PartialEq)]
pub struct Seconds {
    /// Start fullness over rate.
    pub wait: f64,
    /// Buffer over rate.
    pub fill: f64,
}

/// What the driver's panel says of a wait, in seconds.
#[derive(Clone, Copy, Debug, PartialEq)]
pub enum Reading {
    /// The wait.
    Within(f64),
    /// The wait and the limit.
    Over(f64, f64),
}

/// A parameter record, by the names of H.264 E.1.2: its other fields, and that many rows as `cpb_cnt`
/// says, the first entries of the three lists. Entries after these are 0 in a record that was read,
/// not looked at in any other, and not compared.
///
/// `cpb_cnt` is the number of rows and not cpb_cnt_minus1. Every field whose name ends in `_minus1` is
/// as coded: one less than what it stands for.
#[repr(C)]
#[derive(Clone, Copy, Debug, Default)]
pub struct Params {
    /// Number of rows, from 1 to [`CPB_CNT_MAX`].
    pub cpb_cnt: usize,
    /// Scale of the rates.
    pub bit_rate_scale: u64,
    /// Scale of the sizes.
    pub cpb_size_scale: u64,
    /// Coded rate of each row, strictly rising.
    pub bit_rate_value_minus1: [u64; CPB_CNT_MAX],
    /// Coded size of each row, not rising.
    pub cpb_size_value_minus1: [u64; CPB_CNT_MAX],
    /// 1 for a constant rate, else 0.
    pub cbr_flag: [u64; CPB_CNT_MAX],
    /// Bits of an initial removal delay, less 1.
    pub initial_cpb_removal_delay_length_minus1: u64,
    /// Bits of a removal delay, less 1.
    pub cpb_removal_delay_length_minus1: u64,
    /// Bits of an output delay, less 1.
    pub dpb_output_delay_length_minus1: u64,
    /// Bits of a time offset.
    pub time_offset_length: u64,
}

impl PartialEq for Params {
    fn eq(&self, other: &Params) -> bool {
        let rows = self.cpb_cnt.min(CPB_CNT_MAX);
        let alone = |params: &Params| {
            [
                params.bit_rate_scale,
                params.cpb_size_scale,
                params.initial_cpb_removal_delay_length_minus1,
                params.cpb_removal_delay_length_minus1,
                params.dpb_output_delay_length_minus1,
                params.time_offset_length,
            ]
        };
        self.cpb_cnt == other.cpb_cnt
            && alone(self) == alone(other)
            && self.bit_rate_value_minus1[..rows] == other.bit_rate_value_minus1[..rows]
            && self.cpb_size_value_minus1[..rows] == other.cpb_size_value_minus1[..rows]
            && self.cbr_flag[..rows] == other.cbr_flag[..rows]
    }
}

impl Eq for Params {}

/// A row of a parameter record.
#[derive(Clone, Copy, Debug, PartialEq, Eq)]
pub struct Row {
    /// Bits per second.
    pub rate: u64,
    /// Bits of the buffer.
    pub size: u64,
}

/// What an opened sheet says beside its lists.
#[derive(Clone, Copy, Debug, PartialEq, Eq)]
pub struct Sheet {
    /// How many sizes and ticks were written.
    pub pictures: usize,
    /// How many rates were written.
    pub rates: usize,
    /// time_scale.
    pub ts: u64,
    /// num_units_in_tick.
    pub nu: u64,
}

/// What was printed of a sheet, and how many bytes that is.
#[derive(Clone, Copy, Debug, PartialEq, Eq)]
pub enum Printed {
    /// Its table.
    Table(usize),
    /// The line of its refusal, and that refusal.
    Line(usize, Refused),
}

/// A call whose first arguments are a recording's two lists and its clock.
macro_rules! with_recording {
    ($operation:ident, $rec:ident $(, $argument:expr)*) => {
        boundary::$operation(
            $rec.sizes.as_ptr(),
            $rec.sizes.len(),
            $rec.ticks.as_ptr(),
            $rec.ticks.len(),
            $rec.ts,
            $rec.nu
            $(, $argument)*
        )
    };
}

/// Gives the version of the library: [`VERSION`] of the wrapper that belongs to it.
pub fn version() -> u64 {
    // SAFETY: nothing crosses but the answer.
    unsafe { boundary::planner_version() }
}

/// Judges a recording and its clock.
pub fn judge(rec: &Recording) -> Result<(), Refused> {
    // SAFETY: pointers and lengths are those of live slices, which nothing writes.
    let answer = unsafe { with_recording!(planner_judge, rec) };
    passed(answer)
}

/// Says whether a bucket holds a recording at a rate.
pub fn verdict(rec: &Recording, rate: u64, bucket: Bucket) -> Result<Verdict, Refused> {
    // SAFETY: pointers and lengths are those of live slices, which nothing writes.
    let answer =
        unsafe { with_recording!(planner_verdict, rec, rate, bucket.buffer, bucket.fullness) };
    held(answer)
}

/// Writes arrival starts and ends from entry `at` on, late or not, and gives the verdict.
pub fn schedule(
    rec: &Recording,
    rate: u64,
    bucket: Bucket,
    at: usize,
    starts: &mut [u64],
    ends: &mut [u64],
) -> Result<Verdict, Refused> {
    // SAFETY: pointers and lengths are those of live slices; the two written ones are borrowed
    // mutably, so they overlap no other.
    let answer = unsafe {
        with_recording!(
            planner_schedule,
            rec,
            rate,
            bucket.buffer,
            bucket.fullness,
            at,
            starts.as_mut_ptr(),
            starts.len(),
            ends.as_mut_ptr(),
            ends.len()
        )
    };
    held(answer)
}

/// Gives the least figures of a recording at a rate.
pub fn least(rec: &Recording, rate: u64) -> Result<Bucket, Refused> {
    // SAFETY: pointers and lengths are those of live slices, which nothing writes.
    let answer = unsafe { with_recording!(planner_least, rec, rate) };
    figures(answer)
}

/// Writes the least figures at every rate of a list from entry `at` on.
pub fn table(
    rec: &Recording,
    rates: &[u64],
    at: usize,
    buffers: &mut [u64],
    fullnesses: &mut [u64],
) -> Result<(), Refused> {
    // SAFETY: pointers and lengths are those of live slices; the two written ones are borrowed
    // mutably, so they overlap no other.
    let answer = unsafe {
        with_recording!(
            planner_table,
            rec,
            rates.as_ptr(),
            rates.len(),
            at,
            buffers.as_mut_ptr(),
            buffers.len(),
            fullnesses.as_mut_ptr(),
            fullnesses.len()
        )
    };
    passed(answer)
}

/// Gives the bucket for any rate; below the first row its figures may pass the largest buffer.
pub fn look_up(table: &Table, rate: u64) -> Result<Bucket, Refused> {
    // SAFETY: pointers and lengths are those of live slices, which nothing writes.
    let answer = unsafe {
        boundary::planner_look_up(
            table.rates.as_ptr(),
            table.rates.len(),
            table.buffers.as_ptr(),
            table.buffers.len(),
            table.fullnesses.as_ptr(),
            table.fullnesses.len(),
            table.ts,
            table.nu,
            table.span,
            rate,
        )
    };
    figures(answer)
}

/// Gives wait and fill time of a bucket at its rate.
pub fn seconds(rate: u64, bucket: Bucket) -> Result<Seconds, Refused> {
    // SAFETY: only numbers cross.
    let answer = unsafe { boundary::planner_seconds(rate, bucket.buffer, bucket.fullness) };
    let bits = [answer.wait.to_bits(), answer.fill.to_bits()];
    match kind(answer.kind, answer.number, answer.place, &bits)? {
        KIND_GIVEN => Ok(Seconds {
            wait: answer.wait,
            fill: answer.fill,
        }),
        other => unknown(other),
    }
}

/// Compares the wait of a bucket at its rate with the driver's limit; equal is within.
pub fn panel(rate: u64, bucket: Bucket, limit: f64) -> Result<Reading, Refused> {
    // SAFETY: only numbers cross.
    let answer = unsafe { boundary::planner_panel(rate, bucket.buffer, bucket.fullness, limit) };
    let bits = [answer.wait.to_bits(), answer.limit.to_bits()];
    match kind(answer.kind, answer.number, answer.place, &bits)? {
        KIND_WITHIN => Ok(Reading::Within(answer.wait)),
        KIND_OVER => Ok(Reading::Over(answer.wait, answer.limit)),
        other => unknown(other),
    }
}

/// Judges a parameter record; one that is passed can be written wherever there is room for it.
pub fn judge_params(params: &Params) -> Result<(), Refused> {
    // SAFETY: only the record crosses, and it is copied.
    let answer = unsafe { boundary::planner_judge_params(*params) };
    passed(answer)
}

/// Gives the number of bits that [`write_params`] writes for a record.
pub fn params_length(params: &Params) -> Result<u64, Refused> {
    // SAFETY: only the record crosses, and it is copied.
    let answer = unsafe { boundary::planner_params_length(*params) };
    match kind(answer.kind, answer.number, answer.place, &[answer.bits])? {
        KIND_GIVEN => Ok(answer.bits),
        other => unknown(other),
    }
}

/// Gives rate and size of a row of a parameter record, counted from 0. Both may be larger than what
/// the other operations accept.
pub fn params_row(params: &Params, row: usize) -> Result<Row, Refused> {
    // SAFETY: only the record and a number cross, and both are copied.
    let answer = unsafe { boundary::planner_params_row(*params, row) };
    let figures = [answer.rate, answer.size];
    match kind(answer.kind, answer.number, answer.place, &figures)? {
        KIND_GIVEN => Ok(Row {
            rate: answer.rate,
            size: answer.size,
        }),
        other => unknown(other),
    }
}

/// Reads a parameter record at a bit position and gives the first position after it. The bytes have
/// to be without emulation prevention: a byte 3 that a NAL unit has after two bytes 0 is taken out
/// first, or it is read as bits of the record.
pub fn read_params(bytes: &[u8], start: u64) -> Result<(Params, u64), Refused> {
    // SAFETY: pointer and length are those of a live slice, which nothing writes.
    let answer = unsafe { boundary::planner_read_params(bytes.as_ptr(), bytes.len(), start) };
    debug_assert!(answer.kind != KIND_REFUSED || all_zero(&answer.params));
    match kind(answer.kind, answer.number, answer.place, &[answer.next])? {
        KIND_GIVEN => Ok((answer.params, answer.next)),
        other => unknown(other),
    }
}

/// Writes a parameter record at a bit position, changing its own bits only, and gives the first
/// position after it.
pub fn write_params(params: &Params, bytes: &mut [u8], start: u64) -> Result<u64, Refused> {
    // SAFETY: pointer and length are those of a live slice, borrowed mutably; the record is
    // copied.
    let answer =
        unsafe { boundary::planner_write_params(*params, bytes.as_mut_ptr(), bytes.len(), start) };
    match kind(answer.kind, answer.number, answer.place, &[answer.next])? {
        KIND_GIVEN => Ok(answer.next),
        other => unknown(other),
    }
}

/// Says whether a row of a parameter record, counted from 0, holds a recording from a start
/// fullness on.
pub fn row_verdict(
    rec: &Recording,
    params: &Params,
    row: usize,
    fullness: u64,
) -> Result<Verdict, Refused> {
    // SAFETY: pointers and lengths are those of live slices, which nothing writes; the record is
    // copied.
    let answer = unsafe { with_recording!(planner_row_verdict, rec, *params, row, fullness) };
    held(answer)
}

/// Opens a sheet: writes its sizes, ticks and rates to the first entries of three lists.
pub fn open_sheet(
    bytes: &[u8],
    sizes: &mut [u64],
    ticks: &mut [u64],
    rates: &mut [u64],
) -> Result<Sheet, Refused> {
    // SAFETY: pointers and lengths are those of live slices; the three written ones are borrowed
    // mutably, so they overlap no other.
    let answer = unsafe {
        boundary::planner_open_sheet(
            bytes.as_ptr(),
            bytes.len(),
            sizes.as_mut_ptr(),
            sizes.len(),
            ticks.as_mut_ptr(),
            ticks.len(),
            rates.as_mut_ptr(),
            rates.len(),
        )
    };
    let figures = [answer.pictures, answer.rates, answer.ts, answer.nu];
    match kind(answer.kind, answer.number, answer.place, &figures)? {
        KIND_GIVEN => Ok(Sheet {
            pictures: answer.pictures as usize,
            rates: answer.rates as usize,
            ts: answer.ts,
            nu: answer.nu,
        }),
        other => unknown(other),
    }
}

/// Prints what a sheet comes to, its table or its refusal line, to the front of a list of bytes.
pub fn sheet_text(bytes: &[u8], text: &mut [u8]) -> Result<Printed, Refused> {
    // SAFETY: pointers and lengths are those of live slices; the written one is borrowed mutably,
    // so it overlaps no other.
    let answer = unsafe {
        boundary::planner_sheet_text(bytes.as_ptr(), bytes.len(), text.as_mut_ptr(), text.len())
    };
    let figures = [answer.length, answer.sheet_number, answer.sheet_place];
    match kind(answer.kind, answer.number, answer.place, &figures)? {
        KIND_TABLE => Ok(Printed::Table(answer.length as usize)),
        KIND_LINE => Ok(Printed::Line(
            answer.length as usize,
            refused(answer.sheet_number, answer.sheet_place),
        )),
        other => unknown(other),
    }
}

fn passed(answer: PlannerJudgement) -> Result<(), Refused> {
    match kind(answer.kind, answer.number, answer.place, &[])? {
        KIND_GIVEN => Ok(()),
        other => unknown(other),
    }
}

fn held(answer: PlannerVerdict) -> Result<Verdict, Refused> {
    let figures = [answer.picture, answer.units];
    match kind(answer.kind, answer.number, answer.place, &figures)? {
        KIND_HOLDS => Ok(Verdict::Holds),
        KIND_LATE => Ok(Verdict::Late {
            picture: answer.picture,
            units: answer.units,
        }),
        other => unknown(other),
    }
}

fn figures(answer: PlannerBucket) -> Result<Bucket, Refused> {
    let figures = [answer.buffer, answer.fullness];
    match kind(answer.kind, answer.number, answer.place, &figures)? {
        KIND_GIVEN => Ok(Bucket {
            buffer: answer.buffer,
            fullness: answer.fullness,
        }),
        other => unknown(other),
    }
}

/// Whether a record is the one of a refusal: 0 everywhere, beyond its rows too.
fn all_zero(params: &Params) -> bool {
    let rows = [
        params.bit_rate_value_minus1,
        params.cpb_size_value_minus1,
        params.cbr_flag,
    ];
    *params == Params::default() && rows == [[0; CPB_CNT_MAX]; 3]
}

/// The kind of an answer that is no refusal. A refusal's figures are 0; every other answer's
/// number and place are.
fn kind(kind: u64, number: u64, place: u64, figures: &[u64]) -> Result<u64, Refused> {
    if kind == KIND_REFUSED {
        debug_assert!(figures.iter().all(|&figure| figure == 0));
        return Err(refused(number, place));
    }
    debug_assert_eq!((number, place), (0, 0));
    Ok(kind)
}

fn refused(number: u64, place: u64) -> Refused {
    let number = u8::try_from(number).expect("a refusal's number fits a byte");
    Refused { number, place }
}

fn unknown(kind: u64) -> ! {
    panic!("the linked library answered with kind {kind}, which planner.h does not have")
}
