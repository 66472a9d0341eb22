//! The exported functions and their answers as C has them: the Rust side of include/planner.h.

use crate::Params;

pub const KIND_REFUSED: u64 = 0;
pub const KIND_GIVEN: u64 = 1;
pub const KIND_HOLDS: u64 = 1;
pub const KIND_LATE: u64 = 2;
pub const KIND_WITHIN: u64 = 1;
pub const KIND_OVER: u64 = 2;
pub const KIND_TABLE: u64 = 1;
pub const KIND_LINE: u64 = 2;

#[repr(C)]
pub struct PlannerJudgement {
    pub kind: u64,
    pub number: u64,
    pub place: u64,
}

#[repr(C)]
pub struct PlannerVerdict {
    pub kind: u64,
    pub number: u64,
    pub place: u64,
    pub picture: u64,
    pub units: u64,
}

#[repr(C)]
pub struct PlannerBucket {
    pub kind: u64,
    pub number: u64,
    pub place: u64,
    pub buffer: u64,
    pub fullness: u64,
}

#[repr(C)]
pub struct PlannerSeconds {
    pub kind: u64,
    pub number: u64,
    pub place: u64,
    pub wait: f64,
    pub fill: f64,
}

#[repr(C)]
pub struct PlannerPanelReading {
    pub kind: u64,
    pub number: u64,
    pub place: u64,
    pub wait: f64,
    pub limit: f64,
}

#[repr(C)]
pub struct PlannerParamsRead {
    pub kind: u64,
    pub number: u64,
    pub place: u64,
    pub next: u64,
    pub params: Params,
}

#[repr(C)]
pub struct PlannerPosition {
    pub kind: u64,
    pub number: u64,
    pub place: u64,
    pub next: u64,
}

#[repr(C)]
pub struct PlannerLength {
    pub kind: u64,
    pub number: u64,
    pub place: u64,
    pub bits: u64,
}

#[repr(C)]
pub struct PlannerRow {
    pub kind: u64,
    pub number: u64,
    pub place: u64,
    pub rate: u64,
    pub size: u64,
}

#[repr(C)]
pub struct PlannerSheet {
    pub kind: u64,
    pub number: u64,
    pub place: u64,
    pub pictures: u64,
    pub rates: u64,
    pub ts: u64,
    pub nu: u64,
}

#[repr(C)]
pub struct PlannerText {
    pub kind: u64,
    pub number: u64,
    pub place: u64,
    pub length: u64,
    pub sheet_number: u64,
    pub sheet_place: u64,
}

extern "C" {
    pub fn planner_version() -> u64;

    pub fn planner_judge(
        sizes: *const u64,
        sizes_length: usize,
        ticks: *const u64,
        ticks_length: usize,
        ts: u64,
        nu: u64,
    ) -> PlannerJudgement;

    pub fn planner_verdict(
        sizes: *const u64,
        sizes_length: usize,
        ticks: *const u64,
        ticks_length: usize,
        ts: u64,
        nu: u64,
        rate: u64,
        buffer: u64,
        fullness: u64,
    ) -> PlannerVerdict;

    pub fn planner_schedule(
        sizes: *const u64,
        sizes_length: usize,
        ticks: *const u64,
        ticks_length: usize,
        ts: u64,
        nu: u64,
        rate: u64,
        buffer: u64,
        fullness: u64,
        at: usize,
        starts: *mut u64,
        starts_length: usize,
        ends: *mut u64,
        ends_length: usize,
    ) -> PlannerVerdict;

    pub fn planner_least(
        sizes: *const u64,
        sizes_length: usize,
        ticks: *const u64,
        ticks_length: usize,
        ts: u64,
        nu: u64,
        rate: u64,
    ) -> PlannerBucket;

    pub fn planner_table(
        sizes: *const u64,
        sizes_length: usize,
        ticks: *const u64,
        ticks_length: usize,
        ts: u64,
        nu: u64,
        rates: *const u64,
        rates_length: usize,
        at: usize,
        buffers: *mut u64,
        buffers_length: usize,
        fullnesses: *mut u64,
        fullnesses_length: usize,
    ) -> PlannerJudgement;

    pub fn planner_look_up(
        rates: *const u64,
        rates_length: usize,
        buffers: *const u64,
        buffers_length: usize,
        fullnesses: *const u64,
        fullnesses_length: usize,
        ts: u64,
        nu: u64,
        span: u64,
        rate: u64,
    ) -> PlannerBucket;

    pub fn planner_seconds(rate: u64, buffer: u64, fullness: u64) -> PlannerSeconds;

    pub fn planner_panel(rate: u64, buffer: u64, fullness: u64, limit: f64) -> PlannerPanelReading;

    pub fn planner_judge_params(params: Params) -> PlannerJudgement;

    pub fn planner_params_length(params: Params) -> PlannerLength;

    pub fn planner_params_row(params: Params, row: usize) -> PlannerRow;

    pub fn planner_read_params(
        bytes: *const u8,
        bytes_length: usize,
        start: u64,
    ) -> PlannerParamsRead;

    pub fn planner_write_params(
        params: Params,
        bytes: *mut u8,
        bytes_length: usize,
        start: u64,
    ) -> PlannerPosition;

    pub fn planner_row_verdict(
        sizes: *const u64,
        sizes_length: usize,
        ticks: *const u64,
        ticks_length: usize,
        ts: u64,
        nu: u64,
        params: Params,
        row: usize,
        fullness: u64,
    ) -> PlannerVerdict;

    pub fn planner_open_sheet(
        bytes: *const u8,
        bytes_length: usize,
        sizes: *mut u64,
        sizes_length: usize,
        ticks: *mut u64,
        ticks_length: usize,
        rates: *mut u64,
        rates_length: usize,
    ) -> PlannerSheet;

    pub fn planner_sheet_text(
        bytes: *const u8,
        bytes_length: usize,
        text: *mut u8,
        text_length: usize,
    ) -> PlannerText;
}
