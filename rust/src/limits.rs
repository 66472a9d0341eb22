//! The limits of what the operations accept. Where the smallest is not named it is 1.

/// Pictures in the lists of a recording.
pub const PICTURES_MAX: usize = 4_096;
/// Pictures in a sheet.
pub const SHEET_PICTURES_MAX: usize = 4_096;
/// Bits in one picture.
pub const SIZE_MAX: u64 = 16_777_216;
/// Ticks from the first picture to the last, from 0.
pub const SPAN_MAX: u64 = 65_536;
/// time_scale.
pub const TS_MAX: u64 = 131_072;
/// num_units_in_tick.
pub const NU_MAX: u64 = 65_536;
/// Bits per second.
pub const RATE_MAX: u64 = 134_217_728;
/// Rates in a list, rows in a table.
pub const ROWS_MAX: usize = 32;
/// Bits in a buffer, and so in a start fullness.
pub const BUCKET_MAX: u64 = 68_719_476_736;
/// Rows in a parameter record.
pub const CPB_CNT_MAX: usize = 32;
/// A coded rate or size, from 0.
pub const VALUE_MAX: u64 = 4_294_967_294;
/// Leading zeros at which a code is refused.
pub const ZEROS_MAX: u64 = 32;
/// Bits of a scale.
pub const SCALE_WIDTH: u64 = 4;
/// Bits of a length.
pub const LENGTH_WIDTH: u64 = 5;
/// rate = (value + 1) x 2^(6 + scale).
pub const RATE_SHIFT: u64 = 6;
/// size = (value + 1) x 2^(4 + scale).
pub const SIZE_SHIFT: u64 = 4;
/// Bytes of a byte list that count, from 0.
pub const BYTES_MAX: usize = 536_870_912;
/// Bytes of a sheet's header.
pub const HEADER_BYTES: usize = 28;
/// Bytes of the largest sheet.
pub const SHEET_BYTES_MAX: usize = 32_924;
/// Bytes enough for every printed text.
pub const TEXT_MAX: usize = 2_048;
