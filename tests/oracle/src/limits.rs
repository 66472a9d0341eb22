//! The limits of document 01, "A recording and its units", "Looking up a rate in a table" and
//! "HRD parameter bits". Ranges start at 1 unless a line says otherwise.

/// Pictures of a recording.
pub const PICTURES_MAX: u64 = 4_096;
/// Bits of one picture.
pub const SIZE_MAX: u64 = 16_777_216;
/// Ticks between the first picture and any other, and the span of a lookup; from 0.
pub const SPAN_MAX: u64 = 65_536;
/// time_scale.
pub const TS_MAX: u64 = 131_072;
/// num_units_in_tick.
pub const NU_MAX: u64 = 65_536;
/// Bits per second.
pub const RATE_MAX: u64 = 134_217_728;
/// Rates of a rate list, and rows of a table handed to a lookup.
pub const RATES_MAX: u64 = 32;
/// Bits of a buffer; a start fullness goes up to its buffer.
pub const BUFFER_MAX: u64 = 68_719_476_736;

/// Rows of a parameter record.
pub const RECORD_ROWS_MAX: u64 = 32;
/// bit_rate_scale and cpb_size_scale; from 0.
pub const SCALE_MAX: u64 = 15;
/// bit_rate_value_minus1 and cpb_size_value_minus1; from 0.
pub const VALUE_MINUS1_MAX: u64 = 4_294_967_294;
/// cbr_flag; from 0.
pub const CBR_FLAG_MAX: u64 = 1;
/// The four u(5) fields; from 0.
pub const LENGTH_MAX: u64 = 31;
/// A ue(v) code breaks the rule at this leading zero.
pub const ZEROS_REFUSED: u32 = 32;
/// Bytes of a lent byte list that count; from 0.
pub const BYTES_MAX: u64 = 536_870_912;

/// Bytes of a sheet's header.
pub const HEADER_BYTES: u64 = 28;
/// Bytes that are enough for every printed text.
pub const TEXT_MAX: u64 = 2_048;
