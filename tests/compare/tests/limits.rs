//! The limits of docs/RULES.md against the second program's: the table there has these values and
//! no others.

mod rules;

use oracle::bits::{rate_of, size_of, Params, Row};
use oracle::limits;

/// Bits of a field whose largest value has every bit set.
fn width(largest: u64) -> u64 {
    assert!((largest + 1).is_power_of_two());
    u64::from((largest + 1).ilog2())
}

/// The exponents of the rate and the size of a row of zeros.
fn shifts() -> (u64, u64) {
    let zeros = Params {
        bit_rate_scale: 0,
        cpb_size_scale: 0,
        rows: vec![Row {
            bit_rate_value_minus1: 0,
            cpb_size_value_minus1: 0,
            cbr_flag: 0,
        }],
        initial_cpb_removal_delay_length_minus1: 0,
        cpb_removal_delay_length_minus1: 0,
        dpb_output_delay_length_minus1: 0,
        time_offset_length: 0,
    };
    let rate = rate_of(&zeros, 0).unwrap();
    let size = size_of(&zeros, 0).unwrap();
    (width(rate - 1), width(size - 1))
}

fn largest_sheet() -> u64 {
    limits::HEADER_BYTES + 8 * limits::PICTURES_MAX + 4 * limits::RATES_MAX
}

#[test]
fn every_written_limit() {
    let (rate_shift, size_shift) = shifts();
    assert_eq!(
        rules::limits(),
        [
            ("PICTURES_MAX", limits::PICTURES_MAX),
            ("SHEET_PICTURES_MAX", limits::PICTURES_MAX),
            ("SIZE_MAX", limits::SIZE_MAX),
            ("SPAN_MAX", limits::SPAN_MAX),
            ("TS_MAX", limits::TS_MAX),
            ("NU_MAX", limits::NU_MAX),
            ("RATE_MAX", limits::RATE_MAX),
            ("ROWS_MAX", limits::RATES_MAX),
            ("BUCKET_MAX", limits::BUFFER_MAX),
            ("CPB_CNT_MAX", limits::RECORD_ROWS_MAX),
            ("VALUE_MAX", limits::VALUE_MINUS1_MAX),
            ("ZEROS_MAX", u64::from(limits::ZEROS_REFUSED)),
            ("SCALE_WIDTH", width(limits::SCALE_MAX)),
            ("LENGTH_WIDTH", width(limits::LENGTH_MAX)),
            ("RATE_SHIFT", rate_shift),
            ("SIZE_SHIFT", size_shift),
            ("BYTES_MAX", limits::BYTES_MAX),
            ("HEADER_BYTES", limits::HEADER_BYTES),
            ("SHEET_BYTES_MAX", largest_sheet()),
            ("TEXT_MAX", limits::TEXT_MAX),
        ]
    );
}
