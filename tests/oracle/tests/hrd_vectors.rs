//! Every parameter record of hrd.txt reads as its line says and writes back the same bits, or is
//! refused with the line's number.

use oracle::bits::{read_params, write_params, Params, Row};
use oracle::refused::refuse;

fn bytes_of(hex: &str) -> Vec<u8> {
    (0..hex.len() / 2)
        .map(|k| u8::from_str_radix(&hex[2 * k..2 * k + 2], 16).unwrap())
        .collect()
}

fn params_of(fields: &[u64], rows: &[&str]) -> Params {
    let [cpb_cnt_minus1, bit_rate_scale, cpb_size_scale, initial, removal, output, offset] =
        fields[..]
    else {
        panic!("seven fields before the rows");
    };
    assert_eq!(rows.len() as u64, cpb_cnt_minus1 + 1);
    let row = |text: &&str| {
        let values: Vec<u64> = text.split(',').map(|v| v.parse().unwrap()).collect();
        Row {
            bit_rate_value_minus1: values[0],
            cpb_size_value_minus1: values[1],
            cbr_flag: values[2],
        }
    };
    Params {
        bit_rate_scale,
        cpb_size_scale,
        rows: rows.iter().map(row).collect(),
        initial_cpb_removal_delay_length_minus1: initial,
        cpb_removal_delay_length_minus1: removal,
        dpb_output_delay_length_minus1: output,
        time_offset_length: offset,
    }
}

/// Turns every bit from start to before end.
fn turned(bytes: &[u8], start: u64, end: u64) -> Vec<u8> {
    let mut bytes = bytes.to_vec();
    for position in start..end {
        bytes[(position / 8) as usize] ^= 0x80 >> (position % 8);
    }
    bytes
}

/// The places that hrd.txt leaves out: the row at which each refused record was made to fail.
fn place_of(name: &str) -> u64 {
    match name {
        "o_rates_fall/nal" | "h_row2_rate_32_zeros" => 1,
        "o_last_row/nal" => 31,
        _ => 0,
    }
}

#[test]
fn every_record() {
    let (mut read, mut refused) = (0, 0);
    for line in include_str!("../../data/hrd.txt").lines() {
        if line.starts_with('#') {
            continue;
        }
        let words: Vec<&str> = line.split(' ').collect();
        let name = words[0];
        let bytes = bytes_of(words[1]);
        let start: u64 = words[2].parse().unwrap();
        assert_eq!(words[3], "->");
        if words[4] == "refused" {
            let number = words[5].parse().unwrap();
            let expected = refuse(number, place_of(name));
            assert_eq!(read_params(&bytes, start), expected, "{name}");
            refused += 1;
            continue;
        }
        let end: u64 = words[4].parse().unwrap();
        let fields: Vec<u64> = words[5..12].iter().map(|w| w.parse().unwrap()).collect();
        let params = params_of(&fields, &words[12..]);
        assert_eq!(
            read_params(&bytes, start),
            Ok((params.clone(), end)),
            "{name}"
        );
        let mut written = turned(&bytes, start, end);
        assert_eq!(write_params(&params, &mut written, start), Ok(end));
        assert_eq!(written, bytes, "{name}");
        for length in 0..end.div_ceil(8) - 1 {
            let cut = &bytes[..length as usize];
            assert_eq!(
                read_params(cut, start),
                refuse(9, 0),
                "{name} cut to {length}"
            );
        }
        read += 1;
    }
    assert_eq!((read, refused), (35, 13));
}
