//! The built library on parameter records: document 01's worked record, both sides of each limit,
//! and every record of hrd.txt.

use planner::{
    judge_params, params_length, params_row, read_params, row_verdict, verdict, write_params,
    Bucket, Params, Recording, Refused, Row, Verdict,
};

const WORKED: [u8; 4] = [0x80, 0x6B, 0xDE, 0xF8];
const LARGEST: u64 = 4_294_967_294;

fn refused<T>(number: u8, place: u64) -> Result<T, Refused> {
    Err(Refused { number, place })
}

/// What the worked bytes say: one row of zeros.
fn worked() -> Params {
    Params {
        cpb_cnt: 1,
        initial_cpb_removal_delay_length_minus1: 23,
        cpb_removal_delay_length_minus1: 23,
        dpb_output_delay_length_minus1: 23,
        time_offset_length: 24,
        ..Params::default()
    }
}

/// The longest record: 32 rows of codes with 31 leading zeros.
fn longest() -> Params {
    Params {
        cpb_cnt: 32,
        bit_rate_scale: 15,
        cpb_size_scale: 15,
        bit_rate_value_minus1: std::array::from_fn(|k| LARGEST - 31 + k as u64),
        cpb_size_value_minus1: std::array::from_fn(|k| LARGEST - k as u64),
        cbr_flag: [1; 32],
        initial_cpb_removal_delay_length_minus1: 31,
        cpb_removal_delay_length_minus1: 31,
        dpb_output_delay_length_minus1: 31,
        time_offset_length: 31,
    }
}

#[test]
fn the_worked_record() {
    assert_eq!(read_params(&WORKED, 0), Ok((worked(), 32)));
    assert_eq!(read_params(&WORKED[..3], 0), refused(9, 0));
    let mut bytes = [0xFF; 6];
    assert_eq!(write_params(&worked(), &mut bytes, 8), Ok(40));
    assert_eq!(bytes, [0xFF, 0x80, 0x6B, 0xDE, 0xF8, 0xFF]);
}

#[test]
fn entries_after_the_rows_are_0_when_read_and_not_compared() {
    let (read, _) = read_params(&WORKED, 0).unwrap();
    assert_eq!(read.bit_rate_value_minus1, [0; 32]);
    assert_eq!(read.cpb_size_value_minus1, [0; 32]);
    assert_eq!(read.cbr_flag, [0; 32]);

    let changes: [(bool, fn(&mut Params)); 13] = [
        (true, |p| p.bit_rate_value_minus1[1] = 1),
        (true, |p| p.cpb_size_value_minus1[31] = 1),
        (true, |p| p.cbr_flag[1] = 1),
        (false, |p| p.bit_rate_value_minus1[0] = 1),
        (false, |p| p.cpb_size_value_minus1[0] = 1),
        (false, |p| p.cbr_flag[0] = 1),
        (false, |p| p.cpb_cnt = 2),
        (false, |p| p.bit_rate_scale = 1),
        (false, |p| p.cpb_size_scale = 1),
        (false, |p| p.initial_cpb_removal_delay_length_minus1 = 1),
        (false, |p| p.cpb_removal_delay_length_minus1 = 1),
        (false, |p| p.dpb_output_delay_length_minus1 = 1),
        (false, |p| p.time_offset_length = 1),
    ];
    for (k, (same, change)) in changes.into_iter().enumerate() {
        let mut changed = worked();
        change(&mut changed);
        assert_eq!(changed == worked(), same, "change {k}");
    }
    let mut beyond = longest();
    beyond.cpb_cnt = usize::MAX;
    assert_eq!(beyond, beyond.clone());
    assert_ne!(beyond, longest());
}

#[test]
fn the_length_of_a_record() {
    assert_eq!(params_length(&worked()), Ok(32));
    assert_eq!(params_length(&longest()), Ok(11 + 8 + 32 * 127 + 20));
    let mut broken = two_rows();
    broken.cbr_flag[1] = 2;
    assert_eq!(params_length(&broken), refused(10, 1));
    assert_eq!(params_length(&Params::default()), refused(10, 0));
}

#[test]
fn rate_and_size_of_a_row() {
    let row = |rate, size| Ok(Row { rate, size });
    assert_eq!(params_row(&worked(), 0), row(64, 16));
    assert_eq!(params_row(&two_rows(), 1), row(128, 16));
    let largest = row((LARGEST + 1) << 21, (LARGEST - 30) << 19);
    assert_eq!(params_row(&longest(), 31), largest);
    for none in [2, 32, usize::MAX] {
        assert_eq!(params_row(&two_rows(), none), refused(6, 0));
    }
    let mut broken = two_rows();
    broken.cbr_flag[1] = 2;
    assert_eq!(params_row(&broken, 2), refused(10, 1));
}

/// What the header warns of: a byte 3 after two bytes 0 belongs to the NAL unit, not to the record.
#[test]
fn emulation_prevention_left_in_is_read_as_bits() {
    let mut params = worked();
    params.bit_rate_value_minus1[0] = (1 << 27) - 2;
    let mut bytes = [0; 12];
    let next = write_params(&params, &mut bytes, 0).unwrap();
    assert_eq!(bytes[..4], [0x80, 0, 0, 0]);
    assert_eq!(read_params(&bytes, 0), Ok((params, next)));
    let sent = [&bytes[..3], &[3], &bytes[3..]].concat();
    let (read, _) = read_params(&sent, 0).unwrap();
    assert_ne!(params_row(&read, 0), params_row(&params, 0));
    assert!(include_str!("../../../include/planner.h").contains("without emulation prevention"));
}

#[test]
fn starts_past_the_end() {
    for start in [32, 33, 1 << 32, u64::MAX - 31, u64::MAX] {
        assert_eq!(read_params(&WORKED, start), refused(9, 0));
        let mut bytes = WORKED;
        assert_eq!(write_params(&worked(), &mut bytes, start), refused(8, 0));
        assert_eq!(bytes, WORKED);
    }
    assert_eq!(read_params(&[], 0), refused(9, 0));
    assert_eq!(write_params(&worked(), &mut [], 0), refused(8, 0));
}

#[test]
fn bytes_after_the_first_2_to_the_29_do_not_count() {
    let end = 1 << 29;
    let mut bytes = vec![0; end + 4];
    let inside = 8 * (end as u64 - 4);
    assert_eq!(write_params(&worked(), &mut bytes, inside), Ok(1 << 32));
    assert_eq!(bytes[end - 4..end], WORKED);
    assert_eq!(read_params(&bytes, inside), Ok((worked(), 1 << 32)));

    let across = write_params(&worked(), &mut bytes, inside + 1);
    assert_eq!(across, refused(8, 0));
    assert_eq!(bytes[end - 4..], [0x80, 0x6B, 0xDE, 0xF8, 0, 0, 0, 0]);
    bytes[end - 3..end + 1].copy_from_slice(&WORKED);
    assert_eq!(read_params(&bytes, inside + 8), refused(9, 0));
    assert_eq!(read_params(&bytes[1..], inside), Ok((worked(), 1 << 32)));
}

#[test]
fn the_longest_record_at_every_bit_offset() {
    // 11 bits of the count, 8 of the scales, 32 rows of 63 + 63 + 1 bits, 20 of the lengths
    let length = 11 + 8 + 32 * 127 + 20;
    for start in 0..8 {
        let next = start + length;
        let mut written = [[0x00; 515], [0xFF; 515]];
        for bytes in &mut written {
            assert_eq!(write_params(&longest(), bytes, start), Ok(next));
            assert_eq!(read_params(bytes, start), Ok((longest(), next)));
            let last = next.div_ceil(8) as usize - 1;
            assert_eq!(read_params(&bytes[..last], start), refused(9, 0));
        }
        // The two lists still differ in every bit but the record's own.
        let [zeros, ones] = written;
        assert_eq!(turned(&zeros, 0, start), turned(&ones, next, 8 * 515));
    }
}

#[test]
fn records_with_one_fault() {
    let faulty = |change: fn(&mut Params)| {
        let mut params = longest();
        change(&mut params);
        let mut bytes = [0xA5; 520];
        let answer = write_params(&params, &mut bytes, 3);
        assert!(answer.is_ok() || bytes == [0xA5; 520]);
        assert_eq!(judge_params(&params), answer.map(|_| ()));
        answer
    };
    assert_eq!(faulty(|_| ()), Ok(3 + 4103));
    assert_eq!(faulty(|p| p.cpb_cnt = 0), refused(10, 0));
    assert_eq!(faulty(|p| p.cpb_cnt = 33), refused(10, 0));
    assert_eq!(faulty(|p| p.cpb_cnt = usize::MAX), refused(10, 0));
    assert_eq!(faulty(|p| p.bit_rate_scale = 16), refused(10, 0));
    assert_eq!(faulty(|p| p.cpb_size_scale = 16), refused(10, 0));
    assert_eq!(faulty(|p| p.cbr_flag[7] = 2), refused(10, 7));
    let equal: fn(&mut Params) = |p| p.bit_rate_value_minus1[5] = p.bit_rate_value_minus1[4];
    assert_eq!(faulty(equal), refused(10, 5));
    let rising: fn(&mut Params) = |p| p.cpb_size_value_minus1[6] = p.cpb_size_value_minus1[5] + 1;
    assert_eq!(faulty(rising), refused(10, 6));
    let same: fn(&mut Params) = |p| p.cpb_size_value_minus1[6] = p.cpb_size_value_minus1[5];
    assert_eq!(faulty(same), Ok(3 + 4103));
    let large: fn(&mut Params) = |p| p.bit_rate_value_minus1[31] = LARGEST + 1;
    assert_eq!(faulty(large), refused(10, 31));
    assert_eq!(
        faulty(|p| p.cpb_size_value_minus1[0] = LARGEST + 1),
        refused(10, 0)
    );
    let lengths: [fn(&mut Params); 4] = [
        |p| p.initial_cpb_removal_delay_length_minus1 = 32,
        |p| p.cpb_removal_delay_length_minus1 = 32,
        |p| p.dpb_output_delay_length_minus1 = 32,
        |p| p.time_offset_length = 32,
    ];
    for length in lengths {
        assert_eq!(faulty(length), refused(10, 0));
    }
}

#[test]
fn of_several_faults_the_first_and_10_before_8() {
    let mut params = longest();
    params.time_offset_length = 32;
    params.cbr_flag[9] = 2;
    params.cpb_size_value_minus1[9] = u64::MAX;
    params.bit_rate_value_minus1[12] = 0;
    assert_eq!(judge_params(&params), refused(10, 9));
    assert_eq!(write_params(&params, &mut [], u64::MAX), refused(10, 9));
    assert_eq!(judge_params(&longest()), Ok(()));
    assert_eq!(write_params(&longest(), &mut [], 0), refused(8, 0));
}

#[test]
fn entries_after_the_rows_are_not_looked_at() {
    let mut params = worked();
    params.bit_rate_value_minus1[1..].fill(u64::MAX);
    params.cpb_size_value_minus1[1..].fill(u64::MAX);
    params.cbr_flag[1..].fill(u64::MAX);
    assert_eq!(judge_params(&params), Ok(()));
    let mut bytes = [0; 4];
    assert_eq!(write_params(&params, &mut bytes, 0), Ok(32));
    assert_eq!(bytes, WORKED);
}

fn bytes_of(hex: &str) -> Vec<u8> {
    (0..hex.len() / 2)
        .map(|k| u8::from_str_radix(&hex[2 * k..2 * k + 2], 16).unwrap())
        .collect()
}

fn params_of(fields: &[&str], rows: &[&str]) -> Params {
    let fields: Vec<u64> = fields.iter().map(|word| word.parse().unwrap()).collect();
    assert_eq!(rows.len() as u64, fields[0] + 1);
    let mut params = Params {
        cpb_cnt: rows.len(),
        bit_rate_scale: fields[1],
        cpb_size_scale: fields[2],
        initial_cpb_removal_delay_length_minus1: fields[3],
        cpb_removal_delay_length_minus1: fields[4],
        dpb_output_delay_length_minus1: fields[5],
        time_offset_length: fields[6],
        ..Params::default()
    };
    for (k, row) in rows.iter().enumerate() {
        let values: Vec<u64> = row.split(',').map(|v| v.parse().unwrap()).collect();
        params.bit_rate_value_minus1[k] = values[0];
        params.cpb_size_value_minus1[k] = values[1];
        params.cbr_flag[k] = values[2];
    }
    params
}

/// Turns every bit from start to before end.
fn turned(bytes: &[u8], start: u64, end: u64) -> Vec<u8> {
    let mut bytes = bytes.to_vec();
    for position in start..end {
        bytes[(position / 8) as usize] ^= 0x80 >> (position % 8);
    }
    bytes
}

/// The places that hrd.txt leaves out: the row at which each refused record was made to fail.
fn place_of(name: &str) -> u64 {
    match name {
        "o_rates_fall/nal" | "h_row2_rate_32_zeros" => 1,
        "o_last_row/nal" => 31,
        _ => 0,
    }
}

#[test]
fn every_record_of_hrd_txt() {
    let (mut read, mut not_read) = (0, 0);
    let text = include_str!("../../data/hrd.txt");
    for line in text.lines().filter(|line| !line.starts_with('#')) {
        let words: Vec<&str> = line.split(' ').collect();
        let (name, bytes) = (words[0], bytes_of(words[1]));
        let start: u64 = words[2].parse().unwrap();
        if words[4] == "refused" {
            let expected = refused(words[5].parse().unwrap(), place_of(name));
            assert_eq!(read_params(&bytes, start), expected, "{name}");
            not_read += 1;
            continue;
        }
        let end: u64 = words[4].parse().unwrap();
        let params = params_of(&words[5..12], &words[12..]);
        assert_eq!(read_params(&bytes, start), Ok((params, end)), "{name}");
        assert_eq!(judge_params(&params), Ok(()), "{name}");
        let mut written = turned(&bytes, start, end);
        assert_eq!(write_params(&params, &mut written, start), Ok(end));
        assert_eq!(written, bytes, "{name}");
        for length in 0..end.div_ceil(8) as usize {
            let cut = read_params(&bytes[..length], start);
            assert_eq!(cut, refused(9, 0), "{name} cut to {length}");
        }
        read += 1;
    }
    assert_eq!((read, not_read), (35, 13));
}

/// Two pictures of 8 bits, a second apart.
const TWO: Recording = Recording {
    sizes: &[8, 8],
    ticks: &[0, 1],
    ts: 1,
    nu: 1,
};

/// Rows of 64 and 128 bits per second with 16 bits each, the second at a constant rate.
fn two_rows() -> Params {
    let mut params = worked();
    params.cpb_cnt = 2;
    params.bit_rate_value_minus1[1] = 1;
    params.cbr_flag[1] = 1;
    params
}

#[test]
fn the_verdict_of_a_row() {
    let late = Verdict::Late {
        picture: 0,
        units: 1,
    };
    assert_eq!(row_verdict(&TWO, &worked(), 0, 8), Ok(Verdict::Holds));
    assert_eq!(row_verdict(&TWO, &worked(), 0, 7), Ok(late));
    for fullness in 0..=17 {
        let bucket = Bucket {
            buffer: 16,
            fullness,
        };
        assert_eq!(
            row_verdict(&TWO, &two_rows(), 0, fullness),
            verdict(&TWO, 64, bucket)
        );
    }
}

#[test]
fn a_row_refused() {
    let none = Recording { sizes: &[], ..TWO };
    let mut broken = two_rows();
    broken.cbr_flag[1] = 2;
    let mut variable = longest();
    variable.cbr_flag = [0; 32];
    for row in [0, 2, usize::MAX] {
        assert_eq!(row_verdict(&none, &broken, row, 0), refused(10, 1));
    }
    for row in [2, usize::MAX] {
        assert_eq!(row_verdict(&none, &two_rows(), row, 0), refused(6, 0));
    }
    assert_eq!(row_verdict(&none, &two_rows(), 1, 0), refused(1, 0));
    assert_eq!(row_verdict(&TWO, &variable, 31, 8), refused(6, 0));
    assert_eq!(row_verdict(&TWO, &two_rows(), 1, 17), refused(7, 0));
    assert_eq!(row_verdict(&TWO, &two_rows(), 1, 8), refused(11, 1));
}
