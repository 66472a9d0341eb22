//! Parameter bits: round trips at every bit offset with guard bits, the first fault in bit order,
//! and both sides of each limit of a record. Document 01, "HRD parameter bits".

use oracle::bits::{
    bit_end, judge_params, rate_of, read_params, size_of, write_params, Params, Row,
};
use oracle::refused::refuse;
use oracle::xorshift::XorShift;
use oracle::Refused;

const SEED: u64 = 0xD1B5_4A32_D192_ED03;
const LARGEST: u64 = 4_294_967_294;

fn record(rows: &[(u64, u64, u64)]) -> Params {
    let row = |&(bit_rate_value_minus1, cpb_size_value_minus1, cbr_flag): &(u64, u64, u64)| Row {
        bit_rate_value_minus1,
        cpb_size_value_minus1,
        cbr_flag,
    };
    Params {
        bit_rate_scale: 0,
        cpb_size_scale: 0,
        rows: rows.iter().map(row).collect(),
        initial_cpb_removal_delay_length_minus1: 0,
        cpb_removal_delay_length_minus1: 0,
        dpb_output_delay_length_minus1: 0,
        time_offset_length: 0,
    }
}

/// The longest record: 32 rows of codes with 31 leading zeros.
fn longest() -> Params {
    let rows: Vec<(u64, u64, u64)> = (0..32)
        .map(|k| (LARGEST - 31 + k, LARGEST - k, k % 2))
        .collect();
    record(&rows)
}

/// A whole number of bytes from zeros and ones; blanks only part the fields.
fn packed(text: &str) -> Vec<u8> {
    let digits: Vec<u8> = text.bytes().filter(|&c| c != b' ').collect();
    assert_eq!(digits.len() % 8, 0);
    let byte = |digits: &[u8]| {
        digits
            .iter()
            .fold(0, |byte, digit| 2 * byte + (digit - b'0'))
    };
    digits.chunks(8).map(byte).collect()
}

fn bit(bytes: &[u8], position: u64) -> u8 {
    (bytes[(position / 8) as usize] >> (7 - position % 8)) & 1
}

/// Writes at that position between guard bits of either kind and reads the same record back.
fn round_trip(params: &Params, position: u64) -> u64 {
    let mut record_bits: Vec<Vec<u8>> = Vec::new();
    let mut next = 0;
    for guard in [0x00, 0xFF] {
        let mut bytes = vec![guard; 600];
        next = write_params(params, &mut bytes, position).unwrap();
        assert_eq!(read_params(&bytes, position), Ok((params.clone(), next)));
        for outside in (0..position).chain(next..4_800) {
            assert_eq!(bit(&bytes, outside), guard & 1);
        }
        record_bits.push((position..next).map(|p| bit(&bytes, p)).collect());
    }
    assert_eq!(record_bits[0], record_bits[1]);
    next - position
}

fn random_record(random: &mut XorShift) -> Params {
    let count = random.range(1, 32) as usize;
    let width = random.range(6, 32);
    let mut values = || -> Vec<u64> {
        let largest = ((1u64 << width) - 1).min(LARGEST);
        (0..count).map(|_| random.range(0, largest)).collect()
    };
    let (mut rates, mut sizes) = (values(), values());
    rates.sort();
    rates.dedup();
    sizes.sort();
    sizes.reverse();
    let rows: Vec<(u64, u64, u64)> = rates
        .into_iter()
        .zip(sizes)
        .map(|(rate, size)| (rate, size, random.range(0, 1)))
        .collect();
    Params {
        bit_rate_scale: random.range(0, 15),
        cpb_size_scale: random.range(0, 15),
        initial_cpb_removal_delay_length_minus1: random.range(0, 31),
        cpb_removal_delay_length_minus1: random.range(0, 31),
        dpb_output_delay_length_minus1: random.range(0, 31),
        time_offset_length: random.range(0, 31),
        ..record(&rows)
    }
}

#[test]
fn round_trips_at_every_offset() {
    println!("seed {SEED:#x}");
    let mut random = XorShift::new(SEED);
    for offset in 0..8 {
        assert_eq!(round_trip(&record(&[(0, 0, 0)]), offset), 32);
        assert_eq!(round_trip(&longest(), 8 + offset), 4_103);
        for _ in 0..25 {
            round_trip(&random_record(&mut random), 16 + offset);
        }
    }
}

#[test]
fn rates_and_sizes_of_rows() {
    let mut params = record(&[(0, LARGEST, 0), (LARGEST, 3, 1)]);
    assert_eq!(rate_of(&params, 0), Ok(64));
    assert_eq!(size_of(&params, 1), Ok(64));
    params.bit_rate_scale = 15;
    params.cpb_size_scale = 15;
    assert_eq!(rate_of(&params, 1), Ok((1 << 53) - (1 << 21)));
    assert_eq!(size_of(&params, 0), Ok((1 << 51) - (1 << 19)));
    assert_eq!(rate_of(&params, 2), refuse(6, 0));
    assert_eq!(size_of(&params, 2), refuse(6, 0));
    params.rows[1].cbr_flag = 2;
    assert_eq!(rate_of(&params, 2), refuse(10, 1));
}

fn read_refusal(text: &str, position: u64) -> Option<Refused> {
    read_params(&packed(text), position).err()
}

fn refused(number: u8, place: u64) -> Option<Refused> {
    Some(Refused { number, place })
}

#[test]
fn reading_takes_the_first_fault_in_bit_order() {
    let zeros = "00000000 00000000 00000000 00000000";
    assert_eq!(read_refusal(zeros, 0), refused(10, 0));
    assert_eq!(read_refusal(zeros, 1), refused(9, 0));
    let first_rate = "0000000 1 0000 0000 00000000 00000000 00000000";
    assert_eq!(read_refusal(first_rate, 7), refused(9, 0));
    assert_eq!(
        read_refusal(&format!("{first_rate} 00000000"), 7),
        refused(10, 0)
    );

    let count_32 = "00000 00000 1 00000";
    let count_33 = "00000 00000 1 00001";
    assert_eq!(read_refusal(count_32, 5), refused(9, 0));
    assert_eq!(read_refusal(count_33, 5), refused(10, 0));

    let row_1_rate_stays = "0 010 0000 0000 110 1";
    assert_eq!(read_refusal(row_1_rate_stays, 1), refused(10, 1));
    let row_1_size_rises = "0000 010 0000 0000 110 010 010";
    assert_eq!(read_refusal(row_1_size_rises, 4), refused(10, 1));
    let row_1_size_next = "0000000 010 0000 0000 110 010";
    assert_eq!(read_refusal(row_1_size_next, 7), refused(9, 0));
    let row_1_size_zeros = format!("{row_1_size_next} {zeros}");
    assert_eq!(read_refusal(&row_1_size_zeros, 7), refused(10, 1));
}

#[test]
fn starts_past_the_end() {
    let bytes = [0x80, 0x6B, 0xDE, 0xF8];
    let params = read_params(&bytes, 0).unwrap().0;
    for position in [1, 31, 32, 33, 1 << 32, (1 << 32) + 1, u64::MAX] {
        if position > 31 {
            assert_eq!(read_params(&bytes, position), refuse(9, 0));
        }
        let mut lent = bytes;
        assert_eq!(write_params(&params, &mut lent, position), refuse(8, 0));
        assert_eq!(lent, bytes);
    }
    assert_eq!(read_params(&[], 0), refuse(9, 0));
    assert_eq!(write_params(&params, &mut [], 0), refuse(8, 0));
}

#[test]
fn room_to_the_bit() {
    let mut lent = [0xA5; 513];
    assert_eq!(write_params(&longest(), &mut lent, 2), refuse(8, 0));
    assert_eq!(lent, [0xA5; 513]);
    assert_eq!(write_params(&longest(), &mut lent, 1), Ok(4_104));
    assert_eq!(read_params(&lent, 1), Ok((longest(), 4_104)));
}

#[test]
fn bytes_that_count() {
    assert_eq!(bit_end(0), 0);
    assert_eq!(bit_end((1 << 29) - 1), (1 << 32) - 8);
    assert_eq!(bit_end(1 << 29), 1 << 32);
    assert_eq!(bit_end((1 << 29) + 1), 1 << 32);
    assert_eq!(bit_end(u64::MAX), 1 << 32);
}

/// The place of the refusal expected next, and what mends the fault.
type Step = (u64, fn(&mut Params));
/// The largest value of a field, and where it stands.
type Field = (u64, fn(&mut Params) -> &mut u64);

#[test]
fn writing_judges_the_record_in_bit_order_then_room() {
    let mut params = record(&[(5, 5, 2), (5, 6, 2), (LARGEST + 1, LARGEST + 1, 0)]);
    params.rows.resize(33, params.rows[2]);
    params.bit_rate_scale = 16;
    params.cpb_size_scale = 16;
    params.initial_cpb_removal_delay_length_minus1 = 32;
    params.cpb_removal_delay_length_minus1 = 32;
    params.dpb_output_delay_length_minus1 = 32;
    params.time_offset_length = u64::MAX;
    let steps: [Step; 14] = [
        (0, |p| p.rows.truncate(3)),
        (0, |p| p.bit_rate_scale = 15),
        (0, |p| p.cpb_size_scale = 15),
        (0, |p| p.rows[0].cbr_flag = 1),
        (1, |p| p.rows[1].bit_rate_value_minus1 = 6),
        (1, |p| p.rows[1].cpb_size_value_minus1 = 5),
        (1, |p| p.rows[1].cbr_flag = 0),
        (2, |p| p.rows[2].bit_rate_value_minus1 = LARGEST),
        (2, |p| p.rows[2].cpb_size_value_minus1 = 6),
        (2, |p| p.rows[2].cpb_size_value_minus1 = 5),
        (0, |p| p.initial_cpb_removal_delay_length_minus1 = 31),
        (0, |p| p.cpb_removal_delay_length_minus1 = 31),
        (0, |p| p.dpb_output_delay_length_minus1 = 31),
        (0, |p| p.time_offset_length = 31),
    ];
    for (place, mend) in steps {
        let mut lent = [0xA5; 2];
        assert_eq!(judge_params(&params), refuse(10, place));
        assert_eq!(
            write_params(&params, &mut lent, u64::MAX),
            refuse(10, place)
        );
        assert_eq!(lent, [0xA5; 2]);
        mend(&mut params);
    }
    assert_eq!(judge_params(&params), Ok(()));
    assert_eq!(write_params(&params, &mut [0; 2], 0), refuse(8, 0));
}

#[test]
fn both_sides_of_each_limit_of_a_record() {
    assert_eq!(judge_params(&record(&[])), refuse(10, 0));
    assert_eq!(judge_params(&longest()), Ok(()));
    let one_more: Vec<(u64, u64, u64)> = (0..33).map(|k| (k, 0, 0)).collect();
    assert_eq!(judge_params(&record(&one_more)), refuse(10, 0));
    assert_eq!(judge_params(&record(&one_more[..32])), Ok(()));
    let fields: [Field; 6] = [
        (15, |p| &mut p.bit_rate_scale),
        (15, |p| &mut p.cpb_size_scale),
        (31, |p| &mut p.initial_cpb_removal_delay_length_minus1),
        (31, |p| &mut p.cpb_removal_delay_length_minus1),
        (31, |p| &mut p.dpb_output_delay_length_minus1),
        (31, |p| &mut p.time_offset_length),
    ];
    for (largest, field) in fields {
        let mut params = longest();
        *field(&mut params) = largest;
        assert_eq!(judge_params(&params), Ok(()));
        *field(&mut params) = largest + 1;
        assert_eq!(judge_params(&params), refuse(10, 0));
    }
    let only = |row| judge_params(&record(&[row]));
    assert_eq!(only((LARGEST, LARGEST, 1)), Ok(()));
    assert_eq!(only((LARGEST + 1, 0, 0)), refuse(10, 0));
    assert_eq!(only((0, LARGEST + 1, 0)), refuse(10, 0));
    assert_eq!(only((0, 0, 2)), refuse(10, 0));
    let second = |row| judge_params(&record(&[(7, 7, 0), row]));
    assert_eq!(second((8, 7, 0)), Ok(()));
    assert_eq!(second((7, 7, 0)), refuse(10, 1));
    assert_eq!(second((8, 8, 0)), refuse(10, 1));
}
