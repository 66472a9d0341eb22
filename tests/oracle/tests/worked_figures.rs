//! The worked figures of document 01, "Worked figures", starred or not, with those of "The sheet
//! and the printed table" and of "Errors we have met and won't have again".

use oracle::bits::{rate_of, read_params, size_of, Params, Row};
use oracle::least::{least, Least};
use oracle::lookup::{look_up, within_allowance, Found};
use oracle::panel::{panel, seconds, Reading, Seconds};
use oracle::recording::{judge, Clock, Recording};
use oracle::refused::refuse;
use oracle::schedule::{schedule, verdict, Verdict};
use oracle::sheet::{make_sheet, print};
use oracle::Refused;

const SECOND: Clock = Clock { ts: 1, nu: 1 };
const D: Recording = Recording {
    sizes: &[
        5000, 1000, 1000, 1000, 1000, 1000, 500, 500, 500, 500, 500, 500,
    ],
    ticks: &[0, 1, 2, 3, 4, 5, 6, 7, 8, 9, 10, 11],
    clock: SECOND,
};
const E: Recording = Recording {
    sizes: &[100, 100, 900, 100],
    ticks: &[0, 1, 2, 3],
    clock: SECOND,
};

fn found(buffer: u64, fullness: u64) -> Result<Found, Refused> {
    Ok(Found { buffer, fullness })
}

fn least_is(buffer: u64, fullness: u64) -> Result<Least, Refused> {
    Ok(Least { buffer, fullness })
}

fn late(picture: usize, units: u64) -> Result<Verdict, Refused> {
    Ok(Verdict::Late { picture, units })
}

#[test]
fn schedule_of_d() {
    let mut starts = [7; 12];
    let mut ends = [7; 12];
    let answer = schedule(&D, 1000, 10000, 10000, 0, &mut starts, &mut ends);
    assert_eq!(answer, Ok(Verdict::Holds));
    let expected = [
        0, 5000, 6000, 7000, 8000, 9000, 10000, 10500, 11000, 11500, 12000, 12500,
    ];
    assert_eq!(starts, expected);
    assert_eq!(ends[..11], expected[1..]);
    assert_eq!(ends[11], 13000);
}

#[test]
fn least_of_d() {
    for (rate, figure) in [(1000, 5000), (500, 7500), (250, 10250), (100, 11900)] {
        assert_eq!(least(&D, rate), least_is(figure, figure));
    }
}

#[test]
fn one_bit_less_than_the_first_picture_of_d() {
    assert_eq!(verdict(&D, 1000, 4999, 4999), late(0, 1));
    assert_eq!(verdict(&D, 1000, 5000, 5000), Ok(Verdict::Holds));
}

#[test]
fn lookups_of_d() {
    let rows = [10250, 5000];
    let between = look_up(&[250, 1000], &rows, &rows, SECOND, 11, 625);
    assert_eq!(between, found(7625, 7625));
    assert_eq!(least(&D, 625).unwrap().buffer, 6875);
    assert!(within_allowance(750, 1, 1, 11, 250, 1000, 625));
    assert!(within_allowance(2064, 1, 1, 11, 250, 1000, 625));
    assert!(!within_allowance(2065, 1, 1, 11, 250, 1000, 625));
    assert!(within_allowance(1, 1, 1, 0, 250, 1000, 625));
    assert!(!within_allowance(2, 1, 1, 0, 250, 1000, 625));
    let below = look_up(&[250], &[10250], &[10250], SECOND, 11, 100);
    assert_eq!(below, found(11900, 11900));
    let above = look_up(&[1000], &[5000], &[5000], SECOND, 11, 2000);
    assert_eq!(above, found(5000, 5000));
}

#[test]
fn recording_e() {
    assert_eq!(least(&E, 300), least_is(900, 500));
    assert_eq!(verdict(&E, 300, 900, 500), Ok(Verdict::Holds));
    assert_eq!(verdict(&E, 300, 899, 500), late(2, 1));
    assert_eq!(verdict(&E, 300, 900, 499), late(2, 1));
}

#[test]
fn least_figures_are_rounded_up() {
    let rec = Recording {
        sizes: &[10, 10],
        ticks: &[0, 1],
        clock: Clock { ts: 3, nu: 1 },
    };
    assert_eq!(least(&rec, 10), least_is(17, 17));
}

#[test]
fn buffers_of_source_document_002() {
    let rates = [50000, 100000, 150000, 200000, 250000, 300000];
    let buffers = [919317, 424338, 115992, 40211, 12691, 9656];
    let at = |rate| look_up(&rates, &buffers, &buffers, SECOND, 0, rate);
    assert_eq!(at(75000), found(671828, 671828));
    assert_eq!(at(350000), found(9656, 9656));
    let straight_line = 2 * buffers[5] - buffers[4];
    assert_eq!(straight_line, 6621);
    for (rate, buffer) in rates.into_iter().zip(buffers) {
        assert_eq!(at(rate), found(buffer, buffer));
    }
}

#[test]
fn one_row_of_bits() {
    let bytes = [0x80, 0x6B, 0xDE, 0xF8];
    let params = Params {
        bit_rate_scale: 0,
        cpb_size_scale: 0,
        rows: vec![Row {
            bit_rate_value_minus1: 0,
            cpb_size_value_minus1: 0,
            cbr_flag: 0,
        }],
        initial_cpb_removal_delay_length_minus1: 23,
        cpb_removal_delay_length_minus1: 23,
        dpb_output_delay_length_minus1: 23,
        time_offset_length: 24,
    };
    assert_eq!(rate_of(&params, 0), Ok(64));
    assert_eq!(size_of(&params, 0), Ok(16));
    assert_eq!(read_params(&bytes, 0), Ok((params, 32)));
    assert_eq!(read_params(&bytes[..3], 0), refuse(9, 0));
}

#[test]
fn counts_and_distances() {
    let sizes = vec![1; 4_097];
    let ticks: Vec<u64> = (0..4_097).collect();
    let cut = |n: usize| Recording {
        sizes: &sizes[..n],
        ticks: &ticks[..n],
        clock: SECOND,
    };
    assert_eq!(judge(&cut(4_096)), Ok(()));
    assert_eq!(judge(&cut(4_097)), refuse(1, 0));
    let apart = |ticks| Recording {
        sizes: &[1, 1],
        ticks,
        clock: SECOND,
    };
    assert_eq!(judge(&apart(&[0, 65_536])), Ok(()));
    assert_eq!(judge(&apart(&[0, 65_537])), refuse(5, 1));
    let spanning = |span| look_up(&[1000], &[5000], &[5000], SECOND, span, 1000);
    assert_eq!(spanning(65_536), found(5000, 5000));
    assert_eq!(spanning(65_537), refuse(3, 0));
    assert_eq!(verdict(&D, 1000, 5000, 5000), Ok(Verdict::Holds));
    assert_eq!(verdict(&D, 1000, 5000, 5001), refuse(7, 0));
}

#[test]
fn seconds_of_ten_thousand_bits() {
    let expected = Seconds {
        wait: 10.0,
        fill: 10.0,
    };
    assert_eq!(seconds(1000, 10000, 10000), Ok(expected));
    assert_eq!(panel(1000, 10000, 10000, 10.0), Ok(Reading::Within(10.0)));
    let below = f64::from_bits(10.0_f64.to_bits() - 1);
    let over = Reading::Over(10.0, below);
    assert_eq!(panel(1000, 10000, 10000, below), Ok(over));
}

#[test]
fn the_printed_table_and_refusal() {
    let sheet = make_sheet(&D, &[250, 500, 1000]);
    let table = "rate buffer start\n250 10250 10250\n500 7500 7500\n1000 5000 5000\n";
    assert_eq!(print(&sheet), table);
    let standing = Recording {
        ticks: &[0, 1, 2, 2, 4, 5, 6, 7, 8, 9, 10, 11],
        ..D
    };
    let sheet = make_sheet(&standing, &[250, 500, 1000]);
    assert_eq!(print(&sheet), "refused 5 at 3\n");
}

/// Largest values that 32 bits, or 64 with a sign, could lose.
#[test]
fn largest_values() {
    let clock = Clock {
        ts: 1 << 17,
        nu: 1 << 16,
    };
    let far = Recording {
        sizes: &[1, 1 << 24],
        ticks: &[5, 5 + (1 << 16)],
        clock,
    };
    let (mut starts, mut ends) = ([0; 2], [0; 2]);
    let full = 1 << 36;
    let answer = schedule(&far, 1 << 27, full, full, 0, &mut starts, &mut ends);
    assert_eq!(answer, Ok(Verdict::Holds));
    assert_eq!(starts, [0, 1 << 59]);
    assert_eq!(ends, [1 << 17, (1 << 59) + (1 << 41)]);

    let latest = Recording {
        sizes: &[1, 1 << 24],
        ticks: &[0, 1],
        clock: Clock { ts: 1 << 17, nu: 1 },
    };
    assert_eq!(verdict(&latest, 1, 1, 1), late(1, (1 << 41) - 1));

    let ticks: Vec<u64> = (0..4_096).collect();
    let heaviest = Recording {
        sizes: &[1 << 24; 4_096],
        ticks: &ticks,
        clock: Clock { ts: 1 << 17, nu: 1 },
    };
    assert_eq!(least(&heaviest, 1), least_is(full, full));

    let clock = Clock { ts: 1, nu: 1 << 16 };
    let below = look_up(&[1 << 27], &[full], &[full], clock, 1 << 16, 1);
    let grown = (1 << 59) + (1 << 36) - (1 << 32);
    assert_eq!(below, found(grown, grown));
    let between = look_up(&[1, 1 << 27], &[full, full], &[full, 1], clock, 0, 2);
    // 2^36 - (2^36 - 1) / (2^27 - 1), the quotient being a little above 512
    assert_eq!(between, found(full, full - 512));

    // 2 + 2^57 x (2^27 - 2) / (2^27 - 1) = 2^57 - 2^30 - 6 less a little
    let allowance = (1 << 57) - (1 << 30) - 6;
    let allowed = |excess| within_allowance(excess, 1, 1 << 16, 1 << 16, 1, 1 << 27, 1 << 26);
    assert!(allowed(allowance - 1));
    assert!(!allowed(allowance));
}
