//! The order and the places of refusals for every operation over recordings, tables and buckets,
//! and both sides of each limit: document 01, "When the planner says no".

use oracle::bits::{row_verdict, Params, Row};
use oracle::least::{least, table};
use oracle::lookup::look_up;
use oracle::panel::{panel, seconds};
use oracle::recording::{judge, Clock, Recording};
use oracle::refused::refuse;
use oracle::schedule::{schedule, verdict};
use oracle::Refused;

/// Number and place of the refusal expected next, and what mends the fault.
type Step<T> = (u8, u64, fn(&mut T));

/// Mends one fault after another; each time the lowest one left must be the refusal.
fn climb<T>(mut asked: T, steps: &[Step<T>], ask: fn(&T) -> Option<Refused>) {
    for &(number, place, mend) in steps {
        assert_eq!(ask(&asked), Some(Refused { number, place }));
        mend(&mut asked);
    }
    assert_eq!(ask(&asked), None);
}

struct Asked {
    sizes: Vec<u64>,
    ticks: Vec<u64>,
    clock: Clock,
    rate: u64,
    rates: Vec<u64>,
    buffer: u64,
    fullness: u64,
    from: u64,
    room: [usize; 2],
    params: Params,
    row: u64,
}

impl Asked {
    fn all_wrong() -> Asked {
        let row = |bit_rate_value_minus1, cpb_size_value_minus1, cbr_flag| Row {
            bit_rate_value_minus1,
            cpb_size_value_minus1,
            cbr_flag,
        };
        let mut sizes = vec![10; 4_097];
        sizes[1] = 0;
        sizes[2] = 16_777_217;
        Asked {
            sizes,
            ticks: vec![9, 10, 10, 11, 65_546],
            clock: Clock { ts: 0, nu: 65_537 },
            rate: 0,
            rates: vec![0; 33],
            buffer: 68_719_476_737,
            fullness: 0,
            from: u64::MAX,
            room: [5, 6],
            params: Params {
                bit_rate_scale: 0,
                cpb_size_scale: 15,
                rows: vec![row(9, 9, 0), row((1 << 21) + 9, 1 << 17, 1)],
                initial_cpb_removal_delay_length_minus1: 0,
                cpb_removal_delay_length_minus1: 0,
                dpb_output_delay_length_minus1: 0,
                time_offset_length: 32,
            },
            row: 2,
        }
    }

    fn recording(&self) -> Recording<'_> {
        Recording {
            sizes: &self.sizes,
            ticks: &self.ticks,
            clock: self.clock,
        }
    }
}

const RECORDING: [Step<Asked>; 8] = [
    (1, 0, |a| a.sizes.truncate(6)),
    (2, 0, |a| a.ticks.push(65_546)),
    (3, 0, |a| a.clock.ts = 1),
    (3, 0, |a| a.clock.nu = 1),
    (4, 1, |a| a.sizes[1] = 1),
    (4, 2, |a| a.sizes[2] = 16_777_216),
    (5, 2, |a| a.ticks = vec![9, 10, 12, 13, 65_546, 65_547]),
    (5, 4, |a| a.ticks = vec![9, 10, 12, 13, 14, 65_545]),
];
const RATE: Step<Asked> = (6, 0, |a| a.rate = 1);
const BUCKET: [Step<Asked>; 2] = [(7, 0, |a| a.buffer = 99), (7, 0, |a| a.fullness = 99)];
const ROOM: [Step<Asked>; 3] = [
    (8, 0, |a| a.from = 0),
    (8, 0, |a| a.room = [6, 5]),
    (8, 0, |a| a.room = [6, 6]),
];

#[test]
fn several_at_once_in_a_recording() {
    climb(Asked::all_wrong(), &RECORDING, |a| {
        judge(&a.recording()).err()
    });
}

#[test]
fn several_at_once_in_a_verdict() {
    let steps = [&RECORDING[..], &[RATE], &BUCKET].concat();
    climb(Asked::all_wrong(), &steps, |a| {
        verdict(&a.recording(), a.rate, a.buffer, a.fullness).err()
    });
}

#[test]
fn several_at_once_in_a_schedule() {
    let steps = [&RECORDING[..], &[RATE], &BUCKET, &ROOM].concat();
    climb(Asked::all_wrong(), &steps, |a| {
        let (mut starts, mut ends) = (vec![7; a.room[0]], vec![7; a.room[1]]);
        let (rec, b, f) = (a.recording(), a.buffer, a.fullness);
        let answer = schedule(&rec, a.rate, b, f, a.from, &mut starts, &mut ends);
        let untouched = starts.iter().chain(&ends).all(|&entry| entry == 7);
        assert_eq!(untouched, answer.is_err());
        answer.err()
    });
}

#[test]
fn several_at_once_in_a_least_bucket() {
    let steps = [&RECORDING[..], &[RATE]].concat();
    climb(Asked::all_wrong(), &steps, |a| {
        least(&a.recording(), a.rate).err()
    });
}

#[test]
fn several_at_once_in_a_table() {
    let rates: [Step<Asked>; 4] = [
        (6, 0, |a| a.rates = vec![0, 5, 5, 7, 8, 134_217_729]),
        (6, 0, |a| a.rates[0] = 1),
        (6, 2, |a| a.rates[2] = 6),
        (6, 5, |a| a.rates[5] = 134_217_728),
    ];
    let steps = [&RECORDING[..], &rates, &ROOM].concat();
    climb(Asked::all_wrong(), &steps, |a| {
        let (mut buffers, mut fullnesses) = (vec![0; a.room[0]], vec![0; a.room[1]]);
        let (rec, rates) = (a.recording(), &a.rates);
        let answer = table(&rec, rates, a.from, &mut buffers, &mut fullnesses);
        let untouched = buffers.iter().chain(&fullnesses).all(|&entry| entry == 0);
        assert_eq!(untouched, answer.is_err());
        answer.err()
    });
}

#[test]
fn several_at_once_in_a_verdict_of_a_row() {
    let record: [Step<Asked>; 3] = [
        (10, 1, |a| a.params.rows[0].cpb_size_value_minus1 = 1 << 17),
        (10, 0, |a| a.params.time_offset_length = 31),
        (6, 0, |a| a.row = 1),
    ];
    let rest: [Step<Asked>; 4] = [
        (6, 0, |a| {
            a.params.rows[1].bit_rate_value_minus1 = (1 << 21) - 1
        }),
        (7, 0, |a| {
            a.params.rows[1].cpb_size_value_minus1 = (1 << 17) - 1
        }),
        (7, 0, |a| a.fullness = 1 << 36),
        (11, 1, |a| a.params.rows[1].cbr_flag = 0),
    ];
    let steps = [&record[..], &RECORDING, &rest].concat();
    climb(Asked::all_wrong(), &steps, |a| {
        row_verdict(&a.recording(), &a.params, a.row, a.fullness).err()
    });
}

/// Only the row asked is judged as a bucket, so row 0 answers beside rows out of range.
#[test]
fn other_rows_are_not_judged_as_buckets() {
    let mut asked = Asked::all_wrong();
    for (_, _, mend) in RECORDING {
        mend(&mut asked);
    }
    asked.params.time_offset_length = 0;
    asked.params.cpb_size_scale = 0;
    asked.params.rows[1].cpb_size_value_minus1 = 9;
    let rec = asked.recording();
    assert!(row_verdict(&rec, &asked.params, 0, 160).is_ok());
    assert_eq!(row_verdict(&rec, &asked.params, 0, 161), refuse(7, 0));
    assert_eq!(row_verdict(&rec, &asked.params, 1, 160), refuse(6, 0));
    assert_eq!(
        row_verdict(&rec, &asked.params, u64::MAX, 160),
        refuse(6, 0)
    );
}

struct Lookup {
    rates: Vec<u64>,
    buffers: Vec<u64>,
    fullnesses: Vec<u64>,
    clock: Clock,
    span: u64,
    rate: u64,
}

#[test]
fn several_at_once_in_a_lookup() {
    let wrong = Lookup {
        rates: vec![],
        buffers: vec![100, 0, 68_719_476_737],
        fullnesses: vec![101, 1],
        clock: Clock { ts: 131_073, nu: 0 },
        span: 65_537,
        rate: 134_217_729,
    };
    let steps: [Step<Lookup>; 12] = [
        (2, 0, |a| a.buffers.clear()),
        (2, 0, |a| a.fullnesses.clear()),
        (3, 0, |a| a.clock.ts = 131_072),
        (3, 0, |a| a.clock.nu = 65_536),
        (3, 0, |a| a.span = 65_536),
        (6, 0, |a| {
            a.rates = vec![4, 4, 0];
            a.buffers = vec![100, 0, 68_719_476_737];
            a.fullnesses = vec![101, 1, 0];
        }),
        (6, 1, |a| a.rates[1] = 5),
        (6, 2, |a| a.rates[2] = 6),
        (6, 0, |a| a.rate = 134_217_728),
        (7, 0, |a| a.fullnesses[0] = 100),
        (7, 1, |a| a.buffers[1] = 1),
        (7, 2, |a| {
            a.buffers[2] = 68_719_476_736;
            a.fullnesses[2] = 68_719_476_736;
        }),
    ];
    climb(wrong, &steps, |a| {
        look_up(&a.rates, &a.buffers, &a.fullnesses, a.clock, a.span, a.rate).err()
    });
}

#[test]
fn several_at_once_on_the_panel() {
    let steps: [Step<(u64, u64, u64, f64)>; 4] = [
        (6, 0, |a| a.0 = 134_217_728),
        (7, 0, |a| a.1 = 100),
        (7, 0, |a| a.2 = 100),
        (13, 0, |a| a.3 = 1.0),
    ];
    climb((134_217_729, 0, 101, f64::NAN), &steps, |a| {
        panel(a.0, a.1, a.2, a.3).err()
    });
    climb((134_217_729, 0, 101, 1.0), &steps[..3], |a| {
        seconds(a.0, a.1, a.2).err()
    });
}

#[test]
fn both_sides_of_each_limit_of_a_recording() {
    let ask = |sizes: &[u64], ticks: &[u64], ts, nu| {
        let clock = Clock { ts, nu };
        judge(&Recording {
            sizes,
            ticks,
            clock,
        })
    };
    assert_eq!(ask(&[], &[], 1, 1), refuse(1, 0));
    assert_eq!(ask(&[], &[1], 1, 1), refuse(1, 0));
    assert_eq!(ask(&[1], &[], 1, 1), refuse(2, 0));
    assert_eq!(ask(&[1], &[1, 2], 1, 1), refuse(2, 0));
    assert_eq!(ask(&[1; 12], &[1; 5_000], 1, 1), refuse(2, 0));
    assert_eq!(ask(&[1], &[u64::MAX], 1, 1), Ok(()));
    assert_eq!(ask(&[1], &[0], 0, 1), refuse(3, 0));
    assert_eq!(ask(&[1], &[0], 131_072, 65_536), Ok(()));
    assert_eq!(ask(&[1], &[0], 131_073, 1), refuse(3, 0));
    assert_eq!(ask(&[1], &[0], 1, 0), refuse(3, 0));
    assert_eq!(ask(&[1], &[0], 1, 65_537), refuse(3, 0));
    assert_eq!(ask(&[0], &[0], 1, 1), refuse(4, 0));
    assert_eq!(ask(&[16_777_216], &[0], 1, 1), Ok(()));
    assert_eq!(ask(&[1, 16_777_217], &[0, 1], 1, 1), refuse(4, 1));
    assert_eq!(ask(&[1, 1], &[7, 7], 1, 1), refuse(5, 1));
    assert_eq!(ask(&[1, 1], &[7, 6], 1, 1), refuse(5, 1));
    assert_eq!(ask(&[1, 1, 1], &[7, 8, 65_543], 1, 1), Ok(()));
    assert_eq!(ask(&[1, 1, 1], &[7, 8, 65_544], 1, 1), refuse(5, 2));
    assert_eq!(ask(&[1, 1], &[0, u64::MAX], 1, 1), refuse(5, 1));
}

#[test]
fn both_sides_of_each_limit_of_rates_and_buckets() {
    let rec = Recording {
        sizes: &[1],
        ticks: &[0],
        clock: Clock { ts: 1, nu: 1 },
    };
    let ask = |rate, buffer, fullness| {
        let answer = verdict(&rec, rate, buffer, fullness).map(|_| ());
        assert_eq!(seconds(rate, buffer, fullness).map(|_| ()), answer);
        answer
    };
    assert_eq!(ask(0, 1, 1), refuse(6, 0));
    assert_eq!(ask(1, 1, 1), Ok(()));
    assert_eq!(ask(134_217_728, 1, 1), Ok(()));
    assert_eq!(ask(134_217_729, 1, 1), refuse(6, 0));
    assert_eq!(ask(1, 0, 0), refuse(7, 0));
    assert_eq!(ask(1, 1, 0), refuse(7, 0));
    assert_eq!(ask(1, 1, 2), refuse(7, 0));
    assert_eq!(ask(1, 68_719_476_736, 68_719_476_736), Ok(()));
    assert_eq!(ask(1, 68_719_476_736, 68_719_476_737), refuse(7, 0));
    assert_eq!(ask(1, 68_719_476_737, 1), refuse(7, 0));

    let rates: Vec<u64> = (1..=33).collect();
    let tabled = |count: usize| table(&rec, &rates[..count], 0, &mut [0; 33], &mut [0; 33]);
    let looked_up = |count: usize| {
        let rows = &[9; 33][..count];
        look_up(&rates[..count], rows, rows, rec.clock, 0, 1).map(|_| ())
    };
    for (count, answer) in [
        (0, refuse(6, 0)),
        (1, Ok(())),
        (32, Ok(())),
        (33, refuse(6, 0)),
    ] {
        assert_eq!(tabled(count), answer);
        assert_eq!(looked_up(count), answer);
    }
}

#[test]
fn each_fault_of_a_lookup_alone() {
    let ask = |buffers: &[u64], fullnesses: &[u64], ts, nu, span| {
        look_up(&[5, 6], buffers, fullnesses, Clock { ts, nu }, span, 5).map(|_| ())
    };
    let two = &[9, 9];
    for other in [&[9][..], &[9, 9, 9]] {
        assert_eq!(ask(other, two, 1, 1, 0), refuse(2, 0));
        assert_eq!(ask(two, other, 1, 1, 0), refuse(2, 0));
        assert_eq!(ask(other, other, 1, 1, 0), refuse(2, 0));
    }
    assert_eq!(ask(two, two, 1, 1, 0), Ok(()));
    assert_eq!(ask(two, two, 131_072, 65_536, 65_536), Ok(()));
    assert_eq!(ask(two, two, 0, 1, 0), refuse(3, 0));
    assert_eq!(ask(two, two, 131_073, 1, 0), refuse(3, 0));
    assert_eq!(ask(two, two, 1, 0, 0), refuse(3, 0));
    assert_eq!(ask(two, two, 1, 65_537, 0), refuse(3, 0));
    assert_eq!(ask(two, two, 1, 1, 65_537), refuse(3, 0));
    assert_eq!(ask(&[9, 0], &[9, 0], 1, 1, 0), refuse(7, 1));
    assert_eq!(ask(two, &[9, 0], 1, 1, 0), refuse(7, 1));
    assert_eq!(ask(two, &[9, 10], 1, 1, 0), refuse(7, 1));
}

#[test]
fn both_sides_of_the_room() {
    let rec = Recording {
        sizes: &[1, 1],
        ticks: &[0, 1],
        clock: Clock { ts: 1, nu: 1 },
    };
    for (starts, ends, from, fits) in [
        (5, 5, 3, true),
        (5, 9, 3, true),
        (9, 5, 3, true),
        (5, 5, 4, false),
        (9, 5, 4, false),
        (5, 9, 4, false),
        (5, 5, 5, false),
        (5, 5, 6, false),
        (5, 5, u64::MAX, false),
    ] {
        let (mut first, mut second) = (vec![77; starts], vec![77; ends]);
        let answer = schedule(&rec, 1, 2, 2, from, &mut first, &mut second);
        assert_eq!(answer.is_ok(), fits);
        let (mut expected_first, mut expected_second) = (vec![77; starts], vec![77; ends]);
        if fits {
            expected_first[3..5].copy_from_slice(&[0, 1]);
            expected_second[3..5].copy_from_slice(&[1, 2]);
        } else {
            assert_eq!(answer, refuse(8, 0));
        }
        assert_eq!((first, second), (expected_first, expected_second));

        let (mut first, mut second) = (vec![77; starts], vec![77; ends]);
        let answer = table(&rec, &[1, 2], from, &mut first, &mut second);
        let (mut expected_first, mut expected_second) = (vec![77; starts], vec![77; ends]);
        if fits {
            expected_first[3..5].copy_from_slice(&[1, 1]);
            expected_second[3..5].copy_from_slice(&[1, 1]);
            assert_eq!(answer, Ok(()));
        } else {
            assert_eq!(answer, refuse(8, 0));
        }
        assert_eq!((first, second), (expected_first, expected_second));
    }
}
