//! The built program on whole inputs: document 01's table, real recordings, and inputs that end
//! early, never or with a fault.

use compare::program::{run, run_on};
use oracle::recording::{Clock, Recording};
use oracle::sheet::{make_sheet, print};
use std::fs::{read_dir, read_to_string, File};
use std::io::Read;
use std::path::{Path, PathBuf};

const SHEET_D: &[u8] = include_bytes!("../../../examples/recording_d.sheet");

fn root() -> PathBuf {
    Path::new(env!("CARGO_MANIFEST_DIR")).join("../..")
}

fn printed(sheet: &[u8]) -> String {
    String::from_utf8(run(sheet)).unwrap()
}

#[test]
fn the_table_of_document_01() {
    let table = "rate buffer start\n250 10250 10250\n500 7500 7500\n1000 5000 5000\n";
    assert_eq!(printed(SHEET_D), table);
}

#[test]
fn what_the_gate_runs_the_program_on() {
    assert_eq!(SHEET_D, include_bytes!("../../../crates/plan/stdin"));
    assert_eq!(print(SHEET_D), include_str!("../../../crates/plan/stdout"));
}

#[test]
fn a_sheet_cut_anywhere() {
    for length in 0..SHEET_D.len() {
        assert_eq!(printed(&SHEET_D[..length]), "refused 12 at 0\n");
    }
}

#[test]
fn the_largest_sheet_and_one_byte_more() {
    let (ticks, rates): (Vec<u64>, Vec<u64>) = ((0..4096).collect(), (1..=32).collect());
    let rec = Recording {
        sizes: &[1; 4096],
        ticks: &ticks,
        clock: Clock { ts: 1, nu: 1 },
    };
    let mut sheet = make_sheet(&rec, &rates);
    assert_eq!(printed(&sheet), print(&sheet));
    sheet.push(0);
    assert_eq!(printed(&sheet), "refused 12 at 0\n");
}

#[test]
fn a_sheet_that_never_ends() {
    let endless = File::open("/dev/zero").unwrap();
    assert_eq!(run_on(endless), b"refused 1 at 0\n");

    let mut long = Vec::new();
    std::io::repeat(0)
        .take(1 << 20)
        .read_to_end(&mut long)
        .unwrap();
    let after_a_sheet = [SHEET_D, &long].concat();
    assert_eq!(printed(&after_a_sheet), "refused 12 at 0\n");
}

#[test]
fn a_read_that_fails_is_the_end() {
    let folder = File::open(root()).unwrap();
    assert_eq!(run_on(folder), b"refused 12 at 0\n");
}

/// Clock, sizes and ticks.
fn recording(text: &str) -> (Clock, Vec<u64>, Vec<u64>) {
    let lines = text.lines().filter(|line| !line.starts_with('#'));
    let mut clock = Clock { ts: 0, nu: 0 };
    let (mut sizes, mut ticks) = (Vec::new(), Vec::new());
    for line in lines {
        let words: Vec<&str> = line.split(' ').collect();
        match words[..] {
            ["clock", ts, nu] => {
                clock = Clock {
                    ts: ts.parse().unwrap(),
                    nu: nu.parse().unwrap(),
                }
            }
            ["bucket", ..] | ["verdict", ..] => {}
            [size, tick] => {
                sizes.push(size.parse().unwrap());
                ticks.push(tick.parse().unwrap());
            }
            _ => panic!("{line}"),
        }
    }
    (clock, sizes, ticks)
}

#[test]
fn the_eight_recordings() {
    let rates = [64, 50_000, 400_000, 1_000_000, 134_217_728];
    let mut count = 0;
    for entry in read_dir(root().join("tests/data/recordings")).unwrap() {
        let path = entry.unwrap().path();
        let (clock, sizes, ticks) = recording(&read_to_string(&path).unwrap());
        let (sizes, ticks) = (&sizes[..], &ticks[..]);
        let sheet = make_sheet(
            &Recording {
                sizes,
                ticks,
                clock,
            },
            &rates,
        );
        assert_eq!(printed(&sheet), print(&sheet), "{path:?}");
        count += 1;
    }
    assert_eq!(count, 8);
}
