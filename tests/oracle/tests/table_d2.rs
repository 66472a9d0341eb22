//! The 53 rows of Table D-2 of source document 001, at 1000 bits per second with a clock of one
//! tick a second; the buffer is 10,000 bits, as document 01, "What the planner covers", says.

use oracle::recording::{Clock, Recording};
use oracle::schedule::{removal, schedule, Verdict};

/// Seconds with at most one decimal, in units of 1/1000 second.
fn units(seconds: &str) -> u64 {
    let (whole, tenths) = seconds.split_once('.').unwrap_or((seconds, "0"));
    assert_eq!(tenths.len(), 1);
    whole.parse::<u64>().unwrap() * 1000 + tenths.parse::<u64>().unwrap() * 100
}

#[test]
fn every_row_of_the_table() {
    let lines = include_str!("../../data/table_d2.txt").lines();
    let table: Vec<Vec<&str>> = lines
        .filter(|line| !line.starts_with('#'))
        .map(|line| line.split(' ').collect())
        .collect();
    assert_eq!(table.len(), 53);

    let sizes: Vec<u64> = table.iter().map(|row| row[0].parse().unwrap()).collect();
    let ticks: Vec<u64> = table.iter().map(|row| row[1].parse().unwrap()).collect();
    let rec = Recording {
        sizes: &sizes,
        ticks: &ticks,
        clock: Clock { ts: 1, nu: 1 },
    };
    let (mut starts, mut ends) = ([0; 53], [0; 53]);
    let answer = schedule(&rec, 1000, 10_000, 10_000, 0, &mut starts, &mut ends);
    assert_eq!(answer, Ok(Verdict::Holds));
    for (i, row) in table.iter().enumerate() {
        let removed = removal(&rec, 1000, 10_000, i) as u64;
        let earliest = removed - 10_000;
        assert_eq!(earliest, units(row[1]), "te of row {i}");
        assert_eq!(starts[i], units(row[2]), "tai of row {i}");
        assert_eq!(ends[i], units(row[3]), "taf of row {i}");
        assert_eq!(starts[i] - earliest, units(row[4]), "tai-te of row {i}");
        assert_eq!(removed, units(row[5]), "tr of row {i}");
        assert_eq!(removed - starts[i], units(row[6]), "tr-tai of row {i}");
        assert_eq!(removed - earliest, units(row[7]), "tr-te of row {i}");
    }
    assert_eq!(i128::from(ends[22]), removal(&rec, 1000, 10_000, 22));
    assert_eq!(ends[22], 32_000);
}
