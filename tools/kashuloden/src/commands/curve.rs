//! The least bucket over many rates, for plotting, and what a table gives there.

use super::least::{least_of, RATES};
use super::{bucket_entries, introduce, Command, RATE_WORDS};
use crate::fault::Fault;
use crate::options::{takes, Known, Options};
use crate::output::{self, entry, Entry, Output};
use crate::recording::{self, Recording};
use crate::table::Table;
use std::collections::BTreeSet;

const POINTS: u64 = 101;
const POINTS_MAX: u64 = 10_000;

pub const CURVE: Command = Command {
    name: "curve",
    usage: "RECORDING --from R --to R [--rates R,R,..]",
    says: "least buffer, start and wait over many rates",
    more: "101 rates, evenly apart as far as they are whole, both ends among them. With --rates also what a\n\
           lookup in the table of these rates gives, the chords of the curve, and which rates are its rows.\n\
           scripts/plot curve draws both.",
    example: "kashuloden curve examples/recording_d.txt --from 250 --to 1000 --points 4 --rates 250,1000",
    operand: Some("recording"),
    options: &[
        &[FROM_RATE, TO_RATE, POINTS_OPTION, RATES],
        recording::OPTIONS_BESIDE_RATES,
        output::OPTIONS,
    ],
    run: curve,
};

const FROM_RATE: Known = takes("--from", "R", "lowest rate in bits per second");
const TO_RATE: Known = takes("--to", "R", "highest rate in bits per second");
const POINTS_OPTION: Known = takes("--points", "N", "so many rates, 2 to 10000, for 101");

fn curve(options: &Options) -> Result<Output, Fault> {
    let from = options.needed(FROM_RATE.name, RATE_WORDS)?;
    let to = options.needed(TO_RATE.name, RATE_WORDS)?;
    let points = options.whole(POINTS_OPTION.name, "a number of rates")?;
    let mut rates = spread(from, to, points.unwrap_or(POINTS))?;
    let rec = Recording::read(options)?;
    let table = match options.has(RATES.name) {
        true => Some(Table::of(&rec, &rec.rates_asked(options)?)?),
        false => None,
    };
    let rows = table.iter().flat_map(|table| &table.rates);
    rates.extend(rows.filter(|rate| (from..=to).contains(rate)));
    let line = |&rate: &u64| {
        let mut entries = bucket_entries(rate, least_of(&rec, rate)?);
        if let Some(table) = &table {
            entries.extend(lookup_entries(table, rate)?);
        }
        Ok(entries)
    };
    let lines: Result<_, Fault> = rates.iter().map(line).collect();
    let lines = lines?;
    introduce(&rec, &Vec::from_iter(rates));
    Ok(Output::rows(lines, Vec::new()))
}

/// Which row a rate is, if it is one, and what is looked up there.
fn lookup_entries(table: &Table, rate: u64) -> Result<[Entry; 3], Fault> {
    let found = table.look_up(rate)?;
    let row = table.rates.binary_search(&rate).ok();
    Ok([
        entry("row", "", row.map(|row| row as u64)),
        entry("lookup_buffer", "bits", found.buffer),
        entry("lookup_start", "bits", found.fullness),
    ])
}

/// Rates from one to the other, as many as asked for or as there are.
fn spread(from: u64, to: u64, points: u64) -> Result<BTreeSet<u64>, Fault> {
    if from >= to {
        let words = format!("--from {from} --to {to}: two rates that rise are expected");
        return Err(Fault::wrong_call(words));
    }
    if !(2..=POINTS_MAX).contains(&points) {
        let words = format!("--points {points}: 2 to {POINTS_MAX} are expected");
        return Err(Fault::wrong_call(words));
    }
    let last = u128::from(points - 1);
    let rate = |k: u128| from + (u128::from(to - from) * k / last) as u64;
    Ok((0..=last).map(rate).collect())
}
