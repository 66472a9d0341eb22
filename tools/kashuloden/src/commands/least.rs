//! The least buckets of a recording: at one rate, and a table over several.

use super::{bucket_entries, introduce, Command, RATE, RATE_WORDS};
use crate::fault::Fault;
use crate::options::{takes, Known, Options};
use crate::output::{self, entry, Output};
use crate::recording::{self, Recording};
use crate::refusal::Asked;
use crate::table::Table;
use planner::Bucket;

pub const PLAN: Command = Command {
    name: "plan",
    usage: "RECORDING --rates R,R,..",
    says: "the table of least buffer and start at each rate",
    more: "One bit less of either will not do. Wait is start/rate, fill is buffer/rate. The rates rise; without\n\
           --rates they are those of the recording, where its text or its sheet has some.",
    example: "kashuloden plan tests/data/recordings/a01_test25.txt --rates 250000,300000,400000",
    operand: Some("recording"),
    options: &[&[RATES], recording::OPTIONS, output::OPTIONS],
    run: plan,
};

pub const LEAST: Command = Command {
    name: "least",
    usage: "RECORDING --rate R",
    says: "least buffer and start at one rate",
    more: "One bit less of either will not do. Wait is start/rate, fill is buffer/rate.",
    example: "kashuloden least tests/data/recordings/a01_test25.txt --rate 300000",
    operand: Some("recording"),
    options: &[&[RATE], recording::OPTIONS, output::OPTIONS],
    run: least,
};

pub const RATES: Known = takes("--rates", "R,R,..", "rates in bits per second, rising");

fn plan(options: &Options) -> Result<Output, Fault> {
    let rec = Recording::read(options)?;
    let table = Table::of(&rec, &rec.rates_asked(options)?)?;
    introduce(&rec, &table.rates);
    let rows = table.rates.iter().zip(table.buckets());
    let rows = rows.map(|(&rate, bucket)| bucket_entries(rate, bucket));
    // What a lookup needs beside the rows.
    let all = vec![
        entry("ts", "", table.ts),
        entry("nu", "", table.nu),
        entry("span", "ticks", table.span),
    ];
    Ok(Output::rows(rows.collect(), all))
}

fn least(options: &Options) -> Result<Output, Fault> {
    let rate = options.needed("--rate", RATE_WORDS)?;
    let rec = Recording::read(options)?;
    let bucket = least_of(&rec, rate)?;
    introduce(&rec, &[rate]);
    Ok(Output::one(bucket_entries(rate, bucket)))
}

/// The least bucket, or why there is none.
pub fn least_of(rec: &Recording, rate: u64) -> Result<Bucket, Fault> {
    let asked = Asked {
        rec: Some(rec),
        rate: Some(rate),
        ..Asked::default()
    };
    planner::least(&rec.lent(), rate).map_err(|refused| asked.fault(refused))
}
