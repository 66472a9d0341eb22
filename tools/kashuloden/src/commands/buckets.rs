//! A bucket without its recording: looked up in a table, in seconds, against the driver's limit.

use super::{asked_bucket, bucket_entries, Command, BUFFER, RATE, RATE_WORDS, START};
use crate::fault::Fault;
use crate::options::{takes, Known, Options};
use crate::output::{self, entry, Output};
use crate::refusal::Asked;
use crate::table::{self, Table};
use planner::limits::BUCKET_MAX;
use planner::Reading;

pub const LOOKUP: Command = Command {
    name: "lookup",
    usage: "TABLE --rate R",
    says: "a bucket for any rate, from a table",
    more: "TABLE has the columns rate, buffer and start, as plan writes them, with --csv or without; or as\n\
           the proved program prints them, which says neither clock nor span. Between two rows of least\n\
           figures the answer is enough, and above the least: who has the recording asks least.",
    example: "kashuloden plan examples/recording_d.txt --rates 250,1000 --csv | kashuloden lookup --rate 625",
    operand: Some("table"),
    options: &[&[RATE], table::OPTIONS, output::OPTIONS],
    run: look_up,
};

pub const SECONDS: Command = Command {
    name: "seconds",
    usage: "--rate R --buffer B --start F",
    says: "wait and fill time of a bucket",
    more: "Wait is start/rate, fill is buffer/rate, each rounded once.",
    example: "kashuloden seconds --rate 300000 --buffer 80112 --start 31712",
    operand: None,
    options: &[&[RATE, BUFFER, START], output::OPTIONS],
    run: seconds,
};

pub const PANEL: Command = Command {
    name: "panel",
    usage: "--rate R --buffer B --start F --limit S",
    says: "whether the wait is within the driver's limit",
    more: "A wait equal to the limit is within.",
    example: "kashuloden panel --rate 300000 --buffer 80112 --start 31712 --limit 0.5",
    operand: None,
    options: &[&[RATE, BUFFER, START, LIMIT], output::OPTIONS],
    run: panel,
};

const LIMIT: Known = takes("--limit", "S", "the driver's limit in seconds");

fn look_up(options: &Options) -> Result<Output, Fault> {
    let rate = options.needed("--rate", RATE_WORDS)?;
    let bucket = Table::read(options)?.look_up(rate)?;
    if bucket.buffer > BUCKET_MAX {
        eprintln!("note: no bucket that is judged has more than {BUCKET_MAX} bits");
    }
    Ok(Output::one(bucket_entries(rate, bucket)))
}

fn seconds(options: &Options) -> Result<Output, Fault> {
    let (rate, bucket) = asked_bucket(options)?;
    let asked = Asked {
        rate: Some(rate),
        bucket: Some(bucket),
        ..Asked::default()
    };
    planner::seconds(rate, bucket).map_err(|refused| asked.fault(refused))?;
    Ok(Output::one(bucket_entries(rate, bucket)))
}

fn panel(options: &Options) -> Result<Output, Fault> {
    let (rate, bucket) = asked_bucket(options)?;
    let wrong = |words: String| Fault::wrong_call(format!("--limit {words}"));
    let text = options
        .text("--limit")?
        .ok_or_else(|| wrong("is missing: seconds".to_string()))?;
    let limit = text
        .parse()
        .map_err(|_| wrong(format!("{text:?}: a number of seconds is expected")))?;
    let asked = Asked {
        rate: Some(rate),
        bucket: Some(bucket),
        limit: Some(limit),
        ..Asked::default()
    };
    let reading = planner::panel(rate, bucket, limit).map_err(|refused| asked.fault(refused))?;
    let (words, wait) = match reading {
        Reading::Within(wait) => ("within", wait),
        Reading::Over(wait, _) => ("over", wait),
    };
    Ok(Output::one(vec![
        entry("reading", "", words),
        entry("wait", "s", wait),
        entry("limit", "s", limit),
    ]))
}
