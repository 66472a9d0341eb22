//! The commands, a file for each subject: what it is called, what it takes, what it answers.

mod buckets;
mod curve;
mod fill;
mod hrd;
mod judge;
mod least;
mod schedule;
mod sheets;

use crate::derived::{self, Summary};
use crate::fault::Fault;
use crate::notes;
use crate::options::{takes, Known, Options};
use crate::output::{entry, Entry, Output};
use crate::recording::Recording;
use crate::refusal::Asked;
use planner::{Bucket, Verdict};

pub struct Command {
    /// One word, or two.
    pub name: &'static str,
    /// What stands behind it in its own usage.
    pub usage: &'static str,
    /// What it is for, in the list of commands.
    pub says: &'static str,
    /// What more its help has to say.
    pub more: &'static str,
    /// Called in the folder of the sources.
    pub example: &'static str,
    /// The file that it takes, if it takes one.
    pub operand: Option<&'static str>,
    pub options: &'static [&'static [Known]],
    pub run: fn(&Options) -> Result<Output, Fault>,
}

pub const COMMANDS: &[&Command] = &[
    &least::PLAN,
    &least::LEAST,
    &buckets::LOOKUP,
    &schedule::VERDICT,
    &schedule::SCHEDULE,
    &fill::FILL,
    &curve::CURVE,
    &buckets::SECONDS,
    &buckets::PANEL,
    &judge::JUDGE,
    &hrd::READ,
    &hrd::WRITE,
    &sheets::MAKE,
    &sheets::SHOW,
    &sheets::TEXT,
];

const RATE_WORDS: &str = "a rate in bits per second";
const BUFFER_WORDS: &str = "a buffer in bits";
const START_WORDS: &str = "a start fullness in bits";

const RATE: Known = takes("--rate", "R", "rate in bits per second");
const BUFFER: Known = takes("--buffer", "B", "buffer in bits");
const START: Known = takes("--start", "F", "start fullness in bits, at most the buffer");

/// A bucket at its rate, with its seconds; without them where it is past the library's limit, as one
/// looked up below the first row may be.
fn bucket_entries(rate: u64, bucket: Bucket) -> Vec<Entry> {
    let seconds = planner::seconds(rate, bucket).ok();
    vec![
        entry("rate", "bit/s", rate),
        entry("buffer", "bits", bucket.buffer),
        entry("start", "bits", bucket.fullness),
        entry("wait", "s", seconds.map(|seconds| seconds.wait)),
        entry("fill", "s", seconds.map(|seconds| seconds.fill)),
    ]
}

/// Rate, buffer and start that were asked for.
fn asked_bucket(options: &Options) -> Result<(u64, Bucket), Fault> {
    let rate = options.needed("--rate", RATE_WORDS)?;
    let buffer = options.needed("--buffer", BUFFER_WORDS)?;
    let fullness = options.needed("--start", START_WORDS)?;
    Ok((rate, Bucket { buffer, fullness }))
}

/// The same, or else those that the recording declares.
fn bucket_of(options: &Options, rec: &Recording) -> Result<(u64, Bucket), Fault> {
    let names = ["--rate", "--buffer", "--start"];
    let Some(declared) = rec
        .bucket
        .filter(|_| !names.iter().any(|name| options.has(name)))
    else {
        return asked_bucket(options);
    };
    if declared.constant {
        eprintln!(
            "note: the recording's bucket has a constant rate; it is judged at a variable one"
        );
    }
    let bucket = Bucket {
        buffer: declared.buffer,
        fullness: declared.fullness,
    };
    Ok((declared.rate, bucket))
}

/// Says on standard error what a recording is that the library has not refused.
fn introduce(rec: &Recording, rates: &[u64]) {
    let summary = Summary::of(rec);
    eprintln!("{}", notes::about(&summary));
    for note in notes::notes(rec, &summary, rates) {
        eprintln!("{note}");
    }
}

/// Judges a recording alone, so that it can be spoken of.
fn judged(rec: &Recording) -> Result<(), Fault> {
    let asked = Asked {
        rec: Some(rec),
        ..Asked::default()
    };
    planner::judge(&rec.lent()).map_err(|refused| asked.fault(refused))
}

/// The verdict, and by how much the first late picture is late.
fn verdict_entries(rec: &Recording, rate: u64, verdict: Verdict) -> Vec<Entry> {
    let (words, picture, units) = match verdict {
        Verdict::Holds => ("holds", None, None),
        Verdict::Late { picture, units } => ("late", Some(rec.number(picture)), Some(units)),
    };
    vec![
        entry("verdict", "", words),
        entry("late_picture", "", picture),
        entry("late_units", "", units),
        entry(
            "late",
            "s",
            units.map(|units| derived::seconds(rec, rate, units)),
        ),
    ]
}
