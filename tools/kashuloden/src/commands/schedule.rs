//! A bucket with its recording: whether it holds it, and when every picture arrives.

use super::{bucket_entries, bucket_of, introduce, verdict_entries, Command, BUFFER, RATE, START};
use crate::derived;
use crate::fault::Fault;
use crate::options::Options;
use crate::output::{self, entry, exact, Entry, Output};
use crate::recording::{self, Recording};
use crate::refusal::Asked;
use planner::{Bucket, Verdict};

pub const VERDICT: Command = Command {
    name: "verdict",
    usage: "RECORDING --rate R --buffer B --start F",
    says: "whether a bucket holds a recording",
    more: "Holds, or late: the first late picture, counted from 0, and by how many units of 1/(R x TS) second.\n\
           A late picture is an answer, and the status is 0. Without the three options the bucket is the one\n\
           that the recording's text declares.",
    example: "kashuloden verdict examples/recording_d.txt --rate 1000 --buffer 4999 --start 4999",
    operand: Some("recording"),
    options: &[&[RATE, BUFFER, START], recording::OPTIONS, output::OPTIONS],
    run: verdict,
};

pub const SCHEDULE: Command = Command {
    name: "schedule",
    usage: "RECORDING --rate R --buffer B --start F",
    says: "when every picture arrives and is removed",
    more: "The first bit arrives at 0. For programs the times are also in whole units of 1/(R x TS) second;\n\
           arrivals are the library's, removals are worked out from the ticks. Without the three options the\n\
           bucket is the one that the recording's text declares.",
    example: "kashuloden schedule examples/recording_d.txt --rate 1000 --buffer 10000 --start 10000",
    operand: Some("recording"),
    options: &[&[RATE, BUFFER, START], recording::OPTIONS, output::OPTIONS],
    run: schedule,
};

fn verdict(options: &Options) -> Result<Output, Fault> {
    let rec = Recording::read(options)?;
    let (rate, bucket) = bucket_of(options, &rec)?;
    let asked = asked(&rec, rate, bucket);
    let verdict =
        planner::verdict(&rec.lent(), rate, bucket).map_err(|refused| asked.fault(refused))?;
    introduce(&rec, &[rate]);
    let mut entries = verdict_entries(&rec, rate, verdict);
    entries.extend(bucket_entries(rate, bucket));
    Ok(Output::one(entries))
}

fn asked(rec: &Recording, rate: u64, bucket: Bucket) -> Asked<'_> {
    Asked {
        rec: Some(rec),
        rate: Some(rate),
        bucket: Some(bucket),
        ..Asked::default()
    }
}

/// A recording at a rate with a bucket, and the library's schedule of it.
pub struct Scheduled {
    pub rec: Recording,
    pub rate: u64,
    pub bucket: Bucket,
    pub verdict: Verdict,
    pub starts: Vec<u64>,
    pub ends: Vec<u64>,
}

impl Scheduled {
    pub fn read(options: &Options) -> Result<Scheduled, Fault> {
        let rec = Recording::read(options)?;
        let (rate, bucket) = bucket_of(options, &rec)?;
        let count = rec.sizes.len();
        let (mut starts, mut ends) = (vec![0; count], vec![0; count]);
        let verdict = planner::schedule(&rec.lent(), rate, bucket, 0, &mut starts, &mut ends)
            .map_err(|refused| asked(&rec, rate, bucket).fault(refused))?;
        introduce(&rec, &[rate]);
        Ok(Scheduled {
            rec,
            rate,
            bucket,
            verdict,
            starts,
            ends,
        })
    }

    /// When a picture is removed, in units.
    pub fn removal(&self, picture: usize) -> u64 {
        derived::removal(&self.rec, self.rate, self.bucket.fullness, picture)
    }

    pub fn seconds(&self, units: u64) -> f64 {
        derived::seconds(&self.rec, self.rate, units)
    }

    /// A row for each picture: its number, size and tick, and what is said of it.
    pub fn answer(&self, said: impl Fn(usize) -> Vec<Entry>) -> Output {
        let row = |picture: usize| {
            let mut row = vec![
                entry("picture", "", self.rec.number(picture as u64)),
                entry("size", "bits", self.rec.sizes[picture]),
                entry("tick", "", self.rec.ticks[picture]),
            ];
            row.extend(said(picture));
            row
        };
        let mut all = verdict_entries(&self.rec, self.rate, self.verdict);
        all.extend(bucket_entries(self.rate, self.bucket));
        all.push(entry("ts", "", self.rec.ts));
        Output::rows((0..self.rec.sizes.len()).map(row).collect(), all)
    }
}

fn schedule(options: &Options) -> Result<Output, Fault> {
    let scheduled = Scheduled::read(options)?;
    Ok(scheduled.answer(|picture| {
        let (start, end) = (scheduled.starts[picture], scheduled.ends[picture]);
        let removal = scheduled.removal(picture);
        vec![
            entry("arrival_start", "s", scheduled.seconds(start)),
            entry("arrival_end", "s", scheduled.seconds(end)),
            entry("removal", "s", scheduled.seconds(removal)),
            exact("arrival_start_units", start),
            exact("arrival_end_units", end),
            exact("removal_units", removal),
        ]
    }))
}
