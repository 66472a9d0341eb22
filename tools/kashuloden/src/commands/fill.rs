//! What the buffer holds over time: worked out here, from the library's schedule.

use super::schedule::Scheduled;
use super::{Command, BUFFER, RATE, START};
use crate::derived::{contents, Content};
use crate::fault::Fault;
use crate::options::Options;
use crate::output::{self, entry, exact, Output};
use crate::recording;

pub const FILL: Command = Command {
    name: "fill",
    usage: "RECORDING --rate R --buffer B --start F",
    says: "what the buffer holds before and after every removal",
    more: "Worked out from the library's schedule. For programs also exact: the content in parts, of which a\n\
           bit has TS, and removals in units of 1/(R x TS) second. A content below 0 are the bits of a late\n\
           picture that are yet to come. Without the three options the bucket is the one that the recording's\n\
           text declares. scripts/plot fill draws it.",
    example: "kashuloden fill examples/recording_d.txt --rate 1000 --buffer 5000 --start 5000",
    operand: Some("recording"),
    options: &[&[RATE, BUFFER, START], recording::OPTIONS, output::OPTIONS],
    run: fill,
};

fn fill(options: &Options) -> Result<Output, Fault> {
    let scheduled = Scheduled::read(options)?;
    let Scheduled {
        rec,
        rate,
        starts,
        ends,
        ..
    } = &scheduled;
    let contents = contents(rec, *rate, scheduled.bucket.fullness, starts, ends);
    let bits = |parts: i128| parts as f64 / rec.ts as f64;
    Ok(scheduled.answer(|picture| {
        let removal = scheduled.removal(picture);
        let Content { before, after } = contents[picture];
        vec![
            entry("removal", "s", scheduled.seconds(removal)),
            entry("before", "bits", bits(before)),
            entry("after", "bits", bits(after)),
            exact("removal_units", removal),
            exact("before_parts", before),
            exact("after_parts", after),
        ]
    }))
}
