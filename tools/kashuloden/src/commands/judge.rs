//! A recording alone.

use super::{judged, Command};
use crate::derived::Summary;
use crate::fault::Fault;
use crate::notes::notes;
use crate::options::Options;
use crate::output::{self, entry, Output};
use crate::recording::{self, Recording};

pub const JUDGE: Command = Command {
    name: "judge",
    usage: "RECORDING",
    says: "whether a recording can be planned, and what it is",
    more: "Its figures are worked out here: the duration is from the first removal to the last, the mean rate\n\
           all bits over the duration.",
    example: "kashuloden judge tests/data/recordings/a01_test25.txt",
    operand: Some("recording"),
    options: &[recording::OPTIONS, output::OPTIONS],
    run: judge,
};

fn judge(options: &Options) -> Result<Output, Fault> {
    let rec = Recording::read(options)?;
    judged(&rec)?;
    let summary = Summary::of(&rec);
    for note in notes(&rec, &summary, &[]) {
        eprintln!("{note}");
    }
    Ok(Output::one(vec![
        entry("pictures", "", summary.pictures),
        entry("ts", "", rec.ts),
        entry("nu", "", rec.nu),
        entry("span", "ticks", rec.span()),
        entry("duration", "s", summary.duration),
        entry("pictures_a_second", "1/s", summary.pictures_a_second),
        entry("bits", "bits", summary.bits),
        entry("mean_rate", "bit/s", summary.mean_rate),
        entry("largest", "bits", summary.largest),
    ]))
}
