//! Sheets made and shown.

use super::Command;
use crate::fault::Fault;
use crate::input::Input;
use crate::options::{takes, Known, Options};
use crate::output::{Output, OUT};
use crate::recording::{self, Recording};
use crate::refusal::Asked;
use crate::{sheet, text};
use planner::limits::{ROWS_MAX, SHEET_PICTURES_MAX, TEXT_MAX};
use planner::{Printed, Refused};

pub const MAKE: Command = Command {
    name: "sheet make",
    usage: "RECORDING [--rates R,R,..]",
    says: "the sheet of a recording and rates",
    more: "The sheet is what the proved program reads: scripts/plan SHEET. Whether its figures are in range\n\
           and rise is for that program to say; here they have to fit words of 32 bits.",
    example: "kashuloden sheet make examples/recording_d.txt >build/d.sheet",
    operand: Some("recording"),
    options: &[&[RATES], recording::OPTIONS, &[OUT]],
    run: make,
};

pub const SHOW: Command = Command {
    name: "sheet show",
    usage: "SHEET",
    says: "a sheet as the text that it is made of",
    more: "The text that sheet make takes. A sheet with figures that are refused is shown too, with a note.",
    example: "kashuloden sheet show examples/recording_d.sheet",
    operand: Some("sheet"),
    options: &[&[OUT]],
    run: show,
};

pub const TEXT: Command = Command {
    name: "sheet text",
    usage: "SHEET",
    says: "the table of a sheet, to the byte as the proved program prints it",
    more: "Where that program prints the line of a refusal, the refusal is said in words.",
    example: "kashuloden sheet text examples/recording_d.sheet",
    operand: Some("sheet"),
    options: &[&[OUT]],
    run: table,
};

const RATES: Known = takes(
    "--rates",
    "R,R,..",
    "rates in bits per second, where the recording has none",
);

fn make(options: &Options) -> Result<Output, Fault> {
    let rec = Recording::read(options)?;
    let rates = rec.rates_asked(options)?;
    sheet::write(&rec, &rates).map(Output::Bytes)
}

fn show(options: &Options) -> Result<Output, Fault> {
    let input = Input::read(options.operand.as_deref(), "sheet")?;
    let rec = sheet::read(&input.name, &input.bytes)?;
    let (mut sizes, mut ticks) = ([0; SHEET_PICTURES_MAX], [0; SHEET_PICTURES_MAX]);
    let opened = planner::open_sheet(&input.bytes, &mut sizes, &mut ticks, &mut [0; ROWS_MAX]);
    if let Err(refused) = opened {
        eprintln!("note: {}", refusal_of(&rec, refused).words);
    }
    Ok(Output::Bytes(text::write(&rec).into_bytes()))
}

fn table(options: &Options) -> Result<Output, Fault> {
    let input = Input::read(options.operand.as_deref(), "sheet")?;
    let rec = sheet::read(&input.name, &input.bytes)?;
    let mut text = vec![0; TEXT_MAX];
    let printed = planner::sheet_text(&input.bytes, &mut text);
    match printed.map_err(|refused| refusal_of(&rec, refused))? {
        Printed::Table(length) => {
            text.truncate(length);
            Ok(Output::Bytes(text))
        }
        Printed::Line(_, refused) => Err(refusal_of(&rec, refused)),
    }
}

fn refusal_of(rec: &Recording, refused: Refused) -> Fault {
    Asked {
        rec: Some(rec),
        rates: rec.rates.as_ref(),
        ..Asked::default()
    }
    .fault(refused)
}
