//! Makes a sheet of the text on standard input, or shows the sheet there as text.

use sheet::{make, show, Fault};
use std::error::Error;
use std::ffi::OsString;
use std::io::{stdin, stdout, Read, Write};
use std::process::ExitCode;

const USAGE: &str = "usage: sheet make < TEXT > SHEET, or sheet show < SHEET > TEXT";

fn main() -> ExitCode {
    let words: Vec<OsString> = std::env::args_os().skip(1).collect();
    let outcome = if words == ["make"] {
        pass_through(make)
    } else if words == ["show"] {
        pass_through(|sheet| show(sheet).map(String::into_bytes))
    } else {
        eprintln!("{USAGE}");
        return ExitCode::from(2);
    };
    match outcome {
        Ok(()) => ExitCode::SUCCESS,
        Err(fault) => {
            eprintln!("sheet: {fault}");
            ExitCode::FAILURE
        }
    }
}

fn pass_through(turn: fn(&[u8]) -> Result<Vec<u8>, Fault>) -> Result<(), Box<dyn Error>> {
    let mut input = Vec::new();
    stdin().read_to_end(&mut input)?;
    let output = turn(&input)?;
    stdout().write_all(&output)?;
    Ok(stdout().flush()?)
}
