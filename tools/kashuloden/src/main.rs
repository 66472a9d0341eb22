//! Kashuloden, the command: what the proved library has to say of a recording, its buckets, its tables
//! and its parameter records. The program reads, calls and prints; every planning figure is the
//! library's.

mod columns;
mod commands;
mod derived;
mod fault;
mod files;
mod help;
mod input;
mod notes;
mod options;
mod output;
mod record;
mod recording;
mod refusal;
mod sheet;
mod table;
mod text;

use commands::{Command, COMMANDS};
use fault::Fault;
use options::Options;
use output::Form;
use std::ffi::OsString;
use std::process::ExitCode;

fn main() -> ExitCode {
    let words: Vec<OsString> = std::env::args_os().skip(1).collect();
    match run(&words) {
        Ok(()) => ExitCode::SUCCESS,
        Err(fault) => {
            eprintln!("{}", fault.words);
            ExitCode::from(fault.status)
        }
    }
}

fn run(words: &[OsString]) -> Result<(), Fault> {
    let Some(first) = words.first() else {
        return Err(Fault::wrong_call(help::commands()));
    };
    match first.to_str() {
        Some("--help" | "-h") => return print(&help::commands()),
        Some("--version") => return print(&help::version()),
        Some("--explain") => return explain(&words[1..]),
        _ => {}
    }
    let (command, words) = named(words)?;
    if words.iter().any(|word| word == "--help" || word == "-h") {
        return print(&help::of(command));
    }
    answer(command, words).map_err(|fault| match fault.status {
        2 => Fault::wrong_call(format!(
            "{}\nusage: kashuloden {} {} (--help says more)",
            fault.words, command.name, command.usage
        )),
        _ => fault,
    })
}

fn answer(command: &Command, words: &[OsString]) -> Result<(), Fault> {
    let options = Options::parse(words.iter().cloned(), command.options, command.operand)?;
    let form = Form::asked(&options)?;
    (command.run)(&options)?.write(form, &options)
}

/// The command that is asked for, and the words behind its name.
fn named(words: &[OsString]) -> Result<(&'static Command, &[OsString]), Fault> {
    let begins = |command: &Command| {
        let name: Vec<&str> = command.name.split(' ').collect();
        words.len() >= name.len() && name.iter().zip(words).all(|(name, word)| word == name)
    };
    let longest = |command: &&&Command| command.name.len();
    match COMMANDS
        .iter()
        .filter(|command| begins(command))
        .max_by_key(longest)
    {
        Some(command) => Ok((command, &words[command.name.split(' ').count()..])),
        None => {
            let names: Vec<&str> = COMMANDS.iter().map(|command| command.name).collect();
            Err(Fault::wrong_call(format!(
                "{:?} is no command; these are: {}",
                words[0],
                names.join(", ")
            )))
        }
    }
}

fn explain(words: &[OsString]) -> Result<(), Fault> {
    let wrong = || Fault::wrong_call("--explain takes the number of a refusal, from 1 on");
    let [number] = words else {
        return Err(wrong());
    };
    let number = number.to_str().and_then(|word| word.parse().ok());
    print(&number.and_then(refusal::explain).ok_or_else(wrong)?)
}

fn print(text: &str) -> Result<(), Fault> {
    files::print(text.as_bytes())
}
