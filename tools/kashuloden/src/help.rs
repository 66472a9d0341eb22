//! What the program says of itself.

use crate::commands::{Command, COMMANDS};
use crate::options::Known;

const RECORDING: &str = "\
A RECORDING is a file, or - or nothing for standard input, and one of
  a text  the line clock TS NU (a tick lasts NU/TS seconds), then, if they are wanted, rates R R ..,
          bucket R B F and verdict .., then a line SIZE TICK for each picture, in bits and ticks;
          # begins a comment
  a CSV   a header that names the columns size or size_bytes, and tick (with --clock TS,NU) or
          decode_time (with --time-base N/D); other columns are passed over
  a sheet as sheet make makes it
";

const STATUSES: &str = "\
Status: 0 answered; 1 refused; 2 a wrong command line; 3 a failed read or write.
";

pub fn version() -> String {
    format!("kashuloden {}\n", env!("CARGO_PKG_VERSION"))
}

/// The list of commands.
pub fn commands() -> String {
    let width = COMMANDS
        .iter()
        .map(|command| command.name.len())
        .max()
        .unwrap_or(0);
    let lines = COMMANDS
        .iter()
        .map(|command| format!("  {:width$}  {}\n", command.name, command.says));
    format!(
        "Buffer, start fullness and wait of a recorded video stream, by the buffering model of H.264. Every
planning figure is that of a proved library.

usage: kashuloden COMMAND ..
{}  --explain N  what refusal N means
  --version

kashuloden COMMAND --help says what a command takes. Every size is in bits, every rate in bits per
second.

{RECORDING}
{STATUSES}",
        lines.collect::<String>()
    )
}

/// The help of one command.
pub fn of(command: &Command) -> String {
    let options: Vec<&Known> = command.options.iter().copied().flatten().collect();
    let spelt = |option: &Known| match option.takes {
        Some(what) => format!("{} {what}", option.name),
        None => option.name.to_string(),
    };
    let width = options
        .iter()
        .map(|option| spelt(option).len())
        .max()
        .unwrap_or(0);
    let lines = options
        .iter()
        .map(|option| format!("  {:width$}  {}\n", spelt(option), option.says));
    let recording = if command.usage.contains("REC") {
        format!("\n{RECORDING}")
    } else {
        String::new()
    };
    format!(
        "usage: kashuloden {} {}\n{}{}\n{}\n\n{}{recording}\nExample:\n  {}\n\n{STATUSES}",
        command.name,
        command.usage,
        command.says[..1].to_uppercase(),
        &command.says[1..],
        command.more,
        lines.collect::<String>(),
        command.example
    )
}
