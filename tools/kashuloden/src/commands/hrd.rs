//! Parameter records: read, with what their rows come to, and written.

use super::{introduce, judged, Command, START, START_WORDS};
use crate::fault::Fault;
use crate::input::Input;
use crate::options::{takes, Known, Options};
use crate::output::{self, entry, Answer, Entry, Output, OUT};
use crate::record;
use crate::recording::{self, Recording};
use crate::refusal::Asked;
use planner::limits::BYTES_MAX;
use planner::{refusals, Bucket, Params, Refused, Row, Verdict};

pub const READ: Command = Command {
    name: "hrd",
    usage: "FILE --at BIT [--recording REC --start F]",
    says: "a parameter record (H.264 Annex E) read, and its verdict on a recording",
    more: "The record starts at a bit of the file, counted from 0, the highest bit of each byte first. The bytes\n\
           have to be without emulation prevention. Each row has its rate and its size in bits and, with a\n\
           recording and a start fullness, its verdict: holds; late, with the first late picture and the units\n\
           of 1/(R x TS) second; or the number of its refusal. The text is the one that hrd --write takes.",
    example: "kashuloden hrd --write examples/params.txt | kashuloden hrd --at 0",
    operand: Some("file with a record"),
    options: &[&[AT, RECORDING, START, ROW], recording::OPTIONS, output::OPTIONS],
    run: read,
};

pub const WRITE: Command = Command {
    name: "hrd --write",
    usage: "FIELDS [--at BIT] [--into FILE]",
    says: "a parameter record written",
    more: "FIELDS is a text: a line for each field, its name and its value; and a line row for each row, with\n\
           bit_rate_value_minus1, cpb_size_value_minus1 and cbr_flag. Every value is as coded. The record's own\n\
           bits are written into the bytes of FILE, which itself stays as it is, or into as few zero bytes as\n\
           will do; these bytes are the output.",
    example: "kashuloden hrd --write examples/params.txt --out build/params.bin",
    operand: Some("text of fields"),
    options: &[&[TO_BIT, INTO, OUT]],
    run: write,
};

const AT: Known = takes("--at", "BIT", "where the record starts");
const TO_BIT: Known = takes("--at", "BIT", "where the record is to start, for bit 0");
const INTO: Known = takes("--into", "FILE", "the bytes to write into");
const RECORDING: Known = takes("--recording", "REC", "judge every row with this recording");
const ROW: Known = takes("--row", "N", "judge this row alone, counted from 0");

const AT_WORDS: &str = "a bit, counted from 0,";

fn read(options: &Options) -> Result<Output, Fault> {
    let at = options.needed("--at", AT_WORDS)?;
    let input = Input::read_front(
        options.operand.as_deref(),
        "file with a record",
        BYTES_MAX as u64,
    )?;
    let (params, next) = planner::read_params(&input.bytes, at).map_err(|refused| {
        let ends = format!(
            "0: {} bits, which end before the record at bit {at} does",
            8 * input.bytes.len()
        );
        bits_fault(refused, &ends)
    })?;
    if input.bytes.windows(3).any(|bytes| bytes == [0, 0, 3]) {
        eprintln!(
            "note: {} has bytes 00 00 03, as a NAL unit has that is sent: take such a 03 out first",
            input.name
        );
    }
    let rows = (0..params.cpb_cnt).map(|row| planner::params_row(&params, row));
    let rows: Result<Vec<Row>, Refused> = rows.collect();
    let rows = rows.map_err(|refused| bits_fault(refused, ""))?;
    let verdicts = verdicts(options, &params, &rows)?;
    Ok(Output::Answer(Answer {
        text: Some(text(&params, &rows, &verdicts, at, next)),
        ..entries(&params, &rows, &verdicts, at, next)
    }))
}

/// A refusal of a record's bits; `ends` is what is to be said where these do.
fn bits_fault(refused: Refused, ends: &str) -> Fault {
    let words = match refused.number {
        refusals::FIELD => {
            let place = match refused.place {
                0 => "0 (row 0, or a field outside the rows)".to_string(),
                row => format!("row {row}"),
            };
            format!(
                "{place}: {}",
                refusals::meaning(refused.number).unwrap_or_default()
            )
        }
        _ => ends.to_string(),
    };
    Asked {
        record: Some(words),
        ..Asked::default()
    }
    .fault(refused)
}

/// What a row comes to with a recording.
enum Judged {
    Not,
    Verdict(Verdict),
    Refused(Refused),
}

/// What every row comes to, or the one that is asked for.
fn verdicts(options: &Options, params: &Params, rows: &[Row]) -> Result<Vec<Judged>, Fault> {
    let Some(name) = options.value("--recording") else {
        return match ["--start", "--row"].iter().find(|name| options.has(name)) {
            Some(name) => Err(Fault::wrong_call(format!("{name} goes with --recording"))),
            None => Ok(rows.iter().map(|_| Judged::Not).collect()),
        };
    };
    let fullness = options.needed("--start", START_WORDS)?;
    let row = options.whole("--row", "a row, counted from 0,")?;
    let rec = Recording::read_named(name, options)?;
    judged(&rec)?;
    let rates: Vec<u64> = rows.iter().map(|row| row.rate).collect();
    introduce(&rec, &rates);
    let verdict = |row: usize| {
        planner::row_verdict(&rec.lent(), params, row, fullness)
            .map(|verdict| counted_from(&rec, verdict))
    };
    let Some(asked) = row else {
        let all =
            (0..rows.len()).map(|row| verdict(row).map_or_else(Judged::Refused, Judged::Verdict));
        return Ok(all.collect());
    };
    let only = usize::try_from(asked).unwrap_or(usize::MAX);
    let found = verdict(only).map_err(|refused| row_fault(refused, rows, only, fullness))?;
    let mut all: Vec<Judged> = rows.iter().map(|_| Judged::Not).collect();
    all[only] = Judged::Verdict(found);
    Ok(all)
}

/// The late picture by its number in the recording that was read.
fn counted_from(rec: &Recording, verdict: Verdict) -> Verdict {
    match verdict {
        Verdict::Holds => Verdict::Holds,
        Verdict::Late { picture, units } => Verdict::Late {
            picture: rec.number(picture),
            units,
        },
    }
}

fn row_fault(refused: Refused, rows: &[Row], row: usize, fullness: u64) -> Fault {
    let Some(figures) = rows.get(row) else {
        let words = format!(
            "0: no row {row}: the record has {} rows, counted from 0",
            rows.len()
        );
        return Asked {
            record: Some(words),
            ..Asked::default()
        }
        .fault(refused);
    };
    Asked {
        rate: Some(figures.rate),
        bucket: Some(Bucket {
            buffer: figures.size,
            fullness,
        }),
        record: Some(format!("row {row}: its cbr_flag is 1")),
        ..Asked::default()
    }
    .fault(refused)
}

/// The text that `hrd --write` takes, with what the rows come to as comments.
fn text(params: &Params, rows: &[Row], verdicts: &[Judged], at: u64, next: u64) -> String {
    let fields = record::fields(params).map(|(name, value)| format!("{name} {value}\n"));
    let mut text = format!("# {} bits from bit {at} on; next bit {next}\n", next - at);
    text += &fields[..record::FIELDS_BEFORE_ROWS].concat();
    for (k, (row, judged)) in rows.iter().zip(verdicts).enumerate() {
        let [rate, size, flag] = record::row(params, k);
        let kind = if flag == 0 { "variable" } else { "constant" };
        let verdict = match judged {
            Judged::Not => String::new(),
            Judged::Verdict(Verdict::Holds) => "; holds".to_string(),
            Judged::Verdict(Verdict::Late { picture, units }) => {
                format!("; late: picture {picture} by {units} units")
            }
            Judged::Refused(refused) => format!("; {refused}"),
        };
        text += &format!(
            "row {rate} {size} {flag}  # row {k}: {} bit/s, {} bits, {kind}{verdict}\n",
            row.rate, row.size
        );
    }
    text + &fields[record::FIELDS_BEFORE_ROWS..].concat()
}

/// The same for programs: the rows, and the other fields for all of them.
fn entries(params: &Params, rows: &[Row], verdicts: &[Judged], at: u64, next: u64) -> Answer {
    let rows = rows
        .iter()
        .zip(verdicts)
        .enumerate()
        .map(|(k, (row, judged))| {
            let [rate, size, flag] = record::row(params, k);
            let mut entries = vec![
                entry("row", "", k as u64),
                entry("bit_rate_value_minus1", "", rate),
                entry("cpb_size_value_minus1", "", size),
                entry("cbr_flag", "", flag),
                entry("rate", "bit/s", row.rate),
                entry("size", "bits", row.size),
            ];
            entries.extend(verdict_entries(judged));
            entries
        });
    let mut all = vec![entry("at", "", at), entry("next", "", next)];
    all.extend(record::fields(params).map(|(name, value)| entry(name, "", value)));
    Answer {
        rows: rows.collect(),
        all,
        text: None,
    }
}

fn verdict_entries(judged: &Judged) -> [Entry; 4] {
    let (words, picture, units, number) = match judged {
        Judged::Not => (None, None, None, None),
        Judged::Verdict(Verdict::Holds) => (Some("holds"), None, None, None),
        Judged::Verdict(Verdict::Late { picture, units }) => {
            (Some("late"), Some(*picture), Some(*units), None)
        }
        Judged::Refused(refused) => (Some("refused"), None, None, Some(u64::from(refused.number))),
    };
    [
        entry("verdict", "", words),
        entry("late_picture", "", picture),
        entry("late_units", "", units),
        entry("refused", "", number),
    ]
}

fn write(options: &Options) -> Result<Output, Fault> {
    let at = options.whole("--at", AT_WORDS)?.unwrap_or(0);
    let params = record::read(&Input::read(options.operand.as_deref(), "text of fields")?)?;
    planner::judge_params(&params).map_err(|refused| bits_fault(refused, ""))?;
    let bits = planner::params_length(&params).map_err(|refused| bits_fault(refused, ""))?;
    let mut bytes = match options.value("--into") {
        Some(name) => Input::read_whole(Some(name), "file to write into", BYTES_MAX as u64)?.bytes,
        None => vec![0; at.saturating_add(bits).div_ceil(8).min(BYTES_MAX as u64) as usize],
    };
    let next = planner::write_params(&params, &mut bytes, at).map_err(|refused| {
        let ends = format!(
            "0: {bits} bits from bit {at} on, and there are {}",
            8 * bytes.len()
        );
        bits_fault(refused, &ends)
    })?;
    eprintln!("record: {bits} bits from bit {at} on; next bit {next}");
    Ok(Output::Bytes(bytes))
}
