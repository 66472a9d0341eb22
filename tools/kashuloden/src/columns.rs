//! A recording as CSV: a header that names its columns, then a line for each picture.

use crate::fault::Fault;
use crate::input::{Fields, Line, Lines};
use crate::options::{whole, Options};
use crate::recording::Recording;

/// Of each pair one column is there: bits or bytes; ticks of `--clock`, or decode times in units of
/// `--time-base`. Any other column is passed over.
const SIZES: [&str; 2] = ["size", "size_bytes"];
const TIMES: [&str; 2] = ["tick", "decode_time"];

/// Whether the first line that says something names a column.
pub fn is_csv(lines: &Lines) -> bool {
    let Some(header) = lines.said.first() else {
        return false;
    };
    let fields = Fields::of_header(header.text).of(header.text);
    fields
        .iter()
        .any(|name| SIZES.contains(name) || TIMES.contains(name))
}

pub fn read(lines: &Lines, options: &Options) -> Result<Recording, Fault> {
    let [header, pictures @ ..] = lines.said.as_slice() else {
        unreachable!("a CSV has a header");
    };
    let table =
        Table::of_header(header).map_err(|words| lines.input.fault_at(header.number, &words))?;
    let mut rec = Recording::default();
    for line in pictures {
        let read = table.read_picture(line, &mut rec);
        read.map_err(|words| lines.input.fault_at(line.number, &words))?;
        rec.lines.push(line.number);
    }
    if rec.sizes.is_empty() {
        return Err(lines
            .input
            .fault(lines.end, "the text ends", "a picture's line"));
    }
    table.set_clock(&mut rec, options)?;
    Ok(rec)
}

struct Table {
    fields: Fields,
    columns: usize,
    size: usize,
    in_bytes: bool,
    time: usize,
    decoded: bool,
}

impl Table {
    fn of_header(header: &Line) -> Result<Table, String> {
        let fields = Fields::of_header(header.text);
        let names = fields.of(header.text);
        let (size, in_bytes) = one_of(&names, SIZES)?;
        let (time, decoded) = one_of(&names, TIMES)?;
        Ok(Table {
            fields,
            columns: names.len(),
            size,
            in_bytes,
            time,
            decoded,
        })
    }

    fn read_picture(&self, line: &Line, rec: &mut Recording) -> Result<(), String> {
        let fields = self.fields.of(line.text);
        if fields.len() != self.columns {
            return Err(format!(
                "{} columns; {} as in the header are expected",
                fields.len(),
                self.columns
            ));
        }
        rec.sizes.push(self.bits(fields[self.size])?);
        if self.decoded {
            rec.times.push(time(fields[self.time])?);
        } else {
            rec.ticks.push(whole(fields[self.time], "a tick")?);
        }
        Ok(())
    }

    fn bits(&self, word: &str) -> Result<u64, String> {
        if !self.in_bytes {
            return whole(word, "a size in bits");
        }
        let bytes = whole(word, "a size in bytes")?;
        let bits = bytes.checked_mul(8);
        bits.ok_or_else(|| format!("{bytes} bytes are past 64 bits; a size in bytes is expected"))
    }

    fn set_clock(&self, rec: &mut Recording, options: &Options) -> Result<(), Fault> {
        let clock = options.pair("--clock", ',', "TS,NU in whole numbers")?;
        let base = options.pair("--time-base", '/', "N/D in whole numbers")?;
        let column = TIMES[usize::from(self.decoded)];
        let wrong = |words: &str| Err(Fault::wrong_call(format!("the column {column} {words}")));
        match (self.decoded, clock, base) {
            (false, Some((ts, nu)), None) => {
                (rec.ts, rec.nu) = (ts, nu);
                Ok(())
            }
            (false, None, None) => wrong("needs --clock TS,NU: a tick lasts NU/TS seconds"),
            (false, _, Some(_)) => wrong("has ticks, whose clock is --clock and no --time-base"),
            (true, None, Some((n, d))) => ticks_of_times(rec, n, d),
            (true, None, None) => wrong("needs --time-base N/D: its unit is N/D seconds"),
            (true, Some(_), _) => wrong("has times, whose unit is --time-base and no --clock"),
        }
    }
}

/// Where one of two columns stands, and whether it is the second.
fn one_of(names: &[&str], pair: [&str; 2]) -> Result<(usize, bool), String> {
    let places: Vec<usize> = (0..names.len())
        .filter(|&place| pair.contains(&names[place]))
        .collect();
    match places[..] {
        [place] => Ok((place, names[place] == pair[1])),
        [] => Err(format!(
            "no column {0} or {1}; one of them is expected",
            pair[0], pair[1]
        )),
        [first, second, ..] => Err(format!(
            "the columns {} and {}; one of {} and {}, once, is expected",
            names[first], names[second], pair[0], pair[1]
        )),
    }
}

/// A decode time may lie before 0.
fn time(word: &str) -> Result<i64, String> {
    let expected = "a decode time in whole units of the time base";
    let digits = word.strip_prefix('-').unwrap_or(word);
    whole(digits, expected)?;
    let past = |_| format!("{word:?} is past 64 bits; {expected} is expected");
    word.parse().map_err(past)
}

/// Ticks from the least time on, in the largest unit that every time is a whole number of; that unit,
/// in lowest terms, is the clock. No time moves by it.
fn ticks_of_times(rec: &mut Recording, n: u64, d: u64) -> Result<(), Fault> {
    if n == 0 || d == 0 {
        return Err(Fault::wrong_call(format!(
            "--time-base {n}/{d}: a unit above 0 seconds is expected"
        )));
    }
    let least = rec.times.iter().copied().min().unwrap_or(0);
    let from_least = |&time: &i64| time.abs_diff(least);
    let step = rec.times.iter().map(from_least).fold(0, common).max(1);
    rec.ticks = rec
        .times
        .iter()
        .map(|time| from_least(time) / step)
        .collect();
    let across = common(step, d);
    let whole_base = common(n, d / across);
    let nu = u128::from(step / across) * u128::from(n / whole_base);
    rec.nu = u64::try_from(nu).unwrap_or(u64::MAX);
    rec.ts = d / across / whole_base;
    Ok(())
}

/// The largest number that divides both; of 0 and another, the other.
fn common(a: u64, b: u64) -> u64 {
    match b {
        0 => a,
        b => common(b, a % b),
    }
}
