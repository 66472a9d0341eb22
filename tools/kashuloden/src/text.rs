//! A recording as text: the line `clock TS NU`, then perhaps `rates R R ..`, `bucket R B F` and
//! `verdict ..` in any order, then a line `size tick` for each picture.

use crate::fault::Fault;
use crate::input::{Line, Lines};
use crate::options::whole;
use crate::recording::{Declared, Rates, Recording};

const PICTURE: &str = "a picture's line, SIZE TICK in whole numbers,";

pub fn read(lines: &Lines) -> Result<Recording, Fault> {
    let mut reader = Reader::default();
    for line in &lines.said {
        let read = reader.read_line(line);
        read.map_err(|words| lines.input.fault_at(line.number, &words))?;
    }
    let missing = |expected| lines.input.fault(lines.end, "the text ends", expected);
    if !reader.has_clock {
        return Err(missing("the line clock TS NU"));
    }
    if reader.rec.sizes.is_empty() {
        return Err(missing(PICTURE.trim_end_matches(',')));
    }
    Ok(reader.rec)
}

/// What the lines so far have said.
#[derive(Default)]
struct Reader {
    rec: Recording,
    has_clock: bool,
    has_verdict: bool,
}

impl Reader {
    fn read_line(&mut self, line: &Line) -> Result<(), String> {
        match line.words().as_slice() {
            ["clock", words @ ..] => {
                self.once("clock", self.has_clock)?;
                [self.rec.ts, self.rec.nu] = numbers(words, "clock TS NU, two whole numbers,")?;
                self.has_clock = true;
                Ok(())
            }
            ["rates", words @ ..] => {
                self.once("rates", self.rec.rates.is_some())?;
                self.read_rates(words, line.number)
            }
            ["bucket", words @ ..] => {
                self.once("bucket", self.rec.bucket.is_some())?;
                self.read_bucket(words)
            }
            // What somebody said of the bucket; the planner says it anew.
            ["verdict", ..] => {
                self.once("verdict", self.has_verdict)?;
                self.has_verdict = true;
                Ok(())
            }
            [first, ..] if first.starts_with(|c: char| c.is_alphabetic() || c == '_') => Err(
                format!("{first:?}; clock, rates, bucket, verdict or {PICTURE} is expected"),
            ),
            words => self.read_picture(words, line.number),
        }
    }

    /// These lines stand once, and before the pictures.
    fn once(&self, name: &str, before: bool) -> Result<(), String> {
        if before {
            return Err(format!("{name} a second time; {PICTURE} is expected"));
        }
        if !self.rec.sizes.is_empty() {
            return Err(format!("{name} after a picture; {PICTURE} is expected"));
        }
        Ok(())
    }

    fn read_rates(&mut self, words: &[&str], line: usize) -> Result<(), String> {
        let rates = words
            .iter()
            .map(|word| whole(word, "a rate in bits per second"));
        self.rec.rates = Some(Rates {
            values: rates.collect::<Result<_, _>>()?,
            line: Some(line),
        });
        Ok(())
    }

    fn read_bucket(&mut self, words: &[&str]) -> Result<(), String> {
        let (words, constant) = match words {
            [words @ .., "cbr"] => (words, true),
            words => (words, false),
        };
        let [rate, buffer, fullness] = numbers(words, "bucket R B F, three whole numbers,")?;
        self.rec.bucket = Some(Declared {
            rate,
            buffer,
            fullness,
            constant,
        });
        Ok(())
    }

    fn read_picture(&mut self, words: &[&str], line: usize) -> Result<(), String> {
        let [size, tick] = numbers(words, PICTURE)?;
        if !self.has_clock {
            return Err("a picture before the clock; the line clock TS NU is expected".to_string());
        }
        self.rec.sizes.push(size);
        self.rec.ticks.push(tick);
        self.rec.lines.push(line);
        Ok(())
    }
}

/// So many whole numbers, and no other words.
fn numbers<const N: usize>(words: &[&str], expected: &str) -> Result<[u64; N], String> {
    let mut numbers = [0; N];
    for (number, word) in numbers.iter_mut().zip(words) {
        *number = whole(word, expected)?;
    }
    if words.len() != N {
        return Err(format!("{} numbers; {expected} is expected", words.len()));
    }
    Ok(numbers)
}

/// The text of a recording and rates, as `read` takes it.
pub fn write(rec: &Recording) -> String {
    let rates = rec.rates.iter().flat_map(|rates| &rates.values);
    let rates: String = rates.map(|rate| format!(" {rate}")).collect();
    let mut text = format!("clock {} {}\nrates{rates}\n", rec.ts, rec.nu);
    for (size, tick) in rec.sizes.iter().zip(&rec.ticks) {
        text.push_str(&format!("{size} {tick}\n"));
    }
    text
}
