//! A recording as it was read: its figures, judged by nobody yet, and where each stood.

use crate::fault::{at_line, Fault};
use crate::input::Input;
use crate::options::{takes, whole, Known, Options};
use crate::{columns, sheet, text};
use std::ffi::OsStr;

const CLOCK: Known = takes(
    "--clock",
    "TS,NU",
    "clock of a CSV with ticks: a tick lasts NU/TS seconds",
);
const TIME_BASE: Known = takes(
    "--time-base",
    "N/D",
    "unit of a CSV with decode times: N/D seconds",
);
const FIRST: Known = takes("--first", "N", "take the first N pictures alone");
const FROM: Known = takes(
    "--from",
    "PICTURE",
    "take the pictures from this one on, counted from 0",
);
const FROM_PICTURE: Known = takes("--from-picture", "PICTURE", FROM.says);
const PICTURES: Known = takes("--pictures", "N", "take so many pictures from there on");

/// The options with which a recording is read.
pub const OPTIONS: &[Known] = &[CLOCK, TIME_BASE, FIRST, FROM, PICTURES];

/// The same where `--from` is a rate.
pub const OPTIONS_BESIDE_RATES: &[Known] = &[CLOCK, TIME_BASE, FIRST, FROM_PICTURE, PICTURES];

#[derive(Default)]
pub struct Recording {
    pub sizes: Vec<u64>,
    pub ticks: Vec<u64>,
    pub ts: u64,
    pub nu: u64,
    pub rates: Option<Rates>,
    pub bucket: Option<Declared>,
    /// The line of each picture; none of a sheet.
    pub lines: Vec<usize>,
    /// The decode time of each picture where it was read as that.
    pub times: Vec<i64>,
    /// The number of the first picture here in what was read.
    pub first: usize,
}

/// Rates, and the line they stood at.
#[derive(Clone)]
pub struct Rates {
    pub values: Vec<u64>,
    pub line: Option<usize>,
}

/// The bucket that a recording's text declares: rate, buffer and start fullness.
#[derive(Clone, Copy)]
pub struct Declared {
    pub rate: u64,
    pub buffer: u64,
    pub fullness: u64,
    pub constant: bool,
}

impl Recording {
    /// Reads the recording that the options name, and the part of it that they ask for.
    pub fn read(options: &Options) -> Result<Recording, Fault> {
        Recording::of_input(
            &Input::read(options.operand.as_deref(), "recording")?,
            options,
        )
    }

    pub fn read_named(name: &OsStr, options: &Options) -> Result<Recording, Fault> {
        Recording::of_input(&Input::read(Some(name), "recording")?, options)
    }

    fn of_input(input: &Input, options: &Options) -> Result<Recording, Fault> {
        let mut rec = Recording::whole_of(input, options)?;
        let (start, length) = rec.part(options)?;
        rec.keep(start, length);
        Ok(rec)
    }

    fn whole_of(input: &Input, options: &Options) -> Result<Recording, Fault> {
        let clocks = [CLOCK.name, TIME_BASE.name];
        let own_clock = |kind: &str| match clocks.iter().find(|name| options.has(name)) {
            None => Ok(()),
            Some(name) => Err(Fault::wrong_call(format!(
                "{name}: {} is {kind} with a clock of its own",
                input.name
            ))),
        };
        if sheet::is_sheet(&input.bytes) {
            own_clock("a sheet")?;
            return sheet::read(&input.name, &input.bytes);
        }
        let lines = input.lines()?;
        if columns::is_csv(&lines) {
            return columns::read(&lines, options);
        }
        own_clock("a text")?;
        text::read(&lines)
    }

    /// The first picture that the options ask for, and how many.
    fn part(&self, options: &Options) -> Result<(usize, usize), Fault> {
        let count = self.sizes.len() as u64;
        let from_option = if options.knows(FROM_PICTURE.name) {
            FROM_PICTURE
        } else {
            FROM
        };
        let first = options.whole(FIRST.name, "a number of pictures")?;
        let from = options.whole(from_option.name, "a picture, counted from 0,")?;
        let pictures = options.whole(PICTURES.name, "a number of pictures")?;
        let start = from.unwrap_or(0);
        let (start, length) = match (first, from, pictures) {
            (Some(first), None, None) => (0, first),
            (None, _, Some(pictures)) => (start, pictures),
            (None, _, None) => (start, count.saturating_sub(start).max(1)),
            _ => {
                let words = format!("--first, or {} and --pictures, not both", from_option.name);
                return Err(Fault::wrong_call(words));
            }
        };
        if start >= count || !(1..=count - start).contains(&length) {
            return Err(Fault::wrong_call(format!(
                "{length} pictures from picture {start} on: there are {count}, counted from 0"
            )));
        }
        Ok((start as usize, length as usize))
    }

    fn keep(&mut self, start: usize, length: usize) {
        fn cut<T>(list: &mut Vec<T>, start: usize, length: usize) {
            if !list.is_empty() {
                list.truncate(start + length);
                list.drain(..start);
            }
        }
        cut(&mut self.sizes, start, length);
        cut(&mut self.ticks, start, length);
        cut(&mut self.lines, start, length);
        cut(&mut self.times, start, length);
        self.first = start;
    }

    /// The number that a picture has in what was read.
    pub fn number(&self, picture: u64) -> u64 {
        self.first as u64 + picture
    }

    /// `picture 3 (line 6)`: the number that a picture has in what was read, and its line.
    pub fn at(&self, picture: usize) -> String {
        let line = at_line(self.lines.get(picture).copied());
        format!("picture {}{line}", self.first + picture)
    }

    /// As the library takes it.
    pub fn lent(&self) -> planner::Recording<'_> {
        self.lent_first(self.sizes.len())
    }

    pub fn lent_first(&self, pictures: usize) -> planner::Recording<'_> {
        planner::Recording {
            sizes: &self.sizes[..pictures],
            ticks: &self.ticks[..pictures],
            ts: self.ts,
            nu: self.nu,
        }
    }

    /// Last tick less first tick, of a recording that was not refused.
    pub fn span(&self) -> u64 {
        self.ticks[self.ticks.len() - 1] - self.ticks[0]
    }

    /// The rates that were asked for, or else those of the recording itself.
    pub fn rates_asked(&self, options: &Options) -> Result<Rates, Fault> {
        let Some(text) = options.text("--rates")? else {
            return self.rates.clone().ok_or_else(|| {
                Fault::wrong_call(
                    "no rates: give --rates R,R,..; the recording has none of its own",
                )
            });
        };
        let words = text.split(',').map(str::trim);
        let values: Result<_, _> = words
            .map(|word| whole(word, "a rate in bits per second"))
            .collect();
        Ok(Rates {
            values: values.map_err(|words| Fault::wrong_call(format!("--rates: {words}")))?,
            line: None,
        })
    }
}
