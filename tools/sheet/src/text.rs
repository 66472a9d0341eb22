//! Sheets as text.

use crate::{Clock, Fault, LineFault, Sheet, PICTURES_MAX, RATES_MAX};

pub fn write(sheet: &Sheet) -> String {
    let Clock { ts, nu } = sheet.clock;
    let rates: String = sheet.rates.iter().map(|rate| format!(" {rate}")).collect();
    let mut text = format!("clock {ts} {nu}\nrates{rates}\n");
    for (size, tick) in sheet.sizes.iter().zip(&sheet.ticks) {
        text.push_str(&format!("{size} {tick}\n"));
    }
    text
}

pub fn read(text: &[u8]) -> Result<Sheet, Fault> {
    let mut reader = Reader::default();
    let mut line = 1;
    for bytes in text.split_inclusive(|&byte| byte == b'\n') {
        let read = reader.read_line(bytes);
        read.map_err(|fault| Fault::Line(line, fault))?;
        line += 1;
    }
    reader.finish().map_err(|fault| Fault::Line(line, fault))
}

/// What the lines so far have said.
#[derive(Default)]
struct Reader {
    clock: Option<Clock>,
    rates: Option<Vec<u32>>,
    sizes: Vec<u32>,
    ticks: Vec<u32>,
}

impl Reader {
    fn read_line(&mut self, bytes: &[u8]) -> Result<(), LineFault> {
        let line = std::str::from_utf8(bytes).map_err(|_| LineFault::NotUtf8)?;
        if line.starts_with('#') {
            return Ok(());
        }
        let line = line.trim_end_matches(['\r', '\n']);
        let words = line.split([' ', '\t']).filter(|word| !word.is_empty());
        match words.collect::<Vec<_>>().as_slice() {
            [] => Ok(()),
            ["clock", words @ ..] => self.read_clock(words),
            ["rates", words @ ..] => self.read_rates(words),
            [first, ..] if !is_number(first) => Err(LineFault::UnknownLine(first.to_string())),
            words => self.read_picture(words),
        }
    }

    fn read_clock(&mut self, words: &[&str]) -> Result<(), LineFault> {
        if self.clock.is_some() {
            return Err(LineFault::Twice("clock"));
        }
        let [ts, nu] = words else {
            return Err(LineFault::ClockWords(words.len()));
        };
        let (ts, nu) = (number(ts)?, number(nu)?);
        self.clock = Some(Clock { ts, nu });
        Ok(())
    }

    fn read_rates(&mut self, words: &[&str]) -> Result<(), LineFault> {
        if self.rates.is_some() {
            return Err(LineFault::Twice("rates"));
        }
        if !(1..=RATES_MAX).contains(&words.len()) {
            return Err(LineFault::RatesWords(words.len()));
        }
        let rates: Result<_, _> = words.iter().map(|word| number(word)).collect();
        self.rates = Some(rates?);
        Ok(())
    }

    fn read_picture(&mut self, words: &[&str]) -> Result<(), LineFault> {
        if self.clock.is_none() {
            return Err(LineFault::PictureBefore("clock"));
        }
        if self.rates.is_none() {
            return Err(LineFault::PictureBefore("rates"));
        }
        if self.sizes.len() == PICTURES_MAX {
            return Err(LineFault::TooManyPictures);
        }
        let [size, tick] = words else {
            return Err(LineFault::PictureWords(words.len()));
        };
        self.sizes.push(number(size)?);
        self.ticks.push(number(tick)?);
        Ok(())
    }

    fn finish(self) -> Result<Sheet, LineFault> {
        let clock = self.clock.ok_or(LineFault::EndBefore("clock"))?;
        let rates = self.rates.ok_or(LineFault::EndBefore("rates"))?;
        if self.sizes.is_empty() {
            return Err(LineFault::EndBefore("a picture"));
        }
        Ok(Sheet {
            clock,
            rates,
            sizes: self.sizes,
            ticks: self.ticks,
        })
    }
}

fn is_number(word: &str) -> bool {
    word.bytes().all(|byte| byte.is_ascii_digit())
}

fn number(word: &str) -> Result<u32, LineFault> {
    if !is_number(word) {
        return Err(LineFault::NotNumber(word.to_string()));
    }
    word.parse()
        .map_err(|_| LineFault::TooLarge(word.to_string()))
}
