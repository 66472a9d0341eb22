//! What is wrong with a text or with the bytes of a sheet, each said in one line.

use crate::{HEADER_BYTES, PICTURES_MAX, RATES_MAX};
use std::error::Error;
use std::fmt::{Display, Formatter, Result};

#[derive(Debug, PartialEq, Eq)]
pub enum Fault {
    /// At that line of a text, counted from 1; what is missing, at the line after the last one.
    Line(usize, LineFault),
    Sheet(SheetFault),
}

#[derive(Debug, PartialEq, Eq)]
pub enum LineFault {
    NotUtf8,
    UnknownLine(String),
    NotNumber(String),
    TooLarge(String),
    ClockWords(usize),
    RatesWords(usize),
    PictureWords(usize),
    Twice(&'static str),
    PictureBefore(&'static str),
    TooManyPictures,
    EndBefore(&'static str),
}

#[derive(Debug, PartialEq, Eq)]
pub enum SheetFault {
    Header(usize),
    Pictures(u32),
    Rates(u32),
    Offset {
        list: &'static str,
        given: u32,
        right: u32,
    },
    Length {
        given: usize,
        right: usize,
    },
}

impl Error for Fault {}

impl Display for Fault {
    fn fmt(&self, f: &mut Formatter) -> Result {
        match self {
            Fault::Line(number, fault) => write!(f, "line {number}: {fault}"),
            Fault::Sheet(fault) => write!(f, "{fault}"),
        }
    }
}

/// A word of the text is written with its odd characters escaped, so that the line stays one line.
impl Display for LineFault {
    fn fmt(&self, f: &mut Formatter) -> Result {
        match self {
            LineFault::NotUtf8 => write!(f, "not UTF-8 text"),
            LineFault::UnknownLine(word) => {
                write!(f, "{word:?} is neither clock, rates nor a size")
            }
            LineFault::NotNumber(word) => write!(f, "{word:?} is not a whole decimal number"),
            LineFault::TooLarge(word) => write!(f, "{word} does not fit a word of 32 bits"),
            LineFault::ClockWords(count) => {
                write!(f, "clock takes 2 numbers, TS and NU, not {count}")
            }
            LineFault::RatesWords(count) => {
                write!(f, "rates takes 1 to {RATES_MAX} numbers, not {count}")
            }
            LineFault::PictureWords(count) => {
                write!(f, "a picture takes 2 numbers, size and tick, not {count}")
            }
            LineFault::Twice(name) => write!(f, "{name} a second time"),
            LineFault::PictureBefore(name) => write!(f, "a picture before {name}"),
            LineFault::TooManyPictures => write!(f, "more than {PICTURES_MAX} pictures"),
            LineFault::EndBefore(name) => write!(f, "the text ends before {name}"),
        }
    }
}

impl Display for SheetFault {
    fn fmt(&self, f: &mut Formatter) -> Result {
        match self {
            SheetFault::Header(given) => {
                write!(f, "{given} bytes, fewer than a header's {HEADER_BYTES}")
            }
            SheetFault::Pictures(count) => {
                write!(f, "the picture count is {count}, not 1 to {PICTURES_MAX}")
            }
            SheetFault::Rates(count) => {
                write!(f, "the rate count is {count}, not 1 to {RATES_MAX}")
            }
            SheetFault::Offset { list, given, right } => {
                write!(f, "the offset of the {list} is {given}, not {right}")
            }
            SheetFault::Length { given, right } => {
                write!(f, "the length is {given} bytes, not {right}")
            }
        }
    }
}
