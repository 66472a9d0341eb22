//! Printing what a sheet comes to, to the front of a lent list of bytes.

use super::Case;
use crate::draws::{any_bytes, pick};
use crate::lent::{lend_bytes, MARGIN};
use crate::outcome::{settled, Answer, Outcome};
use crate::{damage, draws};
use oracle::limits::TEXT_MAX;
use oracle::xorshift::XorShift;

pub const KINDS: &[&str] = &["table", "line"];
pub const REFUSALS: &[u8] = &[8];

/// The text with its margins.
#[derive(Debug)]
pub struct SheetText {
    pub sheet: Vec<u8>,
    pub text: Vec<u8>,
}

pub fn draw(random: &mut XorShift) -> Box<dyn Case> {
    let (sheet, ..) = draws::sheet(random);
    let text = text_room(random);
    Box::new(SheetText { sheet, text })
}

/// A list of bytes with room for most texts, or for some.
fn text_room(random: &mut XorShift) -> Vec<u8> {
    let some = random.range(0, 200);
    let length = pick(random, &[some, TEXT_MAX, TEXT_MAX]) as usize;
    any_bytes(random, MARGIN + length + MARGIN)
}

impl Case for SheetText {
    fn damage(&mut self, random: &mut XorShift, first: bool) {
        damage::sheet(random, &mut self.sheet, first);
    }

    fn by_library(&self) -> Outcome {
        lend_bytes(&self.text, |text| {
            settled(
                planner::sheet_text(&self.sheet, text),
                |printed| match printed {
                    planner::Printed::Table(length) => table(length as u64),
                    planner::Printed::Line(length, refused) => {
                        line(length as u64, refused.number, refused.place)
                    }
                },
            )
        })
    }

    fn by_oracle(&self) -> Outcome {
        lend_bytes(&self.text, |text| {
            settled(
                oracle::sheet::print_into(&self.sheet, text),
                |printed| match printed {
                    oracle::sheet::Printed::Table(length) => table(length),
                    oracle::sheet::Printed::Line(length, refused) => {
                        line(length, refused.number, refused.place)
                    }
                },
            )
        })
    }
}

fn table(length: u64) -> Answer {
    Answer::given("table", [length])
}

fn line(length: u64, number: u8, place: u64) -> Answer {
    Answer::given("line", [length, number.into(), place])
}
