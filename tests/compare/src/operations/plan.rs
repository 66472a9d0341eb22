//! The program, run on a sheet.

use super::Case;
use crate::outcome::{Answer, Outcome};
use crate::{damage, draws, program};
use oracle::xorshift::XorShift;

pub const KINDS: &[&str] = &["printed"];
pub const REFUSALS: &[u8] = &[];

#[derive(Debug)]
pub struct Plan {
    pub sheet: Vec<u8>,
}

pub fn draw(random: &mut XorShift) -> Box<dyn Case> {
    let (sheet, ..) = draws::sheet(random);
    Box::new(Plan { sheet })
}

impl Case for Plan {
    fn damage(&mut self, random: &mut XorShift, first: bool) {
        damage::sheet(random, &mut self.sheet, first);
    }

    fn by_library(&self) -> Outcome {
        printed(&program::run(&self.sheet))
    }

    fn by_oracle(&self) -> Outcome {
        printed(oracle::sheet::print(&self.sheet).as_bytes())
    }
}

/// The text in the place of a lent list.
fn printed(text: &[u8]) -> Outcome {
    Outcome {
        answer: Answer::given("printed", [text.len() as u64]),
        lent: vec![text.iter().copied().map(u64::from).collect()],
    }
}
