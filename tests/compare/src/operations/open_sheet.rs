//! Opening a sheet: its sizes, ticks and rates, written to three lent lists.

use super::Case;
use crate::lent::{lend_lists, MARGIN};
use crate::outcome::{settled, Answer, Outcome};
use crate::{damage, draws};
use oracle::xorshift::XorShift;

pub const KINDS: &[&str] = &["opened"];
pub const REFUSALS: &[u8] = &[1, 3, 4, 5, 6, 8, 12];

/// The lists with their margins.
#[derive(Debug)]
pub struct OpenSheet {
    pub sheet: Vec<u8>,
    pub lists: [Vec<u64>; 3],
}

pub fn draw(random: &mut XorShift) -> Box<dyn Case> {
    let (sheet, pictures, rates) = draws::sheet(random);
    Box::new(OpenSheet {
        sheet,
        lists: [pictures, pictures, rates].map(|count| draws::room(random, count)),
    })
}

impl Case for OpenSheet {
    fn damage(&mut self, random: &mut XorShift, first: bool) {
        if draws::one_in(random, 4) {
            shorten(random, &mut self.lists)
        } else {
            damage::sheet(random, &mut self.sheet, first)
        }
    }

    fn by_library(&self) -> Outcome {
        lend_lists(&self.lists, |[sizes, ticks, rates]| {
            let result = planner::open_sheet(&self.sheet, sizes, ticks, rates);
            settled(result, |sheet| {
                opened(sheet.pictures, sheet.rates, sheet.ts, sheet.nu)
            })
        })
    }

    fn by_oracle(&self) -> Outcome {
        lend_lists(&self.lists, |[sizes, ticks, rates]| {
            let result = oracle::sheet::open_into(&self.sheet, sizes, ticks, rates);
            settled(result, |sheet| {
                let (pictures, rates) = (sheet.sizes.len(), sheet.rates.len());
                opened(pictures, rates, sheet.clock.ts, sheet.clock.nu)
            })
        })
    }
}

/// One of the lists that is too short.
fn shorten(random: &mut XorShift, lists: &mut [Vec<u64>; 3]) {
    let list = &mut lists[random.range(0, 2) as usize];
    let length = (list.len() - 2 * MARGIN) as u64;
    let shorter = random.range(0, length.saturating_sub(1)) as usize;
    list.truncate(shorter + 2 * MARGIN);
}

fn opened(pictures: usize, rates: usize, ts: u64, nu: u64) -> Answer {
    Answer::given("opened", [pictures as u64, rates as u64, ts, nu])
}
