//! The wait and the fill time of a bucket at its rate.

use super::Case;
use crate::arguments::Asked;
use crate::outcome::{settled, Answer, Outcome};
use crate::{by_library, damage, draws};
use oracle::xorshift::XorShift;

pub const KINDS: &[&str] = &["seconds"];
pub const REFUSALS: &[u8] = &[6, 7];

#[derive(Debug)]
pub struct Seconds {
    pub asked: Asked,
}

pub fn draw(random: &mut XorShift) -> Box<dyn Case> {
    Box::new(Seconds {
        asked: draws::asked(random),
    })
}

impl Case for Seconds {
    fn damage(&mut self, random: &mut XorShift, _: bool) {
        damage::bucket(random, &mut self.asked);
    }

    fn by_library(&self) -> Outcome {
        let result = planner::seconds(self.asked.rate, by_library::bucket(&self.asked));
        settled(result, |seconds| timed(seconds.wait, seconds.fill)).into()
    }

    fn by_oracle(&self) -> Outcome {
        let asked = &self.asked;
        let result = oracle::panel::seconds(asked.rate, asked.buffer, asked.fullness);
        settled(result, |seconds| timed(seconds.wait, seconds.fill)).into()
    }
}

fn timed(wait: f64, fill: f64) -> Answer {
    Answer::given("seconds", [wait.to_bits(), fill.to_bits()])
}
