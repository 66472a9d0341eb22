//! The panel reading of a bucket against the driver's limit.

use super::Case;
use crate::arguments::Asked;
use crate::draws::pick;
use crate::outcome::{settled, Answer, Outcome};
use crate::{by_library, damage, draws};
use oracle::xorshift::XorShift;

pub const KINDS: &[&str] = &["within", "over"];
pub const REFUSALS: &[u8] = &[6, 7, 13];

#[derive(Debug)]
pub struct Panel {
    pub asked: Asked,
    pub limit: f64,
}

pub fn draw(random: &mut XorShift) -> Box<dyn Case> {
    let asked = draws::asked(random);
    let limit = limit(random, &asked);
    Box::new(Panel { asked, limit })
}

/// Limits beside the wait, far from it, and doubles that are no limit.
fn limit(random: &mut XorShift, asked: &Asked) -> f64 {
    let wait = oracle::panel::seconds(asked.rate, asked.buffer, asked.fullness)
        .expect("a drawn bucket has no fault")
        .wait;
    let fraction = random.range(1, 200) as f64 / 100.0;
    let subnormal = f64::from_bits(random.range(1, (1 << 52) - 1));
    let any = f64::from_bits(random.draw());
    let special = [
        f64::NAN,
        -f64::NAN,
        f64::INFINITY,
        f64::NEG_INFINITY,
        0.0,
        -0.0,
        -wait,
        subnormal,
        -subnormal,
        f64::MIN_POSITIVE,
        f64::from_bits(1),
        f64::MAX,
        f64::MIN,
    ];
    let special = pick(random, &special);
    let below = f64::from_bits(wait.to_bits() - 1);
    let above = f64::from_bits(wait.to_bits() + 1);
    let nearby = [wait, below, above, wait * fraction];
    let nearby = pick(random, &nearby);
    pick(random, &[nearby, nearby, nearby, special, any])
}

impl Case for Panel {
    fn damage(&mut self, random: &mut XorShift, _: bool) {
        damage::bucket(random, &mut self.asked);
    }

    fn by_library(&self) -> Outcome {
        let bucket = by_library::bucket(&self.asked);
        let result = planner::panel(self.asked.rate, bucket, self.limit);
        settled(result, |reading| match reading {
            planner::Reading::Within(wait) => within(wait),
            planner::Reading::Over(wait, limit) => over(wait, limit),
        })
        .into()
    }

    fn by_oracle(&self) -> Outcome {
        let asked = &self.asked;
        let result = oracle::panel::panel(asked.rate, asked.buffer, asked.fullness, self.limit);
        settled(result, |reading| match reading {
            oracle::panel::Reading::Within(wait) => within(wait),
            oracle::panel::Reading::Over(wait, limit) => over(wait, limit),
        })
        .into()
    }
}

fn within(wait: f64) -> Answer {
    Answer::given("within", [wait.to_bits()])
}

fn over(wait: f64, limit: f64) -> Answer {
    Answer::given("over", [wait.to_bits(), limit.to_bits()])
}
