//! Arguments as the library takes them and answers as it gives them, where several operations share
//! them.

use crate::arguments::{Asked, Record};
use crate::outcome::Answer;
use planner::{Bucket, Recording, Refused, Verdict};

pub fn recording(rec: &Record) -> Recording<'_> {
    Recording {
        sizes: &rec.sizes,
        ticks: &rec.ticks,
        ts: rec.ts,
        nu: rec.nu,
    }
}

pub fn bucket(asked: &Asked) -> Bucket {
    Bucket {
        buffer: asked.buffer,
        fullness: asked.fullness,
    }
}

impl From<Refused> for Answer {
    fn from(Refused { number, place }: Refused) -> Answer {
        Answer::Refused { number, place }
    }
}

pub fn held(verdict: Verdict) -> Answer {
    match verdict {
        Verdict::Holds => Answer::given("holds", []),
        Verdict::Late { picture, units } => Answer::given("late", [picture, units]),
    }
}
