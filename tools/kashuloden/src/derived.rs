//! What the program works out itself, from what was read and from the library's schedule. Nothing here
//! is a planning figure; `tests/derived.rs` holds it to the second program.

use crate::recording::Recording;

/// A recording that was not refused, in figures for people.
pub struct Summary {
    pub pictures: u64,
    pub bits: u64,
    pub largest: u64,
    /// From the first removal to the last, in seconds.
    pub duration: f64,
    /// Both only where the duration is not 0.
    pub pictures_a_second: Option<f64>,
    pub mean_rate: Option<f64>,
}

impl Summary {
    pub fn of(rec: &Recording) -> Summary {
        let pictures = rec.sizes.len() as u64;
        let bits: u64 = rec.sizes.iter().sum();
        let units = rec.span() * rec.nu;
        let a_second = |count: u64| (units > 0).then(|| (count * rec.ts) as f64 / units as f64);
        Summary {
            pictures,
            bits,
            largest: rec.sizes.iter().copied().max().unwrap_or(0),
            duration: units as f64 / rec.ts as f64,
            pictures_a_second: a_second(pictures - 1),
            mean_rate: a_second(bits),
        }
    }
}

/// Times in units of 1/(R x TS) second, in seconds.
pub fn seconds(rec: &Recording, rate: u64, units: u64) -> f64 {
    units as f64 / (rate * rec.ts) as f64
}

/// When a picture is removed, in units.
pub fn removal(rec: &Recording, rate: u64, fullness: u64, picture: usize) -> u64 {
    rec.ts * fullness + rate * rec.nu * (rec.ticks[picture] - rec.ticks[0])
}

/// What the buffer holds just before and just after a removal, a bit counting TS parts. Below 0 where
/// bits of a late picture are yet to come.
pub struct Content {
    pub before: i128,
    pub after: i128,
}

/// The content at every removal of a schedule that the library gave.
pub fn contents(
    rec: &Recording,
    rate: u64,
    fullness: u64,
    starts: &[u64],
    ends: &[u64],
) -> Vec<Content> {
    let parts = |picture: usize| i128::from(rec.ts * rec.sizes[picture]);
    let (mut whole, mut arrived, mut removed) = (0, 0, 0);
    let mut contents = Vec::new();
    for picture in 0..rec.sizes.len() {
        let now = removal(rec, rate, fullness, picture);
        while whole < ends.len() && ends[whole] <= now {
            arrived += parts(whole);
            whole += 1;
        }
        let begun = starts
            .get(whole)
            .map_or(0, |&start| i128::from(now.saturating_sub(start)));
        let before = arrived + begun - removed;
        removed += parts(picture);
        contents.push(Content {
            before,
            after: arrived + begun - removed,
        });
    }
    contents
}
