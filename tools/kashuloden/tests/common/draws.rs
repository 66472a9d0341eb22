//! Random recordings and buckets that no operation refuses.

use oracle::limits::{BUFFER_MAX, RATE_MAX};
use oracle::xorshift::XorShift;
use planner::{least, Bucket, Recording};

pub struct Drawn {
    pub sizes: Vec<u64>,
    pub ticks: Vec<u64>,
    pub ts: u64,
    pub nu: u64,
}

impl Drawn {
    pub fn recording(&self) -> Recording<'_> {
        Recording {
            sizes: &self.sizes,
            ticks: &self.ticks,
            ts: self.ts,
            nu: self.nu,
        }
    }

    pub fn for_oracle(&self) -> oracle::recording::Recording<'_> {
        oracle::recording::Recording {
            sizes: &self.sizes,
            ticks: &self.ticks,
            clock: oracle::recording::Clock {
                ts: self.ts,
                nu: self.nu,
            },
        }
    }

    /// As text.
    pub fn text(&self) -> String {
        let pictures = self.sizes.iter().zip(&self.ticks);
        let lines = pictures.map(|(size, tick)| format!("{size} {tick}\n"));
        format!(
            "clock {} {}\n{}",
            self.ts,
            self.nu,
            lines.collect::<String>()
        )
    }
}

/// One of these.
pub fn pick<T: Copy>(random: &mut XorShift, choices: &[T]) -> T {
    choices[random.range(0, choices.len() as u64 - 1) as usize]
}

/// From 1 to 2^width, numbers of any width alike.
pub fn up_to_bits(random: &mut XorShift, width: u64) -> u64 {
    let width = random.range(0, width);
    random.range(1, 1 << width)
}

/// 1 to 30 pictures of whole bytes.
pub fn recording(random: &mut XorShift) -> Drawn {
    let count = random.range(1, 30);
    let largest = pick(random, &[10, 1_000, 2_097_152]);
    let (ts, nu) = pick(
        random,
        &[(50, 1), (1, 1), (60_000, 1_001), (131_072, 65_536), (7, 3)],
    );
    let mut tick = up_to_bits(random, 40);
    let (mut sizes, mut ticks) = (Vec::new(), Vec::new());
    for _ in 0..count {
        sizes.push(8 * random.range(1, largest));
        ticks.push(tick);
        let step = pick(random, &[1, 3, 2_000]);
        tick += random.range(1, step);
    }
    Drawn {
        sizes,
        ticks,
        ts,
        nu,
    }
}

pub fn rate(random: &mut XorShift) -> u64 {
    up_to_bits(random, 27).min(RATE_MAX)
}

/// So many rates that rise.
pub fn rates(random: &mut XorShift, count: usize) -> Vec<u64> {
    let mut rates = std::collections::BTreeSet::new();
    while rates.len() < count {
        rates.insert(rate(random));
    }
    rates.into_iter().collect()
}

/// A bucket about the least one, so that both verdicts are met.
pub fn bucket(random: &mut XorShift, drawn: &Drawn, rate: u64) -> Bucket {
    let least = least(&drawn.recording(), rate).unwrap();
    let near = |random: &mut XorShift, figure: u64| {
        let low = figure.saturating_sub(random.range(0, 2)).max(1);
        low + random.range(0, 2) * random.range(0, 1_000)
    };
    let fullness = near(random, least.fullness).min(BUFFER_MAX);
    let buffer = near(random, least.buffer).clamp(fullness, BUFFER_MAX);
    Bucket { buffer, fullness }
}
