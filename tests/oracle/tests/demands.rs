//! Demands 2 and 3 on thousands of small pseudo-random recordings. Demand 2: a bucket holds exactly
//! when neither figure is below its least; with one bit less a picture is late or there is no bucket.
//! Demand 3: a looked-up bucket is never below the least one, so it holds, and between rows its
//! excess stays within the allowance, for B and for F.

use oracle::least::{least, table};
use oracle::lookup::{look_up, within_allowance};
use oracle::recording::{Clock, Recording};
use oracle::refused::refuse;
use oracle::schedule::{schedule, verdict, Verdict};
use oracle::xorshift::XorShift;

const SEED: u64 = 0x2545_F491_4F6C_DD1D;

struct Small {
    sizes: Vec<u64>,
    ticks: Vec<u64>,
    clock: Clock,
}

impl Small {
    fn random(random: &mut XorShift) -> Small {
        let count = random.range(1, 9);
        let largest_size = [3, 20, 200][random.range(0, 2) as usize];
        let mut ticks = vec![random.range(0, 50)];
        for _ in 1..count {
            ticks.push(ticks.last().unwrap() + random.range(1, 5));
        }
        Small {
            sizes: (0..count).map(|_| random.range(1, largest_size)).collect(),
            ticks,
            clock: Clock {
                ts: random.range(1, 9),
                nu: random.range(1, 4),
            },
        }
    }

    fn recording(&self) -> Recording<'_> {
        Recording {
            sizes: &self.sizes,
            ticks: &self.ticks,
            clock: self.clock,
        }
    }

    fn span(&self) -> u64 {
        self.ticks.last().unwrap() - self.ticks[0]
    }
}

#[test]
fn demand_2() {
    println!("seed {SEED:#x}");
    let mut random = XorShift::new(SEED);
    let (mut late, mut no_bucket) = (0, 0);
    for _ in 0..4_000 {
        let small = Small::random(&mut random);
        let rec = small.recording();
        let rate = random.range(1, 150);
        let least = least(&rec, rate).unwrap();
        let (b, f) = (least.buffer, least.fullness);
        assert_eq!(verdict(&rec, rate, b, f), Ok(Verdict::Holds));
        for answer in [verdict(&rec, rate, b - 1, f), verdict(&rec, rate, b, f - 1)] {
            match answer {
                Ok(Verdict::Late { .. }) => late += 1,
                _ => {
                    assert_eq!(answer, refuse(7, 0));
                    no_bucket += 1;
                }
            }
        }
        for buffer in b.saturating_sub(3).max(1)..=b + 3 {
            for fullness in f.saturating_sub(3).max(1)..=(f + 3).min(buffer) {
                let holds = verdict(&rec, rate, buffer, fullness) == Ok(Verdict::Holds);
                assert_eq!(holds, buffer >= b && fullness >= f);
            }
        }
    }
    println!("{late} late, {no_bucket} no bucket");
    assert!(late > 1_000 && no_bucket > 1_000);
}

#[test]
fn demand_3() {
    println!("seed {SEED:#x}");
    let mut random = XorShift::new(SEED);
    let mut between_with_excess = 0;
    for _ in 0..4_000 {
        let small = Small::random(&mut random);
        let rec = small.recording();
        let mut rates = vec![random.range(1, 60)];
        for _ in 1..random.range(1, 4) {
            rates.push(rates.last().unwrap() + random.range(1, 60));
        }
        let (mut buffers, mut fullnesses) = (vec![0; rates.len()], vec![0; rates.len()]);
        table(&rec, &rates, 0, &mut buffers, &mut fullnesses).unwrap();

        for _ in 0..4 {
            let r = random.range(1, rates.last().unwrap() + 20);
            let (clock, span) = (small.clock, small.span());
            let found = look_up(&rates, &buffers, &fullnesses, clock, span, r).unwrap();
            let least = least(&rec, r).unwrap();
            let holds = verdict(&rec, r, found.buffer, found.fullness);
            assert_eq!(holds, Ok(Verdict::Holds));
            for (figure, least, column) in [
                (found.buffer, least.buffer, &buffers),
                (found.fullness, least.fullness, &fullnesses),
            ] {
                assert!(figure >= least);
                if let Some(row) = rates.iter().position(|&rate| rate == r) {
                    assert_eq!(figure, column[row]);
                } else if r > *rates.last().unwrap() {
                    assert_eq!(figure, column[rates.len() - 1]);
                } else if r > rates[0] {
                    let b = rates.iter().position(|&rate| rate > r).unwrap();
                    let (ra, rb) = (rates[b - 1], rates[b]);
                    let line = column[b - 1] * (rb - r) + column[b] * (r - ra);
                    assert!(figure * (rb - ra) >= line && (figure - 1) * (rb - ra) < line);
                    let excess = figure - least;
                    assert!(within_allowance(
                        excess, clock.ts, clock.nu, span, ra, rb, r
                    ));
                    between_with_excess += u64::from(excess > 0);
                } else {
                    let growth = (rates[0] - r) * clock.nu * span;
                    let grown = (figure - column[0]) * clock.ts;
                    assert!(grown >= growth && grown < growth + clock.ts);
                }
            }
        }
    }
    println!("{between_with_excess} figures between rows above the least");
    assert!(between_with_excess > 1_000);
}

/// The arrival rules asked of every entry the schedule wrote, and of those it must not touch.
#[test]
fn every_entry_of_a_schedule() {
    println!("seed {SEED:#x}");
    let mut random = XorShift::new(SEED);
    for _ in 0..4_000 {
        let small = Small::random(&mut random);
        let rec = small.recording();
        let rate = random.range(1, 150);
        let buffer = random.range(1, 300);
        let fullness = random.range(1, buffer);
        let from = random.range(0, 3) as usize;
        let count = small.sizes.len();
        let (mut starts, mut ends) = ([77_777; 14], [77_777; 14]);
        let answer = schedule(
            &rec,
            rate,
            buffer,
            fullness,
            from as u64,
            &mut starts,
            &mut ends,
        );
        let mut first_late = Verdict::Holds;
        for picture in (0..count).rev() {
            let (start, end) = (starts[from + picture], ends[from + picture]);
            let Clock { ts, nu } = small.clock;
            let removal = ts * fullness + rate * nu * (small.ticks[picture] - small.ticks[0]);
            assert_eq!(end, start + ts * small.sizes[picture]);
            if picture == 0 {
                assert_eq!(start, 0);
            } else {
                let before = ends[from + picture - 1];
                assert!(start >= before && start + ts * buffer >= removal);
                assert!(start == before || start + ts * buffer == removal);
            }
            if end > removal {
                let units = end - removal;
                first_late = Verdict::Late { picture, units };
            }
        }
        assert_eq!(answer, Ok(first_late));
        assert_eq!(verdict(&rec, rate, buffer, fullness), answer);
        for outside in (0..from).chain(from + count..14) {
            assert_eq!((starts[outside], ends[outside]), (77_777, 77_777));
        }
    }
}
