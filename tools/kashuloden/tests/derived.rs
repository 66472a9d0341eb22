//! What the program works out itself, held to the second program.

mod common;

use common::call;
use common::draws::{bucket, rate, recording};
use common::read::{csv, maybe, number};
use oracle::derived::{content, duration, mean_rate, pictures_a_second};
use oracle::rounding::nearest;
use oracle::schedule::{removal, verdict, Verdict};
use oracle::xorshift::XorShift;
use planner::Bucket;

const CASES: usize = 60;

#[test]
fn a_recording_in_figures() {
    let random = &mut XorShift::new(11);
    for _ in 0..CASES {
        let drawn = recording(random);
        let row = &csv(&call("judge - --csv", drawn.text()).answer())[0];
        let rec = drawn.for_oracle();
        assert_eq!(number::<usize>(row, "pictures"), rec.sizes.len());
        assert_eq!(number::<u64>(row, "bits"), rec.sizes.iter().sum::<u64>());
        assert_eq!(
            number::<u64>(row, "largest"),
            *rec.sizes.iter().max().unwrap()
        );
        assert_eq!(number::<f64>(row, "duration"), duration(&rec));
        assert_eq!(maybe(row, "pictures_a_second"), pictures_a_second(&rec));
        assert_eq!(maybe(row, "mean_rate"), mean_rate(&rec));
    }
}

/// A time in units is more than a double holds exactly, so its seconds may be off by a little.
fn is_near(seconds: f64, units: u64, a_second: u64) {
    let exact = if units == 0 {
        0.0
    } else {
        nearest(units, a_second)
    };
    assert!(
        (seconds - exact).abs() <= exact * 1e-15 * 4.0,
        "{seconds} {exact}"
    );
}

#[test]
fn what_the_buffer_holds() {
    let random = &mut XorShift::new(12);
    let mut held = 0;
    for _ in 0..CASES {
        let (drawn, rate) = (recording(random), rate(random));
        let Bucket { buffer, fullness } = bucket(random, &drawn, rate);
        let asked = format!("- --rate {rate} --buffer {buffer} --start {fullness} --csv");
        let rec = drawn.for_oracle();
        let holds = verdict(&rec, rate, buffer, fullness) == Ok(Verdict::Holds);
        held += usize::from(holds);
        let a_second = rate * drawn.ts;
        let filled = csv(&call(&format!("fill {asked}"), drawn.text()).answer());
        let scheduled = csv(&call(&format!("schedule {asked}"), drawn.text()).answer());
        for (picture, row) in filled.iter().enumerate() {
            let (before, after) = content(&rec, rate, buffer, fullness, picture);
            assert_eq!(number::<i128>(row, "before_parts"), before);
            assert_eq!(number::<i128>(row, "after_parts"), after);
            assert_eq!(
                number::<f64>(row, "before"),
                before as f64 / drawn.ts as f64
            );
            assert_eq!(number::<f64>(row, "after"), after as f64 / drawn.ts as f64);
            let now = removal(&rec, rate, fullness, picture) as u64;
            assert_eq!(number::<u64>(row, "removal_units"), now);
            is_near(number(row, "removal"), now, a_second);
            if holds {
                let room = i128::from(buffer) * i128::from(drawn.ts);
                assert!(after >= 0 && before <= room, "{before} {after} {room}");
            }

            let row = &scheduled[picture];
            assert_eq!(number::<u64>(row, "removal_units"), now);
            for name in ["arrival_start", "arrival_end", "removal"] {
                let units = number(row, &format!("{name}_units"));
                is_near(number(row, name), units, a_second);
            }
        }
        let first_late = filled
            .iter()
            .position(|row| number::<i128>(row, "after_parts") < 0);
        assert_eq!(first_late, maybe(&filled[0], "late_picture"));
    }
    assert!((1..CASES).contains(&held));
}
