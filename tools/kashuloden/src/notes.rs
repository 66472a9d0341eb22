//! What is said of a recording before its figures: one line about it, and a note where a unit cannot
//! be meant.

use crate::derived::Summary;
use crate::recording::Recording;

/// A line is leased near the mean rate of its pictures; one that is so many times as fast or as slow
/// was counted in thousands on one side.
const TIMES: f64 = 100.0;
/// Pictures a second. The usual 24 to 60 lie beyond these bounds where they come 50 times too slow or
/// too fast.
const SLOWEST: f64 = 2.0;
const FASTEST: f64 = 600.0;
/// Sizes below this many bits, a kilobyte, are all small enough to be bytes.
const SMALL: u64 = 8 * 1024;

/// The line about a recording that was not refused.
pub fn about(summary: &Summary) -> String {
    let a_second = |figure: Option<f64>, digits: usize| match figure {
        Some(figure) => format!("{figure:.digits$}"),
        None => "-".to_string(),
    };
    format!(
        "recording: {} pictures, {:.3} s, {} pictures/s, mean rate {} bit/s, largest picture {} bits",
        summary.pictures,
        summary.duration,
        a_second(summary.pictures_a_second, 3),
        a_second(summary.mean_rate, 0),
        summary.largest
    )
}

/// Units that cannot be meant, a line for each.
pub fn notes(rec: &Recording, summary: &Summary, rates: &[u64]) -> Vec<String> {
    let mut notes = Vec::new();
    if let (Some(mean), Some(low), Some(high)) =
        (summary.mean_rate, rates.iter().min(), rates.iter().max())
    {
        if mean >= TIMES * *high as f64 {
            notes.push(format!(
                "note: the mean rate, {mean:.0} bit/s, is {:.0} times the highest rate asked: rates are in bits per second, not kilobits",
                mean / *high as f64
            ));
        }
        if *low as f64 >= TIMES * mean {
            notes.push(format!(
                "note: the lowest rate asked is {:.0} times the mean rate, {mean:.0} bit/s: are the sizes in bits, and the rates in bits per second?",
                *low as f64 / mean
            ));
        }
    }
    if summary.largest < SMALL {
        notes.push(format!(
            "note: no picture has more than {} bits: are the sizes in bytes? A CSV with bytes names its column size_bytes",
            summary.largest
        ));
    } else if let Some(picture) = rec.sizes.iter().position(|size| size % 8 != 0) {
        notes.push(format!(
            "note: {} has {} bits, which are no whole bytes: are the sizes in bytes? A CSV with bytes names its column size_bytes",
            rec.at(picture),
            rec.sizes[picture]
        ));
    }
    match summary.pictures_a_second {
        Some(speed) if !(SLOWEST..=FASTEST).contains(&speed) => notes.push(format!(
            "note: {speed:.3} pictures a second: is the clock right? A tick lasts NU/TS = {}/{} seconds",
            rec.nu, rec.ts
        )),
        _ => {}
    }
    notes
}
