//! Refusals in words: what each number says, and what was wrong with the figures that were handed in.

use crate::fault::{at_line, Fault};
use crate::recording::{Rates, Recording};
use crate::table::Table;
use planner::limits::{
    BUCKET_MAX, NU_MAX, PICTURES_MAX, RATE_MAX, ROWS_MAX, SIZE_MAX, SPAN_MAX, TS_MAX,
};
use planner::{refusals, Bucket, Refused};

/// What is accepted, and what may be done about it, for each number; what the number says is the
/// library's own text.
fn texts() -> [(u8, String); 13] {
    let parts = "is planned in parts: --first N, or --from PICTURE --pictures N.";
    let at = "See where the record starts: --at, in bits counted from 0.";
    let tick = "Ticks are removal times in decoding order, not presentation times: each is above";
    [
        (
            refusals::PICTURES,
            format!("A recording has 1 to {PICTURES_MAX} pictures.\nA longer one {parts}"),
        ),
        (
            refusals::LENGTHS,
            "Every picture has a size and a tick, every row a rate, a buffer and a start.".into(),
        ),
        (
            refusals::CLOCK,
            format!(
                "A tick lasts NU/TS seconds: TS is 1 to {TS_MAX}, NU 1 to {NU_MAX}.\n\
                 The span of a table is 0 to {SPAN_MAX} ticks."
            ),
        ),
        (
            refusals::SIZE,
            format!(
                "A picture has 1 to {SIZE_MAX} bits.\n\
                 Sizes in bytes are read from a CSV with the column size_bytes."
            ),
        ),
        (
            refusals::TICK,
            format!(
                "{tick}\nthe one before, the last at most {SPAN_MAX} above the first.\n\
                 A longer recording {parts}"
            ),
        ),
        (
            refusals::RATE,
            format!(
                "A rate is 1 to {RATE_MAX} bits, not kilobits, per second. A list has 1 to {ROWS_MAX}\n\
                 of them, each above the one before. The rows of a record are counted from 0."
            ),
        ),
        (
            refusals::BUCKET,
            format!("A buffer is 1 to {BUCKET_MAX} bits, a start 1 bit to the whole buffer."),
        ),
        (
            refusals::ROOM,
            "The bytes end before the record would.\nTake a longer file or an earlier bit.".into(),
        ),
        (
            refusals::SHORT,
            format!("{at}\nSee that the file is whole."),
        ),
        (
            refusals::FIELD,
            format!(
                "{at}\nSee that no emulation prevention bytes are left in. From row to row rates rise and\n\
                 sizes do not; H.264 E.2.2 has the range of every field."
            ),
        ),
        (
            refusals::CONSTANT,
            "A verdict is had of rows with a variable rate alone.".into(),
        ),
        (
            refusals::SHEET,
            "The sheet is cut short, or none: kashuloden sheet make makes one.".into(),
        ),
        (
            refusals::LIMIT,
            "The driver's limit is a number of seconds, such as 10 or 0.5.".into(),
        ),
    ]
}

/// All that is to be said of a number; nothing of one that is no refusal.
pub fn explain(number: u8) -> Option<String> {
    let (_, text) = texts().into_iter().find(|(given, _)| *given == number)?;
    Some(format!(
        "refusal {number}: {}\n{text}\n",
        refusals::meaning(number)?
    ))
}

/// What was handed to the library, as far as a refusal may speak of it.
#[derive(Default)]
pub struct Asked<'a> {
    pub rec: Option<&'a Recording>,
    pub rates: Option<&'a Rates>,
    pub table: Option<&'a Table>,
    pub rate: Option<u64>,
    pub bucket: Option<Bucket>,
    pub limit: Option<f64>,
    /// What is to be said of a record's bits.
    pub record: Option<String>,
}

impl Asked<'_> {
    /// The refusal in words: number, place, and what stands there.
    pub fn fault(&self, refused: Refused) -> Fault {
        let Refused { number, place } = refused;
        let at = usize::try_from(place).unwrap_or(usize::MAX);
        let found = match number {
            refusals::PICTURES => self.rec.map(count_words),
            refusals::CLOCK => self.clock_words(),
            refusals::SIZE => self.rec.map(|rec| size_words(rec, at)),
            refusals::TICK => self.rec.map(|rec| tick_words(rec, at)),
            refusals::RATE => self.rate_words(at),
            refusals::BUCKET => self.bucket_words(at),
            refusals::LIMIT => self
                .limit
                .map(|limit| format!("0: the limit {limit} is no finite number above 0")),
            _ => None,
        };
        let found = found.or_else(|| self.record.clone());
        let meaning = || {
            format!(
                "{place}: {}",
                refusals::meaning(number).unwrap_or("unknown")
            )
        };
        Fault::refused(format!(
            "refused {number} at {}",
            found.unwrap_or_else(meaning)
        ))
    }

    fn clock_words(&self) -> Option<String> {
        let (ts, nu, span) = match (self.rec, self.table) {
            (Some(rec), _) => (rec.ts, rec.nu, 0),
            (None, Some(table)) => (table.ts, table.nu, table.span),
            (None, None) => return None,
        };
        let words = [
            out_of("TS", ts, 1, TS_MAX),
            out_of("NU", nu, 1, NU_MAX),
            out_of("the span", span, 0, SPAN_MAX),
        ];
        Some(format!("0: {}", words.into_iter().flatten().next()?))
    }

    fn rate_words(&self, at: usize) -> Option<String> {
        if let Some(rates) = self.rates {
            let line = at_line(rates.line);
            return list_words(
                &rates.values,
                at,
                &format!("rate {at}{line}"),
                &format!("0{line}"),
            );
        }
        if let Some(table) = self.table {
            let row = table.at(at);
            if let Some(words) = list_words(&table.rates, at, &row, "0") {
                return Some(words);
            }
        }
        Some(format!("0: {}", out_of("rate", self.rate?, 1, RATE_MAX)?))
    }

    fn bucket_words(&self, at: usize) -> Option<String> {
        if let Some(bucket) = self.bucket {
            return Some(format!("0: {}", bucket_fault(bucket)?));
        }
        let table = self.table?;
        let bucket = table.buckets().nth(at)?;
        Some(format!("{}: {}", table.at(at), bucket_fault(bucket)?))
    }
}

fn count_words(rec: &Recording) -> String {
    format!(
        "0: {} pictures, more than {PICTURES_MAX}{}",
        rec.sizes.len(),
        fits(rec)
    )
}

fn size_words(rec: &Recording, at: usize) -> String {
    let size = rec.sizes.get(at).copied().unwrap_or(0);
    let words = out_of("size", size, 1, SIZE_MAX).unwrap_or_default();
    format!("{}: {words} bits", rec.at(at))
}

fn tick_words(rec: &Recording, at: usize) -> String {
    let written = |picture: usize| match rec.times.get(picture) {
        Some(time) => time.to_string(),
        None => rec.ticks[picture].to_string(),
    };
    let what = if rec.times.is_empty() {
        "tick"
    } else {
        "decode time"
    };
    let place = rec.at(at);
    if rec.ticks[at] <= rec.ticks[at - 1] {
        return format!(
            "{place}: {what} {} is not above {}",
            written(at),
            written(at - 1)
        );
    }
    let span = rec.ticks[at] - rec.ticks[0];
    format!(
        "{place}: {what} {} is {span} ticks after the first, more than {SPAN_MAX}{}",
        written(at),
        fits(rec)
    )
}

/// How many of the first pictures the library passes.
fn fits(rec: &Recording) -> String {
    let count = rec.sizes.len().min(PICTURES_MAX);
    let passed = match planner::judge(&rec.lent_first(count)) {
        Ok(()) => count,
        Err(refused) if refused.number == refusals::TICK => refused.place as usize,
        Err(_) => return String::new(),
    };
    match rec.first {
        0 => format!("; the first {passed} fit: --first {passed}"),
        first => format!("; {passed} from picture {first} on fit: --pictures {passed}"),
    }
}

/// What is wrong with a list of rates at a place, or with their number.
fn list_words(rates: &[u64], at: usize, place: &str, count_place: &str) -> Option<String> {
    if !(1..=ROWS_MAX).contains(&rates.len()) {
        return Some(format!(
            "{count_place}: {} rates, not 1 to {ROWS_MAX}",
            rates.len()
        ));
    }
    let rate = *rates.get(at)?;
    if let Some(words) = out_of("rate", rate, 1, RATE_MAX) {
        return Some(format!("{place}: {words} bits per second"));
    }
    let before = *rates.get(at.checked_sub(1)?)?;
    (rate <= before).then(|| format!("{place}: rate {rate} is not above {before}"))
}

fn bucket_fault(bucket: Bucket) -> Option<String> {
    out_of("buffer", bucket.buffer, 1, BUCKET_MAX).or_else(|| {
        out_of("start", bucket.fullness, 1, bucket.buffer)
            .map(|words| format!("{words}, the buffer"))
    })
}

fn out_of(what: &str, value: u64, least: u64, most: u64) -> Option<String> {
    let outside = !(least..=most).contains(&value);
    outside.then(|| format!("{what} {value} is not from {least} to {most}"))
}
