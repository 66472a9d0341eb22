//! A recording and its rates as a sheet: little-endian words of 32 bits, first the header, then sizes,
//! ticks and rates (document 01, "The sheet and the printed table"). The layout alone is looked at
//! here; figures are the library's to judge.

use crate::fault::{at_line, Fault};
use crate::input::is_utf16;
use crate::recording::{Rates, Recording};
use planner::limits::{HEADER_BYTES, ROWS_MAX, SHEET_PICTURES_MAX};
use planner::refusals;

const WORD_BYTES: usize = 4;

/// Every sheet that opens has a byte 0 in its header, and no text in UTF-8 has one.
pub fn is_sheet(bytes: &[u8]) -> bool {
    let header = &bytes[..bytes.len().min(HEADER_BYTES)];
    header.contains(&0) && !is_utf16(bytes)
}

pub fn read(name: &str, bytes: &[u8]) -> Result<Recording, Fault> {
    lists(bytes).map_err(|(number, words)| {
        Fault::refused(format!("refused {number} at 0: {name}: {words}"))
    })
}

/// The recording of a sheet; or number and words of its refusal, in document 01's order.
fn lists(bytes: &[u8]) -> Result<Recording, (u8, String)> {
    let words = words(bytes);
    let [pictures, sizes_at, ticks_at, rates, rates_at, ts, nu, ref lists @ ..] = words[..] else {
        let words = format!(
            "{} bytes, fewer than a sheet's header of {HEADER_BYTES}",
            bytes.len()
        );
        return Err((refusals::SHEET, words));
    };
    let pictures = count(pictures, SHEET_PICTURES_MAX).ok_or((
        refusals::PICTURES,
        format!("{pictures} pictures, not 1 to {SHEET_PICTURES_MAX}"),
    ))?;
    let rates = count(rates, ROWS_MAX).ok_or((
        refusals::RATE,
        format!("{rates} rates, not 1 to {ROWS_MAX}"),
    ))?;
    judge_layout([sizes_at, ticks_at, rates_at], bytes.len(), pictures, rates)
        .map_err(|words| (refusals::SHEET, words))?;

    let (sizes, lists) = lists.split_at(pictures);
    let (ticks, rates) = lists.split_at(pictures);
    Ok(Recording {
        sizes: sizes.to_vec(),
        ticks: ticks.to_vec(),
        ts,
        nu,
        rates: Some(Rates {
            values: rates.to_vec(),
            line: None,
        }),
        ..Recording::default()
    })
}

/// Bytes left over at the end belong to no word.
fn words(bytes: &[u8]) -> Vec<u64> {
    let words = bytes.chunks_exact(WORD_BYTES);
    words
        .map(|word| u64::from(u32::from_le_bytes([word[0], word[1], word[2], word[3]])))
        .collect()
}

fn count(given: u64, most: usize) -> Option<usize> {
    let given = usize::try_from(given).ok()?;
    (1..=most).contains(&given).then_some(given)
}

/// Where the sizes, the ticks and the rates begin.
fn offsets(pictures: usize) -> [u64; 3] {
    [0, pictures, 2 * pictures].map(|before| (HEADER_BYTES + WORD_BYTES * before) as u64)
}

fn judge_layout(
    given: [u64; 3],
    length: usize,
    pictures: usize,
    rates: usize,
) -> Result<(), String> {
    let lists = ["sizes", "ticks", "rates"];
    for ((list, given), right) in lists.into_iter().zip(given).zip(offsets(pictures)) {
        if given != right {
            return Err(format!("the offset of the {list} is {given}, not {right}"));
        }
    }
    let right = HEADER_BYTES + WORD_BYTES * (2 * pictures + rates);
    if length != right {
        return Err(format!("the length is {length} bytes, not {right}"));
    }
    Ok(())
}

/// The sheet of a recording and rates; each figure has to fit a word, and each count a sheet.
pub fn write(rec: &Recording, rates: &Rates) -> Result<Vec<u8>, Fault> {
    let counts = [
        (
            rec.sizes.len(),
            SHEET_PICTURES_MAX,
            refusals::PICTURES,
            "pictures",
        ),
        (rates.values.len(), ROWS_MAX, refusals::RATE, "rates"),
    ];
    for (count, most, number, what) in counts {
        if !(1..=most).contains(&count) {
            let words = format!("refused {number} at 0: {count} {what}, not 1 to {most}");
            return Err(Fault::refused(words));
        }
    }
    let [sizes_at, ticks_at, rates_at] = offsets(rec.sizes.len());
    let counts = [rec.sizes.len(), rates.values.len()].map(|count| count as u64);
    let header = [
        counts[0], sizes_at, ticks_at, counts[1], rates_at, rec.ts, rec.nu,
    ];
    let mut bytes = Vec::new();
    for figure in header {
        bytes.extend(word(figure, || "the clock: ".to_string())?);
    }
    for (list, what) in [(&rec.sizes, "size"), (&rec.ticks, "tick")] {
        for (picture, &figure) in list.iter().enumerate() {
            bytes.extend(word(figure, || format!("{}: {what} ", rec.at(picture)))?);
        }
    }
    for &figure in &rates.values {
        bytes.extend(word(figure, || format!("rates{}: ", at_line(rates.line)))?);
    }
    Ok(bytes)
}

fn word(figure: u64, whose: impl FnOnce() -> String) -> Result<[u8; WORD_BYTES], Fault> {
    match u32::try_from(figure) {
        Ok(word) => Ok(word.to_le_bytes()),
        Err(_) => {
            let words = format!("{}{figure} does not fit a sheet's word of 32 bits", whose());
            Err(Fault::refused(words))
        }
    }
}
