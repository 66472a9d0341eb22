//! Sheets as bytes: little-endian words of 32 bits, first the header, then sizes, ticks and rates.

use crate::{Clock, Sheet, SheetFault, HEADER_BYTES, PICTURES_MAX, RATES_MAX};

const WORD_BYTES: usize = 4;

pub fn write(sheet: &Sheet) -> Vec<u8> {
    let pictures = sheet.sizes.len();
    let [sizes_at, ticks_at, rates_at] = offsets(pictures);
    let header = [
        pictures as u32,
        sizes_at,
        ticks_at,
        sheet.rates.len() as u32,
        rates_at,
        sheet.clock.ts,
        sheet.clock.nu,
    ];
    let words = [&header[..], &sheet.sizes, &sheet.ticks, &sheet.rates].concat();
    words.into_iter().flat_map(u32::to_le_bytes).collect()
}

pub fn read(bytes: &[u8]) -> Result<Sheet, SheetFault> {
    let words = words(bytes);
    let [pictures, sizes_at, ticks_at, rates, rates_at, ts, nu, ref lists @ ..] = words[..] else {
        return Err(SheetFault::Header(bytes.len()));
    };
    let (pictures, rates) = counts(pictures, rates)?;
    judge_offsets([sizes_at, ticks_at, rates_at], pictures)?;
    judge_length(bytes.len(), pictures, rates)?;

    let (sizes, lists) = lists.split_at(pictures);
    let (ticks, rates) = lists.split_at(pictures);
    Ok(Sheet {
        clock: Clock { ts, nu },
        rates: rates.to_vec(),
        sizes: sizes.to_vec(),
        ticks: ticks.to_vec(),
    })
}

/// Bytes left over at the end belong to no word.
fn words(bytes: &[u8]) -> Vec<u32> {
    let words = bytes.chunks_exact(WORD_BYTES);
    words
        .map(|word| u32::from_le_bytes([word[0], word[1], word[2], word[3]]))
        .collect()
}

fn counts(pictures: u32, rates: u32) -> Result<(usize, usize), SheetFault> {
    if !(1..=PICTURES_MAX).contains(&(pictures as usize)) {
        return Err(SheetFault::Pictures(pictures));
    }
    if !(1..=RATES_MAX).contains(&(rates as usize)) {
        return Err(SheetFault::Rates(rates));
    }
    Ok((pictures as usize, rates as usize))
}

/// Where the sizes, the ticks and the rates begin.
fn offsets(pictures: usize) -> [u32; 3] {
    [0, pictures, 2 * pictures].map(|before| (HEADER_BYTES + WORD_BYTES * before) as u32)
}

fn judge_offsets(given_offsets: [u32; 3], pictures: usize) -> Result<(), SheetFault> {
    let lists = ["sizes", "ticks", "rates"];
    for ((list, given), right) in lists.into_iter().zip(given_offsets).zip(offsets(pictures)) {
        if given != right {
            return Err(SheetFault::Offset { list, given, right });
        }
    }
    Ok(())
}

fn judge_length(given: usize, pictures: usize, rates: usize) -> Result<(), SheetFault> {
    let right = HEADER_BYTES + WORD_BYTES * (2 * pictures + rates);
    if given != right {
        return Err(SheetFault::Length { given, right });
    }
    Ok(())
}
