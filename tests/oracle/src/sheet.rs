//! The sheet a program reads and the table it prints: document 01, "The sheet and the printed
//! table".

use crate::least::table;
use crate::limits::{HEADER_BYTES, PICTURES_MAX};
use crate::ranges::{judge_rate_count, judge_rates, judge_room};
use crate::recording::{judge, Clock, Recording};
use crate::refused::{refuse, Refused};

#[derive(Clone, Debug, PartialEq, Eq)]
pub struct Sheet {
    pub sizes: Vec<u64>,
    pub ticks: Vec<u64>,
    pub rates: Vec<u64>,
    pub clock: Clock,
}

/// The little-endian words of a byte list; bytes left over at its end belong to no word.
fn words(bytes: &[u8]) -> Vec<u64> {
    bytes
        .chunks_exact(4)
        .map(|word| u64::from(u32::from_le_bytes([word[0], word[1], word[2], word[3]])))
        .collect()
}

/// Without the 28 header bytes all is 12; with them the counts come first (1, then 6), then the
/// offsets and the length (12), then 3, 4, 5 and the list of rates (6). TS and NU out of range are
/// 3, since the header is "not as above" only in what counts, offsets and length say.
pub fn open_sheet(bytes: &[u8]) -> Result<Sheet, Refused> {
    let length = bytes.len() as u64;
    if length < HEADER_BYTES {
        return refuse(12, 0);
    }
    let header = words(&bytes[..HEADER_BYTES as usize]);
    let [n, sizes_at, ticks_at, m, rates_at, ts, nu] = header[..] else {
        unreachable!("28 bytes are seven words");
    };
    if !(1..=PICTURES_MAX).contains(&n) {
        return refuse(1, 0);
    }
    judge_rate_count(m)?;
    let offsets_right = sizes_at == HEADER_BYTES
        && ticks_at == HEADER_BYTES + 4 * n
        && rates_at == HEADER_BYTES + 8 * n;
    if !offsets_right || length != HEADER_BYTES + 8 * n + 4 * m {
        return refuse(12, 0);
    }

    let sheet = Sheet {
        sizes: words(&bytes[sizes_at as usize..ticks_at as usize]),
        ticks: words(&bytes[ticks_at as usize..rates_at as usize]),
        rates: words(&bytes[rates_at as usize..]),
        clock: Clock { ts, nu },
    };
    judge(&recording_of(&sheet))?;
    judge_rates(&sheet.rates)?;
    Ok(sheet)
}

fn recording_of(sheet: &Sheet) -> Recording<'_> {
    Recording {
        sizes: &sheet.sizes,
        ticks: &sheet.ticks,
        clock: sheet.clock,
    }
}

/// Opens a sheet into three lent lists, from their first entries on; room (8) is judged last.
pub fn open_into(
    bytes: &[u8],
    sizes: &mut [u64],
    ticks: &mut [u64],
    rates: &mut [u64],
) -> Result<Sheet, Refused> {
    let sheet = open_sheet(bytes)?;
    let mut lists = [
        (sizes, &sheet.sizes),
        (ticks, &sheet.ticks),
        (rates, &sheet.rates),
    ];
    for (lent, words) in &lists {
        judge_room(lent.len(), 0, words.len())?;
    }
    for (lent, words) in &mut lists {
        lent[..words.len()].copy_from_slice(words);
    }
    Ok(sheet)
}

/// How many bytes of a table were printed, or of a refusal line, with that refusal.
#[derive(Clone, Copy, Debug, PartialEq, Eq)]
pub enum Printed {
    Table(u64),
    Line(u64, Refused),
}

/// Prints to the front of a lent list; too little room is 8.
pub fn print_into(bytes: &[u8], text: &mut [u8]) -> Result<Printed, Refused> {
    let printed = print(bytes);
    judge_room(text.len(), 0, printed.len())?;
    text[..printed.len()].copy_from_slice(printed.as_bytes());
    let length = printed.len() as u64;
    Ok(match open_sheet(bytes) {
        Ok(_) => Printed::Table(length),
        Err(refused) => Printed::Line(length, refused),
    })
}

/// The whole output of the program for that input, every line ended by a newline, the refusal
/// line too.
pub fn print(bytes: &[u8]) -> String {
    match printed_table(bytes) {
        Ok(text) => text,
        Err(refused) => format!("refused {} at {}\n", refused.number, refused.place),
    }
}

fn printed_table(bytes: &[u8]) -> Result<String, Refused> {
    let sheet = open_sheet(bytes)?;
    let count = sheet.rates.len();
    let mut buffers = vec![0; count];
    let mut fullnesses = vec![0; count];
    table(
        &recording_of(&sheet),
        &sheet.rates,
        0,
        &mut buffers,
        &mut fullnesses,
    )?;
    let mut text = String::from("rate buffer start\n");
    for row in 0..count {
        let (rate, buffer, start) = (sheet.rates[row], buffers[row], fullnesses[row]);
        text.push_str(&format!("{rate} {buffer} {start}\n"));
    }
    Ok(text)
}

/// The sheet of a recording and its rates, judged by nobody; each value must fit a word.
pub fn make_sheet(rec: &Recording, rates: &[u64]) -> Vec<u8> {
    let n = rec.sizes.len() as u64;
    let m = rates.len() as u64;
    let header = [
        n,
        HEADER_BYTES,
        HEADER_BYTES + 4 * n,
        m,
        HEADER_BYTES + 8 * n,
        rec.clock.ts,
        rec.clock.nu,
    ];
    let mut bytes = Vec::new();
    for &value in [&header[..], rec.sizes, rec.ticks, rates].concat().iter() {
        let word = u32::try_from(value).expect("a value of a sheet fits a word");
        bytes.extend_from_slice(&word.to_le_bytes());
    }
    bytes
}
