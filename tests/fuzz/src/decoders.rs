//! From any bytes to a case of one operation.

use crate::feed::Feed;
use compare::lent::{Bytes, MARGIN};
use compare::operations::look_up::{LookUp, Rows};
use compare::operations::open_sheet::OpenSheet;
use compare::operations::read_params::ReadParams;
use compare::operations::Case;
use oracle::limits::{
    BUFFER_MAX, HEADER_BYTES, NU_MAX, RATES_MAX, RATE_MAX, SIZE_MAX, SPAN_MAX, TS_MAX,
};

/// The start, one byte or after the byte 255 eight, and then the bytes to read.
pub fn read_params(data: &[u8]) -> Box<dyn Case> {
    let mut feed = Feed { rest: data };
    let start = match feed.byte() {
        255 => feed.word(8),
        near => u64::from(near),
    };
    let margin = [0xFF; MARGIN];
    Box::new(ReadParams {
        lent: Bytes {
            start,
            list: [&margin, feed.rest, &margin].concat(),
        },
    })
}

/// The clock and the span, the rows, and a rate between two of them.
pub fn look_up(data: &[u8]) -> Box<dyn Case> {
    let feed = &mut Feed { rest: data };
    let mut rows = Rows {
        rates: Vec::new(),
        buffers: Vec::new(),
        fullnesses: Vec::new(),
        ts: feed.number(1, TS_MAX),
        nu: feed.number(1, NU_MAX),
        span: feed.number(0, SPAN_MAX),
    };
    let count = u64::from(feed.byte()) % (RATES_MAX + 2);
    let shortened = feed.byte();
    for _ in 0..count {
        push_row(feed, &mut rows);
    }
    let rate = rate_between(feed, &rows.rates);
    match shortened % 16 {
        0 => rows.rates.truncate(feed.byte().into()),
        2 => rows.buffers.truncate(feed.byte().into()),
        3 => rows.fullnesses.truncate(feed.byte().into()),
        _ => {}
    }
    Box::new(LookUp { rows, rate })
}

fn push_row(feed: &mut Feed, rows: &mut Rows) {
    let before = rows.rates.last().copied().unwrap_or(0);
    rows.rates
        .push(feed.number(before.wrapping_add(1), RATE_MAX));
    let buffer = feed.number(1, BUFFER_MAX);
    rows.buffers.push(buffer);
    rows.fullnesses.push(feed.number(1, buffer));
}

/// A rate from one row to the next, from the least rate to the first row, or from the last row to
/// the largest rate.
fn rate_between(feed: &mut Feed, rates: &[u64]) -> u64 {
    let next = usize::from(feed.byte()) % (rates.len() + 1);
    let low = match next {
        0 => 1,
        _ => rates[next - 1],
    };
    feed.number(low, rates.get(next).copied().unwrap_or(RATE_MAX))
}

/// Bytes as they come, or a sheet made of its parts, cut or longer now and then; and three lists, of
/// which few are too short.
pub fn open_sheet(data: &[u8]) -> Box<dyn Case> {
    let feed = &mut Feed { rest: data };
    let lists = [feed.byte(), feed.byte(), feed.byte()].map(|room| {
        let length = if room < 16 { room } else { SHEET_LIST };
        vec![7; 2 * MARGIN + usize::from(length)]
    });
    let sheet = match feed.byte() {
        0 => feed.rest.to_vec(),
        _ => sheet_of_parts(feed),
    };
    Box::new(OpenSheet { sheet, lists })
}

/// More entries than any list of a sheet made of its parts.
const SHEET_LIST: u8 = 40;

fn sheet_of_parts(feed: &mut Feed) -> Vec<u8> {
    let pictures = u64::from(feed.byte()) % (RATES_MAX + 2);
    let rates = u64::from(feed.byte()) % (RATES_MAX + 2);
    let mut words = vec![
        pictures,
        HEADER_BYTES,
        HEADER_BYTES + 4 * pictures,
        rates,
        HEADER_BYTES + 8 * pictures,
        feed.number(1, TS_MAX),
        feed.number(1, NU_MAX),
    ];
    if let Some(word) = words.get_mut(usize::from(feed.byte()).wrapping_sub(2)) {
        *word = feed.number(*word, *word);
    }
    let extra = feed.byte();
    words.extend((0..pictures).map(|_| feed.number(1, SIZE_MAX)));
    push_rising(feed, &mut words, pictures, SPAN_MAX);
    push_rising(feed, &mut words, rates, RATE_MAX);
    let mut sheet: Vec<u8> = words
        .iter()
        .flat_map(|&word| (word as u32).to_le_bytes())
        .collect();
    match extra {
        0 => sheet.push(0),
        2 => sheet.truncate(feed.byte().into()),
        _ => {}
    }
    sheet
}

fn push_rising(feed: &mut Feed, words: &mut Vec<u64>, count: u64, largest: u64) {
    let mut before: u64 = 0;
    for _ in 0..count {
        before = feed.number(before.wrapping_add(1), largest);
        words.push(before);
    }
}
