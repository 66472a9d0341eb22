//! What a lookup between far rows costs: the buffer looked up at a rate between two rows of a recorded
//! video stream, and the least buffer there.

use planner::{least, limits, look_up, open_sheet, table, Recording, Refused, Table};

const SHEET: &[u8] = include_bytes!("../../examples/test25.sheet");

fn main() -> Result<(), Refused> {
    let mut sizes = [0; limits::SHEET_PICTURES_MAX];
    let mut ticks = [0; limits::SHEET_PICTURES_MAX];
    let mut rates = [0; limits::ROWS_MAX];
    let sheet = open_sheet(SHEET, &mut sizes, &mut ticks, &mut rates)?;
    let rec = Recording {
        sizes: &sizes[..sheet.pictures],
        ticks: &ticks[..sheet.pictures],
        ts: sheet.ts,
        nu: sheet.nu,
    };

    let rates = [250_000, 400_000];
    let (mut buffers, mut fullnesses) = ([0; 2], [0; 2]);
    table(&rec, &rates, 0, &mut buffers, &mut fullnesses)?;
    let rows = Table {
        rates: &rates,
        buffers: &buffers,
        fullnesses: &fullnesses,
        ts: rec.ts,
        nu: rec.nu,
        span: rec.ticks[rec.ticks.len() - 1] - rec.ticks[0],
    };
    let rate = 320_000;
    let found = look_up(&rows, rate)?;
    let least = least(&rec, rate)?;
    println!("looked up at {rate}: {}", found.buffer);
    println!("least at {rate}: {}", least.buffer);
    Ok(())
}
