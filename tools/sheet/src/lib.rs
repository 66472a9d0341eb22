//! A sheet from a text and a text from a sheet: document 01, "The sheet and the printed table".
//!
//! The text of a sheet has the line `clock TS NU` and the line `rates R R ..`, in either order, and
//! then a line `size tick` for each picture. Spaces and tabs separate words; blank lines and lines
//! that begin with `#` are skipped. Whether the numbers are in range and rise is the planner's to
//! judge: here every number of 32 bits will do.

mod bytes;
mod fault;
mod text;

pub use fault::{Fault, LineFault, SheetFault};

pub const HEADER_BYTES: usize = 28;
pub const PICTURES_MAX: usize = 4_096;
pub const RATES_MAX: usize = 32;

/// There are as many ticks as sizes, from 1 to `PICTURES_MAX`, and from 1 to `RATES_MAX` rates.
struct Sheet {
    clock: Clock,
    rates: Vec<u32>,
    sizes: Vec<u32>,
    ticks: Vec<u32>,
}

struct Clock {
    ts: u32,
    nu: u32,
}

/// The sheet of a text.
pub fn make(text: &[u8]) -> Result<Vec<u8>, Fault> {
    text::read(text).map(|sheet| bytes::write(&sheet))
}

/// The text of a sheet, as `make` reads it.
pub fn show(sheet: &[u8]) -> Result<String, Fault> {
    let sheet = bytes::read(sheet).map_err(Fault::Sheet)?;
    Ok(text::write(&sheet))
}
