//! The operations, a file for each: its cases, how they are drawn and damaged, what the library and
//! what the second program answer to one, and what the random cases meet. What several operations
//! need stands in the modules beside this one.

use crate::outcome::Outcome;
use oracle::xorshift::XorShift;
use std::fmt::Debug;

/// One call of one operation.
pub trait Case: Debug {
    /// Puts one value or list out of its range, so that the call is refused unless the damage
    /// happens to be harmless. `first` holds one time in two, for a choice between two of them.
    fn damage(&mut self, random: &mut XorShift, first: bool);

    fn by_library(&self) -> Outcome;

    fn by_oracle(&self) -> Outcome;
}

pub struct Operation {
    pub name: &'static str,
    /// Draws a case without a fault, but for the limit of a panel, which may be any double, and the
    /// bytes of a record to read, which may be any bytes.
    pub draw: fn(&mut XorShift) -> Box<dyn Case>,
    /// The kinds of answer that random cases meet, all of them.
    pub kinds: &'static [&'static str],
    /// The numbers of the refusals that random cases meet, all of them: those that document 01,
    /// "When the planner says no", has for the operation.
    pub refusals: &'static [u8],
}

/// The operation of a file, by the name of the file.
macro_rules! operation {
    ($name:ident) => {
        Operation {
            name: stringify!($name),
            draw: $name::draw,
            kinds: $name::KINDS,
            refusals: $name::REFUSALS,
        }
    };
}

/// The files of the library's operations and the list of these. `cargo fmt` does not look behind a
/// macro: `rustfmt` is given the files by name.
macro_rules! operations {
    ($($name:ident)*) => {
        $(pub mod $name;)*

        /// The library's operations.
        pub static OPERATIONS: &[Operation] = &[$(operation!($name)),*];
    };
}

operations! {
    judge
    verdict
    schedule
    least
    table
    look_up
    seconds
    panel
    judge_params
    params_length
    params_row
    read_params
    write_params
    row_verdict
    open_sheet
    sheet_text
}

pub mod plan;

/// The built program.
pub static PROGRAM: Operation = operation!(plan);
