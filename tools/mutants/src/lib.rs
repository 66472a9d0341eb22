//! Changes of the crates' code, one comparison, constant or operand at a time, for the prover to
//! refuse.
//!
//! A comparison becomes strict or loses that, or is turned round. A number becomes one more. A
//! named constant, a variable and a field become the next of the same type, in the order in which
//! they are declared and in a circle. The operands of a sign change places. Clauses, patterns, types
//! and what is imported stay.

mod changes;
mod items;
mod scope;
mod tokens;
mod trial;

pub use changes::{changes, Change};
pub use items::{Declared, File};
pub use trial::{Scratch, Verdict};
