//! An independent second program for the leaky bucket planner of document 01, written to judge
//! another implementation: every answer follows the document's words literally, in wide integers.

pub mod bits;
pub mod derived;
pub mod least;
pub mod limits;
pub mod lookup;
pub mod panel;
mod ranges;
pub mod recording;
pub mod refused;
pub mod rounding;
pub mod schedule;
pub mod sheet;
pub mod xorshift;

pub use refused::Refused;
