//! A refusal: its number and its place as in document 01, "When the planner says no".

/// A refusal carries its number and place and nothing else; where an operation is refused, no
/// lent list has changed.
#[derive(Clone, Copy, Debug, PartialEq, Eq)]
pub struct Refused {
    pub number: u8,
    pub place: u64,
}

pub fn refuse<T>(number: u8, place: u64) -> Result<T, Refused> {
    Err(Refused { number, place })
}
