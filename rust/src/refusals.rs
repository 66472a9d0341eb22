//! The numbers of refusals, and what each says.

/// A constant for each number, and the one table of meanings.
macro_rules! refusals {
    ($($name:ident = $number:literal, $words:literal;)*) => {
        $(#[doc = $words] pub const $name: u8 = $number;)*

        const MEANINGS: &[(u8, &str)] = &[$(($name, $words)),*];
    };
}

refusals! {
    PICTURES = 1, "no picture, or too many";
    LENGTHS = 2, "lists of different length";
    CLOCK = 3, "ts, nu or span out of range";
    SIZE = 4, "a picture's size out of range";
    TICK = 5, "a tick not above the one before, or too far from the first";
    RATE = 6, "rate, rate count or row out of range, or rates not rising";
    BUCKET = 7, "buffer or start fullness out of range";
    ROOM = 8, "too little room in a lent list";
    SHORT = 9, "the bits end inside the record, or start is past the end";
    FIELD = 10, "a field of the record breaks its range or its rule";
    CONSTANT = 11, "the row's rate is constant";
    SHEET = 12, "the sheet's header or length is not as it has to be";
    LIMIT = 13, "the panel's limit is no finite number above 0";
}

/// What the number of a refusal says; nothing for a number that is none.
pub fn meaning(number: u8) -> Option<&'static str> {
    let (_, words) = MEANINGS.iter().find(|(given, _)| *given == number)?;
    Some(words)
}
