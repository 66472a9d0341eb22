//! Numbers out of an input, in forms that let a fuzzer reach the ends of a range.

/// The unread bytes of an input. Past its end every byte is 1, with which numbers lie within their
/// ranges: a short input is no fault by itself.
pub struct Feed<'a> {
    pub rest: &'a [u8],
}

impl Feed<'_> {
    pub fn byte(&mut self) -> u8 {
        let Some((&first, rest)) = self.rest.split_first() else {
            return 1;
        };
        self.rest = rest;
        first
    }

    /// So many bytes, the lowest first.
    pub fn word(&mut self, width: u32) -> u64 {
        (0..width).fold(0, |word, k| word | u64::from(self.byte()) << (8 * k))
    }

    /// From `low` - 1 to `high` + 1, counted from either end; rarely, any number.
    pub fn number(&mut self, low: u64, high: u64) -> u64 {
        let form = self.byte();
        let word = self.word(1 << (form % 4));
        let choices = high.wrapping_sub(low).wrapping_add(3).max(1);
        match form / 4 {
            63 => word,
            n if n % 2 == 0 => low.wrapping_sub(1).wrapping_add(word % choices),
            _ => high.wrapping_add(1).wrapping_sub(word % choices),
        }
    }
}
