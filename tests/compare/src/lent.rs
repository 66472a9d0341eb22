//! Lists that an operation is lent, and the entries around them that it is not.

use crate::outcome::{Answer, Outcome};

/// Entries on either side of a lent list that the operation is not lent.
pub const MARGIN: usize = 2;

/// Two lists with their margins; the operation is lent what lies between these.
#[derive(Debug)]
pub struct Lent {
    pub at: usize,
    pub lists: [Vec<u64>; 2],
}

impl Lent {
    pub(crate) fn lend(&self, ask: impl FnOnce(&mut [u64], &mut [u64]) -> Answer) -> Outcome {
        lend_lists(&self.lists, |[first, second]| ask(first, second))
    }
}

/// A byte list with its margins; the operation is lent what lies between these, and its bits are
/// counted from there.
#[derive(Debug)]
pub struct Bytes {
    pub start: u64,
    pub list: Vec<u8>,
}

impl Bytes {
    pub(crate) fn lend(&self, ask: impl FnOnce(&mut [u8]) -> Answer) -> Outcome {
        lend_bytes(&self.list, ask)
    }
}

pub(crate) fn lend_lists<const N: usize>(
    lists: &[Vec<u64>; N],
    ask: impl FnOnce([&mut [u64]; N]) -> Answer,
) -> Outcome {
    let mut lists = lists.clone();
    let answer = ask(lists.each_mut().map(|list| between_margins(list)));
    Outcome {
        answer,
        lent: lists.into(),
    }
}

pub(crate) fn lend_bytes(list: &[u8], ask: impl FnOnce(&mut [u8]) -> Answer) -> Outcome {
    let mut list = list.to_vec();
    let answer = ask(between_margins(&mut list));
    Outcome {
        answer,
        lent: vec![list.into_iter().map(u64::from).collect()],
    }
}

fn between_margins<T>(list: &mut [T]) -> &mut [T] {
    let end = list.len() - MARGIN;
    &mut list[MARGIN..end]
}
