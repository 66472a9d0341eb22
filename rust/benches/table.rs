//! A table of 32 rates for 4,096 pictures: the library against a straightforward loop in Rust.

#[path = "common/rounds.rs"]
mod rounds;
#[path = "common/straight.rs"]
mod straight;

use planner::{table, Recording};
use std::hint::black_box;

const ROWS: usize = 32;

fn main() {
    let rates = straight::rates();
    let (mut buffers, mut fullnesses) = ([0; ROWS], [0; ROWS]);
    let (mut straight_buffers, mut straight_fullnesses) = ([0; ROWS], [0; ROWS]);
    let times = rounds::in_turns(
        straight::pictures,
        |pictures| {
            let rec = recording(black_box(pictures));
            table(&rec, &rates, 0, &mut buffers, &mut fullnesses).expect("a table");
        },
        |pictures| {
            let rec = recording(black_box(pictures));
            straight::table(
                &rec,
                &rates,
                &mut straight_buffers,
                &mut straight_fullnesses,
            );
        },
    );
    assert_eq!(
        (buffers, fullnesses),
        (straight_buffers, straight_fullnesses)
    );
    rounds::report(["table, library", "table, loop"], &times);
}

fn recording((sizes, ticks): &(Vec<u64>, Vec<u64>)) -> Recording<'_> {
    Recording {
        sizes,
        ticks,
        ts: 50,
        nu: 1,
    }
}
