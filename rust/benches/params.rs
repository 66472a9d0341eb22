//! Reading a record of 32 rows at the end of a list of 2^20 bytes, against reading it at the
//! start: the work grows with the bits of the record and nothing else.

#[path = "common/rounds.rs"]
mod rounds;

use planner::{read_params, write_params, Params};
use std::hint::black_box;

const BYTES: usize = 1 << 20;
const READS: u32 = 50;
const LARGEST: u64 = 4_294_967_294;

fn main() {
    let record = Params {
        cpb_cnt: 32,
        bit_rate_value_minus1: std::array::from_fn(|row| LARGEST - 31 + row as u64),
        cpb_size_value_minus1: std::array::from_fn(|row| LARGEST - row as u64),
        ..Params::default()
    };
    let mut bytes = vec![0; BYTES];
    let length = write_params(&record, &mut bytes, 0).expect("room at the start");
    let last = 8 * BYTES as u64 - length;
    write_params(&record, &mut bytes, last).expect("room at the end");
    for start in [0, last] {
        assert_eq!(read_params(&bytes, start), Ok((record, start + length)));
    }

    let times = rounds::in_turns(|_| (), |()| read(&bytes, last), |()| read(&bytes, 0));
    let names = ["50 records, at the end", "50 records, at the start"];
    rounds::report(names, &times);
    let each = times[0].median / f64::from(READS);
    println!("{:.0} records of {length} bits a second", 1.0 / each);
}

fn read(bytes: &[u8], start: u64) {
    for _ in 0..READS {
        black_box(read_params(black_box(bytes), black_box(start))).expect("a record");
    }
}
