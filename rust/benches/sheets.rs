//! Sheets of 4,096 pictures and 32 rates, opened, planned and printed: the library against a
//! straightforward program in Rust that judges nothing.

#[path = "common/rounds.rs"]
mod rounds;
#[path = "common/straight.rs"]
mod straight;

use planner::{sheet_text, Printed, Recording};
use std::fmt::Write;
use std::hint::black_box;

fn main() {
    let mut text = [0; 2048];
    let mut length = 0;
    let mut straight_text = String::new();
    let times = rounds::in_turns(
        |round| sheet(&straight::pictures(round)),
        |sheet| length = table_length(sheet_text(black_box(sheet), &mut text).expect("room")),
        |sheet| straight_text = print(black_box(sheet)),
    );
    assert_eq!(&text[..length], straight_text.as_bytes());
    rounds::report(["sheet, library", "sheet, straightforward"], &times);
    println!("{:.0} sheets a second", 1.0 / times[0].median);
}

fn table_length(printed: Printed) -> usize {
    match printed {
        Printed::Table(length) => length,
        Printed::Line(_, refused) => panic!("{refused}"),
    }
}

fn sheet((sizes, ticks): &(Vec<u64>, Vec<u64>)) -> Vec<u8> {
    let (rates, n) = (straight::rates(), sizes.len() as u64);
    let header = [n, 28, 28 + 4 * n, rates.len() as u64, 28 + 8 * n, 50, 1];
    let words = [&header[..], sizes, ticks, &rates].concat();
    let words = words.into_iter().map(|word| word as u32);
    words.flat_map(u32::to_le_bytes).collect()
}

fn print(sheet: &[u8]) -> String {
    let words: Vec<u64> = sheet
        .chunks_exact(4)
        .map(|word| u32::from_le_bytes([word[0], word[1], word[2], word[3]]).into())
        .collect();
    let (n, m) = (words[0] as usize, words[3] as usize);
    let (sizes, lists) = words[7..].split_at(n);
    let (ticks, rates) = lists.split_at(n);
    let rec = Recording {
        sizes,
        ticks,
        ts: words[5],
        nu: words[6],
    };
    let (mut buffers, mut fullnesses) = (vec![0; m], vec![0; m]);
    straight::table(&rec, rates, &mut buffers, &mut fullnesses);
    let mut text = String::from("rate buffer start\n");
    for row in 0..m {
        writeln!(text, "{} {} {}", rates[row], buffers[row], fullnesses[row]).expect("a line");
    }
    text
}
