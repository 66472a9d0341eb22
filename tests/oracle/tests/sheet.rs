//! Sheets: opening, the order of their refusals and what is printed. Document 01, "The sheet and
//! the printed table".

use oracle::least::least;
use oracle::recording::{Clock, Recording};
use oracle::refused::refuse;
use oracle::sheet::{make_sheet, open_sheet, print, Sheet};

const SMALL: Recording = Recording {
    sizes: &[100, 100, 900, 100],
    ticks: &[4_294_967_290, 4_294_967_291, 4_294_967_292, 4_294_967_295],
    clock: Clock { ts: 2, nu: 1 },
};

fn set_word(bytes: &mut [u8], index: usize, value: u32) {
    bytes[4 * index..4 * index + 4].copy_from_slice(&value.to_le_bytes());
}

#[test]
fn opens_what_was_made() {
    let sheet = Sheet {
        sizes: SMALL.sizes.to_vec(),
        ticks: SMALL.ticks.to_vec(),
        rates: vec![300, 134_217_728],
        clock: SMALL.clock,
    };
    let bytes = make_sheet(&SMALL, &sheet.rates);
    assert_eq!(bytes.len(), 28 + 8 * 4 + 4 * 2);
    assert_eq!(bytes[..8], [4, 0, 0, 0, 28, 0, 0, 0]);
    assert_eq!(open_sheet(&bytes), Ok(sheet));
    assert_eq!(
        print(&bytes),
        "rate buffer start\n300 900 800\n134217728 900 100\n"
    );
}

#[test]
fn the_longest_sheet() {
    let ticks: Vec<u64> = (0..4_096).collect();
    let rates: Vec<u64> = (1..=32).collect();
    let rec = Recording {
        sizes: &[1; 4_096],
        ticks: &ticks,
        clock: Clock { ts: 1, nu: 1 },
    };
    let mut bytes = make_sheet(&rec, &rates);
    assert_eq!(bytes.len(), 32_924);
    assert_eq!(open_sheet(&bytes).unwrap().rates, rates);
    bytes.push(0);
    assert_eq!(print(&bytes), "refused 12 at 0\n");
}

#[test]
fn several_at_once_in_a_sheet() {
    let mut bytes = make_sheet(&SMALL, &[300, 400]);
    for (index, wrong) in [
        (0, 0),
        (1, 27),
        (2, 45),
        (3, 33),
        (4, 61),
        (5, 0),
        (6, 65_537),
        (8, 16_777_217),
        (12, 4_294_967_290),
        (16, 300),
    ] {
        set_word(&mut bytes, index, wrong);
    }
    bytes.push(0);
    for length in 0..28 {
        assert_eq!(open_sheet(&bytes[..length]), refuse(12, 0));
    }
    let steps: [(u8, u64, usize, u32); 10] = [
        (1, 0, 0, 4),
        (6, 0, 3, 2),
        (12, 0, 1, 28),
        (12, 0, 2, 44),
        (12, 0, 4, 60),
        (3, 0, 5, 131_072),
        (3, 0, 6, 65_536),
        (4, 1, 8, 16_777_216),
        (5, 1, 12, 4_294_967_291),
        (6, 1, 16, 301),
    ];
    for (number, place, index, right) in steps {
        assert_eq!(open_sheet(&bytes), refuse(number, place));
        let line = format!("refused {number} at {place}\n");
        assert_eq!(print(&bytes), line);
        set_word(&mut bytes, index, right);
        if index == 4 {
            assert_eq!(open_sheet(&bytes), refuse(12, 0));
            bytes.pop();
        }
    }
    let opened = open_sheet(&bytes).unwrap();
    assert_eq!(opened.rates, [300, 301]);
    let rec = Recording {
        sizes: &opened.sizes,
        ticks: &opened.ticks,
        clock: opened.clock,
    };
    let line = |rate| {
        let bucket = least(&rec, rate).unwrap();
        format!("{rate} {} {}\n", bucket.buffer, bucket.fullness)
    };
    let text = format!("rate buffer start\n{}{}", line(300), line(301));
    assert_eq!(print(&bytes), text);
}

#[test]
fn both_sides_of_each_count_and_length() {
    let with_counts = |n: u32, m: u32| {
        let mut bytes = make_sheet(&SMALL, &[300]);
        set_word(&mut bytes, 0, n);
        set_word(&mut bytes, 3, m);
        open_sheet(&bytes[..28]).err().unwrap().number
    };
    assert_eq!(with_counts(0, 0), 1);
    assert_eq!(with_counts(1, 0), 6);
    assert_eq!(with_counts(1, 1), 12);
    assert_eq!(with_counts(4_096, 32), 12);
    assert_eq!(with_counts(4_096, 33), 6);
    assert_eq!(with_counts(4_097, 33), 1);
    assert_eq!(with_counts(u32::MAX, u32::MAX), 1);
    let bytes = make_sheet(&SMALL, &[300]);
    for length in 28..bytes.len() {
        assert_eq!(open_sheet(&bytes[..length]), refuse(12, 0));
    }
    for (index, offset) in [(1, 28), (2, 44), (4, 60)] {
        for wrong in [0, offset - 1, offset + 1, offset + 4] {
            let mut bytes = bytes.clone();
            set_word(&mut bytes, index, wrong);
            assert_eq!(open_sheet(&bytes), refuse(12, 0));
        }
    }
}
