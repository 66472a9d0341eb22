//! Sheets made of a text and shown as one: the two undo each other, the second program makes the same
//! sheets, and what a sheet cannot hold is refused.

mod common;

use common::draws::up_to_bits;
use common::{call, folder, root, run};
use oracle::recording::{Clock, Recording};
use oracle::sheet::{make_sheet, open_sheet, print};
use oracle::xorshift::XorShift;
use std::fs;

const PICTURES_MAX: usize = planner::limits::SHEET_PICTURES_MAX;
const RATES_MAX: usize = planner::limits::ROWS_MAX;

struct Numbers {
    clock: Clock,
    rates: Vec<u64>,
    sizes: Vec<u64>,
    ticks: Vec<u64>,
}

/// Words of 32 bits, in range or not.
fn numbers(random: &mut XorShift, pictures: usize, rates: usize) -> Numbers {
    let mut words =
        |count: usize| -> Vec<u64> { (0..count).map(|_| up_to_bits(random, 32) - 1).collect() };
    let clock = words(2);
    Numbers {
        clock: Clock {
            ts: clock[0],
            nu: clock[1],
        },
        rates: words(rates),
        sizes: words(pictures),
        ticks: words(pictures),
    }
}

fn sheet_of(numbers: &Numbers) -> Vec<u8> {
    let rec = Recording {
        sizes: &numbers.sizes,
        ticks: &numbers.ticks,
        clock: numbers.clock,
    };
    make_sheet(&rec, &numbers.rates)
}

fn text_of(numbers: &Numbers) -> String {
    let Clock { ts, nu } = numbers.clock;
    let rates: String = numbers
        .rates
        .iter()
        .map(|rate| format!(" {rate}"))
        .collect();
    let pictures = numbers.sizes.iter().zip(&numbers.ticks);
    let pictures = pictures.map(|(size, tick)| format!("{size} {tick}\n"));
    format!(
        "clock {ts} {nu}\nrates{rates}\n{}",
        pictures.collect::<String>()
    )
}

fn round_trip(numbers: &Numbers) {
    let (text, sheet) = (text_of(numbers), sheet_of(numbers));
    let made = call("sheet make", &text);
    assert_eq!((made.status, made.err.as_str()), (0, ""));
    assert!(made.out == sheet, "{text}");
    let shown = call("sheet show", &sheet);
    assert_eq!(shown.status, 0, "{}", shown.err);
    let opened = open_sheet(&sheet).map_err(|refused| refused.number);
    let noted = match opened {
        Ok(_) => String::new(),
        Err(number) => format!("note: refused {number} at "),
    };
    assert!(shown.err.starts_with(&noted) && shown.err.is_empty() == noted.is_empty());
    assert_eq!(String::from_utf8(shown.out).unwrap(), text);
}

#[test]
fn random_sheets() {
    let random = &mut XorShift::new(31);
    for _ in 0..100 {
        let (pictures, rates) = (random.range(1, 40) as usize, random.range(1, 32) as usize);
        round_trip(&numbers(random, pictures, rates));
    }
}

#[test]
fn the_shortest_and_the_longest_sheets() {
    let random = &mut XorShift::new(32);
    for pictures in [1, PICTURES_MAX] {
        for rates in [1, RATES_MAX] {
            round_trip(&numbers(random, pictures, rates));
        }
    }
    let mut largest = numbers(random, 3, 3);
    largest.sizes = vec![u32::MAX.into(); 3];
    largest.ticks = vec![0, 1, u32::MAX.into()];
    round_trip(&largest);
}

/// The sheets in examples/ are made of the texts beside them, and shown without comments.
#[test]
fn the_examples() {
    let folder = fs::read_dir(root().join("examples")).unwrap();
    let paths = folder.map(|entry| entry.unwrap().path());
    let sheets: Vec<_> = paths
        .filter(|path| path.extension() == Some("sheet".as_ref()))
        .collect();
    assert_eq!(sheets.len(), 2);
    for path in sheets {
        let sheet = fs::read(&path).unwrap();
        let text = path.with_extension("txt");
        let made = run(&["sheet", "make", text.to_str().unwrap()], b"");
        assert!(made.out == sheet, "{path:?}");
        let lines = fs::read_to_string(&text).unwrap();
        let bare = lines
            .split_inclusive('\n')
            .filter(|line| !line.starts_with('#'));
        let shown = run(&["sheet", "show", path.to_str().unwrap()], b"").answer();
        assert_eq!(shown, bare.collect::<String>());
    }
}

#[test]
fn recording_d() {
    let sheet = fs::read(root().join("examples/recording_d.sheet")).unwrap();
    let rec = Recording {
        sizes: &[
            5000, 1000, 1000, 1000, 1000, 1000, 500, 500, 500, 500, 500, 500,
        ],
        ticks: &[0, 1, 2, 3, 4, 5, 6, 7, 8, 9, 10, 11],
        clock: Clock { ts: 1, nu: 1 },
    };
    assert_eq!(sheet, make_sheet(&rec, &[250, 500, 1000]));
    let table = "rate buffer start\n250 10250 10250\n500 7500 7500\n1000 5000 5000\n";
    assert_eq!(print(&sheet), table);
    assert_eq!(
        call("sheet text examples/recording_d.sheet", "").answer(),
        table
    );
}

/// What the proved program prints, or its refusal in words.
#[test]
fn tables_of_sheets() {
    let random = &mut XorShift::new(33);
    let mut tables = 0;
    for _ in 0..100 {
        let mut numbers = numbers(random, 3, 2);
        if random.range(0, 3) > 0 {
            numbers.clock = Clock { ts: 50, nu: 1 };
            numbers.sizes = vec![8; 3];
            numbers.ticks = vec![random.range(0, 1), random.range(1, 2), 3];
            numbers.rates = vec![random.range(1, 5), random.range(4, 9)];
        }
        let sheet = sheet_of(&numbers);
        let said = call("sheet text", &sheet);
        match open_sheet(&sheet) {
            Ok(_) => {
                assert_eq!(said.answer(), print(&sheet));
                tables += 1;
            }
            Err(refused) => {
                let words = format!("refused {} at ", refused.number);
                assert!(said.err.starts_with(&words), "{}", said.err);
                assert!(
                    said.err.contains(&format!("{}: ", refused.place)),
                    "{}",
                    said.err
                );
                assert_eq!((said.status, said.out.len()), (1, 0));
            }
        }
    }
    assert!((1..100).contains(&tables));
}

/// The second example is the first recording of tests/data.
#[test]
fn test25() {
    let sheet = fs::read(root().join("examples/test25.sheet")).unwrap();
    let rates = "200000,225000,250000,275000,300000,400000";
    let made = call(
        &format!("sheet make tests/data/recordings/a01_test25.txt --rates {rates}"),
        "",
    );
    assert_eq!(made.out, sheet);
    assert!(open_sheet(&sheet).is_ok());
}

#[test]
fn rates_of_the_command_line() {
    let made = call(
        "sheet make --rates 7,9",
        "clock 50 1\nrates 5\n8000 3\n8000 4\n",
    );
    let shown = run(&["sheet", "show"], &made.out).answer();
    assert_eq!(shown, "clock 50 1\nrates 7 9\n8000 3\n8000 4\n");
    call("sheet make", "clock 50 1\n8000 3\n")
        .is_wrong_call("no rates: give --rates R,R,..; the recording has none of its own");
    let file = folder("rates_of_the_command_line").join("one.sheet");
    let line = format!("sheet make --rates 7,9 --first 1 --out {}", file.display());
    assert_eq!(call(&line, "clock 50 1\n8000 3\n8000 4\n").answer(), "");
    assert_eq!(fs::read(file).unwrap().len(), 44);
}

#[test]
fn what_a_sheet_cannot_hold() {
    let refused = |text: &str, words: &str| call("sheet make", text).fails(1, words);
    let word = "4294967296 does not fit a sheet's word of 32 bits";
    refused(
        "clock 4294967296 1\nrates 9\n8 0\n",
        &format!("the clock: {word}"),
    );
    refused(
        "clock 1 1\nrates 9 4294967296\n8 0\n",
        &format!("rates (line 2): {word}"),
    );
    refused(
        "# too large\n\nclock 1 1\nrates 9\n\n8 0\n4294967296 1\n",
        &format!("picture 1 (line 7): size {word}"),
    );
    refused(
        "clock 1 1\nrates 9\n8 4294967296\n",
        &format!("picture 0 (line 3): tick {word}"),
    );
    let pictures = "8 0\n".repeat(PICTURES_MAX + 1);
    let text = format!("clock 1 1\nrates 9\n{pictures}");
    refused(&text, "refused 1 at 0: 4097 pictures, not 1 to 4096");
    let text = format!("clock 1 1\nrates{}\n8 0\n", " 9".repeat(RATES_MAX + 1));
    refused(&text, "refused 6 at 0: 33 rates, not 1 to 32");
}

/// A sheet of two pictures and one rate.
fn small_sheet() -> Vec<u8> {
    call("sheet make", "clock 50 1\nrates 9\n8 0\n16 1\n").out
}

#[test]
fn sheets_that_do_not_open() {
    let refused = |sheet: &[u8], words: &str| {
        for line in ["sheet show", "plan", "judge"] {
            call(line, sheet).fails(1, &words.replace("at 0: ", "at 0: standard input: "));
        }
    };
    let sheet = small_sheet();
    let with_word = |index: usize, value: u32| {
        let mut sheet = sheet.clone();
        sheet[4 * index..4 * index + 4].copy_from_slice(&value.to_le_bytes());
        sheet
    };
    for length in [1, 4, 27] {
        let words = format!("refused 12 at 0: {length} bytes, fewer than a sheet's header of 28");
        call("sheet show", &sheet[..length])
            .fails(1, &words.replace("at 0: ", "at 0: standard input: "));
    }
    refused(
        &with_word(0, 0),
        "refused 1 at 0: 0 pictures, not 1 to 4096",
    );
    refused(
        &with_word(0, 4_097),
        "refused 1 at 0: 4097 pictures, not 1 to 4096",
    );
    refused(&with_word(3, 33), "refused 6 at 0: 33 rates, not 1 to 32");
    for (index, list, right) in [(1, "sizes", 28), (2, "ticks", 36), (4, "rates", 44)] {
        let words = format!("refused 12 at 0: the offset of the {list} is 29, not {right}");
        refused(&with_word(index, 29), &words);
    }
    refused(
        &sheet[..47],
        "refused 12 at 0: the length is 47 bytes, not 48",
    );
    refused(
        &[&sheet[..], &[0]].concat(),
        "refused 12 at 0: the length is 49 bytes, not 48",
    );
    call("sheet show", "clock 50 1\nrates 9\n8 0\n16 1\n8 2\n").fails(
        1,
        "refused 1 at 0: standard input: 1668246627 pictures, not 1 to 4096",
    );
}

/// With numbers in range the program refuses the layout, or nothing: with the library's number.
#[test]
fn damaged_sheets() {
    let random = &mut XorShift::new(34);
    let mut refusals = std::collections::BTreeSet::new();
    for _ in 0..400 {
        let mut bytes = small_sheet();
        let place = random.range(0, 19) as usize;
        bytes[place] = random.range(0, 9) as u8;
        if random.range(0, 3) == 0 {
            let length = random.range(0, bytes.len() as u64 + 8) as usize;
            bytes.resize(length, 1);
        }
        let said = run(&["sheet", "show", "-"], &bytes);
        let (mut sizes, mut ticks, mut rates) =
            ([0; PICTURES_MAX], [0; PICTURES_MAX], [0; RATES_MAX]);
        match planner::open_sheet(&bytes, &mut sizes, &mut ticks, &mut rates) {
            Ok(_) => assert!(run(&["sheet", "make"], &said.out).out == bytes),
            Err(refused) => {
                let words = format!("refused {} at {}: ", refused.number, refused.place);
                assert!(said.err.starts_with(&words), "{bytes:?} {}", said.err);
                assert_eq!((said.status, said.out.len()), (1, 0));
                refusals.insert(refused.number);
            }
        }
    }
    assert_eq!(refusals.into_iter().collect::<Vec<_>>(), [1, 6, 12]);
}
