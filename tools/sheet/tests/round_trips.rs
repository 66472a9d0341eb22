//! Making and showing undo each other, and the second program makes the same sheets.

use oracle::recording::{Clock, Recording};
use oracle::sheet::{make_sheet, open_sheet};
use oracle::xorshift::XorShift;
use sheet::{make, show, PICTURES_MAX, RATES_MAX};

struct Numbers {
    clock: Clock,
    rates: Vec<u64>,
    sizes: Vec<u64>,
    ticks: Vec<u64>,
}

/// A word of 32 bits; short ones are as likely as long ones.
fn word(random: &mut XorShift) -> u64 {
    let width = random.range(0, 32);
    random.range(0, (1 << width) - 1)
}

fn words(random: &mut XorShift, count: usize) -> Vec<u64> {
    (0..count).map(|_| word(random)).collect()
}

fn numbers(random: &mut XorShift, pictures: usize, rates: usize) -> Numbers {
    Numbers {
        clock: Clock {
            ts: word(random),
            nu: word(random),
        },
        rates: words(random, rates),
        sizes: words(random, pictures),
        ticks: words(random, pictures),
    }
}

fn any_numbers(random: &mut XorShift) -> Numbers {
    let pictures = random.range(1, 40) as usize;
    let rates = random.range(1, 32) as usize;
    numbers(random, pictures, rates)
}

fn sheet_of(numbers: &Numbers) -> Vec<u8> {
    let rec = Recording {
        sizes: &numbers.sizes,
        ticks: &numbers.ticks,
        clock: numbers.clock,
    };
    make_sheet(&rec, &numbers.rates)
}

/// The lines of the normal form, as words.
fn lines_of(numbers: &Numbers) -> Vec<Vec<String>> {
    let named = |name: &str, values: &[u64]| {
        let values = values.iter().map(u64::to_string);
        [name.to_string()].into_iter().chain(values).collect()
    };
    let Clock { ts, nu } = numbers.clock;
    let mut lines = vec![named("clock", &[ts, nu]), named("rates", &numbers.rates)];
    for (size, tick) in numbers.sizes.iter().zip(&numbers.ticks) {
        lines.push(vec![size.to_string(), tick.to_string()]);
    }
    lines
}

fn normal_text(numbers: &Numbers) -> String {
    let lines = lines_of(numbers).into_iter();
    lines.map(|words| words.join(" ") + "\n").collect()
}

fn pick<'a>(random: &mut XorShift, choices: &[&'a str]) -> &'a str {
    choices[random.range(0, choices.len() as u64 - 1) as usize]
}

/// The same numbers with white space, zeros in front, comments and blank lines at will.
fn ragged_text(numbers: &Numbers, random: &mut XorShift) -> String {
    let mut lines = lines_of(numbers);
    if random.range(0, 1) == 1 {
        lines.swap(0, 1);
    }
    let mut text = String::new();
    for words in lines {
        text += pick(
            random,
            &["", "\n", "\r\n", " \t\n", "#\n", "# 7 \u{e9}\r\n"],
        );
        for word in words {
            text += pick(random, &["", " ", "\t", "  \t "]);
            if word.starts_with(|first: char| first.is_ascii_digit()) {
                text += pick(random, &["", "", "0", "00000000000"]);
            }
            text += &word;
            text += pick(random, &[" ", "\t", "\t\t "]);
        }
        text += pick(random, &["\n", "\r\n"]);
    }
    text + pick(random, &["", "\n", "# the end"])
}

fn round_trip(numbers: &Numbers) {
    let text = normal_text(numbers);
    let sheet = sheet_of(numbers);
    assert_eq!(make(text.as_bytes()), Ok(sheet.clone()));
    assert_eq!(show(&sheet), Ok(text));
}

#[test]
fn random_sheets() {
    let mut random = XorShift::new(1);
    for _ in 0..2_000 {
        round_trip(&any_numbers(&mut random));
    }
}

#[test]
fn the_shortest_and_the_longest_sheets() {
    let mut random = XorShift::new(2);
    for pictures in [1, PICTURES_MAX] {
        for rates in [1, RATES_MAX] {
            round_trip(&numbers(&mut random, pictures, rates));
        }
    }
}

#[test]
fn the_least_and_the_largest_words() {
    for value in [0, u64::from(u32::MAX)] {
        round_trip(&Numbers {
            clock: Clock {
                ts: value,
                nu: value,
            },
            rates: vec![value; 3],
            sizes: vec![value; 5],
            ticks: vec![value; 5],
        });
    }
}

#[test]
fn ragged_texts() {
    let mut random = XorShift::new(3);
    for _ in 0..2_000 {
        let numbers = any_numbers(&mut random);
        let text = ragged_text(&numbers, &mut random);
        let sheet = make(text.as_bytes()).unwrap();
        assert_eq!(sheet, sheet_of(&numbers), "{text:?}");
        assert_eq!(show(&sheet), Ok(normal_text(&numbers)), "{text:?}");
    }
}

#[test]
fn the_last_line_may_lack_its_newline() {
    let sheet = make(b"clock 50 1\nrates 9\n5 0\n").unwrap();
    for text in ["clock 50 1\nrates 9\n5 0", "rates 9\r\nclock 50 1\r\n5 0\r"] {
        assert_eq!(make(text.as_bytes()), Ok(sheet.clone()));
    }
}

/// All numbers are in range, so that the second program refuses the layout or nothing.
#[test]
fn damaged_sheets_are_shown_just_when_they_open() {
    let mut random = XorShift::new(4);
    let mut shown = 0;
    for _ in 0..20_000 {
        let count = random.range(1, 5);
        let mut bytes = sheet_of(&Numbers {
            clock: Clock { ts: 50, nu: 1 },
            rates: (1..=random.range(1, 5)).collect(),
            sizes: vec![1; count as usize],
            ticks: (0..count).collect(),
        });
        damage(&mut bytes, &mut random);
        let text = show(&bytes);
        assert_eq!(text.is_ok(), open_sheet(&bytes).is_ok(), "{bytes:?}");
        if let Ok(text) = text {
            assert_eq!(make(text.as_bytes()), Ok(bytes));
            shown += 1;
        }
    }
    assert!((1..20_000).contains(&shown));
}

/// Sets a byte among the counts and offsets to a small number, and perhaps the length.
fn damage(bytes: &mut Vec<u8>, random: &mut XorShift) {
    let place = random.range(0, 19) as usize;
    bytes[place] = random.range(0, 9) as u8;
    if random.range(0, 3) == 0 {
        let length = random.range(0, bytes.len() as u64 + 8) as usize;
        bytes.resize(length, 1);
    }
}
