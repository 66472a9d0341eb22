//! Every refusal, with its line and its words.

use sheet::{make, show, PICTURES_MAX, RATES_MAX};

fn refused(text: impl AsRef<[u8]>) -> String {
    make(text.as_ref()).unwrap_err().to_string()
}

/// What is said of a third line, after clock and rates.
fn third(line: &str) -> String {
    refused(format!("clock 50 1\nrates 9\n{line}\n5 0\n"))
}

#[test]
fn words_that_are_no_number() {
    for (text, word) in [
        ("clock 50 one", "one"),
        ("clock 50 +1", "+1"),
        ("clock -50 1", "-50"),
        ("rates 9 1.5", "1.5"),
        ("rates 1,000", "1,000"),
        ("rates 9 #", "#"),
        ("rates 0x9", "0x9"),
        ("rates \u{663}", "\u{663}"),
    ] {
        let said = format!("line 1: \"{word}\" is not a whole decimal number");
        assert_eq!(refused(text), said);
    }
    assert_eq!(
        third("5 1e3"),
        "line 3: \"1e3\" is not a whole decimal number"
    );
    assert_eq!(
        third("5 \r0"),
        "line 3: \"\\r0\" is not a whole decimal number"
    );
}

#[test]
fn numbers_above_a_word() {
    let said = "4294967296 does not fit a word of 32 bits";
    assert_eq!(refused("clock 4294967296 1"), format!("line 1: {said}"));
    assert_eq!(refused("\nclock 1 4294967296"), format!("line 2: {said}"));
    assert_eq!(refused("rates 9 4294967296"), format!("line 1: {said}"));
    assert_eq!(third("4294967296 0"), format!("line 3: {said}"));
    assert_eq!(third("5 4294967296"), format!("line 3: {said}"));
    assert_eq!(
        third("5 99999999999999999999999"),
        "line 3: 99999999999999999999999 does not fit a word of 32 bits"
    );
    assert!(make(b"clock 4294967295 4294967295\nrates 4294967295\n4294967295 4294967295").is_ok());
}

#[test]
fn lines_with_too_few_or_too_many_words() {
    for (text, count) in [("clock", 0), ("clock 50", 1), ("clock 50 1 1", 3)] {
        let said = format!("line 1: clock takes 2 numbers, TS and NU, not {count}");
        assert_eq!(refused(text), said);
    }
    for (line, count) in [("5", 1), ("5 0 0", 3), ("5 0 # a comment", 5)] {
        let said = format!("line 3: a picture takes 2 numbers, size and tick, not {count}");
        assert_eq!(third(line), said);
    }
    assert_eq!(
        refused("rates"),
        "line 1: rates takes 1 to 32 numbers, not 0"
    );
}

#[test]
fn the_most_rates() {
    let text = |count| format!("clock 50 1\nrates{}\n5 0\n", " 9".repeat(count));
    assert!(make(text(RATES_MAX).as_bytes()).is_ok());
    let said = "line 2: rates takes 1 to 32 numbers, not 33";
    assert_eq!(refused(text(RATES_MAX + 1)), said);
}

#[test]
fn the_most_pictures() {
    let text = |count| {
        format!(
            "clock 50 1\nrates 9\n# sizes and ticks\n{}",
            "5 0\n".repeat(count)
        )
    };
    assert!(make(text(PICTURES_MAX).as_bytes()).is_ok());
    let said = "line 4100: more than 4096 pictures";
    assert_eq!(refused(text(PICTURES_MAX + 1)), said);
    assert_eq!(refused(text(PICTURES_MAX + 2)), said);
}

#[test]
fn lines_of_no_known_kind() {
    for (line, word) in [
        ("bucket 400000 400000 359995", "bucket"),
        ("Clock 50 1", "Clock"),
        ("clocks 50 1", "clocks"),
        ("-5 0", "-5"),
        ("5x 0", "5x"),
        (" # not at the line's start", "#"),
        ("\u{feff}clock 50 1", "\\u{feff}clock"),
        ("5\u{b}0", "5\\u{b}0"),
    ] {
        let said = format!("line 3: \"{word}\" is neither clock, rates nor a size");
        assert_eq!(third(line), said);
    }
}

#[test]
fn clock_or_rates_a_second_time() {
    assert_eq!(third("clock 50 1"), "line 3: clock a second time");
    assert_eq!(third("rates 9"), "line 3: rates a second time");
    assert_eq!(third("5 0\n\nrates 9"), "line 5: rates a second time");
    assert_eq!(third("5 0\n\nclock 50 1"), "line 5: clock a second time");
}

#[test]
fn a_picture_before_clock_or_rates() {
    assert_eq!(refused("5 0\n"), "line 1: a picture before clock");
    let said = "line 3: a picture before clock";
    assert_eq!(refused("rates 9\r\n\r\n5 0\r\nclock 50 1"), said);
    let said = "line 3: a picture before rates";
    assert_eq!(refused("#\nclock 50 1\n5 0\nrates 9"), said);
}

#[test]
fn a_text_that_ends_too_early() {
    for (text, said) in [
        ("", "line 1: the text ends before clock"),
        ("\n", "line 2: the text ends before clock"),
        ("# a comment", "line 2: the text ends before clock"),
        ("rates 9\n", "line 2: the text ends before clock"),
        ("rates 9\n ", "line 3: the text ends before clock"),
        ("clock 50 1", "line 2: the text ends before rates"),
        ("clock 50 1\n", "line 2: the text ends before rates"),
        (
            "clock 50 1\nrates 9",
            "line 3: the text ends before a picture",
        ),
        (
            "rates 9\nclock 50 1\n\n",
            "line 4: the text ends before a picture",
        ),
    ] {
        assert_eq!(refused(text), said);
    }
}

#[test]
fn text_that_is_not_utf8() {
    assert_eq!(
        refused(b"clock 50 1\nrates \xff\n"),
        "line 2: not UTF-8 text"
    );
    assert_eq!(
        refused(b"# caf\xe9\nclock 50 1\n"),
        "line 1: not UTF-8 text"
    );
    assert_eq!(refused(b"#\n\n\xc3\n\xa9"), "line 3: not UTF-8 text");
}

#[test]
fn the_first_line_at_fault_is_named() {
    assert_eq!(
        third("5\n6"),
        "line 3: a picture takes 2 numbers, size and tick, not 1"
    );
    assert_eq!(refused(b"5 0\n\xff"), "line 1: a picture before clock");
}

/// A sheet of two pictures and one rate, with that header word set.
fn with_word(index: usize, value: u32) -> Vec<u8> {
    let mut sheet = make(b"clock 50 1\nrates 9\n5 0\n6 1\n").unwrap();
    sheet[4 * index..4 * index + 4].copy_from_slice(&value.to_le_bytes());
    sheet
}

fn unshown(sheet: &[u8]) -> String {
    show(sheet).unwrap_err().to_string()
}

#[test]
fn bytes_without_a_header() {
    let sheet = with_word(0, 0);
    for length in 0..28 {
        let said = format!("{length} bytes, fewer than a header's 28");
        assert_eq!(unshown(&sheet[..length]), said);
    }
    assert_eq!(
        unshown(&sheet[..28]),
        "the picture count is 0, not 1 to 4096"
    );
}

#[test]
fn counts_out_of_range() {
    for count in [0, 4_097, u32::MAX] {
        let said = format!("the picture count is {count}, not 1 to 4096");
        assert_eq!(unshown(&with_word(0, count)), said);
    }
    for count in [0, 33, u32::MAX] {
        let said = format!("the rate count is {count}, not 1 to 32");
        assert_eq!(unshown(&with_word(3, count)), said);
    }
    let said = "the offset of the ticks is 36, not 16412";
    assert_eq!(unshown(&with_word(0, 4_096)), said);
    assert_eq!(
        unshown(&with_word(3, 32)),
        "the length is 48 bytes, not 172"
    );
}

#[test]
fn offsets_that_are_wrong() {
    for (index, list, right) in [(1, "sizes", 28), (2, "ticks", 36), (4, "rates", 44)] {
        for given in [0, right - 1, right + 1, u32::MAX] {
            let said = format!("the offset of the {list} is {given}, not {right}");
            assert_eq!(unshown(&with_word(index, given)), said);
        }
    }
}

#[test]
fn lengths_that_are_wrong() {
    let mut sheet = with_word(0, 2);
    assert!(show(&sheet).is_ok());
    for length in 28..48 {
        let said = format!("the length is {length} bytes, not 48");
        assert_eq!(unshown(&sheet[..length]), said);
    }
    for length in 49..53 {
        sheet.push(0);
        let said = format!("the length is {length} bytes, not 48");
        assert_eq!(unshown(&sheet), said);
    }
}
