//! The program itself: what it writes, what it says and how it ends.

use std::io::Write;
use std::process::{Command, Output, Stdio};

const TEXT: &[u8] = include_bytes!("../../../examples/recording_d.txt");
const SHEET: &[u8] = include_bytes!("../../../examples/recording_d.sheet");
const USAGE: &str = "usage: sheet make < TEXT > SHEET, or sheet show < SHEET > TEXT\n";

fn run(arguments: &[&str], input: &[u8]) -> Output {
    let mut program = Command::new(env!("CARGO_BIN_EXE_sheet"))
        .args(arguments)
        .stdin(Stdio::piped())
        .stdout(Stdio::piped())
        .stderr(Stdio::piped())
        .spawn()
        .unwrap();
    program.stdin.take().unwrap().write_all(input).unwrap();
    program.wait_with_output().unwrap()
}

fn check(output: Output, written: &[u8], said: &str, status: i32) {
    assert_eq!(output.stdout, written);
    assert_eq!(String::from_utf8(output.stderr).unwrap(), said);
    assert_eq!(output.status.code(), Some(status));
}

#[test]
fn makes() {
    check(run(&["make"], TEXT), SHEET, "", 0);
}

#[test]
fn shows() {
    let first = TEXT.iter().position(|&byte| byte == b'\n').unwrap();
    check(run(&["show"], SHEET), &TEXT[first + 1..], "", 0);
}

#[test]
fn refuses() {
    let text = b"# a picture too large\n\nclock 1 1\nrates 250\n\n5000 0\n4294967296 1\n";
    let said = "sheet: line 7: 4294967296 does not fit a word of 32 bits\n";
    check(run(&["make"], text), b"", said, 1);
    let said = "sheet: the length is 135 bytes, not 136\n";
    check(run(&["show"], &SHEET[..135]), b"", said, 1);
}

#[test]
fn says_its_usage() {
    for arguments in [&[][..], &["print"], &["make", "show"], &["--help"]] {
        check(run(arguments, b""), b"", USAGE, 2);
    }
}
