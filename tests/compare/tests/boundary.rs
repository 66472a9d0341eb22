//! The boundary as its callers meet it: C programs through include/planner.h and the Rust example
//! print what is expected.

use std::path::{Path, PathBuf};
use std::process::Command;

const README: &str = include_str!("../../../README.md");

fn root() -> PathBuf {
    Path::new(env!("CARGO_MANIFEST_DIR")).join("../..")
}

fn output(command: &mut Command) -> String {
    let output = command.output().unwrap();
    let errors = String::from_utf8(output.stderr).unwrap();
    assert!(output.status.success(), "{command:?}\n{errors}");
    String::from_utf8(output.stdout).unwrap()
}

fn c_output(source: &str, program: &str) -> String {
    output_in("c99", source, program)
}

fn output_in(dialect: &str, source: &str, program: &str) -> String {
    let program = Path::new(env!("CARGO_TARGET_TMPDIR")).join(program);
    let mut compile = Command::new("cc");
    compile.arg(format!("-std={dialect}"));
    compile.args([
        "-pedantic",
        "-Wall",
        "-Wextra",
        "-Wconversion",
        "-Werror",
        "-I",
    ]);
    compile.arg(root().join("include")).arg(root().join(source));
    compile.arg(root().join("crates/planner_c/out/libplanner_c.a"));
    output(compile.arg("-o").arg(&program));
    output(&mut Command::new(program))
}

#[test]
fn every_field_of_every_answer_in_c() {
    let printed = c_output("tests/compare/c/answers.c", "answers");
    assert_eq!(printed, include_str!("../c/answers.txt"));
}

#[test]
fn the_example_in_c() {
    let printed = c_output("examples/c/plan_d.c", "plan_d");
    assert_eq!(printed, include_str!("../../../examples/plan_d.txt"));
}

#[test]
fn the_constants_in_every_dialect_of_c() {
    for dialect in ["c90", "c99", "c11", "c17"] {
        output_in(dialect, "tests/compare/c/header.c", dialect);
    }
}

fn rust_example(name: &str) -> String {
    let mut run = Command::new(env!("CARGO"));
    run.args(["run", "--quiet", "--offline", "--package", "planner"]);
    output(run.args(["--example", name]).current_dir(root()))
}

#[test]
fn the_example_in_rust() {
    let expected = include_str!("../../../examples/plan_d.txt");
    assert_eq!(rust_example("plan_d"), expected);
}

/// The figures of README.md on a lookup between far rows.
#[test]
fn the_example_of_far_rows() {
    let expected = "looked up at 320000: 252269\nleast at 320000: 45440\n";
    assert_eq!(rust_example("far_rows"), expected);
    let words: Vec<&str> = README.split_whitespace().collect();
    let said = "at 320000 is 252269 bits where 45440 are the least";
    assert!(words.join(" ").contains(said));
}
