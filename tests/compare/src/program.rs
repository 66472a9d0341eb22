//! The built program, crates/plan/out/plan, run on a sheet.

use std::io::Write;
use std::path::Path;
use std::process::{Child, Command, Stdio};

/// What the program prints for these bytes on its standard input.
pub fn run(sheet: &[u8]) -> Vec<u8> {
    let mut program = start(Stdio::piped());
    // The program reads no more than it needs, so this may end at a pipe that nobody reads.
    let _ = program.stdin.take().unwrap().write_all(sheet);
    printed(program)
}

/// What the program prints for what stands behind its standard input.
pub fn run_on(input: impl Into<Stdio>) -> Vec<u8> {
    printed(start(input.into()))
}

fn start(input: Stdio) -> Child {
    let path = Path::new(env!("CARGO_MANIFEST_DIR")).join("../../crates/plan/out/plan");
    let mut command = Command::new(&path);
    match command.stdin(input).stdout(Stdio::piped()).spawn() {
        Ok(program) => program,
        Err(fault) => panic!("{}: {fault}: run scripts/test first", path.display()),
    }
}

fn printed(program: Child) -> Vec<u8> {
    let output = program.wait_with_output().unwrap();
    assert!(output.status.success());
    output.stdout
}
