//! The built program as its users call it, and what it prints, read back.

#![allow(dead_code)]

pub mod draws;
pub mod read;

use std::fs;
use std::io::Write;
use std::path::{Path, PathBuf};
use std::process::{Command, Stdio};

pub fn root() -> PathBuf {
    Path::new(env!("CARGO_MANIFEST_DIR")).join("../..")
}

/// An empty folder of the test's own.
pub fn folder(name: &str) -> PathBuf {
    let folder = Path::new(env!("CARGO_TARGET_TMPDIR")).join(name);
    let _ = fs::remove_dir_all(&folder);
    fs::create_dir_all(&folder).unwrap();
    folder
}

/// An empty folder outside the repository, for links: the prover takes no repository that has some.
/// Removed in the end.
pub struct Outside(pub PathBuf);

impl Outside {
    pub fn new(name: &str) -> Outside {
        let name = format!("kashuloden-{name}-{}", std::process::id());
        let folder = std::env::temp_dir().join(name);
        fs::create_dir(&folder).unwrap();
        Outside(folder)
    }
}

impl Drop for Outside {
    fn drop(&mut self) {
        let _ = fs::remove_dir_all(&self.0);
    }
}

pub struct Said {
    pub status: i32,
    pub out: Vec<u8>,
    pub err: String,
}

impl Said {
    /// Answered, whatever was said beside.
    #[track_caller]
    pub fn answer(self) -> String {
        assert_eq!(self.status, 0, "{}", self.err);
        String::from_utf8(self.out).unwrap()
    }

    /// Not answered: the status, and all that standard error has; nothing is printed.
    #[track_caller]
    pub fn fails(self, status: i32, words: &str) {
        assert_eq!(self.err, format!("{words}\n"));
        assert_eq!((self.status, self.out), (status, Vec::new()));
    }

    /// The same of a wrong command line, whose usage stands in a second line.
    #[track_caller]
    pub fn is_wrong_call(self, words: &str) {
        let (first, usage) = self.err.split_once('\n').unwrap_or((&self.err, ""));
        assert_eq!(first, words);
        assert!(usage.starts_with("usage: kashuloden "), "{usage}");
        assert_eq!((self.status, self.out), (2, Vec::new()));
    }

    /// Answered, with these lines among those on standard error that begin with `note: `.
    #[track_caller]
    pub fn notes(&self, notes: &[&str]) {
        assert_eq!(self.status, 0, "{}", self.err);
        let said = self.err.lines().filter(|line| line.starts_with("note: "));
        assert_eq!(said.collect::<Vec<_>>(), notes);
    }
}

/// Calls the program in the folder of the sources, with that standard input.
pub fn run(words: &[&str], input: &[u8]) -> Said {
    let mut command = Command::new(env!("CARGO_BIN_EXE_kashuloden"));
    command.args(words).current_dir(root());
    say(&mut command, input)
}

/// The same with the words of one line.
pub fn call(line: &str, input: impl AsRef<[u8]>) -> Said {
    run(&line.split(' ').collect::<Vec<_>>(), input.as_ref())
}

pub fn say(command: &mut Command, input: &[u8]) -> Said {
    command.stdin(Stdio::piped());
    let mut program = command
        .stdout(Stdio::piped())
        .stderr(Stdio::piped())
        .spawn()
        .unwrap();
    // A program that has said no reads no further.
    let _ = program.stdin.take().unwrap().write_all(input);
    let output = program.wait_with_output().unwrap();
    Said {
        status: output.status.code().unwrap(),
        out: output.stdout,
        err: String::from_utf8(output.stderr).unwrap(),
    }
}
