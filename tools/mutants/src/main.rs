//! Tries changes of the crates' code on the prover, and lists those that it does not refuse.

use mutants::{changes, Change, Declared, File, Scratch, Verdict};
use std::fmt::{Display, Formatter};
use std::path::{Path, PathBuf};
use std::process::ExitCode;
use std::time::Instant;
use std::{env, fmt, fs, io};

const USAGE: &str = "usage: mutants [CRATE [N]], CRATE one with code, N the number of a change";

/// A file of a crate, by its path in the repository.
struct Source {
    home: String,
    path: PathBuf,
    text: String,
}

/// A change of a crate, by its number from 1 on.
struct Numbered<'a> {
    number: usize,
    source: &'a Source,
    change: Change,
}

impl Display for Numbered<'_> {
    fn fmt(&self, f: &mut Formatter) -> fmt::Result {
        let path = self.source.path.display();
        let Change { line, old, new } = &self.change;
        write!(
            f,
            "{} {path}:{line} `{}` to `{}`",
            self.number,
            old.trim(),
            new.trim()
        )
    }
}

impl Numbered<'_> {
    fn judge(&self, scratch: &Scratch) -> io::Result<(Verdict, String)> {
        let Source { home, path, text } = self.source;
        scratch.judge(home, path, &self.change.applied(text))
    }
}

fn main() -> ExitCode {
    let words: Vec<String> = env::args().skip(1).collect();
    match run(&words) {
        Ok(true) => ExitCode::SUCCESS,
        Ok(false) => {
            eprintln!("{USAGE}");
            ExitCode::from(2)
        }
        Err(fault) => {
            eprintln!("mutants: {fault}");
            ExitCode::FAILURE
        }
    }
}

/// Whether the words ask for changes that are there.
fn run(words: &[String]) -> io::Result<bool> {
    let sources = sources(&fs::read_to_string("crates.txt")?)?;
    let files = sources.iter().map(|it| File::of(&it.home, &it.text));
    let files: Vec<File> = files.collect();
    let mut asked = numbered(&sources, &files);
    if let Some(home) = words.first() {
        asked.retain(|it| it.source.home == *home);
    }
    if let Some(number) = words.get(1) {
        asked.retain(|it| it.number.to_string() == *number);
    }
    if asked.is_empty() || words.len() > 2 {
        return Ok(false);
    }
    let scratch = Scratch::of(Path::new("."))?;
    if words.len() == 2 {
        scratch.prove(&words[0])?;
        let (verdict, words) = asked[0].judge(&scratch)?;
        println!("{words}{}: {verdict}", asked[0]);
        return Ok(true);
    }
    let mut passed = Vec::new();
    for changes in asked.chunk_by(|a, b| a.source.home == b.source.home) {
        passed.extend(try_all(changes, &scratch)?);
    }
    println!("{} not refused", passed.len());
    passed.iter().for_each(|line| println!("{line}"));
    Ok(true)
}

/// The files of all crates, in the order of `crates.txt`.
fn sources(crates: &str) -> io::Result<Vec<Source>> {
    let lines = crates.lines().filter(|line| !line.starts_with('#'));
    let mut sources = Vec::new();
    // Behind the name stands what else the crate is, as in `planner_c staticlib: ..`.
    let heads = lines.filter_map(|line| line.split_once(':'));
    for home in heads.filter_map(|(head, _)| head.split_whitespace().next()) {
        let folder = fs::read_dir(Path::new("crates").join(home).join("src"))?;
        let paths: io::Result<Vec<PathBuf>> = folder.map(|entry| Ok(entry?.path())).collect();
        let mut paths = paths?;
        paths.sort();
        for path in paths {
            let (home, text) = (home.to_string(), fs::read_to_string(&path)?);
            sources.push(Source { home, path, text });
        }
    }
    Ok(sources)
}

/// Every change of every crate, each crate's counted from 1.
fn numbered<'a>(sources: &'a [Source], files: &[File]) -> Vec<Numbered<'a>> {
    let mut all: Vec<Numbered> = Vec::new();
    for (source, file) in sources.iter().zip(files) {
        for change in changes(file, &Declared::of(&source.home, files)) {
            let before = all.last().filter(|it| it.source.home == source.home);
            let number = before.map_or(1, |it| it.number + 1);
            all.push(Numbered {
                number,
                source,
                change,
            });
        }
    }
    all
}

/// Tries all changes of a crate, and answers the lines of those that are not refused.
fn try_all(changes: &[Numbered], scratch: &Scratch) -> io::Result<Vec<String>> {
    let began = Instant::now();
    let home = &changes[0].source.home;
    scratch.prove(home)?;
    let (mut refused, mut no_program) = (0, 0);
    let mut passed = Vec::new();
    for change in changes {
        let (verdict, _) = change.judge(scratch)?;
        let line = format!("{change}: {verdict}");
        println!("{line}");
        match verdict {
            Verdict::Refused(_) => refused += 1,
            Verdict::NoProgram => no_program += 1,
            Verdict::NotRefused | Verdict::NoVerdict => passed.push(line),
        }
    }
    println!(
        "{home}: {} changes, {refused} refused, {no_program} no program, {} not refused, {} s",
        changes.len(),
        passed.len(),
        began.elapsed().as_secs()
    );
    Ok(passed)
}
