//! Trying a change on the prover, in a copy of the repository's crates.

use std::fmt::{Display, Formatter};
use std::path::{Path, PathBuf};
use std::process::Command;
use std::{env, fmt, fs, io};

/// What the prover says of a changed crate.
#[derive(Clone, Debug, PartialEq, Eq)]
pub enum Verdict {
    /// With the first place that it names.
    Refused(String),
    NotRefused,
    /// The compiler refuses it, before anything is to be proved.
    NoProgram,
    /// The prover could not tell.
    NoVerdict,
}

impl Display for Verdict {
    fn fmt(&self, f: &mut Formatter) -> fmt::Result {
        match self {
            Verdict::Refused(place) => write!(f, "refused at {place}"),
            Verdict::NotRefused => write!(f, "not refused"),
            Verdict::NoProgram => write!(f, "no program"),
            Verdict::NoVerdict => write!(f, "no verdict"),
        }
    }
}

/// A copy of the crates outside the repository, in a folder for temporary files: the prover takes no
/// repository that has such a copy. What was proved of it stays for the next time.
pub struct Scratch {
    root: PathBuf,
}

impl Scratch {
    pub fn of(repository: &Path) -> io::Result<Self> {
        let path = repository.canonicalize()?.display().to_string();
        let root = env::temp_dir().join(format!("mutants{}", path.replace('/', "-")));
        let crates = root.join("crates");
        fs::create_dir_all(&crates)?;
        remove_all_but_made(&crates)?;
        copy_crates(&repository.join("crates"), &crates)?;
        fs::copy(repository.join("crates.txt"), root.join("crates.txt"))?;
        Ok(Scratch { root })
    }

    /// Proves a crate as it is copied, and what it depends on.
    pub fn prove(&self, name: &str) -> io::Result<()> {
        match self.check(name)? {
            (Verdict::NotRefused, _) => Ok(()),
            (_, words) => Err(io::Error::other(format!("{name} is not proved:\n{words}"))),
        }
    }

    /// The verdict on a crate, one of whose files has another text, and the prover's own words.
    pub fn judge(&self, name: &str, path: &Path, text: &str) -> io::Result<(Verdict, String)> {
        let path = self.root.join(path);
        let before = fs::read_to_string(&path)?;
        fs::write(&path, text)?;
        let judged = self.check(name);
        fs::write(&path, before)?;
        judged
    }

    /// The verdict on a crate as it stands. `rt check` proves again what a change touches.
    fn check(&self, name: &str) -> io::Result<(Verdict, String)> {
        let folder = self.root.join("crates").join(name);
        let mut rt = Command::new("rt");
        let output = rt.arg("check").current_dir(folder).output()?;
        let words = [output.stdout, output.stderr].concat();
        let root = format!("{}/", self.root.display());
        let words = String::from_utf8_lossy(&words).replace(&root, "");
        Ok((verdict(output.status.code(), &words), words))
    }
}

/// The verdict of an exit status of `rt` and of what it printed: of a crate that is no program it has
/// no line on the logic, and where it gives no verdict no status that is looked for here.
fn verdict(status: Option<i32>, words: &str) -> Verdict {
    let says = |start: &str| words.lines().any(|line| line.starts_with(start));
    match status {
        Some(0) if says("logic=proved") => Verdict::NotRefused,
        Some(1) if says("rt: the library ") => Verdict::NoVerdict,
        Some(1) if says("logic=not-proved") => Verdict::Refused(first_place(words).to_string()),
        Some(1) if !says("logic=") => Verdict::NoProgram,
        _ => Verdict::NoVerdict,
    }
}

/// The first place that the prover names, in an error or else in a note.
fn first_place(words: &str) -> &str {
    let errors = words.lines().filter_map(|line| line.split_once(": error"));
    let notes = words
        .lines()
        .filter_map(|line| line.strip_prefix("note: ")?.split_once(": "));
    let mut places = errors.chain(notes).map(|(place, _)| place);
    places
        .find(|place| !place.contains(' '))
        .unwrap_or("no place")
}

/// What the prover makes in the folder of a crate.
const MADE: &str = "out";

/// Empties the folders of crates but for what the prover made there.
fn remove_all_but_made(crates: &Path) -> io::Result<()> {
    for folder in fs::read_dir(crates)? {
        for entry in fs::read_dir(folder?.path())? {
            let entry = entry?;
            if entry.file_name() == MADE {
                continue;
            }
            if entry.file_type()?.is_dir() {
                fs::remove_dir_all(entry.path())?;
            } else {
                fs::remove_file(entry.path())?;
            }
        }
    }
    Ok(())
}

/// Copies crates but for what the prover made there.
fn copy_crates(from: &Path, to: &Path) -> io::Result<()> {
    for folder in fs::read_dir(from)? {
        let folder = folder?;
        let to = to.join(folder.file_name());
        fs::create_dir_all(&to)?;
        for entry in fs::read_dir(folder.path())? {
            let entry = entry?;
            let to = to.join(entry.file_name());
            if entry.file_name() == MADE {
                continue;
            }
            if entry.file_type()?.is_dir() {
                copy_folder(&entry.path(), &to)?;
            } else {
                fs::copy(entry.path(), to)?;
            }
        }
    }
    Ok(())
}

fn copy_folder(from: &Path, to: &Path) -> io::Result<()> {
    fs::create_dir_all(to)?;
    for entry in fs::read_dir(from)? {
        let entry = entry?;
        let to = to.join(entry.file_name());
        if entry.file_type()?.is_dir() {
            copy_folder(&entry.path(), &to)?;
        } else {
            fs::copy(entry.path(), to)?;
        }
    }
    Ok(())
}

#[cfg(test)]
mod tests {
    use super::*;

    #[test]
    fn the_first_place_is_named() {
        let words = "rt: chose --jobs 2 for a\n\
            note: src/lib.rt:3:4: it is not proved that the sum fits\n\
            note: a goal may be false even if its line does not say so: try it by hand\n\
            proofs/f/Answers.antt:5:6: error: `returns`: expected type\n\
            fn a::f: not proved\n\
            logic=not-proved\n";
        let place = "proofs/f/Answers.antt:5:6".to_string();
        assert_eq!(verdict(Some(1), words), Verdict::Refused(place));
        let words = words.replace("error", "help");
        let place = "src/lib.rt:3:4".to_string();
        assert_eq!(verdict(Some(1), &words), Verdict::Refused(place));
    }

    #[test]
    fn what_the_compiler_refuses_is_no_program() {
        let words = "rt: chose --jobs 2 for a\n\
            src/lib.rt:3:4: error[mismatched-types]: expected `u8`\n";
        assert_eq!(verdict(Some(1), words), Verdict::NoProgram);
    }

    #[test]
    fn other_ends() {
        let proved = "fn a::f: proved\nlogic=proved functions=1 sum=0\n";
        assert_eq!(verdict(Some(0), proved), Verdict::NotRefused);
        assert_eq!(verdict(Some(0), ""), Verdict::NoVerdict);
        assert_eq!(verdict(Some(1), proved), Verdict::NoVerdict);
        assert_eq!(verdict(Some(3), "\nrattle: no verdict"), Verdict::NoVerdict);
        assert_eq!(verdict(None, ""), Verdict::NoVerdict);
        let below = "logic=not-proved\nrt: the library b did not build, so nothing above it\n";
        assert_eq!(verdict(Some(1), below), Verdict::NoVerdict);
    }
}
