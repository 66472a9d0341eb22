//! docs/SOURCES.md against the project: every heading of document 01, every request and every
//! source document that a file cites has its line there, and every file and name that the page
//! cites is there.

use std::collections::BTreeSet;
use std::fs::{read_dir, read_to_string};
use std::path::{Path, PathBuf};

/// Where the project's texts stand.
const PLACES: [&str; 10] = [
    "README.md",
    "crates",
    "crates.txt",
    "docs",
    "examples",
    "include",
    "rust",
    "scripts",
    "tests",
    "tools",
];

/// The page, and what holds it: what these two cite does not count.
const OWN: [&str; 2] = ["docs/SOURCES.md", "tests/compare/tests/sources.rs"];

fn root() -> PathBuf {
    Path::new(env!("CARGO_MANIFEST_DIR")).join("../..")
}

fn page() -> String {
    read_to_string(root().join(OWN[0])).unwrap()
}

/// Every file at a place or below it, but for what the prover makes, crates/*/out.
fn files(place: &Path) -> Vec<PathBuf> {
    if !place.is_dir() {
        return vec![place.to_path_buf()];
    }
    let paths = read_dir(place).unwrap().map(|entry| entry.unwrap().path());
    let is_made = |path: &PathBuf| {
        let above = path.parent().and_then(Path::parent);
        path.ends_with("out") && above == Some(&root().join("crates"))
    };
    paths
        .filter(|path| !is_made(path))
        .flat_map(|path| files(&path))
        .collect()
}

/// A text as one line of words, without the marks of comments.
fn plain(text: &str) -> String {
    let marks = ['/', '!', '-', '*', '#'];
    let words = text.lines().flat_map(|line| {
        let line = line.trim_start().trim_start_matches(marks);
        line.split_whitespace()
    });
    words.collect::<Vec<&str>>().join(" ")
}

/// The headings of document 01 that a plain text cites: in quotes behind its name, one or several
/// in a row, or as the words before "document 01, under that heading".
fn headings(text: &str) -> Vec<&str> {
    let mut cited = Vec::new();
    for behind in text.split("ocument 01").skip(1) {
        let mut rest = behind.strip_prefix("'s").unwrap_or(behind);
        while let Some((heading, after)) = [" \"", ", \"", " and \"", ", and \""]
            .iter()
            .find_map(|mark| rest.strip_prefix(mark)?.split_once('"'))
        {
            cited.push(heading);
            rest = after;
        }
    }
    let mut before: Vec<&str> = text.split(" (document 01, under that heading").collect();
    before.pop();
    cited.extend(before.iter().filter_map(|words| words.rsplit(". ").next()));
    cited
}

/// The requests, as Q-1, and the source documents, as 000, that a plain text cites.
fn numbers(text: &str) -> Vec<&str> {
    let digits = |word: &str| word.bytes().all(|byte| byte.is_ascii_digit());
    let mut cited: Vec<&str> = text
        .split(|c: char| !c.is_alphanumeric() && c != '-')
        .filter(|word| word.len() > 2 && word.strip_prefix("Q-").is_some_and(digits))
        .collect();
    for behind in text.split("ource document").skip(1) {
        let words = behind.split(|c: char| !c.is_alphanumeric());
        cited.extend(
            words
                .filter(|word| !["", "s", "and"].contains(word))
                .take_while(|word| word.len() == 3 && digits(word)),
        );
    }
    cited
}

/// What the project's files cite, each as often as it is cited.
fn cited() -> Vec<String> {
    let mut cited = Vec::new();
    for file in PLACES.iter().flat_map(|place| files(&root().join(place))) {
        if OWN.iter().any(|own| file.ends_with(own)) {
            continue;
        }
        // What cannot be read as text, a sheet or a seed, cites nothing.
        if let Ok(text) = read_to_string(&file) {
            let text = plain(&text);
            let both = headings(&text).into_iter().chain(numbers(&text));
            cited.extend(both.map(String::from));
        }
    }
    cited
}

/// The first cells of a page's tables.
fn first_cells(page: &str) -> Vec<&str> {
    let rows = page.lines().filter_map(|line| line.strip_prefix("| "));
    rows.filter_map(|row| row.split(" |").next()).collect()
}

/// The words of all files at a place or below it, a name of a definition being one.
fn words(place: &Path) -> BTreeSet<String> {
    let mut words = BTreeSet::new();
    for text in files(place)
        .iter()
        .filter_map(|file| read_to_string(file).ok())
    {
        let split = text.split(|c: char| !c.is_alphanumeric() && !"_-'".contains(c));
        words.extend(split.map(String::from));
    }
    words
}

fn is_path(quoted: &str) -> bool {
    let endings = [".md", ".antt", ".h", ".rs"];
    quoted.contains('/') || endings.iter().any(|ending| quoted.ends_with(ending))
}

/// What a page has amiss, a line for each: what is cited and has no line, and what is quoted and is
/// not there. A quoted name stands in the file that is quoted before it in its line.
fn amiss(page: &str) -> Vec<String> {
    let mut amiss = Vec::new();
    let lines = first_cells(page);
    for cited in cited().into_iter().collect::<BTreeSet<String>>() {
        if !lines.contains(&cited.as_str()) {
            amiss.push(format!("{cited} is cited and has no line"));
        }
    }
    for line in page.lines() {
        let mut names = BTreeSet::new();
        for quoted in line.split('`').skip(1).step_by(2) {
            let place = root().join(quoted);
            if !is_path(quoted) {
                if !names.contains(quoted) {
                    amiss.push(format!("{quoted} is not in the file before it"));
                }
            } else if place.exists() {
                names = words(&place);
            } else {
                amiss.push(format!("{quoted} is not there"));
            }
        }
    }
    amiss
}

#[test]
fn every_citation_has_its_line() {
    let amiss = amiss(&page());
    assert!(amiss.is_empty(), "{}", amiss.join("\n"));
}

/// The citations are found: no more than three headings are cited nowhere, and some requests and
/// source documents are cited too.
#[test]
fn most_headings_are_cited() {
    let cited = cited();
    let is_cited = |line: &&str| cited.iter().any(|one| one == line);
    let page = page();
    let counts = page.split("\n## ").map(|section| {
        let lines = first_cells(section);
        let found = lines.iter().filter(|line| is_cited(line)).count();
        (lines.len().saturating_sub(1), found)
    });
    let [_, (headings, found), (_, requests), (_, sources), _] = counts.collect::<Vec<_>>()[..]
    else {
        panic!("the page has other sections")
    };
    assert!(headings >= 12 && found + 3 >= headings, "{found} headings");
    assert!(requests >= 3 && sources >= 3, "{requests}, {sources}");
    assert!(cited.len() >= 75, "{} citations", cited.len());
}

#[test]
fn citations_are_read() {
    let text = plain(
        r#"
        // Serves document
        // 01, "One heading", "Another" and
        // "A third". Here document 01 says "no heading".
        /* Document 01's "Fourth" and limits, "no heading".
         * How it leaves (document 01, under that
         * heading), with Q-3, by source documents 003
         * and 004, as Source document 001's Table D-2 has it. */
        "#,
    );
    assert_eq!(
        headings(&text),
        [
            "One heading",
            "Another",
            "A third",
            "Fourth",
            "How it leaves"
        ]
    );
    assert_eq!(numbers(&text), ["Q-3", "003", "004", "001"]);
}

#[test]
fn what_is_amiss_is_noticed() {
    let whole = page();
    for (old, new) in [
        ("| Worked figures |", "| Figures |"),
        ("| Q-8 |", "| |"),
        ("| 001 |", "| 01 |"),
        ("`tests/data/table_d2.txt`", "`tests/data/table_d1.txt`"),
        ("`crates/rules/specs/Refusals.antt`", "`Refusals.antt`"),
        ("`needs_step`", "`need_step`"),
        ("`late_by`", "`least_buffer`"),
    ] {
        assert_eq!(whole.matches(old).count(), 1, "{old}");
        assert_eq!(amiss(&whole.replace(old, new)).len(), 1, "{old} to {new}");
    }
}
