//! The table of uniqueness in docs/STATEMENTS.md against the crates: it has every public function and no other, and every
//! law and every edit that it names is there.

use std::collections::BTreeSet;
use std::fs::{read_dir, read_to_string};
use std::path::{Path, PathBuf};

fn root() -> PathBuf {
    Path::new(env!("CARGO_MANIFEST_DIR")).join("../..")
}

fn statements() -> String {
    read_to_string(root().join("docs/STATEMENTS.md")).unwrap()
}

/// Every public function of every crate, as `crate::function`, one of a type as `crate::Type::function`.
fn public_functions() -> BTreeSet<String> {
    let mut functions = BTreeSet::new();
    for folder in read_dir(root().join("crates")).unwrap() {
        let folder = folder.unwrap();
        let name = folder.file_name().into_string().unwrap();
        for file in read_dir(folder.path().join("src")).unwrap() {
            let text = read_to_string(file.unwrap().path()).unwrap();
            for function in functions_of(&text) {
                let function = format!("{name}::{function}");
                assert!(functions.insert(function.clone()), "{function} twice");
            }
        }
    }
    functions
}

/// The public functions of a text, by themselves or of a type: methods, and what it has of a trait.
fn functions_of(text: &str) -> Vec<String> {
    let mut functions = Vec::new();
    let mut block = None;
    for line in text.lines() {
        if let Some(head) = line.strip_prefix("impl") {
            block = Some(of_block(head));
        } else if line == "}" {
            block = None;
        }
        let (owner, of_trait) = match &block {
            Some((owner, of_trait)) => (owner.as_str(), *of_trait),
            None => ("", false),
        };
        let indented = if block.is_some() { "    " } else { "" };
        let inside = line.strip_prefix(indented).unwrap_or("");
        let public = inside
            .strip_prefix("pub fn ")
            .or(inside.strip_prefix("pub extern \"C\" fn "))
            .or(inside.strip_prefix("fn ").filter(|_| of_trait));
        if let Some(rest) = public {
            let at = rest.find(['(', '<']).unwrap();
            functions.push(format!("{owner}{}", &rest[..at]));
        } else {
            let hidden = line.trim_start().starts_with("pub") && line.contains("fn ");
            assert!(!hidden, "not understood: {line}");
        }
    }
    functions
}

/// The type of an `impl` block, as `Type::`, and whether the block is of a trait.
fn of_block(head: &str) -> (String, bool) {
    let head = head.strip_suffix(" {").expect("a block in one line");
    let (kind, of_trait) = match head.split_once(" for ") {
        Some((_, kind)) => (kind, true),
        None => (head, false),
    };
    let kind = kind.strip_prefix(' ').unwrap_or(kind);
    let kind = kind.split('<').next().unwrap();
    assert!(!kind.is_empty(), "not understood: impl{head}");
    (format!("{kind}::"), of_trait)
}

/// The words between backquotes.
fn quoted(cell: &str) -> impl Iterator<Item = &str> {
    cell.split('`').skip(1).step_by(2)
}

/// What the table of a text has amiss, a line for each.
fn amiss(text: &str) -> Vec<String> {
    let crates = root().join("crates");
    let (_, section) = text.split_once("\n## Uniqueness").unwrap();
    let mut amiss = Vec::new();
    let mut listed = BTreeSet::new();
    let mut name = "";
    for row in section.lines().filter(|line| line.starts_with('|')).skip(2) {
        let cells: Vec<&str> = row.split('|').collect();
        name = quoted(cells[1]).next().unwrap_or(name);
        for function in quoted(cells[2]) {
            if !listed.insert(format!("{name}::{function}")) {
                amiss.push(format!("{name}::{function} stands twice"));
            }
        }
        let mut room = name;
        for word in quoted(cells[3]) {
            if crates.join(word).is_dir() {
                room = word;
            } else if word.contains('-') {
                let laws = crates.join(room).join("proofs/Unique.antt");
                if !read_to_string(laws).is_ok_and(|laws| laws.contains(&format!("\npub {word} :")))
                {
                    amiss.push(format!("{room} has no law {word}"));
                }
            }
        }
        for edit in quoted(cells[4]).filter(|word| !word.contains('/')) {
            if !crates
                .join(name)
                .join(format!("must-fail/{edit}.edit"))
                .is_file()
            {
                amiss.push(format!("{name} has no edit {edit}"));
            }
        }
    }
    for function in listed.symmetric_difference(&public_functions()) {
        amiss.push(format!(
            "{function} stands in the table or in the code alone"
        ));
    }
    amiss
}

#[test]
fn every_public_function_is_settled() {
    let amiss = amiss(&statements());
    assert!(amiss.is_empty(), "{}", amiss.join("\n"));
}

#[test]
fn what_is_amiss_is_noticed() {
    let whole = statements();
    for (old, new) in [
        ("`is_outside`, ", ""),
        ("`is_outside`, ", "`is_outside`, `is_outside`, "),
        ("`is_outside`, ", "`is_outside`, `is_inside`, "),
        ("`Refusal::number`, ", ""),
        ("`PlannerBucket::from`, ", ""),
        (
            "`PlannerBucket::from`, ",
            "`PlannerBucket::from`, `PlannerBucket::into`, ",
        ),
        ("`needs_of-one`", "`needs_of-two`"),
        (
            "`judgement`: `judgement_of-one`",
            "`numbers`: `judgement_of-one`",
        ),
        ("`fullnesses_unspoken` |", "`fullnesses_spoken` |"),
    ] {
        assert_eq!(whole.matches(old).count(), 1, "{old}");
        assert_eq!(amiss(&whole.replace(old, new)).len(), 1, "{old} to {new}");
    }
}

#[test]
fn every_way_to_be_public_is_understood() {
    let text = "pub fn one(x: u64) -> u64\n{\n    x\n}\n\nfn hidden()\n\n\
        pub fn two<'a>(x: &'a [u64]) -> &'a [u64]\n\npub extern \"C\" fn three() -> u64\n\n\
        impl Axis<'_> {\n    fn hidden(self)\n\n    pub fn four(self) -> u64\n}\n\n\
        impl From<Result<Row, Refusal>> for PlannerRow {\n    fn from(row: Row) -> PlannerRow {\n    }\n}\n\n\
        fn hidden()\n";
    let named = ["one", "two", "three", "Axis::four", "PlannerRow::from"];
    assert_eq!(functions_of(text), named);
    for text in ["pub const fn one() -> u64", "    pub fn one() -> u64"] {
        assert!(
            std::panic::catch_unwind(|| functions_of(text)).is_err(),
            "{text}"
        );
    }
}
