//! The boundary as it is written: the library (crates/*/src), include/planner.h and the wrapper
//! (rust/src) declare the same structs and functions, and the comparison has every function but the
//! version's. Every export (crates/planner_c/src) has the arguments and the clauses of the function of
//! its name (crates/planner/src), and calls it; it promises one thing, the promise that
//! crates/planner/specs has for it. Constants: constants.rs.

mod declared;
mod rules;

use compare::operations::OPERATIONS;
use declared::{by_c, by_rattle, by_rust, plain, plain_c, Declarations};
use std::collections::{BTreeMap, BTreeSet};
use std::fs::{read_dir, read_to_string};
use std::path::{Path, PathBuf};

/// A text: where it stands, how it is read, and the words that stand in it once for each function and
/// once for each struct.
struct Source {
    place: &'static str,
    declared: fn(&str) -> Declarations,
    function: &'static str,
    structure: &'static str,
}

const SOURCES: [Source; 3] = [
    Source {
        place: "crates/*/src",
        declared: by_rattle,
        function: "#[unsafe(no_mangle)]",
        structure: "#[repr(C)]",
    },
    Source {
        place: "include/planner.h",
        declared: by_c,
        function: " planner_",
        structure: "typedef struct",
    },
    Source {
        place: "rust/src",
        declared: by_rust,
        function: "fn planner_",
        structure: "#[repr(C)]",
    },
];

fn root() -> PathBuf {
    Path::new(env!("CARGO_MANIFEST_DIR")).join("../..")
}

/// The three texts without comments and layout.
fn texts() -> [String; 3] {
    let root = root();
    let folders = read_dir(root.join("crates")).unwrap();
    let mut folders: Vec<PathBuf> = folders.map(|entry| entry.unwrap().path()).collect();
    // The exports come first: each has the name of the function that it calls.
    folders.sort_by_key(|folder| !folder.ends_with("planner_c"));
    let rattle: String = folders
        .iter()
        .map(|folder| text_below(&folder.join("src"), "rt"))
        .collect();
    let limits = rules::limits();
    let rows = limits.iter().find(|limit| limit.0 == "CPB_CNT_MAX");
    let rows = rows.unwrap().1;
    let header = read_to_string(root.join("include/planner.h")).unwrap();
    let wrapper = text_below(&root.join("rust/src"), "rs");
    [
        plain(&rattle).replace("; CPB_CNT_MAX]", &format!("; {rows}]")),
        plain_c(&header).replace("[PLANNER_CPB_CNT_MAX]", &format!("[{rows}]")),
        plain(&wrapper).replace("; CPB_CNT_MAX]", &format!("; {rows}]")),
    ]
}

/// Every file with this ending in a folder and in the folders below it.
fn text_below(folder: &Path, ending: &str) -> String {
    let mut text = String::new();
    for entry in read_dir(folder).unwrap() {
        let path = entry.unwrap().path();
        if path.is_dir() {
            text += &text_below(&path, ending);
        } else if path.extension().is_some_and(|found| found == ending) {
            text += &read_to_string(&path).unwrap();
            text.push('\n');
        }
    }
    text
}

fn all_declared(texts: &[String; 3]) -> [Declarations; 3] {
    std::array::from_fn(|k| (SOURCES[k].declared)(&texts[k]))
}

/// For each name that is not declared alike in all texts, what each of them has.
fn differences(texts: &[String; 3]) -> Vec<String> {
    let all = all_declared(texts);
    let names: BTreeSet<&String> = all.iter().flat_map(|declared| declared.keys()).collect();
    let mut differences = Vec::new();
    for name in names {
        let lines = all.each_ref().map(|declared| declared.get(name));
        if lines.iter().any(|line| *line != lines[0]) {
            let mut difference = format!("{name} differs:");
            for (source, line) in SOURCES.iter().zip(lines) {
                let line = line.map_or("nothing", String::as_str);
                difference += &format!("\n  {}: {line}", source.place);
            }
            differences.push(difference);
        }
    }
    differences
}

#[test]
fn the_three_texts_agree() {
    let differences = differences(&texts());
    assert!(differences.is_empty(), "{}", differences.join("\n"));
}

#[test]
fn nothing_is_overlooked() {
    let operations = OPERATIONS.iter().map(|operation| operation.name);
    let named = operations.chain(["version"]);
    let expected: BTreeSet<String> = named.map(|name| format!("planner_{name}")).collect();
    let texts = texts();
    for ((source, text), declared) in SOURCES.iter().zip(&texts).zip(all_declared(&texts)) {
        let is_function = |one: &(String, String)| one.1.starts_with("fn ");
        let (functions, structs): (Declarations, Declarations) =
            declared.into_iter().partition(is_function);
        assert_eq!(functions.len(), text.matches(source.function).count());
        assert_eq!(structs.len(), text.matches(source.structure).count());
        for line in functions.values() {
            let (_, returned) = line.rsplit_once(" -> ").unwrap();
            let known = structs.contains_key(returned) || line == "fn planner_version() -> u64";
            assert!(known, "{}: {line}", source.place);
        }
        let names: BTreeSet<String> = functions.into_keys().collect();
        assert_eq!(names, expected, "{}", source.place);
    }
}

/// The start of a declaration, words behind it, and what the first of these become.
type Edit = (&'static str, &'static str, &'static str);

/// Edits of a text of Rattle or Rust.
const EDITS: [Edit; 10] = [
    ("struct PlannerSeconds {", "wait: f64", "wait: u64"),
    ("struct PlannerSeconds {", "fill: f64", "full: f64"),
    (
        "struct PlannerSeconds {",
        "number: u64, pub place",
        "place: u64, pub number",
    ),
    ("struct PlannerSeconds {", "pub place: u64,", ""),
    ("struct Params {", "[u64; 32]", "[u64; 31]"),
    ("fn planner_seconds(", "buffer: u64", "buffer: f64"),
    ("fn planner_seconds(", "fullness: u64", "full: u64"),
    (
        "fn planner_seconds(",
        "rate: u64, buffer",
        "buffer: u64, rate",
    ),
    ("fn planner_seconds(", "rate: u64,", ""),
    (
        "fn planner_seconds(",
        "PlannerSeconds",
        "PlannerPanelReading",
    ),
];

const RATTLE_EDITS: [Edit; 3] = [
    (
        "#[repr(C)] #[derive(Clone, Copy, Debug, Default, PartialEq, Eq)] pub struct PlannerText {",
        "#[repr(C)]",
        "",
    ),
    ("fn planner_judge(", "&[u64]", "&mut [u64]"),
    (
        "#[unsafe(no_mangle)] pub extern \"C\" fn planner_seconds(",
        "#[unsafe(no_mangle)] pub extern \"C\"",
        "",
    ),
];

const RUST_EDITS: [Edit; 3] = [
    ("#[repr(C)] pub struct PlannerText {", "#[repr(C)]", ""),
    ("fn planner_judge(", "*const u64", "*mut u64"),
    (
        "pub fn planner_seconds(",
        "pub fn planner_seconds(rate: u64, buffer: u64, fullness: u64) -> PlannerSeconds; ",
        "",
    ),
];

const C_EDITS: [Edit; 13] = [
    ("uint64_t planner_version(", "uint64_t", "double"),
    ("struct PlannerSeconds {", "double wait", "uint64_t wait"),
    ("struct PlannerSeconds {", "fill;", "full;"),
    (
        "struct PlannerSeconds {",
        "number; uint64_t place",
        "place; uint64_t number",
    ),
    ("struct PlannerSeconds {", "uint64_t place;", ""),
    ("struct PlannerParams {", "[32]", "[31]"),
    (" planner_seconds(", "uint64_t buffer", "double buffer"),
    (" planner_seconds(", "fullness", "full"),
    (
        " planner_seconds(",
        "rate, uint64_t buffer",
        "buffer, uint64_t rate",
    ),
    (" planner_seconds(", "uint64_t rate,", ""),
    (
        "PlannerSeconds planner_seconds(",
        "PlannerSeconds",
        "PlannerPanelReading",
    ),
    (
        " planner_judge(",
        "const uint64_t *sizes",
        "uint64_t *sizes",
    ),
    (
        "PlannerSeconds planner_seconds(",
        "PlannerSeconds planner_seconds(uint64_t rate, uint64_t buffer, uint64_t fullness); ",
        "",
    ),
];

/// Edits, each of the text with this number, after which the text is not understood.
const REFUSED: [(usize, Edit); 6] = [
    (0, ("struct PlannerSeconds {", "f64", "f32")),
    (
        0,
        (
            "#[repr(C)] #[derive(Clone, Copy, Debug, Default, PartialEq, Eq)] pub struct PlannerText {",
            "repr(C)",
            "repr(C, packed)",
        ),
    ),
    (
        0,
        (
            "#[unsafe(no_mangle)] pub extern \"C\" fn planner_seconds(",
            "#[unsafe(no_mangle)]",
            "",
        ),
    ),
    (
        1,
        (
            "typedef struct PlannerText {",
            "typedef",
            "#pragma pack(1) typedef",
        ),
    ),
    (1, (" planner_seconds(", "uint64_t", "uint32_t")),
    (
        2,
        (
            "pub fn planner_seconds(",
            "pub fn",
            "#[link_name = \"planner_panel\"] pub fn",
        ),
    ),
];

/// The texts, of which the one with this number is edited.
fn edited(texts: &[String; 3], number: usize, (start, from, to): Edit) -> [String; 3] {
    let at = texts[number].find(start).unwrap();
    let (before, behind) = texts[number].split_at(at);
    assert!(behind.contains(from));
    let mut edited = texts.clone();
    edited[number] = before.to_string() + &behind.replacen(from, to, 1);
    edited
}

#[test]
fn every_difference_is_noticed() {
    let texts = texts();
    let rattle = [&EDITS[..], &RATTLE_EDITS].concat();
    let rust = [&EDITS[..], &RUST_EDITS].concat();
    for (number, edits) in [rattle, C_EDITS.to_vec(), rust].into_iter().enumerate() {
        for edit in edits {
            let found = differences(&edited(&texts, number, edit));
            assert_eq!(found.len(), 1, "{number}: {edit:?}: {found:?}");
            let name = found[0].split(' ').next().unwrap();
            assert!(edit.0.contains(name), "{number}: {edit:?}: {found:?}");
        }
    }
}

#[test]
fn what_is_not_understood_is_refused() {
    let texts = texts();
    for (number, edit) in REFUSED {
        let edited = edited(&texts, number, edit);
        let read = std::panic::catch_unwind(|| all_declared(&edited));
        assert!(read.is_err(), "{number}: {edit:?}");
    }
}

/// A function of Rattle: what stands before its body, arguments and clauses, and its body.
type Promised = BTreeMap<String, (String, String)>;

/// The functions of a crate's text that have the prefix, each with a clause.
fn promised(text: &str) -> Promised {
    let mut promised = Promised::new();
    for function in text.split("fn planner_").skip(1) {
        let (contract, rest) = function.split_once(" } { ").unwrap();
        let (body, _) = rest.split_once(" }").unwrap();
        let (name, clauses) = contract.split_once('(').unwrap();
        assert!(clauses.contains(" ensures { "), "{name} without a clause");
        let before = (contract.to_string(), body.to_string());
        assert_eq!(promised.insert(name.to_string(), before), None, "{name}");
    }
    promised
}

/// The call of a function of the same name on its arguments, from the last part of its path on.
fn call(contract: &str) -> String {
    let (name, rest) = contract.split_once('(').unwrap();
    let (arguments, _) = rest.split_once(')').unwrap();
    let names = arguments
        .split(", ")
        .filter_map(|one| one.split_once(": "))
        .map(|(name, _)| name);
    let names: Vec<&str> = names.collect();
    format!("::planner_{name}({})", names.join(", "))
}

/// What the exports have amiss beside the functions of their names.
fn unlike(exports: &str, functions: &str) -> Vec<String> {
    let (exports, functions) = (promised(exports), promised(functions));
    let names: BTreeSet<&String> = exports.keys().chain(functions.keys()).collect();
    let is_unlike = |name: &&String| {
        let (Some(export), Some(function)) = (exports.get(*name), functions.get(*name)) else {
            return true;
        };
        let calls = export.1.starts_with("planner::") && export.1.ends_with(&call(&export.0));
        export.0 != function.0 || !calls
    };
    names.into_iter().filter(is_unlike).cloned().collect()
}

fn plain_of(name: &str) -> String {
    plain(&text_below(
        &root().join("crates").join(name).join("src"),
        "rt",
    ))
}

#[test]
fn every_export_promises_what_it_calls() {
    let (exports, functions) = (plain_of("planner_c"), plain_of("planner"));
    assert_eq!(promised(&exports).len(), OPERATIONS.len() + 1);
    assert_eq!(unlike(&exports, &functions), [""; 0]);
}

#[test]
fn an_export_that_is_unlike_is_noticed() {
    let (exports, functions) = (plain_of("planner_c"), plain_of("planner"));
    for (old, new) in [
        (
            "ensures { ExportedLeast (recording sizes.now ticks.now ts nu) rate result }",
            "ensures { Unit {0} }",
        ),
        ("fn planner_panel(rate: u64", "fn planner_panel(rates: u64"),
        (
            "planner::seconds::planner_seconds(rate, buffer, fullness)",
            "planner::seconds::planner_seconds(rate, fullness, buffer)",
        ),
        (
            "planner::records::planner_params_length(params)",
            "planner::records::planner_judge_params(params)",
        ),
        ("fn planner_version(", "fn version("),
    ] {
        assert_eq!(exports.matches(old).count(), 1, "{old}");
        let edited = exports.replace(old, new);
        assert_eq!(unlike(&edited, &functions).len(), 1, "{old} to {new}");
    }
}

/// The promise of each export of planner_c, by the export's name: crates/planner/specs/ defines it, and
/// lists it beside that name.
fn listed_promises() -> BTreeMap<String, String> {
    let specs = text_below(&root().join("crates/planner/specs"), "antt");
    let listed = specs.lines().filter_map(|line| {
        let (promise, rest) = line
            .strip_prefix("--     ")
            .filter(|line| line.starts_with("Exported"))?
            .split_once(' ')?;
        let name = rest.trim_start().strip_prefix("planner_")?;
        let name = name.split(',').next()?;
        Some((name.to_string(), promise.to_string()))
    });
    let listed: BTreeMap<String, String> = listed.collect();
    let defined = specs.lines().filter_map(|line| {
        let (name, _) = line
            .strip_prefix("abbrev pub Exported")?
            .split_once(" : ")?;
        Some(format!("Exported{name}"))
    });
    let mut defined: Vec<String> = defined.collect();
    defined.sort();
    // No two exports have the same one.
    let mut promises: Vec<String> = listed.values().cloned().collect();
    promises.sort();
    assert_eq!(promises, defined);
    defined.dedup();
    assert_eq!(promises, defined);
    listed
}

/// The exports that promise anything but their own promise, or in more than one clause.
fn strangely_promised(exports: &str) -> Vec<String> {
    let listed = listed_promises();
    // What a clause names is what `planner` defines under that name.
    let uses = exports.split("ghost use ").skip(1);
    for used in uses.map(|rest| rest.split(';').next().unwrap()) {
        let promises = used.contains("Exported");
        assert!(!promises || used.starts_with("Rattle.planner.specs."));
        assert!(!used.contains(" as "), "{used}");
    }
    let exports = promised(exports);
    assert!(exports.keys().eq(listed.keys()), "an export without a line");
    let is_strange = |(name, (contract, _)): &(&String, &(String, String))| {
        let (_, clauses) = contract.split_once(" -> ").unwrap();
        let (returned, clause) = clauses.split_once(" ensures { ").unwrap();
        let plain = |c: char| c.is_ascii_alphanumeric() || "_.() ".contains(c);
        let (promise, arguments) = clause.split_once(' ').unwrap_or((clause, ""));
        returned.contains(' ')
            || promise != listed[*name]
            || !arguments.chars().all(plain)
            || !arguments.split(' ').any(|word| word == "result")
    };
    let strange = exports.iter().filter(is_strange);
    strange.map(|(name, _)| name.clone()).collect()
}

#[test]
fn every_export_promises_its_own() {
    assert_eq!(listed_promises().len(), OPERATIONS.len() + 1);
    assert_eq!(strangely_promised(&plain_of("planner_c")), [""; 0]);
}

#[test]
fn a_promise_of_another_is_noticed() {
    let exports = plain_of("planner_c");
    let least = "ensures { ExportedLeast (recording sizes.now ticks.now ts nu) rate result }";
    let two = format!("{least} {least}");
    let or_else = least.replace("result", "result ⊎ Unit {0}");
    let nothing = least.replace("rate result", "rate rate");
    for (old, new) in [
        (least, "ensures { Unit {0} }"),
        (least, &two),
        (least, &or_else),
        (least, &nothing),
        ("ensures { ExportedLeast ", "ensures { ExportedLookup "),
        ("ensures { ExportedSeconds ", "ensures { ExportedPanel "),
        (
            "ensures { ExportedVersion ",
            "requires { ⊥ } ensures { ExportedVersion ",
        ),
    ] {
        assert_eq!(exports.matches(old).count(), 1, "{old}");
        let edited = exports.replace(old, new);
        assert_eq!(strangely_promised(&edited).len(), 1, "{old} to {new}");
    }
    for (old, new) in [
        ("{ExportedVersion}", "{ExportedLeast as ExportedVersion}"),
        ("planner.specs.Version.{", "planner_c.specs.Version.{"),
        ("fn planner_version(", "fn planner_versions("),
    ] {
        assert_eq!(exports.matches(old).count(), 1, "{old}");
        let edited = exports.replace(old, new);
        let read = std::panic::catch_unwind(|| strangely_promised(&edited));
        assert!(read.is_err(), "{old} to {new}");
    }
}
