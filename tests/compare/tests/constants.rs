//! The constants of include/planner.h, of the wrapper (rust/src) and of docs/RULES.md against those of
//! the library (crates/rules/src, crates/planner/src): the same names with the same values, and no
//! others; and one version everywhere.

mod rules;

use std::collections::BTreeMap;

const RULES: &str = include_str!("../../../crates/rules/src/lib.rt");
const VERSION: &str = include_str!("../../../crates/planner/src/version.rt");
const HEADER: &str = include_str!("../../../include/planner.h");
const README: &str = include_str!("../../../README.md");
const REFUSALS: &str = include_str!("../../../rust/src/refusals.rs");
const WRAPPER: [&str; 2] = [
    include_str!("../../../rust/src/limits.rs"),
    include_str!("../../../rust/src/boundary.rs"),
];

type Constants = BTreeMap<String, u64>;

/// The value of sums, differences, products and shifts of numbers and names.
fn value(text: &str, known: &Constants) -> u64 {
    let text = text.trim();
    for (sign, join) in [
        ("<<", (|a, b| a << b) as fn(u64, u64) -> u64),
        ("+", |a, b| a + b),
        ("-", |a, b| a - b),
        ("*", |a, b| a * b),
    ] {
        if let Some((left, right)) = parted_outside(text, sign) {
            return join(value(left, known), value(right, known));
        }
    }
    let bare = text.strip_prefix("UINT64_C").unwrap_or(text);
    if let Some(inner) = bare
        .strip_prefix('(')
        .and_then(|rest| rest.strip_suffix(')'))
    {
        return value(inner, known);
    }
    match bare.replace('_', "").parse() {
        Ok(number) => number,
        Err(_) => known[bare],
    }
}

/// The text before and behind the last of these signs that stands in no parentheses.
fn parted_outside<'a>(text: &'a str, sign: &str) -> Option<(&'a str, &'a str)> {
    let outside = |at: &usize| {
        let before = &text[..*at];
        before.matches('(').count() == before.matches(')').count()
    };
    let at = text.match_indices(sign).map(|(at, _)| at).filter(outside);
    let at = at.last()?;
    Some((&text[..at], &text[at + sign.len()..]))
}

/// The lines `pub const NAME: type = value;` of a text of Rattle or Rust.
fn declared(text: &str, constants: &mut Constants) {
    let lines = text
        .lines()
        .filter_map(|line| line.strip_prefix("pub const "));
    for line in lines {
        let (name, rest) = line.split_once(": ").unwrap();
        let (_, expression) = rest.split_once(" = ").unwrap();
        let found = value(expression.strip_suffix(';').unwrap(), constants);
        assert_eq!(constants.insert(name.to_string(), found), None, "{name}");
    }
}

/// The library's, refusals with the prefix that they have in C.
fn of_rules() -> Constants {
    let mut constants = Constants::new();
    declared(RULES, &mut constants);
    let (_, list) = RULES.split_once("pub fn all_refusals()").unwrap();
    let (_, list) = list.split_once("\n    [").unwrap();
    let (list, _) = list.split_once(']').unwrap();
    for name in list
        .split(',')
        .map(str::trim)
        .filter(|name| !name.is_empty())
    {
        let number = constants.remove(name).unwrap();
        constants.insert(format!("REFUSAL_{name}"), number);
    }
    constants
}

/// The header's, without their prefix, with the words behind each.
fn of_header(text: &str) -> (Constants, BTreeMap<String, String>) {
    let (mut constants, mut words) = (Constants::new(), BTreeMap::new());
    let text = text.replace("\\\n", " ");
    for line in text
        .lines()
        .filter_map(|line| line.strip_prefix("#define "))
    {
        let Some((name, rest)) = line.split_once(' ') else {
            assert_eq!(line, "PLANNER_H");
            continue;
        };
        let (expression, comment) = rest.split_once("/*").unwrap_or((rest, ""));
        let found = value(expression, &constants);
        assert_eq!(constants.insert(name.to_string(), found), None, "{name}");
        let comment = comment.trim_end_matches("*/").trim();
        words.insert(bare(name), comment.to_string());
    }
    let constants = constants
        .into_iter()
        .map(|(name, found)| (bare(&name), found));
    (constants.collect(), words)
}

fn bare(name: &str) -> String {
    name.strip_prefix("PLANNER_").unwrap().to_string()
}

/// The wrapper's refusals: number and words of each by its name.
fn of_refusals() -> BTreeMap<String, (u64, String)> {
    let (_, table) = REFUSALS.split_once("\nrefusals! {\n").unwrap();
    let (table, _) = table.split_once("\n}").unwrap();
    table
        .lines()
        .map(|line| {
            let (name, rest) = line.trim().split_once(" = ").unwrap();
            let (number, words) = rest.split_once(", ").unwrap();
            let words = words
                .strip_prefix('"')
                .unwrap()
                .strip_suffix("\";")
                .unwrap();
            let name = format!("REFUSAL_{name}");
            (name, (number.parse().unwrap(), words.to_string()))
        })
        .collect()
}

/// The constants of a header but for the version's.
fn numbers(text: &str) -> Constants {
    let (mut header, _) = of_header(text);
    header.retain(|name, _| !name.starts_with("VERSION"));
    header
}

#[test]
fn the_header_has_those_of_rules() {
    assert_eq!(numbers(HEADER), of_rules());
    assert_eq!(of_rules().len(), 20 + 13 + 8);
}

#[test]
fn a_constant_that_differs_is_noticed() {
    for (old, new) in [
        (
            "PICTURES_MAX UINT64_C(4096) ",
            "PICTURES_MAX UINT64_C(4097) ",
        ),
        ("REFUSAL_TICK 5 ", "REFUSAL_TICK 4 "),
        ("KIND_LATE 2 ", "KIND_LATE 3 "),
        ("#define PLANNER_SPAN_MAX ", "#define PLANNER_SPANS_MAX "),
        ("#define PLANNER_KIND_OVER ", "/* PLANNER_KIND_OVER "),
    ] {
        assert!(HEADER.contains(old), "{old}");
        assert_ne!(numbers(&HEADER.replace(old, new)), of_rules(), "{old}");
    }
}

#[test]
fn the_wrapper_has_those_of_rules() {
    let mut wrapper = Constants::new();
    for text in WRAPPER {
        declared(text, &mut wrapper);
    }
    let refusals = of_refusals();
    wrapper.extend(
        refusals
            .into_iter()
            .map(|(name, (number, _))| (name, number)),
    );
    assert_eq!(wrapper, of_rules());
}

#[test]
fn one_table_of_meanings() {
    let (_, words) = of_header(HEADER);
    for (name, (number, meaning)) in of_refusals() {
        assert_eq!(words[&name], meaning, "{name}");
        let given = planner::refusals::meaning(number as u8);
        assert_eq!(given, Some(meaning.as_str()), "{name}");
    }
    assert_eq!(planner::refusals::meaning(0), None);
    assert_eq!(planner::refusals::meaning(14), None);
}

/// The rows of a section of docs/RULES.md: the constant in one cell, its value in another.
fn of_section(title: &str, constant: usize, number: usize) -> Constants {
    let text = include_str!("../../../docs/RULES.md");
    let (_, section) = text.split_once(&format!("\n## {title}\n")).unwrap();
    let section = section.split("\n## ").next().unwrap();
    let rows = section.lines().filter(|line| line.contains("| `"));
    rows.map(|row| {
        let cells: Vec<&str> = row.split('|').map(str::trim).collect();
        let name = cells[constant].trim_matches('`').to_string();
        (name, cells[number].parse().unwrap())
    })
    .collect()
}

#[test]
fn the_docs_have_those_of_rules() {
    let limits = rules::limits().into_iter();
    let mut docs: Constants = limits
        .map(|(name, limit)| (name.to_string(), limit))
        .collect();
    docs.extend(of_section("Kinds", 2, 3));
    let refusals = of_section("Refusals", 3, 1).into_iter();
    docs.extend(refusals.map(|(name, number)| (format!("REFUSAL_{name}"), number)));
    assert_eq!(docs, of_rules());
}

/// A number with commas between its thousands.
fn in_words(number: u64) -> String {
    let digits = number.to_string();
    let mut words = String::new();
    for (k, digit) in digits.chars().enumerate() {
        if k > 0 && (digits.len() - k) % 3 == 0 {
            words.push(',');
        }
        words.push(digit);
    }
    words
}

#[test]
fn the_readme_states_the_limits() {
    let words: Vec<&str> = README.split_whitespace().collect();
    let readme = words.join(" ");
    let of = |name: &str| of_rules()[name];
    let (pictures, span) = (of("PICTURES_MAX"), of("SPAN_MAX"));
    let long = |seconds: u64| format!("{} minutes and {} seconds", seconds / 60, seconds % 60);
    for said in [
        format!("1 to {} pictures", in_words(pictures)),
        format!("at 25 pictures a second are {}", long(pictures / 25)),
        format!("at most {} ticks", in_words(span)),
        format!("{} where a tick is a fiftieth of a second", long(span / 50)),
        format!("1 to {} rates", of("ROWS_MAX")),
        format!("1 to {} bits per second", in_words(of("RATE_MAX"))),
    ] {
        assert!(readme.contains(&said), "{said}");
    }
}

#[test]
fn one_version() {
    let mut library = Constants::new();
    declared(VERSION, &mut library);
    let version = library["VERSION"];
    assert_eq!(planner::version(), version);
    assert_eq!(planner::VERSION, version);
    assert_eq!(of_header(HEADER).0["VERSION"], version);
    let parts = [version / 10_000, version / 100 % 100, version % 100];
    let written = parts.map(|part| part.to_string()).join(".");
    let package = include_str!("../../../rust/Cargo.toml");
    assert!(package.contains(&format!("\nversion = \"{written}\"\n")));
    let definition = include_str!("../../../crates/planner/specs/Version.antt");
    assert!(definition.contains(&format!(" {written}: major")));
}
