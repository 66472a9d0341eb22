//! What the program prints, read back: the rows by their names, with what holds for all of them in
//! each, from CSV, from JSON and from the text for people.

use std::collections::BTreeMap;

/// The values of a row, as they were written; an empty one where there is none.
pub type Row = BTreeMap<String, String>;

pub fn number<T: std::str::FromStr>(row: &Row, name: &str) -> T {
    let parsed = row[name].parse().ok();
    parsed.unwrap_or_else(|| panic!("{name} in {row:?}"))
}

pub fn maybe<T: std::str::FromStr>(row: &Row, name: &str) -> Option<T> {
    (!row[name].is_empty()).then(|| number(row, name))
}

pub fn csv(text: &str) -> Vec<Row> {
    assert!(text.ends_with('\n'));
    let mut lines = text.lines().map(|line| line.split(',').collect::<Vec<_>>());
    let names = lines.next().unwrap();
    lines.map(|values| row(&names, &values)).collect()
}

fn row(names: &[&str], values: &[&str]) -> Row {
    assert_eq!(names.len(), values.len(), "{names:?} {values:?}");
    let both = names.iter().zip(values);
    both.map(|(name, value)| (name.to_string(), value.to_string()))
        .collect()
}

/// Names, units, rows, every column ending where its name does, and perhaps a line for all rows.
pub fn people(text: &str) -> Vec<Row> {
    let lines: Vec<&str> = text.lines().collect();
    let names = words(lines[0]);
    let (mut rows, mut all) = (Vec::new(), Row::new());
    for line in &lines[2..] {
        if line.contains(", ") {
            let facts = line.split(", ").map(|fact| fact.split_once(' ').unwrap());
            all.extend(facts.map(|(name, value)| (name.to_string(), value.to_string())));
            continue;
        }
        let values = words(line);
        assert_eq!(names.len(), values.len(), "{text}");
        let mut row = Row::new();
        for ((name, name_end), (value, end)) in names.iter().zip(values) {
            assert_eq!(end, *name_end, "{text}");
            let value = if value == "-" { "" } else { value };
            row.insert(name.to_string(), value.to_string());
        }
        rows.push(row);
    }
    rows.iter_mut().for_each(|row| row.extend(all.clone()));
    rows
}

/// The words of a line, and where each ends.
fn words(line: &str) -> Vec<(&str, usize)> {
    let starts = line
        .char_indices()
        .filter(|&(at, c)| c != ' ' && (at == 0 || line.as_bytes()[at - 1] == b' '));
    starts
        .map(|(at, _)| {
            let word = line[at..].split(' ').next().unwrap();
            (word, at + word.len())
        })
        .collect()
}

/// The rows of an object, or the object itself.
pub fn json(text: &str) -> Vec<Row> {
    let mut rest = text;
    let Json::Object(members) = value(&mut rest) else {
        panic!("no object: {text}");
    };
    assert_eq!(rest, "\n");
    let (mut all, mut rows) = (Row::new(), vec![Row::new()]);
    for (name, value) in members {
        match value {
            Json::Plain(value) => assert_eq!(all.insert(name, value), None),
            Json::Array(items) => {
                assert_eq!(name, "rows");
                rows = items.into_iter().map(plain).collect();
            }
            Json::Object(_) => panic!("{name}"),
        }
    }
    rows.iter_mut().for_each(|row| row.extend(all.clone()));
    rows
}

enum Json {
    Plain(String),
    Object(Vec<(String, Json)>),
    Array(Vec<Json>),
}

fn plain(item: Json) -> Row {
    let Json::Object(members) = item else {
        panic!("a row is an object");
    };
    let plain = members.into_iter().map(|(name, value)| match value {
        Json::Plain(value) => (name, value),
        _ => panic!("{name}"),
    });
    plain.collect()
}

/// A value of JSON, as RFC 8259 has it but for escapes, of which the program writes none.
fn value(rest: &mut &str) -> Json {
    if take(rest, "{") {
        let mut members = Vec::new();
        while !take(rest, "}") {
            assert!(members.is_empty() || take(rest, ","));
            let name = string(rest);
            assert!(take(rest, ":"));
            members.push((name, value(rest)));
        }
        return Json::Object(members);
    }
    if take(rest, "[") {
        let mut items = Vec::new();
        while !take(rest, "]") {
            assert!(items.is_empty() || take(rest, ","));
            items.push(value(rest));
        }
        return Json::Array(items);
    }
    if take(rest, "null") {
        return Json::Plain(String::new());
    }
    if rest.starts_with('"') {
        return Json::Plain(string(rest));
    }
    let end = rest.find([',', '}', ']', '\n']).unwrap();
    let number = rest[..end].to_string();
    let bare = number.strip_prefix('-').unwrap_or(&number);
    let (whole, part) = bare.split_once('.').unwrap_or((bare, "0"));
    let digits = |text: &str| !text.is_empty() && text.bytes().all(|byte| byte.is_ascii_digit());
    assert!(digits(whole) && digits(part), "{number}");
    assert!(whole == "0" || !whole.starts_with('0'), "{number}");
    *rest = &rest[end..];
    Json::Plain(number)
}

fn string(rest: &mut &str) -> String {
    assert!(take(rest, "\""), "{rest}");
    let (text, after) = rest.split_once('"').unwrap();
    assert!(!text.contains('\\'));
    *rest = after;
    text.to_string()
}

/// Whether a sign comes next, behind white space if there is some; then it is taken.
fn take(rest: &mut &str, sign: &str) -> bool {
    let bare = rest.trim_start_matches([' ', '\n']);
    match bare.strip_prefix(sign) {
        Some(after) => *rest = after,
        None if sign == "}" || sign == "]" || sign == "," => {}
        None => *rest = bare,
    }
    bare.starts_with(sign)
}
