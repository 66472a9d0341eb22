//! An answer as aligned text for people, and as CSV or JSON for programs.

use crate::fault::Fault;
use crate::files::{print, write_file};
use crate::options::{flag, takes, Known, Options};

pub const OUT: Known = takes("--out", "FILE", "write to this file, whole or not at all");

const CSV: Known = flag(
    "--csv",
    "as CSV: exact, with what holds for all rows in each of them",
);
const JSON: Known = flag("--json", "as JSON: exact");

/// The options of every answer.
pub const OPTIONS: &[Known] = &[CSV, JSON, OUT];

#[derive(Clone, Copy)]
pub enum Form {
    People,
    Csv,
    Json,
}

impl Form {
    pub fn asked(options: &Options) -> Result<Form, Fault> {
        match (options.has(CSV.name), options.has(JSON.name)) {
            (false, false) => Ok(Form::People),
            (true, false) => Ok(Form::Csv),
            (false, true) => Ok(Form::Json),
            (true, true) => Err(Fault::wrong_call("--csv or --json, not both")),
        }
    }
}

/// What a command hands back to be written.
pub enum Output {
    Answer(Answer),
    Bytes(Vec<u8>),
}

/// A value with its name and its unit.
pub struct Entry {
    name: &'static str,
    unit: &'static str,
    value: Value,
    /// Whether people are shown it, or programs alone.
    shown: bool,
}

pub enum Value {
    Whole(i128),
    Real(f64),
    Words(&'static str),
    Nothing,
}

pub fn entry(name: &'static str, unit: &'static str, value: impl Into<Value>) -> Entry {
    Entry {
        name,
        unit,
        value: value.into(),
        shown: true,
    }
}

/// An entry for programs alone.
pub fn exact(name: &'static str, value: impl Into<Value>) -> Entry {
    Entry {
        shown: false,
        ..entry(name, "", value)
    }
}

impl From<u64> for Value {
    fn from(value: u64) -> Value {
        Value::Whole(value.into())
    }
}

impl From<i128> for Value {
    fn from(value: i128) -> Value {
        Value::Whole(value)
    }
}

impl From<f64> for Value {
    fn from(value: f64) -> Value {
        Value::Real(value)
    }
}

impl From<&'static str> for Value {
    fn from(value: &'static str) -> Value {
        Value::Words(value)
    }
}

impl<T: Into<Value>> From<Option<T>> for Value {
    fn from(value: Option<T>) -> Value {
        value.map_or(Value::Nothing, T::into)
    }
}

impl Entry {
    /// Seconds to the microsecond, what else is no whole number to a tenth.
    fn for_people(&self) -> String {
        match self.value {
            Value::Real(number) if self.unit == "s" => format!("{number:.6}"),
            Value::Real(number) => format!("{number:.1}"),
            Value::Nothing => "-".to_string(),
            _ => self.for_csv(),
        }
    }

    fn for_csv(&self) -> String {
        match self.value {
            Value::Whole(number) => number.to_string(),
            Value::Real(number) => number.to_string(),
            Value::Words(words) => words.to_string(),
            Value::Nothing => String::new(),
        }
    }

    fn for_json(&self) -> String {
        let value = match self.value {
            Value::Words(words) => format!("\"{words}\""),
            Value::Nothing => "null".to_string(),
            _ => self.for_csv(),
        };
        format!("\"{}\": {value}", self.name)
    }
}

/// Rows that have the same names, and what holds for all of them; or that alone.
#[derive(Default)]
pub struct Answer {
    pub rows: Vec<Vec<Entry>>,
    pub all: Vec<Entry>,
    /// The text for people where it is not these rows.
    pub text: Option<String>,
}

impl Answer {
    fn in_form(&self, form: Form) -> String {
        match form {
            Form::People => self.for_people(),
            Form::Csv => self.for_csv(),
            Form::Json => self.for_json(),
        }
    }

    fn for_people(&self) -> String {
        match &self.text {
            Some(text) => text.clone(),
            None if self.rows.is_empty() => aligned(std::slice::from_ref(&self.all)),
            None => aligned(&self.rows) + &self.last_line(),
        }
    }

    fn last_line(&self) -> String {
        let given = self
            .all
            .iter()
            .filter(|entry| !matches!(entry.value, Value::Nothing));
        let words = given.map(|entry| format!("{} {}", entry.name, entry.for_people()));
        match words.collect::<Vec<_>>().join(", ") {
            words if words.is_empty() => words,
            words => words + "\n",
        }
    }

    fn for_csv(&self) -> String {
        let line = |row: &[Entry], cell: fn(&Entry) -> String| {
            let cells: Vec<String> = row.iter().chain(&self.all).map(cell).collect();
            cells.join(",") + "\n"
        };
        let alone = [Vec::new()];
        let rows = if self.rows.is_empty() {
            &alone[..]
        } else {
            &self.rows
        };
        let header = line(&rows[0], |entry| entry.name.to_string());
        let lines = rows.iter().map(|row| line(row, Entry::for_csv));
        header + &lines.collect::<String>()
    }

    fn for_json(&self) -> String {
        let members = |row: &[Entry]| row.iter().map(Entry::for_json).collect::<Vec<_>>();
        let mut object = members(&self.all);
        if !self.rows.is_empty() {
            let rows = self
                .rows
                .iter()
                .map(|row| format!("    {{{}}}", members(row).join(", ")));
            let rows: Vec<String> = rows.collect();
            object.push(format!("\"rows\": [\n{}\n  ]", rows.join(",\n")));
        }
        format!("{{\n  {}\n}}\n", object.join(",\n  "))
    }
}

/// Names, units and rows, every column as wide as its widest word.
fn aligned(rows: &[Vec<Entry>]) -> String {
    let line = |row: &[Entry], cell: fn(&Entry) -> String| {
        row.iter()
            .filter(|entry| entry.shown)
            .map(cell)
            .collect::<Vec<String>>()
    };
    let mut lines = vec![
        line(&rows[0], |entry| entry.name.to_string()),
        line(&rows[0], |entry| entry.unit.to_string()),
    ];
    lines.extend(rows.iter().map(|row| line(row, Entry::for_people)));
    let mut widths = vec![0; lines[0].len()];
    for line in &lines {
        for (width, word) in widths.iter_mut().zip(line) {
            *width = word.len().max(*width);
        }
    }
    let padded = lines.iter().map(|line| {
        let words = line
            .iter()
            .zip(&widths)
            .map(|(word, width)| format!("{word:>width$}"));
        words.collect::<Vec<_>>().join("  ").trim_end().to_string() + "\n"
    });
    padded.collect()
}

impl Output {
    /// An answer of one row.
    pub fn one(entries: Vec<Entry>) -> Output {
        Output::Answer(Answer {
            all: entries,
            ..Answer::default()
        })
    }

    /// Rows, and what holds for all of them.
    pub fn rows(rows: Vec<Vec<Entry>>, all: Vec<Entry>) -> Output {
        Output::Answer(Answer {
            rows,
            all,
            text: None,
        })
    }

    /// Writes to the file that the options name, or to standard output.
    pub fn write(self, form: Form, options: &Options) -> Result<(), Fault> {
        let bytes = match self {
            Output::Bytes(bytes) => bytes,
            Output::Answer(answer) => answer.in_form(form).into_bytes(),
        };
        match options.value(OUT.name) {
            Some(path) => write_file(path, &bytes),
            None => print(&bytes),
        }
    }
}
