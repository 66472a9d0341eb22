//! A table to look up in: made of a recording, or read with the columns rate, buffer and start, as
//! `plan` writes them in its text and in its CSV, or as the proved program prints them.

use crate::fault::{at_line, Fault};
use crate::input::{Fields, Input, Line, Lines};
use crate::options::{takes, whole, Known, Options};
use crate::recording::{Rates, Recording};
use crate::refusal::Asked;
use planner::Bucket;

pub const OPTIONS: &[Known] = &[
    takes(
        "--clock",
        "TS,NU",
        "clock of the recording, where the table has none",
    ),
    takes(
        "--span",
        "TICKS",
        "its last tick less its first, where the table has none",
    ),
];

/// The rows, judged by nobody yet, with the line of each.
#[derive(Default)]
pub struct Table {
    pub rates: Vec<u64>,
    pub buffers: Vec<u64>,
    pub fullnesses: Vec<u64>,
    pub ts: u64,
    pub nu: u64,
    pub span: u64,
    lines: Vec<usize>,
}

/// What a table says beside its rows.
const FACTS: [&str; 3] = ["ts", "nu", "span"];

impl Table {
    /// The least figures of a recording at every rate.
    pub fn of(rec: &Recording, rates: &Rates) -> Result<Table, Fault> {
        let count = rates.values.len();
        let (mut buffers, mut fullnesses) = (vec![0; count], vec![0; count]);
        let asked = Asked {
            rec: Some(rec),
            rates: Some(rates),
            ..Asked::default()
        };
        planner::table(&rec.lent(), &rates.values, 0, &mut buffers, &mut fullnesses)
            .map_err(|refused| asked.fault(refused))?;
        Ok(Table {
            rates: rates.values.clone(),
            buffers,
            fullnesses,
            ts: rec.ts,
            nu: rec.nu,
            span: rec.span(),
            lines: Vec::new(),
        })
    }

    pub fn read(options: &Options) -> Result<Table, Fault> {
        let input = Input::read(options.operand.as_deref(), "table")?;
        let lines = input.lines()?;
        let mut reader = Reader::of_header(&lines)?;
        for line in &lines.said[1..] {
            let read = reader.read_line(line);
            read.map_err(|words| input.fault_at(line.number, &words))?;
        }
        if reader.table.rates.is_empty() {
            return Err(input.fault(lines.end, "the text ends", "a row"));
        }
        let (clock, span) = (&OPTIONS[0], &OPTIONS[1]);
        let asked_clock = options.pair(clock.name, ',', "TS,NU in whole numbers")?;
        let asked_span = options.whole(span.name, "a number of ticks")?;
        let facts = [
            (asked_clock.map(|(ts, _)| ts), clock),
            (asked_clock.map(|(_, nu)| nu), clock),
            (asked_span, span),
        ];
        let mut settled = [0; 3];
        for (k, (asked, option)) in facts.into_iter().enumerate() {
            let wrong = |words: &str| {
                let words = format!("{}: {words} {}: {}", input.name, FACTS[k], option.name);
                Err(Fault::wrong_call(words))
            };
            settled[k] = match (reader.facts[k], asked) {
                (Some(fact), None) | (None, Some(fact)) => fact,
                (None, None) => return wrong("it has no"),
                (Some(_), Some(_)) => return wrong("it has its own"),
            };
        }
        let [ts, nu, span] = settled;
        Ok(Table {
            ts,
            nu,
            span,
            ..reader.table
        })
    }

    /// The bucket at any rate.
    pub fn look_up(&self, rate: u64) -> Result<Bucket, Fault> {
        let asked = Asked {
            table: Some(self),
            rate: Some(rate),
            ..Asked::default()
        };
        let table = planner::Table {
            rates: &self.rates,
            buffers: &self.buffers,
            fullnesses: &self.fullnesses,
            ts: self.ts,
            nu: self.nu,
            span: self.span,
        };
        planner::look_up(&table, rate).map_err(|refused| asked.fault(refused))
    }

    /// `row 3 (line 5)`.
    pub fn at(&self, row: usize) -> String {
        format!("row {row}{}", at_line(self.lines.get(row).copied()))
    }

    /// The bucket of every row.
    pub fn buckets(&self) -> impl Iterator<Item = Bucket> + '_ {
        let both = self.buffers.iter().zip(&self.fullnesses);
        both.map(|(&buffer, &fullness)| Bucket { buffer, fullness })
    }
}

struct Reader {
    fields: Fields,
    names: Vec<String>,
    facts: [Option<u64>; 3],
    table: Table,
}

impl Reader {
    fn of_header(lines: &Lines) -> Result<Reader, Fault> {
        let expected = "a header with the columns rate, buffer and start";
        let Some(header) = lines.said.first() else {
            return Err(lines.input.fault(lines.end, "the text ends", expected));
        };
        let fields = Fields::of_header(header.text);
        let names: Vec<String> = fields
            .of(header.text)
            .into_iter()
            .map(String::from)
            .collect();
        for wanted in ["rate", "buffer", "start"] {
            let count = names.iter().filter(|name| *name == wanted).count();
            if count != 1 {
                let found = format!("{count} columns {wanted}");
                return Err(lines.input.fault(header.number, &found, expected));
            }
        }
        Ok(Reader {
            fields,
            names,
            facts: [None; 3],
            table: Table::default(),
        })
    }

    fn read_line(&mut self, line: &Line) -> Result<(), String> {
        let cells = self.fields.of(line.text);
        match cells[0] {
            // The line of units, and the line behind the rows, of the text for people.
            "bit/s" => Ok(()),
            "ts" => self.read_facts(line),
            _ => self.read_row(&cells, line.number),
        }
    }

    fn read_facts(&mut self, line: &Line) -> Result<(), String> {
        for fact in line.text.split(',') {
            let words: Vec<&str> = fact.split_whitespace().collect();
            let [name, value] = words[..] else {
                return Err(format!("{fact:?}; a name and a number are expected"));
            };
            self.set_fact(name, value)?;
        }
        Ok(())
    }

    fn read_row(&mut self, cells: &[&str], line: usize) -> Result<(), String> {
        if cells.len() != self.names.len() {
            return Err(format!(
                "{} columns; {} as in the header are expected",
                cells.len(),
                self.names.len()
            ));
        }
        for (name, cell) in self.names.clone().iter().zip(cells) {
            match name.as_str() {
                "rate" => self
                    .table
                    .rates
                    .push(whole(cell, "a rate in bits per second")?),
                "buffer" => self.table.buffers.push(whole(cell, "a buffer in bits")?),
                "start" => self
                    .table
                    .fullnesses
                    .push(whole(cell, "a start fullness in bits")?),
                name => self.set_fact(name, cell)?,
            }
        }
        self.table.lines.push(line);
        Ok(())
    }

    /// A fact is the same wherever it stands.
    fn set_fact(&mut self, name: &str, value: &str) -> Result<(), String> {
        let Some(k) = FACTS.iter().position(|fact| *fact == name) else {
            return Ok(());
        };
        let value = whole(value, "a whole number")?;
        match self.facts[k].replace(value) {
            Some(before) if before != value => {
                Err(format!("{name} {value}; {before} as before is expected"))
            }
            _ => Ok(()),
        }
    }
}
