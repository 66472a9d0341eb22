//! The bytes of a file or of standard input, and the lines of a text.

use crate::fault::Fault;
use std::ffi::OsStr;
use std::fs::File;
use std::io::{stdin, IsTerminal, Read};

/// Bytes of a text or a sheet: an input without end is refused too.
const INPUT_MAX: u64 = 64 << 20;

/// What was read, and what it is called in a fault.
pub struct Input {
    pub name: String,
    pub bytes: Vec<u8>,
}

impl Input {
    /// Reads a text or a sheet.
    pub fn read(operand: Option<&OsStr>, wanted: &str) -> Result<Input, Fault> {
        Input::read_whole(operand, wanted, INPUT_MAX)
    }

    /// Reads all there is; more than so many bytes are refused.
    pub fn read_whole(operand: Option<&OsStr>, wanted: &str, most: u64) -> Result<Input, Fault> {
        let input = Input::read_front(operand, wanted, most + 1)?;
        if input.bytes.len() as u64 > most {
            return Err(Fault::refused(format!(
                "{}: more than {most} bytes; a {wanted} is expected",
                input.name
            )));
        }
        Ok(input)
    }

    /// Reads at most so many bytes; `-`, or no name, is standard input.
    pub fn read_front(operand: Option<&OsStr>, wanted: &str, most: u64) -> Result<Input, Fault> {
        let from_stdin = operand.map_or(true, |name| name == "-");
        if operand.is_none() && stdin().is_terminal() {
            return Err(Fault::wrong_call(format!(
                "no {wanted}: name a file, or - for standard input"
            )));
        }
        let name = match operand {
            Some(name) if !from_stdin => name.to_string_lossy().into_owned(),
            _ => "standard input".to_string(),
        };
        let mut bytes = Vec::new();
        let read = if from_stdin {
            stdin().lock().take(most).read_to_end(&mut bytes)
        } else {
            let file = File::open(operand.unwrap_or_default());
            file.and_then(|file| file.take(most).read_to_end(&mut bytes))
        };
        match read {
            Ok(_) => Ok(Input { name, bytes }),
            Err(error) => Err(Fault::failed(format!(
                "{name}: {error}; a {wanted} is expected"
            ))),
        }
    }

    /// The lines that say something, without comments, which `#` begins, and with their numbers.
    pub fn lines(&self) -> Result<Lines<'_>, Fault> {
        if is_utf16(&self.bytes) {
            return Err(self.fault(1, "UTF-16 text", "UTF-8 text"));
        }
        let bytes = self
            .bytes
            .strip_prefix(b"\xef\xbb\xbf")
            .unwrap_or(&self.bytes);
        let mut lines = Lines {
            input: self,
            said: Vec::new(),
            end: 1,
        };
        for line in bytes.split_inclusive(|&byte| byte == b'\n') {
            let said = line.split(|&byte| byte == b'#').next().unwrap_or(line);
            let text = std::str::from_utf8(said)
                .map_err(|_| self.fault(lines.end, "bytes that are no text", "UTF-8 text"))?;
            let text = text.trim_matches([' ', '\t', '\r', '\n']);
            if !text.is_empty() {
                lines.said.push(Line {
                    number: lines.end,
                    text,
                });
            }
            lines.end += 1;
        }
        Ok(lines)
    }

    /// What is wrong at a line, counted from 1, and what is expected there.
    pub fn fault(&self, line: usize, found: &str, expected: &str) -> Fault {
        self.fault_at(line, &format!("{found}; {expected} is expected"))
    }

    pub fn fault_at(&self, line: usize, words: &str) -> Fault {
        Fault::refused(format!("{}, line {line}: {words}", self.name))
    }
}

/// Whether bytes begin with the mark of UTF-16, as some editors write it.
pub fn is_utf16(bytes: &[u8]) -> bool {
    bytes.starts_with(&[0xff, 0xfe]) || bytes.starts_with(&[0xfe, 0xff])
}

/// The lines of a text that say something.
pub struct Lines<'a> {
    pub input: &'a Input,
    pub said: Vec<Line<'a>>,
    /// The number of the line after the last one.
    pub end: usize,
}

#[derive(Clone, Copy)]
pub struct Line<'a> {
    pub number: usize,
    pub text: &'a str,
}

impl Line<'_> {
    pub fn words(&self) -> Vec<&str> {
        self.text
            .split([' ', '\t'])
            .filter(|word| !word.is_empty())
            .collect()
    }
}

/// The fields of a table's lines: with commas, semicolons or tabs between them, whichever its header
/// has, or else with blanks.
#[derive(Clone, Copy)]
pub struct Fields {
    sign: Option<char>,
}

impl Fields {
    pub fn of_header(header: &str) -> Fields {
        Fields {
            sign: [',', ';', '\t']
                .into_iter()
                .find(|&sign| header.contains(sign)),
        }
    }

    pub fn of<'a>(&self, line: &'a str) -> Vec<&'a str> {
        let bare = |field: &'a str| field.trim().trim_matches('"').trim();
        match self.sign {
            Some(sign) => line.split(sign).map(bare).collect(),
            None => line.split_whitespace().map(bare).collect(),
        }
    }
}
