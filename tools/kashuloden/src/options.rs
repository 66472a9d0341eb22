//! The command line: what a command knows, and what it was given.

use crate::fault::Fault;
use std::ffi::OsString;

/// An option by its name, what stands behind it where something does, and what it is for.
pub struct Known {
    pub name: &'static str,
    pub takes: Option<&'static str>,
    pub says: &'static str,
}

pub const fn takes(name: &'static str, what: &'static str, says: &'static str) -> Known {
    Known {
        name,
        takes: Some(what),
        says,
    }
}

pub const fn flag(name: &'static str, says: &'static str) -> Known {
    Known {
        name,
        takes: None,
        says,
    }
}

/// What stands behind the name of a command.
#[derive(Default)]
pub struct Options {
    /// The word that is no option: a file's name.
    pub operand: Option<OsString>,
    given: Vec<(&'static str, OsString)>,
    known: Vec<&'static Known>,
}

impl Options {
    pub fn parse(
        words: impl IntoIterator<Item = OsString>,
        known: &[&'static [Known]],
        operand: Option<&str>,
    ) -> Result<Options, Fault> {
        let mut options = Options {
            known: known.iter().copied().flatten().collect(),
            ..Options::default()
        };
        let mut words = words.into_iter();
        while let Some(word) = words.next() {
            match word.to_str() {
                Some(text) if text.starts_with("--") => options.take_option(text, &mut words)?,
                Some(text) if text.starts_with('-') && text != "-" => {
                    let words = format!("{text:?} is no option: options begin with --");
                    return Err(Fault::wrong_call(words));
                }
                _ => options.take_operand(word, operand)?,
            }
        }
        Ok(options)
    }

    fn take_option(
        &mut self,
        text: &str,
        words: &mut impl Iterator<Item = OsString>,
    ) -> Result<(), Fault> {
        let (name, joined) = match text.split_once('=') {
            Some((name, value)) => (name, Some(OsString::from(value))),
            None => (text, None),
        };
        let Some(option) = self.known.iter().copied().find(|one| one.name == name) else {
            let names: Vec<&str> = self.known.iter().map(|one| one.name).collect();
            return Err(Fault::wrong_call(format!(
                "{name:?} is no option here; these are: {}",
                names.join(" ")
            )));
        };
        if self.has(option.name) {
            return Err(Fault::wrong_call(format!("{name} a second time")));
        }
        let value = match (option.takes, joined) {
            (None, None) => OsString::new(),
            (None, Some(_)) => return Err(Fault::wrong_call(format!("{name} takes no value"))),
            (Some(_), Some(value)) => value,
            (Some(what), None) => words
                .next()
                .ok_or_else(|| Fault::wrong_call(format!("{name} takes {what}")))?,
        };
        self.given.push((option.name, value));
        Ok(())
    }

    fn take_operand(&mut self, word: OsString, wanted: Option<&str>) -> Result<(), Fault> {
        match (wanted, &self.operand) {
            (Some(_), None) => {
                self.operand = Some(word);
                Ok(())
            }
            (Some(wanted), Some(first)) => Err(Fault::wrong_call(format!(
                "{word:?} after {first:?}: one {wanted} is taken"
            ))),
            (None, _) => Err(Fault::wrong_call(format!(
                "{word:?}: no file is taken here"
            ))),
        }
    }

    /// Whether the command has this option at all.
    pub fn knows(&self, name: &str) -> bool {
        self.known.iter().any(|one| one.name == name)
    }

    pub fn has(&self, name: &str) -> bool {
        self.value(name).is_some()
    }

    pub fn value(&self, name: &str) -> Option<&OsString> {
        let found = self.given.iter().find(|(given, _)| *given == name)?;
        Some(&found.1)
    }

    pub fn text(&self, name: &str) -> Result<Option<&str>, Fault> {
        let Some(value) = self.value(name) else {
            return Ok(None);
        };
        match value.to_str() {
            Some(text) => Ok(Some(text)),
            None => Err(Fault::wrong_call(format!("{name} {value:?}: not UTF-8"))),
        }
    }

    /// A whole number, as `expected` names it.
    pub fn whole(&self, name: &str, expected: &str) -> Result<Option<u64>, Fault> {
        let Some(text) = self.text(name)? else {
            return Ok(None);
        };
        whole(text, expected)
            .map(Some)
            .map_err(|words| Fault::wrong_call(format!("{name}: {words}")))
    }

    pub fn needed(&self, name: &str, expected: &str) -> Result<u64, Fault> {
        self.whole(name, expected)?
            .ok_or_else(|| Fault::wrong_call(format!("{name} is missing: {expected}")))
    }

    /// Two whole numbers with a sign between them, as `expected` names them.
    pub fn pair(
        &self,
        name: &str,
        sign: char,
        expected: &str,
    ) -> Result<Option<(u64, u64)>, Fault> {
        let Some(text) = self.text(name)? else {
            return Ok(None);
        };
        let wrong = |words: String| Fault::wrong_call(format!("{name}: {words}"));
        let Some((left, right)) = text.split_once(sign) else {
            return Err(wrong(format!("{text:?}; {expected} is expected")));
        };
        let left = whole(left.trim(), expected).map_err(wrong)?;
        let right = whole(right.trim(), expected).map_err(wrong)?;
        Ok(Some((left, right)))
    }
}

/// A whole number in decimal digits; otherwise what is wrong with the word, and what is expected.
pub fn whole(word: &str, expected: &str) -> Result<u64, String> {
    let digits = word.strip_prefix(['-', '+']).unwrap_or(word);
    let all_digits = |text: &str| !text.is_empty() && text.bytes().all(|b| b.is_ascii_digit());
    let wrong = if !all_digits(digits) {
        match digits.split_once('.') {
            Some((left, right)) if all_digits(left) && all_digits(right) => "is no whole number",
            _ => "is no number",
        }
    } else if digits.len() < word.len() {
        "has a sign"
    } else {
        match word.parse() {
            Ok(number) => return Ok(number),
            Err(_) => "is past 64 bits",
        }
    };
    Err(format!("{word:?} {wrong}; {expected} is expected"))
}
