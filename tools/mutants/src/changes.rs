//! The changes of a file: one comparison, constant or operand at a time.

use crate::items::{next, Code, Declared, File};
use crate::scope::Scope;
use crate::tokens::{Kind, Token, Tokens};
use std::ops::Range;

/// A line of a file, counted from 1, and what it is changed to.
#[derive(Debug, PartialEq, Eq)]
pub struct Change {
    pub line: usize,
    pub old: String,
    pub new: String,
}

impl Change {
    /// The text of the file with the line changed.
    pub fn applied(&self, source: &str) -> String {
        let lines = source.lines().enumerate().map(|(at, line)| {
            let line = if at + 1 == self.line { &self.new } else { line };
            format!("{line}\n")
        });
        lines.collect()
    }
}

/// Every change of a file, in the order of its text.
pub fn changes(file: &File, declared: &Declared) -> Vec<Change> {
    let codes = file.codes.iter();
    let replacements = codes.flat_map(|code| Changer::of(file, code, declared).replacements());
    replacements
        .filter_map(|(span, new)| changed(file.source, span, &new))
        .collect()
}

/// What reaches over the end of a line is left out.
fn changed(source: &str, span: Range<usize>, new: &str) -> Option<Change> {
    let start = source[..span.start].rfind('\n').map_or(0, |at| at + 1);
    let end = start + source[start..].find('\n')?;
    (span.end <= end).then(|| Change {
        line: source[..start].matches('\n').count() + 1,
        old: source[start..end].to_string(),
        new: [&source[start..span.start], new, &source[span.end..end]].concat(),
    })
}

/// Some bytes of a file, and what is put there.
type Replacement = (Range<usize>, String);

struct Changer<'a> {
    file: &'a File<'a>,
    tokens: &'a Tokens<'a>,
    body: Range<usize>,
    declared: &'a Declared<'a>,
    scope: Scope<'a>,
}

impl<'a> Changer<'a> {
    fn of(file: &'a File<'a>, code: &Code<'a>, declared: &'a Declared<'a>) -> Self {
        Changer {
            file,
            tokens: &file.tokens,
            body: code.body.clone(),
            declared,
            scope: Scope::of(file, code, declared),
        }
    }

    fn replacements(&self) -> Vec<Replacement> {
        let mut found = Vec::new();
        let mut at = self.body.start;
        while at < self.body.end {
            at = match self.tokens[at].text {
                "let" => self.tokens.find(at, &["="]),
                "for" => self.tokens.find(at, &["in"]),
                _ => at,
            };
            let here = [self.comparison(at), self.constant(at), self.operand(at)];
            let here = here.into_iter().flatten();
            found.extend(here.map(|new| (self.tokens.bytes(at..at + 1), new)));
            found.extend(self.exchange(at));
            at += 1;
        }
        found
    }

    fn comparison(&self, at: usize) -> Option<String> {
        let new = match self.tokens[at].text {
            "<" => "<=",
            "<=" => "<",
            ">" => ">=",
            ">=" => ">",
            "==" => "!=",
            "!=" => "==",
            _ => return None,
        };
        Some(new.to_string())
    }

    /// A number more by 1, or the next of the constants that a file declares.
    fn constant(&self, at: usize) -> Option<String> {
        let token = self.tokens[at];
        match (token.kind, token.text) {
            _ if self.follows(at, &[".", "::"]) => None,
            (Kind::Integer, text) => one_more(text),
            (Kind::Float, "0.0") => Some("1.0".to_string()),
            (Kind::Float, _) => Some("0.0".to_string()),
            (_, name) => match self.declared.constants(name)? {
                (home, all) if home == self.file.home => next(all, name).map(str::to_string),
                (home, all) => Some(format!("{home}::{}", next(all, name)?)),
            },
        }
    }

    /// The next variable that is known here, or the next field of the same struct.
    fn operand(&self, at: usize) -> Option<String> {
        let name = self.tokens[at].text;
        if self.follows(at, &["."]) {
            return next(self.scope.fields(at - 2)?, name).map(str::to_string);
        }
        let after = self.tokens.text(at + 1);
        if ["::", "(", ":", "=", "+=", "-="].contains(&after) || self.follows(at, &["::"]) {
            return None;
        }
        let mut known = self.scope.known(at);
        if after == "as" {
            let integers = known.iter_mut().filter(|it| is_integer(&it.kind));
            integers.for_each(|it| it.kind = "integer".to_string());
        }
        let other = next(&known, name)?;
        if self.is_shorthand(at) {
            return Some(format!("{name}: {other}"));
        }
        Some(other.to_string())
    }

    /// Whether a name is field and variable at once, as in `Struct { name, .. }`.
    fn is_shorthand(&self, at: usize) -> bool {
        let open = self.tokens.opener(at);
        self.follows(at, &["{", ","]) && self.tokens[open].text == "{" && self.is_struct(open - 1)
    }

    /// The name of a constant has no small letters.
    fn is_struct(&self, at: usize) -> bool {
        let name = self.tokens[at].text;
        name.starts_with(char::is_uppercase) && name.contains(char::is_lowercase)
    }

    fn follows(&self, at: usize, texts: &[&str]) -> bool {
        texts.contains(&self.tokens[at - 1].text)
    }

    /// The operands of a sign, the other way round.
    fn exchange(&self, at: usize) -> Option<Replacement> {
        let sign = self.tokens[at].text;
        if !["<", "<=", ">", ">=", "-", "/", "%"].contains(&sign) {
            return None;
        }
        let least = strength(sign);
        let mut start = at;
        while self.is_part(start - 1, at, least) {
            start = self.tokens.partner(start - 1);
        }
        let mut end = at + 1;
        while self.is_part(end, at, least + 1) {
            end = self.tokens.partner(end) + 1;
        }
        let text = |operand| &self.file.source[self.tokens.bytes(operand)];
        let (left, right) = (text(start..at), text(at + 1..end));
        let is_chain = (start..at)
            .any(|it| self.is_part(it, at, least) && strength(self.tokens[it].text) == least);
        let left = if is_chain {
            format!("({left})")
        } else {
            left.to_string()
        };
        Some((
            self.tokens.bytes(start..end),
            format!("{right} {sign} {left}"),
        ))
    }

    /// Whether a token belongs to an operand of a sign, in which signs are at least so strong.
    fn is_part(&self, it: usize, at: usize, least: u8) -> bool {
        let Token { kind, text, .. } = self.tokens[it];
        let is_word = match kind {
            Kind::Name => !["if", "while", "match", "return", "else", "in"].contains(&text),
            Kind::Sign => [".", "::", "!", "(", ")", "[", "]"].contains(&text),
            _ => true,
        };
        self.tokens.opener(it) == self.tokens.opener(at) && (is_word || strength(text) >= least)
    }
}

fn is_integer(kind: &str) -> bool {
    ["u8", "u16", "u32", "u64", "usize"].contains(&kind)
}

/// How strongly a sign between operands binds; 0 for none.
fn strength(sign: &str) -> u8 {
    match sign {
        "<" | "<=" | ">" | ">=" | "==" | "!=" => 1,
        "<<" | ">>" => 2,
        "+" | "-" => 3,
        "*" | "/" | "%" => 4,
        _ => 0,
    }
}

/// A number and 1, with its suffix.
fn one_more(integer: &str) -> Option<String> {
    let end = integer.find(|c: char| c.is_ascii_alphabetic());
    let (digits, suffix) = integer.split_at(end.unwrap_or(integer.len()));
    let number: u64 = digits.replace('_', "").parse().ok()?;
    (!suffix.starts_with(['x', 'o', 'b'])).then(|| format!("{}{suffix}", number + 1))
}
