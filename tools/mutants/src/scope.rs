//! The variables of a function, parameters and locals, with their types as far as declarations tell
//! them.

use crate::items::{named, Code, Declared, File, Typed};
use crate::tokens::{Kind, Token, Tokens};
use std::ops::Range;

/// The type of a number, until what it is compared with or set to tells it.
const NUMBER: &str = "number";

pub struct Scope<'a> {
    tokens: &'a Tokens<'a>,
    declared: &'a Declared<'a>,
    /// Each with the tokens where it is known.
    variables: Vec<(Typed<'a>, Range<usize>)>,
}

impl<'a> Scope<'a> {
    pub fn of(file: &'a File<'a>, code: &Code<'a>, declared: &'a Declared<'a>) -> Self {
        let params = code.params.iter().cloned();
        let mut scope = Scope {
            tokens: &file.tokens,
            declared,
            variables: params.map(|it| (it, code.body.clone())).collect(),
        };
        for at in code.body.clone() {
            match file.tokens[at].text {
                "let" => scope.read_let(at),
                "for" => scope.read_for(at),
                "=>" => scope.read_arm(at),
                _ => {}
            }
        }
        for index in 0..scope.variables.len() {
            scope.settle(index);
        }
        scope
    }

    /// The variables that are known at a token, in their order; of several with one name the last.
    pub fn known(&self, at: usize) -> Vec<Typed<'a>> {
        let mut known: Vec<Typed> = Vec::new();
        for (variable, place) in &self.variables {
            if place.contains(&at) {
                known.retain(|it| it.name != variable.name);
                known.push(variable.clone());
            }
        }
        known
    }

    /// The fields of the struct that a variable is.
    pub fn fields(&self, at: usize) -> Option<&'a [Typed<'a>]> {
        self.declared.fields(&self.variable(at)?)
    }

    /// The type of a variable.
    fn variable(&self, at: usize) -> Option<String> {
        named(&self.known(at), self.tokens[at].text).map(|it| it.kind.clone())
    }

    /// `let pattern = value;`, with an `else` block or without; `if let pattern = value { .. }`.
    fn read_let(&mut self, at: usize) {
        let tokens = self.tokens;
        let equals = tokens.find(at, &["="]);
        if let "if" | "while" = tokens[at - 1].text {
            let block = tokens.find(equals, &["{"]);
            let kind = self.type_of(equals + 1..block);
            self.bind(at + 1..equals, &kind, tokens.inside(block));
        } else {
            let end = tokens.find(equals, &[";", "else"]);
            let colon = tokens.find(at, &[":"]);
            let (pattern, kind) = if colon < equals {
                (at + 1..colon, tokens.kind(colon + 1..equals))
            } else {
                (at + 1..equals, self.type_of(equals + 1..end))
            };
            let block = tokens.inside(tokens.opener(at));
            self.bind(pattern, &kind, end..block.end);
        }
    }

    /// `for pattern in values { .. }`, where the values are numbers of a range or entries of a list.
    fn read_for(&mut self, at: usize) {
        let tokens = self.tokens;
        let within = tokens.find(at, &["in"]);
        let block = tokens.find(within, &["{"]);
        let values = within + 1..block;
        let words: Vec<&str> = values.clone().map(|it| tokens[it].text).collect();
        let kind = if words.contains(&"..") {
            self.type_of(values)
        } else {
            let item = entry(&self.variable(values.start).unwrap_or_default());
            match words.as_slice() {
                [_, ".", "iter", "(", ")"] => item,
                [_, ".", "iter", "(", ")", ".", "enumerate", "(", ")"] => format!("(usize,{item})"),
                _ => String::new(),
            }
        };
        self.bind(at + 1..within, &kind, tokens.inside(block));
    }

    /// `pattern => value`, `pattern if test => value`.
    fn read_arm(&mut self, at: usize) {
        let tokens = self.tokens;
        let open = tokens.opener(at);
        let is_before = |it: usize| match tokens[it].text {
            "," => true,
            "}" => tokens[tokens.partner(it) - 1].text == "=>",
            _ => false,
        };
        let mut start = at;
        while start > open + 1 && !is_before(start - 1) {
            start = tokens.partner(start - 1).min(start - 1);
        }
        let end = tokens.find(start, &["if"]).min(at);
        let place = if tokens.text(at + 1) == "{" {
            end..tokens.partner(at + 1)
        } else {
            end..tokens.find(at, &[",", "}"])
        };
        let mut asked = open;
        while asked > 0 && tokens[asked].text != "match" {
            asked -= 1;
        }
        let kind = self.type_of(asked + 1..open);
        self.bind(start..end, &kind, place);
    }

    /// What a pattern binds: a name, or the names in what a variant, a struct or a pair holds. Of several patterns each
    /// binds the same.
    fn bind(&mut self, pattern: Range<usize>, kind: &str, place: Range<usize>) {
        let tokens = self.tokens;
        let end = tokens.find(pattern.start, &["|"]).min(pattern.end);
        let mut start = pattern.start;
        while start < end && ["&", "mut", "ref"].contains(&tokens[start].text) {
            start += 1;
        }
        if start >= end {
            return;
        }
        let open = tokens.partner(end - 1);
        let head = tokens.kind(start..open.max(start));
        match tokens[open].text {
            "(" => {
                let held = match head.as_str() {
                    "" => parts(kind.strip_prefix('(').unwrap_or("").trim_end_matches(')')),
                    "Ok" | "Some" => parts(inner(kind)).into_iter().take(1).collect(),
                    "Err" => parts(inner(kind)).into_iter().skip(1).collect(),
                    _ => self.declared.held(&head).unwrap_or_default().to_vec(),
                };
                let held = held.into_iter().chain(std::iter::repeat(String::new()));
                for (part, kind) in tokens.parts(tokens.inside(open)).into_iter().zip(held) {
                    self.bind(part, &kind, place.clone());
                }
            }
            "{" => {
                let fields = self.declared.fields(&head).unwrap_or_default();
                for part in tokens.parts(tokens.inside(open)) {
                    let field = named(fields, tokens[part.start].text);
                    let kind = field.map_or("", |it| it.kind.as_str());
                    let colon = tokens.find(part.start, &[":"]);
                    let from = if colon < part.end {
                        colon + 1
                    } else {
                        part.start
                    };
                    self.bind(from..part.end, kind, place.clone());
                }
            }
            name => {
                let is_name = name.starts_with(|c: char| c.is_lowercase());
                if is_name && start + 1 == end && tokens[start].kind == Kind::Name {
                    let kind = kind.to_string();
                    self.variables.push((Typed { name, kind }, place));
                }
            }
        }
    }

    /// Gives a local that began as a number the type of what it is compared with or set to.
    fn settle(&mut self, index: usize) {
        let (Typed { name, kind }, place) = &self.variables[index];
        if kind == NUMBER {
            let uses = place.clone().filter(|at| self.tokens[*at].text == *name);
            let mut kinds = uses.map(|at| self.counterpart(at));
            let kind = kinds.find(|kind| kind != NUMBER);
            self.variables[index].0.kind = kind.unwrap_or_default();
        }
    }

    /// The type of what a variable is compared with or set to.
    fn counterpart(&self, at: usize) -> String {
        if let "<" | "=" | "+=" = self.tokens[at + 1].text {
            self.type_of(at + 2..self.tokens.find(at + 2, &["{", ";"]))
        } else {
            NUMBER.to_string()
        }
    }

    /// The type of an expression is what it is cast to, or that of its first operand that has one.
    fn type_of(&self, expression: Range<usize>) -> String {
        let tokens = self.tokens;
        let cast = tokens.find(expression.start, &["as"]);
        if cast < expression.end {
            return tokens[cast + 1].text.to_string();
        }
        if tokens[expression.start].text == "[" {
            return tokens.joined(expression);
        }
        let kinds: Vec<String> = expression.filter_map(|at| self.operand(at)).collect();
        let known = kinds.iter().find(|kind| *kind != NUMBER);
        known.or(kinds.first()).cloned().unwrap_or_default()
    }

    /// The type of the operand that begins with a token, if one does.
    fn operand(&self, at: usize) -> Option<String> {
        let tokens = self.tokens;
        let Token { kind, text, .. } = tokens[at];
        match (kind, tokens.text(at + 1)) {
            (Kind::Integer, _) => Some(NUMBER.to_string()),
            (Kind::Name, "::") => None,
            (Kind::Name, "(") => {
                let answer = self.declared.answer(text).unwrap_or_default();
                self.behind(tokens.partner(at + 1) + 1, answer.to_string())
            }
            (Kind::Name, "{") => Some(text.to_string()),
            (Kind::Name, "." | "[") => self.behind(at + 1, self.variable(at).unwrap_or_default()),
            (Kind::Name, _) => self.variable(at).or_else(|| {
                let (_, constants) = self.declared.constants(text)?;
                named(constants, text).map(|it| it.kind.clone())
            }),
            _ => None,
        }
    }

    /// The type of an operand of which this one is the beginning: its fields, entries and methods, and what a `?` lets
    /// through.
    fn behind(&self, at: usize, kind: String) -> Option<String> {
        let tokens = self.tokens;
        let (next, kind) = match tokens.text(at) {
            "?" => (at + 1, parts(inner(&kind)).into_iter().next()?),
            "[" => (tokens.partner(at) + 1, entry(&kind)),
            "." if tokens.text(at + 2) == "(" => {
                let kind = match tokens[at + 1].text {
                    "len" => "usize",
                    "max" | "min" | "saturating_sub" => &kind,
                    name => self.declared.answer(name).unwrap_or_default(),
                };
                (tokens.partner(at + 2) + 1, kind.to_string())
            }
            "." => {
                let field = named(self.declared.fields(&kind)?, tokens[at + 1].text)?;
                (at + 2, field.kind.clone())
            }
            _ => return Some(kind),
        };
        self.behind(next, kind)
    }
}

/// The type of an entry of a list.
fn entry(list: &str) -> String {
    let entry = list.split_once('[').map_or("", |it| it.1);
    entry.chars().take_while(|c| c.is_alphanumeric()).collect()
}

/// What stands between the angles of a type.
fn inner(kind: &str) -> &str {
    let inner = kind.split_once('<').map_or("", |it| it.1);
    inner.strip_suffix('>').unwrap_or("")
}

/// The types of a list of them that commas separate.
fn parts(kinds: &str) -> Vec<String> {
    let mut parts = vec![String::new()];
    let mut depth = 0;
    for c in kinds.chars() {
        depth += i32::from("<([".contains(c)) - i32::from(">)]".contains(c));
        match c {
            ',' if depth == 0 => parts.push(String::new()),
            _ => parts.last_mut().unwrap().push(c),
        }
    }
    parts
}
