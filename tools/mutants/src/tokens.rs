//! The tokens of a Rattle file. White space and comments are none. The text of a clause is antt's:
//! of its tokens only the brackets mean something here.

use std::ops::{Index, Range};

#[derive(Clone, Copy, Debug, PartialEq, Eq)]
pub enum Kind {
    Name,
    Integer,
    Float,
    Quoted,
    Sign,
}

#[derive(Clone, Copy, Debug)]
pub struct Token<'a> {
    pub kind: Kind,
    pub text: &'a str,
    /// Where it stands in the file.
    pub start: usize,
}

/// The tokens of a file, with the brackets among them paired.
pub struct Tokens<'a> {
    list: Vec<Token<'a>>,
    partners: Vec<usize>,
    openers: Vec<usize>,
}

impl<'a> Index<usize> for Tokens<'a> {
    type Output = Token<'a>;

    fn index(&self, at: usize) -> &Token<'a> {
        &self.list[at]
    }
}

impl<'a> Tokens<'a> {
    pub fn of(source: &'a str) -> Self {
        let mut list = Vec::new();
        let mut start = 0;
        while start < source.len() {
            let (kind, length) = first(&source[start..]);
            let text = &source[start..start + length];
            list.extend(kind.map(|kind| Token { kind, text, start }));
            start += length;
        }
        let mut partners: Vec<usize> = (0..list.len()).collect();
        let mut openers = Vec::new();
        let mut open = Vec::new();
        for (at, token) in list.iter().enumerate() {
            if let ")" | "]" | "}" = token.text {
                let opener = open.pop().unwrap_or(at);
                partners[at] = opener;
                partners[opener] = at;
            }
            openers.push(open.last().copied().unwrap_or(0));
            if let "(" | "[" | "{" = token.text {
                open.push(at);
            }
        }
        Tokens {
            list,
            partners,
            openers,
        }
    }

    pub fn len(&self) -> usize {
        self.list.len()
    }

    /// The text of a token; none behind the last one.
    pub fn text(&self, at: usize) -> &'a str {
        self.list.get(at).map_or("", |token| token.text)
    }

    /// The other bracket of a pair; a token that is no bracket is its own.
    pub fn partner(&self, at: usize) -> usize {
        self.partners[at]
    }

    /// The opening bracket around a token.
    pub fn opener(&self, at: usize) -> usize {
        self.openers[at]
    }

    /// The first of some texts from a token on, brackets passed over as a whole.
    pub fn find(&self, from: usize, texts: &[&str]) -> usize {
        let mut at = from;
        while at < self.len() && !texts.contains(&self[at].text) {
            at = self.partner(at).max(at) + 1;
        }
        at
    }

    /// The parts of a list that commas separate.
    pub fn parts(&self, list: Range<usize>) -> Vec<Range<usize>> {
        let mut parts = Vec::new();
        let mut from = list.start;
        while from < list.end {
            let comma = self.find(from, &[","]).min(list.end);
            parts.push(from..comma);
            from = comma + 1;
        }
        parts
    }

    /// What stands between an opening bracket and its partner.
    pub fn inside(&self, opener: usize) -> Range<usize> {
        opener + 1..self.partner(opener)
    }

    /// The texts of some tokens, one behind the other.
    pub fn joined(&self, range: Range<usize>) -> String {
        self.list[range].iter().map(|token| token.text).collect()
    }

    /// The same of a type, without its lifetimes.
    pub fn kind(&self, range: Range<usize>) -> String {
        let is_lifetime =
            |at: &usize| self.text(*at) == "'" || self.text(at.wrapping_sub(1)) == "'";
        let kept = range.filter(|at| !is_lifetime(at));
        let kind: String = kept.map(|at| self[at].text).collect();
        kind.replace("<>", "").replace("<,", "<")
    }

    /// The bytes of some tokens.
    pub fn bytes(&self, range: Range<usize>) -> Range<usize> {
        let last = self[range.end - 1];
        self[range.start].start..last.start + last.text.len()
    }
}

/// Signs of more than one character, longer ones first.
const SIGNS: [&str; 20] = [
    "..=", "<<=", ">>=", "::", "->", "=>", "..", "<=", ">=", "==", "!=", "<<", ">>", "&&", "||",
    "+=", "-=", "*=", "/=", "%=",
];

/// What a text begins with, and how long it is.
fn first(text: &str) -> (Option<Kind>, usize) {
    let head = text.chars().next().unwrap_or(' ');
    if head.is_whitespace() {
        (None, head.len_utf8())
    } else if text.starts_with("//") {
        (None, text.find('\n').unwrap_or(text.len()))
    } else if text.starts_with('"') || text.starts_with("b\"") {
        (Some(Kind::Quoted), quoted(text))
    } else if head.is_ascii_digit() {
        number(text)
    } else if is_word(head) {
        (Some(Kind::Name), word(text))
    } else {
        let sign = SIGNS.iter().find(|sign| text.starts_with(**sign));
        (Some(Kind::Sign), sign.map_or(head.len_utf8(), |s| s.len()))
    }
}

fn is_word(c: char) -> bool {
    c.is_alphanumeric() || c == '_'
}

/// The length of the word that a text begins with.
fn word(text: &str) -> usize {
    text.find(|c| !is_word(c)).unwrap_or(text.len())
}

/// A dot belongs to a number where a digit follows: in `0..n` it does not.
fn number(text: &str) -> (Option<Kind>, usize) {
    let whole = word(text);
    let rest = text[whole..].strip_prefix('.').unwrap_or("");
    if rest.starts_with(|c: char| c.is_ascii_digit()) {
        (Some(Kind::Float), whole + 1 + word(rest))
    } else {
        (Some(Kind::Integer), whole)
    }
}

/// The length of a text in quotes, both included.
fn quoted(text: &str) -> usize {
    let mut quotes = 0;
    let mut escaped = false;
    for (at, c) in text.char_indices() {
        quotes += usize::from(c == '"' && !escaped);
        if quotes == 2 {
            return at + 1;
        }
        escaped = c == '\\' && !escaped;
    }
    text.len()
}
