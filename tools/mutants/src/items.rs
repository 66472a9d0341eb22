//! What the files of a repository declare: constants, structs, variants and functions.

use crate::tokens::Tokens;
use std::ops::Range;

/// A constant, a field, a parameter or a local, and its type as text.
#[derive(Clone, Debug, PartialEq, Eq)]
pub struct Typed<'a> {
    pub name: &'a str,
    pub kind: String,
}

/// The one of a name.
pub fn named<'a, 'b>(all: &'b [Typed<'a>], name: &str) -> Option<&'b Typed<'a>> {
    all.iter().find(|it| it.name == name)
}

/// The next of the same type, in a circle. A type that is not known is the same as none.
pub fn next<'a>(all: &[Typed<'a>], name: &str) -> Option<&'a str> {
    let own = all.iter().position(|it| it.name == name)?;
    let kind = &all[own].kind;
    let mut others = all[own + 1..].iter().chain(&all[..own]);
    let next = others.find(|it| it.kind == *kind && !kind.is_empty())?;
    Some(next.name)
}

/// Code is the value of a constant, or the body of a function, which has parameters.
pub struct Code<'a> {
    pub params: Vec<Typed<'a>>,
    pub body: Range<usize>,
}

/// A file of a crate.
pub struct File<'a> {
    pub home: &'a str,
    pub source: &'a str,
    pub tokens: Tokens<'a>,
    pub codes: Vec<Code<'a>>,
    constants: Vec<Typed<'a>>,
    structs: Vec<(&'a str, Vec<Typed<'a>>)>,
    variants: Vec<(String, Vec<String>)>,
    functions: Vec<Typed<'a>>,
}

impl<'a> File<'a> {
    pub fn of(home: &'a str, source: &'a str) -> Self {
        let mut file = File {
            home,
            source,
            tokens: Tokens::of(source),
            codes: Vec::new(),
            constants: Vec::new(),
            structs: Vec::new(),
            variants: Vec::new(),
            functions: Vec::new(),
        };
        let mut at = 0;
        let mut owner = ("", 0..0);
        while at < file.tokens.len() {
            at = match file.tokens[at].text {
                "impl" => {
                    let open = file.tokens.find(at, &["{"]);
                    let of_trait = file.tokens.find(at, &["for"]);
                    let kind = if of_trait < open { of_trait } else { at } + 1;
                    owner = (file.tokens[kind].text, file.tokens.inside(open));
                    open + 1
                }
                "use" => file.tokens.find(at, &[";"]),
                "const" => file.read_constant(at + 1),
                "struct" => file.read_struct(at + 1),
                "enum" => file.read_enum(at + 1),
                "fn" => {
                    let owner = if owner.1.contains(&at) { owner.0 } else { "" };
                    file.read_function(at + 1, owner)
                }
                _ => at + 1,
            };
        }
        file
    }

    fn read_constant(&mut self, at: usize) -> usize {
        let equals = self.tokens.find(at, &["="]);
        let end = self.tokens.find(equals, &[";"]);
        self.constants.extend(self.typed(at..equals));
        self.codes.push(Code {
            params: Vec::new(),
            body: equals + 1..end,
        });
        end
    }

    fn read_struct(&mut self, at: usize) -> usize {
        let open = self.tokens.find(at, &["{", ";"]);
        let fields = self.all_typed(self.tokens.inside(open));
        self.structs.push((self.tokens[at].text, fields));
        self.tokens.partner(open)
    }

    fn read_enum(&mut self, at: usize) -> usize {
        let tokens = &self.tokens;
        let open = tokens.find(at, &["{"]);
        for variant in tokens.parts(tokens.inside(open)) {
            let name = format!("{}::{}", tokens[at].text, tokens[variant.start].text);
            let held = tokens.parts(tokens.inside(variant.start + 1));
            let kinds = held.into_iter().map(|held| tokens.kind(held));
            self.variants.push((name, kinds.collect()));
        }
        tokens.partner(open)
    }

    /// The body is the first block that belongs to no clause. In a method `self` has the type that is named.
    fn read_function(&mut self, at: usize, owner: &str) -> usize {
        let tokens = &self.tokens;
        let params = tokens.find(at, &["("]);
        let mut open = tokens.find(params, &["{", ";"]);
        let mut answer_end = open;
        while let Some(clause) = self.clause(open) {
            answer_end = answer_end.min(clause);
            open = tokens.find(tokens.partner(open) + 1, &["{", ";"]);
        }
        let answer = tokens.partner(params) + 2;
        self.functions.push(Typed {
            name: tokens[at].text,
            kind: tokens.kind(answer.min(answer_end)..answer_end),
        });
        let mut typed = self.all_typed(tokens.inside(params));
        if !owner.is_empty() {
            let (name, kind) = ("self", owner.to_string());
            typed.push(Typed { name, kind });
        }
        self.codes.push(Code {
            params: typed,
            body: tokens.inside(open),
        });
        tokens.partner(open)
    }

    /// Where the clause begins whose block this is, with its word and maybe a name.
    fn clause(&self, open: usize) -> Option<usize> {
        let is_word =
            |at: &usize| ["requires", "ensures", "ghost"].contains(&self.tokens[*at].text);
        [open - 1, open - 2].into_iter().find(is_word)
    }

    fn all_typed(&self, list: Range<usize>) -> Vec<Typed<'a>> {
        let parts = self.tokens.parts(list).into_iter();
        parts.filter_map(|part| self.typed(part)).collect()
    }

    /// `name: type`, behind words such as `pub` and `mut`.
    fn typed(&self, part: Range<usize>) -> Option<Typed<'a>> {
        let colon = self.tokens.find(part.start, &[":"]);
        (part.start < colon && colon < part.end).then(|| Typed {
            name: self.tokens[colon - 1].text,
            kind: self.tokens.kind(colon + 1..part.end),
        })
    }
}

/// What all files declare; of two with one name the one of the crate at hand.
pub struct Declared<'a> {
    files: Vec<&'a File<'a>>,
}

impl<'a> Declared<'a> {
    pub fn of(home: &str, files: &'a [File<'a>]) -> Self {
        let mut files: Vec<&File> = files.iter().collect();
        files.sort_by_key(|file| file.home != home);
        Declared { files }
    }

    /// The crate of a constant, and all constants of its file.
    pub fn constants(&self, name: &str) -> Option<(&'a str, &'a [Typed<'a>])> {
        let mut files = self.files.iter();
        let file = files.find(|file| file.constants.iter().any(|it| it.name == name))?;
        Some((file.home, &file.constants))
    }

    /// The fields of a struct.
    pub fn fields(&self, name: &str) -> Option<&'a [Typed<'a>]> {
        let mut structs = self.files.iter().flat_map(|file| &file.structs);
        structs.find(|it| it.0 == name).map(|it| it.1.as_slice())
    }

    /// The types that a variant holds, whose name is `Enum::Variant`.
    pub fn held(&self, name: &str) -> Option<&'a [String]> {
        let mut variants = self.files.iter().flat_map(|file| &file.variants);
        variants.find(|it| it.0 == name).map(|it| it.1.as_slice())
    }

    /// The type that a function answers.
    pub fn answer(&self, name: &str) -> Option<&'a str> {
        let mut functions = self.files.iter().flat_map(|file| &file.functions);
        functions
            .find(|it| it.name == name)
            .map(|it| it.kind.as_str())
    }
}
