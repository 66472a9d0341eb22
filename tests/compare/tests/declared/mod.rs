//! The structs and functions that a text of Rattle, C or Rust declares at the boundary, in the words
//! of Rust. What is not understood is refused.

use std::collections::BTreeMap;

/// Each struct with its fields and each function with its arguments, both in order, by its name.
pub type Declarations = BTreeMap<String, String>;

/// The types of a field, an argument or an entry of a list: in Rust and Rattle, and in C.
const TYPES: [(&str, &str); 5] = [
    ("u8", "uint8_t"),
    ("u64", "uint64_t"),
    ("usize", "size_t"),
    ("f64", "double"),
    ("Params", "PlannerParams"),
];

/// The one definition of the header that is no constant.
const GUARD: &str = "#define PLANNER_H";

/// What the header has before its declarations, and after them.
const HEAD: &str = "#ifndef PLANNER_H #define PLANNER_H #include <stddef.h> #include <stdint.h> \
    #ifdef __cplusplus extern \"C\" { #endif ";
const TAIL: &str = "#ifdef __cplusplus } #endif #endif";

/// A text of Rattle or Rust without comments and layout.
pub fn plain(text: &str) -> String {
    let lines = text.lines().filter_map(|line| line.split("//").next());
    let plain = without_layout(lines);
    assert!(!plain.contains("/*"), "comments go to the end of a line");
    plain
}

/// A text of C without its constants, comments and layout.
pub fn plain_c(text: &str) -> String {
    let joined = text.replace("\\\n", " ");
    let is_constant = |line: &&str| line.starts_with("#define ") && *line != GUARD;
    let kept: Vec<&str> = joined.lines().filter(|line| !is_constant(line)).collect();
    let text = kept.join("\n");
    let (before, rest) = parted(&text, "/*");
    let between = rest.split("/*").map(|part| parted(part, "*/").1);
    let plain = without_layout([before].into_iter().chain(between));
    assert!(!plain.contains("//"), "comments stand between /* and */");
    plain
}

fn without_layout<'a>(parts: impl Iterator<Item = &'a str>) -> String {
    let words: Vec<&str> = parts.flat_map(str::split_whitespace).collect();
    words.join(" ").replace("( ", "(").replace(", )", ")")
}

pub fn by_rattle(text: &str) -> Declarations {
    let mut declared = with_structs(text);
    let exported = text.split("#[unsafe(no_mangle)] ").skip(1);
    let named = text.matches("extern \"C\"").count();
    assert_eq!(exported.clone().count(), named, "extern, but not exported");
    for function in exported {
        let (signature, _) = parted(behind(function, "pub extern \"C\" fn "), " ensures ");
        insert_function(&mut declared, signature, rattle_typed);
    }
    declared
}

pub fn by_rust(text: &str) -> Declarations {
    let mut declared = with_structs(text);
    for block in text.split("extern \"C\" ").skip(1) {
        let (functions, _) = parted(behind(block, "{ "), "}");
        for function in entries(functions, ';') {
            insert_function(&mut declared, behind(function, "pub fn "), rust_typed);
        }
    }
    declared
}

pub fn by_c(text: &str) -> Declarations {
    let mut declared = Declarations::new();
    let framed = behind(text, HEAD).strip_suffix(TAIL);
    let mut rest = framed.unwrap_or_else(|| not_understood(text));
    while !rest.is_empty() {
        if let Some(item) = rest.strip_prefix("typedef struct ") {
            let (name, item) = parted(item, " { ");
            let (fields, item) = parted(item, "} ");
            let (again, after) = parted(item, "; ");
            assert_eq!(name, again);
            rest = after;
            let name = type_of_c(name).unwrap_or(name);
            insert_struct(&mut declared, name, entries(fields, ';').map(c_typed));
        } else {
            let (function, after) = parted(rest, "; ");
            let (returned, function) = parted(function, " ");
            let returned = type_of_c(returned).unwrap_or(returned);
            let function = function.replace("(void)", "()");
            insert_function(&mut declared, &format!("{function} -> {returned}"), c_typed);
            rest = after;
        }
    }
    declared
}

/// The structs with the layout of C in a text of Rattle or Rust.
fn with_structs(text: &str) -> Declarations {
    let mut declared = Declarations::new();
    let structs = text.split("#[repr(C)] ").skip(1);
    let layouts = text.matches("#[repr").count();
    assert_eq!(structs.clone().count(), layouts, "a layout that is not C's");
    for item in structs {
        let item = match item.strip_prefix("#[derive(") {
            Some(derived) => parted(derived, ")] ").1,
            None => item,
        };
        let (name, item) = parted(behind(item, "pub struct "), " { ");
        let (fields, _) = parted(item, "}");
        let fields = entries(fields, ',').map(|field| rust_typed(behind(field, "pub ")));
        insert_struct(&mut declared, name, fields);
    }
    declared
}

fn insert_struct(declared: &mut Declarations, name: &str, fields: impl Iterator<Item = String>) {
    let fields: Vec<String> = fields.collect();
    let line = format!("struct {name} {{ {} }}", fields.join(", "));
    insert(declared, name, line);
}

/// A function by its signature, `name(arguments) -> type`.
fn insert_function(declared: &mut Declarations, signature: &str, typed: fn(&str) -> String) {
    let (name, rest) = parted(signature, "(");
    let (arguments, returned) = parted(rest, ") -> ");
    let arguments = match arguments {
        "" => String::new(),
        some => entries(some, ',').map(typed).collect::<Vec<_>>().join(", "),
    };
    let line = format!("fn {name}({arguments}) -> {}", word(returned));
    insert(declared, name, line);
}

fn insert(declared: &mut Declarations, name: &str, line: String) {
    let before = declared.insert(word(name).to_string(), line);
    assert_eq!(before, None, "{name} is declared twice");
}

/// A field or an argument of Rust: `name: type`.
fn rust_typed(text: &str) -> String {
    let (name, kind) = parted(text, ": ");
    let entry = entry_of(kind).unwrap_or_else(|| not_understood(text));
    if !TYPES.iter().any(|pair| pair.0 == entry) {
        not_understood(text);
    }
    format!("{}: {kind}", word(name))
}

/// The type of what a list has or a pointer points to, or else the type itself.
fn entry_of(kind: &str) -> Option<&str> {
    if let Some(list) = kind.strip_prefix('[') {
        let (entry, length) = list.strip_suffix(']')?.split_once("; ")?;
        return length.parse::<u64>().ok().map(|_| entry);
    }
    let pointed = kind
        .strip_prefix("*const ")
        .or_else(|| kind.strip_prefix("*mut "));
    Some(pointed.unwrap_or(kind))
}

/// An argument of Rattle; a lent list is a pointer and a length.
fn rattle_typed(text: &str) -> String {
    let (name, kind) = parted(text, ": ");
    let read = kind.strip_prefix("&[").map(|list| ("*const", list));
    let written = kind.strip_prefix("&mut [").map(|list| ("*mut", list));
    let Some((pointer, list)) = read.or(written) else {
        return rust_typed(text);
    };
    let (entry, after) = parted(list, "]");
    let pointed = rust_typed(&format!("{name}: {pointer} {entry}{after}"));
    format!("{pointed}, {name}_length: usize")
}

/// A field or an argument of C: `type name`, `type *name`, `const type *name` or `type name[length]`.
fn c_typed(text: &str) -> String {
    let (start, rest) = match text.strip_prefix("const ") {
        Some(rest) => ("*const ", rest),
        None => ("*mut ", text),
    };
    let (kind, name) = parted(rest, " ");
    let kind = type_of_c(kind).unwrap_or_else(|| not_understood(text));
    if let Some(name) = name.strip_prefix('*') {
        return format!("{}: {start}{kind}", word(name));
    }
    assert_eq!(rest, text, "a constant that is no list");
    match name.split_once('[') {
        Some((name, length)) => {
            let (length, after) = parted(length, "]");
            rust_typed(&format!("{name}: [{kind}; {length}]{after}"))
        }
        None => format!("{}: {kind}", word(name)),
    }
}

fn type_of_c(name: &str) -> Option<&'static str> {
    let (kind, _) = TYPES.iter().find(|pair| pair.1 == name)?;
    Some(kind)
}

/// What stands between separators, the last of which may end the text.
fn entries(text: &str, separator: char) -> impl Iterator<Item = &str> {
    let text = text.trim();
    let text = text.strip_suffix(separator).unwrap_or(text);
    text.split(separator).map(str::trim)
}

fn word(text: &str) -> &str {
    let part = |letter: char| letter.is_ascii_alphanumeric() || letter == '_';
    if text.is_empty() || !text.chars().all(part) {
        not_understood(text);
    }
    text
}

/// What stands before and what stands behind.
fn parted<'a>(text: &'a str, at: &str) -> (&'a str, &'a str) {
    text.split_once(at).unwrap_or_else(|| not_understood(text))
}

fn behind<'a>(text: &'a str, start: &str) -> &'a str {
    text.strip_prefix(start)
        .unwrap_or_else(|| not_understood(text))
}

fn not_understood(text: &str) -> ! {
    let start: String = text.chars().take(100).collect();
    panic!("not understood: {start}")
}
