//! Why the program ends without an answer: words for standard error, and a status.

#[derive(Debug)]
pub struct Fault {
    pub status: u8,
    pub words: String,
}

impl Fault {
    /// The planner says no, or a text or a sheet is none.
    pub fn refused(words: impl Into<String>) -> Fault {
        Fault {
            status: 1,
            words: words.into(),
        }
    }

    pub fn wrong_call(words: impl Into<String>) -> Fault {
        Fault {
            status: 2,
            words: words.into(),
        }
    }

    /// A read or a write failed.
    pub fn failed(words: impl Into<String>) -> Fault {
        Fault {
            status: 3,
            words: words.into(),
        }
    }
}

/// ` (line 6)` behind what stands at a line, or nothing.
pub fn at_line(line: Option<usize>) -> String {
    line.map_or(String::new(), |line| format!(" (line {line})"))
}
