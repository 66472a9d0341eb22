//! What a case comes to: the answer, and the lent lists with the entries around them.

#[derive(Clone, Debug, PartialEq, Eq)]
pub enum Answer {
    Refused {
        number: u8,
        place: u64,
    },
    /// A kind of answer by its name, and its figures: doubles by their bits, a parameter record by
    /// its fields in order.
    Given {
        kind: &'static str,
        figures: Vec<u64>,
    },
}

impl Answer {
    pub(crate) fn given(kind: &'static str, figures: impl Into<Vec<u64>>) -> Answer {
        Answer::Given {
            kind,
            figures: figures.into(),
        }
    }
}

/// The answer of a result: its refusal, or what its value comes to.
pub(crate) fn settled<T, E: Into<Answer>>(
    result: Result<T, E>,
    answer: impl FnOnce(T) -> Answer,
) -> Answer {
    match result {
        Ok(value) => answer(value),
        Err(refused) => refused.into(),
    }
}

pub(crate) fn passed((): ()) -> Answer {
    Answer::given("passed", [])
}

pub(crate) fn bucket(buffer: u64, fullness: u64) -> Answer {
    Answer::given("bucket", [buffer, fullness])
}

#[derive(Debug, PartialEq, Eq)]
pub struct Outcome {
    pub answer: Answer,
    pub lent: Vec<Vec<u64>>,
}

impl From<Answer> for Outcome {
    fn from(answer: Answer) -> Outcome {
        Outcome {
            answer,
            lent: Vec::new(),
        }
    }
}
