//! The built library against the independent second program on inputs that a fuzzer chooses: each
//! target makes a case of its operation out of any bytes. `scripts/fuzz` runs a target.

mod decoders;
mod entry;
mod feed;

use compare::operations::Case;
use compare::outcome::Answer;

pub struct Target {
    pub name: &'static str,
    pub decode: fn(&[u8]) -> Box<dyn Case>,
}

pub static TARGETS: [Target; 3] = [
    Target {
        name: "read_params",
        decode: decoders::read_params,
    },
    Target {
        name: "look_up",
        decode: decoders::look_up,
    },
    Target {
        name: "open_sheet",
        decode: decoders::open_sheet,
    },
];

pub fn target(name: &str) -> Option<&'static Target> {
    TARGETS.iter().find(|target| target.name == name)
}

/// The answer on which the library and the second program agree; panics where they do not.
pub fn judge(target: &Target, data: &[u8]) -> Answer {
    let case = (target.decode)(data);
    let library = case.by_library();
    let oracle = case.by_oracle();
    assert_eq!(
        library, oracle,
        "library and second program differ on {case:?}"
    );
    library.answer
}
