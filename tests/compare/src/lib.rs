//! The built library against the independent second program: random cases of every exported
//! operation and of the program, and what each of the two answers to a case.

pub mod arguments;
mod by_library;
mod by_oracle;
pub mod cases;
mod damage;
mod draws;
pub mod lent;
pub mod operations;
pub mod outcome;
pub mod program;
