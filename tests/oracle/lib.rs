//! The unchanged Rust, answering the port's calls. `build` puts the Rust's files beside this one.

// checks.rs names three other crates. What it needs of them is in stubs.rs.
extern crate self as quick_xml;
extern crate self as rustc_hash;
extern crate self as smallvec;
mod stubs;
pub use stubs::{FxHashMap, SmallVec, events};

/// `crate::error::Result`, as checks.rs names it.
mod error {
    use crate::parser::error::ParseError;

    #[derive(Debug)]
    pub enum Error {
        Parse(ParseError),
        Utf8(std::str::Utf8Error),
    }
    impl From<ParseError> for Error {
        fn from(e: ParseError) -> Self {
            Error::Parse(e)
        }
    }
    impl From<std::str::Utf8Error> for Error {
        fn from(e: std::str::Utf8Error) -> Self {
            Error::Utf8(e)
        }
    }
    pub type Result<T> = std::result::Result<T, Error>;
}

mod parser {
    pub(crate) mod checks;
    pub(crate) mod dtd;
    pub(crate) mod dtd_limited;
    pub mod error;
    pub(crate) mod wellformed;
    pub(crate) use crate::stubs::source;
}

/// The copies with the fifth edition's names. They name what they use of each other as the files in `parser` do.
mod fifth {
    pub(crate) mod dtd;
    pub(crate) use crate::parser::error;
    pub(crate) mod wellformed;
}

mod answers;
mod declarations;
mod depth;
mod doctypes;
mod document;
mod editions;
mod gate;
mod numbers;
pub mod raw;
mod reading;

pub use answers::{LIMIT, answer, stop};
pub use gate::{Gate, Record, record_text};
