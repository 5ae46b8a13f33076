//! The limit of 64 open groups, which the Rust does not have. The second copy of dtd.rs calls `open_group` first in `parse_group`.
use crate::parser::error::ParseError;
use std::cell::Cell;

pub const TOO_DEEP: &str = "a 65th open group";
const MOST: u32 = 64;

thread_local! {
    static OPEN: Cell<u32> = const { Cell::new(0) };
}

/// A group is open as long as this lives.
pub struct Group;

pub fn open_group() -> Result<Group, ParseError> {
    if OPEN.get() == MOST {
        return Err(ParseError::NotWellFormed {
            message: TOO_DEEP.to_string(),
        });
    }
    OPEN.set(OPEN.get() + 1);
    Ok(Group)
}

impl Drop for Group {
    fn drop(&mut self) {
        OPEN.set(OPEN.get() - 1);
    }
}
