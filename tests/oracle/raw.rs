//! The Rust's functions as they are, for timing: whether a text is accepted, or the scan's place.
use crate::parser::checks::reached;
use crate::parser::{dtd, wellformed};

pub fn check_chars(text: &str) -> bool {
    wellformed::check_chars(text, "name").is_ok()
}
pub fn check_text(text: &str) -> bool {
    wellformed::check_text(text, "name").is_ok()
}
pub fn check_attr_value(text: &str) -> bool {
    wellformed::check_attr_value(text, "name").is_ok()
}
pub fn check_char_refs(text: &str) -> bool {
    wellformed::check_char_refs(text, "name").is_ok()
}
pub fn check_name(text: &str) -> bool {
    wellformed::check_name(text, "name").is_ok()
}
pub fn check_doctype(text: &str) -> bool {
    dtd::check_doctype(text).is_ok()
}
pub fn check_declaration(text: &str) -> bool {
    reached::check_declaration(text).is_ok()
}
pub fn is_ncname(text: &str) -> bool {
    reached::is_ncname(text)
}

#[derive(Clone, Copy, PartialEq, Eq, Debug)]
pub enum Scan {
    NotOpened,
    NotClosed,
    Closed(usize),
}

/// The quick scan, as `doctype` does it: `subset_open`, then `internal_subset_end` on what follows the `[`.
pub fn scan(text: &str) -> Scan {
    let Some(open) = reached::subset_open(text) else {
        return Scan::NotOpened;
    };
    match reached::internal_subset_end(&text[open + 1..]) {
        None => Scan::NotClosed,
        Some(end) => Scan::Closed(open + 1 + end),
    }
}
