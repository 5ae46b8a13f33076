// Everything above is the Rust's file as it is. This module was appended to reach what is private in it.
pub(crate) mod reached {
    use super::{DocState, ParseError, WellformedChecker};

    pub(crate) fn check_declaration(text: &str) -> std::result::Result<(), ParseError> {
        super::check_declaration(text)
    }
    pub(crate) fn is_ncname(text: &str) -> bool {
        super::is_ncname(text)
    }
    pub(crate) fn subset_open(text: &str) -> Option<usize> {
        super::subset_open(text)
    }
    pub(crate) fn internal_subset_end(text: &str) -> Option<usize> {
        super::internal_subset_end(text)
    }
    /// started, seen and open.
    pub(crate) fn flags(checker: &mut WellformedChecker) -> [&mut bool; 3] {
        [&mut checker.document_started, &mut checker.doctype_seen, &mut checker.dtd_open]
    }
    pub(crate) fn set_phase(checker: &mut WellformedChecker, phase: u8) {
        checker.state = match phase {
            0 => DocState::Prolog,
            1 => DocState::InRoot(1),
            _ => DocState::Epilog,
        };
    }
}
