//! The C boundary, and the only unsafe code.
//!
//! Each function here is safe for one reason: a slice's pointer is not null and has as many bytes behind it as the slice is long,
//! and every other pointer comes from a reference of this call, so it is valid, aligned and shared with nothing.
//!
//! Where C says bool, a byte stands here: every byte is a value of that type, so nothing that the library writes can be an invalid
//! value in Rust.
#![allow(unsafe_code)]

/// `moxkeldi_gate`. The three bytes hold 0 or 1.
#[repr(C)]
#[derive(Clone, Default)]
pub(crate) struct RawGate {
    pub(crate) started: u8,
    pub(crate) seen: u8,
    pub(crate) open: u8,
    pub(crate) refused: u16,
}

/// `moxkeldi_verdict`.
#[repr(C)]
#[derive(Default)]
pub(crate) struct RawVerdict {
    pub(crate) place: usize,
    pub(crate) line: usize,
    pub(crate) column: usize,
    pub(crate) opened: usize,
    pub(crate) has_doctype: usize,
    pub(crate) doctype_start: usize,
    pub(crate) doctype_end: usize,
    pub(crate) unread: usize,
}

/// What the library says of a scan.
pub(crate) struct RawScan {
    pub(crate) number: u8,
    pub(crate) answer: u8,
    pub(crate) place: usize,
}

mod c {
    use super::{RawGate, RawVerdict};

    extern "C" {
        pub(super) fn moxkeldi_check_document(
            text: *const u8,
            len: usize,
            verdict: *mut RawVerdict,
        ) -> u8;
        pub(super) fn moxkeldi_check_document_fifth(
            text: *const u8,
            len: usize,
            verdict: *mut RawVerdict,
        ) -> u8;
        pub(super) fn moxkeldi_check_chars(text: *const u8, len: usize) -> u8;
        pub(super) fn moxkeldi_check_text(text: *const u8, len: usize) -> u8;
        pub(super) fn moxkeldi_check_attr_value(text: *const u8, len: usize) -> u8;
        pub(super) fn moxkeldi_check_char_refs(text: *const u8, len: usize) -> u8;
        pub(super) fn moxkeldi_check_name(text: *const u8, len: usize) -> u8;
        pub(super) fn moxkeldi_check_name_fifth(text: *const u8, len: usize) -> u8;
        pub(super) fn moxkeldi_check_doctype(text: *const u8, len: usize) -> u8;
        pub(super) fn moxkeldi_check_doctype_fifth(text: *const u8, len: usize) -> u8;
        pub(super) fn moxkeldi_check_declaration(text: *const u8, len: usize) -> u8;
        pub(super) fn moxkeldi_check_chars_at(text: *const u8, len: usize, place: *mut usize)
            -> u8;
        pub(super) fn moxkeldi_check_text_at(text: *const u8, len: usize, place: *mut usize) -> u8;
        pub(super) fn moxkeldi_check_attr_value_at(
            text: *const u8,
            len: usize,
            place: *mut usize,
        ) -> u8;
        pub(super) fn moxkeldi_check_char_refs_at(
            text: *const u8,
            len: usize,
            place: *mut usize,
        ) -> u8;
        pub(super) fn moxkeldi_check_name_at(text: *const u8, len: usize, place: *mut usize) -> u8;
        pub(super) fn moxkeldi_check_name_fifth_at(
            text: *const u8,
            len: usize,
            place: *mut usize,
        ) -> u8;
        pub(super) fn moxkeldi_check_doctype_at(
            text: *const u8,
            len: usize,
            place: *mut usize,
        ) -> u8;
        pub(super) fn moxkeldi_check_doctype_fifth_at(
            text: *const u8,
            len: usize,
            place: *mut usize,
        ) -> u8;
        pub(super) fn moxkeldi_check_declaration_at(
            text: *const u8,
            len: usize,
            place: *mut usize,
        ) -> u8;
        pub(super) fn moxkeldi_check_utf8(text: *const u8, len: usize) -> u8;
        pub(super) fn moxkeldi_is_ncname(text: *const u8, len: usize, yes: *mut u8) -> u8;
        pub(super) fn moxkeldi_scan(
            text: *const u8,
            len: usize,
            answer: *mut u8,
            place: *mut usize,
        ) -> u8;
        pub(super) fn moxkeldi_decl(gate: *mut RawGate, text: *const u8, len: usize) -> u8;
        pub(super) fn moxkeldi_doctype(
            gate: *mut RawGate,
            phase: u8,
            text: *const u8,
            len: usize,
        ) -> u8;
    }
}

macro_rules! of_document {
    ($($name:ident: $foreign:ident;)*) => {
        $(pub(crate) fn $name(text: &[u8]) -> (u8, RawVerdict) {
            let mut verdict = RawVerdict::default();
            let number = unsafe { c::$foreign(text.as_ptr(), text.len(), &mut verdict) };
            (number, verdict)
        })*
    };
}

of_document! {
    check_document: moxkeldi_check_document;
    check_document_fifth: moxkeldi_check_document_fifth;
}

macro_rules! of_text {
    ($($name:ident: $foreign:ident;)*) => {
        $(pub(crate) fn $name(text: &[u8]) -> u8 {
            unsafe { c::$foreign(text.as_ptr(), text.len()) }
        })*
    };
}

of_text! {
    check_chars: moxkeldi_check_chars;
    check_text: moxkeldi_check_text;
    check_attr_value: moxkeldi_check_attr_value;
    check_char_refs: moxkeldi_check_char_refs;
    check_name: moxkeldi_check_name;
    check_name_fifth: moxkeldi_check_name_fifth;
    check_doctype: moxkeldi_check_doctype;
    check_doctype_fifth: moxkeldi_check_doctype_fifth;
    check_declaration: moxkeldi_check_declaration;
    check_utf8: moxkeldi_check_utf8;
}

macro_rules! of_text_at {
    ($($name:ident: $foreign:ident;)*) => {
        $(pub(crate) fn $name(text: &[u8]) -> (u8, usize) {
            let mut place = 0;
            let number = unsafe { c::$foreign(text.as_ptr(), text.len(), &mut place) };
            (number, place)
        })*
    };
}

of_text_at! {
    check_chars_at: moxkeldi_check_chars_at;
    check_text_at: moxkeldi_check_text_at;
    check_attr_value_at: moxkeldi_check_attr_value_at;
    check_char_refs_at: moxkeldi_check_char_refs_at;
    check_name_at: moxkeldi_check_name_at;
    check_name_fifth_at: moxkeldi_check_name_fifth_at;
    check_doctype_at: moxkeldi_check_doctype_at;
    check_doctype_fifth_at: moxkeldi_check_doctype_fifth_at;
    check_declaration_at: moxkeldi_check_declaration_at;
}

pub(crate) fn is_ncname(text: &[u8]) -> (u8, bool) {
    let mut yes = 0;
    let number = unsafe { c::moxkeldi_is_ncname(text.as_ptr(), text.len(), &mut yes) };
    (number, yes != 0)
}

pub(crate) fn scan(text: &[u8]) -> RawScan {
    let (mut answer, mut place) = (0, 0);
    let number = unsafe { c::moxkeldi_scan(text.as_ptr(), text.len(), &mut answer, &mut place) };
    RawScan {
        number,
        answer,
        place,
    }
}

pub(crate) fn decl(gate: &mut RawGate, text: &[u8]) -> u8 {
    unsafe { c::moxkeldi_decl(gate, text.as_ptr(), text.len()) }
}

pub(crate) fn doctype(gate: &mut RawGate, phase: u8, text: &[u8]) -> u8 {
    unsafe { c::moxkeldi_doctype(gate, phase, text.as_ptr(), text.len()) }
}
