//! The calls of libmoxkeldi.a (include/moxkeldi.h), answered as the lists write them. Both `compare` and the benchmark use it.
use oracle::Record;

/// `moxkeldi_gate`, with bytes for the bools: a byte that is neither 0 nor 1 is then seen as a difference.
#[repr(C)]
struct RawGate {
    started: u8,
    seen: u8,
    open: u8,
    refused: u16,
}

/// `moxkeldi_verdict`.
#[repr(C)]
#[derive(Clone, Copy)]
struct RawVerdict {
    place: usize,
    line: usize,
    column: usize,
    opened: usize,
    has_doctype: usize,
    doctype_start: usize,
    doctype_end: usize,
    unread: usize,
}

pub type Check = unsafe extern "C" fn(*const u8, usize) -> u8;
type CheckAt = unsafe extern "C" fn(*const u8, usize, *mut usize) -> u8;
type Judge = unsafe extern "C" fn(*const u8, usize, *mut RawVerdict) -> u8;

unsafe extern "C" {
    fn moxkeldi_check_chars(text: *const u8, len: usize) -> u8;
    fn moxkeldi_check_text(text: *const u8, len: usize) -> u8;
    fn moxkeldi_check_attr_value(text: *const u8, len: usize) -> u8;
    fn moxkeldi_check_char_refs(text: *const u8, len: usize) -> u8;
    fn moxkeldi_check_name(text: *const u8, len: usize) -> u8;
    fn moxkeldi_check_name_fifth(text: *const u8, len: usize) -> u8;
    fn moxkeldi_check_doctype(text: *const u8, len: usize) -> u8;
    fn moxkeldi_check_doctype_fifth(text: *const u8, len: usize) -> u8;
    fn moxkeldi_check_declaration(text: *const u8, len: usize) -> u8;
    fn moxkeldi_check_chars_at(text: *const u8, len: usize, place: *mut usize) -> u8;
    fn moxkeldi_check_text_at(text: *const u8, len: usize, place: *mut usize) -> u8;
    fn moxkeldi_check_attr_value_at(text: *const u8, len: usize, place: *mut usize) -> u8;
    fn moxkeldi_check_char_refs_at(text: *const u8, len: usize, place: *mut usize) -> u8;
    fn moxkeldi_check_name_at(text: *const u8, len: usize, place: *mut usize) -> u8;
    fn moxkeldi_check_name_fifth_at(text: *const u8, len: usize, place: *mut usize) -> u8;
    fn moxkeldi_check_doctype_at(text: *const u8, len: usize, place: *mut usize) -> u8;
    fn moxkeldi_check_doctype_fifth_at(text: *const u8, len: usize, place: *mut usize) -> u8;
    fn moxkeldi_check_declaration_at(text: *const u8, len: usize, place: *mut usize) -> u8;
    fn moxkeldi_check_document(text: *const u8, len: usize, verdict: *mut RawVerdict) -> u8;
    fn moxkeldi_check_document_fifth(text: *const u8, len: usize, verdict: *mut RawVerdict) -> u8;
    fn moxkeldi_check_utf8(text: *const u8, len: usize) -> u8;
    fn moxkeldi_is_ncname(text: *const u8, len: usize, yes: *mut u8) -> u8;
    fn moxkeldi_scan(text: *const u8, len: usize, answer: *mut u8, place: *mut usize) -> u8;
    fn moxkeldi_decl(gate: *mut RawGate, text: *const u8, len: usize) -> u8;
    fn moxkeldi_doctype(gate: *mut RawGate, phase: u8, text: *const u8, len: usize) -> u8;
}

/// The calls whose answer is a number and nothing more, by their names in the lists.
pub const CHECKS: &[(&str, Check)] = &[
    ("check_chars", moxkeldi_check_chars),
    ("check_text", moxkeldi_check_text),
    ("check_attr_value", moxkeldi_check_attr_value),
    ("check_char_refs", moxkeldi_check_char_refs),
    ("check_name", moxkeldi_check_name),
    ("check_name_fifth", moxkeldi_check_name_fifth),
    ("check_doctype", moxkeldi_check_doctype),
    ("check_doctype_fifth", moxkeldi_check_doctype_fifth),
    ("check_declaration", moxkeldi_check_declaration),
];

/// The same with a place, by the names of the checks without one.
const CHECKS_AT: &[(&str, CheckAt)] = &[
    ("check_chars", moxkeldi_check_chars_at),
    ("check_text", moxkeldi_check_text_at),
    ("check_attr_value", moxkeldi_check_attr_value_at),
    ("check_char_refs", moxkeldi_check_char_refs_at),
    ("check_name", moxkeldi_check_name_at),
    ("check_name_fifth", moxkeldi_check_name_fifth_at),
    ("check_doctype", moxkeldi_check_doctype_at),
    ("check_doctype_fifth", moxkeldi_check_doctype_fifth_at),
    ("check_declaration", moxkeldi_check_declaration_at),
];

/// The number of a check, and what `*place` holds after its form with a place; None where the call has no such form.
pub fn stop(call: &str, text: &[u8]) -> Option<(u8, usize)> {
    let (_, check) = CHECKS_AT.iter().find(|(name, _)| *name == call)?;
    let mut place = usize::MAX;
    let number = unsafe { check(text.as_ptr(), text.len(), &mut place) };
    Some((number, place))
}

pub fn check_utf8(text: &[u8]) -> u8 {
    unsafe { moxkeldi_check_utf8(text.as_ptr(), text.len()) }
}

/// The number and what `*yes` holds after the call; it holds `before` before.
pub fn is_ncname(text: &[u8], before: u8) -> (u8, u8) {
    let mut yes = before;
    let number = unsafe { moxkeldi_is_ncname(text.as_ptr(), text.len(), &mut yes) };
    (number, yes)
}

/// The number, and what `*answer` and `*place` hold after the call.
pub fn scan(text: &[u8], mut answer: u8, mut place: usize) -> (u8, u8, usize) {
    let number = unsafe { moxkeldi_scan(text.as_ptr(), text.len(), &mut answer, &mut place) };
    (number, answer, place)
}

/// The verdict on a document, as the lists write it. What the call leaves as it was is seen as a difference.
fn document(judge: Judge, text: &[u8]) -> String {
    const BEFORE: usize = usize::MAX;
    let mut verdict = RawVerdict {
        place: BEFORE,
        line: BEFORE,
        column: BEFORE,
        opened: BEFORE,
        has_doctype: BEFORE,
        doctype_start: BEFORE,
        doctype_end: BEFORE,
        unread: BEFORE,
    };
    let number = unsafe { judge(text.as_ptr(), text.len(), &mut verdict) };
    let v = verdict;
    let doctype = match (v.has_doctype, v.doctype_start, v.doctype_end) {
        (0, 0, 0) => "-".to_string(),
        (1, start, end) => format!("{start}-{end}"),
        other => format!("{other:?}"),
    };
    format!(
        "{number}@{}:{}:{}/{}/{doctype}/{}",
        v.place, v.line, v.column, v.opened, v.unread
    )
}

/// The answer of a call without a record; None where there is no such call.
pub fn answer(call: &str, text: &[u8]) -> Option<String> {
    if let Some((_, check)) = CHECKS.iter().find(|(name, _)| *name == call) {
        return Some(unsafe { check(text.as_ptr(), text.len()) }.to_string());
    }
    if let Some((number, place)) = call.strip_suffix("_at").and_then(|plain| stop(plain, text)) {
        return Some(format!("{number}@{place}"));
    }
    Some(match call {
        "check_document" => document(moxkeldi_check_document, text),
        "check_document_fifth" => document(moxkeldi_check_document_fifth, text),
        "utf8" => match check_utf8(text) {
            0 => "0y".to_string(),
            number => format!("{number}n"),
        },
        "is_ncname" => match is_ncname(text, 1) {
            (number, 0) => format!("{number}n"),
            (number, 1) => format!("{number}y"),
            (number, other) => format!("{number} with the bool {other}"),
        },
        // a refused scan leaves both as they were
        "scan" => match scan(text, 77, usize::MAX) {
            (0, 0, _) => "o".to_string(),
            (0, 1, _) => "c".to_string(),
            (0, 2, place) => format!("p{place}"),
            (number, 77, usize::MAX) => number.to_string(),
            (number, answer, place) => {
                format!("{number} with the answer {answer} and the place {place}")
            }
        },
        _ => return None,
    })
}

pub struct Gate(RawGate);

impl Gate {
    pub fn new(record: Record) -> Gate {
        Gate(RawGate {
            started: record.started as u8,
            seen: record.seen as u8,
            open: record.open as u8,
            refused: record.refused,
        })
    }

    /// The answer of `decl` or `doctype0` to `doctype2`, with the record after it.
    pub fn answer(&mut self, call: &str, text: &[u8]) -> Option<String> {
        let (gate, start, len) = (&mut self.0, text.as_ptr(), text.len());
        let number = unsafe {
            match call {
                "decl" => moxkeldi_decl(gate, start, len),
                "doctype0" => moxkeldi_doctype(gate, 0, start, len),
                "doctype1" => moxkeldi_doctype(gate, 1, start, len),
                "doctype2" => moxkeldi_doctype(gate, 2, start, len),
                _ => return None,
            }
        };
        let first = if number == 255 {
            "open".to_string()
        } else {
            number.to_string()
        };
        let RawGate {
            started,
            seen,
            open,
            refused,
        } = self.0;
        Some(format!("{first}/{started}/{seen}/{open}/{refused}"))
    }
}
