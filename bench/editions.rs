//! The texts on which a check by Appendix B's names and its form by the fifth edition's are timed beside each other.
use crate::shapes::{LETTERS, Shape, filled, rare_accent, repeated, typical};

const GREEK: &str = "στοιχείο";
const HAN: &str = "漢字";
const CHEROKEE: &str = "ᏣᎳᎩ";
const ETHIOPIC: &str = "ᎀⶀꬁ";
const ASTRAL: &str = "𐌰𝒜𠀀";

/// A DOCTYPE whose names are made of this word.
fn named(word: &str, size: usize) -> String {
    filled("root [\n", "]", size, |k| {
        format!("<!ELEMENT {word}{k} ({word}, ({word}{word} | {word}.a)?, {word}*)>\n")
    })
}

/// Texts that both accept, then texts in scripts that only the fifth edition has.
pub const SHAPES: &[(&str, Shape)] = &[
    ("check_name", ("ASCII", |size| repeated(LETTERS, size))),
    ("check_name", ("Greek", |size| repeated(GREEK, size))),
    ("check_name", ("Han", |size| repeated(HAN, size))),
    (
        "check_name",
        ("rare accent", |size| rare_accent(LETTERS, size)),
    ),
    ("check_doctype", ("typical", typical)),
    ("check_doctype", ("Greek", |size| named(GREEK, size))),
    ("check_doctype", ("Han", |size| named(HAN, size))),
    ("check_name", ("Cherokee", |size| repeated(CHEROKEE, size))),
    (
        "check_name",
        ("Ethiopic supplements", |size| repeated(ETHIOPIC, size)),
    ),
    (
        "check_name",
        ("astral planes", |size| repeated(ASTRAL, size)),
    ),
    ("check_doctype", ("Cherokee", |size| named(CHEROKEE, size))),
    (
        "check_doctype",
        ("Ethiopic supplements", |size| named(ETHIOPIC, size)),
    ),
    (
        "check_doctype",
        ("astral planes", |size| named(ASTRAL, size)),
    ),
];
