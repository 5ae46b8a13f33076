//! The Rust's messages as the numbers of the table. Each message begins with words that only its family has.
use crate::depth::TOO_DEEP;
use crate::parser::error::ParseError;

const BEGINNINGS: &[(u8, &[&str])] = &[
    (3, &["white space is required "]),
    (
        4,
        &[
            "illegal document type name ",
            "illegal parameter-entity name ",
            "illegal element type name ",
            "illegal element name in ",
            "illegal attribute name ",
            "illegal notation name ",
            "illegal entity name ",
            "illegal processing-instruction target ",
            "illegal name ",
            "expected document type name",
            "expected parameter-entity name",
            "expected element type name",
            "expected element name in ",
            "expected attribute name",
            "expected notation name",
            "expected entity name",
            "expected enumeration token",
            "empty name",
            "a processing instruction must have a target",
        ],
    ),
    (
        5,
        &[
            "a entity name must not contain a colon",
            "a notation name must not contain a colon",
            "a processing-instruction target must not contain a colon",
        ],
    ),
    (6, &["expected a quoted ", "the value of '"]),
    (7, &["unterminated "]),
    (
        8,
        &[
            "expected SYSTEM or PUBLIC ",
            "expected EMPTY, ANY, or a content model",
            "expected #PCDATA ",
            "expected a markup declaration ",
            "expected an attribute type",
            "expected '",
            "unexpected character U+",
            "a conditional section ",
            "a parameter-entity reference must end with ';'",
            "malformed XML declaration",
            "the XML declaration must begin with 'version'",
        ],
    ),
    (9, &["unexpected content in ", "trailing content in "]),
    (10, &["illegal character U+"]),
    (12, &["'--' is not allowed "]),
    (
        13,
        &[
            "a mixed content model with element names ",
            "a content-model group must use a single connector ",
        ],
    ),
    (14, &["'<' is not allowed "]),
    (15, &["malformed character reference "]),
    (16, &["character reference '"]),
    (
        17,
        &[
            "unsupported XML version '",
            "illegal encoding name '",
            "the standalone declaration must be ",
        ],
    ),
    (18, &["illegal XML character U+"]),
    (19, &["the sequence ']]>' is not allowed "]),
    (20, &[TOO_DEEP]),
    (
        21,
        &[
            "the XML declaration must be at the very beginning",
            "only one DOCTYPE declaration is allowed",
            "the DOCTYPE declaration must appear before",
        ],
    ),
];

/// The only message that begins with what the text says: 'xml' in any case.
fn is_reserved_target(message: &str) -> bool {
    message.eq_ignore_ascii_case("'xml' is a reserved processing-instruction target")
}

fn of_message(message: &str) -> u8 {
    let mut found: Vec<u8> = Vec::new();
    for (number, beginnings) in BEGINNINGS {
        found.extend(
            beginnings
                .iter()
                .filter(|b| message.starts_with(**b))
                .map(|_| *number),
        );
    }
    if is_reserved_target(message) {
        found.push(11);
    }
    // anything else would be an answer that we made up
    assert!(
        found.len() == 1,
        "the message {message:?} belongs to the numbers {found:?}"
    );
    found[0]
}

pub fn of_result(result: Result<(), ParseError>) -> u8 {
    match result {
        Ok(()) => 0,
        Err(ParseError::NotWellFormed { message }) => of_message(&message),
        Err(other) => panic!("another kind of error: {other:?}"),
    }
}

/// The same for the calls of the gate, whose errors are wrapped once more.
pub fn of_wrapped(result: crate::error::Result<()>) -> u8 {
    match result {
        Ok(()) => 0,
        Err(crate::error::Error::Parse(e)) => of_result(Err(e)),
        Err(other) => panic!("another kind of error: {other:?}"),
    }
}
