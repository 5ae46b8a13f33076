//! The calls without a record, answered as the lists write them.
use crate::doctypes;
use crate::document::{check_document, declaration_stop, verdict_text};
use crate::editions::Names;
use crate::fifth;
use crate::numbers::of_result;
use crate::parser::checks::reached;
use crate::parser::{dtd, dtd_limited, wellformed};
use crate::raw::{self, Scan};
use crate::reading::name_stop;

/// No longer text is looked at.
pub const LIMIT: usize = 1_048_576;

/// The two numbers in front of every call, which the Rust does not have: it takes a `&str` of any length.
pub fn admit(text: &[u8]) -> Result<&str, u8> {
    if text.len() > LIMIT {
        return Err(1);
    }
    std::str::from_utf8(text).map_err(|_| 2)
}

/// The copy with the limit decides about 20. In all else it has to agree with the unchanged file, which has Appendix B's names.
pub fn doctype_number(text: &str, names: Names) -> u8 {
    if names == Names::FifthEdition {
        return of_result(fifth::dtd::check_doctype(text));
    }
    let limited = of_result(dtd_limited::check_doctype(text));
    if limited != 20 {
        assert_eq!(
            limited,
            of_result(dtd::check_doctype(text)),
            "the two copies of dtd.rs differ on {text:?}"
        );
    }
    limited
}

fn check(call: &str, text: &str) -> Option<u8> {
    // The last argument is only put into messages; numbers.rs knows it.
    Some(match call {
        "check_chars" => of_result(wellformed::check_chars(text, "name")),
        "check_text" => of_result(wellformed::check_text(text, "name")),
        "check_attr_value" => of_result(wellformed::check_attr_value(text, "name")),
        "check_char_refs" => of_result(wellformed::check_char_refs(text, "name")),
        "check_name" => of_result(wellformed::check_name(text, "name")),
        "check_name_fifth" => of_result(fifth::wellformed::check_name(text, "name")),
        "check_doctype" => doctype_number(text, Names::AppendixB),
        "check_doctype_fifth" => doctype_number(text, Names::FifthEdition),
        "check_declaration" => of_result(reached::check_declaration(text)),
        _ => return None,
    })
}

/// The number and the place of a check, by the readers of the reference; None for the checks that it has no reader of.
pub fn stop(call: &str, text: &[u8]) -> Option<(u8, usize)> {
    let reader: fn(&str) -> (u8, usize) = match call {
        "check_name" => |text| name_stop(text, Names::AppendixB),
        "check_name_fifth" => |text| name_stop(text, Names::FifthEdition),
        "check_doctype" => |text| doctypes::stop(text, Names::AppendixB),
        "check_doctype_fifth" => |text| doctypes::stop(text, Names::FifthEdition),
        "check_declaration" => declaration_stop,
        _ => return None,
    };
    Some(match admit(text) {
        Ok(text) => reader(text),
        Err(1) => (1, 0),
        Err(number) => (number, std::str::from_utf8(text).unwrap_err().valid_up_to()),
    })
}

/// The answer of a call; None where there is no such call.
pub fn answer(call: &str, text: &[u8]) -> Option<String> {
    // what the Rust does not have; the text may have any length
    match call {
        "check_document" => return Some(verdict_text(&check_document(text, Names::AppendixB))),
        "check_document_fifth" => {
            return Some(verdict_text(&check_document(text, Names::FifthEdition)));
        }
        _ => {}
    }
    if let Some(plain) = call.strip_suffix("_at") {
        let (number, place) = stop(plain, text)?;
        return Some(format!("{number}@{place}"));
    }
    let admitted = admit(text);
    Some(match (call, admitted) {
        ("utf8" | "is_ncname", Err(number)) => format!("{number}n"),
        ("utf8", Ok(_)) => "0y".to_string(),
        ("is_ncname", Ok(s)) => if reached::is_ncname(s) { "0y" } else { "0n" }.to_string(),
        ("scan", Err(number)) => number.to_string(),
        ("scan", Ok(s)) => match raw::scan(s) {
            Scan::NotOpened => "o".to_string(),
            Scan::NotClosed => "c".to_string(),
            Scan::Closed(place) => format!("p{place}"),
        },
        (_, Ok(s)) => check(call, s)?.to_string(),
        (_, Err(number)) => check(call, "").map(|_| number)?.to_string(),
    })
}
