//! The place of a refusal. The Rust tells none, so what is asked is that the number is the Rust's, and that what stands at the place is
//! what the number speaks of: by the words of the table alone, without reading the text as the port does. Of a name, of a DOCTYPE and of
//! an XML declaration it has to be the very place at which the reference's readers stop.
use crate::port;

/// What is wrong with the form of a check that tells a place; None where all is well, or the call has no such form.
pub fn fault(call: &str, wanted: &str, text: &[u8]) -> Option<String> {
    let (number, place) = port::stop(call, text)?;
    if number.to_string() != wanted {
        return Some(format!("{number}, with a place"));
    }
    if place > text.len() || !fits(number, text, place) {
        return Some(format!("{number} at {place}"));
    }
    match oracle::stop(call, text) {
        Some(stop) if stop != (number, place) => Some(format!(
            "{number} at {place}, where the reference stops with {} at {}",
            stop.0, stop.1
        )),
        _ => None,
    }
}

/// Whether a refusal with this number can be met at this place.
fn fits(number: u8, text: &[u8], place: usize) -> bool {
    let (front, rest) = text.split_at(place);
    let first = rest.first().copied();
    let space = |b: u8| matches!(b, b' ' | b'\t' | b'\r' | b'\n');
    // a place is that of a character, but where the bytes are none
    if number > 2 && first.is_some_and(|b| (0x80..0xC0).contains(&b)) {
        return false;
    }
    match number {
        0 => rest.is_empty(),
        1 => place == 0,
        2 => std::str::from_utf8(text).is_err_and(|e| e.valid_up_to() == place),
        3 => !first.is_some_and(space),
        4 => !first.is_some_and(|b| b.is_ascii_alphabetic() || b == b'_' || b == b':'),
        5 => first == Some(b':'),
        6 => !matches!(first, Some(b'"' | b'\'')) && !first.is_some_and(space),
        7 => opened(front) || rest.is_empty(),
        9 => first.is_some_and(|b| !space(b)),
        10 => first.is_some_and(|b| {
            !b.is_ascii_alphanumeric() && !b" \r\n-'()+,./:=?;!*#@$_%".contains(&b)
        }),
        11 => {
            rest.get(..3)
                .is_some_and(|t| t.eq_ignore_ascii_case(b"xml"))
                && front.ends_with(b"<?")
        }
        12 => rest.starts_with(b"--"),
        13 => matches!(first, Some(b',' | b'|')) || front.ends_with(b")"),
        14 => first == Some(b'<'),
        15 | 16 => rest.starts_with(b"&#"),
        17 => front.ends_with(b"\"") || front.ends_with(b"'"),
        18 => {
            first.is_some_and(|b| b < 0x20)
                || rest.starts_with(b"\xef\xbf\xbe")
                || rest.starts_with(b"\xef\xbf\xbf")
        }
        19 => rest.starts_with(b"]]>"),
        20 => first == Some(b'(') && front.iter().filter(|b| **b == b'(').count() >= 64,
        _ => true,
    }
}

/// The signs that open what needs an end.
fn opened(front: &[u8]) -> bool {
    let signs: [&[u8]; 8] = [
        b"\"",
        b"'",
        b"<!--",
        b"<?",
        b"<!ELEMENT",
        b"<!ATTLIST",
        b"<!ENTITY",
        b"<!NOTATION",
    ];
    signs.iter().any(|sign| front.ends_with(sign))
}
