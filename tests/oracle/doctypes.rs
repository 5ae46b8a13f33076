//! What stands after `<!DOCTYPE`, read with the places of its refusals: production 28, in the Rust's order.
use crate::declarations as decl;
use crate::editions::Names;
use crate::reading::{Piece, Read, Reader, Stop, Within};

/// Reads up to where production 28 has the `>`. The answer is how many declarations are unread.
pub fn doctype(r: &mut Reader<'_>) -> Read<usize> {
    // "White space before the DOCTYPE's name is optional."
    r.spaces();
    r.name()?;
    r.spaces();
    if r.sees("SYSTEM") || r.sees("PUBLIC") {
        decl::external_id(r)?;
        r.spaces();
    }
    if !r.eat("[") {
        return Ok(0);
    }
    let unread = subset(r)?;
    r.spaces();
    Ok(unread)
}

/// Production 28b and the `]` after it.
fn subset(r: &mut Reader<'_>) -> Read<usize> {
    let (mut referred, mut unread) = (false, 0);
    loop {
        r.spaces();
        match r.next() {
            None => return Err(r.refuse(7)),
            Some(']') => {
                r.eat("]");
                return Ok(unread);
            }
            Some('%') => {
                reference(r)?;
                referred = true;
            }
            Some('<') => unread += markup(r, referred)? as usize,
            _ => return Err(r.refuse(8)),
        }
    }
}

/// Production 69.
fn reference(r: &mut Reader<'_>) -> Read {
    r.eat("%");
    r.name()?;
    if r.eat(";") {
        return Ok(());
    }
    Err(r.refuse(8))
}

type Body = fn(&mut Reader<'_>) -> Read;

const KEYWORDS: [(&str, Body); 4] = [
    ("<!ELEMENT", decl::element),
    ("<!ATTLIST", decl::attlist),
    ("<!ENTITY", decl::entity),
    ("<!NOTATION", decl::notation),
];

/// Production 29, from its `<` on. Whether it is a declaration that is unread.
fn markup(r: &mut Reader<'_>, referred: bool) -> Read<bool> {
    if r.sees("<?") {
        return r.instruction().map(|()| false);
    }
    if r.sees("<!--") {
        return r.comment().map(|()| false);
    }
    for (keyword, parse) in KEYWORDS {
        if r.sees(keyword) {
            let body = body(r, keyword)?;
            if referred || refers(body.text, r.names) {
                return Ok(true);
            }
            return parse(&mut r.part(body)).map(|()| false);
        }
    }
    Err(r.refuse(8))
}

/// "A declaration's body goes from its keyword to the first `>` that stands outside quotes."
fn body<'a>(r: &mut Reader<'a>, keyword: &str) -> Read<Piece<'a>> {
    let sign = r.at;
    r.eat(keyword);
    let mut quote = None;
    for (k, c) in r.rest().char_indices() {
        match quote {
            None if c == '>' => {
                let start = r.at;
                r.at += k + 1;
                return Ok(Piece {
                    start,
                    text: &r.text[start..start + k],
                });
            }
            None if c == '"' || c == '\'' => quote = Some(c),
            Some(mark) if c == mark => quote = None,
            _ => {}
        }
    }
    Err(r.unended(sign))
}

/// "where `%` stands in it directly before a character that may begin a name, inside a literal too"
fn refers(body: &str, names: Names) -> bool {
    let next = |k: usize| body[k + 1..].chars().next();
    body.match_indices('%')
        .any(|(k, _)| next(k).is_some_and(|c| names.begin_with(c)))
}

/// What `check_doctype_at` has to answer, by this reading: the number and the place.
pub fn stop(text: &str, names: Names) -> (u8, usize) {
    let mut r = Reader {
        text,
        at: 0,
        within: Within::Part,
        names,
    };
    match doctype(&mut r) {
        Ok(_) if r.at_end() => (0, r.at),
        Ok(_) => (9, r.at),
        Err(Stop::At(number, place)) => (number, place),
        Err(Stop::Ends(_)) => unreachable!("a part is at hand as a whole"),
    }
}
