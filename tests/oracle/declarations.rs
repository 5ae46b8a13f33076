//! The bodies of a subset's declarations, in the Rust's order and with the places of their refusals. A body is at hand as a whole: it
//! goes from its keyword to its `>`.
use crate::numbers::of_result;
use crate::parser::wellformed::check_char_refs;
use crate::reading::{Piece, Read, Reader, Stop, no_colon};

/// "At most 64 groups of a content model may be open at one time."
const MOST_GROUPS: usize = 64;

/// White space, and then the body ends.
fn end(r: &mut Reader<'_>) -> Read {
    r.spaces();
    if r.at_end() {
        return Ok(());
    }
    Err(r.refuse(9))
}

fn need(r: &mut Reader<'_>, sign: &str) -> Read {
    if r.eat(sign) {
        return Ok(());
    }
    Err(r.refuse(8))
}

/// Production 45.
pub fn element(r: &mut Reader<'_>) -> Read {
    r.need_space()?;
    r.name()?;
    r.need_space()?;
    content(r)?;
    end(r)
}

/// Production 46.
fn content(r: &mut Reader<'_>) -> Read {
    if r.eat("EMPTY") || r.eat("ANY") {
        return Ok(());
    }
    if !r.sees("(") {
        return Err(r.refuse(8));
    }
    let inner = r.rest()[1..].trim_start_matches(crate::reading::is_space);
    if inner.starts_with("#PCDATA") {
        return mixed(r);
    }
    particle(r, 0)
}

/// Production 51.
fn mixed(r: &mut Reader<'_>) -> Read {
    r.eat("(");
    r.spaces();
    r.eat("#PCDATA");
    r.spaces();
    let mut names = false;
    while r.eat("|") {
        names = true;
        r.spaces();
        r.name()?;
        r.spaces();
    }
    need(r, ")")?;
    if !r.eat("*") && names {
        return Err(Stop::At(13, r.at));
    }
    Ok(())
}

/// Production 48, in so many open groups.
fn particle(r: &mut Reader<'_>, groups: usize) -> Read {
    if r.sees("(") {
        group(r, groups)?;
    } else {
        r.name()?;
    }
    if matches!(r.next(), Some('?' | '*' | '+')) {
        r.at += 1;
    }
    Ok(())
}

/// Productions 49 and 50.
fn group(r: &mut Reader<'_>, groups: usize) -> Read {
    if groups == MOST_GROUPS {
        return Err(Stop::At(20, r.at));
    }
    r.eat("(");
    r.spaces();
    particle(r, groups + 1)?;
    r.spaces();
    let first = r.next();
    while let Some(sign @ ('|' | ',')) = r.next() {
        if Some(sign) != first {
            return Err(Stop::At(13, r.at));
        }
        r.at += 1;
        r.spaces();
        particle(r, groups + 1)?;
        r.spaces();
    }
    need(r, ")")
}

/// Production 52.
pub fn attlist(r: &mut Reader<'_>) -> Read {
    r.need_space()?;
    r.name()?;
    loop {
        let space = r.spaces();
        if r.at_end() {
            return Ok(());
        }
        if !space {
            return Err(r.refuse(3));
        }
        r.name()?;
        r.need_space()?;
        attribute_type(r)?;
        r.need_space()?;
        default(r)?;
    }
}

/// Production 54. A longer keyword comes before its own front part.
fn attribute_type(r: &mut Reader<'_>) -> Read {
    const WORDS: [&str; 8] = [
        "CDATA", "IDREFS", "IDREF", "ID", "ENTITY", "ENTITIES", "NMTOKENS", "NMTOKEN",
    ];
    if r.eat("NOTATION") {
        r.need_space()?;
        return listed(r, |r| r.name());
    }
    if WORDS.iter().any(|word| r.eat(word)) {
        return Ok(());
    }
    listed(r, |r| r.token())
}

/// Productions 58 and 59: names or tokens in parentheses.
fn listed<'a>(r: &mut Reader<'a>, item: fn(&mut Reader<'a>) -> Read<Piece<'a>>) -> Read {
    need(r, "(")?;
    loop {
        r.spaces();
        item(r)?;
        r.spaces();
        if !r.eat("|") {
            return need(r, ")");
        }
    }
}

/// Production 60.
fn default(r: &mut Reader<'_>) -> Read {
    if r.eat("#REQUIRED") || r.eat("#IMPLIED") {
        return Ok(());
    }
    if r.eat("#FIXED") {
        r.need_space()?;
    }
    let value = r.literal()?;
    if let Some(k) = value.text.find('<') {
        return Err(Stop::At(14, value.start + k));
    }
    references(value)
}

/// Productions 70 to 74.
pub fn entity(r: &mut Reader<'_>) -> Read {
    r.need_space()?;
    let parameter = r.eat("%");
    if parameter {
        r.need_space()?;
    }
    no_colon(r.name()?)?;
    r.need_space()?;
    if matches!(r.next(), Some('"' | '\'')) {
        references(r.literal()?)?;
        return end(r);
    }
    external_id(r)?;
    let before = r.at;
    if !parameter && r.spaces() && r.eat("NDATA") {
        r.need_space()?;
        r.name()?;
    } else {
        r.at = before;
    }
    end(r)
}

/// Productions 82 and 83: the second literal may be left out.
pub fn notation(r: &mut Reader<'_>) -> Read {
    r.need_space()?;
    no_colon(r.name()?)?;
    r.need_space()?;
    if !r.sees("PUBLIC") {
        external_id(r)?;
        return end(r);
    }
    public_id(r)?;
    if r.spaces() && matches!(r.next(), Some('"' | '\'')) {
        r.literal()?;
    }
    end(r)
}

/// Production 75.
pub fn external_id(r: &mut Reader<'_>) -> Read {
    if r.sees("PUBLIC") {
        public_id(r)?;
    } else {
        need(r, "SYSTEM")?;
    }
    r.need_space()?;
    r.literal()?;
    Ok(())
}

/// `PUBLIC` and production 12, without what follows.
fn public_id(r: &mut Reader<'_>) -> Read {
    r.eat("PUBLIC");
    r.need_space()?;
    let id = r.literal()?;
    let fits = |c: char| c.is_ascii_alphanumeric() || " \r\n-'()+,./:=?;!*#@$_%".contains(c);
    match id.text.find(|c| !fits(c)) {
        Some(k) => Err(Stop::At(10, id.start + k)),
        None => Ok(()),
    }
}

/// Every `&#` of a value begins production 66, to a Char. Each is tried by the Rust alone, up to its `;`.
fn references(value: Piece<'_>) -> Read {
    let mut at = 0;
    while let Some(k) = value.text[at..].find("&#") {
        at += k;
        let rest = &value.text[at..];
        let length = rest.find(';').map_or(rest.len(), |end| end + 1);
        let number = of_result(check_char_refs(&rest[..length], "name"));
        if number != 0 {
            return Err(Stop::At(number, value.start + at));
        }
        at += length;
    }
    Ok(())
}
