//! The reference for `check_document` and `check_document_fifth`, for which there is no Rust: written from the words of docs/SCOPE.md
//! ("Reading", "A whole document", "The numbers") and of the verdict, and from no code. Comments in quotes are SCOPE's sentences. Where the
//! Rust has a function, the number has to be the Rust's, by the fifth edition that of the Rust with its names. Where the words leave something
//! open, it was settled as the library's order of reading has it:
//! - a DOCTYPE, and what else begins with `<!`, does not end where no `>` is left behind what is wrong in it: `<!DOCTYPE 1`, `<!a`;
//! - where the text ends directly behind the root's `<`, that `<` is what was opened: `<`;
//! - an XML declaration begins with `<?xml` and white space or `?`: `<?xml?>`;
//! - an XML declaration that is refused names no encoding: `<?xml version='1.0' encoding='x' y?>`;
//! - a DOCTYPE that is too long is refused where it begins, and only where nothing in it is.
use crate::answers::{LIMIT, doctype_number};
use crate::doctypes::doctype;
use crate::editions::Names;
use crate::numbers::of_result;
use crate::parser::checks::reached::check_declaration;
use crate::parser::wellformed::is_xml_char;
use crate::reading::{Piece, Read, Reader, Stop, Within, is_space};

#[derive(Clone, Copy, PartialEq, Eq, Debug)]
pub struct Verdict {
    pub number: u8,
    /// of the refusal, or of the root's `<`
    pub place: usize,
    pub line: usize,
    pub column: usize,
    /// where the sign begins that opened what does not end, else the place
    pub opened: usize,
    /// what stands between `<!DOCTYPE` and its `>`
    pub doctype: Option<(usize, usize)>,
    /// how many of its declarations are unread
    pub unread: usize,
}

/// As the lists write it: `number@place:line:column/opened/doctype/unread`.
pub fn verdict_text(v: &Verdict) -> String {
    let doctype = match v.doctype {
        Some((start, end)) => format!("{start}-{end}"),
        None => "-".to_string(),
    };
    format!(
        "{}@{}:{}:{}/{}/{doctype}/{}",
        v.number, v.place, v.line, v.column, v.opened, v.unread
    )
}

pub fn check_document(bytes: &[u8], names: Names) -> Verdict {
    if is_two_or_four_bytes(bytes) {
        return refusal(bytes, 2, 0, 0);
    }
    let start = mark(bytes);
    let mut text = readable(bytes);
    // "A document that names an encoding other than [..] is refused with 2 at that name; but where [..] it is read on"
    let coding = encoding(text, start).map_or(Coding::Utf8, coding);
    match coding {
        Coding::Utf8 => {}
        Coding::OneByte => text = ascii(text, start),
        Coding::Other(place) => return refusal(bytes, 2, place, place),
    }
    match prolog(text, start, names) {
        Ok(found) => Verdict {
            doctype: found.doctype,
            unread: found.unread,
            ..refusal(bytes, 0, found.root, found.root)
        },
        Err(Stop::At(number, place)) => refusal(bytes, number, place, place),
        Err(Stop::Ends(opened)) => {
            let end = text.len();
            refusal(bytes, at_end(&bytes[end..], &coding), end, opened)
        }
    }
}

fn refusal(bytes: &[u8], number: u8, place: usize, opened: usize) -> Verdict {
    let (line, column) = line_and_column(bytes, place);
    Verdict {
        number,
        place,
        line,
        column,
        opened,
        doctype: None,
        unread: 0,
    }
}

/// "A UTF-8 byte order mark in front is passed over": its length, if it is there.
fn mark(bytes: &[u8]) -> usize {
    if bytes.starts_with(b"\xef\xbb\xbf") {
        return 3;
    }
    0
}

/// "What looks like UTF-16 or UTF-32, by a mark or by how it spells `<`, is refused with 2."
fn is_two_or_four_bytes(bytes: &[u8]) -> bool {
    let beginnings: [&[u8]; 6] = [
        b"\xfe\xff",
        b"\xff\xfe",
        b"\x00\x00\xfe\xff",
        b"\x00<",
        b"<\x00",
        b"\x00\x00\x00<",
    ];
    beginnings.iter().any(|b| bytes.starts_with(b))
}

/// "The text ends at the first byte or character that is none."
fn readable(bytes: &[u8]) -> &str {
    let valid = match std::str::from_utf8(bytes) {
        Ok(text) => text,
        Err(e) => std::str::from_utf8(&bytes[..e.valid_up_to()]).expect("valid up to there"),
    };
    let end = valid.find(|c| !is_xml_char(c)).unwrap_or(valid.len());
    &valid[..end]
}

/// The text up to "the first byte of 128 or more", the mark in front aside.
fn ascii(text: &str, start: usize) -> &str {
    let end = text[start..].find(|c: char| !c.is_ascii());
    end.map_or(text, |k| &text[..start + k])
}

/// "2 or 18 for what is no character, 7 for the end of the text"
fn at_end(rest: &[u8], coding: &Coding) -> u8 {
    let noncharacter = rest.starts_with(b"\xef\xbf\xbe") || rest.starts_with(b"\xef\xbf\xbf");
    match rest.first() {
        None => 7,
        Some(0..128) => 18,
        Some(_) if noncharacter && matches!(coding, Coding::Utf8) => 18,
        Some(_) => 2,
    }
}

/// Lines end at LF, CR and CR LF. A column is a character of the line; the mark is none.
fn line_and_column(bytes: &[u8], place: usize) -> (usize, usize) {
    let before = &bytes[mark(bytes).min(place)..place];
    let (mut line, mut column) = (1, 1);
    for (k, b) in before.iter().enumerate() {
        match b {
            b'\n' if k > 0 && before[k - 1] == b'\r' => {}
            b'\n' | b'\r' => (line, column) = (line + 1, 1),
            0x80..=0xbf => {}
            _ => column += 1,
        }
    }
    (line, column)
}

/// What an accepted prolog has.
struct Prolog {
    root: usize,
    doctype: Option<(usize, usize)>,
    unread: usize,
}

/// "Production 22 [..]; after it `<` and a Name."
fn prolog(text: &str, start: usize, names: Names) -> Read<Prolog> {
    let mut r = Reader {
        text,
        at: start,
        within: Within::Prolog,
        names,
    };
    if is_declaration(r.rest()) {
        declaration(&mut r)?;
    }
    let (mut found, mut unread) = (None, 0);
    loop {
        r.spaces();
        if is_declaration(r.rest()) || found.is_some() && r.sees(DOCTYPE) {
            // "A second DOCTYPE and an XML declaration that is not first get 21."
            return Err(Stop::At(21, r.at));
        } else if r.sees("<?") {
            miscellaneous(&mut r, Reader::instruction)?;
        } else if r.sees("<!--") {
            miscellaneous(&mut r, Reader::comment)?;
        } else if r.sees(DOCTYPE) {
            let range;
            (range, unread) = whole_doctype(&mut r)?;
            found = Some(range);
        } else {
            root(&r)?;
            return Ok(Prolog {
                root: r.at,
                doctype: found,
                unread,
            });
        }
    }
}

const DOCTYPE: &str = "<!DOCTYPE";

/// "`<` and a Name, as production 40 begins"
fn root(r: &Reader<'_>) -> Read {
    let rest = r.rest();
    // "The same holds of a text that ends before its root." What begins with `<!` may become a comment or a DOCTYPE, as long as nothing ends it.
    if rest.is_empty() || rest == "<" || rest.starts_with("<!") && !rest.contains('>') {
        return Err(Stop::Ends(r.at));
    }
    if !rest.starts_with('<') || rest.starts_with("<!") {
        return Err(Stop::At(8, r.at));
    }
    if !rest[1..].starts_with(|c| r.names.begin_with(c)) {
        return Err(Stop::At(4, r.at + 1));
    }
    Ok(())
}

/// "Comments and instructions are read as those of a subset are": the Rust has to say the same of it between `a[` and `]`.
fn miscellaneous<'a>(r: &mut Reader<'a>, item: fn(&mut Reader<'a>) -> Read) -> Read {
    let start = r.at;
    let answer = item(r);
    let number = match answer {
        Ok(()) => 0,
        Err(Stop::At(number, _)) => number,
        Err(Stop::Ends(_)) => return answer,
    };
    let text = format!("a[{}]", &r.text[start..r.at]);
    assert_eq!(number, doctype_number(&text, r.names), "{text:?}");
    answer
}

/// The DOCTYPE's range, and how many of its declarations are unread. "The DOCTYPE ends where the grammar ends it."
fn whole_doctype(r: &mut Reader<'_>) -> Read<((usize, usize), usize)> {
    let sign = r.at;
    r.within = Within::Doctype(sign);
    r.eat(DOCTYPE);
    let (start, rest) = (r.at, r.rest());
    let read = doctype(r);
    if let Err(Stop::At(number, _)) = read {
        assert_eq!(number, doctype_number(rest, r.names), "{rest:?}");
    }
    let end = r.at;
    let read = match read {
        Ok(_) if !r.eat(">") => Err(r.refuse(9)),
        read => read,
    };
    let unread = read.map_err(|stop| unless_closed(stop, r, sign))?;
    let length = end - start;
    assert_eq!(first_end(rest, length, r.names), Some(length), "{rest:?}");
    r.within = Within::Prolog;
    // "A DOCTYPE's text has at most 1,048,576 bytes."
    if length > LIMIT {
        return Err(Stop::At(1, sign));
    }
    Ok(((start, end), unread))
}

/// "What does not end in it, be it [..] a declaration [..], is refused for that, whatever else is wrong in it": a DOCTYPE does not end where
/// no `>` is left behind what is wrong in it.
fn unless_closed(stop: Stop, r: &Reader<'_>, sign: usize) -> Stop {
    match stop {
        Stop::At(_, place) if !r.text[place..].contains('>') => Stop::Ends(sign),
        stop => stop,
    }
}

/// The first `>` before which the Rust accepts everything. In a long text only the one at `likely` is tried.
fn first_end(rest: &str, likely: usize, names: Names) -> Option<usize> {
    const LONG: usize = 2000;
    let mut ends = rest.match_indices('>').map(|(k, _)| k);
    ends.find(|k| (*k == likely || likely < LONG) && doctype_number(&rest[..*k], names) == 0)
}

/// Whether production 23 begins here: `<?xml`, and then neither goes the target on nor does the text end.
fn is_declaration(text: &str) -> bool {
    text.strip_prefix("<?xml")
        .is_some_and(|rest| rest.starts_with(|c| is_space(c) || c == '?'))
}

/// Production 23. The answer is the name of the encoding, if there is one.
fn declaration<'a>(r: &mut Reader<'a>) -> Read<Option<Piece<'a>>> {
    // "What does not end [..] is refused for that, whatever else is wrong in it"
    let piece = r.enclosed("<?", "?>")?;
    let read = declared(&mut r.part(piece));
    let number = match read {
        Ok(_) => 0,
        Err(Stop::At(number, _)) => number,
        Err(Stop::Ends(_)) => unreachable!("a part is at hand as a whole"),
    };
    let text = piece.text;
    assert_eq!(number, of_result(check_declaration(text)), "{text:?}");
    read
}

/// What stands between `<?` and `?>`.
fn declared<'a>(d: &mut Reader<'a>) -> Read<Option<Piece<'a>>> {
    if !d.eat("xml") {
        return Err(d.refuse(8));
    }
    d.need_space()?;
    if !d.eat("version") {
        return Err(d.refuse(8));
    }
    let version = value(d)?;
    // "The version is `1.` and one digit or more."
    let digits = version.text.strip_prefix("1.").unwrap_or("");
    if digits.is_empty() || !digits.bytes().all(|b| b.is_ascii_digit()) {
        return Err(Stop::At(17, version.start));
    }
    let name = attribute(d, "encoding")?;
    if let Some(name) = name {
        // production 81
        let fits = |c: char| c.is_ascii_alphanumeric() || matches!(c, '.' | '_' | '-');
        let letter = |c: char| c.is_ascii_alphabetic();
        if !name.text.starts_with(letter) || !name.text.chars().all(fits) {
            return Err(Stop::At(17, name.start));
        }
    }
    standalone(d)?;
    Ok(name)
}

/// Production 32, if it is there, and the end.
fn standalone(d: &mut Reader<'_>) -> Read {
    if let Some(answer) = attribute(d, "standalone")? {
        if answer.text != "yes" && answer.text != "no" {
            return Err(Stop::At(17, answer.start));
        }
    }
    d.spaces();
    if d.at_end() {
        return Ok(());
    }
    Err(d.refuse(9))
}

/// White space, a word and its value, where the word is next.
fn attribute<'a>(d: &mut Reader<'a>, word: &str) -> Read<Option<Piece<'a>>> {
    let before = d.at;
    let space = d.spaces();
    if !d.sees(word) {
        d.at = before;
        return Ok(None);
    }
    if !space {
        return Err(d.refuse(3));
    }
    d.eat(word);
    value(d).map(Some)
}

/// Production 25 and a literal.
fn value<'a>(d: &mut Reader<'a>) -> Read<Piece<'a>> {
    d.spaces();
    if !d.eat("=") {
        return Err(d.refuse(8));
    }
    d.spaces();
    d.literal()
}

/// The encoding that a document names. A declaration that is refused names none.
fn encoding(text: &str, start: usize) -> Option<Piece<'_>> {
    let mut r = Reader {
        text,
        at: start,
        within: Within::Prolog,
        // none is read in a declaration
        names: Names::AppendixB,
    };
    if !is_declaration(r.rest()) {
        return None;
    }
    declaration(&mut r).ok()?
}

/// What a document is read in.
enum Coding {
    Utf8,
    /// one byte for each character, of which only ASCII's are read
    OneByte,
    /// none that is read; where its name stands
    Other(usize),
}

/// "other than UTF-8 or US-ASCII, in any case of letters"
fn coding(name: Piece<'_>) -> Coding {
    let known = ["UTF-8", "US-ASCII"];
    if known.iter().any(|k| k.eq_ignore_ascii_case(name.text)) {
        return Coding::Utf8;
    }
    if is_one_byte(name.text) {
        return Coding::OneByte;
    }
    Coding::Other(name.start)
}

/// "one of ISO-8859-1 to ISO-8859-16 or windows-1250 to windows-1258"
fn is_one_byte(name: &str) -> bool {
    let iso = (1..=16).map(|k| format!("ISO-8859-{k}"));
    let windows = (1250..=1258).map(|k| format!("windows-{k}"));
    iso.chain(windows)
        .any(|known| known.eq_ignore_ascii_case(name))
}

/// What `check_declaration_at` has to answer, by this reading: the number and the place.
pub fn declaration_stop(text: &str) -> (u8, usize) {
    let mut d = Reader {
        text,
        at: 0,
        within: Within::Part,
        names: Names::AppendixB,
    };
    match declared(&mut d) {
        Ok(_) => (0, d.at),
        Err(Stop::At(number, place)) => (number, place),
        Err(Stop::Ends(_)) => unreachable!("a part is at hand as a whole"),
    }
}
