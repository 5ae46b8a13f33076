//! Whole documents.
use moxkeldi::{check_document, check_document_fifth, Document, Fault, Refusal, LIMIT};

/// By Appendix B's names, and the same by the fifth edition's: no document here has a letter that only the latter has.
fn checked(text: &[u8]) -> Result<Document, Fault> {
    let said = check_document(text);
    assert_eq!(
        check_document_fifth(text),
        said,
        "{}",
        String::from_utf8_lossy(text)
    );
    said
}

fn accepted(text: &[u8]) -> Document {
    checked(text).unwrap_or_else(|fault| panic!("{}: {fault}", String::from_utf8_lossy(text)))
}

fn refused(text: &[u8]) -> Fault {
    match checked(text) {
        Ok(_) => panic!("{} is accepted", String::from_utf8_lossy(text)),
        Err(fault) => fault,
    }
}

/// A document in pieces: the second is its DOCTYPE's text, and its root begins with the last `<`.
#[test]
fn what_is_accepted() {
    let rows: &[(&str, Option<&str>, &str)] = &[
        ("", None, "<a/>"),
        ("", None, "<a"),
        ("\u{feff}", None, "<a/>"),
        (
            "<?xml version='1.0' standalone='yes'?>\n<!-- b --><?c d?>\r\n",
            None,
            "<a>",
        ),
        ("<!DOCTYPE", Some(" a"), "><a/>"),
        (
            "<!DOCTYPE",
            Some(" a [<!ENTITY e '>]'>]"),
            "><!-- b --><a/>",
        ),
        (
            "<?xml version='1.0'?>\n<!DOCTYPE",
            Some(" a SYSTEM \"b>\" [ ] "),
            ">\n\n<a/>",
        ),
        (
            "\u{feff}<!DOCTYPE",
            Some(" \u{e9} [<!ELEMENT \u{e9} (b|c)*>]"),
            "><\u{e9}>",
        ),
        // an instruction that would mislead the quick scan
        ("<!DOCTYPE", Some(" a [<?p it's ]> ?>]"), "><a/>"),
    ];
    for (before, doctype, after) in rows {
        let text = format!("{before}{}{after}", doctype.unwrap_or(""));
        let document = accepted(text.as_bytes());
        let root = after.len() - after.rfind('<').expect("a root");
        assert_eq!(document.root(), text.len() - root, "{text}");
        let found = document.doctype();
        assert_eq!(found.clone().map(|range| &text[range]), *doctype, "{text}");
        assert_eq!(
            found.map(|range| range.start),
            doctype.map(|_| before.len()),
            "{text}"
        );
        assert_eq!(document.unread(), 0, "{text}");
    }
}

#[test]
fn what_follows_the_root_is_not_looked_at() {
    assert_eq!(accepted(b"<a<<\x01\xff]]>").root(), 0);
    assert_eq!(accepted(b"<!DOCTYPE a><a></b>&c;").root(), 12);
}

#[test]
fn declarations_that_are_not_read() {
    let unread =
        |subset: &str| accepted(format!("<!DOCTYPE a [{subset}]><a/>").as_bytes()).unread();
    assert_eq!(unread("<!ELEMENT a EMPTY>"), 0);
    assert_eq!(unread("%p;"), 0);
    assert_eq!(unread("%p;<!ELEMENT><!-- b --><?c?><!NOTATION d>"), 2);
    assert_eq!(
        unread("<!ELEMENT a EMPTY><!ELEMENT b (%p;)><!ENTITY e '%p;'>"),
        2
    );
}

/// A document in two pieces, refused where the second begins.
#[test]
fn places() {
    let rows: &[(Refusal, &str, &str, (usize, usize))] = &[
        (
            Refusal::SpaceRequired,
            "<?xml version='1.0'",
            "encoding='UTF-8'?><a/>",
            (1, 20),
        ),
        (Refusal::BadName, "<!DOCTYPE ", "1><a/>", (1, 11)),
        (Refusal::BadName, "<", "1/>", (1, 2)),
        (Refusal::Colon, "<?b", ":c?><a/>", (1, 4)),
        (
            Refusal::LiteralMissing,
            "\n\n<!DOCTYPE a SYSTEM ",
            "b><a/>",
            (3, 20),
        ),
        (Refusal::Unexpected, "", "a: b", (1, 1)),
        (Refusal::Unexpected, "\n", "<!doctype a><a/>", (2, 1)),
        (Refusal::Trailing, "<!DOCTYPE a [] ", "b><a/>", (1, 16)),
        (
            Refusal::ReservedTarget,
            "<!-- b --><?",
            "XML c?><a/>",
            (1, 13),
        ),
        (
            Refusal::DoubleHyphen,
            "\u{feff}<!-- \u{e9}",
            "-- --><a/>",
            (1, 7),
        ),
        (
            Refusal::ContentModel,
            "<!DOCTYPE a [\r<!ELEMENT b (c,d",
            "|e)>]><a/>",
            (2, 17),
        ),
        (
            Refusal::LessThan,
            "<!DOCTYPE a [\r\n<!ATTLIST b c CDATA '\u{e9}",
            "<'>]><a/>",
            (2, 23),
        ),
        (
            Refusal::IllegalReference,
            "<!DOCTYPE a [<!ENTITY b '",
            "&#0;'>]><a/>",
            (1, 26),
        ),
        (
            Refusal::DeclarationValue,
            "<?xml version='",
            "2.0'?><a/>",
            (1, 16),
        ),
        (
            Refusal::OutOfPlace,
            " ",
            "<?xml version='1.0'?><a/>",
            (1, 2),
        ),
        (
            Refusal::OutOfPlace,
            "<!DOCTYPE a>\n",
            "<!DOCTYPE a><a/>",
            (2, 1),
        ),
    ];
    for (why, before, after, (line, column)) in rows {
        let text = format!("{before}{after}");
        let fault = refused(text.as_bytes());
        assert_eq!(fault.refusal(), *why, "{text}");
        assert_eq!(fault.offset(), before.len(), "{text}");
        assert_eq!((fault.line(), fault.column()), (*line, *column), "{text}");
        assert_eq!(fault.opened(), None, "{text}");
    }
}

/// A document in three pieces: it does not end what the second opens, or is refused where the second ends.
#[test]
fn what_does_not_end() {
    let rows: &[(Refusal, &str, &str, &str)] = &[
        (Refusal::Unterminated, "", "<!-- b", ""),
        (Refusal::Unterminated, " ", "<?b ?", ""),
        (Refusal::Unterminated, "", "<?xml version='1.0'", ""),
        (Refusal::Unterminated, "", "<!DOCTYPE a", ""),
        (
            Refusal::Unterminated,
            "",
            "<!DOCTYPE a [<!ELEMENT b EMPTY>",
            "",
        ),
        (Refusal::Unterminated, "<!DOCTYPE a [", "<!ELEMENT b (c", ""),
        (Refusal::Unterminated, "<!DOCTYPE a SYSTEM ", "'b><a/>", ""),
        (Refusal::Unterminated, "<!DOCTYPE a> ", "<", ""),
        (
            Refusal::IllegalCharacter,
            "<!DOCTYPE a SYSTEM ",
            "\"b",
            "\u{1}\"><a/>",
        ),
        (
            Refusal::IllegalCharacter,
            "<!DOCTYPE a>",
            "<!-- b",
            "\u{ffff} --><a/>",
        ),
    ];
    for (why, before, open, after) in rows {
        let text = format!("{before}{open}{after}");
        let fault = refused(text.as_bytes());
        assert_eq!(fault.refusal(), *why, "{text}");
        assert_eq!(fault.opened(), Some(before.len()), "{text}");
        assert_eq!(fault.offset(), before.len() + open.len(), "{text}");
    }
}

#[test]
fn a_document_without_a_root() {
    for text in [
        "",
        "\u{feff}",
        "\n\n",
        "<?xml version='1.0'?>\n<!-- b -->\n",
        "<!DOCTYPE a>",
    ] {
        let fault = refused(text.as_bytes());
        assert_eq!(fault.refusal(), Refusal::Unterminated, "{text:?}");
        assert_eq!(
            (fault.offset(), fault.opened()),
            (text.len(), None),
            "{text:?}"
        );
    }
}

#[test]
fn encodings() {
    let named = |name: &str, rest: &[u8]| {
        let mut text = format!("<?xml version='1.0' encoding='{name}'?>").into_bytes();
        text.extend_from_slice(rest);
        checked(&text).map_err(|fault| (fault.refusal(), fault.offset()))
    };
    let start = "<?xml version='1.0' encoding='".len();
    for name in [
        "UTF-8",
        "utf-8",
        "US-ASCII",
        "ISO-8859-1",
        "iso-8859-16",
        "Windows-1252",
    ] {
        assert!(named(name, b"<a>\xe9").is_ok(), "{name}");
    }
    for name in [
        "UTF-16",
        "UTF8",
        "ISO-8859-17",
        "windows-1259",
        "EBCDIC-CP-US",
        "Shift_JIS",
    ] {
        assert_eq!(
            named(name, b"<a/>"),
            Err((Refusal::NotUtf8, start)),
            "{name}"
        );
    }
    // a letter of another encoding is none of UTF-8; one of UTF-8 is another one there
    let behind = |name: &str| start + name.len() + "'?><!-- ".len();
    assert_eq!(
        named("UTF-8", b"<!-- \xe9 --><a/>"),
        Err((Refusal::NotUtf8, behind("UTF-8")))
    );
    assert_eq!(
        named("ISO-8859-1", b"<!-- \xe9 --><a/>"),
        Err((Refusal::NotUtf8, behind("ISO-8859-1")))
    );
    assert_eq!(
        named("ISO-8859-1", "<!-- \u{e9} --><a/>".as_bytes()),
        Err((Refusal::NotUtf8, behind("ISO-8859-1")))
    );
    assert!(named("UTF-8", "<!-- \u{e9} --><a/>".as_bytes()).is_ok());
    for wide in [
        &b"\xff\xfe<\0a\0"[..],
        b"\xfe\xff\0<\0a",
        b"<\0a\0",
        b"\0<\0a",
        b"\0\0\0<",
    ] {
        let fault = refused(wide);
        assert_eq!(
            (fault.refusal(), fault.offset()),
            (Refusal::NotUtf8, 0),
            "{wide:?}"
        );
    }
}

#[test]
fn only_the_doctype_has_a_limit() {
    // so many bytes before the DOCTYPE, and so many in its text, four of which are no spaces in the middle
    let with = |before: usize, within: usize| {
        let spaces = |count| " ".repeat(count);
        format!("{}<!DOCTYPE a{}[]><a/>", spaces(before), spaces(within - 4))
    };
    let text = with(LIMIT + 1, LIMIT);
    let doctype = accepted(text.as_bytes()).doctype().expect("a DOCTYPE");
    assert_eq!(doctype, LIMIT + 10..2 * LIMIT + 10);
    let fault = refused(with(3, LIMIT + 1).as_bytes());
    assert_eq!((fault.refusal(), fault.offset()), (Refusal::TooLong, 3));
}

#[test]
fn a_fault_in_words() {
    let fault = refused(b"<!DOCTYPE a\n  SYSTEM b><a/>");
    assert_eq!(fault.to_string(), "2:10: a quoted literal is missing");
    let error: Box<dyn std::error::Error> = Box::new(fault);
    assert_eq!(error.to_string(), fault.to_string());
    assert_eq!(Refusal::from(fault), Refusal::LiteralMissing);
}
