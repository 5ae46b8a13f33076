//! Every number of the table, reached by a text wherever one exists.
use moxkeldi::*;

/// The answer as a number, 0 where accepted.
fn number(result: Result<(), Refusal>) -> u8 {
    result.map_or_else(Refusal::number, |()| 0)
}

fn nested(groups: usize) -> Vec<u8> {
    format!(
        "a[<!ELEMENT b {}c{}>]",
        "(".repeat(groups),
        ")".repeat(groups)
    )
    .into_bytes()
}

#[test]
fn doctypes() {
    let rows: &[(u8, &str)] = &[
        (0, "a"),
        (0, " a"),
        (0, "a[]  "),
        (0, "a[<!ELEMENT b (#PCDATA)*>]"),
        (0, "a[<!ELEMENT !! %p>]"),
        (0, "a[%p;<!ELEMENT>]"),
        (0, "a[<!--x--->]"),
        (0, "a[<!ATTLIST b c IDREFS #IMPLIED>]"),
        (0, "a SYSTEM \"x[y\""),
        (0, "a[<!ENTITY e \"\u{1}\">]"),
        (3, "a SYSTEM"),
        (3, "a[<!ELEMENT b>]"),
        (3, "a PUBLIC \"p\""),
        (4, ""),
        (4, "1"),
        (4, "a[<!ELEMENT b (c|)>]"),
        (4, "a[<??>]"),
        (5, "a[<!ENTITY b:c \"\">]"),
        (5, "a[<?b:c?>]"),
        (6, "a SYSTEM "),
        (6, "a[<!ATTLIST b c CDATA #>]"),
        (7, "a["),
        (7, "a SYSTEM \"x"),
        (7, "a[<!-->]"),
        (7, "a[<!ELEMENT b (c)'>]"),
        (8, "a[<!ELEMENT b >]"),
        (8, "a[<![INCLUDE[]]>]"),
        (8, "a[%p]"),
        (9, "a[]b"),
        (9, "a]"),
        (9, "a[<!ELEMENT b EMPTYX>]"),
        (10, "a PUBLIC \"^\" \"s\""),
        (11, "a[<?Xml?>]"),
        (12, "a[<!--a--b-->]"),
        (13, "a[<!ELEMENT b (#PCDATA|c)>]"),
        (13, "a[<!ELEMENT b (c,d|e)>]"),
        (14, "a[<!ATTLIST b c CDATA \"&#;<\">]"),
        (15, "a[<!ENTITY e \"&#x;\">]"),
        (16, "a[<!ENTITY e \"&#4294967361;\">]"),
    ];
    for (wanted, text) in rows {
        assert_eq!(number(check_doctype(text.as_bytes())), *wanted, "{text}");
        let fifth = check_doctype_fifth(text.as_bytes());
        assert_eq!(number(fifth), *wanted, "{text}, by the fifth edition");
    }
    for check in [check_doctype, check_doctype_fifth] {
        assert_eq!(check(&nested(64)), Ok(()));
        assert_eq!(check(&nested(65)), Err(Refusal::TooDeep));
        assert_eq!(check(b"a[\xff]"), Err(Refusal::NotUtf8));
    }
}

#[test]
fn declarations() {
    let rows: &[(u8, &str)] = &[
        (0, "xml version=\"1.0\""),
        (0, "xml\tversion = '1.99' encoding='u' standalone='no' "),
        (3, "xml version=\"1.0\"encoding=\"u\""),
        (3, "xml"),
        (6, "xml version=1.0"),
        (7, "xml version=\""),
        (8, ""),
        (8, "XML version=\"1.0\""),
        (8, "xml encoding=\"u\""),
        (9, "xml version=\"1.0\" standalone=\"yes\" encoding=\"u\""),
        (9, "xml version=\"1.0\"\u{1}"),
        (17, "xml version=\"1.\""),
        (17, "xml version=\"1.0\" encoding=\"\""),
        (17, "xml version=\"1.0\" standalone=\"Yes\""),
    ];
    for (wanted, text) in rows {
        assert_eq!(
            number(check_declaration(text.as_bytes())),
            *wanted,
            "{text}"
        );
    }
}

#[test]
fn texts_values_and_references() {
    type Check = fn(&[u8]) -> Result<(), Refusal>;
    let rows: &[(Check, u8, &str)] = &[
        (check_chars, 0, "\u{fffd}\u{feff}"),
        (check_chars, 18, "\u{1}"),
        (check_chars, 18, "\u{ffff}"),
        (check_text, 0, "<&"),
        (check_text, 15, "&#;<"),
        (check_text, 15, "&#X41;"),
        (check_text, 16, "&#0;"),
        (check_text, 18, "\u{1}]]>"),
        (check_text, 19, "]]>\u{1}"),
        (check_text, 0, "&#93;]>"),
        (check_attr_value, 0, "\"'"),
        (check_attr_value, 14, "<&#;"),
        (check_attr_value, 15, "&#;<"),
        (check_attr_value, 16, "&#x110000;"),
        (check_attr_value, 18, "\u{b}"),
        (check_char_refs, 0, "&&#65;"),
        (check_char_refs, 0, "&#x10FFFF;"),
        (check_char_refs, 15, "&#65"),
        (check_char_refs, 16, "&#xD800;"),
        (check_name, 0, ":"),
        (check_name, 0, "été"),
        (check_name, 4, "-a"),
        (check_name, 4, "a\u{220}"),
        (check_name_fifth, 0, ":"),
        (check_name_fifth, 0, "été"),
        (check_name_fifth, 4, "-a"),
        (check_name_fifth, 0, "a\u{220}"),
    ];
    for (check, wanted, text) in rows {
        assert_eq!(number(check(text.as_bytes())), *wanted, "{text:?}");
    }
}

#[test]
fn names_without_a_colon() {
    assert_eq!(is_ncname(b"a"), Ok(true));
    assert_eq!(is_ncname("σώμα".as_bytes()), Ok(true));
    for text in ["", ":", "a:b", "1"] {
        assert_eq!(is_ncname(text.as_bytes()), Ok(false), "{text}");
    }
    assert_eq!(is_ncname(b"a\xc3"), Err(Refusal::NotUtf8));
}

#[test]
fn empty_slices() {
    let empty: &[u8] = &[];
    assert_eq!(check_chars(empty), Ok(()));
    assert_eq!(check_text(empty), Ok(()));
    assert_eq!(check_attr_value(empty), Ok(()));
    assert_eq!(check_char_refs(empty), Ok(()));
    assert_eq!(check_utf8(empty), Ok(()));
    assert_eq!(check_name(empty), Err(Refusal::BadName));
    assert_eq!(check_name_fifth(empty), Err(Refusal::BadName));
    assert_eq!(check_doctype(empty), Err(Refusal::BadName));
    assert_eq!(check_doctype_fifth(empty), Err(Refusal::BadName));
    assert_eq!(check_declaration(empty), Err(Refusal::Unexpected));
    assert_eq!(is_ncname(empty), Ok(false));
    assert_eq!(scan(empty), Ok(Scan::NotOpened));
}
