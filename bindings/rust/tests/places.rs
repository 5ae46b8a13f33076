//! Where a text is refused: texts in two pieces, refused where the second begins.
use moxkeldi::*;

fn refused(
    check: fn(&[u8]) -> Result<(), Refused>,
    read_well: &str,
    from_there: &str,
    why: Refusal,
) {
    let text = format!("{read_well}{from_there}");
    let refused = check(text.as_bytes()).expect_err(&text);
    assert_eq!(refused.refusal(), why, "{text}");
    assert_eq!(refused.offset(), read_well.len(), "{text}");
}

#[test]
fn doctypes() {
    let rows: &[(&str, &str, Refusal)] = &[
        // something missing: where it was expected
        ("a SYSTEM", "", Refusal::SpaceRequired),
        ("a SYSTEM ", "b", Refusal::LiteralMissing),
        (
            "a[<!ATTLIST b\n c CDATA #IMPLIED\n d CDATA",
            "'e'>]",
            Refusal::SpaceRequired,
        ),
        ("a[<!ELEMENT b (#PCDATA|c)", ">]", Refusal::ContentModel),
        ("a[<!ELEMENT é (c)", "d>]", Refusal::Trailing),
        // something wrong: where it stands
        ("a[<!ENTITY e 'd", "&#x;'>]", Refusal::BadReference),
        ("a[<!ENTITY e 'd", "&#0;'>]", Refusal::IllegalReference),
        ("a[<!ATTLIST b c CDATA 'd", "<'>]", Refusal::LessThan),
        ("a PUBLIC 'p", "^' 's'", Refusal::PublicId),
        ("a[<!--b", "--c-->]", Refusal::DoubleHyphen),
        ("a[<!ENTITY b", ":c ''>]", Refusal::Colon),
        ("a[<!ELEMENT b (c,d", "|e)>]", Refusal::ContentModel),
        // something unterminated: directly behind the sign that opened it; a subset at the text's end
        ("a SYSTEM '", "b", Refusal::Unterminated),
        ("a[<!ELEMENT", " b", Refusal::Unterminated),
        ("a[<!--", "b", Refusal::Unterminated),
        ("a[ ", "", Refusal::Unterminated),
    ];
    for (read_well, from_there, why) in rows {
        refused(check_doctype_at, read_well, from_there, *why);
        refused(check_doctype_fifth_at, read_well, from_there, *why);
    }
}

#[test]
fn the_other_checks() {
    refused(
        check_chars_at,
        "a\u{e9}",
        "\u{1}",
        Refusal::IllegalCharacter,
    );
    refused(check_text_at, "a]] ", "]]>", Refusal::CdataEnd);
    refused(check_attr_value_at, "&#60;", "<", Refusal::LessThan);
    refused(
        check_char_refs_at,
        "&#65;",
        "&#1114112;",
        Refusal::IllegalReference,
    );
    refused(check_name_at, "\u{e9}.b", "/c", Refusal::BadName);
    refused(check_name_fifth_at, "\u{e9}.b", "/c", Refusal::BadName);
    refused(
        check_declaration_at,
        "xml version='1.0'",
        "encoding='u'",
        Refusal::SpaceRequired,
    );
}

#[test]
fn the_two_numbers_in_front() {
    for check in [check_name_at, check_name_fifth_at, check_doctype_fifth_at] {
        let refused = check(b"ab\xed\xa0\x80").unwrap_err();
        assert_eq!((refused.refusal(), refused.offset()), (Refusal::NotUtf8, 2));
        let refused = check(&[b'a'; LIMIT + 1]).unwrap_err();
        assert_eq!((refused.refusal(), refused.offset()), (Refusal::TooLong, 0));
        assert_eq!(Refusal::from(refused), Refusal::TooLong);
    }
}

#[test]
fn what_is_accepted_has_no_place() {
    for check in [check_doctype_at, check_doctype_fifth_at] {
        assert_eq!(check(b" job [<!ELEMENT job (leg+)>]"), Ok(()));
    }
    assert_eq!(check_chars_at(b""), Ok(()));
}
