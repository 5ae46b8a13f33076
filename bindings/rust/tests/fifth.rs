//! Names that only the fifth edition has, or neither. What both editions have the same is in the other tests.
use moxkeldi::*;

/// Production 4.
fn begins_a_name(c: char) -> bool {
    matches!(c,
        ':' | 'A'..='Z' | '_' | 'a'..='z' | '\u{c0}'..='\u{d6}' | '\u{d8}'..='\u{f6}' | '\u{f8}'..='\u{2ff}'
        | '\u{370}'..='\u{37d}' | '\u{37f}'..='\u{1fff}' | '\u{200c}'..='\u{200d}' | '\u{2070}'..='\u{218f}'
        | '\u{2c00}'..='\u{2fef}' | '\u{3001}'..='\u{d7ff}' | '\u{f900}'..='\u{fdcf}' | '\u{fdf0}'..='\u{fffd}'
        | '\u{10000}'..='\u{effff}')
}

/// Production 4a.
fn continues_a_name(c: char) -> bool {
    begins_a_name(c)
        || matches!(c, '-' | '.' | '0'..='9' | '\u{b7}' | '\u{300}'..='\u{36f}' | '\u{203f}'..='\u{2040}')
}

#[test]
fn every_character() {
    for c in '\0'..=char::MAX {
        for (text, wanted) in [
            (c.to_string(), begins_a_name(c)),
            (format!("a{c}"), continues_a_name(c)),
        ] {
            let answer = if wanted {
                Ok(())
            } else {
                Err(Refusal::BadName)
            };
            assert_eq!(check_name_fifth(text.as_bytes()), answer, "{text:?}");
            if check_name(text.as_bytes()).is_ok() {
                assert!(wanted, "{text:?} by Appendix B");
            }
        }
    }
}

/// A refusal and its place.
type Answer = Result<(), (Refusal, usize)>;

/// The form with a place, and the one without, which has to answer alike.
fn answered(
    with_place: fn(&[u8]) -> Result<(), Refused>,
    plain: fn(&[u8]) -> Result<(), Refusal>,
    text: &str,
    wanted: Answer,
) {
    let said = with_place(text.as_bytes());
    assert_eq!(
        said.map_err(|no| (no.refusal(), no.offset())),
        wanted,
        "{text}"
    );
    assert_eq!(
        plain(text.as_bytes()),
        said.map_err(Refusal::from),
        "{text}"
    );
}

#[test]
fn names() {
    let bad = |place| Err((Refusal::BadName, place));
    // by Appendix B, and by the fifth edition
    let rows: &[(&str, Answer, Answer)] = &[
        ("\u{13a0}", bad(0), Ok(())),
        ("\u{10000}\u{effff}", bad(0), Ok(())),
        ("a\u{203f}", bad(1), Ok(())),
        ("a\u{13a0}/b", bad(1), bad(4)),
        ("\u{203f}a", bad(0), bad(0)),
        ("a\u{d7}", bad(1), bad(1)),
        ("a\u{f0000}", bad(1), bad(1)),
    ];
    for (text, by_appendix_b, by_fifth) in rows {
        answered(check_name_at, check_name, text, *by_appendix_b);
        answered(check_name_fifth_at, check_name_fifth, text, *by_fifth);
    }
}

#[test]
fn doctypes() {
    let bad = |place| Err((Refusal::BadName, place));
    // by Appendix B, and by the fifth edition
    let rows: &[(&str, Answer, Answer)] = &[
        ("\u{13a0}", bad(0), Ok(())),
        (
            "a[<!ELEMENT \u{10000} (\u{13a0}|\u{effff})*>]",
            bad(12),
            Ok(()),
        ),
        (
            "a[<!ATTLIST b \u{13a0} (\u{203f}) #IMPLIED>]",
            bad(14),
            Ok(()),
        ),
        ("a[<?\u{13a0}?>]", bad(4), Ok(())),
        ("a[%\u{13a0};<!ELEMENT>]", bad(3), Ok(())),
        (
            "a[<!ENTITY \u{13a0}:b ''>]",
            bad(11),
            Err((Refusal::Colon, 14)),
        ),
        (
            "a[<!ELEMENT \u{13a0} (b,c|d)>]",
            bad(12),
            Err((Refusal::ContentModel, 20)),
        ),
        ("a[<!ELEMENT \u{d7} EMPTY>]", bad(12), bad(12)),
        ("a[<!ELEMENT \u{f0000} EMPTY>]", bad(12), bad(12)),
        // a % before such a letter begins a reference by the fifth edition alone, so the declaration is not read
        (
            "a[<!ATTLIST b c CDATA '%\u{13a0}<'>]",
            Err((Refusal::LessThan, 27)),
            Ok(()),
        ),
    ];
    for (text, by_appendix_b, by_fifth) in rows {
        answered(check_doctype_at, check_doctype, text, *by_appendix_b);
        answered(check_doctype_fifth_at, check_doctype_fifth, text, *by_fifth);
    }
}

/// Documents that only the fifth edition accepts, in two pieces: by Appendix B they are refused where the second begins. The root begins
/// with the last `<`.
#[test]
fn documents() {
    for (before, after) in [
        ("<", "\u{13a0}/>"),
        ("<!-- b -->\n<?", "\u{10000} b?><a/>"),
        ("<!DOCTYPE ", "\u{13a0}>\n<\u{13a0}/>"),
        ("<!DOCTYPE a [<!ELEMENT b (c|", "\u{effff})>]><a/>"),
    ] {
        let text = format!("{before}{after}");
        let fault = check_document(text.as_bytes()).expect_err(&text);
        assert_eq!(
            (fault.refusal(), fault.offset()),
            (Refusal::BadName, before.len()),
            "{text}"
        );
        let document = check_document_fifth(text.as_bytes()).expect(&text);
        assert_eq!(Some(document.root()), text.rfind('<'), "{text}");
        assert_eq!(
            document.doctype().is_some(),
            text.contains("DOCTYPE"),
            "{text}"
        );
    }
}

#[test]
fn documents_that_the_fifth_edition_refuses() {
    for (before, after, why, (line, column)) in [
        ("<", "\u{d7}/>", Refusal::BadName, (1, 2)),
        ("\n<", "\u{f0000}/>", Refusal::BadName, (2, 2)),
        (
            "<!DOCTYPE \u{13a0}\n SYSTEM ",
            "b><a/>",
            Refusal::LiteralMissing,
            (2, 9),
        ),
    ] {
        let text = format!("{before}{after}");
        let fault = check_document_fifth(text.as_bytes()).expect_err(&text);
        assert_eq!(
            (fault.refusal(), fault.offset()),
            (why, before.len()),
            "{text}"
        );
        assert_eq!((fault.line(), fault.column()), (line, column), "{text}");
    }
}

#[test]
fn accepted_by_both_and_read_by_one() {
    let text = "<!DOCTYPE a [<!ENTITY b '%\u{13a0}'>]><a/>".as_bytes();
    let (old, fifth) = (
        check_document(text).unwrap(),
        check_document_fifth(text).unwrap(),
    );
    assert_eq!((old.unread(), fifth.unread()), (0, 1));
    assert_eq!((old.root(), old.doctype()), (fifth.root(), fifth.doctype()));
}

#[test]
fn the_rest_stays_on_appendix_b() {
    let name = "\u{13a0}".as_bytes();
    assert_eq!(is_ncname(name), Ok(false));
    assert_eq!(
        Gate::new().doctype(Phase::Prolog, name),
        Err(Refusal::BadName)
    );
}
