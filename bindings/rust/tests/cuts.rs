//! The quick scan on every front part of accepted DOCTYPEs.
use moxkeldi::{check_doctype, scan, Scan};

/// Scans every front part of `before`, `[`, `subset`, `]`, `after` that does not end within a character.
fn scanned_at_every_cut(before: &str, subset: &str, after: &str) {
    let text = format!("{before}[{subset}]{after}");
    assert_eq!(check_doctype(text.as_bytes()), Ok(()), "{text}");
    let open = before.len();
    let close = open + 1 + subset.len();
    for end in (0..=text.len()).filter(|end| text.is_char_boundary(*end)) {
        let wanted = if end <= open {
            Scan::NotOpened
        } else if end <= close {
            Scan::NotClosed
        } else {
            Scan::Closed(close)
        };
        assert_eq!(
            scan(&text.as_bytes()[..end]),
            Ok(wanted),
            "{} bytes of {text}",
            end
        );
    }
}

#[test]
fn every_cut() {
    scanned_at_every_cut("a", "", "");
    scanned_at_every_cut(" a SYSTEM \"x[y]\" ", "<!ELEMENT b (c,(d|e)*)>", " ");
    scanned_at_every_cut(
        "a PUBLIC 'p' \"'[]\"",
        "\n<!-- it's ] \" here --><!ENTITY e ']'>",
        "",
    );
    scanned_at_every_cut(
        "été",
        "<!ATTLIST b c CDATA \"]'é]\" d (e|f) 'f'>%p;<!ELEMENT %q;>",
        "\t",
    );
    scanned_at_every_cut("a", "<?p data?><!NOTATION n PUBLIC \"-//N\">", "");
}

#[test]
fn without_a_subset_every_cut_is_not_opened() {
    let text = b"a SYSTEM \"[]\"";
    for end in 0..=text.len() {
        assert_eq!(scan(&text[..end]), Ok(Scan::NotOpened));
    }
}

#[test]
fn an_instruction_may_mislead_it() {
    // accepted, and outside what the scan promises: it takes the apostrophe for a quote
    assert_eq!(check_doctype(b"a[<?p it's?>]"), Ok(()));
    assert_eq!(scan(b"a[<?p it's?>]"), Ok(Scan::NotClosed));
}
