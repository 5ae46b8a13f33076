//! The two numbers that stand in front of every call: too long, and not UTF-8.
use moxkeldi::*;

type Check = fn(&[u8]) -> Result<(), Refusal>;

const CHECKS: [Check; 10] = [
    check_chars,
    check_text,
    check_attr_value,
    check_char_refs,
    check_name,
    check_name_fifth,
    check_doctype,
    check_doctype_fifth,
    check_utf8,
    check_declaration,
];

#[test]
fn one_byte_more_is_too_long() {
    let mut text = vec![b'a'; LIMIT];
    for check in &CHECKS[..9] {
        assert_eq!(check(&text), Ok(()));
    }
    assert_eq!(check_declaration(&text), Err(Refusal::Unexpected));
    assert_eq!(is_ncname(&text), Ok(true));
    assert_eq!(scan(&text), Ok(Scan::NotOpened));

    text.push(b'a');
    for check in CHECKS {
        assert_eq!(check(&text), Err(Refusal::TooLong));
    }
    assert_eq!(is_ncname(&text), Err(Refusal::TooLong));
    assert_eq!(scan(&text), Err(Refusal::TooLong));
    let mut gate = Gate::new();
    assert_eq!(gate.decl(&text), Err(Refusal::TooLong));
    assert_eq!(gate.doctype(Phase::Prolog, &text), Err(Refusal::TooLong));
    assert!(!gate.started() && !gate.seen() && !gate.open());
    assert_eq!(gate.refused(), 2);
}

#[test]
fn too_long_comes_before_not_utf8() {
    let text = vec![0xff; LIMIT + 1];
    assert_eq!(check_utf8(&text), Err(Refusal::TooLong));
    assert_eq!(check_utf8(&text[1..]), Err(Refusal::NotUtf8));
}

#[test]
fn not_utf8_comes_second() {
    for check in CHECKS {
        assert_eq!(check(b"\x01\xff"), Err(Refusal::NotUtf8));
    }
    assert_eq!(scan(b"[\xff]"), Err(Refusal::NotUtf8));
}

#[test]
fn a_doctype_of_the_greatest_length() {
    let mut text = b"a[".to_vec();
    text.resize(LIMIT - 1, b' ');
    text.push(b']');
    assert_eq!(check_doctype(&text), Ok(()));
    assert_eq!(scan(&text), Ok(Scan::Closed(LIMIT - 1)));
}
