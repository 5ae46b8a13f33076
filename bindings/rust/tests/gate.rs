//! Sequences of calls on one record.
use moxkeldi::{Doctype, Gate, Phase, Refusal};

const DECLARATION: &[u8] = b"xml version=\"1.0\"";

/// started, seen, open, refused.
fn record(gate: &Gate) -> (bool, bool, bool, u16) {
    (gate.started(), gate.seen(), gate.open(), gate.refused())
}

#[test]
fn a_new_record() {
    assert_eq!(record(&Gate::new()), (false, false, false, 0));
    assert_eq!(
        format!("{:?}", Gate::new()),
        "Gate { started: false, seen: false, open: false, refused: 0 }"
    );
}

#[test]
fn declaration_then_doctype() {
    let mut gate = Gate::new();
    assert_eq!(gate.decl(DECLARATION), Ok(()));
    assert_eq!(record(&gate), (true, false, false, 0));
    assert_eq!(gate.doctype(Phase::Prolog, b"a"), Ok(Doctype::Checked));
    assert_eq!(record(&gate), (true, true, false, 0));
    assert_eq!(gate.doctype(Phase::Prolog, b"a"), Err(Refusal::OutOfPlace));
    assert_eq!(gate.decl(DECLARATION), Err(Refusal::OutOfPlace));
    assert_eq!(record(&gate), (true, true, false, 2));
}

#[test]
fn an_open_doctype() {
    let mut gate = Gate::new();
    assert_eq!(gate.doctype(Phase::Prolog, b"a b["), Ok(Doctype::Open));
    assert_eq!(record(&gate), (true, true, true, 0));
    assert_eq!(gate.decl(DECLARATION), Err(Refusal::OutOfPlace));
    assert_eq!(record(&gate), (true, true, true, 1));
}

#[test]
fn a_refused_character_and_a_wrong_phase_leave_the_doctype_unseen() {
    let mut gate = Gate::new();
    assert_eq!(
        gate.doctype(Phase::Root, b"a\x01"),
        Err(Refusal::IllegalCharacter)
    );
    assert_eq!(record(&gate), (true, false, false, 1));
    assert_eq!(gate.doctype(Phase::Root, b"a"), Err(Refusal::OutOfPlace));
    assert_eq!(gate.doctype(Phase::Epilog, b"a"), Err(Refusal::OutOfPlace));
    assert_eq!(record(&gate), (true, false, false, 3));
    assert_eq!(gate.doctype(Phase::Prolog, b"a"), Ok(Doctype::Checked));
    assert_eq!(record(&gate), (true, true, false, 3));
}

#[test]
fn a_refused_grammar_counts_as_seen() {
    let mut gate = Gate::new();
    assert_eq!(gate.decl(b"xml"), Err(Refusal::SpaceRequired));
    assert_eq!(gate.doctype(Phase::Prolog, b""), Err(Refusal::BadName));
    assert_eq!(record(&gate), (true, true, false, 2));
    let copy = gate.clone();
    assert_eq!(gate.doctype(Phase::Prolog, b"a"), Err(Refusal::OutOfPlace));
    assert_eq!((copy.refused(), gate.refused()), (2, 3));
}

#[test]
fn not_utf8_changes_nothing_but_the_count() {
    let mut gate = Gate::new();
    assert_eq!(gate.doctype(Phase::Prolog, b"\xff"), Err(Refusal::NotUtf8));
    assert_eq!(gate.decl(b"\xff"), Err(Refusal::NotUtf8));
    assert_eq!(record(&gate), (false, false, false, 2));
    assert_eq!(gate.decl(DECLARATION), Ok(()));
}

#[test]
fn the_count_is_held_at_65535() {
    let mut gate = Gate::new();
    for _ in 0..65_534 {
        assert_eq!(gate.decl(b"\xff"), Err(Refusal::NotUtf8));
    }
    assert_eq!(gate.refused(), 65_534);
    for _ in 0..3 {
        assert_eq!(gate.decl(b"\xff"), Err(Refusal::NotUtf8));
        assert_eq!(gate.refused(), 65_535);
    }
}
