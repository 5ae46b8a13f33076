//! The gate: the Rust's checker, and the count of refusals that is added to it.
use crate::answers::{admit, doctype_number};
use crate::editions::Names;
use crate::numbers::of_wrapped;
use crate::parser::checks::{WellformedChecker, reached};

#[derive(Clone, Copy, PartialEq, Eq, Debug, Default)]
pub struct Record {
    pub started: bool,
    pub seen: bool,
    pub open: bool,
    pub refused: u16,
}

/// As the lists write it after an answer.
pub fn record_text(number: u8, record: &Record) -> String {
    let first = if number == OPEN {
        "open".to_string()
    } else {
        number.to_string()
    };
    format!(
        "{first}/{}/{}/{}/{}",
        record.started as u8, record.seen as u8, record.open as u8, record.refused
    )
}

const OPEN: u8 = 255;

pub struct Gate {
    checker: WellformedChecker,
    refused: u16,
}

impl Gate {
    pub fn new(record: Record) -> Gate {
        let mut gate = Gate {
            checker: WellformedChecker::new(),
            refused: record.refused,
        };
        let [started, seen, open] = reached::flags(&mut gate.checker);
        (*started, *seen, *open) = (record.started, record.seen, record.open);
        gate
    }

    pub fn record(&mut self) -> Record {
        let [started, seen, open] = reached::flags(&mut self.checker);
        Record {
            started: *started,
            seen: *seen,
            open: *open,
            refused: self.refused,
        }
    }

    /// `decl`, or `doctype0` to `doctype2` with the phase as the digit; None where there is no such call.
    pub fn answer(&mut self, call: &str, text: &[u8]) -> Option<u8> {
        match call {
            "decl" => Some(self.decl(text)),
            "doctype0" => Some(self.doctype(0, text)),
            "doctype1" => Some(self.doctype(1, text)),
            "doctype2" => Some(self.doctype(2, text)),
            _ => None,
        }
    }

    fn counted(&mut self, number: u8) -> u8 {
        if number != 0 && number != OPEN {
            self.refused = self.refused.saturating_add(1);
        }
        number
    }

    pub fn decl(&mut self, text: &[u8]) -> u8 {
        let number = match admit(text) {
            Err(number) => number,
            Ok(s) => of_wrapped(self.checker.decl(s)),
        };
        self.counted(number)
    }

    pub fn doctype(&mut self, phase: u8, text: &[u8]) -> u8 {
        let number = match admit(text) {
            Err(number) => number,
            Ok(s) => self.doctype_text(phase, s),
        };
        self.counted(number)
    }

    fn doctype_text(&mut self, phase: u8, text: &str) -> u8 {
        reached::set_phase(&mut self.checker, phase);
        // cleared to see whether this call sets it, and put back after
        let was_open = std::mem::take(reached::flags(&mut self.checker)[2]);
        let number = of_wrapped(self.checker.doctype(text));
        let open = &mut *reached::flags(&mut self.checker)[2];
        let opened = *open;
        *open |= was_open;
        match number {
            0 if opened => OPEN,
            18 | 21 => number,
            // the Rust has checked the grammar, without the limit of 64 groups
            _ => match doctype_number(text, Names::AppendixB) {
                20 => 20,
                same => {
                    assert_eq!(same, number, "check_doctype and doctype differ on {text:?}");
                    number
                }
            },
        }
    }
}
