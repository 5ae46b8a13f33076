use crate::refusal::{verdict, Refusal};
use crate::sys::{self, RawGate};
use std::fmt;

/// Where in the document a DOCTYPE was met.
#[derive(Debug, Clone, Copy, PartialEq, Eq, Hash)]
#[repr(u8)]
pub enum Phase {
    /// Before the root element, the only place where a DOCTYPE may stand.
    Prolog = 0,
    /// Within the root element.
    Root = 1,
    /// After the root element.
    Epilog = 2,
}

/// What [`Gate::doctype`] says of a DOCTYPE that it does not refuse.
#[derive(Debug, Clone, Copy, PartialEq, Eq, Hash)]
#[must_use = "an open DOCTYPE has not been checked"]
pub enum Doctype {
    /// It is well-formed.
    Checked,
    /// Its subset opens and the text ends before it closes, so its grammar was not checked.
    Open,
}

/// "Open" among the library's answers.
const OPEN: u8 = 255;

/// The record of one document's declaration and DOCTYPE.
///
/// Make one for each document and call [`decl`](Gate::decl) and [`doctype`](Gate::doctype) in the order in which the two stand there.
///
/// ```
/// use moxkeldi::{Gate, Phase, Refusal};
///
/// let mut gate = Gate::default();
/// assert_eq!(gate.decl(b"xml version='1.0'"), Ok(()));
/// assert_eq!(gate.decl(b"xml version='1.0'"), Err(Refusal::OutOfPlace));
/// assert!(gate.started() && !gate.seen() && !gate.open());
/// assert_eq!(gate.refused(), 1);
/// # let _ = gate.doctype(Phase::Prolog, b"a");
/// ```
#[derive(Clone, Default)]
pub struct Gate {
    raw: RawGate,
}

impl Gate {
    /// A gate for a new document.
    pub fn new() -> Gate {
        Gate::default()
    }

    /// An XML declaration, the text between `<?` and `?>`. It must be the first thing in the document.
    pub fn decl(&mut self, text: &[u8]) -> Result<(), Refusal> {
        verdict(sys::decl(&mut self.raw, text))
    }

    /// A DOCTYPE, the text between `<!DOCTYPE` and its closing `>`. It must be the only one, and stand in the prolog. It may hold no
    /// character that XML does not allow.
    ///
    /// ```
    /// use moxkeldi::{Doctype, Gate, Phase, Refusal};
    ///
    /// assert_eq!(Gate::new().doctype(Phase::Prolog, b" job [<!ELEMENT job EMPTY>]"), Ok(Doctype::Checked));
    /// assert_eq!(Gate::new().doctype(Phase::Prolog, b" job [<!ENTITY e \"a"), Ok(Doctype::Open));
    /// assert_eq!(Gate::new().doctype(Phase::Epilog, b" job"), Err(Refusal::OutOfPlace));
    /// ```
    pub fn doctype(&mut self, phase: Phase, text: &[u8]) -> Result<Doctype, Refusal> {
        match sys::doctype(&mut self.raw, phase as u8, text) {
            OPEN => Ok(Doctype::Open),
            number => verdict(number).map(|()| Doctype::Checked),
        }
    }

    /// A call has looked at its text, so an XML declaration can no longer be first.
    pub fn started(&self) -> bool {
        self.raw.started != 0
    }

    /// A DOCTYPE has been seen.
    pub fn seen(&self) -> bool {
        self.raw.seen != 0
    }

    /// A DOCTYPE's subset was not closed.
    pub fn open(&self) -> bool {
        self.raw.open != 0
    }

    /// Refusals so far, held at 65,535.
    pub fn refused(&self) -> u16 {
        self.raw.refused
    }
}

impl fmt::Debug for Gate {
    fn fmt(&self, f: &mut fmt::Formatter<'_>) -> fmt::Result {
        f.debug_struct("Gate")
            .field("started", &self.started())
            .field("seen", &self.seen())
            .field("open", &self.open())
            .field("refused", &self.refused())
            .finish()
    }
}
