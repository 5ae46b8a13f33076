use crate::refusal::{verdict, Refusal};
use crate::sys::{self, RawVerdict};
use std::fmt;
use std::ops::Range;

/// A whole document: that it begins with a prolog of XML 1.0, and that an element begins after it.
///
/// The prolog is an XML declaration, comments and instructions, and a DOCTYPE with every declaration in it; all of them may be missing.
/// Nothing after the root's name is looked at. Entities are not expanded, and beyond the grammar and what character references stand for
/// no constraint on well-formedness is checked. A document may have any length; its DOCTYPE may have [`LIMIT`](crate::LIMIT) bytes.
///
/// The text is read as UTF-8, and a byte order mark in front is passed over. A document that names an encoding other than UTF-8 or
/// US-ASCII is refused as [`Refusal::NotUtf8`], but for ISO-8859-1 to -16 and windows-1250 to -1258, which pass as long as the prolog is
/// ASCII.
///
/// ```
/// let job = b"<!DOCTYPE job [<!ATTLIST leg datum CDATA 'WGS84'>]>\n<job/>";
/// let document = moxkeldi::check_document(job)?;
/// assert_eq!(&job[document.root()..], b"<job/>");
/// # Ok::<(), moxkeldi::Fault>(())
/// ```
pub fn check_document(text: &[u8]) -> Result<Document, Fault> {
    judged(sys::check_document(text))
}

/// [`check_document`] by the names of [the fifth edition](crate#names).
///
/// ```
/// use moxkeldi::{check_document, check_document_fifth, Refusal};
/// let job = "<!DOCTYPE job [<!ELEMENT ᎠᎹ EMPTY>]>\n<job/>".as_bytes();
/// assert_eq!(&job[check_document_fifth(job)?.root()..], b"<job/>");
/// assert_eq!(check_document(job).unwrap_err().refusal(), Refusal::BadName);
/// for both in [check_document, check_document_fifth] {
///     assert_eq!(both(b"<!DOCTYPE job [<!ELEMENT water EMPTY>]><job/>")?.root(), 39);
/// }
/// # Ok::<(), moxkeldi::Fault>(())
/// ```
pub fn check_document_fifth(text: &[u8]) -> Result<Document, Fault> {
    judged(sys::check_document_fifth(text))
}

fn judged((number, told): (u8, RawVerdict)) -> Result<Document, Fault> {
    match verdict(number) {
        Ok(()) => Ok(Document {
            root: told.place,
            doctype: (told.has_doctype != 0).then(|| (told.doctype_start, told.doctype_end)),
            unread: told.unread,
        }),
        Err(refusal) => Err(Fault {
            refusal,
            offset: told.place,
            line: told.line,
            column: told.column,
            opened: told.opened,
        }),
    }
}

/// What [`check_document`] or [`check_document_fifth`] says of a document that it accepts.
#[derive(Debug, Clone, Copy, PartialEq, Eq, Hash)]
pub struct Document {
    root: usize,
    doctype: Option<(usize, usize)>,
    unread: usize,
}

impl Document {
    /// How many bytes stand before the root element; the document's prolog.
    pub const fn root(&self) -> usize {
        self.root
    }

    /// Where the DOCTYPE's text stands, what is between `<!DOCTYPE` and its `>`; `None` where the document has no DOCTYPE.
    ///
    /// ```
    /// let job = b"<!DOCTYPE job SYSTEM \"job.dtd\"><job/>";
    /// let doctype = moxkeldi::check_document(job)?.doctype().expect("a DOCTYPE");
    /// assert_eq!(&job[doctype], b" job SYSTEM \"job.dtd\"");
    /// # Ok::<(), moxkeldi::Fault>(())
    /// ```
    pub fn doctype(&self) -> Option<Range<usize>> {
        self.doctype.map(|(start, end)| start..end)
    }

    /// How many of the DOCTYPE's declarations were only delimited, not read, because of parameter entities: what they declare is known
    /// only to whoever expands these.
    ///
    /// ```
    /// let job = b"<!DOCTYPE job [<!ENTITY % more SYSTEM 'more.dtd'> %more; <!ELEMENT job (leg+)>]><job/>";
    /// assert_eq!(moxkeldi::check_document(job)?.unread(), 1);
    /// # Ok::<(), moxkeldi::Fault>(())
    /// ```
    pub const fn unread(&self) -> usize {
        self.unread
    }
}

/// Why a document is refused, and where. It is displayed as `line:column: why`.
///
/// ```
/// let fault = moxkeldi::check_document(b"<?xml version='1.0'?>\n<!DOCTYPE job SYSTEM job.dtd>\n<job/>").unwrap_err();
/// assert_eq!(fault.refusal(), moxkeldi::Refusal::LiteralMissing);
/// assert_eq!((fault.line(), fault.column(), fault.offset()), (2, 22, 43));
/// assert_eq!(fault.to_string(), "2:22: a quoted literal is missing");
/// ```
#[derive(Debug, Clone, Copy, PartialEq, Eq, Hash)]
pub struct Fault {
    refusal: Refusal,
    offset: usize,
    line: usize,
    column: usize,
    opened: usize,
}

impl Fault {
    /// Why.
    pub const fn refusal(&self) -> Refusal {
        self.refusal
    }

    /// How many bytes of the document stand before the place; never more than it has.
    ///
    /// What is missing is refused where it was expected; what is wrong, where it stands; what does not end, at the document's end, or
    /// where something stands that is no character.
    pub const fn offset(&self) -> usize {
        self.offset
    }

    /// The line of the place, from 1. A line ends with CR, LF or CR LF.
    pub const fn line(&self) -> usize {
        self.line
    }

    /// The column of the place, from 1, in characters. A byte order mark counts for none.
    pub const fn column(&self) -> usize {
        self.column
    }

    /// How many bytes stand before the sign that opened what does not end; `None` where nothing was open at the place.
    ///
    /// ```
    /// let fault = moxkeldi::check_document(b"<!-- to be flown\n<job/>").unwrap_err();
    /// assert_eq!(fault.refusal(), moxkeldi::Refusal::Unterminated);
    /// assert_eq!((fault.opened(), fault.offset()), (Some(0), 23));
    /// ```
    pub const fn opened(&self) -> Option<usize> {
        if self.opened == self.offset {
            None
        } else {
            Some(self.opened)
        }
    }
}

impl fmt::Display for Fault {
    fn fmt(&self, f: &mut fmt::Formatter<'_>) -> fmt::Result {
        write!(f, "{}:{}: {}", self.line, self.column, self.refusal)
    }
}

impl std::error::Error for Fault {}

impl From<Fault> for Refusal {
    fn from(fault: Fault) -> Refusal {
        fault.refusal
    }
}
