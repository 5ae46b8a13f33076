//! Checks of an XML document's prolog: its XML declaration, its DOCTYPE, and what stands around them.
//!
//! ```
//! let job = b"<?xml version=\"1.0\"?>
//! <!DOCTYPE job [<!ATTLIST waypoint reference CDATA \"WGS84\">]>
//! <job><waypoint/></job>";
//! let document = moxkeldi::check_document(job)?;
//! assert_eq!(document.root(), 83);
//!
//! let fault = moxkeldi::check_document(b"<!DOCTYPE job SYSTEM job.dtd>\n<job/>").unwrap_err();
//! assert_eq!(fault.to_string(), "1:22: a quoted literal is missing");
//! # Ok::<(), moxkeldi::Fault>(())
//! ```
//!
//! The work is done by libmoxkeldi.a, a port of the declaration part of fastxml that is proved to end and to stay within its
//! arguments on all bytes, and to accept exactly what a grammar written from W3C XML 1.0 derives. This crate is the thin safe layer
//! over it. The proof does not cover this layer; its tests do.
//!
//! The other calls are for those who have cut a document into its parts already:
//!
//! ```
//! use moxkeldi::{check_doctype, Refusal};
//!
//! // the text between `<!DOCTYPE` and its closing `>`
//! assert_eq!(check_doctype(b" job SYSTEM \"job.dtd\""), Ok(()));
//! assert_eq!(check_doctype(b" job [<!ATTLIST job datum CDATA \"&#0;\">]"), Err(Refusal::IllegalReference));
//! ```
//!
//! Each check has a form that also tells where the text is refused:
//!
//! ```
//! let refused = moxkeldi::check_doctype_at(b" job SYSTEM job.dtd").unwrap_err();
//! assert_eq!(refused.offset(), 12);
//! assert_eq!(refused.to_string(), "a quoted literal is missing, at byte 12");
//! ```
//!
//! A document's declaration and DOCTYPE together go through a [`Gate`]:
//!
//! ```
//! use moxkeldi::{Doctype, Gate, Phase};
//!
//! let mut gate = Gate::default();
//! gate.decl(b"xml version=\"1.0\"")?;
//! assert_eq!(gate.doctype(Phase::Prolog, b" job")?, Doctype::Checked);
//! # Ok::<(), moxkeldi::Refusal>(())
//! ```
//!
//! Texts are bytes, since "not UTF-8" is one of the answers. No text of more than [`LIMIT`] bytes is looked at; of a document, no longer
//! DOCTYPE.
//!
//! The build takes the archive that the environment variable `MOXKELDI_LIB` names (a whole path), or runs `rt lib` in `crates/moxkeldi`.
//!
//! # Names
//!
//! Names are those of Appendix B of XML 1.0's earlier editions. The calls with `_fifth` are the calls of the same name without it, but
//! for the names, which are those of the fifth edition (productions 4, 4a and 5): many more scripts, among them Ethiopic, Khmer and
//! Cherokee, and all of U+10000 to U+EFFFF. Use them where names need these and the programs that read the document afterwards know
//! them too; one that goes by the earlier editions does not.
//!
//! What the call without `_fifth` accepts, the one with it accepts too. It may read less of it: a declaration with a `%` directly before
//! a letter that only the fifth edition has is only delimited there, since a parameter entity may be meant. The [`Gate`] and
//! [`is_ncname`] stay on Appendix B.
//!
//! ```
//! use moxkeldi::{check_document, check_document_fifth, Refusal};
//!
//! let job = "<!DOCTYPE ᎠᎹ><ᎠᎹ/>".as_bytes();
//! assert_eq!(check_document(job).unwrap_err().refusal(), Refusal::BadName);
//! assert_eq!(check_document_fifth(job)?.root(), 17);
//! # Ok::<(), moxkeldi::Fault>(())
//! ```

#![deny(missing_docs)]
#![deny(unsafe_code)]

mod checks;
mod document;
mod gate;
mod places;
mod refusal;
mod scan;
mod sys;

pub use checks::{
    check_attr_value, check_char_refs, check_chars, check_declaration, check_doctype,
    check_doctype_fifth, check_name, check_name_fifth, check_text, check_utf8, is_ncname, LIMIT,
};
pub use document::{check_document, check_document_fifth, Document, Fault};
pub use gate::{Doctype, Gate, Phase};
pub use places::{
    check_attr_value_at, check_char_refs_at, check_chars_at, check_declaration_at,
    check_doctype_at, check_doctype_fifth_at, check_name_at, check_name_fifth_at, check_text_at,
    Refused,
};
pub use refusal::{Refusal, UnknownNumber};
pub use scan::{scan, Scan};
