use crate::refusal::{verdict, Refusal};
use crate::sys;

/// No longer text is looked at.
pub const LIMIT: usize = 1_048_576;

/// Every character is one that XML allows (production 2).
///
/// ```
/// use moxkeldi::{check_chars, Refusal};
/// assert_eq!(check_chars("σῶμα".as_bytes()), Ok(()));
/// assert_eq!(check_chars(b"a\x01b"), Err(Refusal::IllegalCharacter));
/// ```
pub fn check_chars(text: &[u8]) -> Result<(), Refusal> {
    verdict(sys::check_chars(text))
}

/// Character data between tags: allowed characters, no `]]>`, character references in order.
///
/// ```
/// use moxkeldi::{check_text, Refusal};
/// assert_eq!(check_text(b"&#169; 2026"), Ok(()));
/// assert_eq!(check_text(b"a]]>b"), Err(Refusal::CdataEnd));
/// ```
pub fn check_text(text: &[u8]) -> Result<(), Refusal> {
    verdict(sys::check_text(text))
}

/// An attribute's value, without its quotes: allowed characters, no `<`, character references in order.
///
/// ```
/// use moxkeldi::{check_attr_value, Refusal};
/// assert_eq!(check_attr_value(b"it's \"quoted\""), Ok(()));
/// assert_eq!(check_attr_value(b"a<b"), Err(Refusal::LessThan));
/// ```
pub fn check_attr_value(text: &[u8]) -> Result<(), Refusal> {
    verdict(sys::check_attr_value(text))
}

/// Only the character references of a text.
///
/// ```
/// use moxkeldi::{check_char_refs, Refusal};
/// assert_eq!(check_char_refs(b"&#65; &#x41; &amp;"), Ok(()));
/// assert_eq!(check_char_refs(b"&#X41;"), Err(Refusal::BadReference));
/// assert_eq!(check_char_refs(b"&#4294967361;"), Err(Refusal::IllegalReference));
/// ```
pub fn check_char_refs(text: &[u8]) -> Result<(), Refusal> {
    verdict(sys::check_char_refs(text))
}

/// The whole text is one name (production 5), with the letters of XML 1.0's Appendix B.
///
/// ```
/// use moxkeldi::{check_name, Refusal};
/// assert_eq!(check_name(b"job:datum"), Ok(()));
/// assert_eq!(check_name(b"1st"), Err(Refusal::BadName));
/// ```
pub fn check_name(text: &[u8]) -> Result<(), Refusal> {
    verdict(sys::check_name(text))
}

/// [`check_name`] by the names of [the fifth edition](crate#names).
///
/// ```
/// use moxkeldi::{check_name, check_name_fifth, Refusal};
/// assert_eq!(check_name_fifth("ᎠᎹ".as_bytes()), Ok(()));
/// assert_eq!(check_name("ᎠᎹ".as_bytes()), Err(Refusal::BadName));
/// for both in [check_name, check_name_fifth] {
///     assert_eq!(both("eau·1".as_bytes()), Ok(()));
/// }
/// ```
pub fn check_name_fifth(text: &[u8]) -> Result<(), Refusal> {
    verdict(sys::check_name_fifth(text))
}

/// A DOCTYPE: the text between `<!DOCTYPE` and its closing `>`, with the internal subset and every declaration in it.
///
/// It does not look for characters that XML does not allow; [`check_chars`] does. [`Gate::doctype`](crate::Gate::doctype) makes both
/// checks.
///
/// ```
/// use moxkeldi::{check_doctype, Refusal};
/// assert_eq!(check_doctype(b" job [<!ELEMENT job (leg+)>]"), Ok(()));
/// assert_eq!(check_doctype(b" job [<!ELEMENT job (a,b|c)>]"), Err(Refusal::ContentModel));
/// ```
pub fn check_doctype(text: &[u8]) -> Result<(), Refusal> {
    verdict(sys::check_doctype(text))
}

/// [`check_doctype`] by the names of [the fifth edition](crate#names).
///
/// ```
/// use moxkeldi::{check_doctype, check_doctype_fifth, Refusal};
/// let layers = " job [<!ELEMENT ᎠᎹ EMPTY>]".as_bytes();
/// assert_eq!(check_doctype_fifth(layers), Ok(()));
/// assert_eq!(check_doctype(layers), Err(Refusal::BadName));
/// for both in [check_doctype, check_doctype_fifth] {
///     assert_eq!(both(b" job [<!ELEMENT water EMPTY>]"), Ok(()));
/// }
/// ```
pub fn check_doctype_fifth(text: &[u8]) -> Result<(), Refusal> {
    verdict(sys::check_doctype_fifth(text))
}

/// An XML declaration: the text between `<?` and `?>`.
///
/// ```
/// use moxkeldi::{check_declaration, Refusal};
/// assert_eq!(check_declaration(b"xml version=\"1.0\" encoding='UTF-8'"), Ok(()));
/// assert_eq!(check_declaration(b"xml version=\"2.0\""), Err(Refusal::DeclarationValue));
/// ```
pub fn check_declaration(text: &[u8]) -> Result<(), Refusal> {
    verdict(sys::check_declaration(text))
}

/// The bytes are UTF-8, and at most [`LIMIT`] of them.
///
/// ```
/// use moxkeldi::{check_utf8, Refusal};
/// assert_eq!(check_utf8("é".as_bytes()), Ok(()));
/// assert_eq!(check_utf8(b"\xed\xa0\x80"), Err(Refusal::NotUtf8));
/// ```
pub fn check_utf8(text: &[u8]) -> Result<(), Refusal> {
    verdict(sys::check_utf8(text))
}

/// Whether the whole text is a name without a colon, with the letters of Appendix B. Only [`Refusal::TooLong`] and
/// [`Refusal::NotUtf8`] are errors here.
///
/// ```
/// use moxkeldi::is_ncname;
/// assert_eq!(is_ncname(b"datum"), Ok(true));
/// assert_eq!(is_ncname(b"job:datum"), Ok(false));
/// ```
pub fn is_ncname(text: &[u8]) -> Result<bool, Refusal> {
    let (number, yes) = sys::is_ncname(text);
    verdict(number).map(|()| yes)
}
