use crate::refusal::{verdict, Refusal};
use crate::sys;
use std::fmt;

/// Why a text is refused, and where.
///
/// ```
/// let refused = moxkeldi::check_doctype_at(b" job [<!ELEMENT job (a,b|c)>]").unwrap_err();
/// assert_eq!(refused.refusal(), moxkeldi::Refusal::ContentModel);
/// assert_eq!(refused.offset(), 24); // at the `|`
/// ```
#[derive(Debug, Clone, Copy, PartialEq, Eq, Hash)]
pub struct Refused {
    refusal: Refusal,
    offset: usize,
}

impl Refused {
    /// Why.
    pub const fn refusal(&self) -> Refusal {
        self.refusal
    }

    /// How many bytes of the text stand before the place; never more than the text has.
    ///
    /// What is missing is refused where it was expected; what is wrong, where it stands (a character reference at its `&`); what does
    /// not end, directly behind the sign that opened it, but a subset at the text's end. Bytes that are not UTF-8 are refused where
    /// the first of them stands, a text that is too long at 0.
    pub const fn offset(&self) -> usize {
        self.offset
    }
}

impl fmt::Display for Refused {
    fn fmt(&self, f: &mut fmt::Formatter<'_>) -> fmt::Result {
        write!(f, "{}, at byte {}", self.refusal, self.offset)
    }
}

impl std::error::Error for Refused {}

impl From<Refused> for Refusal {
    fn from(refused: Refused) -> Refusal {
        refused.refusal
    }
}

fn located((number, offset): (u8, usize)) -> Result<(), Refused> {
    verdict(number).map_err(|refusal| Refused { refusal, offset })
}

macro_rules! with_a_place {
    ($($name:ident, $plain:literal, $refused:literal, $refusal:ident, $offset:literal;)*) => {
        $(
            #[doc = concat!("[`", $plain, "`](crate::", $plain, "), with the place of the refusal.")]
            ///
            /// ```
            /// use moxkeldi::Refusal;
            #[doc = concat!("let refused = moxkeldi::", stringify!($name), "(", stringify!($refused), ").unwrap_err();")]
            #[doc = concat!("assert_eq!((refused.refusal(), refused.offset()), (Refusal::", stringify!($refusal), ", ", stringify!($offset), "));")]
            /// ```
            pub fn $name(text: &[u8]) -> Result<(), Refused> {
                located(sys::$name(text))
            }
        )*
    };
}

with_a_place! {
    check_chars_at, "check_chars", b"ab\x01", IllegalCharacter, 2;
    check_text_at, "check_text", b"a]]>b", CdataEnd, 1;
    check_attr_value_at, "check_attr_value", b"a&#65;<b", LessThan, 6;
    check_char_refs_at, "check_char_refs", b"&#65; &#X41;", BadReference, 6;
    check_name_at, "check_name", b"job datum", BadName, 3;
    check_doctype_at, "check_doctype", b" job SYSTEM job.dtd", LiteralMissing, 12;
    check_declaration_at, "check_declaration", b"xml version=\"2.0\"", DeclarationValue, 13;
}

/// [`check_name_fifth`](crate::check_name_fifth), with the place of the refusal.
///
/// ```
/// use moxkeldi::{check_name_at, check_name_fifth_at};
/// assert_eq!(check_name_fifth_at("layer.ᎠᎹ".as_bytes()), Ok(()));
/// assert_eq!(check_name_at("layer.ᎠᎹ".as_bytes()).unwrap_err().offset(), 6);
/// assert_eq!(check_name_fifth_at("layer.ᎠᎹ ".as_bytes()).unwrap_err().offset(), 12);
/// for both in [check_name_at, check_name_fifth_at] {
///     assert_eq!(both(b"layer.water"), Ok(()));
/// }
/// ```
pub fn check_name_fifth_at(text: &[u8]) -> Result<(), Refused> {
    located(sys::check_name_fifth_at(text))
}

/// [`check_doctype_fifth`](crate::check_doctype_fifth), with the place of the refusal.
///
/// ```
/// use moxkeldi::{check_doctype_at, check_doctype_fifth_at};
/// assert_eq!(check_doctype_fifth_at(" ᎠᎹ".as_bytes()), Ok(()));
/// assert_eq!(check_doctype_at(" ᎠᎹ".as_bytes()).unwrap_err().offset(), 1);
/// assert_eq!(check_doctype_fifth_at(" ᎠᎹ SYSTEM job.dtd".as_bytes()).unwrap_err().offset(), 15);
/// for both in [check_doctype_at, check_doctype_fifth_at] {
///     assert_eq!(both(b" water"), Ok(()));
/// }
/// ```
pub fn check_doctype_fifth_at(text: &[u8]) -> Result<(), Refused> {
    located(sys::check_doctype_fifth_at(text))
}
