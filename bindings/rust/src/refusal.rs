use std::fmt;

macro_rules! refusals {
    ($($(#[$doc:meta])* $name:ident = $number:literal, $words:literal;)*) => {
        /// Why a text is refused. [`number`](Refusal::number) is its number in the library's table.
        ///
        /// `TooLong` comes before `NotUtf8` and that before the others; among the others it is the first one met in reading.
        #[derive(Debug, Clone, Copy, PartialEq, Eq, Hash, PartialOrd, Ord)]
        #[non_exhaustive]
        #[repr(u8)]
        pub enum Refusal {
            $($(#[$doc])* $name = $number,)*
        }

        impl Refusal {
            /// Every refusal, in the order of the numbers.
            pub const ALL: &'static [Refusal] = &[$(Refusal::$name),*];

            /// The refusal with this number; `None` for 0, which is no refusal, and for numbers outside the table.
            ///
            /// ```
            /// use moxkeldi::Refusal;
            /// assert_eq!(Refusal::from_number(12), Some(Refusal::DoubleHyphen));
            /// assert_eq!(Refusal::from_number(0), None);
            /// ```
            pub const fn from_number(number: u8) -> Option<Refusal> {
                match number {
                    $($number => Some(Refusal::$name),)*
                    _ => None,
                }
            }

            fn words(self) -> &'static str {
                match self {
                    $(Refusal::$name => $words,)*
                }
            }
        }
    };
}

refusals! {
    /// The text is longer than [`LIMIT`](crate::LIMIT) bytes; of a document, its DOCTYPE is, or its prolog goes on beyond what is held.
    TooLong = 1, "longer than 1,048,576 bytes, or a prolog that goes on beyond what is held";
    /// The bytes are not UTF-8, or the document names another encoding.
    NotUtf8 = 2, "not UTF-8, or another encoding is named";
    /// White space is required.
    SpaceRequired = 3, "white space is required";
    /// A name, a token or an instruction's target is bad or missing.
    BadName = 4, "a name, a token or a target is bad or missing";
    /// A colon in the name of an entity or a notation, or in an instruction's target.
    Colon = 5, "a colon where none may stand";
    /// A quoted literal is missing.
    LiteralMissing = 6, "a quoted literal is missing";
    /// A literal, a declaration, a comment, an instruction or the subset does not end, or a document ends before its root.
    Unterminated = 7, "a literal, a declaration, a comment, an instruction or the subset does not end, or the text ends before the root";
    /// Another sign or word was expected; also a conditional section.
    Unexpected = 8, "another sign or word was expected";
    /// Something is left over at the end.
    Trailing = 9, "something is left over at the end";
    /// A character that a public identifier must not hold.
    PublicId = 10, "a character that a public identifier must not hold";
    /// An instruction with the target xml, in any case.
    ReservedTarget = 11, "the target xml is reserved";
    /// `--` in a comment.
    DoubleHyphen = 12, "-- in a comment";
    /// `,` and `|` in one group; or a mixed model with names that does not end in `)*`.
    ContentModel = 13, "mixed connectors in a content model, or a mixed model with names that does not end in )*";
    /// `<` in an attribute's value or default.
    LessThan = 14, "< in an attribute value or default";
    /// A malformed character reference.
    BadReference = 15, "a malformed character reference";
    /// A reference to a character that XML does not allow.
    IllegalReference = 16, "a reference to a character that XML does not allow";
    /// The value of version, encoding or standalone.
    DeclarationValue = 17, "the value of version, encoding or standalone";
    /// A character that XML does not allow.
    IllegalCharacter = 18, "a character that XML does not allow";
    /// `]]>` in text.
    CdataEnd = 19, "]]> in text";
    /// A 65th open group in a content model.
    TooDeep = 20, "more than 64 open groups in a content model";
    /// The XML declaration is not first, a second DOCTYPE, or a DOCTYPE that is not in the prolog.
    OutOfPlace = 21, "the declaration is not first, or the DOCTYPE is a second one or not in the prolog";
}

impl Refusal {
    /// The number in the library's table, 1 to 21.
    ///
    /// ```
    /// assert_eq!(moxkeldi::Refusal::DoubleHyphen.number(), 12);
    /// ```
    pub const fn number(self) -> u8 {
        self as u8
    }
}

/// The refusal with a number of the table.
///
/// ```
/// use moxkeldi::Refusal;
/// assert_eq!(Refusal::try_from(12), Ok(Refusal::DoubleHyphen));
/// let unknown = Refusal::try_from(22).unwrap_err();
/// assert_eq!(unknown.number(), 22);
/// assert_eq!(unknown.to_string(), "22 is no number of a refusal");
/// ```
impl TryFrom<u8> for Refusal {
    type Error = UnknownNumber;

    fn try_from(number: u8) -> Result<Refusal, UnknownNumber> {
        Refusal::from_number(number).ok_or(UnknownNumber { number })
    }
}

/// A number that stands for no refusal: 0, which says that a text is accepted, and any that the table does not have.
#[derive(Debug, Clone, Copy, PartialEq, Eq, Hash)]
pub struct UnknownNumber {
    number: u8,
}

impl UnknownNumber {
    /// The number.
    pub const fn number(&self) -> u8 {
        self.number
    }
}

impl fmt::Display for UnknownNumber {
    fn fmt(&self, f: &mut fmt::Formatter<'_>) -> fmt::Result {
        write!(f, "{} is no number of a refusal", self.number)
    }
}

impl std::error::Error for UnknownNumber {}

impl fmt::Display for Refusal {
    fn fmt(&self, f: &mut fmt::Formatter<'_>) -> fmt::Result {
        f.write_str(self.words())
    }
}

impl std::error::Error for Refusal {}

/// What the library answered.
///
/// # Panics
/// On a number outside the table, which the library's proof rules out: then a wrong file was linked.
pub(crate) fn verdict(number: u8) -> Result<(), Refusal> {
    match (number, Refusal::from_number(number)) {
        (0, _) => Ok(()),
        (_, Some(refusal)) => Err(refusal),
        (_, None) => panic!("libmoxkeldi answered {number}, which its table does not have"),
    }
}

#[cfg(test)]
mod tests {
    use super::*;

    #[test]
    fn numbers_go_there_and_back() {
        assert_eq!(Refusal::ALL.len(), 21);
        for (k, refusal) in Refusal::ALL.iter().enumerate() {
            assert_eq!(refusal.number() as usize, k + 1);
            assert_eq!(Refusal::from_number(refusal.number()), Some(*refusal));
            assert_eq!(Refusal::try_from(refusal.number()), Ok(*refusal));
            assert!(!refusal.to_string().is_empty());
        }
        for number in (22..=255).chain([0]) {
            assert_eq!(Refusal::from_number(number), None);
            assert_eq!(Refusal::try_from(number), Err(UnknownNumber { number }));
        }
    }

    #[test]
    fn zero_is_no_refusal() {
        assert_eq!(verdict(0), Ok(()));
        assert_eq!(verdict(21), Err(Refusal::OutOfPlace));
    }

    #[test]
    #[should_panic(expected = "which its table does not have")]
    fn a_number_outside_the_table_stops() {
        let _ = verdict(22);
    }
}
