//! Whose names a text is read with. Appendix B's are the unchanged Rust's. For the fifth edition's there is no Rust: the two classes
//! stand here, from productions 4 and 4a of W3C XML 1.0, and `build` has a copy of wellformed.rs ask for them.
use crate::{fifth, parser};

#[derive(Clone, Copy, PartialEq, Eq)]
pub enum Names {
    AppendixB,
    FifthEdition,
}

impl Names {
    /// Whether a name may begin with this character.
    pub fn begin_with(self, c: char) -> bool {
        match self {
            Names::AppendixB => parser::wellformed::is_name_start_char(c),
            Names::FifthEdition => fifth::wellformed::is_name_start_char(c),
        }
    }

    /// Whether a name may go on with this character.
    pub fn go_on_with(self, c: char) -> bool {
        match self {
            Names::AppendixB => parser::wellformed::is_name_char(c),
            Names::FifthEdition => fifth::wellformed::is_name_char(c),
        }
    }
}

/// Production 4, in its order.
#[rustfmt::skip]
pub fn name_start_char(c: char) -> bool {
    matches!(c,
        ':' | 'A'..='Z' | '_' | 'a'..='z' | '\u{C0}'..='\u{D6}' | '\u{D8}'..='\u{F6}' | '\u{F8}'..='\u{2FF}'
        | '\u{370}'..='\u{37D}' | '\u{37F}'..='\u{1FFF}' | '\u{200C}'..='\u{200D}' | '\u{2070}'..='\u{218F}'
        | '\u{2C00}'..='\u{2FEF}' | '\u{3001}'..='\u{D7FF}' | '\u{F900}'..='\u{FDCF}' | '\u{FDF0}'..='\u{FFFD}'
        | '\u{10000}'..='\u{EFFFF}')
}

/// Production 4a: production 4, and what it adds.
#[rustfmt::skip]
pub fn name_char(c: char) -> bool {
    name_start_char(c)
        || matches!(c, '-' | '.' | '0'..='9' | '\u{B7}' | '\u{300}'..='\u{36F}' | '\u{203F}'..='\u{2040}')
}
