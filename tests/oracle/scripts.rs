//! Names in scripts that only the fifth edition has, and names with a character from around the ends of its ranges.
use crate::generate::Generator;

#[rustfmt::skip]
const NAMES: &[&str] = &[
    "\u{13a0}\u{13a1}", "\u{1380}", "\u{2c00}\u{2c30}", "\u{10000}a", "\u{e0100}", "\u{220}", "\u{3400}", "\u{200c}", "\u{2070}",
    "\u{f900}", "\u{fdf0}", "\u{fffd}", "\u{37f}", "\u{a000}:b", "a\u{36f}", "a\u{362}b", "b\u{203f}c", "c\u{b7}", "a\u{13a0}-1",
];

/// The ends of the ranges of productions 4 and 4a.
#[rustfmt::skip]
const ENDS: &[u32] = &[
    0x3a, 0x41, 0x5a, 0x5f, 0x61, 0x7a, 0xc0, 0xd6, 0xd8, 0xf6, 0xf8, 0x2ff, 0x370, 0x37d, 0x37f, 0x1fff, 0x200c, 0x200d, 0x2070, 0x218f,
    0x2c00, 0x2fef, 0x3001, 0xd7ff, 0xf900, 0xfdcf, 0xfdf0, 0xfffd, 0x10000, 0xeffff, 0x2d, 0x2e, 0x30, 0x39, 0xb7, 0x300, 0x36f, 0x203f,
    0x2040,
];

impl Generator<'_> {
    /// A name of the fifth edition; now and then one with a character that may be none of a name's.
    pub fn fifth_name(&mut self) -> String {
        let name = self.one(NAMES);
        if !self.random.once_in(8) {
            return name.to_string();
        }
        let c = self.character();
        match self.random.below(3) {
            0 => format!("{c}{name}"),
            1 => format!("{name}{c}"),
            _ => c.to_string(),
        }
    }

    /// The end of a range or a neighbour of it, or any character.
    fn character(&mut self) -> char {
        let code = if self.random.once_in(4) {
            self.random.below(0x110000) as u32
        } else {
            ENDS[self.random.below(ENDS.len())] + self.random.below(3) as u32 - 1
        };
        // a surrogate gives way to what follows the last of them
        char::from_u32(code).unwrap_or('\u{e000}')
    }
}
