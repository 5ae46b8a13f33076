//! Texts put together from the grammar, with a slip here and there. (Documents are put together in prologs.rs.)
use crate::random::Random;

const NAMES: &[&str] = &[
    "a",
    "b:c",
    "_x",
    "q-1.2",
    "été",
    "Δ",
    "中",
    "x\u{300}y",
    ":",
];
const BAD_NAMES: &[&str] = &[
    "", "1a", "-", "\u{220}", "a b", "%p", "!", "\u{300}", "a\u{2b0}", "\u{13a0}", "a\u{36f}",
];
#[rustfmt::skip]
const VALUES: &[&str] = &[
    "", "x", "some words", "&#65;", "&#x4A;", "&#0065;", "&amp;", "%", "%p;", "100% x", ">", "]", "[", "it's",
    "say \"x\"", "--", "é日", "<", "&#0;", "&#;", "&#X41;", "&#x110000;", "&#4294967361;",
    "&#18446744073709551681;", "\u{1}", "\u{fffe}", "%\u{13a0};", "%\u{10000}", "%\u{203f}", "%\u{37e}",
];
/// Numbers that references are made to.
#[rustfmt::skip]
const POINTS: &[u64] = &[
    0, 0x9, 0x41, 0xE9, 0x3B1, 0xD7FF, 0xD800, 0xE000, 0xFFFD, 0xFFFE, 0x10FFFF, 0x110000, 0x1_0000_0041,
];
const SPACES: &[&str] = &[" ", "\t", "\r\n", "  "];

pub struct Generator<'r> {
    pub random: &'r mut Random,
    /// whether the text is for a call that reads the fifth edition's names
    pub fifth: bool,
}

impl Generator<'_> {
    /// A text for a call.
    pub fn text(&mut self, call: &str) -> String {
        match call.strip_suffix("_fifth").unwrap_or(call) {
            "check_doctype" | "scan" | "doctype0" | "doctype1" | "doctype2" => self.doctype(),
            "check_declaration" | "decl" => self.declaration(),
            "check_name" | "is_ncname" => {
                (0..1 + self.random.below(3)).map(|_| self.name()).collect()
            }
            _ => (0..self.random.below(8))
                .map(|_| self.value() + self.maybe_space())
                .collect(),
        }
    }

    /// A value, or now and then several references without anything between them.
    fn value(&mut self) -> String {
        if self.random.once_in(3) {
            (0..1 + self.random.below(4))
                .map(|_| self.char_ref())
                .collect()
        } else {
            self.one(VALUES).to_string()
        }
    }

    /// A reference of any number of digits, mostly with zeros in front, to a number around a limit; now and then a sign in it is wrong.
    fn char_ref(&mut self) -> String {
        let point = POINTS[self.random.below(POINTS.len())];
        let width = self.random.below(24);
        let mut text = match self.random.below(3) {
            0 => format!("&#x{point:0width$x};"),
            1 => format!("&#x{point:0width$X};"),
            _ => format!("&#{point:0width$};"),
        };
        if self.random.once_in(12) {
            let at = self.random.below(text.len());
            text.replace_range(
                at..=at,
                self.one(&["", "0", "a", "F", "g", "x", ";", "&", " "]),
            );
        }
        text
    }

    pub fn one(&mut self, of: &[&'static str]) -> &'static str {
        self.random.one(of)
    }

    pub fn name(&mut self) -> String {
        if self.fifth && self.random.once_in(2) {
            return self.fifth_name();
        }
        let from = if self.random.once_in(25) {
            BAD_NAMES
        } else {
            NAMES
        };
        self.one(from).to_string()
    }

    pub fn maybe_space(&mut self) -> &'static str {
        if self.random.once_in(2) {
            ""
        } else {
            self.one(SPACES)
        }
    }

    fn space(&mut self) -> &'static str {
        if self.random.once_in(40) {
            ""
        } else {
            self.one(SPACES)
        }
    }

    pub fn quoted(&mut self, value: &str) -> String {
        let mark = self.one(&["\"", "'"]);
        let end = if self.random.once_in(60) { "" } else { mark };
        format!("{mark}{value}{end}")
    }

    fn literal(&mut self) -> String {
        let value = self.value();
        self.quoted(&value)
    }

    fn public(&mut self) -> String {
        let value = self.one(&["", "-//A//B 1", "it's", "a%", "^", "é", "a\tb"]);
        self.quoted(value)
    }

    fn external(&mut self) -> String {
        match self.random.below(7) {
            0..3 => format!("SYSTEM{}{}", self.space(), self.literal()),
            3..6 => format!(
                "PUBLIC{}{}{}{}",
                self.space(),
                self.public(),
                self.space(),
                self.literal()
            ),
            _ => format!("system{}{}", self.space(), self.literal()),
        }
    }

    fn particle(&mut self, height: usize) -> String {
        let inner = if height == 0 || !self.random.once_in(3) {
            self.name()
        } else {
            self.group(height - 1)
        };
        inner + self.one(&["", "", "", "?", "*", "+"])
    }

    fn group(&mut self, height: usize) -> String {
        let sign = self.one(&["|", ","]);
        let mut text = format!("({}{}", self.maybe_space(), self.particle(height));
        for _ in 0..self.random.below(3) {
            let sign = if self.random.once_in(30) {
                self.one(&["|", ",", "", "&"])
            } else {
                sign
            };
            text += &format!(
                "{}{sign}{}{}",
                self.maybe_space(),
                self.maybe_space(),
                self.particle(height)
            );
        }
        text + self.maybe_space() + if self.random.once_in(60) { "" } else { ")" }
    }

    /// A name within more groups than most: around the limit of 64.
    fn deep(&mut self) -> String {
        let height = 60 + self.random.below(8);
        format!("{}a{}", "(".repeat(height), ")".repeat(height))
    }

    fn mixed(&mut self) -> String {
        let mut text = format!("({}#PCDATA", self.maybe_space());
        for _ in 0..self.random.below(3) {
            text += &format!(
                "{}|{}{}",
                self.maybe_space(),
                self.maybe_space(),
                self.name()
            );
        }
        text + self.maybe_space() + self.one(&[")", ")*", ")*"])
    }

    fn element(&mut self) -> String {
        let content = match self.random.below(12) {
            0 => "EMPTY".to_string(),
            1 => "ANY".to_string(),
            2 => "EMPTYX".to_string(),
            3..6 => self.mixed(),
            6 => self.deep(),
            _ => self.group(3) + self.one(&["", "?", "*", "+"]),
        };
        format!(
            "<!ELEMENT{}{}{}{content}{}>",
            self.space(),
            self.name(),
            self.space(),
            self.maybe_space()
        )
    }

    fn listed(&mut self) -> String {
        let mut text = format!("({}{}", self.maybe_space(), self.name());
        for _ in 0..self.random.below(3) {
            text += &format!(
                "{}|{}{}",
                self.maybe_space(),
                self.maybe_space(),
                self.name()
            );
        }
        text + self.maybe_space() + ")"
    }

    fn attlist(&mut self) -> String {
        const TYPES: &[&str] = &[
            "CDATA", "ID", "IDREF", "IDREFS", "ENTITY", "ENTITIES", "NMTOKEN", "NMTOKENS", "IDS",
            "cdata",
        ];
        let mut text = format!("<!ATTLIST{}{}", self.space(), self.name());
        for _ in 0..self.random.below(3) {
            let kind = match self.random.below(8) {
                0 => self.listed(),
                1 => format!("NOTATION{}{}", self.space(), self.listed()),
                _ => self.one(TYPES).to_string(),
            };
            let default = match self.random.below(5) {
                0 => "#REQUIRED".to_string(),
                1 => "#IMPLIED".to_string(),
                2 => format!("#FIXED{}{}", self.space(), self.literal()),
                _ => self.literal(),
            };
            text += &format!(
                "{}{}{}{kind}{}{default}",
                self.space(),
                self.name(),
                self.space(),
                self.space()
            );
        }
        text + self.maybe_space() + ">"
    }

    fn entity(&mut self) -> String {
        let percent = if self.random.once_in(3) {
            format!("%{}", self.space())
        } else {
            String::new()
        };
        let value = match self.random.below(4) {
            0 => self.external(),
            1 => format!(
                "{}{}NDATA{}{}",
                self.external(),
                self.space(),
                self.space(),
                self.name()
            ),
            _ => self.literal(),
        };
        self.named("ENTITY", &percent, &value)
    }

    fn notation(&mut self) -> String {
        let value = if self.random.once_in(2) {
            self.external()
        } else {
            format!("PUBLIC{}{}", self.space(), self.public())
        };
        self.named("NOTATION", "", &value)
    }

    /// A declaration of a name: its keyword, what may stand before the name, and what follows it.
    fn named(&mut self, keyword: &str, before: &str, value: &str) -> String {
        format!(
            "<!{keyword}{}{before}{}{}{value}{}>",
            self.space(),
            self.name(),
            self.space(),
            self.maybe_space()
        )
    }

    pub fn instruction(&mut self) -> String {
        let target = if self.random.once_in(4) {
            self.one(&["xml", "XmL", "xml2", "xml:a"]).to_string()
        } else {
            self.name()
        };
        format!(
            "<?{target}{}{}",
            self.one(&["", " ", " data", " it's ?", " a]b", "?"]),
            self.one(&["?>", "?>", "?>", ">"])
        )
    }

    pub fn comment(&mut self) -> String {
        format!(
            "<!--{}-->",
            self.one(&[
                "", "x", " words ", "-", "x-", "--", "]", "<!--", "it's", ">", "é"
            ])
        )
    }

    fn reference(&mut self) -> String {
        format!("%{}{}", self.name(), self.one(&[";", ";", ";", ""]))
    }

    fn doctype(&mut self) -> String {
        let mut text = format!("{}{}", self.maybe_space(), self.name());
        if self.random.once_in(3) {
            text += &format!("{}{}", self.space(), self.external());
        }
        text += self.maybe_space();
        if !self.random.once_in(10) {
            text += "[";
            for _ in 0..self.random.below(5) {
                text += self.maybe_space();
                text += &match self.random.below(22) {
                    0..5 => self.element(),
                    5..10 => self.attlist(),
                    10..14 => self.entity(),
                    14..17 => self.notation(),
                    17 | 18 => self.instruction(),
                    19 | 20 => self.comment(),
                    _ => self.reference(),
                };
            }
            text += self.maybe_space();
            text += if self.random.once_in(25) { "" } else { "]" };
            text += self.maybe_space();
        }
        text
    }

    fn declaration(&mut self) -> String {
        let mut text = self
            .one(&["xml", "xml", "xml", "xml", "xml", "xml", "XML", " xml"])
            .to_string();
        let version = self.one(&["1.0", "1.0", "1.1", "1.99", "1.", "2.0", "1.0 ", ""]);
        let encoding = self.one(&["UTF-8", "u", "ISO-8859-1", "a._-9", "", "8u", "é"]);
        let standalone = self.one(&["yes", "no", "Yes", ""]);
        // each is left out once in so many times
        for (name, value, left_out) in [
            ("version", version, 20),
            ("encoding", encoding, 2),
            ("standalone", standalone, 2),
        ] {
            if !self.random.once_in(left_out) {
                text += &format!(
                    "{}{name}{}={}{}",
                    self.space(),
                    self.maybe_space(),
                    self.maybe_space(),
                    self.quoted(value)
                );
            }
        }
        text + self.maybe_space()
    }
}
