//! Documents put together from pieces: marks, XML declarations with encodings of every kind, comments, instructions, DOCTYPEs, roots.
use crate::generate::Generator;
use oracle::answer;

// those that are read on come first, as do the roots that are accepted
#[rustfmt::skip]
const ENCODINGS: &[&str] = &[
    "UTF-8", "UTF-8", "utf-8", "Utf-8", "US-ASCII", "us-ascii", "ISO-8859-1", "iso-8859-9", "ISO-8859-15", "iso-8859-16",
    "windows-1250", "Windows-1252", "WINDOWS-1258", "ISO-8859-0", "ISO-8859-17", "ISO-8859-01", "ISO-8859-", "windows-1249",
    "windows-1259", "windows-12520", "UTF-16", "UTF-32", "utf8", "ASCII", "latin1", "Shift_JIS", "EBCDIC-CP-US", "8859", "",
];

#[rustfmt::skip]
const ROOTS: &[&str] = &[
    "<a/>", "<a/>", "<a>", "<a", "<b:c d='e'>", "<:", "<_1", "<été/>", "<Δ>", "<中>", "<a\u{1}", "<a<!DOCTYPE a>", "<xml/>",
    "", "<", "</a>", "<1/>", "< a/>", "<>", "<!a", "<![CDATA[a]]>", "<-", "a", "<\u{220}>", "<\u{300}>", "&a;", "\u{feff}<a/>",
    "<\u{1}", "<\u{ffff}", "<\u{13a0}/>",
];

impl Generator<'_> {
    /// A document, most often one that is accepted.
    pub fn document(&mut self) -> Vec<u8> {
        let mut text = String::new();
        if self.random.once_in(6) {
            text.push('\u{feff}');
        }
        if !self.random.once_in(3) {
            text += &self.xml_declaration();
        }
        text += &self.miscellaneous();
        if !self.random.once_in(4) {
            text += &self.whole_doctype();
            text += &self.miscellaneous();
        }
        if self.random.once_in(25) {
            text += &match self.random.below(3) {
                0 => self.xml_declaration(),
                _ => self.whole_doctype(),
            };
            text += &self.miscellaneous();
        }
        if self.fifth && self.random.once_in(2) {
            text += &format!("<{}>", self.name());
        } else {
            text += self.mostly(&ROOTS[..12], ROOTS);
        }
        self.coded(&text)
    }

    fn xml_declaration(&mut self) -> String {
        if self.random.once_in(3) {
            return format!("<?{}?>", self.sound("check_declaration"));
        }
        let encoding = self.mostly(&ENCODINGS[..13], ENCODINGS);
        let encoding = self.quoted(encoding);
        let standalone = [" standalone=\"maybe\"", " é", "standalone='no'"];
        let standalone = self.mostly(&["", " ", " standalone='no'"], &standalone);
        format!("<?xml version='1.0' encoding={encoding}{standalone}?>")
    }

    fn mostly(&mut self, good: &[&'static str], any: &[&'static str]) -> &'static str {
        let from = if self.random.once_in(6) { any } else { good };
        self.one(from)
    }

    fn whole_doctype(&mut self) -> String {
        format!("<!DOCTYPE{}>", self.sound(self.check_doctype()))
    }

    /// The call that a document's DOCTYPE is for.
    fn check_doctype(&self) -> &'static str {
        if self.fifth {
            return "check_doctype_fifth";
        }
        "check_doctype"
    }

    fn miscellaneous(&mut self) -> String {
        let call = self.check_doctype();
        let fits = |item: &str| accepts(call, &format!("a[{item}]"));
        let mut text = self.maybe_space().to_string();
        for _ in 0..self.random.below(3) {
            text += &match self.random.below(3) {
                0 => self.try_for(Self::comment, fits),
                1 => self.try_for(Self::instruction, fits),
                _ => "<!-- é -->".to_string(),
            };
            text += self.maybe_space();
        }
        text
    }

    /// A text that the call accepts, if one comes up soon; now and then any.
    fn sound(&mut self, call: &str) -> String {
        let fits = |text: &str| accepts(call, text) && accepts("check_chars", text);
        self.try_for(|generator| generator.text(call), fits)
    }

    fn try_for(
        &mut self,
        make: impl Fn(&mut Self) -> String,
        fits: impl Fn(&str) -> bool,
    ) -> String {
        let mut text = make(self);
        if self.random.once_in(8) {
            return text;
        }
        for _ in 0..20 {
            if fits(&text) {
                break;
            }
            text = make(self);
        }
        text
    }

    /// The text's bytes: now and then in UTF-16, in UTF-32, or with one byte for each character.
    fn coded(&mut self, text: &str) -> Vec<u8> {
        let mark = if self.random.once_in(2) {
            "\u{feff}"
        } else {
            ""
        };
        let units = || mark.encode_utf16().chain(text.encode_utf16());
        let characters = || mark.chars().chain(text.chars()).map(|c| c as u32);
        match self.random.below(60) {
            0 => units().flat_map(u16::to_le_bytes).collect(),
            1 => units().flat_map(u16::to_be_bytes).collect(),
            2 => characters().flat_map(u32::to_le_bytes).collect(),
            3 => characters().flat_map(u32::to_be_bytes).collect(),
            4..7 => text.chars().map(|c| (c as u32).min(255) as u8).collect(),
            _ => text.as_bytes().to_vec(),
        }
    }
}

fn accepts(call: &str, text: &str) -> bool {
    answer(call, text.as_bytes()).as_deref() == Some("0")
}
