//! The texts that are timed: each shape at any size, always accepted by the call that it is for.

/// `head`, as many items as fit, spaces up to the size, `tail`.
pub fn filled(head: &str, tail: &str, size: usize, item: impl Fn(usize) -> String) -> String {
    let mut text = head.to_string();
    for k in 0.. {
        let next = item(k);
        if text.len() + next.len() + tail.len() > size {
            break;
        }
        text += &next;
    }
    text += &" ".repeat(size - tail.len() - text.len());
    text + tail
}

pub fn repeated(piece: &str, size: usize) -> String {
    piece.repeat(size / piece.len())
}

/// ASCII with one é each 12 kB, the first in the middle of a text that is shorter.
pub fn rare_accent(piece: &str, size: usize) -> String {
    const EACH: usize = 12_000;
    let mut text = repeated(piece, size).into_bytes();
    let mut at = (EACH / 2).min(text.len() / 2);
    while at + 1 < text.len() {
        text[at..at + 2].copy_from_slice("é".as_bytes());
        at += EACH;
    }
    String::from_utf8(text).expect("ASCII and é")
}

/// A text of a size.
pub type Shape = (&'static str, fn(usize) -> String);

const HEAD: &str = "root SYSTEM \"root.dtd\" [\n";

pub const DOCTYPES: &[Shape] = &[
    ("typical", typical),
    ("attdefaults", |size| {
        filled(HEAD, "]", size, |k| {
            format!(
                "<!ATTLIST el{k} a{k} CDATA \"a longer default value with words, digits {k} and a &#65; reference in it\" \
                 b{k} NMTOKENS 'x y z'>\n"
            )
        })
    }),
    ("charrefs", |size| {
        filled(HEAD, "]", size, |k| {
            format!(
                "<!ENTITY r{k} \"&#233;&#x3b1;&#65;&#x10FFFF;&#0000000169;&#8364;&#x20AC;&#97;\">\n"
            )
        })
    }),
    ("gazetteer", gazetteer),
    ("comments", |size| {
        filled(HEAD, "]", size, |_| {
            "<!-- a comment of some eighty characters, it's \"plain\" prose with ] and > inside - done -->\n".to_string()
        })
    }),
    ("instructions", |size| {
        filled(HEAD, "]", size, |k| {
            format!("<?view{k} sheet=\"{k}\" of=\"the survey\"?>\n")
        })
    }),
    ("deepmodels", |size| {
        filled(HEAD, "]", size, |k| {
            format!("<!ELEMENT d{k} {}a{}>\n", "(".repeat(60), ")".repeat(60))
        })
    }),
    ("widemodels", |size| {
        filled(HEAD, "]", size, |k| {
            format!(
                "<!ELEMENT w{k} (alpha|beta|(gamma,delta?,epsilon*)|(zeta|eta)+|theta|iota|kappa|lambda|mu|nu|xi|omicron)*>\n"
            )
        })
    }),
    ("unread", |size| {
        filled("root [%p;\n", "]", size, |k| {
            format!("<!ELEMENT %name{k}; (%model; | \"quoted > text\")*>\n")
        })
    }),
    ("greeknames", |size| {
        filled(HEAD, "]", size, |k| {
            format!("<!ELEMENT στοιχείο{k} (κεφαλή, (σώμα | ουρά)?, 漢字*)>\n")
        })
    }),
    ("rare accent, comment", |size| {
        format!("root [<!--{}-->]", rare_accent(WORDS, size - 15))
    }),
    ("rare accent, default", |size| {
        format!(
            "root [<!ATTLIST a b CDATA '{}'>]",
            rare_accent(WORDS, size - 30)
        )
    }),
];

/// Declarations of every kind.
pub fn typical(size: usize) -> String {
    filled(HEAD, "]", size, |k| match k % 6 {
        0 => format!("<!ELEMENT el{k} (head{k}, (body | alt.body)?, tail*)>\n"),
        1 => format!(
            "<!ATTLIST el{k} id ID #IMPLIED\n  class CDATA #IMPLIED kind (a|b|c) \"a\"\n  \
             href CDATA #FIXED \"http://example.org/{k}\">\n"
        ),
        2 => format!("<!ENTITY ent{k} \"some replacement text &#169; number {k}\">\n"),
        3 => format!("<!ELEMENT mix{k} (#PCDATA | em | strong | code)*>\n"),
        4 => format!("<!-- comment {k}: what the next ones are for, isn't it -->\n"),
        _ => format!(
            "<!ENTITY ext{k} PUBLIC \"-//Example//ENTITIES {k}//EN\" \"ext{k}.ent\" NDATA gif>\n\
             <!NOTATION n{k} SYSTEM \"viewer\">\n<?proc number {k}?>\n"
        ),
    })
}

/// Place names spelled in character references, decimal and hexadecimal, of 4 to 7 digits with leading zeros: three bytes in five are
/// digits of a reference.
pub fn gazetteer(size: usize) -> String {
    const NAME: usize = 36;
    filled(HEAD, "]", size, |k| {
        let name: String = (k * NAME..(k + 1) * NAME).map(reference).collect();
        format!("<!ENTITY p{k} \"{name}\">\n")
    })
}

/// The references are in no order, so that the processor cannot learn where each ends.
fn reference(n: usize) -> String {
    let mixed = (n as u64 + 1).wrapping_mul(0x9E37_79B9_7F4A_7C15);
    let mixed = (mixed ^ mixed >> 31).wrapping_mul(0xBF58_476D_1CE4_E5B9) >> 24;
    let letter =
        [0x391, 0x410, 0x531, 0x5D0, 0x10D0, 0x4E00, 0xAC00][mixed as usize % 7] + mixed / 7 % 40;
    let width = [4, 6, 7, 7][mixed as usize / 280 % 4];
    match mixed / 1120 % 4 {
        0 => format!("&#x{letter:0width$x};"),
        1 => format!("&#x{letter:0width$X};"),
        _ => format!("&#{letter:0width$};"),
    }
}

const WORDS: &str = "some words of a value, ";
pub const LETTERS: &str = "abcdefgh.-9";
const GREEK_HAN: &str = "στοιχείο漢字";
const REFERENCES: &str = "&#233;&#x3b1;&#65;";

/// The shapes of the other calls.
pub const OTHERS: &[(&str, Shape)] = &[
    ("check_chars", ("typical", typical)),
    (
        "check_chars",
        ("Greek and Han", |size| repeated(GREEK_HAN, size)),
    ),
    (
        "check_chars",
        ("U+FFFD only", |size| repeated("\u{fffd}", size)),
    ),
    (
        "check_chars",
        ("rare accent", |size| rare_accent(WORDS, size)),
    ),
    ("check_text", ("typical", typical)),
    (
        "check_text",
        ("references", |size| repeated(REFERENCES, size)),
    ),
    (
        "check_text",
        ("rare accent", |size| rare_accent(WORDS, size)),
    ),
    ("check_attr_value", ("words", |size| repeated(WORDS, size))),
    (
        "check_attr_value",
        ("references", |size| repeated(REFERENCES, size)),
    ),
    (
        "check_attr_value",
        ("rare accent", |size| rare_accent(WORDS, size)),
    ),
    ("check_char_refs", ("words", |size| repeated(WORDS, size))),
    (
        "check_char_refs",
        ("references", |size| repeated(REFERENCES, size)),
    ),
    (
        "check_char_refs",
        ("one run of digits", |size| {
            format!("&#{}65;", "0".repeat(size - 5))
        }),
    ),
    ("check_name", ("ASCII", |size| repeated(LETTERS, size))),
    (
        "check_name",
        ("Greek and Han", |size| repeated(GREEK_HAN, size)),
    ),
    (
        "check_name",
        ("rare accent", |size| rare_accent(LETTERS, size)),
    ),
    ("is_ncname", ("ASCII", |size| repeated(LETTERS, size))),
    (
        "is_ncname",
        ("rare accent", |size| rare_accent(LETTERS, size)),
    ),
    ("check_utf8", ("ASCII", typical)),
    (
        "check_utf8",
        ("Greek and Han", |size| repeated(GREEK_HAN, size)),
    ),
    (
        "check_utf8",
        ("rare accent", |size| rare_accent(WORDS, size)),
    ),
    (
        "check_declaration",
        ("long version", |size| {
            format!(
                "xml version=\"1.{}\" encoding='UTF-8' standalone=\"yes\"",
                "0".repeat(size - 52)
            )
        }),
    ),
];

/// The declaration that most documents have.
pub const USUAL_DECLARATION: &str = "xml version=\"1.0\" encoding=\"UTF-8\" standalone=\"yes\"";
