//! A text with some of it taken out, put in, doubled, replaced or cut off.
use crate::random::Random;

#[rustfmt::skip]
const PIECES: &[&[u8]] = &[
    b"<!ELEMENT", b"<!ATTLIST", b"<!ENTITY", b"<!NOTATION", b"<!--", b"-->", b"--", b"<?", b"?>", b"<![",
    b"]]>", b"SYSTEM", b"PUBLIC", b"EMPTY", b"ANY", b"#PCDATA", b"CDATA", b"ID", b"IDREF", b"IDREFS",
    b"ENTITY", b"ENTITIES", b"NMTOKEN", b"NMTOKENS", b"NOTATION", b"NDATA", b"#REQUIRED", b"#IMPLIED",
    b"#FIXED", b"%p;", b"%", b"&#65;", b"&#x41;", b"&#", b"&#x", b"&#0;", b"&#1114112;", b"&", b"(", b")",
    b")*", b"|", b",", b"?", b"*", b"+", b"[", b"]", b"<", b">", b"'", b"\"", b"=", b";", b":", b"-", b".",
    b"#", b"!", b"^", b" ", b"\t", b"\r", b"\n", b"x", b"1", b"xml", b"XML", b"version", b"encoding",
    b"standalone", b"yes", b"1.0", b"<!DOCTYPE", b"<!DOCTYPE a>", b"<?xml ", b"<?xml version='1.0'?>", b"encoding='UTF-16'",
    b"encoding='ISO-8859-1'", b"<a", b"</", b"<!", b"\r\n", b"\xef\xbb\xbf",
    // é, a combining mark, a middle dot, 日, U+0220, U+FFFF, U+10000; then bytes that are not UTF-8, and illegal characters
    b"\xc3\xa9", b"\xcc\x80", b"\xc2\xb7", b"\xe6\x97\xa5", b"\xc8\xa0", b"\xef\xbf\xbf", b"\xf0\x90\x80\x80",
    // U+13A0, U+2C00, U+E0100, U+203F and U+36F are the fifth edition's; U+D7, U+37E, U+3000 and U+F0000 no edition's
    b"\xe1\x8e\xa0", b"\xe2\xb0\x80", b"\xf3\xa0\x84\x80", b"\xe2\x80\xbf", b"\xcd\xaf", b"%\xe1\x8e\xa0",
    b"\xc3\x97", b"\xcd\xbe", b"\xe3\x80\x80", b"\xf3\xb0\x80\x80",
    b"\xff", b"\x80", b"\xc3", b"\xed\xa0\x80", b"\x00", b"\x01", b"\x1f",
];

/// Places one to three wounds. `other` is a text to take parts from.
pub fn damaged(random: &mut Random, text: &[u8], other: &[u8]) -> Vec<u8> {
    let mut bytes = text.to_vec();
    for _ in 0..1 + random.below(3) {
        let start = random.below(bytes.len() + 1);
        let end = (start + 1 + random.below(6)).min(bytes.len());
        match random.below(8) {
            0 => drop(bytes.drain(start..end)),
            1 | 2 => insert(&mut bytes, start, start, random.one(PIECES)),
            3 => {
                let after = (start + 1).min(bytes.len());
                insert(&mut bytes, start, after, random.one(PIECES));
            }
            4 => {
                let again = bytes[start..end].to_vec();
                insert(&mut bytes, end, end, &again);
            }
            5 => {
                let from = random.below(other.len() + 1);
                let to = (from + random.below(30)).min(other.len());
                insert(&mut bytes, start, start, &other[from..to]);
            }
            6 if start < bytes.len() => bytes[start] ^= 1 << random.below(8),
            _ if random.once_in(3) => bytes.truncate(start),
            _ => {}
        }
    }
    bytes
}

fn insert(bytes: &mut Vec<u8>, start: usize, end: usize, piece: &[u8]) {
    bytes.splice(start..end, piece.iter().copied());
}
