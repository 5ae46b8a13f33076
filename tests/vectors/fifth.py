#!/usr/bin/env python3
"""Writes the last lines of crates/vectors/stdin, for the calls that read the fifth edition's names: `call TAB ? TAB hexadecimal`.

A question mark stands where the reference is to answer (tests/oracle/fill.rs). The texts: the ends of every range of productions 4 and 4a
with their neighbours, as the first and as the second character of a name; names that only the fifth edition has, names of both editions
and texts that are no edition's name in every position of a DOCTYPE and of a document; and DOCTYPEs and documents put together at random from
fixed seeds, whole and damaged. Many are asked by Appendix B's names too, where most are refused.
"""
import sys

# no folder of compiled files beside this one
sys.dont_write_bytecode = True
from documents import JOBS, Documents, by_hand
from texts import NAMES, VALUES, Doctypes, around

# Productions 4 and 4a, in their order; of 4a what it adds.
STARTS = [(0x3A, 0x3A), (0x41, 0x5A), (0x5F, 0x5F), (0x61, 0x7A), (0xC0, 0xD6), (0xD8, 0xF6), (0xF8, 0x2FF), (0x370, 0x37D), (0x37F, 0x1FFF),
          (0x200C, 0x200D), (0x2070, 0x218F), (0x2C00, 0x2FEF), (0x3001, 0xD7FF), (0xF900, 0xFDCF), (0xFDF0, 0xFFFD), (0x10000, 0xEFFFF)]
OTHERS = [(0x2D, 0x2D), (0x2E, 0x2E), (0x30, 0x39), (0xB7, 0xB7), (0x300, 0x36F), (0x203F, 0x2040)]

# Names that only the fifth edition has, by their first character or by a later one.
FIFTH = ["\u13a0\u13a1", "\u1380", "\u2c00\u2c30", "\U00010000x", "\U000e0100", "\u0220", "\u3400:b", "\u200c", "a\u036f", "b\u203fc", "q\u13a0-1"]
# No edition's names: characters beside the ranges, and such as may only go on with a name.
NO_NAMES = ["", "1a", "\u00d7", "a\u00f7", "\u037e", "\u2ff0", "\u3000", "\ufffe", "\U000f0000", "\u036f", "\u203f", "\u00b7"]


def line(call, text, answer="?"):
    print(call, answer, text.hex(), sep="\t")


def both(call, text):
    line(call, text)
    line(call + "_fifth", text)


def name_ends():
    ends = [end for pair in STARTS + OTHERS for end in pair]
    # the character after U+D7FF is U+E000
    for c in around(ends) + [0xE000]:
        both("check_name", chr(c).encode())
        both("check_name", ("a" + chr(c)).encode())


# Every position that a name has in a DOCTYPE; and behind a %, where the character that follows decides whether a body is read.
POSITIONS = [
    "@",
    "@ SYSTEM 's'[]",
    "a[%@;]",
    "a[%@;<!ELEMENT>]",
    "a[<!ELEMENT @ ANY>]",
    "a[<!ELEMENT b (@)>]",
    "a[<!ELEMENT b (c,(@|d)*)>]",
    "a[<!ELEMENT b (#PCDATA|@)*>]",
    "a[<!ATTLIST @ c ID #IMPLIED>]",
    "a[<!ATTLIST b @ CDATA 'd'>]",
    "a[<!ATTLIST b c (@|d) 'd'>]",
    "a[<!ATTLIST b c NOTATION (d|@) #REQUIRED>]",
    "a[<!ENTITY @ 'd'>]",
    "a[<!ENTITY % @ 'd'>]",
    "a[<!ENTITY e SYSTEM 's' NDATA @>]",
    "a[<!NOTATION @ SYSTEM 's'>]",
    "a[<?@ d?>]",
    "a[<!ELEMENT !! %@>]",
    "a[<!ATTLIST b c CDATA '<%@;'>]",
    "a[<!ENTITY e '&#;%@'>]",
    "a[<!ENTITY %@ 'd'>]",
]


def positions():
    for name in ("\u13a0", "a\u036f", "\U000effff", "\u203f", "\u037e", "\u00e9"):
        for position in POSITIONS:
            both("check_doctype", position.replace("@", name).encode())


class FifthDoctypes(Doctypes):
    def name(self):
        return self.r.choice(NAMES + 2 * FIFTH) if self.r.random() < 0.96 else self.r.choice(NO_NAMES)

    def literal(self, values=VALUES + ["%\u13a0;", "%\U00010000", "%\u203f", "%\u037e"]):
        return super().literal(values)


def doctypes(seed, count):
    made = FifthDoctypes(seed)
    for _ in range(count):
        line("check_doctype_fifth", made.damaged(made.doctype()).encode())


# Marked as in documents.py, with answers that were written by hand.
HAND = [
    (0, "1:1", "›<\u1380"),
    (0, "1:1", "›<\U00010000\u036f/>"),
    (4, "1:2", "<›\u203f>"),
    (4, "1:2", "<›\U000f0000>"),
    (0, "1:8", "<?\u13a0 b?>›<a>"),
    (4, "1:4", "<?\u13a0›\u00d7?><a>"),
    (5, "1:4", "<?\u13a0›:b?><a>"),
    (0, "2:1", "<!DOCTYPE⟦ \u13a0[<!ELEMENT \u13a0 (a\u036f|\u2c00)*>]⟧>\n›<\u13a0>"),
    (9, "1:12", "<!DOCTYPE a›\u3000><a>"),
    (0, "1:28", "<!DOCTYPE⟦ a[%\u13a0;<!ELEMENT>]⟧>›<a>", 1),
    (0, "1:31", "<!DOCTYPE⟦ a[<!ELEMENT !! %\u13a0>]⟧>›<a>", 1),
    (4, "1:23", "<!DOCTYPE a[<!ELEMENT ›!! %\u203f>]><a>"),
    (0, "1:31", "<!DOCTYPE⟦ a[<!ENTITY e '%\u0220'>]⟧>›<\u0220>", 1),
]

# Every place of a name in a document.
DOCUMENTS = [
    "<@",
    "\ufeff\r\n<@ b='c'>",
    "<?@?><a/>",
    "<?xml version='1.0'?><?@ b?>\n<!--@--><@/>",
    "<!DOCTYPE @><@>",
    "<!DOCTYPE a[<!ATTLIST @ b (c|@) 'c'><?@?>]>\r<a>",
    "<!DOCTYPE a[<!ENTITY e '%@'>%@;<!NOTATION>]><a/>",
    "<?xml version='1.0' encoding='ISO-8859-1'?><@/>",
]


def named_documents():
    for name in ("\u13a0", "a\u036f", "\U000e0100", "\u2ff0"):
        for document in DOCUMENTS:
            both("check_document", document.replace("@", name).encode())


# By Appendix B's names the jobs stand among the other documents.
def jobs():
    for path in sorted(JOBS.glob("*.xml")):
        line("check_document_fifth", path.read_bytes())


def documents(seed, count):
    made = Documents(seed)
    made.doctypes = FifthDoctypes(seed)
    for k in range(count):
        text = made.document().replace(b"<a/>", f"<{made.doctypes.name()}/>".encode())
        line("check_document_fifth", text if k % 2 == 0 else made.damaged(text))


def main():
    print("# Made by tests/vectors/fifth.py, and answered by the reference of tests/oracle.")
    name_ends()
    positions()
    doctypes(20261121, 180)
    named_documents()
    jobs()
    documents(20261122, 40)
    print("# Made by tests/vectors/fifth.py: the answers are written by hand.")
    for row in HAND:
        answer, text = by_hand(row)
        line("check_document_fifth", text, answer)


if __name__ == "__main__":
    main()
