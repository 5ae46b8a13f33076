#!/usr/bin/env python3
"""Writes the texts of crates/vectors/stdin, `call TAB ? TAB hexadecimal`, for an oracle to answer: `python3 tests/vectors/texts.py | ORACLE answer`.

ORACLE is the unchanged Rust behind a driver that fills the second column (docs/DIFFERENCES.md says which). The texts do not depend on
it: the ends of every range of production 2 and of Appendix B and their neighbours, each byte sequence that RFC 3629 begins or breaks
off, references around every limit, runs of digits of many lengths, each ASCII character in a public identifier, both orders of mixed
connectors, and texts, DOCTYPEs, XML declarations and the gate's calls put together at random from fixed seeds.
"""
import random
import re
import sys
from pathlib import Path

ROOT = Path(__file__).resolve().parents[2]
TABLES = ROOT / "crates/spec/specs/Grammar/AppendixB.antt"
CHECKS = ["check_chars", "check_text", "check_attr_value", "check_char_refs"]
LIMIT = 1048576


def line(call, text):
    print(call, "?", text if isinstance(text, str) else text.hex(), sep="\t")


def is_scalar(c):
    return 0 <= c <= 0x10FFFF and not 0xD800 <= c <= 0xDFFF


def around(ends):
    return sorted({c + d for c in ends for d in (-1, 0, 1) if is_scalar(c + d)})


def characters():
    for c in list(range(0x80)) + around([0x7FF, 0x800, 0xD7FF, 0xE000, 0xFFFD, 0xFFFF, 0x10000, 0x10FFFF]):
        for call in CHECKS:
            line(call, chr(c).encode())
        line("check_chars", b"a" + chr(c).encode() + b"b")


def byte_sequences():
    firsts = [0x7F, 0x80, 0xBF, 0xC0, 0xC1, 0xC2, 0xDF, 0xE0, 0xE1, 0xEC, 0xED, 0xEE, 0xEF, 0xF0, 0xF1, 0xF3, 0xF4, 0xF5, 0xFF]
    seconds = [0x00, 0x7F, 0x80, 0x8F, 0x90, 0x9F, 0xA0, 0xBF, 0xC0, 0xFF]
    for a in firsts:
        for rest in [[]] + [[b] + tail for b in seconds for tail in ([], [0x80], [0xBF, 0xBF], [0x80, 0x7F], [0x80, 0x80, 0x80])]:
            line("utf8", bytes([a] + rest))
            line("utf8", b"ab" + bytes([a] + rest) + b"c")
    for call in CHECKS + ["check_name", "is_ncname", "name_part"]:
        line(call, b"\xed\xa0\x80")
        line(call, b"a\xc3")


def name_ends():
    found = [int(x, 16) for x in re.findall(r"0x([0-9A-F]+)", TABLES.read_text())]
    for c in around(set(found) | {0x220, 0x3400, 0x10000, 0x10FFFF}):
        line("check_name", chr(c).encode())
        line("check_name", b"a" + chr(c).encode())
        line("name_part", b"a" + chr(c).encode() + b" ")
    for c in range(0x80):
        line("check_name", bytes([c]))
        line("check_name", b"a" + bytes([c]))
        line("is_ncname", bytes([c]))
        line("is_ncname", b"a" + bytes([c]))
        line("name_part", bytes([c]) + b"b")
    line("check_name", b"")
    for text in ["", "a:b", "a:", ":a", "é:é", "éa", "a\u0300", "a\u0300:", "\u0300", "a b", "a\u0220"]:
        line("is_ncname", text.encode())
    line("name_part", b"")


def references():
    values = [0, 8, 9, 10, 13, 31, 32, 65, 0xD7FF, 0xD800, 0xDFFF, 0xE000, 0xFFFD, 0xFFFE, 0xFFFF, 0x10000, 0x10FFFF, 0x110000]
    values += [2**31, 2**32 - 1, 2**32, 2**32 + 65, 2**64 + 65, 10**40]
    forms = [f"&#{v};" for v in values] + [f"&#x{v:x};" for v in values] + [f"&#x{v:X};" for v in values] + [f"&#{v:040d};" for v in values]
    forms += ["&#;", "&#x;", "&#X41;", "&#65", "&#x41", "&#6 5;", "&#-1;", "&#+1;", "&#x4g;", "&#6a;", "&#", "&", "&;", "&a;", "&#&#65;", "&##65;", "&amp;#65;"]
    for form in forms:
        for call in CHECKS[1:]:
            line(call, form.encode())
            line(call, ("&#65;" + form + "x").encode())


# Runs of digits of many lengths: with zeros in front, with values around the number at which a value stops, and with what is no digit at every
# place; references one after the other, of which one is bad; versions.
def runs():
    for n in list(range(1, 26)) + [63, 64, 65]:
        for first, values in (("&#", ["0", "9", "65", "1114111", "1114112"]), ("&#x", ["0", "F", "a", "41", "10FFFF", "10ffff", "110000"])):
            for value in values:
                line("check_char_refs", f"{first}{value.rjust(n, '0')};".encode())
        line("check_char_refs", f"&#65{'9' * n};".encode())
        line("check_char_refs", f"&#x{'f' * n};".encode())
        for k in range(n) if n < 26 else []:
            for first, other in (("&#", "a"), ("&#", "/"), ("&#", ":"), ("&#x", "g"), ("&#x", "@"), ("&#x", "`"), ("&#x", "G")):
                line("check_char_refs", f"{first}{'0' * k}{other}{'0' * (n - k - 1)};".encode())
            line("check_declaration", f"xml version='1.{'0' * k}a{'9' * (n - k - 1)}'".encode())
        line("check_declaration", f"xml version='1.{'9' * n}'".encode())
    for call in CHECKS[1:]:
        for k in range(6):
            for bad in ("&#;", "&#1;", "&#x0041", "&", "&#x", "]]>", "<"):
                line(call, ("&#233;&#x3B1;" * k + bad + "&#65;" * k).encode())


PIECES = [b"]", b"]]", b"]]>", b"]>", b">", b"<", b"&", b"#", b";", b"&#", b"&#65;", b"&#x4A;", b"&#0;", b"&#1114112;", b"x", b"41", b"a b", b"\t", b"\x01", b'"', b"'",
          "é".encode(), "\u20ac".encode(), "\ufffe".encode(), "\U0001f600".encode(), b"\xef", b"\xbf", b"\x80"]


def mixtures(seed, count):
    pick = random.Random(seed)
    for _ in range(count):
        text = b"".join(pick.choice(PIECES) for _ in range(pick.randint(1, 7)))
        for call in CHECKS:
            line(call, text)


def limits():
    for call in CHECKS + ["check_name", "is_ncname", "name_part", "utf8"]:
        for size in (LIMIT - 1, LIMIT, LIMIT + 1):
            line(call, f"61*{size}")
            line(call, f"61*{size - 1}+01")
            line(call, f"61*{size - 2}+c3a9")
    for call in CHECKS[1:]:
        line(call, f"2623+30*{LIMIT - 5}+3635+3b")
        line(call, f"262378+46*{LIMIT - 4}+3b")


# DOCTYPEs: texts derived from a small grammar, and the same with a piece of them damaged.
NAMES = ["a", "b:c", "_x", "q-1", "\u00e9t\u00e9", "\u0394", "\u4e2d"]
BAD_NAMES = ["", "1a", "-", "\u0220", "a b", "%p", "!"]
SPACES = ["", " ", "\t", "\r\n", "  "]
VALUES = ["", "x", "&#65;", "&#x4A;", "&#0;", "&#;", "&amp;", "%", "%p;", "<", ">", "]", "it's", "--", "&#4294967361;"]
SIGNS = ["", " ", "<", ">", "[", "]", "(", ")", "|", ",", "*", "#", "%", ";", '"', "'", "&", "--", "-->", "?>", "<!", "<![", "xml", "\x01", "\u00e9"]


class Doctypes:
    def __init__(self, seed):
        self.r = random.Random(seed)

    def one(self, *options):
        return self.r.choice(options)

    def name(self):
        return self.r.choice(NAMES) if self.r.random() < 0.93 else self.r.choice(BAD_NAMES)

    def s(self):
        return self.r.choice(SPACES)

    def must_s(self):
        return self.r.choice(SPACES[1:]) if self.r.random() < 0.96 else ""

    def literal(self, values=VALUES):
        q = self.one('"', "'")
        return q + self.r.choice(values) + (q if self.r.random() < 0.97 else "")

    def external(self):
        system = "SYSTEM" + self.must_s() + self.literal()
        public = "PUBLIC" + self.must_s() + self.literal(["", "-//A//B", "it's", "^", "a%"]) + self.must_s() + self.literal()
        return self.one(system, public, system.lower())

    def particle(self, depth):
        inner = self.name() if depth == 0 or self.r.random() < 0.6 else self.group(depth - 1)
        return inner + self.one("", "", "?", "*", "+")

    def group(self, depth):
        sign = self.one("|", ",")
        parts = [self.particle(depth) for _ in range(self.r.randint(1, 3))]
        text = parts[0]
        for part in parts[1:]:
            text += self.s() + (sign if self.r.random() < 0.95 else self.one("|", ",", " ")) + self.s() + part
        return "(" + self.s() + text + self.s() + ")"

    def mixed(self):
        names = "".join(self.s() + "|" + self.s() + self.name() for _ in range(self.r.randint(0, 2)))
        return "(" + self.s() + "#PCDATA" + names + self.s() + self.one(")", ")*")

    def element(self):
        content = self.one("EMPTY", "ANY", self.mixed(), self.group(3) + self.one("", "*"), "EMPTYX")
        return "<!ELEMENT" + self.must_s() + self.name() + self.must_s() + content + self.s() + ">"

    def listed(self):
        return "(" + self.s() + (self.s() + "|" + self.s()).join(self.name() for _ in range(self.r.randint(1, 3))) + self.s() + ")"

    def attlist(self):
        text = "<!ATTLIST" + self.must_s() + self.name()
        for _ in range(self.r.randint(0, 2)):
            kind = self.one("CDATA", "ID", "IDREF", "IDREFS", "ENTITY", "ENTITIES", "NMTOKEN", "NMTOKENS", self.listed(), "NOTATION" + self.must_s() + self.listed(), "IDS")
            default = self.one("#REQUIRED", "#IMPLIED", self.literal(), "#FIXED" + self.must_s() + self.literal())
            text += self.must_s() + self.name() + self.must_s() + kind + self.must_s() + default
        return text + self.s() + ">"

    def entity(self):
        value = self.one(self.literal(), self.external(), self.external() + self.must_s() + "NDATA" + self.must_s() + self.name())
        percent = self.one("", "", "%" + self.must_s())
        return "<!ENTITY" + self.must_s() + percent + self.name() + self.must_s() + value + self.s() + ">"

    def notation(self):
        value = self.one(self.external(), "PUBLIC" + self.must_s() + self.literal())
        return "<!NOTATION" + self.must_s() + self.name() + self.must_s() + value + self.s() + ">"

    def instruction(self):
        return "<?" + self.one(self.name(), "xml", "XmL", "xml2") + self.one("", " ", " it's ?", " a]b") + self.one("?>", "?>", ">")

    def comment(self):
        return "<!--" + self.one("", "x", "-", "x-", "--", "]", "<!--", "'") + "-->"

    def reference(self):
        return "%" + self.name() + self.one(";", ";", "")

    def doctype(self):
        text = self.s() + self.name() + (self.must_s() + self.external() if self.r.random() < 0.3 else "") + self.s()
        if self.r.random() < 0.9:
            parts = [self.element, self.attlist, self.entity, self.notation, self.instruction, self.comment, self.reference]
            weights = [5, 5, 4, 3, 2, 2, 1]
            body = "".join(self.r.choices(parts, weights)[0]() + self.s() for _ in range(self.r.randint(0, 3)))
            text += "[" + self.s() + body + "]" + self.s()
        return text

    def damaged(self, text):
        if not text or self.r.random() < 0.5:
            return text
        at = self.r.randrange(len(text))
        if self.r.random() < 0.5:
            return text[:at] + text[at + 1:]
        return text[:at] + self.r.choice(SIGNS) + text[at + self.r.randint(0, 1):]


def doctypes(seed, count):
    made = Doctypes(seed)
    for _ in range(count):
        line("check_doctype", made.damaged(made.doctype()).encode())
    for depth in (1, 2, 63, 64, 65, 66, 400000):
        line("check_doctype", f"{b'a[<!ELEMENT b '.hex()}+28*{depth}+63+29*{depth}+3e5d")
    for count in (64, 65, 1000):
        line("check_doctype", f"{b'a[<!ELEMENT b (c'.hex()}+{b',(c)'.hex()}*{count}+293e5d")
    for size in (LIMIT - 2, LIMIT - 1, LIMIT):
        line("check_doctype", f"615b+20*{size - 1}+5d")


# What a choice among signs can get wrong: each connector before the other, each character of a public identifier in either quote.
def signs():
    for model in ("(c|d,e)", "(c,d|e)", "(c|(d,e))", "(c,(d|e))", "((c|d),e|f)", "((c,d)|e,f)", "(c|d|e,f)", "(c,d,e|f)"):
        line("check_doctype", f"a[<!ELEMENT b {model}>]".encode())
    for c in range(0x80):
        for quote in "\"'":
            public = f"PUBLIC {quote}-{chr(c)}{quote}"
            line("check_doctype", f"a {public} 's'".encode())
            line("check_doctype", f"a[<!NOTATION n {public}>]".encode())


def cuts(seed, count):
    made = Doctypes(seed)
    for _ in range(count):
        text = made.damaged(made.doctype())
        for end in range(len(text) + 1):
            line("scan", text[:end].encode())
    # outside the premise: accepted, and the scan says "not closed"
    for call in ("check_doctype", "scan"):
        line(call, b"a[<?p it's?>]")
    line("scan", b"a[\xff]")
    for size in (LIMIT - 2, LIMIT - 1):
        line("scan", f"615b+20*{size - 1}+5d")
        line("scan", f"615b+{b'<!---->'.hex()}*{size // 7 - 1}+5d")


# XML declarations: now and then a part of one is damaged, left out, doubled or put elsewhere.
VERSIONS = ["1.", "1", "1.0a", "1,0", "2.0", "", " 1.0", "1.\u0660", "11.0"]
ENCODINGS = ["8859", "", "u ", "-u", "\u00e9", "x\u00e9", ".u"]
ANSWERS = ["maybe", "Yes", "", "nono", "yes ", "ye"]


class Declarations:
    def __init__(self, seed):
        self.r = random.Random(seed)

    def mostly(self, good, bad):
        return self.r.choice(good if self.r.random() < 0.95 else bad)

    def part(self, name, values, wrong):
        q = self.r.choice("\"'")
        eq = self.r.choice(["", "", " ", "\t\r\n"]) + self.mostly(["="], ["==", "", ":"]) + self.r.choice(["", "", " "])
        word = self.mostly([name], [name[:-1], name + "x", name.upper()])
        return self.mostly([" ", "\n", "  "], [""]) + word + eq + self.mostly([q], [""]) + self.mostly(values, wrong) + self.mostly([q], ["", "\"", "'"])

    def declaration(self):
        version = self.part("version", ["1.0", "1.1", "1.00", "1.0123456789"], VERSIONS)
        encoding = self.part("encoding", ["UTF-8", "u", "Latin1", "a.b_c-d", "Zz-09"], ENCODINGS)
        standalone = self.part("standalone", ["yes", "no"], ANSWERS)
        parts = [version] + [x for x in (encoding, standalone) if self.r.random() < 0.6]
        if self.r.random() < 0.06:
            self.r.shuffle(parts)
        if self.r.random() < 0.04:
            parts.append(self.r.choice(parts))
        return self.mostly(["xml"], ["XML", "xm", "", "xmlx"]) + "".join(parts) + self.mostly(["", " ", "\r\n"], ["?", "x", " ="])


def declarations(seed, count):
    made = Declarations(seed)
    for _ in range(count):
        line("check_declaration", made.declaration().encode())
    line("check_declaration", b"")
    line("check_declaration", b"xml version='1.0'\xff")
    for size in (LIMIT - 1, LIMIT, LIMIT + 1):
        line("check_declaration", f"{b'xml version='.hex()}+22312e+30*{size - 16}+22")
        line("check_declaration", f"{b'xml version='.hex()}+22312e30+22+20*{size - 17}")


# The gate: sequences of calls on one record, each from a record to begin with.
def gates(seed, count):
    r = random.Random(seed)
    doctype, declaration = Doctypes(seed), Declarations(seed)
    for _ in range(count):
        bits = [r.choice("0001") for _ in range(3)]
        print("gate_set", "/".join(["-"] + bits + [str(r.choice([0, 0, 0, 1, 255, 256, 65534, 65535]))]), "", sep="\t")
        for _ in range(r.randint(1, 5)):
            if r.random() < 0.4:
                line("decl", r.choice([b"xml version='1.0'", declaration.declaration().encode(), b"\xff"]))
            else:
                text = doctype.damaged(doctype.doctype())
                texts = [b"a", text.encode(), text[:r.randint(0, len(text))].encode(), b"a[<!ENTITY e '\x01'>]", b"\xff", b"a b[", b"a[]"]
                line(r.choice(["doctype0", "doctype0", "doctype0", "doctype1", "doctype2"]), r.choice(texts))
    print("gate_set", "-/0/0/0/65534", "", sep="\t")
    for call in ("decl", "doctype0", "doctype1", "decl"):
        line(call, f"61*{LIMIT + 1}")


def main():
    print("# Made by tests/vectors/texts.py and answered by the unchanged Rust (docs/DIFFERENCES.md, \"Compared by running\").")
    characters()
    byte_sequences()
    name_ends()
    references()
    runs()
    mixtures(20261115, 700)
    limits()
    doctypes(20261116, 4000)
    signs()
    cuts(20261117, 40)
    declarations(20261118, 1500)
    gates(20261119, 500)


if __name__ == "__main__":
    sys.exit(main())
