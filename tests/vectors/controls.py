#!/usr/bin/env python3
"""Writes the front of crates/vectors/stdin: lines with a wrong answer, whose report stands in crates/vectors/stdout.

    python3 tests/vectors/controls.py            the lines
    python3 tests/vectors/controls.py --report   what the program has to say of them

A program that compared an answer with itself would find no line wrong: these show that it finds each. There is one for every call and for
every part of an answer (a number, yes or no, a letter, a length, a place, each part of a verdict, each field of the record), one with a call
that is not known, and malformed ones. The right answers are written by hand. What stands here is left out by tests/compare, which compares
with the Rust.
"""
import sys

DEEP = "a[<!ELEMENT b (c,d"
DOCUMENT = "\n<!DOCTYPE a[%p;<!ELEMENT>]> <a"
# the same with a name that only the fifth edition has, of three bytes
FIFTH = "\u13a0"
FIFTH_DOCUMENT = f"\n<!DOCTYPE a[%{FIFTH};<!ELEMENT>]> <{FIFTH}"

# call, wrong answer, right answer, text
CONTROLS = [
    # a number
    ("check_chars", "0", "18", "\x01"),
    ("check_text", "0", "19", "]]>"),
    ("check_attr_value", "0", "14", "<"),
    ("check_char_refs", "15", "0", "&"),
    ("check_name", "4", "0", "a"),
    ("check_doctype", "9", "0", "a"),
    ("check_declaration", "0", "17", "xml version='1.'"),
    ("check_name_fifth", "4", "0", FIFTH),
    ("check_doctype_fifth", "4", "0", FIFTH),
    # a number, yes or no
    ("utf8", "2y", "0y", "a"),
    ("utf8", "0n", "0y", "a"),
    ("is_ncname", "2n", "0n", "a:b"),
    ("is_ncname", "0y", "0n", "a:b"),
    # a letter; a letter and a length or a place
    ("scan", "c", "o", "a"),
    ("scan", "o", "c", "a["),
    ("scan", "c2", "p2", "a[]"),
    ("scan", "p1", "p2", "a[]"),
    ("name_part", "p1", "l1", "a b"),
    ("name_part", "l2", "l1", "a b"),
    ("doctype_name", "l2", "l1", " a b"),
    ("is_blank", "y", "n", " a"),
    ("first_byte", "b98", "b97", " a"),
    ("first_byte", "b0", "-", " "),
    # a number and a place
    ("check_chars_at", "18@0", "18@1", "a\x01"),
    ("check_text_at", "19@0", "19@1", "a]]>"),
    ("check_attr_value_at", "14@0", "14@1", "a<"),
    ("check_char_refs_at", "15@0", "15@1", "a&#;"),
    ("check_name_at", "4@0", "4@1", "a "),
    ("check_doctype_at", f"13@{len(DEEP) - 1}", f"13@{len(DEEP)}", DEEP + "|e)>]"),
    ("check_doctype_at", f"8@{len(DEEP)}", f"13@{len(DEEP)}", DEEP + "|e)>]"),
    ("check_declaration_at", "17@0", "17@13", "xml version='1.'"),
    ("check_name_fifth_at", "4@0", "4@3", FIFTH + " "),
    ("check_name_fifth_at", "0@3", "4@3", FIFTH + " "),
    ("check_doctype_fifth_at", "9@3", "9@4", FIFTH + " " + FIFTH),
    ("check_doctype_fifth_at", "4@4", "9@4", FIFTH + " " + FIFTH),
    # the verdict on a document: the number, and each of its parts
    ("check_document", "8@29:2:29/29/10-27/1", "0@29:2:29/29/10-27/1", DOCUMENT),
    ("check_document", "0@28:2:29/29/10-27/1", "0@29:2:29/29/10-27/1", DOCUMENT),
    ("check_document", "0@29:1:29/29/10-27/1", "0@29:2:29/29/10-27/1", DOCUMENT),
    ("check_document", "0@29:2:30/29/10-27/1", "0@29:2:29/29/10-27/1", DOCUMENT),
    ("check_document", "0@29:2:29/1/10-27/1", "0@29:2:29/29/10-27/1", DOCUMENT),
    ("check_document", "0@29:2:29/29/1-27/1", "0@29:2:29/29/10-27/1", DOCUMENT),
    ("check_document", "0@29:2:29/29/10-28/1", "0@29:2:29/29/10-27/1", DOCUMENT),
    ("check_document", "0@29:2:29/29/-/1", "0@29:2:29/29/10-27/1", DOCUMENT),
    ("check_document", "0@29:2:29/29/10-27/0", "0@29:2:29/29/10-27/1", DOCUMENT),
    ("check_document", "7@4:1:5/4/-/0", "7@4:1:5/0/-/0", "<!--"),
    # its parts are written alike for both editions: the number, and what only the names decide
    ("check_document_fifth", "4@31:2:29/31/10-29/1", "0@31:2:29/31/10-29/1", FIFTH_DOCUMENT),
    ("check_document_fifth", "0@31:2:29/31/10-29/0", "0@31:2:29/31/10-29/1", FIFTH_DOCUMENT),
    # the gate: the number or "open", and each field of the record
    ("gate_set", "x", "-/0/0/0/0", ""),
    ("decl", "17/1/0/0/0", "0/1/0/0/0", "xml version='1.0'"),
    ("decl", "21/0/0/0/1", "21/1/0/0/1", "xml version='1.0'"),
    ("doctype1", "21/1/1/0/2", "21/1/0/0/2", "a"),
    ("doctype2", "21/1/0/1/3", "21/1/0/0/3", "a"),
    ("doctype0", "9/1/1/0/3", "9/1/1/0/4", "a b"),
    ("gate_set", "-/0/0/0/", "-/0/0/0/0", ""),
    ("doctype0", "7/1/1/1/0", "open/1/1/1/0", "a["),
    ("doctype0", "open/1/1/1/1", "21/1/1/1/1", "a["),
]

UNKNOWN = "check_nothing\t0\t61"

MALFORMED = ["check_chars\t0", "check_chars\t0\t6", "check_chars\t0\t6g", "check_chars\t0\t61*"]

# tests/compare leaves out what stands between these two
HEAD = "# Wrong on purpose, made by tests/vectors/controls.py: the report of each of these lines stands in `stdout`."
TAIL = "# What follows is right."


def main():
    if sys.argv[1:] == ["--report"]:
        first = 2
        for i, (call, wrong, right, _) in enumerate(CONTROLS):
            print(f"line {first + i}: {call} wanted {wrong} got {right}")
        for i in range(len(MALFORMED)):
            print(f"line {first + len(CONTROLS) + 1 + i}: malformed")
        return
    print(HEAD)
    for call, wrong, _, text in CONTROLS:
        print(call, wrong, text.encode().hex(), sep="\t")
    print(UNKNOWN)
    for row in MALFORMED:
        print(row)
    print(TAIL)


if __name__ == "__main__":
    main()
