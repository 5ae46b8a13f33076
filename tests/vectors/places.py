#!/usr/bin/env python3
"""Writes the end of crates/vectors/stdin: texts with the number and the place of their refusal, `call TAB number@place TAB hexadecimal`.

The Rust tells no places, so these are written by hand. A text comes in two pieces and is refused where the second begins; one that is
accepted has nothing in the second.
"""
LIMIT = 1048576

DOCTYPES = [
    # something missing: where it was expected
    (4, "", ""),
    (4, " ", "1"),
    (3, "a SYSTEM", ""),
    (3, "a SYSTEM", "'s'"),
    (6, "a SYSTEM ", "s"),
    (3, "a PUBLIC 'p'", ""),
    (3, "a PUBLIC 'p'", "'s'"),
    (9, "a ", "b"),
    (9, "a[]", "b"),
    (9, "a[] ", "]"),
    (8, "a[ ", "b]"),
    (4, "a[%", ";]"),
    (8, "a[%p", "]"),
    (8, "a[", "<!element b ANY>]"),
    (8, "a[%p; ", "<![INCLUDE[]]>]"),
    (3, "a[<!ELEMENT", "b ANY>]"),
    (4, "a[<!ELEMENT ", "(b)>]"),
    (3, "a[<!ELEMENT b", ">]"),
    (8, "a[<!ELEMENT b ", ">]"),
    (9, "a[<!ELEMENT b EMPTY", "X>]"),
    (4, "a[<!ELEMENT b (", ")>]"),
    (4, "a[<!ELEMENT b (c|", ")>]"),
    (8, "a[<!ELEMENT b (c ", "d)>]"),
    (8, "a[<!ELEMENT b (#PCDATA ", ",c)*>]"),
    (13, "a[<!ELEMENT b (#PCDATA|c)", ">]"),
    (3, "a[<!ATTLIST b\n  c CDATA #IMPLIED\n  d CDATA", "'e'\n  f ID #REQUIRED>]"),
    (8, "a[<!ATTLIST b\n  c ", "cdata #IMPLIED>]"),
    (4, "a[<!ATTLIST b c (d|", ") 'd'>]"),
    (6, "a[<!ATTLIST b c CDATA ", "#DEFAULT>]"),
    (3, "a[<!ATTLIST b c CDATA #FIXED", "'d'>]"),
    (8, "a[<!ENTITY e ", "d>]"),
    (9, "a[<!ENTITY e 'd' ", "NDATA n>]"),
    (4, "a[<!ENTITY e SYSTEM 's' NDATA ", ">]"),
    (8, "a[<!NOTATION n ", "'s'>]"),
    # something wrong: where it stands
    (15, "a[<!ENTITY e '", "&#x;'>]"),
    (15, "a[<!ENTITY e 'd&#65;", "&#65 '>]"),
    (15, "a[<!ENTITY % e '", "&#X41;'>]"),
    (16, "a[<!ENTITY e 'd", "&#4294967361;'>]"),
    (16, "a[<!ATTLIST b c CDATA '&#9;", "&#x0;'>]"),
    (14, "a[<!ATTLIST b c CDATA '&#;", "<'>]"),
    (10, "a PUBLIC 'p", "^' 's'"),
    (10, "a[<!NOTATION n PUBLIC '", "\t'>]"),
    (12, "a[<!--b", "--c-->]"),
    (12, "a[<!--", "------>]"),
    (5, "a[<!ENTITY b", ":c ''>]"),
    (5, "a[<!ENTITY % b.c", ": ''>]"),
    (5, "a[<!NOTATION n", ":o SYSTEM 's'>]"),
    (5, "a[<?b", ":c:d e?>]"),
    (11, "a[<?", "XmL?>]"),
    (4, "a[<?", "?>]"),
    (4, "a[<?b", "+c d?>]"),
    (13, "a[<!ELEMENT b (c,(d|e)*", "|f)>]"),
    (13, "a[<!ELEMENT b (c\n|d ", ",f)>]"),
    (20, "a[<!ELEMENT b " + "(" * 64, "(c)" + ")" * 64 + ">]"),
    (20, "a[<!ELEMENT b (c,d?," + "(" * 63, "(>]"),
    # something unterminated: directly behind the sign that opened it; a subset: at the text's end
    (7, "a SYSTEM '", "s\""),
    (7, "a[<!ELEMENT", " b (c)"),
    (7, "a[<!ATTLIST", " b c CDATA 'd>]"),
    (7, "a[<!--", "b--"),
    (7, "a[<!--", ">]"),
    (7, "a[<?", "b ?"),
    (7, "a[", ""),
    (7, "a[<!ELEMENT b ANY>%p; \n", ""),
    # accepted
    (0, "a", ""),
    (0, "a[<!ENTITY e '&#65;'><?b ]?>] ", ""),
    # a place counts bytes
    (9, "\u03c3\u1ff6\u03bc\u03b1[<!ENTITY \u65e5 '\U00010000'>]", "\u00e9"),
]

# by the fifth edition's names
FIFTH_DOCTYPES = [
    (0, "\u13a0[<!ELEMENT \u13a1 (\u2c00|a\u036f)*>]", ""),
    (9, "a\u13a0 ", "\u13a1"),
    (9, "\u13a0", "\u3000"),
    (4, "a[<!ELEMENT ", "\u203f ANY>]"),
    (3, "a[<!ELEMENT b\u203f", "\u037e ANY>]"),
    (4, "a[<!ELEMENT b (#PCDATA|\u200c|", "\u036f)*>]"),
    (8, "a[<!ATTLIST b c (\u036f|\u203f", "\u3000) 'd'>]"),
    (5, "a[<!ENTITY \u13a0", ":b 'c'>]"),
    (4, "a[<?\u13a0", "\u00d7 b?>]"),
    (8, "a[%\U000effff", "\U000f0000;]"),
    # unread, and not
    (0, "a[<!ELEMENT !! %\u13a0>]", ""),
    (4, "a[<!ELEMENT ", "!! %\u203f>]"),
    (15, "a[<!ENTITY e '%\u2ff0", "&#;'>]"),
]

DECLARATIONS = [
    (0, "xml version='1.0' encoding='UTF-8' standalone='yes' ", ""),
    (8, "", "XML version='1.0'"),
    (3, "xml", "version='1.0'"),
    (8, "xml ", "encoding='u'"),
    (8, "xml version ", "'1.0'"),
    (6, "xml version= ", "1.0"),
    (7, "xml version='", "1.0\""),
    (17, "xml version='", "1.'"),
    (3, "xml version='1.0'", "encoding='u'"),
    (17, "xml version='1.0' encoding=\"", "8-utf\""),
    (17, "xml version='1.0' standalone='", "Yes'"),
    (9, "xml version='1.0' standalone='no' ", "encoding='u'"),
]

OTHERS = [
    ("check_chars_at", 0, "a\tb\u00e9\ufffd", ""),
    ("check_chars_at", 18, "a\u00e9", "\u0001\u0002"),
    ("check_chars_at", 18, "\ufffd" * 40, "\uffff"),
    ("check_text_at", 0, "<]] >&#65;", ""),
    ("check_text_at", 19, "a]", "]]>&#;"),
    ("check_text_at", 15, "a & b ", "&#;]]>"),
    ("check_text_at", 18, "a" * 100, "\u001f"),
    ("check_attr_value_at", 0, "'\"", ""),
    ("check_attr_value_at", 14, "a&#60;", "<"),
    ("check_attr_value_at", 16, "a", "&#xD800;<"),
    ("check_char_refs_at", 0, "&#65;&lt;<", ""),
    ("check_char_refs_at", 15, "&#65;&", "&#6"),
    ("check_char_refs_at", 16, "a" * 200 + "&#65;", "&#1114112;"),
    ("check_name_at", 0, "a:b-c.\u00b7", ""),
    ("check_name_at", 4, "", ""),
    ("check_name_at", 4, "", "-a"),
    ("check_name_at", 4, "a" * 70, " "),
    ("check_name_at", 4, "\u00e9\u03c3", "\u0220"),
    ("check_name_fifth_at", 0, "\u00e9\u03c3\u0220", ""),
    ("check_name_fifth_at", 0, "\u13a0\u036f\U00010000", ""),
    ("check_name_fifth_at", 4, "", "\u036f\u13a0"),
    ("check_name_fifth_at", 4, "\u13a0" * 40, "\u3000"),
    ("check_name_fifth_at", 4, "a\U000effff", "\U000f0000"),
]

CALLS = ["check_chars_at", "check_text_at", "check_attr_value_at", "check_char_refs_at", "check_name_at", "check_doctype_at", "check_declaration_at",
         "check_name_fifth_at", "check_doctype_fifth_at"]


def line(call, number, place, digits):
    print(call, f"{number}@{place}", digits, sep="\t")


def main():
    print("# Made by tests/vectors/places.py: the places are written by hand.")
    rows = [("check_doctype_at", *row) for row in DOCTYPES] + [("check_declaration_at", *row) for row in DECLARATIONS] + OTHERS
    rows += [("check_doctype_fifth_at", *row) for row in FIFTH_DOCTYPES]
    for call, number, read_well, from_there in rows:
        front, rest = read_well.encode(), from_there.encode()
        line(call, number, len(front), (front + rest).hex())
    for call in CALLS:
        # the two numbers in front: where the bytes stop being UTF-8, and at the start of what is too long
        for front, rest in [(b"", b"\xff"), (b"a\xc3\xa9", b"\xed\xa0\x80"), (b"ab" * 40, b"\xe6\x97"), (b"\xf4\x8f\xbf\xbf", b"\xf4\x90\x80\x80")]:
            line(call, 2, len(front), (front + rest).hex())
        line(call, 1, 0, f"61*{LIMIT + 1}")


if __name__ == "__main__":
    main()
