#!/usr/bin/env python3
"""Writes the end of crates/vectors/stdin: the calls over the Cursor (crate `lent`), which the Rust keeps to itself, on texts written by hand.

`doctype_name` answers with the length of the name after leading white space, `is_blank` whether there is nothing but white space, and
`first_byte` the first byte after it, or `-` where there is none. They read any bytes.
"""
ROWS = [
    (b"", 0, "-"),
    (b" \t\r\n", 0, "-"),
    (b"a", 1, "b97"),
    (b" \n job[", 3, "b106"),
    (b"job SYSTEM 's'", 3, "b106"),
    (b":a-b.c_1 ", 8, "b58"),
    ("\u00e9t\u00e9 ".encode(), 5, "b195"),
    (b"\t1a", 0, "b49"),
    (b"\x0ba", 0, "b11"),
    ("\u00a0a".encode(), 0, "b194"),
    (b"a\xff", 1, "b97"),
    (b" \xff", 0, "b255"),
    (b"\x00", 0, "b0"),
]


def main():
    print("# Made by tests/vectors/cursors.py: the answers are written by hand.")
    for text, length, first in ROWS:
        print("doctype_name", f"l{length}", text.hex(), sep="\t")
        print("is_blank", "y" if first == "-" else "n", text.hex(), sep="\t")
        print("first_byte", first, text.hex(), sep="\t")


if __name__ == "__main__":
    main()
