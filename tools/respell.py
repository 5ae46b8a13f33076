#!/usr/bin/env python3
"""Brings the repository's own definitions and lemmas to the spelling of today's Rattle: words in snake case, types in camel case.

usage: tools/respell.py            at the top of a repository that port.py has been over; prints the names that would fall together, and stops there

What is renamed is what the specs/ and proofs/ of the crates declare, wherever it stands: in their files, in the ghost lines and the clauses of
src/, and in must-fail edits. Functions of src/, exported names, strings and comments of src/ stay. Names that Rattle makes (goals, measures,
the statement of a function's proof) are declared nowhere but in proofs by hand, and stay too.
"""
import glob
import re
import sys

WORD = r"[\w'₀-₉]+"
NAME = re.compile(rf"(?<![\w'₀-₉\-+]){WORD}(?:-{WORD}[?]?)*[?]?(?:≢{WORD})?(?![\w'₀-₉\-])|(?<![\w'₀-₉\-+])[\w'₀-₉]+[?](?![\w'₀-₉\-])")
DASHED = re.compile(rf"(?<![\w'₀-₉.\-+@]){WORD}(?:-{WORD}[?]?)+(?:≢{WORD})?(?![\w'₀-₉\-])")
STRING = re.compile(r'("(?:[^"\\]|\\.)*")')
# names that Rattle's library or its statements make
MADE = set()
# names that would fall together with fields of the structs of which they speak
SPECIAL = {"has-doctype": "tells_doctype", "doctype-start": "start_of_doctype", "doctype-end": "end_of_doctype"}
# a rule and the function of the same name, which only paths name
APART = {"skip_s"}


def texts(kind):
    for part in ("specs", "proofs"):
        for f in sorted(glob.glob(f"crates/*/{part}/**/*.antt", recursive=True)):
            if (f.endswith("/Proof.antt")) == (kind == "by hand"):
                yield f


def read(f):
    with open(f, encoding="utf-8") as it:
        return it.read()


def new_name(n):
    if n in SPECIAL:
        return SPECIAL[n]
    if n[0].isupper():
        return "".join(p[0].upper() + p[1:] for p in n.split("-"))
    return "_".join(p.lower() if len(p) == 1 else p for p in n.split("-"))


def bare(line):
    """The line without its comment and its strings."""
    return STRING.sub('""', line).split("-- ")[0]


def library(line):
    """Names that the line imports from a library of the kit."""
    m = re.match(r"\s*(?:pub )?use ([\w.·+\-']+?)\.\{([^}]*)\}", line)
    if not m or (m.group(1).startswith("Rattle.") and m.group(1).split(".")[1] not in ("std", "core")):
        return set()
    return {w for x in (m.group(2) or "").split(",") for w in x.strip().split(" as ")}


def declared():
    """The names with a dash that lemma files have and no library of the kit, all words of these files, and what they import from the kit."""
    own, words, taken = set(), set(), set()
    for f in texts("lemmas"):
        for line in read(f).split("\n"):
            taken |= library(line)
            own |= set(DASHED.findall(bare(line)))
            words |= set(NAME.findall(bare(line)))
    return own - taken - MADE, words, taken


def turn(text, names):
    return "".join(p if p.startswith('"') else NAME.sub(lambda m: names.get(m.group(0), m.group(0)), p) for p in STRING.split(text))


def turn_source(text, names):
    """Only ghost lines, and what stands between the braces of a clause."""
    out = []
    clause = False
    for line in text.split("\n"):
        bare = line.strip()
        if re.match(r"(requires|ensures|ghost)\b", bare) or clause:
            clause = not (bare.endswith("}") or bare.endswith(";") or bare.endswith("},"))
            line = turn(line, names)
        out.append(line)
    return "\n".join(out)


def turn_edit(text, names):
    return "\n".join(turn(l, names) if re.match(r"(old|new):", l) else l for l in text.split("\n"))


def turn_by_hand(text, names):
    """A function's proof: its answers, and not the names of its goals, which stand in comments and behind 'tie.'."""
    out = []
    for line in text.split("\n"):
        head, dash, tail = line.partition("-- ")
        out.append(turn_head(head, names) + dash + tail)
    return "\n".join(out)


def turn_head(head, names):
    kept = []
    def keep(m):
        kept.append(m.group(0))
        return f"\x01{len(kept) - 1}\x02"
    head = turn(re.sub(r"\btie\.[\w\-']+", keep, head), names)
    return re.sub("\x01(\\d+)\x02", lambda m: kept[int(m.group(1))], head)


def main():
    old, own, taken = declared()
    names = {n: new_name(n) for n in sorted(old)}
    seen, together = {}, False
    for n, m in names.items():
        if m in seen or m in taken or (m in own and m not in APART):
            print(f"fall together: {n} and {seen.get(m, m)}, both {m}")
            together = True
        seen[m] = n
    if together:
        return 1
    files = [(f, turn) for f in texts("lemmas")] + [(f, turn_by_hand) for f in texts("by hand")]
    files += [(f, turn_source) for f in sorted(glob.glob("crates/*/src/**/*.rt", recursive=True))]
    files += [(f, turn_edit) for f in sorted(glob.glob("crates/*/must-fail/*.edit"))]
    for f, how in files:
        t = read(f)
        u = how(t, names)
        if u != t:
            with open(f, "w", encoding="utf-8") as it:
                it.write(u)
    print(f"{len(names)} names respelled")
    return 0


if __name__ == "__main__":
    raise SystemExit(main())
