#!/usr/bin/env python3
"""Writes the lines of `check_document`, `check_document TAB answer TAB hexadecimal`: the end of crates/vectors/stdin.

A question mark stands where the reference is to answer (tests/oracle/fill.rs). An answer is
`number@place:line:column/opened/doctype/unread`, the DOCTYPE's range as `start-end` or `-`. Some texts have an answer that was written by
hand, from docs/SCOPE.md and not by the reference: `make` holds the two to each other. The others are the files of tests/jobs, small documents
cut at every byte, encodings of every kind, and documents put together at random from fixed seeds, whole and damaged.
"""
import random
import sys
from pathlib import Path

# no folder of compiled files beside this one
sys.dont_write_bytecode = True
from texts import LIMIT, Declarations, Doctypes

JOBS = Path(__file__).resolve().parents[1] / "jobs"

# Number, line and column, and the text. › stands at the place and ‹ where `opened` is, if that is elsewhere; ⟦ and ⟧ stand around the text of
# an accepted document's DOCTYPE. A fourth number says how many declarations are unread. "\udcff" is the byte FF.
ACCEPTED = [
    (0, "1:1", "›<a"),
    (0, "1:1", "›<a b='c'>"),
    (0, "1:1", "›<:"),
    (0, "1:1", "›<a:b:c/>"),
    (0, "1:1", "›<é\u0300/>"),
    # nothing after the root's name is looked at
    (0, "1:1", "›<a\x01"),
    (0, "1:1", "›<a\udcff"),
    (0, "1:1", "›<a<!DOCTYPE a>"),
    (0, "1:1", "›<a\x00"),
    # white space, and where lines end
    (0, "1:3", " \t›<a>"),
    (0, "2:1", "\n›<a>"),
    (0, "3:2", "\r\n\r ›<a>"),
    (0, "3:1", "\n\r\n›<a>"),
    (0, "4:1", "\r\r\n\r›<a>"),
    # a byte order mark is passed over and counts for no column
    (0, "1:1", "\ufeff›<a>"),
    (0, "1:2", "\ufeff ›<a>"),
    (0, "1:22", "\ufeff<?xml version='1.0'?>›<a>"),
    (0, "1:22", "<?xml version='1.0'?>›<a>"),
    (0, "2:1", '<?xml version="1.99" standalone="no" ?>\n›<a>'),
    # comments and instructions
    (0, "1:8", "<!---->›<a>"),
    (0, "1:9", "<!----->›<a>"),
    (0, "1:10", "<!--->-->›<a>"),
    (0, "1:10", "<!--é>-->›<a>"),
    (0, "1:6", "<?b?>›<a>"),
    (0, "1:27", "<?xml-stylesheet href=''?>›<a>"),
    (0, "1:10", "<?b ?<-?>›<a>"),
    # a DOCTYPE ends where the grammar ends it
    (0, "1:13", "<!DOCTYPE⟦ a⟧>›<a>"),
    (0, "1:12", "<!DOCTYPE⟦a⟧>›<a>"),
    (0, "1:17", "<!DOCTYPE⟦ a [ ]⟧>›<b>"),
    (0, "2:2", "<!DOCTYPE⟦ a SYSTEM '>' [<!--]>--><?b ]>?><!ENTITY e ']>'>]\r⟧>›<a>"),
    (0, "1:20", "<!----><!DOCTYPE⟦ a⟧>›<a>"),
    (0, "1:20", "<!DOCTYPE⟦ a⟧><!---->›<a>"),
    # & goes unchecked
    (0, "1:30", "<!DOCTYPE⟦ a[<!ENTITY e '&'>]⟧>›<a>"),
    (0, "1:41", "<!DOCTYPE⟦ a[<!ATTLIST b c CDATA '&d;'>]⟧>›<a>"),
    # unread declarations
    (0, "1:31", "<!DOCTYPE⟦ a[<!ELEMENT !! %p>]⟧>›<a>", 1),
    (0, "1:28", "<!DOCTYPE⟦ a[%p;<!ELEMENT>]⟧>›<a>", 1),
    (0, "2:4", "<!DOCTYPE⟦ a[<!ENTITY e '%p'>%p;<!--%--><?b?>\n]⟧> ›<a>", 1),
    (0, "1:53", "<!DOCTYPE⟦ a[<!ATTLIST b>%p;<!ATTLIST b><!NOTATION>]⟧>›<a>", 2),
    (0, "1:31", "<!DOCTYPE⟦ a[<!ENTITY % p ''>]⟧>›<a>", 0),
    (0, "1:30", "<!DOCTYPE⟦ a[<!ENTITY e '%'>]⟧>›<a>", 0),
    (0, "1:21", "<!DOCTYPE⟦ a[%p;%p;]⟧>›<a>", 0),
]

# The text ends before its root, or within something: 7 at its end.
ENDED = [
    (7, "1:1", "›"),
    (7, "1:1", "\ufeff›"),
    (7, "1:2", " ›"),
    (7, "2:1", "\n›"),
    (7, "2:1", "\r›"),
    (7, "2:1", "\r\n›"),
    (7, "1:2", "‹<›"),
    (7, "1:3", "‹<!›"),
    (7, "1:4", "‹<!-›"),
    (7, "1:4", "‹<!a›"),
    (7, "1:5", "‹<!-a›"),
    (7, "1:9", "‹<!DOCTYP›"),
    (7, "1:14", "<!DOCTYPE a>‹<›"),
    (7, "1:5", "‹<!--›"),
    (7, "1:6", "‹<!-->›"),
    (7, "1:7", "‹<!--a-›"),
    (7, "1:10", "<?b?>‹<!--›"),
    (7, "1:3", "‹<?›"),
    (7, "1:5", "‹<?b?›"),
    (7, "1:5", "‹<?:?›"),
    (7, "1:6", "‹<?xml›"),
    (7, "1:20", "‹<?xml version='1.0'›"),
    (7, "1:20", "‹<?xml version='2.0'›"),
    (7, "1:22", "<?xml version='1.0'?>›"),
    (7, "1:13", "<!DOCTYPE a>›"),
    (7, "1:15", "<!DOCTYPE a>  ›"),
    # nothing but the DOCTYPE's head or subset is open
    (7, "1:10", "‹<!DOCTYPE›"),
    (7, "1:12", "‹<!DOCTYPE a›"),
    (7, "1:16", "‹<!DOCTYPE a PUB›"),
    (7, "1:19", "‹<!DOCTYPE a SYSTEM›"),
    (7, "1:20", "‹<!DOCTYPE a SYSTEM ›"),
    (7, "1:23", "‹<!DOCTYPE a PUBLIC 'p'›"),
    (7, "1:13", "‹<!DOCTYPE a[›"),
    (7, "1:14", "‹<!DOCTYPE a[]›"),
    (7, "1:14", "‹<!DOCTYPE a[%›"),
    (7, "1:15", "‹<!DOCTYPE a[%p›"),
    (7, "1:16", "‹<!DOCTYPE a[%p;›"),
    (7, "1:14", "‹<!DOCTYPE a[<›"),
    (7, "1:16", "‹<!DOCTYPE a[<!-›"),
    (7, "1:18", "‹<!DOCTYPE a[<!ELE›"),
    # whatever is wrong in it, as long as no > follows
    (7, "1:12", "‹<!DOCTYPE 1›"),
    (7, "1:14", "‹<!DOCTYPE a b›"),
    (7, "1:23", "‹<!DOCTYPE a PUBLIC '^'›"),
    (7, "1:14", "‹<!DOCTYPE a[b›"),
    (7, "1:16", "‹<!DOCTYPE a[<![›"),
    (7, "1:15", "‹<!DOCTYPE a[]]›"),
    # also directly behind a sign within it
    (7, "1:21", "‹<!DOCTYPE a SYSTEM '›"),
    (7, "1:17", "‹<!DOCTYPE a[<!--›"),
    (7, "1:15", "‹<!DOCTYPE a[<?›"),
    (7, "1:22", "‹<!DOCTYPE a[<!ELEMENT›"),
    # something in it is open
    (7, "1:22", "<!DOCTYPE a SYSTEM ‹'s›"),
    (7, "1:22", "<!DOCTYPE a PUBLIC ‹'^›"),
    (7, "1:18", "<!DOCTYPE a[‹<!--b›"),
    (7, "1:20", "<!DOCTYPE a[‹<!--b--›"),
    (7, "1:16", "<!DOCTYPE a[‹<?b›"),
    (7, "1:23", "<!DOCTYPE a[‹<!ELEMENT ›"),
    (7, "1:31", "<!DOCTYPE a[‹<!ENTITY e '>]><a>›"),
    (7, "2:3", "\ufeff<!DOCTYPE a[‹<!ATTLIST 1\r\n  ›"),
]

# What is no character ends the text: 2 and 18.
NO_CHARACTER = [
    (18, "1:1", "›\x01<a>"),
    (18, "1:1", "›\x00"),
    (18, "1:2", "‹<›\x01"),
    (18, "1:4", "‹<!-›\x01->"),
    (18, "1:14", "‹<!DOCTYPE a b›\x01><a>"),
    (18, "1:6", "‹<!--a›\x0b--><a>"),
    (18, "1:6", "‹<!--a›\uffff--><a>"),
    (18, "1:7", " <?b?>›\x1f<a>"),
    (18, "1:14", "‹<!DOCTYPE a[<›\x01!--"),
    (18, "1:17", "‹<!DOCTYPE a[<!--›\x01-->]><a>"),
    (18, "1:25", "<!DOCTYPE a[‹<!ENTITY e '›\x01'>]><a>"),
    (2, "1:2", "‹<›\udcff"),
    (2, "1:1", "›\udcef\udcbb"),
    (2, "1:6", "‹<!--a›\udcff--><a>"),
    (2, "1:6", "‹<!--a›\udcc3"),
    (2, "1:7", "‹<!--aé›\udced\udca0\udc80--><a>"),
    (2, "1:12", "‹<!DOCTYPE a›\udc80>"),
    # whatever else is wrong in what does not end; but what is wrong before decides
    (18, "1:25", "<!DOCTYPE a[‹<!ELEMENT 1 ›\x01>]>"),
    (4, "1:23", "<!DOCTYPE a[<!ELEMENT ›1 ANY>\x01]>"),
    (2, "1:20", "‹<?xml version='2.0'›\udcff?><a>"),
    (12, "1:5", "<!--›----><\x01"),
    # what looks like UTF-16 or UTF-32
    (2, "1:1", "›\udcfe\udcff\x00<\x00a"),
    (2, "1:1", "›\udcff\udcfe<\x00a\x00"),
    (2, "1:1", "›\x00<\x00a"),
    (2, "1:1", "›<\x00a\x00"),
    (2, "1:1", "›\x00\x00\udcfe\udcff"),
    (2, "1:1", "›\udcff\udcfe\x00\x00"),
    (2, "1:1", "›\x00\x00\x00<"),
    (2, "1:1", "›<\x00\x00\x00"),
]

DECLARED = "<?xml version='1.0' encoding='"
# The declaration, and the encoding that it names. `DECLARED` has 30 characters.
ENCODED = [
    (0, "1:39", DECLARED + "UTF-8'?>›<é>"),
    (0, "1:39", DECLARED + "uTf-8'?>›<a>"),
    (0, "1:42", DECLARED + "us-ascii'?>›<é>"),
    (0, "1:50", DECLARED + "US-ASCII'?><!--é-->›<a>"),
    (0, "1:44", DECLARED + "ISO-8859-1'?>›<a>"),
    (0, "1:45", DECLARED + "iso-8859-16'?>›<a>"),
    (0, "1:46", DECLARED + "Windows-1250'?>›<a>"),
    (2, "1:31", DECLARED + "›UTF-16'?><a>"),
    (2, "1:31", "\ufeff" + DECLARED + "›utf-16'?><a>"),
    (2, "1:31", DECLARED + "›utf8'?><a>"),
    (2, "1:31", DECLARED + "›ISO-8859-17'?><a>"),
    (2, "1:31", DECLARED + "›ISO-8859-0'?><a>"),
    (2, "1:31", DECLARED + "›windows-1259'?><a>"),
    (2, "1:31", DECLARED + "›UTF-8-'?><a>"),
    # a declaration that is refused names none
    (17, "1:46", DECLARED + "x' standalone='›maybe'?><a>"),
    (9, "1:43", DECLARED + "ISO-8859-1' ›é?><a>"),
    # the first byte of 128 or more
    (2, "1:45", DECLARED + "ISO-8859-1'?>‹<›é/>"),
    (2, "1:45", DECLARED + "ISO-8859-1'?>‹<›\udce9/>"),
    (0, "1:44", DECLARED + "ISO-8859-1'?>›<aé/>"),
    (2, "1:48", DECLARED + "ISO-8859-1'?>‹<!--›é--><a>"),
    (2, "1:58", DECLARED + "windows-1252'?>‹<!DOCTYPE a[›\uffff]><a>"),
    (18, "1:50", DECLARED + "windows-1252'?>‹<!--›\x01é--><a>"),
    # production 23
    (17, "1:31", DECLARED + "›8859'?><a>"),
    (17, "1:31", DECLARED + "›'?><a>"),
    (17, "1:16", "<?xml version='›1.'?><a>"),
    (3, "1:20", "<?xml version='1.0'›encoding='u'?><a>"),
    (8, "1:7", "<?xml ›encoding='u'?><a>"),
    (8, "1:15", "<?xml version ›'1.0'?><a>"),
    (6, "1:15", "<?xml version=›1.0?><a>"),
    (9, "1:20", "<?xml version='1.0'›x?><a>"),
    (7, "1:16", "<?xml version='›1.0?><a b=''>"),
]

REFUSED = [
    # an XML declaration that is not first, a second DOCTYPE
    (21, "1:2", " ›<?xml version='1.0'?><a>"),
    (21, "1:22", "<?xml version='1.0'?>›<?xml version='1.0'?><a>"),
    (21, "1:8", "<!---->›<?xml version='2.0'?><a>"),
    (21, "1:13", "<!DOCTYPE a>›<!DOCTYPE a><a>"),
    (21, "1:13", "<!DOCTYPE a>›<!DOCTYPE 1"),
    # comments and instructions, as in a subset
    (12, "1:6", "<!--a›--b--><a>"),
    (12, "1:5", "<!--›----><a>"),
    (4, "1:3", "<?›?><a>"),
    (4, "1:3", "<?› b?><a>"),
    (4, "1:3", "<?›1?><a>"),
    (4, "1:4", "<?b›+c?><a>"),
    (5, "1:4", "<?b›:c:d?><a>"),
    (11, "1:3", "<?›XML version='1.0'?><a>"),
    (11, "1:8", "<?b?><?›xMl?><a>"),
    # an XML declaration without anything, and one that is not first
    (3, "1:6", "<?xml›?><a>"),
    (21, "1:6", "<?b?>›<?xml?><a>"),
    (4, "1:6", "<?xml›+?><a>"),
    # what begins nothing that may stand there
    (8, "1:1", "›a"),
    (8, "1:1", "›&#32;<a>"),
    (8, "1:1", "\ufeff›\ufeff<a>"),
    (8, "1:1", "›<!doctype a><a>"),
    (8, "1:1", "›<!DOCTYPX a><a>"),
    (8, "1:1", "›<!-a>"),
    (8, "1:1", "›<![CDATA[]]>"),
    (8, "1:13", "<!DOCTYPE a>›><a>"),
    (4, "1:2", "<›/a>"),
    (4, "1:2", "<›1>"),
    (4, "1:2", "<› a>"),
    (4, "1:2", "<›>"),
    (4, "1:2", "<›\u0220>"),
    (4, "1:2", "<›\u0300>"),
    # the DOCTYPE's head
    (4, "1:10", "<!DOCTYPE›><a>"),
    (4, "1:11", "<!DOCTYPE ›1><a>"),
    (9, "1:13", "<!DOCTYPE a ›b><a>"),
    (9, "1:13", "<!DOCTYPE a ›SYST ><a>"),
    (9, "1:14", "<!DOCTYPE a[]›]><a>"),
    (3, "1:19", "<!DOCTYPE a SYSTEM›><a>"),
    (6, "1:20", "<!DOCTYPE a SYSTEM ›s><a>"),
    (10, "1:21", "<!DOCTYPE a PUBLIC '›^' 's'><a>"),
    (10, "1:21", "<!DOCTYPE a PUBLIC '›^'>"),
    # its subset
    (8, "1:13", "<!DOCTYPE a[›<![INCLUDE[]]>]><a>"),
    (8, "1:13", "<!DOCTYPE a[›<!element b ANY>]><a>"),
    (8, "1:13", "<!DOCTYPE a[›b]><a>"),
    (8, "1:15", "<!DOCTYPE a[%p›]><a>"),
    (8, "1:25", "<!DOCTYPE a[<!ELEMENT b ›>]><a>"),
    (15, "2:13", "<!DOCTYPE a [\r\n<!ENTITY e '›&#;'>]><a>"),
    (15, "2:14", "<!DOCTYPE a [\n<!ENTITY é 'é›&#;'>]><a>"),
    (14, "1:32", "<!DOCTYPE a[<!ATTLIST b c ID 'd›<'>]><a>"),
    (13, "3:2", "\ufeff\n<!DOCTYPE a[<!ELEMENT b (c|d\r ›,e)>]><a>"),
    (20, "1:89", "<!DOCTYPE a[<!ELEMENT b " + "(" * 64 + "›(c" + ")" * 65 + ">]><a>"),
    (11, "1:15", "<!DOCTYPE a[<?›xml?>]><a>"),
    (12, "1:17", "<!DOCTYPE a[<!--›---->]><a>"),
]

HAND = ACCEPTED + ENDED + NO_CHARACTER + ENCODED + REFUSED


written = set()


def line(answer, text):
    digits = text if isinstance(text, str) else text.hex()
    if digits not in written:
        written.add(digits)
        print("check_document", answer, digits, sep="\t")


def by_hand(row):
    """The answer and the bytes of a row."""
    number, where, marked = row[:3]
    unread = row[3] if len(row) > 3 else 0
    places, text = {}, b""
    for c in marked:
        if c in "‹›⟦⟧":
            places[c] = len(text)
        else:
            text += c.encode(errors="surrogateescape")
    place = places["›"]
    doctype = f"{places['⟦']}-{places['⟧']}" if "⟦" in places else "-"
    return f"{number}@{place}:{where}/{places.get('‹', place)}/{doctype}/{unread}", text


# Cut at every byte.
SMALL = [
    b"<a/>",
    b"\xef\xbb\xbf<\xc3\xa9>",
    b"\r\n<?xml-b c?>\r<a>",
    b"<?xml version='1.0'?><a>",
    b"<?xml version='1.0' encoding='utf-8'?>\n<a>",
    b"<?xml version='1.0' encoding='windows-1252' standalone='yes'?><!--\xe9--><a>",
    b"<?xml version='1.0' encoding='UTF-16'?><a>",
    b"<!--b-c--><a>",
    b"<!--b--c--><a>",
    b"<?b c?><?:?><a>",
    b"<!DOCTYPE a><a>",
    b"<!DOCTYPE a><!---->\n<!DOCTYPE a><a>",
    b"<!DOCTYPE a SYSTEM '>' ><a>",
    b'<!DOCTYPE a PUBLIC "-//B" \'c\' [\n]><a>',
    b"<!DOCTYPE a[%p;<!ENTITY '>'>]><a>",
    b"<!DOCTYPE a [<!ELEMENT b (c|d)*><?e ]>?>]><a>",
    b"<!DOCTYPE a [<!ATTLIST b c CDATA '>' d (e|f) #IMPLIED>]><a>",
    b"<!DOCTYPE a[<!--]>--><!NOTATION n PUBLIC 'p'>]><a>",
    b"<!DOCTYPE a[\r\n<!ENTITY % \xc3\xa9 '&#65;'>\r\n]>\r\n<a>",
    b"<!DOCTYPE a[<!ENTITY e '\x01'>]><a>",
]


def cuts():
    for text in SMALL:
        for end in range(len(text) + 1):
            line("?", text[:end])


def jobs():
    for path in sorted(JOBS.glob("*.xml")):
        line("?", path.read_bytes())


# What may follow a declaration that names an encoding: all of it ASCII, or with a byte of 128 or more.
BEHIND = [b"<a/>", b"<!--\xe9--><a/>", b"<!DOCTYPE a[<!ENTITY e '\xc3\xa9'>]><a/>", b"<\xc3\xa9/>", b"<a\xe9/>"]


def encodings():
    names = [f"ISO-8859-{k}" for k in range(18)] + [f"windows-{k}" for k in range(1249, 1260)]
    names += ["UTF-8", "utf-8", "US-ASCII", "Us-Ascii", "iso-8859-11", "WINDOWS-1251", "ISO_8859-1", "ISO-8859-01", "ISO-8859-1x", "ISO-8859-100", "windows-125", "windows-12500"]
    names += ["UTF-7", "UTF-16LE", "UTF-32", "ISO-10646-UCS-2", "EUC-JP", "Shift_JIS", "GB18030", "IBM037", "latin1", "ASCII", "U", "1", ""]
    for k, name in enumerate(names):
        line("?", f'<?xml version="1.0" encoding="{name}"?>'.encode() + BEHIND[k % len(BEHIND)])
    for text in BEHIND:
        for name in ("UTF-8", "US-ASCII", "ISO-8859-5", "windows-1258"):
            line("?", f"<?xml version='1.0' encoding='{name}' ?>\n".encode() + text)
    for coding in ("utf-16", "utf-16-le", "utf-16-be", "utf-32", "utf-32-le", "utf-32-be"):
        for text in ("<a/>", "\ufeff<a/>", "<?xml version='1.0'?><a/>", " <a/>"):
            line("?", text.encode(coding))
    for mark in (b"\xef\xbb\xbf", b"\xef\xbb", b"\xfe\xff", b"\xff\xfe", b"\0\0\xfe\xff", b"\0\0\xff\xfe", b"\0", b"\0\0", b"\0\0\0", b"\0\0<\0", b"<\0"):
        line("?", mark)
        line("?", mark + b"<a/>")
        line("?", b"\xef\xbb\xbf" + mark + b"<a/>")


# Characters at the ends of productions 2 and 5, each where a document can hold it.
def characters():
    for c in (0, 8, 9, 0xB, 0xD, 0x1F, 0x20, 0x7F, 0xA0, 0xD7FF, 0xE000, 0xFEFF, 0xFFFD, 0xFFFE, 0xFFFF, 0x10000, 0x10FFFF):
        for front, rest in (("", "<a/>"), ("<!--", "--><a/>"), ("<?b ", "?><a/>"), ("<!DOCTYPE a[", "]><a/>"), ("<!DOCTYPE a[<!ENTITY e '", "'>]><a/>"), ("<", "/>")):
            line("?", (front + chr(c) + rest).encode())
    for c in (":", "_", "A", "z", "-", ".", "0", "\u00b7", "\u00d7", "\u0131", "\u0132", "\u0220", "\u0300", "\u3007", "\u3400", "\u4e00", "\u9fa6", "\uac00", "\ud7a4"):
        line("?", f"<!DOCTYPE a{c} [<!ELEMENT {c} ANY>]><{c}>".encode())
        line("?", f"<?{c}?><{c}/>".encode())


# Documents put together at random.
WOUNDS = [b"\x01", b"\xff", b"\xc3", b"\xc3\xa9", b"--", b"-->", b"]", b">", b'"', b"'", b"<", b"<!", b"?>", b"<?", b"[", b"%p;", b"%", b"\r", b"\n", b" ", b"\xef\xbb\xbf", b"<!DOCTYPE", b"<?xml "]


class Documents:
    def __init__(self, seed):
        self.r = random.Random(seed)
        self.doctypes = Doctypes(seed)
        self.declarations = Declarations(seed)

    def one(self, *options):
        return self.r.choice(options)

    def miscellaneous(self):
        items = ["", " ", "\r\n", "<!-- b -->", "<?b c?>", "<!--\u00e9-->", self.doctypes.comment(), self.doctypes.instruction()]
        return "".join(self.r.choice(items) for _ in range(self.r.randint(0, 3)))

    def declaration(self):
        name = self.one("UTF-8", "utf-8", "US-ASCII", "ISO-8859-1", "windows-1252", "UTF-16")
        usual = f"xml version='1.0' encoding='{name}'" + self.one("", " ", " standalone='no'")
        return "<?" + self.one('xml version="1.0"', usual, self.declarations.declaration()) + "?>"

    def document(self):
        text = self.one("", "", "", "\ufeff") + self.one("", self.declaration()) + self.miscellaneous()
        if self.r.random() < 0.8:
            text += "<!DOCTYPE" + self.doctypes.doctype() + ">" + self.miscellaneous()
        if self.r.random() < 0.05:
            text += self.one("<!DOCTYPE a>", "<?xml version='1.0'?>")
        return (text + self.one("<a/>", "<a/>", "<b:c d='e'>", "<\u00e9>", "<1>", "</a>", "")).encode()

    def damaged(self, text):
        at = self.r.randrange(len(text) + 1)
        kind = self.r.randrange(5)
        if kind == 0:
            return text[:at] + text[at + 1:]
        if kind == 1:
            return text[:at]
        return text[:at] + self.r.choice(WOUNDS) + text[at + self.r.randint(0, 1):]


def documents(seed, count):
    made = Documents(seed)
    for k in range(count):
        text = made.document()
        line("?", text if k % 3 == 0 else made.damaged(text))


# Prologs around 65,536 bytes: a check that tries a front part first goes over to the whole somewhere.
def fronts():
    def filled(front, sign, size, rest):
        """`front`, so many signs that `rest` begins at `size`, and `rest`."""
        line("?", f"{front.hex()}+{sign.hex()}*{size - len(front)}+{rest.hex()}")

    declared = b"<?xml version='1.0' encoding='%s'?><!--"
    for size in range(65531, 65540):
        filled(b"<!--", b"a", size, b"--><\xc3\xa9/>")
        filled(b"<!--", b"a", size, b"\xe6\x97\xa5--><a/>")
        filled(b"\xef\xbb\xbf<!--", b"a", size, b"")
        filled(b"<!DOCTYPE a[", b" ", size, b"<!ELEMENT %p>]><a/>")
        filled(b"<?xml", b" ", size, b"version='1.0' encoding='UTF-16'?><a/>")
    for size in range(65535, 65538):
        filled(b"<!--", b"\n", size, b"\x01--><a/>")
        filled(b"<!--", b"a", size, b"\xff--><a/>")
        filled(b"<!--", b"a", size, b"--b--><a/>")
        filled(b"<!DOCTYPE a[", b"\r", size, b"<!ELEMENT 1 ANY>]><a/>")
        filled(declared % b"ISO-8859-1", b"a", size, b"\xc3\xa9--><a/>")
        filled(declared % b"ISO-8859-1", b"a", size, b"--><a/>\xff")
        filled(declared % b"UTF-16", b"a", size, b"--><a/>")


# DOCTYPEs around the longest, and groups around the most.
def limits():
    front, back = b"<!DOCTYPE a[".hex(), b"]><a/>".hex()
    for size in (LIMIT - 1, LIMIT, LIMIT + 1):
        line("?", f"{front}+20*{size - 4}+{back}")
        line("?", f"{front}+{b'<!--'.hex()}+2d61*{(size - 11) // 2}+{b'-->'.hex()}+20*{(size - 11) % 2}+{back}")
    for height in (63, 64, 65):
        line("?", f"{b'<!DOCTYPE a[<!ELEMENT b '.hex()}+28*{height}+63+29*{height}+3e{back}")


def main():
    print("# Made by tests/vectors/documents.py: the answers are written by hand.")
    for row in HAND:
        line(*by_hand(row))
    print("# Made by tests/vectors/documents.py, and answered by the reference of tests/oracle.")
    jobs()
    cuts()
    encodings()
    characters()
    documents(20261120, 700)
    fronts()
    limits()


if __name__ == "__main__":
    main()
