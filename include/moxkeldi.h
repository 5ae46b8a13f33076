/*
 * Moxkeldi: checks of an XML document's prolog: its XML declaration, its DOCTYPE, and what stands around them.
 *
 * To check a document, call moxkeldi_check_document, or moxkeldi_check_document_fifth where its names need the letters of XML 1.0's fifth
 * edition. The other calls are for those who have cut a document into its parts already.
 *
 * Link with libmoxkeldi.a (x86-64 Linux), which `rt lib` in crates/moxkeldi writes to its folder out/. It needs no other library.
 *
 * Every function takes a text as its bytes and answers with a number: 0 where the text is accepted, else the reason why not
 * (enum moxkeldi_number). Every function ends and stays within its arguments on all bytes; nothing has to be checked beforehand.
 *
 * What a caller owes:
 *   - `text` points to `len` bytes that can be read. Where `len` is 0 no byte is read, and `text` may be NULL.
 *     The text needs no final 0; a 0 inside it is a byte like any other.
 *   - The other pointers are not NULL, are aligned for their type, and point to memory that neither the text nor another
 *     argument of the call shares.
 *   - A bool that the library reads (the fields of moxkeldi_gate) holds 0 or 1.
 *
 * Threads: the library keeps nothing between calls but what is in the caller's own moxkeldi_gate. Any calls may run at the same
 * time as long as no two of them work on the same record.
 */
#ifndef MOXKELDI_H
#define MOXKELDI_H

#include <stdbool.h>
#include <stddef.h>
#include <stdint.h>

#define MOXKELDI_VERSION "0.3.0"
#define MOXKELDI_VERSION_MAJOR 0
#define MOXKELDI_VERSION_MINOR 3
#define MOXKELDI_VERSION_PATCH 0

/* An answer that is ignored is a text that was not checked: compilers that can, warn of it. */
#if defined(__cplusplus)
#if __cplusplus >= 201703L
#define MOXKELDI_MUST_USE [[nodiscard]]
#endif
#elif defined(__STDC_VERSION__) && __STDC_VERSION__ > 201710L
#define MOXKELDI_MUST_USE [[nodiscard]]
#endif
#ifndef MOXKELDI_MUST_USE
#if defined(__GNUC__)
#define MOXKELDI_MUST_USE __attribute__((warn_unused_result))
#else
#define MOXKELDI_MUST_USE
#endif
#endif

#ifdef __cplusplus
extern "C" {
#endif

/*
 * The numbers. Of a part of a document 1 comes before 2 and 2 before the others; among the others it is the first one that is met in
 * reading.
 */
enum moxkeldi_number {
    MOXKELDI_ACCEPTED = 0,
    MOXKELDI_TOO_LONG = 1,            /* longer than MOXKELDI_LIMIT bytes; or a prolog that goes on beyond what is held of a document */
    MOXKELDI_NOT_UTF8 = 2,            /* the bytes are not UTF-8 (RFC 3629); or a document names another encoding */
    MOXKELDI_SPACE_REQUIRED = 3,      /* white space is required */
    MOXKELDI_BAD_NAME = 4,            /* a name, a token or an instruction's target is bad or missing */
    MOXKELDI_COLON = 5,               /* a colon in the name of an entity or a notation, or in an instruction's target */
    MOXKELDI_LITERAL_MISSING = 6,     /* a quoted literal is missing */
    MOXKELDI_UNTERMINATED = 7,        /* a literal, a declaration, a comment, an instruction or the subset does not end; or a document ends
                                         before its root */
    MOXKELDI_UNEXPECTED = 8,          /* another sign or word was expected; also a conditional section */
    MOXKELDI_TRAILING = 9,            /* something is left over at the end */
    MOXKELDI_PUBLIC_ID = 10,          /* a character that a public identifier must not hold */
    MOXKELDI_RESERVED_TARGET = 11,    /* an instruction with the target xml, in any case */
    MOXKELDI_DOUBLE_HYPHEN = 12,      /* -- in a comment */
    MOXKELDI_CONTENT_MODEL = 13,      /* , and | in one group; or a mixed model with names that does not end in )* */
    MOXKELDI_LESS_THAN = 14,          /* < in an attribute's value or default */
    MOXKELDI_BAD_REFERENCE = 15,      /* a malformed character reference */
    MOXKELDI_ILLEGAL_REFERENCE = 16,  /* a reference to a character that XML does not allow */
    MOXKELDI_DECLARATION_VALUE = 17,  /* the value of version, encoding or standalone */
    MOXKELDI_ILLEGAL_CHARACTER = 18,  /* a character that XML does not allow */
    MOXKELDI_CDATA_END = 19,          /* ]]> in text */
    MOXKELDI_TOO_DEEP = 20,           /* a 65th open group in a content model */
    MOXKELDI_OUT_OF_PLACE = 21        /* the XML declaration is not first, a second DOCTYPE, or one that is not in the prolog */
};

/* A number in words, for a person: "accepted" for 0. They may change from one version to the next; the numbers stay. */
static inline const char *moxkeldi_words(uint8_t number)
{
    switch (number) {
    case MOXKELDI_ACCEPTED: return "accepted";
    case MOXKELDI_TOO_LONG: return "longer than 1,048,576 bytes, or a prolog that goes on beyond what is held";
    case MOXKELDI_NOT_UTF8: return "not UTF-8, or another encoding is named";
    case MOXKELDI_SPACE_REQUIRED: return "white space is required";
    case MOXKELDI_BAD_NAME: return "a name, a token or a target is bad or missing";
    case MOXKELDI_COLON: return "a colon where none may stand";
    case MOXKELDI_LITERAL_MISSING: return "a quoted literal is missing";
    case MOXKELDI_UNTERMINATED:
        return "a literal, a declaration, a comment, an instruction or the subset does not end, or the text ends before the root";
    case MOXKELDI_UNEXPECTED: return "another sign or word was expected";
    case MOXKELDI_TRAILING: return "something is left over at the end";
    case MOXKELDI_PUBLIC_ID: return "a character that a public identifier must not hold";
    case MOXKELDI_RESERVED_TARGET: return "the target xml is reserved";
    case MOXKELDI_DOUBLE_HYPHEN: return "-- in a comment";
    case MOXKELDI_CONTENT_MODEL: return "mixed connectors in a content model, or a mixed model with names that does not end in )*";
    case MOXKELDI_LESS_THAN: return "< in an attribute value or default";
    case MOXKELDI_BAD_REFERENCE: return "a malformed character reference";
    case MOXKELDI_ILLEGAL_REFERENCE: return "a reference to a character that XML does not allow";
    case MOXKELDI_DECLARATION_VALUE: return "the value of version, encoding or standalone";
    case MOXKELDI_ILLEGAL_CHARACTER: return "a character that XML does not allow";
    case MOXKELDI_CDATA_END: return "]]> in text";
    case MOXKELDI_TOO_DEEP: return "more than 64 open groups in a content model";
    case MOXKELDI_OUT_OF_PLACE: return "the declaration is not first, or the DOCTYPE is a second one or not in the prolog";
    default: return "no number of the table";
    }
}

/* No longer text is looked at; of a document, no longer DOCTYPE. */
#define MOXKELDI_LIMIT 1048576

/*
 * A whole document. Accepted means: the text begins with a prolog of XML 1.0 (an XML declaration, comments and instructions, a DOCTYPE
 * with every declaration in it; all of them may be missing) in UTF-8, and an element begins after it. Nothing after the root's name is
 * looked at. Entities are not expanded, and beyond the grammar and what character references stand for no constraint on well-formedness
 * is checked. A byte order mark of UTF-8 in front is passed over. A document that names an encoding other than UTF-8 or US-ASCII is
 * refused with 2, but for ISO-8859-1 to -16 and windows-1250 to -1258, which pass as long as the prolog is ASCII.
 *
 * The answer is 0 or any of the table but 19. The document may have any length. All fields of *verdict are written, whatever the answer.
 */
typedef struct {
    size_t place;         /* how many bytes stand before the place of the refusal; where accepted, before the root element */
    size_t line;          /* its line, from 1; a line ends with CR, LF or CR LF */
    size_t column;        /* its column, from 1, in characters; a byte order mark counts for none */
    size_t opened;        /* where what does not end was opened; the same as `place` where nothing was */
    size_t has_doctype;   /* 1 where the document is accepted and has a DOCTYPE, else 0 */
    size_t doctype_start; /* with a DOCTYPE: the text between `<!DOCTYPE` and its `>` goes from here */
    size_t doctype_end;   /* to here, the place of the `>`; both are 0 without one */
    size_t unread;        /* how many of its declarations were only delimited, not read, because of parameter entities */
} moxkeldi_verdict;

MOXKELDI_MUST_USE uint8_t moxkeldi_check_document(const uint8_t *text, size_t len, moxkeldi_verdict *verdict);

/*
 * The same by the names of XML 1.0's fifth edition. What follows is said of every call with _fifth: it is the call of the same name
 * without _fifth, but a name is what productions 4, 4a and 5 of the fifth edition say, where the other calls go by Appendix B of the
 * earlier editions. That is many more scripts, among them Ethiopic, Khmer and Cherokee, and all of U+10000 to U+EFFFF. Use it where
 * names need these and the programs that read the document afterwards know them too; one that goes by the earlier editions does not.
 *
 * What the call without _fifth accepts, the one with it accepts too. It may read less of it: a declaration with a % directly before a
 * letter that only the fifth edition has is only delimited there, since a parameter entity may be meant. The gate (moxkeldi_decl and
 * moxkeldi_doctype) and moxkeldi_is_ncname stay on Appendix B.
 */
MOXKELDI_MUST_USE uint8_t moxkeldi_check_document_fifth(const uint8_t *text, size_t len, moxkeldi_verdict *verdict);

/*
 * The checks of a document's parts. The answer is 0 (accepted) or one of 1 to 20.
 */

/* Every character is one that XML allows (production 2). */
MOXKELDI_MUST_USE uint8_t moxkeldi_check_chars(const uint8_t *text, size_t len);

/* Character data between tags: allowed characters, no ]]>, character references in order. */
MOXKELDI_MUST_USE uint8_t moxkeldi_check_text(const uint8_t *text, size_t len);

/* An attribute's value, without its quotes: allowed characters, no <, character references in order. */
MOXKELDI_MUST_USE uint8_t moxkeldi_check_attr_value(const uint8_t *text, size_t len);

/* Only the character references (&#65; &#x41;) of a text. */
MOXKELDI_MUST_USE uint8_t moxkeldi_check_char_refs(const uint8_t *text, size_t len);

/* The whole text is one name (production 5), with the letters of XML 1.0's Appendix B or of its fifth edition. */
MOXKELDI_MUST_USE uint8_t moxkeldi_check_name(const uint8_t *text, size_t len);
MOXKELDI_MUST_USE uint8_t moxkeldi_check_name_fifth(const uint8_t *text, size_t len);

/* A DOCTYPE: the text between `<!DOCTYPE` and its closing `>`, with the internal subset and every declaration in it.
   It does not look for characters that XML does not allow; moxkeldi_check_chars does. moxkeldi_doctype below makes both checks. */
MOXKELDI_MUST_USE uint8_t moxkeldi_check_doctype(const uint8_t *text, size_t len);
MOXKELDI_MUST_USE uint8_t moxkeldi_check_doctype_fifth(const uint8_t *text, size_t len);

/* An XML declaration: the text between `<?` and `?>`, as in  xml version="1.0" encoding="UTF-8"  */
MOXKELDI_MUST_USE uint8_t moxkeldi_check_declaration(const uint8_t *text, size_t len);

/* Only whether the bytes are UTF-8: 0, 1 or 2. */
MOXKELDI_MUST_USE uint8_t moxkeldi_check_utf8(const uint8_t *text, size_t len);

/*
 * All of these but the last once more, with a place. The answer is that of the check of the same name without _at, and *place is where
 * reading stopped: how many bytes of the text stand before the place of the refusal, or `len` where the text is accepted; never more
 * than `len`. What is missing is refused where it was expected; what is wrong, where it stands (a character reference at its &); what
 * does not end, directly behind the sign that opened it, but a subset at the text's end. Bytes that are not UTF-8 are refused where the
 * first of them stands, a text that is too long at 0.
 */
MOXKELDI_MUST_USE uint8_t moxkeldi_check_chars_at(const uint8_t *text, size_t len, size_t *place);
MOXKELDI_MUST_USE uint8_t moxkeldi_check_text_at(const uint8_t *text, size_t len, size_t *place);
MOXKELDI_MUST_USE uint8_t moxkeldi_check_attr_value_at(const uint8_t *text, size_t len, size_t *place);
MOXKELDI_MUST_USE uint8_t moxkeldi_check_char_refs_at(const uint8_t *text, size_t len, size_t *place);
MOXKELDI_MUST_USE uint8_t moxkeldi_check_name_at(const uint8_t *text, size_t len, size_t *place);
MOXKELDI_MUST_USE uint8_t moxkeldi_check_name_fifth_at(const uint8_t *text, size_t len, size_t *place);
MOXKELDI_MUST_USE uint8_t moxkeldi_check_doctype_at(const uint8_t *text, size_t len, size_t *place);
MOXKELDI_MUST_USE uint8_t moxkeldi_check_doctype_fifth_at(const uint8_t *text, size_t len, size_t *place);
MOXKELDI_MUST_USE uint8_t moxkeldi_check_declaration_at(const uint8_t *text, size_t len, size_t *place);

/* Whether the whole text is a name without a colon. The answer is 0, 1 or 2; *yes is true or false with 0, and false with 1 and 2. */
MOXKELDI_MUST_USE uint8_t moxkeldi_is_ncname(const uint8_t *text, size_t len, bool *yes);

/*
 * The quick scan: where does the internal subset of a DOCTYPE close? The text is the front part, of any length, of what stands
 * after `<!DOCTYPE`. The answer is 0, 1 or 2. With 0, *answer is one of the three below, and with MOXKELDI_SCAN_CLOSED *place is
 * the place of the closing ], counted from 0 at the text's first byte; read *place only then. With 1 and 2, *answer and *place
 * are left as they were.
 */
#define MOXKELDI_SCAN_NOT_OPENED 0 /* there is no [ yet */
#define MOXKELDI_SCAN_NOT_CLOSED 1 /* there is a [ and no ] yet that closes it */
#define MOXKELDI_SCAN_CLOSED 2

MOXKELDI_MUST_USE uint8_t moxkeldi_scan(const uint8_t *text, size_t len, uint8_t *answer, size_t *place);

/*
 * The gate: one record for each document, all zero to begin with, and lent to both calls in the order in which the declaration
 * and the DOCTYPE stand in the document. Names are those of Appendix B.
 */
typedef struct {
    bool started;     /* a call has looked at its text: an XML declaration can no longer be first */
    bool seen;        /* a DOCTYPE has been seen */
    bool open;        /* a DOCTYPE's subset was not closed */
    uint16_t refused; /* refusals so far, held at 65535 */
} moxkeldi_gate;

/* Not a refusal: the DOCTYPE's subset opens and the text ends before it closes, so its grammar was not checked. */
#define MOXKELDI_OPEN 255

/* Where in the document a DOCTYPE was met. */
#define MOXKELDI_PROLOG 0 /* before the root element */
#define MOXKELDI_ROOT 1   /* within it */
#define MOXKELDI_EPILOG 2 /* after it */

/*
 * An XML declaration (text as for moxkeldi_check_declaration). 21 where `started` is set; else `started` is set and the
 * declaration checked. Every refusal adds one to `refused`; 1 and 2 change nothing else in the record.
 */
MOXKELDI_MUST_USE uint8_t moxkeldi_decl(moxkeldi_gate *gate, const uint8_t *text, size_t len);

/*
 * A DOCTYPE (text as for moxkeldi_check_doctype). In this order: sets `started`; 18 for a character that XML does not allow; 21
 * where `seen` is set or `phase` is anything but MOXKELDI_PROLOG; sets `seen`; where the quick scan says "not closed", sets
 * `open` and answers MOXKELDI_OPEN; else checks the grammar. Refusals are counted as above.
 *
 * For the place of a refusal, give the same text to moxkeldi_check_chars_at (after 2 and 18) or moxkeldi_check_doctype_at (after any
 * other number but 21, which is about the whole text); of an XML declaration, to moxkeldi_check_declaration_at.
 */
MOXKELDI_MUST_USE uint8_t moxkeldi_doctype(moxkeldi_gate *gate, uint8_t phase, const uint8_t *text, size_t len);

#ifdef __cplusplus
}
#endif

#endif
