/*
 * Calls every function of moxkeldi.h and compares. Writes each difference and, last, the counts. Exit status 1 on any difference.
 */
#include <moxkeldi.h>

#include <stdio.h>
#include <stdlib.h>
#include <string.h>

static unsigned passed, failed;

static void expect(const char *call, const char *what, unsigned long got, unsigned long wanted)
{
    if (got == wanted) {
        passed++;
        return;
    }
    failed++;
    printf("%s: %s: %lu wanted, %lu given\n", call, what, wanted, got);
}

/* A copy of the text in memory of exactly its size, so that valgrind sees a read beyond either end. */
static uint8_t *copied(const char *text, size_t len)
{
    uint8_t *copy = malloc(len ? len : 1);
    if (copy == NULL)
        abort();
    memcpy(copy, text, len);
    return copy;
}

typedef uint8_t check(const uint8_t *text, size_t len);

static void checked(const char *call, check *function, const char *text, size_t len, uint8_t wanted)
{
    uint8_t *copy = copied(text, len);
    expect(call, text, function(copy, len), wanted);
    free(copy);
}

#define CHECK(call, text, wanted) checked(#call, moxkeldi_##call, text, sizeof(text) - 1, wanted)

/* By the names of Appendix B, and by those of the fifth edition. */
#define BY_EDITION(call, text, by_appendix_b, by_fifth) (CHECK(call, text, by_appendix_b), CHECK(call##_fifth, text, by_fifth))

/* A text with the same answer by both: so what the one accepts, the other is seen to accept. */
#define BY_BOTH(call, text, wanted) BY_EDITION(call, text, wanted, wanted)

/* Characters that no name by Appendix B has. By the fifth edition: */
#define CHEROKEE "\xe1\x8e\xa0"   /* U+13A0 */
#define ASTRAL "\xf0\x90\x80\x80" /* U+10000, the first beyond 16 bits */
#define LAST "\xf3\xaf\xbf\xbf"   /* U+EFFFF, the last that a name may hold */
#define TIE "\xe2\x80\xbf"        /* U+203F, which a name may hold but not begin with */
#define BEYOND "\xf3\xb0\x80\x80" /* U+F0000, in no name */
#define TIMES "\xc3\x97"          /* U+00D7, in no name */

static void checks(void)
{
    CHECK(check_chars, "", MOXKELDI_ACCEPTED);
    CHECK(check_chars, "a\tb\xef\xbf\xbd", MOXKELDI_ACCEPTED);
    CHECK(check_chars, "a\x01", MOXKELDI_ILLEGAL_CHARACTER);
    CHECK(check_chars, "a\0b", MOXKELDI_ILLEGAL_CHARACTER);
    CHECK(check_chars, "\xef\xbf\xbf", MOXKELDI_ILLEGAL_CHARACTER);
    CHECK(check_chars, "a\xff", MOXKELDI_NOT_UTF8);

    CHECK(check_text, "<&", MOXKELDI_ACCEPTED);
    CHECK(check_text, "]]>", MOXKELDI_CDATA_END);
    CHECK(check_text, "&#X41;", MOXKELDI_BAD_REFERENCE);
    CHECK(check_text, "a]]", MOXKELDI_ACCEPTED);

    CHECK(check_attr_value, "\"'", MOXKELDI_ACCEPTED);
    CHECK(check_attr_value, "<", MOXKELDI_LESS_THAN);
    CHECK(check_attr_value, "&#0;", MOXKELDI_ILLEGAL_REFERENCE);

    CHECK(check_char_refs, "&#65;&#x10FFFF;", MOXKELDI_ACCEPTED);
    CHECK(check_char_refs, "&#4294967361;", MOXKELDI_ILLEGAL_REFERENCE);
    CHECK(check_char_refs, "&#6", MOXKELDI_BAD_REFERENCE);
    CHECK(check_char_refs, "&", MOXKELDI_ACCEPTED);

    BY_BOTH(check_name, "a:b", MOXKELDI_ACCEPTED);
    BY_BOTH(check_name, "\xc3\xa9t\xc3\xa9", MOXKELDI_ACCEPTED);
    BY_BOTH(check_name, "", MOXKELDI_BAD_NAME);
    BY_BOTH(check_name, "-a", MOXKELDI_BAD_NAME);
    BY_BOTH(check_name, "a\xe6\x97", MOXKELDI_NOT_UTF8);

    BY_BOTH(check_doctype, "a", MOXKELDI_ACCEPTED);
    BY_BOTH(check_doctype, "", MOXKELDI_BAD_NAME);
    BY_BOTH(check_doctype, "a SYSTEM", MOXKELDI_SPACE_REQUIRED);
    BY_BOTH(check_doctype, "a[<!ENTITY b:c \"\">]", MOXKELDI_COLON);
    BY_BOTH(check_doctype, "a SYSTEM x", MOXKELDI_LITERAL_MISSING);
    BY_BOTH(check_doctype, "a[", MOXKELDI_UNTERMINATED);
    BY_BOTH(check_doctype, "a[<![INCLUDE[]]>]", MOXKELDI_UNEXPECTED);
    BY_BOTH(check_doctype, "a[]b", MOXKELDI_TRAILING);
    BY_BOTH(check_doctype, "a PUBLIC \"^\" \"s\"", MOXKELDI_PUBLIC_ID);
    BY_BOTH(check_doctype, "a[<?Xml?>]", MOXKELDI_RESERVED_TARGET);
    BY_BOTH(check_doctype, "a[<!--a--b-->]", MOXKELDI_DOUBLE_HYPHEN);
    BY_BOTH(check_doctype, "a[<!ELEMENT b (c,d|e)>]", MOXKELDI_CONTENT_MODEL);
    BY_BOTH(check_doctype, "a[<!ATTLIST b c CDATA \"<\">]", MOXKELDI_LESS_THAN);
    BY_BOTH(check_doctype, "a[<!ENTITY e \"&#x;\">]", MOXKELDI_BAD_REFERENCE);
    BY_BOTH(check_doctype, "a[<!ENTITY e \"&#0;\">]", MOXKELDI_ILLEGAL_REFERENCE);
    BY_BOTH(check_doctype, "a[<!ENTITY e \"\x01\">]", MOXKELDI_ACCEPTED);
    BY_BOTH(check_doctype, "a[\xff]", MOXKELDI_NOT_UTF8);

    CHECK(check_declaration, "xml version=\"1.0\" encoding='UTF-8' standalone=\"yes\"", MOXKELDI_ACCEPTED);
    CHECK(check_declaration, "xml version=\"1.\"", MOXKELDI_DECLARATION_VALUE);
    CHECK(check_declaration, "xml version=\"1.0\"encoding=\"u\"", MOXKELDI_SPACE_REQUIRED);
    CHECK(check_declaration, "", MOXKELDI_UNEXPECTED);

    CHECK(check_utf8, "", MOXKELDI_ACCEPTED);
    CHECK(check_utf8, "\xf4\x8f\xbf\xbf", MOXKELDI_ACCEPTED);
    CHECK(check_utf8, "\xed\xa0\x80", MOXKELDI_NOT_UTF8);
    CHECK(check_utf8, "\xe6\x97", MOXKELDI_NOT_UTF8);
}

/* The two checks on names that only the fifth edition has, or neither. */
static void editions(void)
{
    BY_EDITION(check_name, CHEROKEE, MOXKELDI_BAD_NAME, MOXKELDI_ACCEPTED);
    BY_EDITION(check_name, ASTRAL LAST, MOXKELDI_BAD_NAME, MOXKELDI_ACCEPTED);
    BY_EDITION(check_name, "a" TIE, MOXKELDI_BAD_NAME, MOXKELDI_ACCEPTED);
    BY_BOTH(check_name, TIE "a", MOXKELDI_BAD_NAME);
    BY_BOTH(check_name, "a" TIMES, MOXKELDI_BAD_NAME);
    BY_BOTH(check_name, BEYOND, MOXKELDI_BAD_NAME);
    BY_BOTH(check_name, "a" BEYOND, MOXKELDI_BAD_NAME);

    BY_EDITION(check_doctype, CHEROKEE, MOXKELDI_BAD_NAME, MOXKELDI_ACCEPTED);
    BY_EDITION(check_doctype, "a[<!ELEMENT " ASTRAL " (" CHEROKEE "|" LAST ")*>]", MOXKELDI_BAD_NAME, MOXKELDI_ACCEPTED);
    BY_EDITION(check_doctype, "a[<!ATTLIST " CHEROKEE " b (" TIE ") #IMPLIED>]", MOXKELDI_BAD_NAME, MOXKELDI_ACCEPTED);
    BY_EDITION(check_doctype, "a[<?" CHEROKEE "?>]", MOXKELDI_BAD_NAME, MOXKELDI_ACCEPTED);
    BY_EDITION(check_doctype, "a[%" CHEROKEE ";]", MOXKELDI_BAD_NAME, MOXKELDI_ACCEPTED);
    BY_EDITION(check_doctype, "a[<!ENTITY " CHEROKEE ":b ''>]", MOXKELDI_BAD_NAME, MOXKELDI_COLON);
    BY_BOTH(check_doctype, "a[<!ELEMENT " TIMES " EMPTY>]", MOXKELDI_BAD_NAME);
    BY_BOTH(check_doctype, "a[<!ELEMENT " BEYOND " EMPTY>]", MOXKELDI_BAD_NAME);
    /* a % before such a letter begins a reference by the fifth edition alone, so the declaration is not read */
    BY_EDITION(check_doctype, "a[<!ATTLIST b c CDATA '%" CHEROKEE "<'>]", MOXKELDI_LESS_THAN, MOXKELDI_ACCEPTED);
}

typedef uint8_t check_at(const uint8_t *text, size_t len, size_t *place);

static void located(const char *call, check_at *function, const char *text, size_t len, uint8_t wanted, size_t place_wanted)
{
    uint8_t *copy = copied(text, len);
    size_t place = 7777;
    expect(call, text, function(copy, len, &place), wanted);
    expect(call, text, place, place_wanted);
    free(copy);
}

/* A text in two pieces, refused where the second begins; or accepted, with nothing in the second. */
#define AT(call, read_well, from_there, wanted) \
    located(#call, moxkeldi_##call, read_well from_there, sizeof(read_well from_there) - 1, wanted, sizeof(read_well) - 1)

/* The same by both editions. */
#define AT_BY_BOTH(call, read_well, from_there, wanted) \
    (AT(call##_at, read_well, from_there, wanted), AT(call##_fifth_at, read_well, from_there, wanted))

static void places(void)
{
    AT(check_chars_at, "a\tb", "", MOXKELDI_ACCEPTED);
    AT(check_chars_at, "a\xc3\xa9", "\x01", MOXKELDI_ILLEGAL_CHARACTER);
    AT(check_chars_at, "a\xc3\xa9", "\xc3(", MOXKELDI_NOT_UTF8);
    AT(check_text_at, "a]] b", "]]>", MOXKELDI_CDATA_END);
    AT(check_text_at, "&#65;", "&#X41;", MOXKELDI_BAD_REFERENCE);
    AT(check_attr_value_at, "&#60;", "<", MOXKELDI_LESS_THAN);
    AT(check_attr_value_at, "", "", MOXKELDI_ACCEPTED);
    AT(check_char_refs_at, "& &#65;", "&#0;", MOXKELDI_ILLEGAL_REFERENCE);
    AT_BY_BOTH(check_name, "a.b", "/c", MOXKELDI_BAD_NAME);
    AT_BY_BOTH(check_name, "", "", MOXKELDI_BAD_NAME);
    AT_BY_BOTH(check_name, "a", "\xe6\x97", MOXKELDI_NOT_UTF8);
    AT_BY_BOTH(check_doctype, "a[<!ATTLIST b\n c CDATA #IMPLIED\n d CDATA", "'e'>]", MOXKELDI_SPACE_REQUIRED);
    AT_BY_BOTH(check_doctype, "a[<!ELEMENT b (c,d", "|e)>]", MOXKELDI_CONTENT_MODEL);
    AT_BY_BOTH(check_doctype, "a[<!--", "b", MOXKELDI_UNTERMINATED);
    AT_BY_BOTH(check_doctype, "a[<!ENTITY b ''>] ", "", MOXKELDI_ACCEPTED);
    AT_BY_BOTH(check_doctype, "a[", "\xff]", MOXKELDI_NOT_UTF8);
    AT(check_declaration_at, "xml version=\"", "2.0\"", MOXKELDI_DECLARATION_VALUE);
    AT(check_declaration_at, "xml version='1.0'", "", MOXKELDI_ACCEPTED);

    /* a name of the fifth edition is read over where Appendix B's names end the reading */
    AT(check_name_at, "a", CHEROKEE "/b", MOXKELDI_BAD_NAME);
    AT(check_name_fifth_at, "a" CHEROKEE, "/b", MOXKELDI_BAD_NAME);
    AT(check_name_fifth_at, ASTRAL LAST, "", MOXKELDI_ACCEPTED);
    AT_BY_BOTH(check_name, "a", BEYOND, MOXKELDI_BAD_NAME);
    AT(check_doctype_at, "a[<!ELEMENT ", CHEROKEE " (b,c|d)>]", MOXKELDI_BAD_NAME);
    AT(check_doctype_fifth_at, "a[<!ELEMENT " CHEROKEE " (b,c", "|d)>]", MOXKELDI_CONTENT_MODEL);
    AT(check_doctype_fifth_at, ASTRAL "[<!ENTITY " CHEROKEE " ''>] ", "", MOXKELDI_ACCEPTED);
    AT_BY_BOTH(check_doctype, "a[<!ELEMENT ", TIMES " EMPTY>]", MOXKELDI_BAD_NAME);
}

typedef uint8_t check_document(const uint8_t *text, size_t len, moxkeldi_verdict *verdict);

static void field(const char *call, const char *name, const char *what, size_t got, size_t wanted)
{
    char label[64];
    snprintf(label, sizeof label, "%s, %s", call, name);
    expect(label, what, got, wanted);
}

/* All fields hold something else before the call, so one that is not written is seen. */
static void told(const char *call, check_document *function, const char *what, const uint8_t *text, size_t len, uint8_t wanted,
                 moxkeldi_verdict fields)
{
    moxkeldi_verdict verdict = {7777, 7777, 7777, 7777, 7777, 7777, 7777, 7777};
    expect(call, what, function(text, len, &verdict), wanted);
    field(call, "place", what, verdict.place, fields.place);
    field(call, "line", what, verdict.line, fields.line);
    field(call, "column", what, verdict.column, fields.column);
    field(call, "opened", what, verdict.opened, fields.opened);
    field(call, "has_doctype", what, verdict.has_doctype, fields.has_doctype);
    field(call, "doctype_start", what, verdict.doctype_start, fields.doctype_start);
    field(call, "doctype_end", what, verdict.doctype_end, fields.doctype_end);
    field(call, "unread", what, verdict.unread, fields.unread);
}

#define TOLD(call, what, text, len, wanted, fields) told(#call, moxkeldi_##call, what, text, len, wanted, fields)

/* The same by both editions. */
static void told_by_both(const char *what, const uint8_t *text, size_t len, uint8_t wanted, moxkeldi_verdict fields)
{
    TOLD(check_document, what, text, len, wanted, fields);
    TOLD(check_document_fifth, what, text, len, wanted, fields);
}

static void documents(void)
{
    const struct {
        const char *text;
        uint8_t number;
        moxkeldi_verdict verdict; /* place, line, column, opened; has_doctype, doctype_start, doctype_end, unread */
    } rows[] = {
        {"<a/>", MOXKELDI_ACCEPTED, {0, 1, 1, 0, 0, 0, 0, 0}},
        {"\xef\xbb\xbf<?xml version='1.0'?>\r\n<!-- b -->\r<a", MOXKELDI_ACCEPTED, {37, 3, 1, 37, 0, 0, 0, 0}},
        {"<!DOCTYPE a>\n<a/>", MOXKELDI_ACCEPTED, {13, 2, 1, 13, 1, 9, 11, 0}},
        {"<!DOCTYPE a [%p;<!ELEMENT><!ENTITY b ''>]> <a/>", MOXKELDI_ACCEPTED, {43, 1, 44, 43, 1, 9, 41, 2}},
        {"<?xml version='1.0' encoding='windows-1252'?><a>\xe9</a>", MOXKELDI_ACCEPTED, {45, 1, 46, 45, 0, 0, 0, 0}},
        /* something wrong, or missing */
        {"<?xml version='2.0'?><a/>", MOXKELDI_DECLARATION_VALUE, {15, 1, 16, 15, 0, 0, 0, 0}},
        {"<?xml version='1.0' encoding='UTF-16'?><a/>", MOXKELDI_NOT_UTF8, {30, 1, 31, 30, 0, 0, 0, 0}},
        {"<!DOCTYPE a [\n<!ATTLIST b \xc3\xa9 CDATA'c'>]><a/>", MOXKELDI_SPACE_REQUIRED, {34, 2, 20, 34, 0, 0, 0, 0}},
        {"<!DOCTYPE a>\n <!DOCTYPE a><a/>", MOXKELDI_OUT_OF_PLACE, {14, 2, 2, 14, 0, 0, 0, 0}},
        {"a", MOXKELDI_UNEXPECTED, {0, 1, 1, 0, 0, 0, 0, 0}},
        /* something without its end, and where it was opened */
        {"<!-- b\n", MOXKELDI_UNTERMINATED, {7, 2, 1, 0, 0, 0, 0, 0}},
        {"<!DOCTYPE a [<!ENTITY b 'c>]><a/>", MOXKELDI_UNTERMINATED, {33, 1, 34, 13, 0, 0, 0, 0}},
        {"<!DOCTYPE a SYSTEM 'b\x01'><a/>", MOXKELDI_ILLEGAL_CHARACTER, {21, 1, 22, 19, 0, 0, 0, 0}},
        {"<!-- b \xe9 --><a/>", MOXKELDI_NOT_UTF8, {7, 1, 8, 0, 0, 0, 0, 0}},
        /* a document that ends before its root */
        {"", MOXKELDI_UNTERMINATED, {0, 1, 1, 0, 0, 0, 0, 0}},
        {"<!DOCTYPE a>\n", MOXKELDI_UNTERMINATED, {13, 2, 1, 13, 0, 0, 0, 0}},
    };
    for (size_t k = 0; k < sizeof rows / sizeof rows[0]; k++) {
        size_t len = strlen(rows[k].text);
        uint8_t *copy = copied(rows[k].text, len);
        told_by_both(rows[k].text, copy, len, rows[k].number, rows[k].verdict);
        free(copy);
    }
    told_by_both("NULL", NULL, 0, MOXKELDI_UNTERMINATED, (moxkeldi_verdict){0, 1, 1, 0, 0, 0, 0, 0});
}

/* Documents with names that only the fifth edition has, or neither. */
static void document_editions(void)
{
    const struct {
        const char *text;
        uint8_t by_appendix_b, by_fifth;
        moxkeldi_verdict verdict, verdict_by_fifth;
    } rows[] = {
        {"<" CHEROKEE "/>", MOXKELDI_BAD_NAME, MOXKELDI_ACCEPTED, {1, 1, 2, 1, 0, 0, 0, 0}, {0, 1, 1, 0, 0, 0, 0, 0}},
        {"<?" CHEROKEE " b?><a/>", MOXKELDI_BAD_NAME, MOXKELDI_ACCEPTED, {2, 1, 3, 2, 0, 0, 0, 0}, {9, 1, 8, 9, 0, 0, 0, 0}},
        {"<!DOCTYPE " ASTRAL ">\n<" ASTRAL "/>", MOXKELDI_BAD_NAME, MOXKELDI_ACCEPTED,
         {10, 1, 11, 10, 0, 0, 0, 0}, {16, 2, 1, 16, 1, 9, 14, 0}},
        {"<!DOCTYPE " CHEROKEE "\n SYSTEM b><a/>", MOXKELDI_BAD_NAME, MOXKELDI_LITERAL_MISSING,
         {10, 1, 11, 10, 0, 0, 0, 0}, {22, 2, 9, 22, 0, 0, 0, 0}},
        {"<" TIMES "/>", MOXKELDI_BAD_NAME, MOXKELDI_BAD_NAME, {1, 1, 2, 1, 0, 0, 0, 0}, {1, 1, 2, 1, 0, 0, 0, 0}},
        {"<" BEYOND "/>", MOXKELDI_BAD_NAME, MOXKELDI_BAD_NAME, {1, 1, 2, 1, 0, 0, 0, 0}, {1, 1, 2, 1, 0, 0, 0, 0}},
        /* accepted by both, and by the fifth edition not read: see the end of editions() */
        {"<!DOCTYPE a [<!ENTITY b '%" CHEROKEE "'>]><a/>", MOXKELDI_ACCEPTED, MOXKELDI_ACCEPTED,
         {33, 1, 32, 33, 1, 9, 32, 0}, {33, 1, 32, 33, 1, 9, 32, 1}},
    };
    for (size_t k = 0; k < sizeof rows / sizeof rows[0]; k++) {
        size_t len = strlen(rows[k].text);
        uint8_t *copy = copied(rows[k].text, len);
        TOLD(check_document, rows[k].text, copy, len, rows[k].by_appendix_b, rows[k].verdict);
        TOLD(check_document_fifth, rows[k].text, copy, len, rows[k].by_fifth, rows[k].verdict_by_fifth);
        free(copy);
    }
}

static void depth(void)
{
    char text[200];
    for (size_t groups = 64; groups <= 65; groups++) {
        size_t len = 0;
        memcpy(text, "a[<!ELEMENT b ", 14);
        len += 14;
        memset(text + len, '(', groups);
        len += groups;
        text[len++] = 'c';
        memset(text + len, ')', groups);
        len += groups;
        memcpy(text + len, ">]", 2);
        len += 2;
        uint8_t wanted = groups == 64 ? MOXKELDI_ACCEPTED : MOXKELDI_TOO_DEEP;
        checked("check_doctype", moxkeldi_check_doctype, text, len, wanted);
        checked("check_doctype_fifth", moxkeldi_check_doctype_fifth, text, len, wanted);
    }
}

static void ncnames(void)
{
    const struct {
        const char *text;
        uint8_t number;
        bool yes;
    } rows[] = {{"a", 0, true}, {"a:b", 0, false}, {"", 0, false}, {"a\xc3", 2, false}, {CHEROKEE, 0, false}};
    for (size_t k = 0; k < sizeof rows / sizeof rows[0]; k++) {
        size_t len = strlen(rows[k].text);
        uint8_t *copy = copied(rows[k].text, len);
        bool yes = !rows[k].yes;
        expect("is_ncname", rows[k].text, moxkeldi_is_ncname(copy, len, &yes), rows[k].number);
        expect("is_ncname, yes", rows[k].text, yes, rows[k].yes);
        free(copy);
    }
}

static void scans(void)
{
    /* what the two places hold before each call, and keep where it is refused */
    enum { ANSWER = 77, PLACE = 7777 };
    const struct {
        const char *text;
        uint8_t number, answer;
        size_t place;
    } rows[] = {
        {"", 0, MOXKELDI_SCAN_NOT_OPENED, 0},
        {"a SYSTEM \"x[y\"", 0, MOXKELDI_SCAN_NOT_OPENED, 0},
        {"a[", 0, MOXKELDI_SCAN_NOT_CLOSED, 0},
        {"a[<!--]", 0, MOXKELDI_SCAN_NOT_CLOSED, 0},
        {"a[]", 0, MOXKELDI_SCAN_CLOSED, 2},
        {"a[<!--]--> ']' ]>", 0, MOXKELDI_SCAN_CLOSED, 15},
        {"a[\xff]", 2, ANSWER, PLACE},
    };
    for (size_t k = 0; k < sizeof rows / sizeof rows[0]; k++) {
        size_t len = strlen(rows[k].text);
        uint8_t *copy = copied(rows[k].text, len);
        uint8_t answer = ANSWER;
        size_t place = PLACE;
        expect("scan", rows[k].text, moxkeldi_scan(copy, len, &answer, &place), rows[k].number);
        expect("scan, answer", rows[k].text, answer, rows[k].answer);
        if (answer == MOXKELDI_SCAN_CLOSED || rows[k].number != 0)
            expect("scan, place", rows[k].text, place, rows[k].place);
        free(copy);
    }
}

/* Every call, on no bytes at no address: as on any text of length 0. */
static void no_bytes(void)
{
    const struct {
        const char *call;
        check *function;
        check_at *with_place;
        uint8_t number;
    } rows[] = {
        {"check_chars", moxkeldi_check_chars, moxkeldi_check_chars_at, MOXKELDI_ACCEPTED},
        {"check_text", moxkeldi_check_text, moxkeldi_check_text_at, MOXKELDI_ACCEPTED},
        {"check_attr_value", moxkeldi_check_attr_value, moxkeldi_check_attr_value_at, MOXKELDI_ACCEPTED},
        {"check_char_refs", moxkeldi_check_char_refs, moxkeldi_check_char_refs_at, MOXKELDI_ACCEPTED},
        {"check_name", moxkeldi_check_name, moxkeldi_check_name_at, MOXKELDI_BAD_NAME},
        {"check_name_fifth", moxkeldi_check_name_fifth, moxkeldi_check_name_fifth_at, MOXKELDI_BAD_NAME},
        {"check_doctype", moxkeldi_check_doctype, moxkeldi_check_doctype_at, MOXKELDI_BAD_NAME},
        {"check_doctype_fifth", moxkeldi_check_doctype_fifth, moxkeldi_check_doctype_fifth_at, MOXKELDI_BAD_NAME},
        {"check_declaration", moxkeldi_check_declaration, moxkeldi_check_declaration_at, MOXKELDI_UNEXPECTED},
        {"check_utf8", moxkeldi_check_utf8, NULL, MOXKELDI_ACCEPTED},
    };
    for (size_t k = 0; k < sizeof rows / sizeof rows[0]; k++) {
        expect(rows[k].call, "NULL", rows[k].function(NULL, 0), rows[k].number);
        if (rows[k].with_place != NULL) {
            size_t place = 7777;
            expect(rows[k].call, "NULL, with a place", rows[k].with_place(NULL, 0, &place), rows[k].number);
            expect(rows[k].call, "NULL, the place", place, 0);
        }
    }
    bool yes = true;
    expect("is_ncname", "NULL", moxkeldi_is_ncname(NULL, 0, &yes), MOXKELDI_ACCEPTED);
    expect("is_ncname, yes", "NULL", yes, false);
    uint8_t answer = 77;
    size_t place = 7777;
    expect("scan", "NULL", moxkeldi_scan(NULL, 0, &answer, &place), MOXKELDI_ACCEPTED);
    expect("scan, answer", "NULL", answer, MOXKELDI_SCAN_NOT_OPENED);
    moxkeldi_gate gate = {0};
    expect("decl", "NULL", moxkeldi_decl(&gate, NULL, 0), MOXKELDI_UNEXPECTED);
    expect("doctype", "NULL", moxkeldi_doctype(&gate, MOXKELDI_PROLOG, NULL, 0), MOXKELDI_BAD_NAME);
    expect("gate, refused", "NULL", gate.refused, 2);
}

/* Every call, one byte beyond the limit. */
static void limit(void)
{
    size_t len = MOXKELDI_LIMIT;
    uint8_t *text = malloc(len + 1);
    if (text == NULL)
        abort();
    memset(text, 'a', len + 1);
    check *const functions[] = {moxkeldi_check_chars,       moxkeldi_check_text,          moxkeldi_check_attr_value,
                                moxkeldi_check_char_refs,   moxkeldi_check_name,          moxkeldi_check_name_fifth,
                                moxkeldi_check_doctype,     moxkeldi_check_doctype_fifth, moxkeldi_check_utf8,
                                moxkeldi_check_declaration};
    for (size_t k = 0; k < sizeof functions / sizeof functions[0]; k++) {
        bool no_text = functions[k] == moxkeldi_check_declaration;
        expect("limit", "at it", functions[k](text, len), no_text ? MOXKELDI_UNEXPECTED : MOXKELDI_ACCEPTED);
        expect("limit", "one byte more", functions[k](text, len + 1), MOXKELDI_TOO_LONG);
    }
    check_at *const with_places[] = {moxkeldi_check_name_at, moxkeldi_check_name_fifth_at, moxkeldi_check_doctype_at,
                                     moxkeldi_check_doctype_fifth_at};
    for (size_t k = 0; k < sizeof with_places / sizeof with_places[0]; k++) {
        size_t start = 7777;
        expect("limit, with a place", "at it", with_places[k](text, len, &start), MOXKELDI_ACCEPTED);
        expect("limit, the place", "at it", start, len);
        expect("limit, with a place", "one byte more", with_places[k](text, len + 1, &start), MOXKELDI_TOO_LONG);
        expect("limit, the place", "one byte more", start, 0);
    }
    bool yes = true;
    expect("is_ncname", "one byte more", moxkeldi_is_ncname(text, len + 1, &yes), MOXKELDI_TOO_LONG);
    expect("is_ncname, yes", "one byte more", yes, false);
    uint8_t answer = 77;
    size_t place = 7777;
    expect("scan", "one byte more", moxkeldi_scan(text, len + 1, &answer, &place), MOXKELDI_TOO_LONG);
    expect("scan, answer", "one byte more", answer, 77);
    expect("scan, place", "one byte more", place, 7777);
    moxkeldi_gate gate = {0};
    expect("decl", "one byte more", moxkeldi_decl(&gate, text, len + 1), MOXKELDI_TOO_LONG);
    expect("doctype", "one byte more", moxkeldi_doctype(&gate, MOXKELDI_PROLOG, text, len + 1), MOXKELDI_TOO_LONG);
    expect("gate, started", "one byte more", gate.started, false);
    expect("gate, refused", "one byte more", gate.refused, 2);
    free(text);
}

/* A document with so many bytes between `<!DOCTYPE` and its `>`. */
static void long_doctype(const char *what, size_t within, uint8_t wanted, moxkeldi_verdict fields)
{
    static const char before[] = "\n<!DOCTYPE", after[] = "><a/>";
    size_t start = sizeof before - 1, end = start + within, len = end + sizeof after - 1;
    uint8_t *text = malloc(len);
    if (text == NULL)
        abort();
    memcpy(text, before, start);
    memset(text + start, 'a', within);
    memcpy(text + end, after, len - end);
    told_by_both(what, text, len, wanted, fields);
    free(text);
}

static void document_limit(void)
{
    size_t end = 10 + MOXKELDI_LIMIT, root = end + 1;
    long_doctype("at the limit", MOXKELDI_LIMIT, MOXKELDI_ACCEPTED, (moxkeldi_verdict){root, 2, root, root, 1, 10, end, 0});
    long_doctype("one byte more", MOXKELDI_LIMIT + 1, MOXKELDI_TOO_LONG, (moxkeldi_verdict){1, 2, 1, 1, 0, 0, 0, 0});
}

static void recorded(const char *what, const moxkeldi_gate *gate, bool started, bool seen, bool open, uint16_t refused)
{
    expect("gate, started", what, gate->started, started);
    expect("gate, seen", what, gate->seen, seen);
    expect("gate, open", what, gate->open, open);
    expect("gate, refused", what, gate->refused, refused);
}

static uint8_t decl(moxkeldi_gate *gate, const char *text)
{
    size_t len = strlen(text);
    uint8_t *copy = copied(text, len);
    uint8_t number = moxkeldi_decl(gate, copy, len);
    free(copy);
    return number;
}

static uint8_t doctype(moxkeldi_gate *gate, uint8_t phase, const char *text)
{
    size_t len = strlen(text);
    uint8_t *copy = copied(text, len);
    uint8_t number = moxkeldi_doctype(gate, phase, copy, len);
    free(copy);
    return number;
}

static void gates(void)
{
    const char *xml = "xml version=\"1.0\"";

    moxkeldi_gate usual = {0};
    expect("decl", xml, decl(&usual, xml), MOXKELDI_ACCEPTED);
    recorded("after the declaration", &usual, true, false, false, 0);
    expect("doctype", "a[]", doctype(&usual, MOXKELDI_PROLOG, "a[]"), MOXKELDI_ACCEPTED);
    recorded("after the DOCTYPE", &usual, true, true, false, 0);
    expect("doctype", "a second one", doctype(&usual, MOXKELDI_PROLOG, "a"), MOXKELDI_OUT_OF_PLACE);
    expect("decl", "not first", decl(&usual, xml), MOXKELDI_OUT_OF_PLACE);
    recorded("after both again", &usual, true, true, false, 2);

    moxkeldi_gate open = {0};
    expect("doctype", "a b[", doctype(&open, MOXKELDI_PROLOG, "a b["), MOXKELDI_OPEN);
    recorded("open", &open, true, true, true, 0);

    moxkeldi_gate late = {0};
    expect("doctype", "a character before the phase", doctype(&late, MOXKELDI_ROOT, "a\x01"), MOXKELDI_ILLEGAL_CHARACTER);
    expect("doctype", "in the root", doctype(&late, MOXKELDI_ROOT, "a"), MOXKELDI_OUT_OF_PLACE);
    expect("doctype", "in the epilog", doctype(&late, MOXKELDI_EPILOG, "a"), MOXKELDI_OUT_OF_PLACE);
    recorded("nothing seen yet", &late, true, false, false, 3);
    expect("doctype", "in the prolog", doctype(&late, MOXKELDI_PROLOG, "a"), MOXKELDI_ACCEPTED);
    recorded("seen now", &late, true, true, false, 3);

    moxkeldi_gate bytes = {false, false, false, 65534};
    expect("decl", "not UTF-8", decl(&bytes, "\xff"), MOXKELDI_NOT_UTF8);
    expect("doctype", "not UTF-8", doctype(&bytes, MOXKELDI_PROLOG, "\xff"), MOXKELDI_NOT_UTF8);
    recorded("held at 65535", &bytes, false, false, false, 65535);
    expect("decl", "refused", decl(&bytes, "xml"), MOXKELDI_SPACE_REQUIRED);
    recorded("still held", &bytes, true, false, false, 65535);

    moxkeldi_gate names = {0};
    expect("doctype", "a name of the fifth edition", doctype(&names, MOXKELDI_PROLOG, CHEROKEE), MOXKELDI_BAD_NAME);
    recorded("by Appendix B", &names, true, true, false, 1);
}

int main(void)
{
    documents();
    document_editions();
    checks();
    editions();
    places();
    depth();
    ncnames();
    scans();
    no_bytes();
    limit();
    document_limit();
    gates();
    printf("calls: %u passed, %u failed\n", passed, failed);
    return failed ? 1 : 0;
}
