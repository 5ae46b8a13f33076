/*
 * example [FILE]: checks the prolog of an XML document, read from FILE or, with "-" or no argument, from standard input. Writes one line,
 *
 *     FILE: accepted
 *     FILE:LINE:COLUMN: refused with NUMBER: the number in words
 *
 * Exit status: 0 accepted, 1 refused, 2 the document could not be read.
 */
#include <moxkeldi.h>

#include <errno.h>
#include <stdio.h>
#include <stdlib.h>
#include <string.h>

/* All bytes of a file, in memory that the caller frees, whatever the answer: whether all could be read. If not, errno says why. */
static bool read_whole(FILE *in, uint8_t **text, size_t *len)
{
    size_t room = 0;
    *text = NULL;
    *len = 0;
    for (;;) {
        if (*len == room) {
            room = room == 0 ? 65536 : 2 * room;
            uint8_t *larger = realloc(*text, room);
            if (larger == NULL)
                return false;
            *text = larger;
        }
        size_t more = fread(*text + *len, 1, room - *len, in);
        if (more == 0)
            return !ferror(in);
        *len += more;
    }
}

static int unreadable(const char *name)
{
    fprintf(stderr, "example: cannot read %s: %s\n", name, strerror(errno));
    return 2;
}

static int check(const char *name, const uint8_t *text, size_t len)
{
    moxkeldi_verdict verdict;
    uint8_t number = moxkeldi_check_document(text, len, &verdict);
    if (number == MOXKELDI_ACCEPTED) {
        printf("%s: accepted\n", name);
        return 0;
    }
    printf("%s:%zu:%zu: refused with %u: %s\n", name, verdict.line, verdict.column, (unsigned)number, moxkeldi_words(number));
    return 1;
}

int main(int argc, char **argv)
{
    if (argc > 2) {
        fprintf(stderr, "usage: example [FILE]\n");
        return 2;
    }
    const char *name = argc == 2 ? argv[1] : "-";
    FILE *in = strcmp(name, "-") == 0 ? stdin : fopen(name, "rb");
    if (in == NULL)
        return unreadable(name);
    uint8_t *text;
    size_t len;
    int status = read_whole(in, &text, &len) ? check(name, text, len) : unreadable(name);
    free(text);
    if (in != stdin)
        fclose(in);
    return status;
}
