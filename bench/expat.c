/* expat on a whole document, with no handlers, so that it does nothing but read. */
#include <expat.h>
#include <stddef.h>

int peer_expat(const char *document, size_t len);

int peer_expat(const char *document, size_t len)
{
    XML_Parser parser = XML_ParserCreate(NULL);
    if (parser == NULL)
        return 0;
    int accepted = XML_Parse(parser, document, (int)len, 1) == XML_STATUS_OK;
    XML_ParserFree(parser);
    return accepted;
}
