/* libxml2 on a whole document, with no handlers, so that it builds no tree. */
#include <libxml/parser.h>
#include <string.h>

int peer_libxml2(const char *document, size_t len);

int peer_libxml2(const char *document, size_t len)
{
    xmlSAXHandler none;
    memset(&none, 0, sizeof none);
    none.initialized = XML_SAX2_MAGIC;
    return xmlSAXUserParseMemory(&none, NULL, document, (int)len) == 0;
}
