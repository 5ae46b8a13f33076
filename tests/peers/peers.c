/*
 * What expat and libxml2 say of documents up to where their root element begins.
 *
 * Reads a document in hexadecimal from each line of standard input, and writes a line for it: what is wrong with it in the words of expat,
 * a tab, and the same of libxml2; "-" where the root's start tag is reached.
 */
#include <expat.h>
#include <libxml/parser.h>
#include <libxml/parserInternals.h>
#include <stdio.h>
#include <stdlib.h>
#include <string.h>

static void XMLCALL expat_root(void *reached, const XML_Char *name, const XML_Char **attributes)
{
    (void)name;
    (void)attributes;
    *(int *)reached = 1;
}

static const char *expat(const char *text, int len)
{
    int reached = 0;
    XML_Parser parser = XML_ParserCreate(NULL);
    XML_SetUserData(parser, &reached);
    XML_SetStartElementHandler(parser, expat_root);
    XML_Parse(parser, text, len, 1);
    const char *error = XML_ErrorString(XML_GetErrorCode(parser));
    XML_ParserFree(parser);
    return reached ? "-" : error;
}

static int reached;
static char first_error[400];

static void libxml2_root(void *context, const xmlChar *name, const xmlChar **attributes)
{
    (void)name;
    (void)attributes;
    xmlParserCtxtPtr parser = context;
    reached |= parser->wellFormed;
    xmlStopParser(parser);
}

/* Warnings and errors of namespaces leave a document well-formed. */
static void libxml2_error(void *context, const xmlError *error)
{
    (void)context;
    if (first_error[0] == 0 && error->level == XML_ERR_FATAL)
        snprintf(first_error, sizeof first_error, "%d %.*s", error->code, (int)strcspn(error->message, "\n"), error->message);
}

static const char *libxml2(const char *text, int len)
{
    reached = 0;
    first_error[0] = 0;
    xmlParserCtxtPtr parser = xmlCreateMemoryParserCtxt(text, len);
    if (parser == NULL)
        return "no document";
    /* the first version of the handlers, which knows no namespaces */
    xmlCtxtUseOptions(parser, XML_PARSE_NONET | XML_PARSE_SAX1);
    parser->sax->startElement = libxml2_root;
    xmlParseDocument(parser);
    xmlFreeDoc(parser->myDoc);
    xmlFreeParserCtxt(parser);
    if (reached)
        return "-";
    return first_error[0] ? first_error : "refused";
}

int main(void)
{
    static char line[1 << 23], text[1 << 22];
    xmlSetStructuredErrorFunc(NULL, (xmlStructuredErrorFunc)libxml2_error);
    while (fgets(line, sizeof line, stdin)) {
        int len = 0;
        for (const char *at = line; at[0] != '\n' && at[0] != 0; at += 2) {
            const char pair[3] = {at[0], at[1], 0};
            text[len++] = (char)strtol(pair, NULL, 16);
        }
        printf("%s\t", expat(text, len));
        printf("%s\n", libxml2(text, len));
    }
    return 0;
}
