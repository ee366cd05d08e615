/* Other parsers for bench/bars.rs: without handlers, and with a minimal listing, which is a line for each suite with its name and a line
 * for each case with its name and how it ended; no rules, no refusals but the parser's own. */
#include <expat.h>
#include <libxml/SAX2.h>
#include <libxml/parser.h>
#include <libxml/xmlerror.h>
#include <stdint.h>
#include <string.h>

struct lines { uint8_t *out; size_t room, put; const char *end; };

static void put(struct lines *l, const char *s, size_t n) {
    if (n > l->room - l->put) n = l->room - l->put;
    memcpy(l->out + l->put, s, n);
    l->put += n;
}

static void opens(struct lines *l, const char *tag, const char *name, size_t size) {
    if (!strcmp(tag, "testsuite")) put(l, "suite ", 6), put(l, name, size), put(l, "\n", 1);
    else if (!strcmp(tag, "testcase")) l->end = " passed\n", put(l, "case ", 5), put(l, name, size);
    else if (!strcmp(tag, "failure")) l->end = " failed\n";
    else if (!strcmp(tag, "error")) l->end = " failed with an error\n";
    else if (!strcmp(tag, "skipped")) l->end = " skipped\n";
}

static void closes(struct lines *l, const char *tag) {
    if (!strcmp(tag, "testcase")) put(l, l->end, strlen(l->end));
}

static void XMLCALL expat_opens(void *u, const XML_Char *tag, const XML_Char **a) {
    const char *name = "";
    for (; *a; a += 2) if (!strcmp(a[0], "name")) name = a[1];
    opens(u, tag, name, strlen(name));
}
static void XMLCALL expat_closes(void *u, const XML_Char *tag) { closes(u, tag); }

size_t peer_expat(const uint8_t *s, size_t n) {
    XML_Parser p = XML_ParserCreate("UTF-8");
    int good = XML_Parse(p, (const char *)s, (int)n, 1) == XML_STATUS_OK;
    XML_ParserFree(p);
    return (size_t)good;
}

size_t peer_expat_listing(const uint8_t *s, size_t n, uint8_t *out, size_t room) {
    struct lines l = {out, room, 0, ""};
    XML_Parser p = XML_ParserCreate("UTF-8");
    XML_SetUserData(p, &l);
    XML_SetElementHandler(p, expat_opens, expat_closes);
    int good = XML_Parse(p, (const char *)s, (int)n, 1) == XML_STATUS_OK;
    XML_ParserFree(p);
    return good ? l.put : 0;
}

static void silent(void *c, const char *m, ...) { (void)c, (void)m; }

static void ready(void) {
    static int done;
    if (!done) xmlInitParser(), xmlSetGenericErrorFunc(NULL, silent), done = 1;
}

static void sax_opens(void *u, const xmlChar *tag, const xmlChar *p, const xmlChar *uri, int ns, const xmlChar **nss, int n, int d, const xmlChar **a) {
    (void)p, (void)uri, (void)ns, (void)nss, (void)d;
    const char *name = "";
    size_t size = 0;
    for (int i = 0; i < n; i++, a += 5) if (!strcmp((const char *)a[0], "name")) name = (const char *)a[3], size = (size_t)(a[4] - a[3]);
    opens(u, (const char *)tag, name, size);
}
static void sax_closes(void *u, const xmlChar *tag, const xmlChar *p, const xmlChar *uri) { (void)p, (void)uri; closes(u, (const char *)tag); }

size_t peer_libxml2(const uint8_t *s, size_t n) {
    static xmlSAXHandler none;
    ready();
    return (size_t)(xmlSAXUserParseMemory(&none, NULL, (const char *)s, (int)n) == 0);
}

size_t peer_libxml2_listing(const uint8_t *s, size_t n, uint8_t *out, size_t room) {
    struct lines l = {out, room, 0, ""};
    xmlSAXHandler h;
    memset(&h, 0, sizeof h);
    h.initialized = XML_SAX2_MAGIC;
    h.startElementNs = sax_opens;
    h.endElementNs = sax_closes;
    ready();
    return xmlSAXUserParseMemory(&h, &l, (const char *)s, (int)n) == 0 ? l.put : 0;
}
