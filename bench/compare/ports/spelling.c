/* A writer of documents in C over kerzhoma_write, so that the comparison of documents can be tried with an archive that has no
 * kerzhoma_write_xml yet: `bench/compare/run --self-test` puts it into a copy of the archive. With WRONG it indents by three spaces. */
#include "kerzhoma.h"

#include <stdlib.h>
#include <string.h>

typedef struct kerzhoma_document {
    size_t length;
    kerzhoma_refusal refusal;
} kerzhoma_document;

#ifdef WRONG
#define SPACES "   "
#else
#define SPACES "    "
#endif

static uint32_t events[5 * 65536], attributes[5 * 65536];
static uint8_t bytes[1 << 20];

struct spelling {
    uint8_t *out;
    size_t room, length, level;
    bool breaks;
};

static void put(struct spelling *s, const void *from, size_t n)
{
    if (s->length + n <= s->room)
        memcpy(s->out + s->length, from, n);
    s->length += n;
}

static void puts_all(struct spelling *s, const char *text)
{
    put(s, text, strlen(text));
}

static void newline(struct spelling *s)
{
    puts_all(s, "\n");
    for (size_t i = 0; i < s->level; i++)
        puts_all(s, SPACES);
}

static void tag(struct spelling *s, const char *open, const uint32_t *e, const char *close)
{
    if (s->breaks)
        newline(s);
    puts_all(s, open);
    put(s, bytes + e[1], e[2]);
    for (size_t i = 0; i < e[4]; i++) {
        const uint32_t *a = attributes + 5 * (e[3] + i);
        puts_all(s, " ");
        put(s, bytes + a[1], a[2]);
        puts_all(s, "=\"");
        put(s, bytes + a[3], a[4]);
        puts_all(s, "\"");
    }
    puts_all(s, close);
    s->breaks = true;
}

static void spell(struct spelling *s, const uint32_t *e)
{
    switch (e[0]) {
    case KERZHOMA_START:
        tag(s, "<", e, ">");
        s->level++;
        break;
    case KERZHOMA_EMPTY:
        tag(s, "<", e, "/>");
        break;
    case KERZHOMA_END:
        s->level--;
        tag(s, "</", e, ">");
        break;
    case KERZHOMA_OTHER:
        tag(s, "<?", e, "?>");
        break;
    case KERZHOMA_TEXT:
        put(s, bytes + e[1], e[2]);
        s->breaks = false;
        break;
    case KERZHOMA_INDENT:
        newline(s);
        break;
    default:
        break;
    }
}

kerzhoma_document kerzhoma_write_xml(
    const uint32_t *records, size_t records_length, const uint8_t *text, size_t text_length, uint8_t *out, size_t out_length);

kerzhoma_document kerzhoma_write_xml(
    const uint32_t *records, size_t records_length, const uint8_t *text, size_t text_length, uint8_t *out, size_t out_length)
{
    struct spelling s = {out, out_length, 0, 0, false};
    kerzhoma_writing w = kerzhoma_write(records, records_length, text, text_length, events, 5 * 65536, attributes, 5 * 65536, bytes, 1 << 20);
    kerzhoma_document d = {0, w.refusal};

    if (out_length)
        memset(out, 0, out_length);
    if (w.refusal.number != KERZHOMA_ACCEPTED)
        return d;
    for (size_t i = 0; i < w.events; i++)
        spell(&s, events + 5 * i);
    if (s.length <= out_length) {
        d.length = s.length;
        return d;
    }
    memset(out, 0, out_length);
    memset(&d, 0, sizeof d);
    d.refusal.number = KERZHOMA_REFUSED_OUTPUT;
    d.refusal.cause = KERZHOMA_CAUSE_OUTPUT_FULL;
    d.refusal.event = d.refusal.attribute = KERZHOMA_NONE;
    return d;
}
