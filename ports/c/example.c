/* Prints the public listing of reports, or why they are refused.
 *
 *     example FILE..        `-` is standard input
 *
 * A file holds an XML document, or a table of XML events: three little-endian words, the numbers of events, attributes and source bytes,
 * then the three. Listings go to standard output, all else to standard error. The status is 0 where every report was accepted, 1 where one
 * was refused, and 2 where a file couldn't be used. */
#include "kerzhoma.h"

#include <errno.h>
#include <stdio.h>
#include <stdlib.h>
#include <string.h>

/* The three numbers, and a table of the limits' size. */
#define HEAD 12
#define MOST (HEAD + 4 * (size_t)KERZHOMA_EVENT_WORDS * KERZHOMA_MOST_EVENTS \
              + 4 * (size_t)KERZHOMA_ATTRIBUTE_WORDS * KERZHOMA_MOST_ATTRIBUTES + KERZHOMA_MOST_BYTES)

/* Areas of the limits' size, so that no table is refused for lack of room. They are lent to every call and reused. */
#define RECORDS ((size_t)KERZHOMA_RECORD_WORDS * KERZHOMA_MOST_RECORDS)

struct areas {
    uint32_t *records;
    uint8_t *text;
    uint8_t *scratch;
    uint8_t *out; /* longer where a listing asks for it */
    size_t out_length;
};

struct table {
    uint32_t *events;
    size_t events_length;
    uint32_t *attributes;
    size_t attributes_length;
    uint8_t *source;
    size_t source_length;
};

static void *room(size_t size)
{
    void *p = malloc(size ? size : 1);
    if (!p) {
        fprintf(stderr, "example: no memory for %zu bytes\n", size);
        exit(2);
    }
    return p;
}

static uint32_t word_at(const uint8_t *p)
{
    return (uint32_t)p[0] | (uint32_t)p[1] << 8 | (uint32_t)p[2] << 16 | (uint32_t)p[3] << 24;
}

static uint32_t *words_at(const uint8_t *p, size_t n)
{
    uint32_t *words = (uint32_t *)room(4 * n);
    for (size_t i = 0; i < n; i++)
        words[i] = word_at(p + 4 * i);
    return words;
}

/* All bytes of a file, or NULL. */
static uint8_t *bytes_of(const char *name, size_t *size)
{
    FILE *f = strcmp(name, "-") ? fopen(name, "rb") : stdin;
    size_t length = 0, most = 65536;
    uint8_t *bytes;

    if (!f) {
        fprintf(stderr, "example: %s: cannot be opened: %s\n", name, strerror(errno));
        return NULL;
    }
    bytes = (uint8_t *)room(most);
    for (;;) {
        size_t n = fread(bytes + length, 1, most - length, f);
        length += n;
        if (n == 0 || length > MOST)
            break;
        if (length == most) {
            bytes = (uint8_t *)realloc(bytes, most *= 2);
            if (!bytes) {
                fprintf(stderr, "example: no memory for %zu bytes\n", most);
                exit(2);
            }
        }
    }
    if (ferror(f)) {
        fprintf(stderr, "example: %s: cannot be read: %s\n", name, strerror(errno));
    } else if (length > MOST) {
        fprintf(stderr, "example: %s: too long: more than the %zu bytes of the largest table\n", name, MOST);
    } else {
        if (f != stdin)
            fclose(f);
        *size = length;
        return bytes;
    }
    if (f != stdin)
        fclose(f);
    free(bytes);
    return NULL;
}

/* Whether these bytes are a table, which is then made. */
static bool table_of(const char *name, const uint8_t *bytes, size_t size, struct table *t)
{
    uint64_t events, attributes, source, whole;

    if (size < HEAD) {
        fprintf(stderr, "example: %s: cut off: %zu bytes, and the three numbers before a table take %d\n", name, size, HEAD);
        return false;
    }
    events = word_at(bytes);
    attributes = word_at(bytes + 4);
    source = word_at(bytes + 8);
    whole = HEAD + 4 * KERZHOMA_EVENT_WORDS * events + 4 * KERZHOMA_ATTRIBUTE_WORDS * attributes + source;
    if (size < whole) {
        fprintf(stderr, "example: %s: cut off: %llu events, %llu attributes and %llu bytes of source take %llu bytes, and there are %zu\n",
                name, (unsigned long long)events, (unsigned long long)attributes, (unsigned long long)source, (unsigned long long)whole,
                size);
        return false;
    }
    if (whole < size)
        fprintf(stderr, "example: %s: bytes behind the table are ignored\n", name);
    t->events_length = KERZHOMA_EVENT_WORDS * (size_t)events;
    t->attributes_length = KERZHOMA_ATTRIBUTE_WORDS * (size_t)attributes;
    t->source_length = (size_t)source;
    t->events = words_at(bytes + HEAD, t->events_length);
    t->attributes = words_at(bytes + HEAD + 4 * t->events_length, t->attributes_length);
    t->source = (uint8_t *)room(t->source_length);
    memcpy(t->source, bytes + HEAD + 4 * (t->events_length + t->attributes_length), t->source_length);
    return true;
}

/* Whether these bytes are an XML document: by the file's name, or where behind a byte-order mark and white space they begin with `<` and
 * the first four are no number of events within the limits. */
static bool is_document(const char *name, const uint8_t *bytes, size_t size)
{
    size_t n = strlen(name), i = 0;

    if (n >= 4 && strcmp(name + n - 4, ".xml") == 0)
        return true;
    if (size >= 4 && word_at(bytes) <= KERZHOMA_MOST_EVENTS)
        return false;
    if (size >= 3 && memcmp(bytes, "\xef\xbb\xbf", 3) == 0)
        i = 3;
    while (i < size && (bytes[i] == ' ' || bytes[i] == '\t' || bytes[i] == '\n' || bytes[i] == '\r'))
        i++;
    return i < size && bytes[i] == '<';
}

/* Whether this document is tokenized, which makes the table; its source is a copy. */
static bool tokenized(const char *name, const uint8_t *bytes, size_t size, struct table *t)
{
    size_t events = (size_t)KERZHOMA_EVENT_WORDS * KERZHOMA_MOST_EVENTS;
    size_t attributes = (size_t)KERZHOMA_ATTRIBUTE_WORDS * KERZHOMA_MOST_ATTRIBUTES;
    kerzhoma_tokenized made;

    t->events = (uint32_t *)room(4 * events);
    t->attributes = (uint32_t *)room(4 * attributes);
    t->source = (uint8_t *)room(size);
    memcpy(t->source, bytes, size);
    made = kerzhoma_tokenize(t->source, size, t->events, events, t->attributes, attributes);
    t->events_length = KERZHOMA_EVENT_WORDS * (size_t)made.events;
    t->attributes_length = KERZHOMA_ATTRIBUTE_WORDS * (size_t)made.attributes;
    t->source_length = size;
    if (made.number != KERZHOMA_ACCEPTED) {
        uint8_t line[256]; /* no line is longer */
        size_t length = kerzhoma_explain_xml(bytes, size, made.number, made.byte, events, attributes, line, sizeof line);
        fprintf(stderr, "%s: ", name);
        fwrite(line, 1, length, stderr);
        return false;
    }
    return true;
}

static void longer(struct areas *a)
{
    free(a->out);
    a->out = (uint8_t *)room(a->out_length *= 2);
}

/* How long the area was that a table was read into and that was too short. */
static size_t lent(kerzhoma_refusal why)
{
    return why.number == KERZHOMA_REFUSED_RECORDS ? RECORDS : KERZHOMA_MOST_BYTES;
}

static void explain(const char *name, kerzhoma_refusal why, const struct table *t, struct areas *a)
{
    kerzhoma_explained e;

    for (;;) {
        e = kerzhoma_explain(why, lent(why), t->events, t->events_length, t->attributes, t->attributes_length, t->source,
                             t->source_length, a->out, a->out_length);
        if (e.refusal.number != KERZHOMA_REFUSED_OUTPUT)
            break;
        longer(a);
    }
    fprintf(stderr, "%s: ", name);
    fwrite(a->out, 1, e.length, stderr);
}

/* Whether the table was accepted, and its listing printed. */
static bool list(const char *name, const struct table *t, struct areas *a)
{
    kerzhoma_refusal r;
    kerzhoma_listing l;

    r = kerzhoma_read(t->events, t->events_length, t->attributes, t->attributes_length, t->source, t->source_length,
                      a->records, RECORDS, a->text, KERZHOMA_MOST_BYTES, a->scratch, KERZHOMA_MOST_BYTES);
    if (r.number != KERZHOMA_ACCEPTED) {
        explain(name, r, t, a);
        return false;
    }
    for (;;) {
        l = kerzhoma_list(a->records, RECORDS, a->text, KERZHOMA_MOST_BYTES, a->out, a->out_length);
        if (l.refusal.number != KERZHOMA_REFUSED_OUTPUT)
            break;
        longer(a);
    }
    fwrite(a->out, 1, l.length, stdout);
    return true;
}

int main(int argc, char **argv)
{
    struct areas a;
    int status = 0;

    if (argc < 2) {
        fprintf(stderr, "usage: example FILE..    (- is standard input)\n");
        return 2;
    }
    a.records = (uint32_t *)room(4 * RECORDS);
    a.text = (uint8_t *)room(KERZHOMA_MOST_BYTES);
    a.scratch = (uint8_t *)room(KERZHOMA_MOST_BYTES);
    a.out = (uint8_t *)room(a.out_length = 65536);
    for (int i = 1; i < argc; i++) {
        struct table t;
        size_t size;
        uint8_t *bytes = bytes_of(argv[i], &size);
        bool document = bytes && is_document(argv[i], bytes, size);

        if (!bytes || (!document && !table_of(argv[i], bytes, size, &t))) {
            status = 2;
        } else {
            bool accepted = !document || tokenized(argv[i], bytes, size, &t);
            if (!(accepted && list(argv[i], &t, &a)) && status == 0)
                status = 1;
            free(t.events);
            free(t.attributes);
            free(t.source);
        }
        free(bytes);
    }
    free(a.records);
    free(a.text);
    free(a.scratch);
    free(a.out);
    if (fflush(stdout) == EOF) {
        fprintf(stderr, "example: the listing cannot be written: %s\n", strerror(errno));
        return 2;
    }
    return status;
}
