/* The C example (ports/c/example.c) on tables from standard input, each behind its length as a little-endian word: its own code, with
 * areas of a program's size, for sanitizers. And each table with areas of just the length that is lent, on the heap, for valgrind. */
#include "kerzhoma.h"
#undef KERZHOMA_MOST_RECORDS
#undef KERZHOMA_MOST_BYTES
#define KERZHOMA_MOST_RECORDS 2048
#define KERZHOMA_MOST_BYTES 262144
#define main example_main
#include "example.c"
#undef main

/* Reading, listing and writing in areas of these lengths, each of them on the heap and no byte longer. */
static unsigned exact(const struct table *t, size_t records, size_t text, size_t scratch, size_t out)
{
    uint32_t *r = room(4 * records), *e = room(4 * out), *a = room(4 * out);
    uint8_t *x = room(text), *s = room(scratch), *o = room(out);
    kerzhoma_refusal got = kerzhoma_read(t->events, t->events_length, t->attributes, t->attributes_length, t->source, t->source_length,
                                         r, records, x, text, s, scratch);
    unsigned sum = got.number;

    if (got.number == KERZHOMA_ACCEPTED) {
        kerzhoma_listing l = kerzhoma_list(r, records, x, text, o, out);
        kerzhoma_writing w = kerzhoma_write(r, records, x, text, e, out, a, out, o, out);
        kerzhoma_started d = kerzhoma_starts(r, records, x, text);
        sum += l.refusal.number + w.refusal.number + (unsigned)d.found + (out ? o[0] : 0);
    }
    /* what a call leaves is read, so that valgrind looks at it */
    for (size_t i = 0; i < records; i++)
        sum += r[i];
    for (size_t i = 0; i < text; i++)
        sum += x[i];
    for (size_t i = 0; i < scratch; i++)
        sum += s[i];
    free(r), free(e), free(a), free(x), free(s), free(o);
    return sum;
}

int main(void)
{
    struct areas a;
    uint8_t head[4];
    unsigned tables = 0, accepted = 0, sum = 0;

    a.records = room(4 * RECORDS);
    a.text = room(KERZHOMA_MOST_BYTES);
    a.scratch = room(KERZHOMA_MOST_BYTES);
    a.out = room(a.out_length = 64);
    while (fread(head, 1, 4, stdin) == 4) {
        size_t size = word_at(head);
        uint8_t *bytes = room(size);
        struct table t;

        if (fread(bytes, 1, size, stdin) != size || !table_of("-", bytes, size, &t)) {
            fprintf(stderr, "tables: table %u is cut off\n", tables);
            return 2;
        }
        accepted += list("-", &t, &a);
        sum += exact(&t, (tables * 37) % 640, (tables * 13) % 200, (tables * 7) % 60, (tables * 29) % 700);
        tables++;
        free(t.events), free(t.attributes), free(t.source), free(bytes);
    }
    free(a.records), free(a.text), free(a.scratch), free(a.out);
    fprintf(stderr, "%u tables, %u of them accepted, through ports/c (%u)\n", tables, accepted, sum);
    return 0;
}
