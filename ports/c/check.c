/* Checks of the calls from C; ports/c/check.sh runs it. Areas are allocated exactly as long as they are said to be, so that valgrind sees
 * a byte too many.
 *
 *     check                 values, builders, codes that are none, empty and short areas; prints how many passed and failed
 *     check tell <TABLES    tables one behind the other, told as crate test_tell does, in areas of test_replay's sizes
 *     check rooms FILE..    that areas of the sizes that kerzhoma.h calls enough give the same answer as areas of the limits' size */
#include "kerzhoma.h"

#include <stdio.h>
#include <stdlib.h>
#include <string.h>

_Static_assert(sizeof(kerzhoma_refusal) == 92, "refusal");
_Static_assert(sizeof(kerzhoma_counts) == 48, "counts");
_Static_assert(sizeof(kerzhoma_released) == 152, "released");
_Static_assert(sizeof(kerzhoma_builder) == 24, "builder");
_Static_assert(sizeof(kerzhoma_moment) == 16, "moment");
_Static_assert(sizeof(kerzhoma_uuid) == 16, "uuid");

static int passed, failed;

static void expect(bool good, const char *what)
{
    good ? passed++ : failed++;
    if (!good)
        printf("failed: %s\n", what);
}

static void *room(size_t size)
{
    void *p = malloc(size ? size : 1);
    if (!p)
        exit(2);
    memset(p, 0xa5, size ? size : 1);
    return p;
}

static bool zero(const void *area, size_t size)
{
    const uint8_t *p = area;
    while (size > 0)
        if (p[--size])
            return false;
    return true;
}

#define BYTES(s) (const uint8_t *)(s), sizeof(s) - 1

/* ---- tables ---- */

struct table {
    uint32_t *events, *attributes;
    uint8_t *source;
    size_t events_length, attributes_length, source_length, size;
};

#define OF(t) (t).events, (t).events_length, (t).attributes, (t).attributes_length, (t).source, (t).source_length

static uint32_t word_at(const uint8_t *p)
{
    return (uint32_t)p[0] | (uint32_t)p[1] << 8 | (uint32_t)p[2] << 16 | (uint32_t)p[3] << 24;
}

static uint32_t *words_at(const uint8_t *p, size_t n)
{
    uint32_t *words = room(4 * n);
    for (size_t i = 0; i < n; i++)
        words[i] = word_at(p + 4 * i);
    return words;
}

/* The table that the bytes begin with. */
static bool table_of(const uint8_t *bytes, size_t size, struct table *t)
{
    uint64_t e, a, s, whole;
    if (size < 12)
        return false;
    e = word_at(bytes), a = word_at(bytes + 4), s = word_at(bytes + 8);
    whole = 12 + 20 * e + 20 * a + s;
    if (size < whole)
        return false;
    t->size = (size_t)whole;
    t->events_length = 5 * (size_t)e;
    t->attributes_length = 5 * (size_t)a;
    t->source_length = (size_t)s;
    t->events = words_at(bytes + 12, t->events_length);
    t->attributes = words_at(bytes + 12 + 20 * e, t->attributes_length);
    t->source = room(t->source_length);
    memcpy(t->source, bytes + 12 + 20 * e + 20 * a, t->source_length);
    return true;
}

static void drop(struct table t)
{
    free(t.events);
    free(t.attributes);
    free(t.source);
}

static uint8_t *all_of(FILE *f, size_t *size)
{
    size_t n, most = 65536;
    uint8_t *bytes = room(most);
    *size = 0;
    while (f && (n = fread(bytes + *size, 1, most - *size, f)) > 0)
        if ((*size += n) == most && !(bytes = realloc(bytes, most *= 2)))
            exit(2);
    return bytes;
}

/* ---- check tell ---- */

static void tell_number(uint32_t n)
{
    n == KERZHOMA_NONE ? printf(" -") : printf(" %u", n);
}

static void tell_refusal(kerzhoma_refusal r)
{
    printf("(refused)");
    tell_number(r.number);
    tell_number(r.event);
    tell_number(r.attribute);
    for (uint32_t i = 0; i < 3 * r.depth; i++)
        tell_number(r.path[i]);
    printf("\n");
}

static void tell(struct table t)
{
    uint32_t *records = room(4 * 16384);
    uint8_t *text = room(65536), *scratch = room(65536), *out = room(65536);
    kerzhoma_refusal r = kerzhoma_read(OF(t), records, 16384, text, 65536, scratch, 65536);
    if (r.number) {
        tell_refusal(r);
    } else {
        kerzhoma_listing l = kerzhoma_list(records, 16384, text, 65536, out, 65536);
        if (l.refusal.number)
            tell_refusal(l.refusal);
        else
            fwrite(out, 1, l.length, stdout);
    }
    free(records);
    free(text);
    free(scratch);
    free(out);
}

static int tell_all(void)
{
    size_t size, at = 0;
    uint8_t *bytes = all_of(stdin, &size);
    struct table t;
    while (at < size && table_of(bytes + at, size - at, &t)) {
        tell(t);
        at += t.size;
        drop(t);
    }
    free(bytes);
    return at == size ? 0 : 2;
}

/* ---- check rooms ---- */

static size_t least(uint64_t a, size_t b)
{
    return a < b ? (size_t)a : b;
}

/* What kerzhoma.h calls enough. Attributes may be shared by many events, so they are summed up once. */
static void rooms_for(struct table t, size_t *words, size_t *text, size_t *scratch)
{
    size_t n = t.attributes_length / 5;
    uint64_t *sums = room(8 * (n + 1)), records = 0, values = 0, others = 0;
    sums[0] = 0;
    for (size_t i = 0; i < n; i++)
        sums[i + 1] = sums[i] + t.attributes[5 * i + 2] + t.attributes[5 * i + 4];
    for (size_t i = 0; i < t.events_length; i += 5) {
        const uint32_t *e = t.events + i;
        if (e[0] > KERZHOMA_EMPTY) {
            others += (uint64_t)e[2] + 1;
        } else {
            size_t first = least(e[3], n), end = least((uint64_t)e[3] + e[4], n);
            records += 1 + (end - first);
            values += sums[end] - sums[first];
        }
    }
    free(sums);
    *words = 32 * least(records, KERZHOMA_MOST_RECORDS);
    *text = least(values + others, KERZHOMA_MOST_BYTES);
    *scratch = least(others, KERZHOMA_MOST_BYTES);
}

static kerzhoma_refusal read_in(struct table t, size_t words, size_t bytes, size_t gathered)
{
    uint32_t *records = room(4 * words);
    uint8_t *text = room(bytes), *scratch = room(gathered);
    kerzhoma_refusal r = kerzhoma_read(OF(t), records, words, text, bytes, scratch, gathered);
    expect(zero(scratch, gathered), "scratch is zero behind reading");
    if (r.number)
        expect(zero(records, 4 * words) && zero(text, bytes), "areas are zero behind a refusal");
    else
        expect(kerzhoma_is_layout(records, words, text, bytes), "a layout behind reading");
    free(records);
    free(text);
    free(scratch);
    return r;
}

static void rooms(const char *name)
{
    FILE *f = fopen(name, "rb");
    size_t size, words, text, scratch;
    uint8_t *bytes = all_of(f, &size);
    struct table t;
    if (table_of(bytes, size, &t)) {
        kerzhoma_refusal one, other;
        rooms_for(t, &words, &text, &scratch);
        one = read_in(t, words, text, scratch);
        other = read_in(t, 32 * KERZHOMA_MOST_RECORDS, KERZHOMA_MOST_BYTES, KERZHOMA_MOST_BYTES);
        expect(memcmp(&one, &other, sizeof one) == 0, name);
        drop(t);
    } else {
        expect(false, name);
    }
    free(bytes);
    if (f)
        fclose(f);
}

/* ---- values ---- */

static void values(void)
{
    uint8_t *out = room(5);
    kerzhoma_counts c = { 2, 1, 0, 0, 7, false }, s = { UINT64_MAX, 0, 0, 0, 3, true };
    kerzhoma_counted r;

    expect(kerzhoma_time_text(out, 5, 0, 500000000) == 5 && memcmp(out, "0.500", 5) == 0, "a time");
    expect(kerzhoma_time_text(out, 4, 0, 500000000) == 0 && zero(out, 4) && out[4] == '0', "a time in too short an area");
    expect(kerzhoma_time_text(NULL, 0, 0, 0) == 0, "a time in no area");
    free(out);
    out = room(14);
    expect(kerzhoma_time_text(out, 14, UINT32_MAX, UINT32_MAX) == 14, "the longest time");
    free(out);
    for (uint32_t k = 0; k < 6; k++) {
        r = kerzhoma_add_case(c, k);
        if (k > 3)
            expect(r.refusal.number == KERZHOMA_REFUSED_LAYOUT && r.refusal.cause == KERZHOMA_CAUSE_NOT_LAYOUT
                   && r.counts.tests == 2 && r.counts.disabled == 7, "an outcome that is none");
        else
            expect(r.refusal.number == 0 && r.refusal.event == KERZHOMA_NONE && r.counts.tests == 3
                   && r.counts.failures == 1u + (k == KERZHOMA_FAILURE) && r.counts.errors == (k == KERZHOMA_ERROR)
                   && r.counts.skipped == (k == KERZHOMA_SKIPPED) && !r.counts.has_disabled, "a case counted");
    }
    r = kerzhoma_add_suite(c, s);
    expect(r.refusal.number == KERZHOMA_REFUSED_COUNT && r.counts.tests == 2 && !r.counts.has_disabled, "a count above the limit");
    s.tests = 5;
    r = kerzhoma_add_suite(c, s);
    expect(r.refusal.number == 0 && r.counts.tests == 7 && r.counts.has_disabled && r.counts.disabled == 3, "a suite added");
}

/* ---- the release sheet ---- */

static void sheets(void)
{
    static const char sheet[] = "(tests 7)\n(failures 2)\n(errors 0)\n(skipped 1)\n(disabled 0)\n(passed 4 7)\n";
    size_t size = sizeof sheet - 1;
    kerzhoma_counts *records = room(4097 * sizeof *records);
    uint8_t *out = room(size + 3);
    kerzhoma_released r;
    kerzhoma_printed p;

    records[0] = (kerzhoma_counts){ 5, 1, 0, 1, 9, false };
    records[1] = (kerzhoma_counts){ 2, 1, 0, 0, 0, true };
    r = kerzhoma_release_sheet(records, 2);
    expect(r.refusal.number == 0 && r.sheet.sums.tests == 7 && r.sheet.sums.failures == 2 && r.sheet.sums.has_disabled
           && r.sheet.sums.disabled == 0 && r.sheet.passed == 4, "a sheet");
    p = kerzhoma_print_sheet(records, 2, out, size + 3);
    expect(p.refusal.number == 0 && p.length == size && memcmp(out, sheet, size) == 0 && zero(out + size, 3), "a sheet printed");
    p = kerzhoma_print_sheet(records, 2, out, size);
    expect(p.refusal.number == 0 && p.length == size, "an area that suffices");
    p = kerzhoma_print_sheet(records, 2, out, size - 1);
    expect(p.refusal.number == KERZHOMA_REFUSED_OUTPUT && p.length == 0 && zero(out, size - 1) && out[size - 1] == '\n', "a byte too short");
    r = kerzhoma_release_sheet(NULL, 0);
    expect(r.refusal.number == 0 && r.sheet.sums.tests == 0 && !r.sheet.sums.has_disabled && r.sheet.passed == 0, "no reports");
    records[1].tests = UINT64_MAX - 4;
    r = kerzhoma_release_sheet(records, 2);
    expect(r.refusal.number == KERZHOMA_REFUSED_COUNT && zero(&r.sheet.sums.tests, 40) && !r.sheet.sums.has_disabled && r.sheet.passed == 0,
           "a sum above the limit");
    p = kerzhoma_print_sheet(records, 2, NULL, 0);
    expect(p.refusal.number == KERZHOMA_REFUSED_COUNT && p.length == 0, "17 before 16");
    memset(records, 0, 4097 * sizeof *records);
    records[0].tests = UINT64_MAX;
    r = kerzhoma_release_sheet(records, 4096);
    expect(r.refusal.number == 0 && r.sheet.passed == UINT64_MAX, "4096 reports");
    records[1].tests = 1;
    r = kerzhoma_release_sheet(records, 4097);
    expect(r.refusal.number == KERZHOMA_REFUSED_TABLE && r.refusal.cause == KERZHOMA_CAUSE_TOO_MANY_REPORTS && r.refusal.depth == 0
           && r.refusal.event == KERZHOMA_NONE && r.refusal.attribute == KERZHOMA_NONE, "4097 reports");
    p = kerzhoma_print_sheet(records, 4097, out, size);
    expect(p.refusal.cause == KERZHOMA_CAUSE_TOO_MANY_REPORTS && p.length == 0 && zero(out, size), "4097 reports, printed");
    free(records);
    free(out);
}

/* ---- builders ---- */

/* Two areas, and the builder that works in them. */
static uint32_t *records;
static uint8_t *text;
static size_t words, bytes;
static kerzhoma_built b;

#define IN records, words, text, bytes

static void lend(size_t w, size_t n)
{
    words = w;
    bytes = n;
    records = room(4 * w);
    text = room(n);
}

static void back(void)
{
    free(records);
    free(text);
}

static bool good(void)
{
    return b.refusal.number == 0;
}

/* The answer of a refusing builder's call. */
static bool refused(uint32_t number)
{
    return b.refusal.number == number && b.refusal.depth == 0 && b.refusal.event == KERZHOMA_NONE
           && b.refusal.attribute == KERZHOMA_NONE && b.builder.records == 0 && b.builder.report == KERZHOMA_NONE
           && zero(records, 4 * words) && zero(text, bytes);
}

static void build(void)
{
    const kerzhoma_moment leap = { 2024, 2, 29, 23, 59, 58, 123456789, 1439 + 60 };
    const kerzhoma_uuid id = { { 0x01234567, 0x89abcdef, 0x01234567, 0x89abcdef } };

    b = kerzhoma_new_report(IN, BYTES("r"));
    b = kerzhoma_set_uuid(b.builder, IN, id);
    b = kerzhoma_set_timestamp(b.builder, IN, KERZHOMA_REPORT, leap);
    b = kerzhoma_add_test_suite(b.builder, IN, BYTES("lab"));
    b = kerzhoma_add_extra(b.builder, IN, KERZHOMA_OF_SUITE, BYTES("package"), BYTES("a1"));
    b = kerzhoma_add_extra(b.builder, IN, KERZHOMA_OF_SUITE, BYTES("package"), BYTES("b<2"));
    b = kerzhoma_set_text(b.builder, IN, KERZHOMA_SUITE, KERZHOMA_HOSTNAME, BYTES("bench-7"));
    b = kerzhoma_add_property(b.builder, IN, KERZHOMA_OF_SUITE, BYTES("seed"), BYTES("42"));
    b = kerzhoma_set_number(b.builder, IN, KERZHOMA_DISABLED, 4);
    b = kerzhoma_set_text(b.builder, IN, KERZHOMA_SUITE, KERZHOMA_SYSTEM_ERR, BYTES("suite err"));
    b = kerzhoma_add_test_case(b.builder, IN, BYTES("a"), KERZHOMA_SUCCESS);
    b = kerzhoma_set_time(b.builder, IN, KERZHOMA_CASE, 0, 500000000);
    b = kerzhoma_set_text(b.builder, IN, KERZHOMA_CASE, KERZHOMA_CLASSNAME, BYTES("c.d"));
    b = kerzhoma_set_number(b.builder, IN, KERZHOMA_ASSERTIONS, UINT64_MAX);
    b = kerzhoma_set_output_lossy(b.builder, IN, KERZHOMA_CASE, KERZHOMA_SYSTEM_OUT, BYTES("x\xff"));
    b = kerzhoma_add_test_case(b.builder, IN, BYTES("b"), KERZHOMA_FAILURE);
    b = kerzhoma_set_text(b.builder, IN, KERZHOMA_STATUS, KERZHOMA_MESSAGE, BYTES("m"));
    b = kerzhoma_set_text(b.builder, IN, KERZHOMA_STATUS, KERZHOMA_TYPE, BYTES("t"));
    b = kerzhoma_set_text(b.builder, IN, KERZHOMA_STATUS, KERZHOMA_DESCRIPTION, BYTES("d"));
    b = kerzhoma_add_rerun(b.builder, IN, KERZHOMA_RUN_ERROR);
    b = kerzhoma_set_text(b.builder, IN, KERZHOMA_LAST, KERZHOMA_STACK_TRACE, BYTES("trace"));
    b = kerzhoma_set_rerun_kind(b.builder, IN, KERZHOMA_FLAKY);
    b = kerzhoma_add_test_case(b.builder, IN, BYTES("c"), KERZHOMA_SKIPPED);
    b = kerzhoma_finish_report(b.builder, IN);
}

static const char listing[] =
    "(report \"r\" 3 1 0 1 4\n"
    "(suite \"lab\" 3 1 0 1 4\n"
    "(case \"a\" \"c.d\" 0.500 success flaky 0)\n"
    "(case \"b\" - - failure flaky 1\n"
    "(run error -))\n"
    "(case \"c\" - - skipped none 0)))\n";

static bool lists(const uint32_t *r, size_t n, const uint8_t *t, size_t m)
{
    size_t size = sizeof listing - 1;
    uint8_t *out = room(size);
    kerzhoma_listing l = kerzhoma_list(r, n, t, m, out, size);
    bool same = l.refusal.number == 0 && l.length == size && memcmp(out, listing, size) == 0;
    l = kerzhoma_list(r, n, t, m, out, size - 1);
    same = same && l.refusal.number == KERZHOMA_REFUSED_OUTPUT && l.length == 0 && zero(out, size - 1);
    free(out);
    return same;
}

/* The document ends in `</testsuites>` and a newline; of an area one byte shorter all is zero. */
static bool spells(const uint32_t *r, size_t n, const uint8_t *t, size_t m)
{
    static const char end[] = "    </testsuite>\n</testsuites>\n";
    size_t size = 4096;
    uint8_t *out = room(size);
    kerzhoma_document d = kerzhoma_write_xml(r, n, t, m, out, size);
    size_t length = d.length, tail = sizeof end - 1;
    bool same = d.refusal.number == 0 && length > tail && memcmp(out, "<?xml version=\"1.0\" encoding=\"UTF-8\"?>\n<testsuites ", 51) == 0
        && memcmp(out + length - tail, end, tail) == 0 && zero(out + length, size - length);
    d = kerzhoma_write_xml(r, n, t, m, out, length - 1);
    same = same && d.refusal.number == KERZHOMA_REFUSED_OUTPUT && d.length == 0 && zero(out, length - 1);
    free(out);
    return same;
}

static bool holds(const uint8_t *area, size_t size, const char *part)
{
    size_t n = strlen(part);
    for (size_t i = 0; i + n <= size; i++)
        if (memcmp(area + i, part, n) == 0)
            return true;
    return false;
}

static void built(void)
{
    static const char *const parts[] = {
        "01234567-89ab-cdef-0123-456789abcdef", "2024-02-29T23:59:58.123+01:00", "package", "b&lt;2", "hostname", "bench-7", "seed", "42", "suite err", "c.d",
        "18446744073709551615", "x\xef\xbf\xbd", "trace", "flakyError",
    };
    kerzhoma_writing w;
    kerzhoma_refusal r;
    struct table t;
    uint32_t *again;
    uint8_t *texts, *scratch;

    lend(32 * 11, 200);
    build();
    expect(good() && b.builder.records == 10 && b.builder.suite == KERZHOMA_NONE, "a report built");
    expect(kerzhoma_is_layout(IN), "what is built is a layout");
    expect(lists(IN), "the listing of what is built");
    expect(spells(IN), "the document of what is built");

    t.events = room(4 * 500), t.attributes = room(4 * 500), t.source = room(2000);
    w = kerzhoma_write(IN, t.events, 500, t.attributes, 500, t.source, 2000);
    expect(w.refusal.number == 0 && w.events > 0 && w.attributes > 0 && w.bytes > 0, "a report written");
    for (size_t i = 0; i < sizeof parts / sizeof *parts; i++)
        expect(holds(t.source, w.bytes, parts[i]), parts[i]);
    t.events_length = 5 * w.events, t.attributes_length = 5 * w.attributes, t.source_length = w.bytes;
    again = room(4 * words), texts = room(bytes), scratch = room(bytes);
    r = kerzhoma_read(OF(t), again, words, texts, bytes, scratch, bytes);
    expect(r.number == 0 && lists(again, words, texts, bytes), "what is written, read again");
    w = kerzhoma_write(IN, t.events, 4, t.attributes, 500, t.source, 2000);
    expect(w.refusal.number == KERZHOMA_REFUSED_OUTPUT && w.events == 0 && zero(t.events, 16) && zero(t.source, 2000), "too few words");
    free(again);
    free(texts);
    free(scratch);
    drop(t);
    back();
}

/* Areas of every length up to what is needed, and codes that are none. */
static void refusing(void)
{
    size_t used;

    lend(32 * 10, 200);
    build();
    used = b.builder.bytes;
    back();
    for (size_t n = 0; n <= 32 * 10; n++) {
        lend(n, used);
        build();
        expect(n < 32 * 10 ? refused(KERZHOMA_REFUSED_LAYOUT) : good(), "records of every length");
        back();
    }
    for (size_t n = 0; n <= used; n++) {
        lend(32 * 10, n);
        build();
        expect(n < used ? refused(KERZHOMA_REFUSED_LAYOUT) : good(), "text of every length");
        back();
    }
    lend(0, 0);
    b = kerzhoma_new_report(NULL, 0, NULL, 0, NULL, 0);
    expect(refused(KERZHOMA_REFUSED_RECORDS), "no areas");
    back();
    lend(32, 0);
    b = kerzhoma_new_report(IN, BYTES("x"));
    expect(refused(KERZHOMA_REFUSED_TEXT), "no text area");
    back();

    lend(32 * 10, 100);
    const kerzhoma_moment never = { 2023, 2, 29, 0, 0, 0, 0, 1439 };
    for (int k = 0; k < 15; k++) {
        uint32_t number = KERZHOMA_REFUSED_LAYOUT;
        b = kerzhoma_unnamed_report(IN);
        b = kerzhoma_add_test_suite(b.builder, IN, BYTES("s"));
        b = kerzhoma_add_test_case(b.builder, IN, BYTES("c"), KERZHOMA_FAILURE);
        expect(good(), "a case to work with");
        switch (k) {
        case 0: b = kerzhoma_add_test_case(b.builder, IN, BYTES("d"), 4); break;
        case 1: b = kerzhoma_add_rerun(b.builder, IN, 2); break;
        case 2: b = kerzhoma_add_property(b.builder, IN, 2, BYTES("n"), BYTES("v")); break;
        case 3: b = kerzhoma_add_extra(b.builder, IN, 2, BYTES("n"), BYTES("v")); break;
        case 4: b = kerzhoma_set_text(b.builder, IN, 5, KERZHOMA_MESSAGE, BYTES("m")); break;
        case 5: b = kerzhoma_set_text(b.builder, IN, KERZHOMA_STATUS, 7, BYTES("m")); break;
        case 6: b = kerzhoma_set_output_lossy(b.builder, IN, UINT32_MAX, KERZHOMA_SYSTEM_OUT, BYTES("m")); break;
        case 7: b = kerzhoma_set_output_lossy(b.builder, IN, KERZHOMA_CASE, UINT32_MAX, BYTES("m")); break;
        case 8: b = kerzhoma_set_timestamp(b.builder, IN, 5, never); break;
        case 9: b = kerzhoma_set_time(b.builder, IN, 5, 0, 0); break;
        case 10: b = kerzhoma_set_number(b.builder, IN, 2, 0); break;
        case 11: b = kerzhoma_set_rerun_kind(b.builder, IN, 2); break;
        case 12: b = kerzhoma_set_timestamp(b.builder, IN, KERZHOMA_CASE, never), number = KERZHOMA_REFUSED_TIMESTAMP; break;
        case 13: b = kerzhoma_set_time(b.builder, IN, KERZHOMA_CASE, 8388608, 0), number = KERZHOMA_REFUSED_TIME; break;
        case 14: b = kerzhoma_set_text(b.builder, IN, KERZHOMA_STATUS, KERZHOMA_MESSAGE, BYTES("\xff")), number = KERZHOMA_REFUSED_UTF8; break;
        }
        expect(refused(number), "a builder's call that refuses");
    }
    b.builder = (kerzhoma_builder){ UINT32_MAX, UINT32_MAX, UINT32_MAX - 1, 7, 7, 7 };
    b = kerzhoma_add_test_suite(b.builder, IN, BYTES("s"));
    expect(refused(KERZHOMA_REFUSED_LAYOUT), "a made-up builder");
    back();
}

/* ---- areas ---- */

/* <testsuites name="r"><testsuite name="l"><system-out>ab</system-out></testsuite></testsuites> */
static uint32_t small_events[] = {
    0, 0, 10, 0, 1, 0, 10, 9, 1, 1, 0, 19, 10, 0, 0, 3, 29, 2, 0, 0, 2, 19, 10, 0, 0, 2, 10, 9, 0, 0, 2, 0, 10, 0, 0,
};
static uint32_t small_attributes[] = { 0, 31, 4, 35, 1, 0, 31, 4, 36, 1 };
static uint8_t small_source[] = "testsuitestestsuitesystem-outabnamerl";

static void areas(void)
{
    struct table t = { small_events, small_attributes, small_source, 35, 10, sizeof small_source - 1, 0 }, none = { 0 };
    const char line[] = "refused 14 at testsuites/testsuite[0](\"l\")/system-out: the area for gathering text is too short (event 3)\n";
    const char most[] = "refused 14 at testsuites/testsuite[0]/system-out: a gathered text is longer than 16777216 bytes (event 3)\n";
    kerzhoma_refusal r;
    kerzhoma_explained e;
    uint8_t *out = room(200);

    for (size_t n = 0; n <= 64; n++) {
        r = read_in(t, n, 4, 2);
        expect(r.number == (n < 64 ? KERZHOMA_REFUSED_RECORDS : 0), "words for records of every number");
    }
    for (size_t n = 0; n <= 4; n++) {
        r = read_in(t, 64, n, 2);
        expect(r.number == (n < 4 ? KERZHOMA_REFUSED_TEXT : 0), "text of every length");
    }
    for (size_t n = 0; n <= 2; n++) {
        r = read_in(t, 64, 4, n);
        expect(r.number == (n < 2 ? KERZHOMA_REFUSED_SCRATCH : 0), "scratch of every length");
    }
    r = read_in(t, 64, 4, 1);
    expect(r.number == KERZHOMA_REFUSED_SCRATCH && r.cause == KERZHOMA_CAUSE_SCRATCH_FULL && r.depth == 3
           && r.path[0] == KERZHOMA_PATH_TESTSUITES && r.path[1] == KERZHOMA_NONE && r.path[2] == KERZHOMA_NONE
           && r.path[3] == KERZHOMA_PATH_TESTSUITE && r.path[4] == 0 && r.path[5] == 1 && r.path[6] == KERZHOMA_PATH_SYSTEM_OUT
           && r.event == 3 && r.attribute == KERZHOMA_NONE && zero(r.path + 9, 36), "where scratch is too short");
    for (size_t n = 0; n < sizeof line; n++) {
        uint8_t *exact = room(n);
        e = kerzhoma_explain(r, 1, OF(t), exact, n);
        if (n < sizeof line - 1)
            expect(e.length == 0 && e.refusal.number == KERZHOMA_REFUSED_OUTPUT && zero(exact, n), "too short for the line");
        else
            expect(e.length == n && e.refusal.number == 0 && memcmp(exact, line, n) == 0, "the line");
        free(exact);
    }
    e = kerzhoma_explain(r, KERZHOMA_MOST_BYTES, OF(none), out, 200);
    expect(e.refusal.number == 0 && memcmp(out, most, sizeof most) == 0, "scratch of the limit's size");
    memset(&r, 0xff, sizeof r);
    e = kerzhoma_explain(r, 0, OF(t), out, 200);
    expect(e.refusal.number == 0 && memcmp(out, "refused 11 at ?/?/?/?/?/?: ", 27) == 0, "a made-up refusal");
    free(out);

    r = kerzhoma_read(OF(none), NULL, 0, NULL, 0, NULL, 0);
    expect(r.number == KERZHOMA_REFUSED_STRUCTURE && r.cause == KERZHOMA_CAUSE_MISSING_REPORT && r.event == 0, "no table");
    expect(!kerzhoma_is_layout(NULL, 0, NULL, 0), "no layout");
    expect(kerzhoma_list(NULL, 0, NULL, 0, NULL, 0).refusal.number == KERZHOMA_REFUSED_LAYOUT, "no report to list");
    expect(kerzhoma_write(NULL, 0, NULL, 0, NULL, 0, NULL, 0, NULL, 0).refusal.number == KERZHOMA_REFUSED_LAYOUT, "no report to write");
    expect(kerzhoma_write_xml(NULL, 0, NULL, 0, NULL, 0).refusal.number == KERZHOMA_REFUSED_LAYOUT, "no report to spell");
    expect(kerzhoma_public_listing(OF(none), NULL, 0, NULL, 0, NULL, 0, NULL, 0) == 0, "no public listing");
    expect(kerzhoma_explain(r, 0, OF(none), NULL, 0).refusal.number == KERZHOMA_REFUSED_OUTPUT, "no line");
    out = room(10);
    expect(kerzhoma_public_listing(OF(none), NULL, 0, NULL, 0, NULL, 0, out, 10) == 10 && memcmp(out, "(refused)\n", 10) == 0, "(refused)");
    free(out);
}

/* ---- reading and listing in one ---- */

static const char small_listing[] = "(report \"r\" 0 0 0 0 -\n(suite \"l\" 0 0 0 0 -))\n";

/* with areas of these lengths: what reading and then listing come to, and no tree behind it */
static void list_once(struct table t, size_t words, size_t bytes, size_t gathered, size_t n)
{
    size_t length = sizeof small_listing - 1;
    uint32_t *records = room(4 * words);
    uint8_t *text = room(bytes), *scratch = room(gathered), *out = room(n);
    kerzhoma_refusal r = read_in(t, words, bytes, gathered);
    kerzhoma_listing l = kerzhoma_read_and_list(OF(t), records, words, text, bytes, scratch, gathered, out, n);
    expect(zero(records, 4 * words) && zero(text, bytes) && zero(scratch, gathered), "no tree is left");
    if (r.number != 0)
        expect(memcmp(&l.refusal, &r, sizeof r) == 0 && l.length == 0 && zero(out, n), "the refusal of reading, whole");
    else if (n < length)
        expect(l.refusal.number == KERZHOMA_REFUSED_OUTPUT && l.refusal.depth == 0 && l.length == 0 && zero(out, n), "no room for the listing");
    else
        expect(l.refusal.number == 0 && l.length == length && memcmp(out, small_listing, length) == 0 && zero(out + length, n - length), "the listing");
    size_t k = kerzhoma_public_listing(OF(t), records, words, text, bytes, scratch, gathered, out, n);
    bool listed = r.number == 0 && n >= length;
    const char *want = listed ? small_listing : "(refused)\n";
    size_t most = listed ? length : 10;
    expect(k == (n < most ? n : most) && memcmp(out, want, k) == 0 && zero(out + k, n - k), "what is printed of it");
    expect(zero(records, 4 * words) && zero(text, bytes) && zero(scratch, gathered), "no tree is left there");
    free(records);
    free(text);
    free(scratch);
    free(out);
}

static void once(void)
{
    struct table t = { small_events, small_attributes, small_source, 35, 10, sizeof small_source - 1, 0 }, none = { 0 };
    size_t length = sizeof small_listing - 1;
    list_once(none, 64, 4, 2, 100);
    for (size_t n = 0; n <= 100; n++)
        list_once(t, n, 4, 2, 100);
    for (size_t n = 0; n <= 6; n++)
        list_once(t, 64, n, 2, 100);
    for (size_t n = 0; n <= 4; n++)
        list_once(t, 64, 4, n, 100);
    for (size_t n = 0; n <= length + 2; n++)
        list_once(t, 64, 4, 2, n);
    for (size_t n = 0; n <= length; n++)
        list_once(t, 64, 4, 1, n);
    kerzhoma_listing l = kerzhoma_read_and_list(OF(none), NULL, 0, NULL, 0, NULL, 0, NULL, 0);
    expect(l.length == 0 && l.refusal.number == KERZHOMA_REFUSED_STRUCTURE, "no table to list");
}

/* ---- reports to order ---- */

/* one case of each kind, in areas of so many words and bytes */
static kerzhoma_writing ordered(size_t e, size_t a, size_t n, bool listed)
{
    static const char listing[] =
        "(report \"rehearsal\" 5 1 1 1 -\n(suite \"rehearsal\" 5 1 1 1 -\n(case \"case0\" - - failure rerun 0)\n"
        "(case \"case1\" - - error rerun 0)\n(case \"case2\" - - skipped none 0)\n"
        "(case \"case3\" - - success flaky 1\n(run failure -))\n(case \"case4\" - - success flaky 0)))\n";
    struct table t = {room(4 * e), room(4 * a), room(n), e, a, n, 0};
    kerzhoma_writing w = kerzhoma_rehearse(5, 1, 1, 1, 1, t.events, e, t.attributes, a, t.source, n);
    if (listed) {
        uint32_t *words = room(4 * 352);
        uint8_t *text = room(200), *out = room(400);
        t.events_length = 5 * w.events, t.attributes_length = 5 * w.attributes, t.source_length = w.bytes;
        size_t k = kerzhoma_public_listing(OF(t), words, 352, text, 200, NULL, 0, out, 400);
        expect(k == strlen(listing) && memcmp(out, listing, k) == 0, "what was ordered is listed");
        free(words);
        free(text);
        free(out);
    } else {
        expect(zero(t.events, 4 * e) && zero(t.attributes, 4 * a) && zero(t.source, n), "an order that is refused leaves zeros");
    }
    drop(t);
    return w;
}

static void orders(void)
{
    kerzhoma_writing w = ordered(105, 75, 318, true);
    expect(w.refusal.number == 0 && w.events == 21 && w.attributes == 15 && w.bytes == 318, "one case of each kind");
    expect(ordered(104, 75, 318, false).refusal.number == KERZHOMA_REFUSED_OUTPUT, "a word of events too few");
    expect(ordered(105, 74, 318, false).refusal.number == KERZHOMA_REFUSED_OUTPUT, "a word of attributes too few");
    expect(ordered(105, 75, 317, false).refusal.number == KERZHOMA_REFUSED_OUTPUT, "a byte too few");
    w = kerzhoma_rehearse(4097, 9, 9, 9, UINT64_MAX, NULL, 0, NULL, 0, NULL, 0);
    expect(w.refusal.number == KERZHOMA_REFUSED_CASES && w.refusal.cause == KERZHOMA_CAUSE_TOO_MANY_CASES, "4,097 cases");
    w = kerzhoma_rehearse(4096, UINT64_MAX, 1, 0, 0, NULL, 0, NULL, 0, NULL, 0);
    expect(w.refusal.number == KERZHOMA_REFUSED_ORDER && w.refusal.cause == KERZHOMA_CAUSE_NO_SUCH_REPORT, "a sum that wraps");
}

/* ---- first and last start ---- */

static bool is_moment(kerzhoma_moment a, kerzhoma_moment b)
{
    return a.year == b.year && a.month == b.month && a.day == b.day && a.hour == b.hour && a.minute == b.minute && a.second == b.second
           && a.nanoseconds == b.nanoseconds && a.offset == b.offset;
}

static void add_start(const char *name, kerzhoma_moment m)
{
    b = kerzhoma_add_test_case(b.builder, IN, (const uint8_t *)name, 1, KERZHOMA_SUCCESS);
    b = kerzhoma_set_timestamp(b.builder, IN, KERZHOMA_CASE, m);
}

static bool starts_are(uint32_t number, bool found, kerzhoma_moment first, kerzhoma_moment last, uint64_t seconds, uint32_t nanoseconds)
{
    kerzhoma_started s = kerzhoma_starts(IN);
    return s.refusal.number == number && s.found == found && is_moment(s.first, first) && is_moment(s.last, last) && s.seconds == seconds
           && s.nanoseconds == nanoseconds;
}

static void first_and_last(void)
{
    static const kerzhoma_moment none = { 0 }, east = { 1990, 12, 31, 23, 59, 59, 500000000, 1439 },
                                 west = { 1990, 12, 31, 15, 59, 59, 900000000, 959 };

    lend(32 * 5, 4);
    b = kerzhoma_unnamed_report(IN);
    b = kerzhoma_set_timestamp(b.builder, IN, KERZHOMA_REPORT, west);
    expect(good() && starts_are(0, false, none, none, 0, 0), "no start");
    b = kerzhoma_add_test_suite(b.builder, IN, (const uint8_t *)"s", 1);
    add_start("a", west);
    expect(good() && starts_are(0, true, west, west, 0, 0), "one start");
    add_start("b", east);
    expect(good() && starts_are(0, true, east, west, 0, 400000000), "two starts");
    records[0] = 0;
    expect(starts_are(KERZHOMA_REFUSED_LAYOUT, false, none, none, 0, 0), "starts of no report");
    back();
    expect(kerzhoma_starts(NULL, 0, NULL, 0).refusal.number == KERZHOMA_REFUSED_LAYOUT, "starts of no areas");
}

/* ---- two halves of a run ---- */

/* a report with a suite: the first's name and time, the second's count; both areas as long as that takes */
static void merging(void)
{
    static const char listing[] = "(report \"r\" 3 0 0 0 -\n(suite \"s\" 0 0 0 0 -)\n(suite \"t\" 0 0 0 0 -))\n";
    uint32_t first[64] = { 1, 17, 0, 1 }, second[64] = { 1 }, *records;
    uint8_t *text, *out;
    first[16] = 5, first[18] = 1, second[18] = 2;
    first[32] = second[32] = 2, first[33] = second[33] = 1, first[34] = 1, first[35] = second[35] = 1;
    for (size_t n = 94; n <= 100; n++)
        for (size_t m = 0; m <= 5; m++) {
            records = room(4 * n), text = room(m), out = room(200);
            kerzhoma_refusal r = kerzhoma_merge(first, 64, BYTES("rs"), second, 64, BYTES("t"), records, n, text, m);
            expect(r.number == (n < 96 ? KERZHOMA_REFUSED_RECORDS : m < 3 ? KERZHOMA_REFUSED_TEXT : 0), "room for two reports as one");
            expect(r.depth == 0 && r.event == KERZHOMA_NONE && r.attribute == KERZHOMA_NONE, "no place");
            if (r.number != 0) {
                expect(zero(records, 4 * n) && zero(text, m), "merging that is refused leaves zeros");
            } else {
                kerzhoma_listing l = kerzhoma_list(records, n, text, m, out, 200);
                expect(l.length == strlen(listing) && memcmp(out, listing, l.length) == 0, "what was merged is listed");
                expect(memcmp(text, "rst", 3) == 0 && zero(text + 3, m - 3) && zero(records + 96, 4 * (n - 96)), "zeros behind it");
                expect(records[16] == 5 && records[1] == 17, "the only time");
            }
            free(records), free(text), free(out);
        }
    first[16] = second[16] = 4194304, second[1] = 16;
    kerzhoma_refusal r = kerzhoma_merge(first, 64, BYTES("rs"), second, 64, BYTES("t"), NULL, 0, NULL, 0);
    expect(r.number == KERZHOMA_REFUSED_SUM && r.cause == KERZHOMA_CAUSE_TIME_LIMIT, "the summed time");
    first[18] = first[19] = UINT32_MAX;
    r = kerzhoma_merge(first, 64, BYTES("rs"), second, 64, BYTES("t"), NULL, 0, NULL, 0);
    expect(r.number == KERZHOMA_REFUSED_COUNT, "the summed counts come first");
    r = kerzhoma_merge(first, 64, BYTES("rs"), NULL, 0, NULL, 0, NULL, 0, NULL, 0);
    expect(r.number == KERZHOMA_REFUSED_LAYOUT, "no second report");
}

/* ---- the byte of a refusal ---- */

static void refusal_bytes(void)
{
    /* an Other, a Start with two attributes, the second of them empty, an End without bytes */
    static const uint32_t events[] = { 6, 2, 3, 0, 0, 0, 10, 9, 0, 2, 2, 0, 0, 0, 0 };
    static const uint32_t attributes[] = { 1, 20, 4, 26, 3, 1, 30, 4, 36, 0 };
    static const uint8_t source[50];
    static const struct {
        uint32_t cause, event, attribute;
        size_t byte;
    } told[] = {
        { KERZHOMA_CAUSE_BAD_INTEGER, 1, 0, 26 },
        { KERZHOMA_CAUSE_BAD_INTEGER, 1, 1, 30 },
        { KERZHOMA_CAUSE_BAD_INTEGER, 1, 2, KERZHOMA_NONE },
        { KERZHOMA_CAUSE_STATUS_RULE, 1, KERZHOMA_NONE, 10 },
        { KERZHOMA_CAUSE_STATUS_RULE, 2, KERZHOMA_NONE, 50 },
        { KERZHOMA_CAUSE_EOF_IN_ELEMENT, 3, KERZHOMA_NONE, 50 },
        { KERZHOMA_CAUSE_MISSING_REPORT, 3, KERZHOMA_NONE, 10 },
        { KERZHOMA_CAUSE_BAD_TABLE, KERZHOMA_NONE, KERZHOMA_NONE, KERZHOMA_NONE },
    };
    for (size_t i = 0; i < sizeof told / sizeof *told; i++) {
        kerzhoma_refusal r = { .cause = told[i].cause, .event = told[i].event, .attribute = told[i].attribute };
        expect(kerzhoma_refusal_byte(r, events, 15, attributes, 10, source, 50) == told[i].byte, "the byte of a refusal");
    }
    kerzhoma_refusal r = { .cause = KERZHOMA_CAUSE_MISSING_REPORT, .event = 0, .attribute = KERZHOMA_NONE };
    expect(kerzhoma_refusal_byte(r, NULL, 0, NULL, 0, source, 50) == 50, "the byte of no element");
}

/* ---- the `testcase` tags of a table ---- */

static void case_tags(void)
{
    static const uint8_t source[] = "testcasetestcases";
    /* an Empty, a Start, an End, a longer name, bytes behind the source, and a word too many */
    static const uint32_t events[] = { 1, 0, 8, 0, 0, 0, 8, 8, 9, 9, 2, 0, 8, 0, 0, 1, 8, 9, 0, 0, 1, 17, 8, 0, 0, 1 };
    for (size_t n = 0; n <= 26; n++)
        expect(kerzhoma_case_tags(events, n, source, 17) == (n < 5 ? 0u : n < 10 ? 1u : 2u), "testcase tags of a table");
    expect(kerzhoma_case_tags(events, 25, source, 16) == 3 && kerzhoma_case_tags(events, 25, source, 15) == 1, "of a source that is cut off");
    expect(kerzhoma_case_tags(NULL, 0, NULL, 0) == 0, "testcase tags of no table");
}

/* ---- documents ---- */

static const char document[] =
    "<testsuites name=\"r\" tests=\"2\"><testsuite name=\"lab\" tests=\"2\"><testcase name=\"a\" time=\"0.5\"/>"
    "<testcase name=\"b\"><failure message=\"m\"/><rerunFailure/></testcase></testsuite></testsuites>";
static const char worked[] =
    "(report \"r\" 2 0 0 0 -\n(suite \"lab\" 2 0 0 0 -\n(case \"a\" - 0.500 success flaky 0)\n"
    "(case \"b\" - - failure rerun 1\n(run failure -))))\n";

/* the document's table in areas of so many words, each of its own size, so that valgrind sees a word too many */
static kerzhoma_tokenized tokenize(const char *s, size_t n, size_t most_events, size_t most_attributes)
{
    uint8_t *source = room(n);
    uint32_t *events = room(4 * most_events), *attributes = room(4 * most_attributes);
    memcpy(source, s, n);
    kerzhoma_tokenized t = kerzhoma_tokenize(source, n, events, most_events, attributes, most_attributes);
    expect(t.number != 0 || (zero(events + 5 * t.events, 4 * most_events - 20 * (size_t)t.events)
           && zero(attributes + 5 * t.attributes, 4 * most_attributes - 20 * (size_t)t.attributes)), "zeros behind the table");
    expect(t.number == 0 || (t.events == 0 && t.attributes == 0 && zero(events, 4 * most_events) && zero(attributes, 4 * most_attributes)),
           "zeros where a document is refused");
    free(source);
    free(events);
    free(attributes);
    return t;
}

static bool says(const char *s, kerzhoma_tokenized t, size_t events, size_t attributes, const char *line)
{
    uint8_t out[256];
    size_t n = kerzhoma_explain_xml((const uint8_t *)s, strlen(s), t.number, t.byte, events, attributes, out, sizeof out);
    return n == strlen(line) && memcmp(out, line, n) == 0 && zero(out + n, sizeof out - n);
}

static void documents(void)
{
    size_t n = sizeof document - 1;
    kerzhoma_tokenized t = tokenize(document, n, 55, 40);
    expect(t.number == 0 && t.byte == KERZHOMA_NONE && t.events == 10 && t.attributes == 8, "the worked document");
    for (size_t m = 0; m < 50; m += 7)
        expect(tokenize(document, n, m, 40).number == KERZHOMA_REFUSED_OUTPUT, "too few words for events");
    expect(tokenize(document, n, 55, 39).number == KERZHOMA_REFUSED_OUTPUT, "too few words for attributes");
    for (size_t cut = 0; cut < n; cut++) {
        t = tokenize(document, cut, 55, 40);
        expect(t.number == 18 && t.byte == cut, "a document that is cut off");
    }
    t = tokenize("<a>\n</b>", 8, 50, 5);
    expect(t.number == 18 && t.byte == 6, "an end tag of another name");
    expect(says("<a>\n</b>", t, 50, 5, "refused 18 at byte 6, line 2, column 3: from this byte on the document is not well-formed XML\n"), "its line");
    t = tokenize("<!DOCTYPE a><a/>", 16, 50, 5);
    expect(t.number == 19 && t.byte == 0, "a document type declaration");
    expect(says("<!DOCTYPE a><a/>", t, 50, 5, "refused 19 at byte 0, line 1, column 1: a document type declaration is not taken\n"), "its line");
    t = tokenize("<a/>", 4, 5, 0);
    expect(t.number == KERZHOMA_REFUSED_OUTPUT && t.byte == KERZHOMA_NONE, "no room for the end");
    expect(says("<a/>", t, 5, 0, "refused 16: the area for events or attributes is too short\n"), "an area that is too short");
    expect(says("<a/>", t, 327680, 327679, "refused 16: the area for attributes is too short, or the document has more than 65536 events\n"), "more events");
    expect(says("<a/>", t, 327679, 327680, "refused 16: the area for events is too short, or the document has more than 65536 attributes\n"), "more attributes");
    expect(says("<a/>", t, 327680, 327680, "refused 16: the document has more than 65536 events or attributes\n"), "above the limits");
    t = kerzhoma_tokenize(NULL, 0, NULL, 0, NULL, 0);
    expect(t.number == 18 && t.byte == 0, "no document");
    expect(kerzhoma_explain_xml(NULL, 0, 18, 0, 0, 0, NULL, 0) == 0, "no room for the line");

    uint32_t *events = room(220), *attributes = room(160), *words = room(4096);
    uint8_t *text = room(64), *scratch = room(64), *out = room(256);
    size_t k = kerzhoma_list_xml((const uint8_t *)document, n, events, 55, attributes, 40, words, 1024, text, 64, scratch, 64, out, 256);
    expect(k == sizeof worked - 1 && memcmp(out, worked, k) == 0 && zero(out + k, 256 - k), "the worked document's listing");
    expect(zero(events, 220) && zero(attributes, 160) && zero(words, 4096) && zero(text, 64) && zero(scratch, 64), "and nothing else");
    k = kerzhoma_list_xml((const uint8_t *)document, n - 1, events, 55, attributes, 40, words, 1024, text, 64, scratch, 64, out, 256);
    expect(k == 10 && memcmp(out, "(refused)\n", 10) == 0 && zero(events, 220) && zero(attributes, 160) && zero(words, 4096)
           && zero(text, 64) && zero(scratch, 64), "(refused), and zeros");
    free(events);
    free(attributes);
    free(words);
    free(text);
    free(scratch);
    free(out);
}

int main(int argc, char **argv)
{
    if (argc == 2 && strcmp(argv[1], "tell") == 0)
        return tell_all();
    if (argc > 2 && strcmp(argv[1], "rooms") == 0) {
        for (int i = 2; i < argc; i++)
            rooms(argv[i]);
    } else if (argc == 1) {
        values();
        sheets();
        built();
        refusing();
        areas();
        once();
        orders();
        first_and_last();
        merging();
        refusal_bytes();
        case_tags();
        documents();
    } else {
        fprintf(stderr, "usage: check | check tell | check rooms FILE..\n");
        return 2;
    }
    printf("%d passed, %d failed\n", passed, failed);
    return failed ? 1 : 0;
}
