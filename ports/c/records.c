/* Prints all that an XML report holds, record by record, to show how the accessors of kerzhoma.h are used.
 *
 *     records FILE..
 *
 * A line for each record: its kind, then what it has. A text is its length, a colon and its bytes. All of it is private text. The status
 * is 0 where every document was accepted, 1 where one was refused, and 2 where a file couldn't be read. */
#include "kerzhoma.h"

#include <inttypes.h>
#include <stdio.h>
#include <stdlib.h>

static void *room(size_t size)
{
    void *p = malloc(size ? size : 1);
    if (!p) {
        fprintf(stderr, "records: no memory for %zu bytes\n", size);
        exit(2);
    }
    return p;
}

static const char *const kinds[] = {
    "", "report", "suite", "case", "suite-property", "case-property", "failure", "error", "skipped", "flakyFailure", "flakyError",
    "rerunFailure", "rerunError", "suite-extra", "case-extra",
};

static void put_text(const char *name, kerzhoma_string s)
{
    if (!s.found)
        return;
    printf(" %s=%zu:", name, s.length);
    fwrite(s.bytes, 1, s.length, stdout);
}

static void put_times(const uint32_t *record)
{
    kerzhoma_moment m;
    uint32_t seconds, nanoseconds;

    if (kerzhoma_timestamp_of(record, &m)) {
        int offset = (int)m.offset - 1439, away = abs(offset);
        printf(" timestamp=%04d-%02d-%02dT%02d:%02d:%02d.%09" PRIu32 "%c%02d:%02d", m.year, m.month, m.day, m.hour, m.minute, m.second,
               m.nanoseconds, offset < 0 ? '-' : '+', away / 60, away % 60);
    }
    if (kerzhoma_time_of(record, &seconds, &nanoseconds))
        printf(" time=%" PRIu32 ".%09" PRIu32, seconds, nanoseconds);
}

static void put_counts(kerzhoma_counts c)
{
    printf(" tests=%" PRIu64 " failures=%" PRIu64 " errors=%" PRIu64 " skipped=%" PRIu64, c.tests, c.failures, c.errors, c.skipped);
    if (c.has_disabled)
        printf(" disabled=%" PRIu64, c.disabled);
}

static void put_record(const uint32_t *record, const uint8_t *text)
{
    kerzhoma_uuid uuid;
    uint64_t assertions;

    printf("%s", kinds[kerzhoma_kind_of(record)]);
    put_text("name", kerzhoma_name_of(record, text));
    put_text("value", kerzhoma_value_of(record, text));
    put_text("classname", kerzhoma_classname_of(record, text));
    put_text("message", kerzhoma_message_of(record, text));
    put_text("type", kerzhoma_type_of(record, text));
    put_text("description", kerzhoma_description_of(record, text));
    put_text("stack-trace", kerzhoma_stack_trace_of(record, text));
    put_text("system-out", kerzhoma_system_out_of(record, text));
    put_text("system-err", kerzhoma_system_err_of(record, text));
    put_text("hostname", kerzhoma_hostname_of(record, text));
    if (kerzhoma_uuid_of(record, &uuid))
        printf(" uuid=%08" PRIx32 "%08" PRIx32 "%08" PRIx32 "%08" PRIx32, uuid.words[0], uuid.words[1], uuid.words[2], uuid.words[3]);
    if (kerzhoma_assertions_of(record, &assertions))
        printf(" assertions=%" PRIu64, assertions);
    put_times(record);
    if (kerzhoma_kind_of(record) <= KERZHOMA_RECORD_SUITE)
        put_counts(kerzhoma_counts_of(record));
    if (kerzhoma_is_flaky(record))
        printf(" flaky");
    printf("\n");
}

/* Whether the document was accepted, and its records printed. */
static bool show(const char *name, const uint8_t *source, size_t length)
{
    size_t words = (size_t)KERZHOMA_EVENT_WORDS * KERZHOMA_MOST_EVENTS;
    size_t records_length = (size_t)KERZHOMA_RECORD_WORDS * KERZHOMA_MOST_RECORDS;
    uint32_t *events = (uint32_t *)room(4 * words), *attributes = (uint32_t *)room(4 * words);
    uint32_t *records = (uint32_t *)room(4 * records_length);
    uint8_t *text = (uint8_t *)room(KERZHOMA_MOST_BYTES), *scratch = (uint8_t *)room(KERZHOMA_MOST_BYTES);
    kerzhoma_tokenized t = kerzhoma_tokenize(source, length, events, words, attributes, words);
    uint32_t number = t.number;

    if (number == KERZHOMA_ACCEPTED) {
        kerzhoma_refusal r = kerzhoma_read(events, (size_t)KERZHOMA_EVENT_WORDS * t.events,
                                           attributes, (size_t)KERZHOMA_ATTRIBUTE_WORDS * t.attributes, source, length,
                                           records, records_length, text, KERZHOMA_MOST_BYTES, scratch, KERZHOMA_MOST_BYTES);
        number = r.number;
    }
    if (number == KERZHOMA_ACCEPTED) {
        const uint32_t *record = NULL;
        while ((record = kerzhoma_next_record(records, records_length, record)) != NULL)
            put_record(record, text);
    } else {
        fprintf(stderr, "records: %s: refused %" PRIu32 "\n", name, number);
    }
    free(events);
    free(attributes);
    free(records);
    free(text);
    free(scratch);
    return number == KERZHOMA_ACCEPTED;
}

int main(int argc, char **argv)
{
    int status = 0;

    for (int i = 1; i < argc; i++) {
        FILE *f = fopen(argv[i], "rb");
        /* a byte more than a document has, so that a longer one is refused */
        uint8_t *source = (uint8_t *)room((size_t)KERZHOMA_MOST_BYTES + 1);
        size_t length = f ? fread(source, 1, (size_t)KERZHOMA_MOST_BYTES + 1, f) : 0;

        if (!f || ferror(f)) {
            fprintf(stderr, "records: %s: cannot be read\n", argv[i]);
            status = 2;
        } else if (!show(argv[i], source, length) && status == 0) {
            status = 1;
        }
        if (f)
            fclose(f);
        free(source);
    }
    return status;
}
