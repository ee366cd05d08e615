/* Kerzhoma for C: JUnit test reports. Read from XML documents or from tables of their events, listed for the public, written as tables again, or built from
 * nothing. Each call below is proved to answer and leave what its definition says, on every table, area and number.
 *
 *     ./build                                                        makes target/staticlib/libport_c.a
 *     cc -std=c11 -I ports/c yours.c target/staticlib/libport_c.a    (x86-64 Linux; of the C library only memset and memcpy are used)
 *
 * There is no allocation, no global state and no output: a call works in areas that the caller lends, each as pointer and length.
 * Lengths of `uint32_t *` are in words, of `uint8_t *` in bytes, of `kerzhoma_counts *` in structs.
 *   - NULL with length 0 is an empty area. Any other NULL, a pointer that isn't aligned for what it points to, an area that is shorter
 *     than its length says, or a result area that overlaps another area of the same call is the caller's fault, and undefined.
 *   - Inputs (`const`) are never changed. Result areas may hold anything before the call.
 *   - Where a call refuses, every result area of it is zero throughout. Behind kerzhoma_read_and_list, kerzhoma_public_listing and
 *     kerzhoma_list_xml every result area but `out` is zero whatever they come to: nothing but the listing is left.
 *   - Areas may be longer than the limits; only that much is used.
 *   - Any number of threads may call at the same time, each with areas of its own.
 * Records, texts, scratch and explanations hold private text, and so does the source, which stays with the caller; listings don't. */
#ifndef KERZHOMA_H
#define KERZHOMA_H

#include <stdbool.h>
#include <stddef.h>
#include <stdint.h>

#ifdef __cplusplus
extern "C" {
#endif

/* ---- limits ---- */

#define KERZHOMA_MOST_EVENTS 65536
#define KERZHOMA_MOST_ATTRIBUTES 65536
#define KERZHOMA_MOST_RECORDS 65536
#define KERZHOMA_MOST_BYTES 16777216 /* of source, text, scratch, and of the bytes that writing puts */
#define KERZHOMA_MOST_REPORTS 4096 /* of a release sheet */

#define KERZHOMA_EVENT_WORDS 5
#define KERZHOMA_ATTRIBUTE_WORDS 5
#define KERZHOMA_RECORD_WORDS 32

/* Stands where no event, attribute, index or record is concerned. */
#define KERZHOMA_NONE UINT32_C(4294967295)

/* ---- tables ----
 * An event is five words: kind, start and length in the source, first attribute, number of attributes. An attribute is five words: mark
 * (0 good, 1 faulty), start and length of the key, start and length of the value. Keys, values and texts are as in the XML, references
 * not resolved. Only Start and Empty have attributes. The table's end counts as Eof. */

enum kerzhoma_event_kind {
    KERZHOMA_START = 0, /* the bytes are the tag name */
    KERZHOMA_EMPTY = 1, /* <tag/>; the same */
    KERZHOMA_END = 2,   /* the same */
    KERZHOMA_TEXT = 3,
    KERZHOMA_CDATA = 4,
    KERZHOMA_REF = 5,   /* the name between & and ; */
    KERZHOMA_OTHER = 6, /* comment, declaration, processing instruction, document type */
    KERZHOMA_EOF = 7,
    KERZHOMA_FAULT = 8, /* the XML reader failed */
    KERZHOMA_INDENT = 9 /* a Text of one newline; its bytes are never read */
};

/* ---- refusals ---- */

/* Why a call did nothing. `number` is 0 where it did its work; then cause and depth are 0 and event and attribute KERZHOMA_NONE. */
typedef struct kerzhoma_refusal {
    uint32_t number;    /* KERZHOMA_REFUSED_.. */
    uint32_t cause;     /* KERZHOMA_CAUSE_.., finer than the number */
    uint32_t depth;     /* how many elements the path has, at most 6 */
    uint32_t path[18];  /* kind, index and event of the first element, of the second, .. */
    uint32_t event;     /* the event that was read; the number of events at the table's end */
    uint32_t attribute; /* its place in the table */
} kerzhoma_refusal;

enum kerzhoma_refused {
    KERZHOMA_ACCEPTED = 0,
    KERZHOMA_REFUSED_FAULT = 1,      /* the XML reader failed, or the table ends in an element that is passed over */
    KERZHOMA_REFUSED_UTF8 = 2,       /* not UTF-8 */
    KERZHOMA_REFUSED_INTEGER = 3,
    KERZHOMA_REFUSED_TIMESTAMP = 4,
    KERZHOMA_REFUSED_TIME = 5,
    KERZHOMA_REFUSED_UUID = 6,
    KERZHOMA_REFUSED_MISSING = 7,    /* an attribute isn't there */
    KERZHOMA_REFUSED_STRUCTURE = 8,  /* no report, or the table ends inside an element that is read */
    KERZHOMA_REFUSED_ATTRIBUTE = 9,  /* faulty, or a key stands twice */
    KERZHOMA_REFUSED_REFERENCE = 10, /* &..; */
    KERZHOMA_REFUSED_TABLE = 11,     /* the table is malformed or above the limits; a release sheet of more than 4096 reports */
    KERZHOMA_REFUSED_RECORDS = 12,   /* `records` is too short, or the limit is too small */
    KERZHOMA_REFUSED_TEXT = 13,      /* `text` is too short, or the limit is too small */
    KERZHOMA_REFUSED_SCRATCH = 14,   /* `scratch` is too short, or the limit is too small */
    KERZHOMA_REFUSED_LAYOUT = 15,    /* the areas hold no report; a builder's call that doesn't fit there; a code that is none */
    KERZHOMA_REFUSED_OUTPUT = 16,    /* an area for output is too short, or its limit too small */
    KERZHOMA_REFUSED_COUNT = 17,     /* a count would pass 18446744073709551615 */
    KERZHOMA_REFUSED_XML = 18,       /* the document isn't well-formed XML */
    KERZHOMA_REFUSED_DOCTYPE = 19,   /* a document type declaration */
    KERZHOMA_REFUSED_STATUS = 20,    /* a case's status elements don't go together */
    KERZHOMA_REFUSED_NAME = 21,      /* the name of a Ref in gathered text is unknown */
    KERZHOMA_REFUSED_SUM = 22,       /* the times of two reports together reach 8388608 seconds */
    KERZHOMA_REFUSED_CASES = 23,     /* more than 4,096 cases are ordered */
    KERZHOMA_REFUSED_ORDER = 24      /* failures, errors, skipped and flaky together exceed the cases that are ordered */
};

enum kerzhoma_cause {
    KERZHOMA_CAUSE_XML_FAULT = 1,         /* 1 */
    KERZHOMA_CAUSE_EOF_IN_SKIP = 2,       /* 1 */
    KERZHOMA_CAUSE_NOT_UTF8 = 3,          /* 2 */
    KERZHOMA_CAUSE_BAD_INTEGER = 4,       /* 3 */
    KERZHOMA_CAUSE_BAD_TIMESTAMP = 5,     /* 4 */
    KERZHOMA_CAUSE_BAD_TIME = 6,          /* 5 */
    KERZHOMA_CAUSE_BAD_UUID = 7,          /* 6 */
    KERZHOMA_CAUSE_MISSING_ATTRIBUTE = 8, /* 7 */
    KERZHOMA_CAUSE_MISSING_REPORT = 9,    /* 8 */
    KERZHOMA_CAUSE_EOF_IN_ELEMENT = 10,   /* 8 */
    KERZHOMA_CAUSE_STATUS_RULE = 11,      /* 20 */
    KERZHOMA_CAUSE_UNKNOWN_ENTITY = 12,   /* 21 */
    KERZHOMA_CAUSE_FAULTY_ATTRIBUTE = 13, /* 9 */
    KERZHOMA_CAUSE_REPEATED_KEY = 14,     /* 9 */
    KERZHOMA_CAUSE_BAD_REFERENCE = 15,    /* 10 */
    KERZHOMA_CAUSE_BAD_TABLE = 16,        /* 11 */
    KERZHOMA_CAUSE_RECORDS_SPENT = 17,    /* 12 */
    KERZHOMA_CAUSE_TEXT_FULL = 18,        /* 13 */
    KERZHOMA_CAUSE_SCRATCH_FULL = 19,     /* 14 */
    KERZHOMA_CAUSE_NOT_LAYOUT = 20,       /* 15 */
    KERZHOMA_CAUSE_OUTPUT_FULL = 21,      /* 16 */
    KERZHOMA_CAUSE_COUNT_LIMIT = 22,      /* 17 */
    KERZHOMA_CAUSE_TOO_MANY_CASES = 23,   /* 23 */
    KERZHOMA_CAUSE_NO_SUCH_REPORT = 24,   /* 24 */
    KERZHOMA_CAUSE_TOO_MANY_REPORTS = 25, /* 11 */
    KERZHOMA_CAUSE_TIME_LIMIT = 26        /* 22 */
};

/* Kinds of path elements. Index and event are KERZHOMA_NONE but where a comment says otherwise. */
enum kerzhoma_path_kind {
    KERZHOMA_PATH_TESTSUITES = 1,
    KERZHOMA_PATH_TESTSUITE = 2, /* index: its place in the report; event: its Start, once it is named */
    KERZHOMA_PATH_TESTCASE = 3,  /* index: its place in the suite; event: its Start, once it is named */
    KERZHOMA_PATH_PROPERTIES = 4,
    KERZHOMA_PATH_PROPERTY = 5, /* index: its place in the list */
    KERZHOMA_PATH_FAILURE = 6,
    KERZHOMA_PATH_ERROR = 7,
    KERZHOMA_PATH_SKIPPED = 8,
    KERZHOMA_PATH_FLAKY_FAILURE = 9,
    KERZHOMA_PATH_FLAKY_ERROR = 10,
    KERZHOMA_PATH_RERUN_FAILURE = 11,
    KERZHOMA_PATH_RERUN_ERROR = 12,
    KERZHOMA_PATH_SYSTEM_OUT = 14,
    KERZHOMA_PATH_SYSTEM_ERR = 15,
    KERZHOMA_PATH_ATTRIBUTE = 16 /* index: which, by docs/REFUSALS.md: 1 name, 2 classname, 3 uuid, 4 timestamp, 5 time, .. */
};

/* ---- XML documents ---- */

/* Where a document was refused: `number` is 11, 16, 18 or 19; `byte` is its place for 18 and 19, the document's length where it only ends
 * too early, and KERZHOMA_NONE for 11 and 16. `number` is 0 where it was tokenized, and `byte` then KERZHOMA_NONE. */
typedef struct kerzhoma_tokenized {
    uint32_t events;     /* how many events were put, five words each; 0 where the call refuses */
    uint32_t attributes; /* how many attributes, five words each */
    uint32_t number;
    uint32_t byte;
} kerzhoma_tokenized;

/* Puts the table of an XML document (XML 1.0, UTF-8, without a document type declaration) at the front of two areas, and zeros behind it.
 * The document is the table's source. An event for each byte and one more, and an attribute for each four bytes, suffice wherever the
 * limits do: a document with more than 65,536 events, Eof among them, or more than 65,536 attributes is refused with 16 whatever the
 * areas, such as `<a>`, 65,534 times `<b/>`, `</a>`. */
kerzhoma_tokenized kerzhoma_tokenize(
    const uint8_t *source, size_t source_length,
    uint32_t *events, size_t events_length,
    uint32_t *attributes, size_t attributes_length);

/* Puts a line that says why and where a document wasn't tokenized at the front of `out`, and zeros behind it; a newline ends it:
 * `refused 18 at byte 12, line 2, column 5: ..`. Returns its length, or 0 where it doesn't fit; then `out` is zero. 256 bytes are enough.
 * `events` and `attributes` are the lengths in words that kerzhoma_tokenize was lent for them: from 5 * 65,536 on the line of 16 says
 * that the document has more than the limits allow, and below that an area is too short. The line holds no text of the document. */
size_t kerzhoma_explain_xml(
    const uint8_t *source, size_t source_length,
    uint32_t number, uint32_t byte,
    size_t events, size_t attributes,
    uint8_t *out, size_t out_length);

/* ---- reading ---- */

/* Reads a table. Accepted, `records` and `text` hold the report by docs/TREE.md, with zeros behind it, and `scratch` is zero; refused,
 * all three are. What suffices wherever the limits do: 32 words for each Start and Empty and for each of their attributes; for text, the
 * bytes of their keys and values, and for both text and scratch, the bytes of all other events and one more for each; of scratch those
 * of the longest single description, stack trace or output will do. What needs more than the limits is refused with 12, 13 or 14
 * whatever the areas. One word and four bytes of text more for each attribute of the element that has the most make reading fast,
 * too: in shorter areas the keys of an element may be compared pair by pair. */
kerzhoma_refusal kerzhoma_read(
    const uint32_t *events, size_t events_length,
    const uint32_t *attributes, size_t attributes_length,
    const uint8_t *source, size_t source_length,
    uint32_t *records, size_t records_length,
    uint8_t *text, size_t text_length,
    uint8_t *scratch, size_t scratch_length);

/* Whether `records` and `text` hold a report by docs/TREE.md, which listing and writing ask for. */
bool kerzhoma_is_layout(
    const uint32_t *records, size_t records_length,
    const uint8_t *text, size_t text_length);

/* Puts a line that says why and where a table was refused at the front of `out`, and zeros behind it; a newline ends it. `length` is 0
 * where it doesn't fit (16); 4,096 bytes are enough but for very long names. The line may hold a suite's or case's name, so it isn't for
 * the public. Ask only where the number isn't 0: a cause that is none counts as KERZHOMA_CAUSE_BAD_TABLE.
 * `lent` is the length of the area that was too short: with 12 the words of `records`, with 13 and 14 the bytes of `text` and `scratch`,
 * with 16 the bytes of `out`, and in writing those of `bytes`, or KERZHOMA_MOST_BYTES where `events` or `attributes` is as long as the
 * limits. From the limits' size on a longer area doesn't help, and the line says what is above the limits. With any other number `lent`
 * doesn't count. */
typedef struct kerzhoma_explained {
    size_t length;
    kerzhoma_refusal refusal;
} kerzhoma_explained;

kerzhoma_explained kerzhoma_explain(
    kerzhoma_refusal refusal, size_t lent,
    const uint32_t *events, size_t events_length,
    const uint32_t *attributes, size_t attributes_length,
    const uint8_t *source, size_t source_length,
    uint8_t *out, size_t out_length);

/* The byte of `source` where a table's refusal arose: where the value of its attribute begins, or its key where the value is empty; else
 * where its event begins, of a tag the name; `source_length` where that has no bytes, or the table ends. Where there is no report
 * (KERZHOMA_CAUSE_MISSING_REPORT) it is where the first Start or Empty begins, if there is one. KERZHOMA_NONE where no byte is concerned.
 * Never refuses. */
size_t kerzhoma_refusal_byte(
    kerzhoma_refusal refusal,
    const uint32_t *events, size_t events_length,
    const uint32_t *attributes, size_t attributes_length,
    const uint8_t *source, size_t source_length);

/* ---- listing ---- */

/* `length` is how many bytes of `out` the listing takes, 0 where the call refuses. */
typedef struct kerzhoma_listing {
    size_t length;
    kerzhoma_refusal refusal;
} kerzhoma_listing;

/* Puts the public listing of a report at the front of `out`, and zeros behind it; refuses with 15 and 16. */
kerzhoma_listing kerzhoma_list(
    const uint32_t *records, size_t records_length,
    const uint8_t *text, size_t text_length,
    uint8_t *out, size_t out_length);

/* Reading and listing in one, without a tree that is left: the listing that kerzhoma_read and then kerzhoma_list would put into areas of
 * the same lengths, or the refusal of the one that refuses, which kerzhoma_explain takes: reading's with its place, or 16. `records`,
 * `text` and `scratch`, which reading works in, are zero throughout behind it in every case, and so is `out` where it refuses. */
kerzhoma_listing kerzhoma_read_and_list(
    const uint32_t *events, size_t events_length,
    const uint32_t *attributes, size_t attributes_length,
    const uint8_t *source, size_t source_length,
    uint32_t *records, size_t records_length,
    uint8_t *text, size_t text_length,
    uint8_t *scratch, size_t scratch_length,
    uint8_t *out, size_t out_length);

/* What is printed of kerzhoma_read_and_list: puts the listing, or `(refused)` and a newline where that refuses, at the front of `out`, and
 * zeros behind it; of a shorter area the part of `(refused)` that fits. Returns how many bytes of `out` that takes. The other areas are
 * zero in every case. */
size_t kerzhoma_public_listing(
    const uint32_t *events, size_t events_length,
    const uint32_t *attributes, size_t attributes_length,
    const uint8_t *source, size_t source_length,
    uint32_t *records, size_t records_length,
    uint8_t *text, size_t text_length,
    uint8_t *scratch, size_t scratch_length,
    uint8_t *out, size_t out_length);

/* Tokenizing, reading and listing in one: the listing of an XML document, or `(refused)`, as kerzhoma_public_listing puts it. The other
 * areas are zero in every case, `events` and `attributes` too. */
size_t kerzhoma_list_xml(
    const uint8_t *source, size_t source_length,
    uint32_t *events, size_t events_length,
    uint32_t *attributes, size_t attributes_length,
    uint32_t *records, size_t records_length,
    uint8_t *text, size_t text_length,
    uint8_t *scratch, size_t scratch_length,
    uint8_t *out, size_t out_length);

/* How many Starts and Empties named `testcase` a table's events have, wherever they stand. The report that kerzhoma_read gives of the
 * table has no more cases: the others stand inside nested suites, under unknown elements or outside a suite, and are passed over.
 * Attributes aren't looked at. Never refuses: words behind the last whole event don't count, and bytes outside the source are none. */
size_t kerzhoma_case_tags(
    const uint32_t *events, size_t events_length,
    const uint8_t *source, size_t source_length);

/* ---- writing ---- */

/* How many events, attributes and bytes were put (five words for each event and attribute); all 0 where the call refuses. */
typedef struct kerzhoma_writing {
    size_t events;
    size_t attributes;
    size_t bytes;
    kerzhoma_refusal refusal;
} kerzhoma_writing;

/* Puts the table that a report is written as at the front of the last three areas, and zeros behind it (15, 16). */
kerzhoma_writing kerzhoma_write(
    const uint32_t *records, size_t records_length,
    const uint8_t *text, size_t text_length,
    uint32_t *events, size_t events_length,
    uint32_t *attributes, size_t attributes_length,
    uint8_t *bytes, size_t bytes_length);

/* `length` is how many bytes of `out` the document takes, 0 where the call refuses (15, 16). */
typedef struct kerzhoma_document {
    size_t length;
    kerzhoma_refusal refusal;
} kerzhoma_document;

/* Puts the report as an XML document at the front of `out`, of which at most 16777216 bytes are used, and zeros behind it. */
kerzhoma_document kerzhoma_write_xml(
    const uint32_t *records, size_t records_length,
    const uint8_t *text, size_t text_length,
    uint8_t *out, size_t out_length);

/* A report to order: puts the table of a report with these numbers at the front of the three areas, and zeros behind it. Its one suite has `cases` cases
 * named case0, case1, ..: so many failures, errors and skipped ones, then those that passed with one flaky failure, then those that just passed. 23
 * where there are more than 4,096 cases, then 24 where the four kinds together exceed them, then 16. Room for 7 events and 4 more a case, 10 attributes
 * and 1 more a case, and 400 bytes and 68 more a case is always enough. */
kerzhoma_writing kerzhoma_rehearse(
    uint64_t cases, uint64_t failures, uint64_t errors, uint64_t skipped, uint64_t flaky,
    uint32_t *events, size_t events_length,
    uint32_t *attributes, size_t attributes_length,
    uint8_t *bytes, size_t bytes_length);

/* Puts a time as listings and written reports have it, `0.500`, at the front of `out`, and leaves what is behind it. Returns its length,
 * or 0 where it doesn't fit; then `out` is zero. 14 bytes are enough for every time. */
size_t kerzhoma_time_text(uint8_t *out, size_t out_length, uint32_t seconds, uint32_t nanoseconds);

/* ---- timestamps ---- */

/* A date that exists, year 0 to 9999, second at most 59, nanoseconds at most 999999999; kerzhoma_set_timestamp refuses others (4). */
typedef struct kerzhoma_moment {
    uint16_t year;
    uint8_t month; /* 1 to 12 */
    uint8_t day;   /* from 1 on */
    uint8_t hour;
    uint8_t minute;
    uint8_t second;
    uint32_t nanoseconds;
    uint16_t offset; /* minutes east of UTC, plus 1439: UTC is 1439, at most 2878 */
} kerzhoma_moment;

/* The earliest and the latest timestamp of a report's cases, as they are stored, and the time from one to the other. Offsets are taken into
 * account; of those at the same instant it is the first in the report. Timestamps of suites, runs and the report itself don't count. */
typedef struct kerzhoma_started {
    bool found; /* whether a case has a timestamp; all that is below is zero where none has, and where the call refuses (15) */
    kerzhoma_moment first;
    kerzhoma_moment last;
    uint64_t seconds;
    uint32_t nanoseconds; /* under a second */
    kerzhoma_refusal refusal;
} kerzhoma_started;

kerzhoma_started kerzhoma_starts(
    const uint32_t *records, size_t records_length,
    const uint8_t *text, size_t text_length);

/* ---- two halves of a run ---- */

/* Puts two reports as one at the front of `records` and `text`, and zeros behind it: first the suites of one, then of the other, without
 * records that were replaced. The name is the first's; counts and times are added, and a count of disabled tests or a time is missing where
 * both are; the timestamp is the earlier one, the first's at the same instant, the only one if one is missing; there is no UUID. Refuses
 * with 15 where the first or the second areas hold no report, then 17, 22, 12 and 13; `records` and `text` are zero then. Enough are a
 * record for the report and one for each of the others' live records below the report, and a byte for each byte of their texts and the
 * first's name, where each text counts though texts may share bytes. */
kerzhoma_refusal kerzhoma_merge(
    const uint32_t *first, size_t first_length,
    const uint8_t *first_text, size_t first_text_length,
    const uint32_t *second, size_t second_length,
    const uint8_t *second_text, size_t second_text_length,
    uint32_t *records, size_t records_length,
    uint8_t *text, size_t text_length);

/* ---- counts ---- */

typedef struct kerzhoma_counts {
    uint64_t tests;
    uint64_t failures;
    uint64_t errors;
    uint64_t skipped;
    uint64_t disabled; /* counts only where has_disabled */
    bool has_disabled;
} kerzhoma_counts;

typedef struct kerzhoma_counted {
    kerzhoma_counts counts; /* as they were, where the call refuses (15, 17) */
    kerzhoma_refusal refusal;
} kerzhoma_counted;

/* What a case comes to. */
enum kerzhoma_outcome {
    KERZHOMA_SUCCESS = 0,
    KERZHOMA_FAILURE = 1,
    KERZHOMA_ERROR = 2,
    KERZHOMA_SKIPPED = 3
};

/* The counts with one case more. */
kerzhoma_counted kerzhoma_add_case(kerzhoma_counts counts, uint32_t outcome);

/* The sums; `disabled` only if the suite has it. */
kerzhoma_counted kerzhoma_add_suite(kerzhoma_counts counts, kerzhoma_counts suite);

/* ---- the release sheet ----
 * One sheet over the counts of many reports, in any order the same. */

typedef struct kerzhoma_sheet {
    kerzhoma_counts sums; /* exact; has_disabled if one of the reports has it, and disabled 0 if none has */
    uint64_t passed;      /* tests less failures, errors and skipped; 0 where these three together exceed tests */
} kerzhoma_sheet;

typedef struct kerzhoma_released {
    kerzhoma_sheet sheet; /* zero throughout, where the call refuses (11, 17) */
    kerzhoma_refusal refusal;
} kerzhoma_released;

/* The sheet of `records_length` counts, at most KERZHOMA_MOST_REPORTS (more is 11); 17 where a sum would pass 18446744073709551615. The
 * length counts structs, not bytes. */
kerzhoma_released kerzhoma_release_sheet(const kerzhoma_counts *records, size_t records_length);

/* `length` is how many bytes of `out` the sheet takes, 0 where the call refuses (11, 17, 16 in this order). */
typedef struct kerzhoma_printed {
    size_t length;
    kerzhoma_refusal refusal;
} kerzhoma_printed;

/* Puts the sheet as text at the front of `out`, and zeros behind it: `(tests 5)`, `(failures 1)`, `(errors 0)`, `(skipped 1)`,
 * `(disabled -)` where it is missing, `(passed 3 5)`, a line each, each ended by a newline. 205 bytes are enough for every sheet. */
kerzhoma_printed kerzhoma_print_sheet(
    const kerzhoma_counts *records, size_t records_length,
    uint8_t *out, size_t out_length);

/* ---- builders ----
 * A report is made in two areas, from the front on: kerzhoma_new_report or kerzhoma_unnamed_report; then suites, each with its extras, its
 * properties and its cases, each case with its extras, properties and runs, all in that order; setters at any time while their element is
 * open; then kerzhoma_finish_report. The last suite, and in it the last case, is open. Counts keep themselves.
 *
 * Each call takes the builder that the call before it returned, with the same two areas, and the areas stay untouched in between. Where a
 * call refuses, both areas are zero, the report is gone, and the builder that is returned is none, which further calls refuse (15). Texts
 * are UTF-8 (2); control characters that XML doesn't have are left out. A text or value that is set again stays in `text` as dead bytes.
 *
 * After kerzhoma_finish_report nothing is open: each call but a new report is refused (15), and the report is gone then, as at any refusal;
 * list or write it first. The extras of one element are searched one by one, so that n of them cost the square of n. */

typedef struct kerzhoma_builder {
    uint32_t records; /* how many are used */
    uint32_t bytes;   /* how many of `text` are used */
    uint32_t report;  /* the numbers of records, KERZHOMA_NONE where nothing is open */
    uint32_t suite;
    uint32_t test_case;
    uint32_t status;
} kerzhoma_builder;

typedef struct kerzhoma_built {
    kerzhoma_builder builder;
    kerzhoma_refusal refusal; /* 2, 12, 13, 15, 17; 4 and 5 for timestamps and times that aren't in range */
} kerzhoma_built;

/* A new report in areas that may hold anything. */
kerzhoma_built kerzhoma_new_report(
    uint32_t *records, size_t records_length, uint8_t *text, size_t text_length,
    const uint8_t *name, size_t name_length);

kerzhoma_built kerzhoma_unnamed_report(
    uint32_t *records, size_t records_length, uint8_t *text, size_t text_length);

kerzhoma_built kerzhoma_add_test_suite(
    kerzhoma_builder builder, uint32_t *records, size_t records_length, uint8_t *text, size_t text_length,
    const uint8_t *name, size_t name_length);

/* `outcome` is one of enum kerzhoma_outcome, and counts at once. */
kerzhoma_built kerzhoma_add_test_case(
    kerzhoma_builder builder, uint32_t *records, size_t records_length, uint8_t *text, size_t text_length,
    const uint8_t *name, size_t name_length, uint32_t outcome);

enum kerzhoma_run {
    KERZHOMA_RUN_FAILURE = 0,
    KERZHOMA_RUN_ERROR = 1
};

/* A run of the open case: flaky where the case succeeds, a rerun where it fails and kerzhoma_set_rerun_kind says nothing else; a skipped
 * case has none (15). */
kerzhoma_built kerzhoma_add_rerun(
    kerzhoma_builder builder, uint32_t *records, size_t records_length, uint8_t *text, size_t text_length,
    uint32_t run);

enum kerzhoma_family {
    KERZHOMA_FLAKY = 0,
    KERZHOMA_RERUN = 1
};

/* What the runs of the open case's failure or error are, also those that are there. */
kerzhoma_built kerzhoma_set_rerun_kind(
    kerzhoma_builder builder, uint32_t *records, size_t records_length, uint8_t *text, size_t text_length,
    uint32_t family);

enum kerzhoma_holder {
    KERZHOMA_OF_SUITE = 0,
    KERZHOMA_OF_CASE = 1
};

kerzhoma_built kerzhoma_add_property(
    kerzhoma_builder builder, uint32_t *records, size_t records_length, uint8_t *text, size_t text_length,
    uint32_t holder, const uint8_t *name, size_t name_length, const uint8_t *value, size_t value_length);

/* An attribute that reports don't have a field for. One with the same key gets the new value. */
kerzhoma_built kerzhoma_add_extra(
    kerzhoma_builder builder, uint32_t *records, size_t records_length, uint8_t *text, size_t text_length,
    uint32_t holder, const uint8_t *key, size_t key_length, const uint8_t *value, size_t value_length);

/* The element that a setter is for. */
enum kerzhoma_element {
    KERZHOMA_REPORT = 0,
    KERZHOMA_SUITE = 1,
    KERZHOMA_CASE = 2,
    KERZHOMA_STATUS = 3, /* the open case's failure, error or skipped */
    KERZHOMA_LAST = 4    /* the last record: a run, where one was just added */
};

/* Which elements have the text: others are refused with 15. */
enum kerzhoma_field {
    KERZHOMA_CLASSNAME = 0,   /* case */
    KERZHOMA_MESSAGE = 1,     /* status, run */
    KERZHOMA_TYPE = 2,        /* status, run */
    KERZHOMA_DESCRIPTION = 3, /* status, run */
    KERZHOMA_STACK_TRACE = 4, /* run */
    KERZHOMA_SYSTEM_OUT = 5,  /* suite, case, run */
    KERZHOMA_SYSTEM_ERR = 6,  /* suite, case, run */
    KERZHOMA_HOSTNAME = 7     /* suite */
};

kerzhoma_built kerzhoma_set_text(
    kerzhoma_builder builder, uint32_t *records, size_t records_length, uint8_t *text, size_t text_length,
    uint32_t element, uint32_t field, const uint8_t *value, size_t value_length);

/* KERZHOMA_SYSTEM_OUT or KERZHOMA_SYSTEM_ERR from any bytes: what isn't UTF-8 becomes U+FFFD. */
kerzhoma_built kerzhoma_set_output_lossy(
    kerzhoma_builder builder, uint32_t *records, size_t records_length, uint8_t *text, size_t text_length,
    uint32_t element, uint32_t field, const uint8_t *value, size_t value_length);

/* Of report, suite, case or run. */
kerzhoma_built kerzhoma_set_timestamp(
    kerzhoma_builder builder, uint32_t *records, size_t records_length, uint8_t *text, size_t text_length,
    uint32_t element, kerzhoma_moment moment);

/* Of report, suite, case or run: at most 8388607 seconds and 999999999 nanoseconds; else 5. */
kerzhoma_built kerzhoma_set_time(
    kerzhoma_builder builder, uint32_t *records, size_t records_length, uint8_t *text, size_t text_length,
    uint32_t element, uint32_t seconds, uint32_t nanoseconds);

/* 16 bytes, the most significant first: 01234567-89ab-cdef-0123-456789abcdef is {0x01234567, 0x89abcdef, 0x01234567, 0x89abcdef}. */
typedef struct kerzhoma_uuid {
    uint32_t words[4];
} kerzhoma_uuid;

/* Of the report. */
kerzhoma_built kerzhoma_set_uuid(
    kerzhoma_builder builder, uint32_t *records, size_t records_length, uint8_t *text, size_t text_length,
    kerzhoma_uuid uuid);

enum kerzhoma_number {
    KERZHOMA_ASSERTIONS = 0, /* of the open case */
    KERZHOMA_DISABLED = 1    /* of the open suite */
};

kerzhoma_built kerzhoma_set_number(
    kerzhoma_builder builder, uint32_t *records, size_t records_length, uint8_t *text, size_t text_length,
    uint32_t field, uint64_t number);

/* Adds the last suite to the report's sums; nothing is open any more. */
kerzhoma_built kerzhoma_finish_report(
    kerzhoma_builder builder, uint32_t *records, size_t records_length, uint8_t *text, size_t text_length);

/* ---- records ----
 * What kerzhoma_read and the builders leave, one record after the other in document order: the report, each suite, behind it its extras,
 * properties and cases, behind each case its extras, properties and status elements. docs/TREE.md has the whole of it.
 *
 *     const uint32_t *record = NULL;
 *     while ((record = kerzhoma_next_record(records, records_length, record)) != NULL)
 *         if (kerzhoma_kind_of(record) == KERZHOMA_RECORD_CASE) {
 *             kerzhoma_string name = kerzhoma_name_of(record, text);
 *             printf("%.*s\n", (int)name.length, (const char *)name.bytes);
 *         }
 *
 * These functions stand in this header: they are tested, not proved. They take records and texts that hold a report
 * (kerzhoma_is_layout), and a record of a kind that doesn't have what is asked for is told as one where it is missing. */

enum kerzhoma_record_kind {
    KERZHOMA_RECORD_REPORT = 1,
    KERZHOMA_RECORD_SUITE = 2,          /* of the report */
    KERZHOMA_RECORD_CASE = 3,           /* of the suite before it */
    KERZHOMA_RECORD_SUITE_PROPERTY = 4, /* of the suite before it, perhaps behind cases */
    KERZHOMA_RECORD_CASE_PROPERTY = 5,  /* of the case before it, as all below but a suite's extra */
    KERZHOMA_RECORD_FAILURE = 6,        /* a main: at most one in a case, before or behind its runs */
    KERZHOMA_RECORD_ERROR = 7,          /* a main */
    KERZHOMA_RECORD_SKIPPED = 8,        /* a main */
    KERZHOMA_RECORD_FLAKY_FAILURE = 9,  /* a run */
    KERZHOMA_RECORD_FLAKY_ERROR = 10,   /* a run */
    KERZHOMA_RECORD_RERUN_FAILURE = 11, /* a run */
    KERZHOMA_RECORD_RERUN_ERROR = 12,   /* a run */
    KERZHOMA_RECORD_SUITE_EXTRA = 13,   /* an attribute without a field of its own, of the suite before it */
    KERZHOMA_RECORD_CASE_EXTRA = 14     /* the same, of the case before it */
};

/* A text in `text`: UTF-8, without a zero at its end. Where it is missing, `found` is false, `bytes` NULL and `length` 0. */
typedef struct kerzhoma_string {
    const uint8_t *bytes;
    size_t length;
    bool found;
} kerzhoma_string;

/* The next record behind this one, or the first where this is NULL; NULL where there is none. Records that were replaced are passed over. */
static inline const uint32_t *kerzhoma_next_record(const uint32_t *records, size_t records_length, const uint32_t *record)
{
    size_t i = record ? (size_t)(record - records) + KERZHOMA_RECORD_WORDS : 0;
    size_t most = (size_t)KERZHOMA_RECORD_WORDS * KERZHOMA_MOST_RECORDS;
    size_t end = records_length < most ? records_length : most;

    for (; i + KERZHOMA_RECORD_WORDS <= end && records[i] != 0; i += KERZHOMA_RECORD_WORDS)
        if (records[i] < 16)
            return records + i;
    return NULL;
}

/* One of enum kerzhoma_record_kind. */
static inline uint32_t kerzhoma_kind_of(const uint32_t *record)
{
    return record[0];
}

static inline bool kerzhoma_is_run(const uint32_t *record)
{
    return record[0] >= KERZHOMA_RECORD_FLAKY_FAILURE && record[0] <= KERZHOMA_RECORD_RERUN_ERROR;
}

static inline bool kerzhoma_is_main(const uint32_t *record)
{
    return record[0] >= KERZHOMA_RECORD_FAILURE && record[0] <= KERZHOMA_RECORD_SKIPPED;
}

static inline bool kerzhoma_is_pair(const uint32_t *record)
{
    return record[0] == KERZHOMA_RECORD_SUITE_PROPERTY || record[0] == KERZHOMA_RECORD_CASE_PROPERTY
        || record[0] == KERZHOMA_RECORD_SUITE_EXTRA || record[0] == KERZHOMA_RECORD_CASE_EXTRA;
}

/* The text at a word and the next, where its presence bit is set and the kind of the record has it. */
static inline kerzhoma_string kerzhoma_text_at(const uint32_t *record, const uint8_t *text, bool has, uint32_t bit, uint32_t word)
{
    kerzhoma_string s = {NULL, 0, false};

    if (has && (record[1] >> bit & 1) != 0) {
        s.bytes = text + record[word];
        s.length = record[word + 1];
        s.found = true;
    }
    return s;
}

/* The name of a report, suite, case or property, or the key of an extra; that of a report may be missing. */
static inline kerzhoma_string kerzhoma_name_of(const uint32_t *record, const uint8_t *text)
{
    return kerzhoma_text_at(record, text, record[0] <= KERZHOMA_RECORD_CASE || kerzhoma_is_pair(record), 0, 2);
}

/* The value of a property or extra. */
static inline kerzhoma_string kerzhoma_value_of(const uint32_t *record, const uint8_t *text)
{
    return kerzhoma_text_at(record, text, kerzhoma_is_pair(record), 1, 4);
}

/* Of a case. */
static inline kerzhoma_string kerzhoma_classname_of(const uint32_t *record, const uint8_t *text)
{
    return kerzhoma_text_at(record, text, record[0] == KERZHOMA_RECORD_CASE, 5, 18);
}

/* Of a main or run. */
static inline kerzhoma_string kerzhoma_message_of(const uint32_t *record, const uint8_t *text)
{
    return kerzhoma_text_at(record, text, kerzhoma_is_main(record) || kerzhoma_is_run(record), 0, 2);
}

/* Of a main or run. */
static inline kerzhoma_string kerzhoma_type_of(const uint32_t *record, const uint8_t *text)
{
    return kerzhoma_text_at(record, text, kerzhoma_is_main(record) || kerzhoma_is_run(record), 5, 18);
}

/* Of a main or run: the text of its element. */
static inline kerzhoma_string kerzhoma_description_of(const uint32_t *record, const uint8_t *text)
{
    return kerzhoma_text_at(record, text, kerzhoma_is_main(record) || kerzhoma_is_run(record), 6, 20);
}

/* Of a run. */
static inline kerzhoma_string kerzhoma_stack_trace_of(const uint32_t *record, const uint8_t *text)
{
    return kerzhoma_text_at(record, text, kerzhoma_is_run(record), 7, 22);
}

/* Of a suite, case or run. */
static inline kerzhoma_string kerzhoma_system_out_of(const uint32_t *record, const uint8_t *text)
{
    bool has = record[0] == KERZHOMA_RECORD_SUITE || record[0] == KERZHOMA_RECORD_CASE || kerzhoma_is_run(record);

    return kerzhoma_text_at(record, text, has, 1, 4);
}

/* Of a suite, case or run. */
static inline kerzhoma_string kerzhoma_system_err_of(const uint32_t *record, const uint8_t *text)
{
    bool has = record[0] == KERZHOMA_RECORD_SUITE || record[0] == KERZHOMA_RECORD_CASE || kerzhoma_is_run(record);

    return kerzhoma_text_at(record, text, has, 2, 6);
}

/* Of a suite: the machine that it ran on. */
static inline kerzhoma_string kerzhoma_hostname_of(const uint32_t *record, const uint8_t *text)
{
    return kerzhoma_text_at(record, text, record[0] == KERZHOMA_RECORD_SUITE, 10, 28);
}

/* Whether a report, suite, case or run has a timestamp, which is then put into `moment`. */
static inline bool kerzhoma_timestamp_of(const uint32_t *record, kerzhoma_moment *moment)
{
    if ((record[1] >> 3 & 1) == 0)
        return false;
    moment->year = (uint16_t)record[8];
    moment->month = (uint8_t)record[9];
    moment->day = (uint8_t)record[10];
    moment->hour = (uint8_t)record[11];
    moment->minute = (uint8_t)record[12];
    moment->second = (uint8_t)record[13];
    moment->nanoseconds = record[14];
    moment->offset = (uint16_t)record[15];
    return true;
}

/* Whether a report, suite, case or run has a time, which is then put into `seconds` and `nanoseconds`. */
static inline bool kerzhoma_time_of(const uint32_t *record, uint32_t *seconds, uint32_t *nanoseconds)
{
    if ((record[1] >> 4 & 1) == 0)
        return false;
    *seconds = record[16];
    *nanoseconds = record[17];
    return true;
}

static inline uint64_t kerzhoma_number_at(const uint32_t *record, uint32_t word)
{
    return (uint64_t)record[word] | (uint64_t)record[word + 1] << 32;
}

/* The stated counts of a report or suite; zero of any other record. */
static inline kerzhoma_counts kerzhoma_counts_of(const uint32_t *record)
{
    kerzhoma_counts counts = {0, 0, 0, 0, 0, false};

    if (record[0] <= KERZHOMA_RECORD_SUITE) {
        counts.tests = kerzhoma_number_at(record, 18);
        counts.failures = kerzhoma_number_at(record, 20);
        counts.errors = kerzhoma_number_at(record, 22);
        counts.skipped = kerzhoma_number_at(record, 24);
        counts.disabled = kerzhoma_number_at(record, 26);
        counts.has_disabled = (record[1] >> 8 & 1) != 0;
    }
    return counts;
}

/* Whether a case states its assertions, which are then put into `number`. */
static inline bool kerzhoma_assertions_of(const uint32_t *record, uint64_t *number)
{
    if (record[0] != KERZHOMA_RECORD_CASE || (record[1] >> 6 & 1) == 0)
        return false;
    *number = kerzhoma_number_at(record, 20);
    return true;
}

/* Whether a report has a UUID, which is then put into `uuid`. */
static inline bool kerzhoma_uuid_of(const uint32_t *record, kerzhoma_uuid *uuid)
{
    if (record[0] != KERZHOMA_RECORD_REPORT || (record[1] >> 1 & 1) == 0)
        return false;
    for (int i = 0; i < 4; i++)
        uuid->words[i] = record[4 + i];
    return true;
}

/* Whether a failure or error without runs is one whose runs would be flaky (kerzhoma_set_rerun_kind). */
static inline bool kerzhoma_is_flaky(const uint32_t *record)
{
    return (record[0] == KERZHOMA_RECORD_FAILURE || record[0] == KERZHOMA_RECORD_ERROR) && (record[1] >> 9 & 1) != 0;
}

#ifdef __cplusplus
}
#endif

#endif
