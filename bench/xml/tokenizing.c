/* tokenizing FILE..: the time to tokenize each file here and by other parsers in the same run, turn about: expat without handlers,
 * libxml2's SAX parser without handlers, and libxml2 with the tree that xmllint --noout also builds. Files are read before the clock
 * starts; areas of 65,536 events and attributes, cleared in each call. The best of five rounds (or ROUNDS), each as many calls as take
 * some 0.2 s. A refused document's time is up to its refusal; the others may refuse it elsewhere or take it. */
#include <expat.h>
#include <libxml/parser.h>
#include <libxml/xmlerror.h>
#include <stdint.h>
#include <stdio.h>
#include <stdlib.h>
#include <string.h>
#include <time.h>

#ifdef TRIED
/* the call as a build without proofs has it */
struct bytes { const uint8_t *p; size_t n; };
struct words { uint32_t *p; size_t n; };
void tokenize_words(struct bytes *, struct words *, struct words *, uint64_t *r);
#else
#include "kerzhoma.h"
#endif

#define WORDS (65536 * 5)
static uint32_t *events, *attributes;
static uint64_t answer[3]; /* number, then events and attributes or the byte */

static int ours(const uint8_t *s, size_t n) {
#ifdef TRIED
    struct bytes b = {s, n};
    struct words e = {events, WORDS}, a = {attributes, WORDS};
    tokenize_words(&b, &e, &a, answer);
#else
    kerzhoma_tokenized t = kerzhoma_tokenize(s, n, events, WORDS, attributes, WORDS);
    answer[0] = t.number;
    answer[1] = t.number ? t.byte : t.events;
    answer[2] = t.attributes;
#endif
    return answer[0] == 0;
}

static int by_expat(const uint8_t *s, size_t n) {
    XML_Parser p = XML_ParserCreate("UTF-8");
    int good = XML_Parse(p, (const char *)s, (int)n, 1) == XML_STATUS_OK;
    XML_ParserFree(p);
    return good;
}

static void silent(void *c, const char *m, ...) { (void)c, (void)m; }

static xmlSAXHandler none;
static int by_libxml2(const uint8_t *s, size_t n) {
    return xmlSAXUserParseMemory(&none, NULL, (const char *)s, (int)n) == 0;
}

static int by_tree(const uint8_t *s, size_t n) {
    xmlDocPtr d = xmlReadMemory((const char *)s, (int)n, "x.xml", NULL, XML_PARSE_NONET | XML_PARSE_NOERROR | XML_PARSE_NOWARNING);
    int good = d != NULL;
    xmlFreeDoc(d);
    return good;
}

static double now(void) {
    struct timespec t;
    clock_gettime(CLOCK_PROCESS_CPUTIME_ID, &t);
    return t.tv_sec + t.tv_nsec * 1e-9;
}

typedef int parser(const uint8_t *, size_t);
static parser *const parsers[] = {ours, by_expat, by_libxml2, by_tree};
enum { PARSERS = sizeof parsers / sizeof *parsers };

int main(int argc, char **argv) {
    int rounds = getenv("ROUNDS") ? atoi(getenv("ROUNDS")) : 5;
    events = malloc(WORDS * 4), attributes = malloc(WORDS * 4);
    memset(events, 7, WORDS * 4), memset(attributes, 7, WORDS * 4);
    xmlInitParser();
    xmlSetGenericErrorFunc(NULL, silent);
    printf("%-16s %9s %-22s %9s %9s | %22s %22s %22s\n", "file", "bytes", "answer", "ms", "MB/s", "expat: MB/s, ratio", "libxml2 SAX", "libxml2 tree");
    for (int k = 1; k < argc; k++) {
        FILE *f = fopen(argv[k], "rb");
        if (!f) return perror(argv[k]), 1;
        fseek(f, 0, SEEK_END);
        size_t n = (size_t)ftell(f);
        rewind(f);
        uint8_t *s = malloc(n + 1);
        if (fread(s, 1, n, f) != n) return 1;
        fclose(f);
        double best[PARSERS];
        int good[PARSERS], calls[PARSERS];
        for (int j = 0; j < PARSERS; j++) {
            double t = now();
            good[j] = parsers[j](s, n);
            t = now() - t;
            best[j] = t;
            calls[j] = t > 0.1 ? 1 : (int)(0.2 / (t + 1e-6)) + 1;
        }
        for (int r = 0; r < rounds; r++)
            for (int j = 0; j < PARSERS; j++) {
                double t = now();
                for (int i = 0; i < calls[j]; i++) parsers[j](s, n);
                t = (now() - t) / calls[j];
                if (t < best[j]) best[j] = t;
            }
        ours(s, n);
        char said[64];
        if (answer[0]) snprintf(said, sizeof said, "refused %lu at %lu", answer[0], answer[1]);
        else snprintf(said, sizeof said, "%lu, %lu", answer[1], answer[2]);
        const char *name = strrchr(argv[k], '/') ? strrchr(argv[k], '/') + 1 : argv[k];
        printf("%-16s %9zu %-22s %9.3f %9.1f |", name, n, said, best[0] * 1e3, n / 1e6 / best[0]);
        for (int j = 1; j < PARSERS; j++) printf(" %9.1f, %6.2f %s", n / 1e6 / best[j], best[j] / best[0], good[j] ? "      " : "refuse");
        printf("\n");
        fflush(stdout);
        free(s);
    }
    return 0;
}
