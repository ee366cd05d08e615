/* The release sheet from C: what it costs, and what it answers.
 *
 *     sheet                     nanoseconds a report, for lists of 64, 512 and 4,096 reports, summed and printed
 *     sheet answer <LISTS       the answers of lists, one behind the other: number of reports and bytes lent as two words of 64 bits, then the
 *                               reports as kerzhoma_counts; for each the numbers of both refusals, the sheet, the length and the area */
#define _POSIX_C_SOURCE 199309L
#include "kerzhoma.h"

#include <stdio.h>
#include <stdlib.h>
#include <string.h>
#include <time.h>

static kerzhoma_counts reports[8192];
static uint8_t out[1024];

static double now(void)
{
    struct timespec t;
    clock_gettime(CLOCK_THREAD_CPUTIME_ID, &t);
    return (double)t.tv_sec * 1e9 + (double)t.tv_nsec;
}

static void answer(void)
{
    uint64_t head[2];
    while (fread(head, sizeof head, 1, stdin) == 1) {
        if (head[0] > 8192 || head[1] > sizeof out || fread(reports, sizeof *reports, head[0], stdin) != head[0])
            exit(2);
        memset(out, 0xa5, sizeof out);
        kerzhoma_released r = kerzhoma_release_sheet(reports, head[0]);
        kerzhoma_printed p = kerzhoma_print_sheet(reports, head[0], out, head[1]);
        kerzhoma_counts c = r.sheet.sums;
        printf("%u %u %llu %llu %llu %llu %llu %d %llu %zu %u %u %u ", r.refusal.number, p.refusal.number, (unsigned long long)c.tests,
               (unsigned long long)c.failures, (unsigned long long)c.errors, (unsigned long long)c.skipped, (unsigned long long)c.disabled,
               c.has_disabled, (unsigned long long)r.sheet.passed, p.length, p.refusal.depth, p.refusal.event, p.refusal.attribute);
        for (size_t i = 0; i < head[1]; i++)
            printf("%02x", out[i]);
        /* the byte behind the area stays */
        printf(" %02x\n", head[1] < sizeof out ? out[head[1]] : 0xa5);
    }
}

/* The best of 50 runs of 200 calls. */
static void cost(size_t n)
{
    double best = 1e18;
    uint64_t sum = 0;
    for (int k = 0; k < 50; k++) {
        double from = now();
        for (int i = 0; i < 200; i++) {
            reports[0].tests = (uint64_t)i;
            sum += kerzhoma_print_sheet(reports, n, out, sizeof out).length + kerzhoma_release_sheet(reports, n).sheet.passed;
        }
        double took = (now() - from) / 400;
        best = took < best ? took : best;
    }
    printf("%zu reports: %.0f ns, %.2f a report (%llu)\n", n, best, best / (double)n, (unsigned long long)sum);
}

int main(int argc, char **argv)
{
    if (argc == 2 && strcmp(argv[1], "answer") == 0) {
        answer();
        return 0;
    }
    for (size_t i = 0; i < 8192; i++)
        reports[i] = (kerzhoma_counts){ 10 + i, 1, 2, 3, 4, i % 3 == 0 };
    for (size_t n = 64; n <= 4096; n *= 8)
        cost(n);
    return 0;
}
