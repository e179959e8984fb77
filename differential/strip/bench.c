/* Measures how long the library takes to write the strip of a month, and prints a table.
 *
 * Usage: bench [WORD...]   only the rows that have one of these words in their name
 *
 * A row goes through its months again and again, with one call for each month. All rows are measured PASSES times in turn, each time
 * for at most ROUNDS rounds, and the best round counts: another program that disturbs some of them for a while does not change the
 * table. A round takes about ROUND_NS, or longer if the months take longer. Time is that of this program on the processor. First the
 * number that each call returns is tested, and whether a strip has as many days as its length says, so that no refusal is measured
 * by mistake.
 */
#define _DEFAULT_SOURCE
#include <inttypes.h>
#include <stdint.h>
#include <stdio.h>
#include <stdlib.h>
#include <string.h>
#include <time.h>

#include "chowderbell.h"

/* The declaration that callers are written against; the compiler refuses a header that declares it otherwise. */
uint8_t chowderbell_strip(int64_t year, int64_t month, uint8_t *room, size_t len, size_t *length);

enum { LENGTH = 50, DAYS = 8, PASSES = 8, ROUNDS = 5, ROUND_NS = 5000000, LONGEST_NS = 40000000 };
enum { FIRST_YEAR = -9999, LAST_YEAR = 9999, ALL = (LAST_YEAR - FIRST_YEAR + 1) * 12 };

typedef struct {
    int64_t year, month;
} named_month;

typedef struct {
    const char *name;
    int64_t first_year, first_month;
    size_t months; /* so many, in order */
    int mixed;     /* or in no order */
    size_t room;
    unsigned number;
} row;

static const row ROWS[] = {
    {"January 2021, five rows", 2021, 1, 1, 0, LENGTH, CHOWDERBELL_OK},
    {"February 2021, four rows", 2021, 2, 1, 0, LENGTH, CHOWDERBELL_OK},
    {"May 2021, six rows", 2021, 5, 1, 0, LENGTH, CHOWDERBELL_OK},
    {"the 12 months of 2021", 2021, 1, 12, 0, LENGTH, CHOWDERBELL_OK},
    {"the 12 months of year -9999", FIRST_YEAR, 1, 12, 0, LENGTH, CHOWDERBELL_OK},
    {"the 12 months of year 0", 0, 1, 12, 0, LENGTH, CHOWDERBELL_OK},
    {"the 12 months of year 9999", LAST_YEAR, 1, 12, 0, LENGTH, CHOWDERBELL_OK},
    {"the 4,800 months from 1970 on", 1970, 1, 4800, 0, LENGTH, CHOWDERBELL_OK},
    {"the 4,800 months from 1970 on, in no order", 1970, 1, 4800, 1, LENGTH, CHOWDERBELL_OK},
    {"all 239,988 months", FIRST_YEAR, 1, ALL, 0, LENGTH, CHOWDERBELL_OK},
    {"all 239,988 months, in no order", FIRST_YEAR, 1, ALL, 1, LENGTH, CHOWDERBELL_OK},
    {"refused by 8: a room of 49 bytes", 2021, 1, 12, 0, LENGTH - 1, CHOWDERBELL_ROOM},
    {"refused by 6: the months of year 10000", LAST_YEAR + 1, 1, 12, 0, LENGTH, CHOWDERBELL_RANGE},
    {"refused by 6: month 13", 2021, 13, 1, 0, LENGTH, CHOWDERBELL_RANGE},
};

static named_month months[ALL];
static uint8_t room[LENGTH];
static size_t sink;

static void make(const row *r)
{
    uint32_t random = 1;
    for (size_t i = 0; i < r->months; i++)
        months[i] = (named_month){r->first_year + (int64_t)(i / 12), r->first_month + (int64_t)(i % 12)};
    for (size_t i = r->months; r->mixed && i > 1; i--) {
        random = random * 1664525u + 1013904223u;
        size_t j = (random >> 8) % i;
        named_month held = months[i - 1];
        months[i - 1] = months[j];
        months[j] = held;
    }
}

static void test(const row *r)
{
    for (size_t i = 0; i < r->months; i++) {
        size_t length = 1, sum = 0, filled = 0, days;
        unsigned number = chowderbell_strip(months[i].year, months[i].month, room, r->room, &length);
        for (size_t place = DAYS; place < LENGTH; place++) {
            sum += room[place];
            filled += room[place] != 0;
        }
        days = room[0];
        if (number != r->number || length != (number == 0 ? LENGTH : 0) ||
            (number == 0 && (filled != days || sum != days * (days + 1) / 2))) {
            fprintf(stderr, "bench: year %" PRId64 ", month %" PRId64 ": number %u, length %zu, %zu days; wanted number %u\n",
                    months[i].year, months[i].month, number, length, filled, r->number);
            exit(1);
        }
    }
}

static double clock_ns(void)
{
    struct timespec t;
    clock_gettime(CLOCK_PROCESS_CPUTIME_ID, &t);
    return (double)t.tv_sec * 1e9 + (double)t.tv_nsec;
}

static double round_ns(const row *r, size_t times)
{
    double start = clock_ns();
    for (size_t n = 0; n < times; n++)
        for (size_t i = 0; i < r->months; i++) {
            size_t length = 0;
            sink += chowderbell_strip(months[i].year, months[i].month, room, r->room, &length);
            sink += length;
        }
    return clock_ns() - start;
}

/* The nanoseconds of one call. */
static double measure(const row *r)
{
    size_t times = 1;
    double ns, best = 1e18, all = 0;
    while ((ns = round_ns(r, times)) < ROUND_NS)
        times *= 2;
    for (int round = 0; round < ROUNDS && all < LONGEST_NS; round++) {
        ns = round_ns(r, times);
        all += ns;
        if (ns < best)
            best = ns;
    }
    return best / (double)(times * r->months);
}

static int chosen(const char *name, int count, char **words)
{
    for (int i = 1; i < count; i++)
        if (strstr(name, words[i]) != NULL)
            return 1;
    return count < 2;
}

int main(int count, char **words)
{
    enum { COUNT = sizeof ROWS / sizeof ROWS[0] };
    double best[COUNT];
    for (int pass = 0; pass < PASSES; pass++)
        for (size_t i = 0; i < COUNT; i++) {
            if (!chosen(ROWS[i].name, count, words))
                continue;
            make(&ROWS[i]);
            if (pass == 0)
                test(&ROWS[i]);
            double ns = measure(&ROWS[i]);
            if (pass == 0 || ns < best[i])
                best[i] = ns;
        }
    puts("| months | a call, ns | calls a second |\n|---|---:|---:|");
    for (size_t i = 0; i < COUNT; i++)
        if (chosen(ROWS[i].name, count, words))
            printf("| %s | %.1f | %.0f |\n", ROWS[i].name, best[i], 1e9 / best[i]);
    return sink == 1; /* so that no call is left out by the compiler */
}
