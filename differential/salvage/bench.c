/* Measures how long the library takes to salvage a book, beside a check and a compaction of the same book before it was damaged, and
 * prints a table.
 *
 * Usage: bench [WORD...]   only the rows that have one of these words in their name
 *
 * Each book has as many lines as 65,536 bytes have room for. Of a damaged one every tenth line has a zero for the first byte of its
 * path or its text. It is salvaged in two ways: into rooms that are always long enough, where each line is judged once; and into
 * rooms of exactly the bytes to be written, where the book is measured first.
 *
 * Each number is the median of ROUNDS rounds of about ROUND_NS, in time of this program on the processor, so that other programs
 * disturb it little. The answer to every call is known from the way its book is made and is tested first, so that no refusal is
 * measured by mistake.
 */
#define _DEFAULT_SOURCE
#include <stdint.h>
#include <stdio.h>
#include <stdlib.h>
#include <string.h>
#include <time.h>

#include "chowderbell.h"

/* The declarations that callers are written against; the compiler refuses a header that declares them otherwise. */
uint8_t chowderbell_book_check(const uint8_t *book, size_t len, size_t *line);
uint8_t chowderbell_book_compact(const uint8_t *book, size_t len, uint8_t *room, size_t room_len, size_t *length, size_t *line);
uint8_t chowderbell_book_salvage(const uint8_t *book, size_t len, uint8_t *room, size_t room_len, uint8_t *report, size_t report_len,
                                 size_t *length, size_t *report_length, size_t *last_bad);

enum { LONGEST = 65536, PER_BYTE = 8, ROUNDS = 31, ROUND_NS = 3000000, TENTH = 10 };
enum { CHECK, COMPACT, SALVAGE, SALVAGE_EXACTLY, ENTRIES };

/* A book, and what is to be salvaged from it. */
typedef struct {
    uint8_t bytes[LONGEST + 400];
    size_t length, lines, bad, last_bad, kept, report;
} book;

static book good, damaged;
static uint8_t room[LONGEST], report[PER_BYTE * LONGEST];

/* --- the lines of each kind: the one with number `i` --- */

/* A path of 40 bytes and a time of ten digits. */
static int usual(char *line, size_t i)
{
    return sprintf(line, "hull\tships/harbours-%04zu/hull-%04zu/cooked.obj\t%016zx\t%zu +0200\n", i % 10000, i * 7919 % 10000, i * 31,
                   1745582210 + 60 * i);
}

/* The shortest line of a hull. */
static int shortest(char *line, size_t i)
{
    return sprintf(line, "hull\t%c\t%016zx\t5 +0000\n", (int)(' ' + i % 95), i);
}

static int since(char *line, size_t i)
{
    return sprintf(line, "since\t2 weeks ago\t%zu\t7200\n", 1622462400 + i);
}

static int newline(char *line, size_t i)
{
    (void)i;
    return sprintf(line, "\n");
}

static int half(char *line, size_t i)
{
    return sprintf(line, "hull\tships/harbours-%04zu/hull\n", i % 10000);
}

static int no_line(char *line, size_t i)
{
    (void)line, (void)i;
    return LONGEST;
}

typedef struct {
    const char *name;
    int (*line)(char *line, size_t i);
    size_t every; /* of so many lines the last is bad: 0 none, 1 all of them; otherwise they are damaged */
} kind;

static const kind KINDS[] = {
    {"the empty book", no_line, 0},
    {"hulls, paths of 40 bytes", usual, 0},
    {"hulls, paths of 40 bytes, every tenth damaged", usual, TENTH},
    {"hulls, shortest lines", shortest, 0},
    {"hulls, shortest lines, every tenth damaged", shortest, TENTH},
    {"since lines", since, 0},
    {"since lines, every tenth damaged", since, TENTH},
    {"half lines only", half, 1},
    {"newlines only", newline, 1},
};

/* --- books --- */

/* How many bytes the row of a bad line has. */
static size_t row_length(size_t number, size_t length)
{
    char row[64];
    return (size_t)snprintf(row, sizeof row, "%zu\t%zu\n", number, length);
}

static void add(book *b, const char *line, size_t length, int is_bad)
{
    memcpy(b->bytes + b->length, line, length);
    b->length += length;
    b->lines++;
    if (!is_bad) {
        b->kept += length;
        return;
    }
    b->bad++;
    b->last_bad = b->lines;
    b->report += row_length(b->lines, length - 1);
}

/* Makes the book before it was damaged, and after. */
static void make(const kind *k)
{
    char line[400];
    memset(&good, 0, sizeof good);
    memset(&damaged, 0, sizeof damaged);
    for (size_t i = 1;; i++) {
        size_t length = (size_t)k->line(line, i);
        if (good.length + length > LONGEST || k->line == no_line)
            return;
        add(&good, line, length, k->every == 1);
        int is_bad = k->every > 0 && i % k->every == 0;
        if (is_bad && k->every > 1)
            strchr(line, '\t')[1] = 0;
        add(&damaged, line, length, is_bad);
    }
}

static void test_salvage(const char *name, size_t room_len, size_t report_len)
{
    size_t length = 1, reported = 1, last = 1;
    unsigned number = chowderbell_book_salvage(damaged.bytes, damaged.length, room, room_len, report, report_len, &length, &reported,
                                               &last);
    if (number == 0 && length == damaged.kept && reported == damaged.report && last == damaged.last_bad)
        return;
    fprintf(stderr, "bench: %s: number %u, %zu bytes kept, %zu reported, last bad %zu; wanted 0, %zu, %zu, %zu\n", name, number, length,
            reported, last, damaged.kept, damaged.report, damaged.last_bad);
    exit(1);
}

static void test(const kind *k)
{
    size_t line = 1;
    unsigned number = chowderbell_book_check(good.bytes, good.length, &line);
    if ((number != 0) != (k->every == 1)) {
        fprintf(stderr, "bench: %s: a check returns %u at line %zu\n", k->name, number, line);
        exit(1);
    }
    test_salvage(k->name, sizeof room, sizeof report);
    test_salvage(k->name, damaged.kept, damaged.report);
}

/* --- measuring --- */

static double clock_ns(void)
{
    struct timespec t;
    clock_gettime(CLOCK_PROCESS_CPUTIME_ID, &t);
    return (double)t.tv_sec * 1e9 + (double)t.tv_nsec;
}

static size_t sink;

static void call(int entry)
{
    size_t length = 0, reported = 0, line = 0;
    if (entry == CHECK)
        sink += chowderbell_book_check(good.bytes, good.length, &line);
    else if (entry == COMPACT)
        sink += chowderbell_book_compact(good.bytes, good.length, room, sizeof room, &length, &line);
    else if (entry == SALVAGE)
        sink += chowderbell_book_salvage(damaged.bytes, damaged.length, room, sizeof room, report, sizeof report, &length, &reported,
                                         &line);
    else
        sink += chowderbell_book_salvage(damaged.bytes, damaged.length, room, damaged.kept, report, damaged.report, &length, &reported,
                                         &line);
    sink += length + reported + line;
}

static double round_ns(int entry, size_t calls)
{
    double start = clock_ns();
    for (size_t i = 0; i < calls; i++)
        call(entry);
    return clock_ns() - start;
}

static int in_order(const void *one, const void *other)
{
    double a = *(const double *)one, b = *(const double *)other;
    return (a > b) - (a < b);
}

/* The nanoseconds of one call of each entry. The rounds of all entries are taken in turns, so that a slow while of the machine falls on
   all of them. */
static void measure(double *ns)
{
    static double rounds[ENTRIES][ROUNDS];
    size_t calls[ENTRIES];
    for (int entry = 0; entry < ENTRIES; entry++)
        for (calls[entry] = 1; round_ns(entry, calls[entry]) < ROUND_NS;)
            calls[entry] *= 2;
    for (int round = 0; round < ROUNDS; round++)
        for (int entry = 0; entry < ENTRIES; entry++)
            rounds[entry][round] = round_ns(entry, calls[entry]) / (double)calls[entry];
    for (int entry = 0; entry < ENTRIES; entry++) {
        qsort(rounds[entry], ROUNDS, sizeof rounds[entry][0], in_order);
        ns[entry] = rounds[entry][ROUNDS / 2];
    }
}

static int chosen(const char *name, int count, char **words)
{
    for (int i = 1; i < count; i++)
        if (strstr(name, words[i]) != NULL)
            return 1;
    return count < 2;
}

/* A check and a compaction are only shown of a good book, since they refuse any other at its first bad line. */
static void print_row(const kind *k)
{
    const int was_good = k->every != 1;
    double ns[ENTRIES];
    measure(ns);
    printf("| %s | %zu | %zu | %zu | ", k->name, damaged.lines, damaged.bad, damaged.length);
    if (was_good)
        printf("%.2f | %.2f | ", ns[CHECK] / 1000, ns[COMPACT] / 1000);
    else
        printf("- | - | ");
    printf("%.2f | %.2f | %.1f | ", ns[SALVAGE] / 1000, ns[SALVAGE_EXACTLY] / 1000,
           damaged.lines > 0 ? ns[SALVAGE] / (double)damaged.lines : 0);
    if (was_good)
        printf("%.2f | ", ns[SALVAGE] / ns[CHECK]);
    else
        printf("- | ");
    printf("%.2f |\n", ns[SALVAGE_EXACTLY] / ns[SALVAGE]);
    fflush(stdout);
}

int main(int count, char **words)
{
    int rows = 0;
    for (size_t i = 0; i < sizeof KINDS / sizeof KINDS[0]; i++) {
        if (!chosen(KINDS[i].name, count, words))
            continue;
        if (rows++ == 0)
            puts("| book | lines | bad | bytes | undamaged: check, us | compact, us | salvage, us | in exact rooms, us | a line, ns "
                 "| salvage / check | exact / not |\n|---|---:|---:|---:|---:|---:|---:|---:|---:|---:|---:|");
        make(&KINDS[i]);
        test(&KINDS[i]);
        print_row(&KINDS[i]);
    }
    return sink == 1; /* so that no call is left out by the compiler */
}
