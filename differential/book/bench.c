/* Measures how long the library takes to check, to list and to compact a book, and prints two tables.
 *
 * Usage: bench [WORD...]   only the books that have one of these words in their name, or in that of their table, list or compact
 *
 * In the first table, of check and list, a hull line has a path of 40 bytes and a ten-digit time. Of the hulls below a since line
 * about half are listed, in no regular order. In the second, of check and compact, a hull line has a time of one digit and, where
 * nothing else is said, the shortest path there is: 95 paths have one byte, the others two. So books of many lines fit: 2,048 of one
 * path, and 1,988 of different ones. A row that asks for more lines than fit has as many as fit.
 *
 * Each number is the best of ROUNDS rounds of about ROUND_NS, in time of this program on the processor, so that other programs
 * disturb it little. The answer to every book is known from the way it is made and is tested first, so that no refusal is measured
 * by mistake.
 */
#define _DEFAULT_SOURCE
#include <stdint.h>
#include <stdio.h>
#include <stdlib.h>
#include <string.h>
#include <time.h>

#include "chowderbell.h"

/* The declarations that callers are written against; the compiler refuses a header that declares them otherwise. */
uint8_t chowderbell_book_check(const uint8_t *book, size_t len, size_t *line);
uint8_t chowderbell_book_list(const uint8_t *book, size_t len, uint8_t *room, size_t room_len, size_t *length, size_t *line);
uint8_t chowderbell_book_compact(const uint8_t *book, size_t len, uint8_t *room, size_t room_len, size_t *length, size_t *line);

enum { LONGEST = 65536, ROUNDS = 60, ROUND_NS = 2000000, FULL = 0 };
enum { CHECK, LIST, COMPACT };

/* The current time of every since line, noon of 31 May 2021, and the cut-offs from there: 17 May and 1 May, at noon. */
#define NOW "1622462400\t7200"
enum { CUT_OFF_WEEKS = 1621252800, CUT_OFF_MONTH = 1619870400 };

typedef struct {
    uint8_t bytes[LONGEST + 1000];
    size_t length, lines, listed;
    size_t stay, compacted; /* the lines that stay when the book is compacted, and their bytes */
    uint32_t random;
    long cut_off;
} book;

static book made;
static uint8_t room[LONGEST];

static uint32_t some(book *b)
{
    b->random = b->random * 1664525u + 1013904223u;
    return b->random >> 8;
}

static void add(book *b, const char *line)
{
    size_t length = strlen(line);
    memcpy(b->bytes + b->length, line, length);
    b->length += length;
    b->lines++;
}

static void add_hull(book *b)
{
    char line[120];
    long seconds = CUT_OFF_WEEKS - 864000 + (long)(some(b) % 1728000);
    if (b->cut_off != 0)
        seconds = b->cut_off - 864000 + (long)(some(b) % 1728000);
    snprintf(line, sizeof line, "hull\tships/harbours-%04u/hull-%04u/cooked.obj\t%08x%08x\t%ld +0200\n", some(b) % 10000,
             some(b) % 10000, some(b), some(b), seconds);
    add(b, line);
    if (b->cut_off == 0 || seconds >= b->cut_off)
        b->listed += strlen(line);
}

static void add_since(book *b, const char *text, long cut_off)
{
    char line[8 * 256 + 64];
    snprintf(line, sizeof line, "since\t%s\t" NOW "\n", text);
    add(b, line);
    b->cut_off = cut_off;
}

/* --- the lines of each kind of book: the one at place `i` of about `n` --- */

static void hulls(book *b, size_t i, size_t n)
{
    (void)i, (void)n;
    add_hull(b);
}

static void mixed(book *b, size_t i, size_t n)
{
    if (i == n / 3)
        add_since(b, "2 weeks ago", CUT_OFF_WEEKS);
    else if (i == 2 * n / 3)
        add_since(b, "1 month ago", CUT_OFF_MONTH);
    else
        add_hull(b);
}

static void weeks(book *b, size_t i, size_t n)
{
    (void)i, (void)n;
    add_since(b, "2 weeks ago", CUT_OFF_WEEKS);
}

static void month(book *b, size_t i, size_t n)
{
    (void)i, (void)n;
    add_since(b, "1 month ago", CUT_OFF_MONTH);
}

static void now(book *b, size_t i, size_t n)
{
    (void)i, (void)n;
    add_since(b, "now", 1622462400);
}

static void add_pairs(book *b, size_t count)
{
    char text[8 * 256 + 1] = "";
    for (size_t i = 0; i < count; i++)
        strcat(text, "1 month ");
    add_since(b, text, 0);
}

static void pairs(book *b, size_t i, size_t n)
{
    (void)i, (void)n;
    add_pairs(b, 32);
}

static void most_pairs(book *b, size_t i, size_t n)
{
    (void)i, (void)n;
    add_pairs(b, 256);
}

static void short_hulls(book *b, size_t i, size_t n)
{
    (void)i, (void)n;
    add(b, "hull\ta\t0123456789abcdef\t5 +0000\n");
    b->listed = b->length;
}

/* One since line, as long as a book may be: all of it words that are passed over, but for the last pair. */
static void one_since(book *b, size_t i, size_t n)
{
    static char line[LONGEST + 1];
    (void)i, (void)n;
    memset(line, 0, sizeof line);
    strcpy(line, "since\t");
    size_t end = LONGEST - strlen("1 day ago\t" NOW "\n");
    for (size_t at = strlen(line); at < end; at++)
        line[at] = (at % 6 == 0) ? ' ' : 'w';
    line[end - 1] = ' ';
    strcat(line, "1 day ago\t" NOW "\n");
    add(b, line);
}

/* --- the lines of books to compact --- */

/* A hull with this path; `stays` if no line below has the path. */
static void add_path(book *b, const char *path, int stays)
{
    char line[320];
    snprintf(line, sizeof line, "hull\t%s\t%08x%08x\t%u +0000\n", path, some(b), some(b), some(b) % 10);
    add(b, line);
    if (stays) {
        b->stay++;
        b->compacted += strlen(line);
    }
}

/* The path with this number, the shortest ones first: 95 of one byte, then 9,025 of two. */
static const char *short_path(size_t number)
{
    static char path[3];
    path[0] = (char)(' ' + (number < 95 ? number : (number - 95) / 95));
    path[1] = number < 95 ? 0 : (char)(' ' + (number - 95) % 95);
    return path;
}

static void same(book *b, size_t i, size_t n)
{
    add_path(b, "a", i + 1 == n);
}

static void different(book *b, size_t i, size_t n)
{
    (void)n;
    add_path(b, short_path(i), 1);
}

/* Every second line has one path, the others have one each. */
static void half_same(book *b, size_t i, size_t n)
{
    add_path(b, short_path(i % 2 == 0 ? i / 2 + 1 : 0), i % 2 == 0 || i + 1 == n || (i + 2 == n && n % 2 == 1));
}

/* All paths, and then all of them again. */
static void each_twice(book *b, size_t i, size_t n)
{
    size_t half = (n + 1) / 2;
    add_path(b, short_path(i % half), i >= half || i + half >= n);
}

static void common_front(book *b, const char *path, int stays)
{
    char text[256];
    memset(text, 'x', 200);
    snprintf(text + 200, sizeof text - 200, "%s", path);
    add_path(b, text, stays);
}

static void common(book *b, size_t i, size_t n)
{
    (void)n;
    common_front(b, short_path(i + 95), 1);
}

static void common_twice(book *b, size_t i, size_t n)
{
    size_t half = (n + 1) / 2;
    common_front(b, short_path(i % half + 95), i >= half || i + half >= n);
}

/* The hash that the library puts paths into buckets by. */
static uint32_t hash(const char *path)
{
    uint32_t h = 0;
    for (; *path != 0; path++)
        h = (h + (uint8_t)*path) * 2654435761u;
    return h;
}

/* Different paths of four bytes, behind `front`, that are all in one bucket: the worst case. They are looked for in order. */
static const char *in_bucket(size_t i, const char *front)
{
    static char path[256];
    static uint32_t next;
    if (i == 0)
        next = 0;
    for (;; next++) {
        snprintf(path, sizeof path, "%s%c%c%c%c", front, (int)(' ' + next / 857375 % 95), (int)(' ' + next / 9025 % 95),
                 (int)(' ' + next / 95 % 95), (int)(' ' + next % 95));
        if (hash(path) >> 21 == 7) {
            next++;
            return path + strlen(front);
        }
    }
}

static void one_bucket(book *b, size_t i, size_t n)
{
    (void)n;
    add_path(b, in_bucket(i, ""), 1);
}

static void common_bucket(book *b, size_t i, size_t n)
{
    static char front[201];
    (void)n;
    memset(front, 'x', 200);
    common_front(b, in_bucket(i, front), 1);
}

/* Hulls as in the first table; their paths are numbers at random, and are all different. */
static void usual(book *b, size_t i, size_t n)
{
    (void)i, (void)n;
    add_hull(b);
    b->stay = b->lines;
    b->compacted = b->length;
}

/* Hulls as usual, each four times: a book to which a build has appended four times. */
static void four_times(book *b, size_t i, size_t n)
{
    size_t quarter = (n + 3) / 4;
    char path[80];
    snprintf(path, sizeof path, "ships/harbours-%04zu/hull-%04zu/cooked.obj", i % quarter, i % quarter * 7919 % 10000);
    add_path(b, path, i + quarter >= n);
}

static void cut_offs(book *b, size_t i, size_t n)
{
    (void)i, (void)n;
    add_since(b, "now", 1622462400);
    b->stay = b->lines;
    b->compacted = b->length;
}

typedef struct {
    const char *name;
    void (*line)(book *b, size_t i, size_t n);
    size_t lines; /* the most; FULL: as many as fit */
} kind;

static const kind TO_LIST[] = {
    {"hulls", hulls, 1},
    {"hulls", hulls, 10},
    {"hulls", hulls, 100},
    {"hulls", hulls, FULL},
    {"hulls and 2 since", mixed, 10},
    {"hulls and 2 since", mixed, 100},
    {"hulls and 2 since", mixed, FULL},
    {"since `2 weeks ago`", weeks, 1},
    {"since `2 weeks ago`", weeks, 10},
    {"since `2 weeks ago`", weeks, 100},
    {"since `2 weeks ago`", weeks, FULL},
    {"since `1 month ago`", month, 1},
    {"since `1 month ago`", month, 10},
    {"since `1 month ago`", month, 100},
    {"since `1 month ago`", month, FULL},
    {"since `now`", now, FULL},
    {"since, 32 pairs of months", pairs, FULL},
    {"since, 256 pairs of months", most_pairs, FULL},
    {"shortest hulls", short_hulls, FULL},
    {"one since of 65,536 bytes", one_since, 1},
};

static const kind TO_COMPACT[] = {
    {"one path", same, 16},
    {"one path", same, 64},
    {"one path", same, 256},
    {"one path", same, 1024},
    {"one path", same, 2048},
    {"all different", different, 16},
    {"all different", different, 64},
    {"all different", different, 256},
    {"all different", different, 1024},
    {"all different", different, 2048},
    {"half one path, half different", half_same, 16},
    {"half one path, half different", half_same, 64},
    {"half one path, half different", half_same, 256},
    {"half one path, half different", half_same, 1024},
    {"half one path, half different", half_same, 2048},
    {"each path twice", each_twice, 16},
    {"each path twice", each_twice, 64},
    {"each path twice", each_twice, 256},
    {"each path twice", each_twice, 1024},
    {"each path twice", each_twice, 2048},
    {"200 bytes in common", common, 16},
    {"200 bytes in common", common, 64},
    {"200 bytes in common", common, 256},
    {"200 bytes in common", common, FULL},
    {"200 bytes in common, each twice", common_twice, 16},
    {"200 bytes in common, each twice", common_twice, 64},
    {"200 bytes in common, each twice", common_twice, 256},
    {"200 bytes in common, each twice", common_twice, FULL},
    {"all in one bucket", one_bucket, 16},
    {"all in one bucket", one_bucket, 64},
    {"all in one bucket", one_bucket, 256},
    {"all in one bucket", one_bucket, 1024},
    {"all in one bucket", one_bucket, FULL},
    {"all in one bucket, 200 bytes in common", common_bucket, 16},
    {"all in one bucket, 200 bytes in common", common_bucket, 64},
    {"all in one bucket, 200 bytes in common", common_bucket, FULL},
    {"paths of 40 bytes, all different", usual, 1},
    {"paths of 40 bytes, all different", usual, 100},
    {"paths of 40 bytes, all different", usual, FULL},
    {"paths of 40 bytes, each four times", four_times, 100},
    {"paths of 40 bytes, each four times", four_times, FULL},
    {"since `now`", cut_offs, FULL},
};

/* Makes a book of as many lines as the kind says, or of fewer if these do not fit. */
static void make(const kind *k)
{
    for (size_t n = k->lines == FULL ? 5000 : k->lines;;) {
        size_t i;
        made = (book){.random = 1};
        for (i = 0; i < n && made.length <= LONGEST; i++)
            k->line(&made, i, n);
        if (made.length <= LONGEST)
            return;
        n = i - 1; /* made again with that number, which some kinds ask for */
    }
}

static void test_list(const char *name)
{
    size_t length = 1, line = 1, check_line = 1;
    unsigned check = chowderbell_book_check(made.bytes, made.length, &check_line);
    unsigned list = chowderbell_book_list(made.bytes, made.length, room, sizeof room, &length, &line);
    if (check != 0 || check_line != 0 || list != 0 || line != 0 || length != made.listed) {
        fprintf(stderr, "bench: %s, %zu lines: check %u at line %zu, list %u at line %zu, %zu bytes; wanted 0, 0 and %zu bytes\n", name,
                made.lines, check, check_line, list, line, length, made.listed);
        exit(1);
    }
}

static void test_compact(const char *name)
{
    size_t length = 1, line = 1, check_line = 1, lines = 0;
    unsigned check = chowderbell_book_check(made.bytes, made.length, &check_line);
    unsigned compact = chowderbell_book_compact(made.bytes, made.length, room, sizeof room, &length, &line);
    for (size_t i = 0; i < length && i < sizeof room; i++)
        lines += room[i] == '\n';
    if (check != 0 || check_line != 0 || compact != 0 || line != 0 || length != made.compacted || lines != made.stay) {
        fprintf(stderr, "bench: %s, %zu lines: check %u at line %zu, compact %u at line %zu, %zu lines, %zu bytes; wanted 0, 0 and %zu lines,"
                " %zu bytes\n", name, made.lines, check, check_line, compact, line, lines, length, made.stay, made.compacted);
        exit(1);
    }
}

static double clock_ns(void)
{
    struct timespec t;
    clock_gettime(CLOCK_PROCESS_CPUTIME_ID, &t);
    return (double)t.tv_sec * 1e9 + (double)t.tv_nsec;
}

static size_t sink;

static void call(int entry)
{
    size_t length = 0, line = 0;
    if (entry == LIST)
        sink += chowderbell_book_list(made.bytes, made.length, room, sizeof room, &length, &line);
    else if (entry == COMPACT)
        sink += chowderbell_book_compact(made.bytes, made.length, room, sizeof room, &length, &line);
    else
        sink += chowderbell_book_check(made.bytes, made.length, &line);
    sink += length + line;
}

static double round_ns(int entry, size_t calls)
{
    double start = clock_ns();
    for (size_t i = 0; i < calls; i++)
        call(entry);
    return clock_ns() - start;
}

/* The nanoseconds of one call. */
static double measure(int entry)
{
    size_t calls = 1;
    while (round_ns(entry, calls) < ROUND_NS)
        calls *= 2;
    double best = 1e18;
    for (int round = 0; round < ROUNDS; round++) {
        double each = round_ns(entry, calls) / (double)calls;
        if (each < best)
            best = each;
    }
    return best;
}

static int chosen(const char *table, const char *name, int count, char **words)
{
    for (int i = 1; i < count; i++)
        if (strstr(name, words[i]) != NULL || strcmp(table, words[i]) == 0)
            return 1;
    return count < 2;
}

/* A heading above the first row of a table. */
static void head(int *rows, const char *columns, const char *below)
{
    if ((*rows)++ == 0)
        printf("%s\n%s\n", columns, below);
}

int main(int count, char **words)
{
    int rows = 0;
    for (size_t i = 0; i < sizeof TO_LIST / sizeof TO_LIST[0]; i++) {
        const kind *k = &TO_LIST[i];
        if (!chosen("list", k->name, count, words))
            continue;
        head(&rows, "| book | lines | bytes | listed | check, ns | a line | a byte | list, ns | a line | a byte |",
             "|---|---:|---:|---:|---:|---:|---:|---:|---:|---:|");
        make(k);
        test_list(k->name);
        double check = measure(CHECK), list = measure(LIST), lines = (double)made.lines, bytes = (double)made.length;
        printf("| %s | %zu | %zu | %zu | %.0f | %.1f | %.2f | %.0f | %.1f | %.2f |\n", k->name, made.lines, made.length,
               made.listed, check, check / lines, check / bytes, list, list / lines, list / bytes);
        fflush(stdout);
    }
    if (rows > 0)
        puts("");
    rows = 0;
    for (size_t i = 0; i < sizeof TO_COMPACT / sizeof TO_COMPACT[0]; i++) {
        const kind *k = &TO_COMPACT[i];
        if (!chosen("compact", k->name, count, words))
            continue;
        head(&rows, "| book | lines | bytes | stay | check, ns | a line | compact, ns | a line | compact / check |",
             "|---|---:|---:|---:|---:|---:|---:|---:|---:|");
        make(k);
        test_compact(k->name);
        double check = measure(CHECK), compact = measure(COMPACT), lines = (double)made.lines;
        printf("| %s | %zu | %zu | %zu | %.0f | %.1f | %.0f | %.1f | %.2f |\n", k->name, made.lines, made.length, made.stay, check,
               check / lines, compact, compact / lines, compact / check);
        fflush(stdout);
    }
    return sink == 1; /* so that no call is left out by the compiler */
}
