/* Measures how long the library takes to merge two lists, and to find the earlier of two front lines, and prints two tables.
 *
 * Usage: bench [WORD...]   only the rows that have one of these words in their name, or in that of their table, merge or fronts
 *
 * Where nothing else is said, a line has a time of one digit and the shortest path there is: 95 paths have one byte, the others two.
 * So lists of many lines fit: 1,024 of one path, and 995 of different ones. A row that asks for more lines than fit has as many as
 * fit, in both lists. In lists with paths of 40 bytes a time has ten digits.
 *
 * Each number is the median of ROUNDS rounds of about ROUND_NS, in time of this program on the processor, so that other programs
 * disturb it little. Beside a merge is what it takes to check both lists as books, by chowderbell_book_check, which reads the same
 * lines. The answer to every merge is known from the way its lists are made and is tested first, so that no refusal is measured by
 * mistake.
 */
#define _DEFAULT_SOURCE
#include <stdint.h>
#include <stdio.h>
#include <stdlib.h>
#include <string.h>
#include <time.h>

#include "chowderbell.h"

/* The declarations that callers are written against; the compiler refuses a header that declares them otherwise. */
uint8_t chowderbell_fronts_check(const uint8_t *first, size_t first_len, const uint8_t *second, size_t second_len, uint8_t *machine,
                                 size_t *line);
size_t chowderbell_fronts_earlier(const uint8_t *first, size_t first_len, const uint8_t *second, size_t second_len,
                                  uint8_t *machine);
uint8_t chowderbell_lists_merge(const uint8_t *first, size_t first_len, const uint8_t *second, size_t second_len, uint8_t *book,
                                size_t book_len, uint8_t *report, size_t report_len, size_t *book_length, size_t *report_length,
                                uint8_t *machine, size_t *line);

enum { LONGEST = 32768, ROUNDS = 31, ROUND_NS = 3000000, FULL = 0 };
enum { FIRST, SECOND };
enum { BOOKS, MERGE, EARLIER, CHECK };

typedef struct {
    uint8_t bytes[LONGEST + 400];
    size_t length, lines;
} list;

static list lists[2];
static uint8_t book[2 * LONGEST], report[CHOWDERBELL_REPORT_MAX];

static void add(list *l, const char *path, unsigned key, long seconds)
{
    l->length += (size_t)sprintf((char *)l->bytes + l->length, "hull\t%s\t%016x\t%ld +0000\n", path, key, seconds);
    l->lines++;
}

/* The path with this number, the shortest ones first: 95 of one byte, then 9,025 of two. */
static const char *short_path(size_t number)
{
    static char path[3];
    path[0] = (char)(' ' + (number < 95 ? number : (number - 95) / 95));
    path[1] = number < 95 ? 0 : (char)(' ' + (number - 95) % 95);
    return path;
}

/* A path of 40 bytes. */
static const char *usual_path(size_t number)
{
    static char path[80];
    snprintf(path, sizeof path, "ships/harbours-%04zu/hull-%04zu/cooked.obj", number % 10000, number * 7919 % 10000);
    return path;
}

/* --- the lines of each kind: the one at place `i` of `n` of a machine's list --- */

static void one_path(list *l, int machine, size_t i, size_t n)
{
    (void)machine, (void)n;
    add(l, "a", 7, (long)(i * 10 / 1024));
}

static void one_path_differs(list *l, int machine, size_t i, size_t n)
{
    add(l, "a", i + 1 == n ? (unsigned)machine : 7, (long)(i * 10 / 1024));
}

static void ties(list *l, int machine, size_t i, size_t n)
{
    (void)machine, (void)i, (void)n;
    add(l, "a", 7, 5);
}

/* No path is in both lists: those of one byte are all in the first. */
static void different(list *l, int machine, size_t i, size_t n)
{
    (void)n;
    add(l, short_path(machine == FIRST ? i : i + 3000), 7, 5);
}

static void same_keys(list *l, int machine, size_t i, size_t n)
{
    (void)machine, (void)n;
    add(l, short_path(i), 7, 5);
}

static void other_keys(list *l, int machine, size_t i, size_t n)
{
    (void)n;
    add(l, short_path(i), 7 + (unsigned)machine, 5);
}

/* Every second path is in both lists, with other keys. */
static void half(list *l, int machine, size_t i, size_t n)
{
    (void)n;
    add(l, short_path(machine == FIRST || i % 2 == 0 ? i : i + 3000), 7 + (unsigned)machine, 5);
}

/* The hash that the library puts paths into buckets by. */
static uint32_t hash(const char *path)
{
    uint32_t h = 0;
    for (; *path != 0; path++)
        h = (h + (uint8_t)*path) * 2654435761u;
    return h;
}

/* Different paths of four bytes that are all in one bucket: the worst case. They are looked for in order. */
static void one_bucket(list *l, int machine, size_t i, size_t n)
{
    static uint32_t next;
    char path[5];
    (void)n;
    if (i == 0)
        next = 0;
    do {
        snprintf(path, sizeof path, "%c%c%c%c", (int)(' ' + next / 857375 % 95), (int)(' ' + next / 9025 % 95),
                 (int)(' ' + next / 95 % 95), (int)(' ' + next % 95));
        next++;
    } while (hash(path) >> 21 != 7);
    add(l, path, 7 + (unsigned)machine, 5);
}

static void usual_different(list *l, int machine, size_t i, size_t n)
{
    (void)n;
    add(l, usual_path(i + (machine == FIRST ? 0 : 5000)), 7, 1745582210 + 60 * (long)i);
}

static void usual_same(list *l, int machine, size_t i, size_t n)
{
    (void)n;
    add(l, usual_path(i), 7, 1745582210 + 60 * (long)i + machine);
}

static void usual_half(list *l, int machine, size_t i, size_t n)
{
    (void)n;
    add(l, usual_path(machine == FIRST || i % 2 == 0 ? i : i + 5000), 7 + (unsigned)machine, 1745582210 + 60 * (long)i + machine);
}

typedef struct {
    const char *name;
    void (*line)(list *l, int machine, size_t i, size_t n);
    size_t lines; /* the most of each list; FULL: as many as fit */
    int rows;     /* how many rows the report has, of so many lines in each list */
} kind;
enum { NO_ROW, ONE_ROW, HALF, ALL };

static const kind TO_MERGE[] = {
    {"two empty lists", one_path, (size_t)-1, NO_ROW},
    {"one path, one key", one_path, 16, NO_ROW},
    {"one path, one key", one_path, 128, NO_ROW},
    {"one path, one key", one_path, 1024, NO_ROW},
    {"one path, the last keys differ", one_path_differs, 1024, ONE_ROW},
    {"one path, all seconds the same", ties, 1024, NO_ROW},
    {"all different, no path in both", different, 16, NO_ROW},
    {"all different, no path in both", different, 128, NO_ROW},
    {"all different, no path in both", different, 1024, NO_ROW},
    {"all different, all in both, same keys", same_keys, 1024, NO_ROW},
    {"all different, half in both, keys differ", half, 16, HALF},
    {"all different, half in both, keys differ", half, 128, HALF},
    {"all different, half in both, keys differ", half, 1024, HALF},
    {"all different, all in both, keys differ", other_keys, 1024, ALL},
    {"all in one bucket, keys differ", one_bucket, 16, ALL},
    {"all in one bucket, keys differ", one_bucket, 128, ALL},
    {"all in one bucket, keys differ", one_bucket, FULL, ALL},
    {"paths of 40 bytes, no path in both", usual_different, 1, NO_ROW},
    {"paths of 40 bytes, no path in both", usual_different, 100, NO_ROW},
    {"paths of 40 bytes, no path in both", usual_different, FULL, NO_ROW},
    {"paths of 40 bytes, all in both, same keys", usual_same, 100, NO_ROW},
    {"paths of 40 bytes, all in both, same keys", usual_same, FULL, NO_ROW},
    {"paths of 40 bytes, half in both, keys differ", usual_half, 1, HALF},
    {"paths of 40 bytes, half in both, keys differ", usual_half, 100, HALF},
    {"paths of 40 bytes, half in both, keys differ", usual_half, FULL, HALF},
};

/* Makes both lists with as many lines as the kind says, or with fewer if these do not fit. */
static void make(const kind *k)
{
    size_t n = k->lines == FULL ? 1024 : k->lines == (size_t)-1 ? 0 : k->lines;
    for (int machine = FIRST; machine <= SECOND; machine++) {
        list *l = &lists[machine];
        for (size_t i = l->length = l->lines = 0; i < n && l->length <= LONGEST; i++)
            k->line(l, machine, i, n);
        if (l->length > LONGEST) { /* both are made again with that number, which some kinds ask for */
            n = l->lines - 1;
            machine = FIRST - 1;
        }
    }
}

static void test_merge(const kind *k)
{
    size_t length = 1, reported = 1, line = 1, rows = 0, lines = lists[FIRST].lines;
    size_t wanted = k->rows == ALL ? lines : k->rows == HALF ? (lines + 1) / 2 : k->rows == ONE_ROW ? 1 : 0;
    uint8_t machine = 1;
    unsigned number = chowderbell_lists_merge(lists[FIRST].bytes, lists[FIRST].length, lists[SECOND].bytes, lists[SECOND].length, book,
                                              sizeof book, report, sizeof report, &length, &reported, &machine, &line);
    for (size_t i = 0; i < reported && i < sizeof report; i++)
        rows += report[i] == '\n';
    if (number != 0 || machine != 0 || line != 0 || length != lists[FIRST].length + lists[SECOND].length || rows != wanted ||
        lists[FIRST].lines != lists[SECOND].lines) {
        fprintf(stderr, "bench: %s, %zu and %zu lines: %u, machine %u, line %zu, %zu bytes, %zu rows; wanted 0, %zu rows\n", k->name,
                lines, lists[SECOND].lines, number, machine, line, length, rows, wanted);
        exit(1);
    }
}

/* --- front lines --- */

typedef struct {
    const char *name, *first, *second;
    size_t length; /* of the earlier one */
    unsigned number;
} fronts;

#define SHORT(seconds) "hull\ta\t0123456789abcdef\t" seconds " +0000\n"
#define USUAL(seconds) "hull\tships/harbours-0001/hull-0001/cooked.obj\t0123456789abcdef\t" seconds " +0200\n"

static const fronts TO_COMPARE[] = {
    {"two empty ones", "", "", 0, 0},
    {"shortest, and an empty one", SHORT("5"), "", 32, 0},
    {"shortest, a tie", SHORT("5"), SHORT("5"), 32, 0},
    {"shortest, the second is earlier", SHORT("6"), SHORT("5"), 32, 0},
    {"paths of 40 bytes, the first is earlier", USUAL("1745582210"), USUAL("1745582211"), 80, 0},
    {"paths of 40 bytes, the second is earlier", USUAL("1745582211"), USUAL("1745582210"), 80, 0},
    {"paths of 40 bytes, the second is bad", USUAL("1745582210"), "x\n", 0, 12},
};
static const fronts *compared;

static void test_fronts(const fronts *f)
{
    uint8_t machine = 1, bad = 1;
    size_t line = 1;
    const uint8_t *first = (const uint8_t *)f->first, *second = (const uint8_t *)f->second;
    size_t length = chowderbell_fronts_earlier(first, strlen(f->first), second, strlen(f->second), &machine);
    unsigned number = chowderbell_fronts_check(first, strlen(f->first), second, strlen(f->second), &bad, &line);
    if (length != f->length || number != f->number) {
        fprintf(stderr, "bench: %s: %zu bytes, number %u; wanted %zu, %u\n", f->name, length, number, f->length, f->number);
        exit(1);
    }
}

/* --- measuring --- */

static double clock_ns(void)
{
    struct timespec t;
    clock_gettime(CLOCK_PROCESS_CPUTIME_ID, &t);
    return (double)t.tv_sec * 1e9 + (double)t.tv_nsec;
}

static size_t sink;

static void call(int entry)
{
    size_t length = 0, reported = 0, line = 0;
    uint8_t machine = 0;
    const uint8_t *first = lists[FIRST].bytes, *second = lists[SECOND].bytes;
    size_t first_len = lists[FIRST].length, second_len = lists[SECOND].length;
    if (entry == BOOKS) {
        sink += chowderbell_book_check(first, first_len, &line);
        sink += chowderbell_book_check(second, second_len, &line);
    } else if (entry == MERGE)
        sink += chowderbell_lists_merge(first, first_len, second, second_len, book, sizeof book, report, sizeof report, &length,
                                        &reported, &machine, &line);
    else if (entry == EARLIER)
        sink += chowderbell_fronts_earlier(first, first_len, second, second_len, &machine);
    else
        sink += chowderbell_fronts_check(first, first_len, second, second_len, &machine, &line);
    sink += length + reported + line + machine;
}

static double round_ns(int entry, size_t calls)
{
    double start = clock_ns();
    for (size_t i = 0; i < calls; i++)
        call(entry);
    return clock_ns() - start;
}

static int in_order(const void *one, const void *other)
{
    double a = *(const double *)one, b = *(const double *)other;
    return (a > b) - (a < b);
}

/* The nanoseconds of one call. */
static double measure(int entry)
{
    double rounds[ROUNDS];
    size_t calls = 1;
    while (round_ns(entry, calls) < ROUND_NS)
        calls *= 2;
    for (int round = 0; round < ROUNDS; round++)
        rounds[round] = round_ns(entry, calls) / (double)calls;
    qsort(rounds, ROUNDS, sizeof rounds[0], in_order);
    return rounds[ROUNDS / 2];
}

static int chosen(const char *table, const char *name, int count, char **words)
{
    for (int i = 1; i < count; i++)
        if (strstr(name, words[i]) != NULL || strcmp(table, words[i]) == 0)
            return 1;
    return count < 2;
}

/* A heading above the first row of a table. */
static void head(int *rows, const char *columns, const char *below)
{
    if ((*rows)++ == 0)
        printf("%s\n%s\n", columns, below);
}

int main(int count, char **words)
{
    int rows = 0;
    for (size_t i = 0; i < sizeof TO_MERGE / sizeof TO_MERGE[0]; i++) {
        const kind *k = &TO_MERGE[i];
        if (!chosen("merge", k->name, count, words))
            continue;
        head(&rows, "| lists | lines of each | bytes of both | both checked as books, us | merge, us | a line, ns | merge / checks |",
             "|---|---:|---:|---:|---:|---:|---:|");
        make(k);
        test_merge(k);
        size_t lines = lists[FIRST].lines + lists[SECOND].lines;
        double books = measure(BOOKS), merge = measure(MERGE);
        printf("| %s | %zu | %zu | %.2f | %.2f | %.1f | %.2f |\n", k->name, lists[FIRST].lines, lists[FIRST].length + lists[SECOND].length,
               books / 1000, merge / 1000, lines > 0 ? merge / (double)lines : 0, merge / books);
        fflush(stdout);
    }
    if (rows > 0)
        puts("");
    rows = 0;
    for (size_t i = 0; i < sizeof TO_COMPARE / sizeof TO_COMPARE[0]; i++) {
        compared = &TO_COMPARE[i];
        if (!chosen("fronts", compared->name, count, words))
            continue;
        head(&rows, "| front lines | bytes of both | earlier, ns | check, ns |", "|---|---:|---:|---:|");
        test_fronts(compared);
        const char *texts[] = {compared->first, compared->second};
        for (int machine = FIRST; machine <= SECOND; machine++) {
            lists[machine].length = strlen(texts[machine]);
            memcpy(lists[machine].bytes, texts[machine], lists[machine].length);
        }
        printf("| %s | %zu | %.1f | %.1f |\n", compared->name, lists[FIRST].length + lists[SECOND].length, measure(EARLIER),
               measure(CHECK));
        fflush(stdout);
    }
    return sink == 1; /* so that no call is left out by the compiler */
}
