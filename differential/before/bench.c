/* Two builds of the library side by side: the same calls on the same inputs, in turns, in one process. Prints nanoseconds for a
 * call of each, the best of all rounds, and how many times as fast the second one is. Before it measures a row it compares all
 * answers, and stops if any differs.
 *
 * Usage: bench FIRST.so SECOND.so [ROUNDS]
 */
#define _GNU_SOURCE
#include <dlfcn.h>
#include <stdio.h>
#include <stdlib.h>
#include <string.h>
#include <time.h>
#include "../../include/chowderbell.h"

enum { INPUTS = 64, TEXT = 8192, ROOM = 1 << 16 };
static const double ROUND = 2e6; /* nanoseconds */
static const int64_t NOW = 1745582210;
static const int32_t ZONE = 7200;

struct side {
    __typeof__(chowderbell_header) *header;
    __typeof__(chowderbell_header_marked) *header_marked;
    __typeof__(chowderbell_raw) *raw;
    __typeof__(chowderbell_raw_by) *raw_by;
    __typeof__(chowderbell_iso) *iso;
    __typeof__(chowderbell_relative) *relative;
    __typeof__(chowderbell_relative_turns) *turns;
    __typeof__(chowderbell_any) *any;
    __typeof__(chowderbell_size) *size;
    __typeof__(chowderbell_write_header) *write_header;
    __typeof__(chowderbell_write_iso) *write_iso;
    __typeof__(chowderbell_book_check) *check;
    __typeof__(chowderbell_book_list) *list;
    __typeof__(chowderbell_book_compact) *compact;
    __typeof__(chowderbell_book_salvage) *salvage;
    __typeof__(chowderbell_lists_merge) *merge;
    __typeof__(chowderbell_strip) *strip;
};

struct input {
    char text[TEXT];
    size_t length;
    int64_t seconds;
    int32_t offset;
};

/* What a call gave: all that it returns and stores, in one place to be compared. */
struct answer {
    uint64_t number;
    int64_t seconds;
    int64_t offset;
    uint64_t mark;
    size_t length;
};

static struct input inputs[INPUTS];
static uint8_t room[ROOM * 8], other[ROOM * 8];
static uint8_t book[ROOM], second[ROOM];
static size_t book_length, half_length, second_length;

typedef struct answer call(const struct side *, const struct input *);

#define TEXT_OF(x) (const uint8_t *)(x)->text, (x)->length

/* A reader: its call stores the seconds and the offset o, and the mark m if it gives one. */
#define READER(name, reads)                                                        \
    static struct answer name(const struct side *s, const struct input *x) {       \
        struct answer a = {0};                                                     \
        int32_t o = 0;                                                             \
        uint8_t m = 0;                                                             \
        a.number = reads;                                                          \
        a.offset = o;                                                              \
        a.mark = m;                                                                \
        return a;                                                                  \
    }

READER(header, s->header(TEXT_OF(x), &a.seconds, &o))
READER(header_marked, s->header_marked(TEXT_OF(x), &a.seconds, &o, &m))
READER(raw, s->raw(TEXT_OF(x), &a.seconds, &o))
READER(raw_2, s->raw_by(2, TEXT_OF(x), &a.seconds, &o))
READER(iso, s->iso(TEXT_OF(x), &a.seconds, &o))
READER(relative, s->relative(TEXT_OF(x), 1, NOW, ZONE, &a.seconds, &o))
READER(turns, s->turns(TEXT_OF(x), 1, NOW, ZONE, &a.seconds, &o))
READER(any, s->any(TEXT_OF(x), 1, NOW, ZONE, &a.seconds, &o))

static struct answer size(const struct side *s, const struct input *x) {
    struct answer a = {0};
    a.length = s->size(x->seconds, x->offset);
    return a;
}

static struct answer write_header(const struct side *s, const struct input *x) {
    struct answer a = {0};
    a.number = s->write_header(x->seconds, x->offset, room, ROOM, &a.length);
    return a;
}

static struct answer write_iso(const struct side *s, const struct input *x) {
    struct answer a = {0};
    a.number = s->write_iso(x->seconds, x->offset, room, ROOM, &a.length);
    return a;
}

static struct answer strip(const struct side *s, const struct input *x) {
    struct answer a = {0};
    a.number = s->strip(1900 + x->seconds % 300, 1 + x->seconds % 12, room, ROOM, &a.length);
    return a;
}

static struct answer check(const struct side *s, const struct input *x) {
    struct answer a = {0};
    (void)x;
    a.number = s->check(book, book_length, &a.length);
    return a;
}

static struct answer list(const struct side *s, const struct input *x) {
    struct answer a = {0};
    size_t line = 0;
    (void)x;
    a.number = s->list(book, book_length, room, ROOM, &a.length, &line);
    return a;
}

static struct answer compact(const struct side *s, const struct input *x) {
    struct answer a = {0};
    size_t line = 0;
    (void)x;
    a.number = s->compact(book, book_length, room, ROOM, &a.length, &line);
    return a;
}

static struct answer salvage(const struct side *s, const struct input *x) {
    struct answer a = {0};
    size_t told = 0, last = 0;
    (void)x;
    a.number = s->salvage(book, book_length, room, ROOM, other, sizeof other, &a.length, &told, &last);
    a.seconds = (int64_t)told;
    return a;
}

static struct answer merge(const struct side *s, const struct input *x) {
    struct answer a = {0};
    size_t told = 0, line = 0;
    uint8_t machine = 0;
    (void)x;
    a.number = s->merge(book, half_length, second, second_length, room, ROOM, other, sizeof other, &a.length, &told, &machine, &line);
    a.seconds = (int64_t)told;
    a.offset = machine;
    a.mark = line;
    return a;
}

static void *must(void *library, const char *name) {
    void *found = dlsym(library, name);
    if (!found) {
        fprintf(stderr, "no %s\n", name);
        exit(2);
    }
    return found;
}

static struct side open_side(const char *path) {
    void *l = dlopen(path, RTLD_NOW | RTLD_LOCAL);
    if (!l) {
        fprintf(stderr, "%s\n", dlerror());
        exit(2);
    }
    struct side s;
    s.header = must(l, "chowderbell_header");
    s.header_marked = must(l, "chowderbell_header_marked");
    s.raw = must(l, "chowderbell_raw");
    s.raw_by = must(l, "chowderbell_raw_by");
    s.iso = must(l, "chowderbell_iso");
    s.relative = must(l, "chowderbell_relative");
    s.turns = must(l, "chowderbell_relative_turns");
    s.any = must(l, "chowderbell_any");
    s.size = must(l, "chowderbell_size");
    s.write_header = must(l, "chowderbell_write_header");
    s.write_iso = must(l, "chowderbell_write_iso");
    s.check = must(l, "chowderbell_book_check");
    s.list = must(l, "chowderbell_book_list");
    s.compact = must(l, "chowderbell_book_compact");
    s.salvage = must(l, "chowderbell_book_salvage");
    s.merge = must(l, "chowderbell_lists_merge");
    s.strip = must(l, "chowderbell_strip");
    return s;
}

static double now(void) {
    struct timespec t;
    clock_gettime(CLOCK_MONOTONIC, &t);
    return t.tv_sec * 1e9 + t.tv_nsec;
}

static volatile uint64_t sink;

static double pass(const struct side *s, call *f, int n, long count) {
    double start = now();
    for (long i = 0; i < count; i++)
        for (int k = 0; k < n; k++)
            sink += f(s, &inputs[k]).number;
    return (now() - start) / count;
}

static void row(const char *name, const struct side *sides, call *f, int n, int rounds) {
    static uint8_t kept[ROOM * 8];
    for (int k = 0; k < n; k++) {
        memset(room, 7, sizeof room);
        struct answer a = f(&sides[0], &inputs[k]);
        memcpy(kept, room, sizeof room);
        memset(room, 7, sizeof room);
        struct answer b = f(&sides[1], &inputs[k]);
        if (memcmp(&a, &b, sizeof a) || memcmp(kept, room, sizeof room)) {
            printf("%s: the answers differ at input %d: %.*s\n", name, k, (int)inputs[k].length, inputs[k].text);
            exit(1);
        }
    }
    double least[2] = {1e300, 1e300};
    long count[2];
    for (int i = 0; i < 2; i++) {
        double once = pass(&sides[i], f, n, 3);
        count[i] = once < ROUND ? (long)(ROUND / once) : 1;
    }
    for (int r = 0; r < rounds; r++)
        for (int i = 0; i < 2; i++) {
            double t = pass(&sides[i], f, n, count[i]);
            if (t < least[i]) least[i] = t;
        }
    printf("| %s | %.1f | %.1f | %.2f |\n", name, least[0] / n, least[1] / n, least[0] / least[1]);
    fflush(stdout);
}

static void texts(const char *form, int kind) {
    for (int k = 0; k < INPUTS; k++) {
        struct input *x = &inputs[k];
        long s = 1745582210L - 86413L * k, h = k % 24, m = k % 60;
        long year = 1970 + k, month = 1 + k % 12, day = 1 + k % 28;
        switch (kind) {
        case 0: sprintf(x->text, form, s, k % 2 ? '+' : '-', h, (k * 7) % 60); break;
        case 1: sprintf(x->text, form, year, month, day, h, m, (k * 7) % 60, k % 2 ? '+' : '-', k % 12, 30); break;
        case 2: sprintf(x->text, form, 1 + k % 30, 1 + k % 12); break;
        case 3: x->text[0] = 0; for (int i = 0; i < 32; i++) sprintf(x->text + strlen(x->text), form, 1 + (k + i) % 9); break;
        case 4: memset(x->text, '0', 1000); sprintf(x->text + 1000, form, s, '+', h, 0L); break;
        case 5: strcpy(x->text, "1 day "); for (int i = 0; i < 1000; i++) strcat(x->text, form); strcat(x->text, " ago"); break;
        default: strcpy(x->text, form);
        }
        x->length = strlen(x->text);
        x->seconds = s;
        x->offset = (int32_t)((k % 2 ? 1 : -1) * (h * 3600 + 1800));
    }
}

static void books(void) {
    book_length = second_length = 0;
    for (int k = 0; k < 700; k++) {
        char line[200];
        int n = sprintf(line, "hull\tlevels/area_%03d/rooms/hull_%06d.cooked\t%016x\t%ld +0000\n", k % 40, (k * 37) % 400, k * 2654435u, 1700000000L + k);
        memcpy(book + book_length, line, n);
        book_length += n;
        if (k < 350) {
            half_length = book_length;
            n = sprintf(line, "hull\tlevels/area_%03d/rooms/hull_%06d.cooked\t%016x\t%ld +0000\n", k % 40, (k * 31) % 400, k * 2654431u, 1700000000L + k);
            memcpy(second + second_length, line, n);
            second_length += n;
        }
    }
}

int main(int argc, char **argv) {
    if (argc < 3) {
        fprintf(stderr, "usage: bench FIRST.so SECOND.so [ROUNDS]\n");
        return 2;
    }
    struct side sides[2] = {open_side(argv[1]), open_side(argv[2])};
    int rounds = argc > 3 ? atoi(argv[3]) : 60;
    printf("| what | first, ns | second, ns | times as fast |\n|---|---:|---:|---:|\n");
    texts("%ld %c%02ld%02ld", 0);
    row("header", sides, header, INPUTS, rounds);
    row("header with mark", sides, header_marked, INPUTS, rounds);
    row("raw", sides, raw, INPUTS, rounds);
    row("raw by rule 2", sides, raw_2, INPUTS, rounds);
    row("any, raw", sides, any, INPUTS, rounds);
    row("`size`", sides, size, INPUTS, rounds);
    row("header writer", sides, write_header, INPUTS, rounds);
    row("ISO writer", sides, write_iso, INPUTS, rounds);
    row("strip", sides, strip, INPUTS, rounds);
    texts("%ld", 0);
    row("header, no offset", sides, header, INPUTS, rounds);
    row("any, seconds", sides, any, INPUTS, rounds);
    texts("%ld  %c%02ld%02ld x", 0);
    row("header, further words", sides, header, INPUTS, rounds);
    row("raw, refused", sides, raw, INPUTS, rounds);
    texts("%ld %c%02ld%02ld", 4);
    row("header, 1,000 zeros in front", sides, header, INPUTS, rounds);
    texts("%04ld-%02ld-%02ld %02ld:%02ld:%02ld %c%02d%02d", 1);
    row("ISO flexible", sides, iso, INPUTS, rounds);
    row("any, ISO", sides, any, INPUTS, rounds);
    texts("%04ld-%02ld-%02ldT%02ld:%02ld:%02ldZ", 1);
    row("ISO flexible, `T` and `Z`", sides, iso, INPUTS, rounds);
    texts("%04ld.%02ld.%02ld %02ld:%02ld:%02ld %c%02d%02d", 1);
    row("ISO dotted", sides, iso, INPUTS, rounds);
    texts("%04ld%02ld%02ldT%02ld%02ld%02ld%c%02d%02d", 1);
    row("ISO compact", sides, iso, INPUTS, rounds);
    texts("%04ld-%02ld-%02ld %02ld:%02ld:%02ld x", 1);
    row("ISO, refused", sides, iso, INPUTS, rounds);
    texts("yesterday", 9);
    row("relative, `yesterday`", sides, relative, INPUTS, rounds);
    texts("%d days ago", 2);
    row("relative, seconds only", sides, relative, INPUTS, rounds);
    row("turns, seconds only", sides, turns, INPUTS, rounds);
    texts("%d months ago", 2);
    row("relative, one month", sides, relative, INPUTS, rounds);
    texts("%d years %d days ago", 2);
    row("relative, year and days", sides, relative, INPUTS, rounds);
    row("any, relative", sides, any, INPUTS, rounds);
    texts("%d hours ", 3);
    row("relative, 32 pairs of seconds", sides, relative, INPUTS, rounds);
    texts("%d months ", 3);
    row("relative, 32 pairs with months", sides, relative, INPUTS, rounds);
    texts(" and", 5);
    row("relative, 1,000 words passed over", sides, relative, INPUTS, rounds);
    texts("no date at all", 9);
    row("any, refused", sides, any, INPUTS, rounds);
    books();
    row("book of 700 lines, checked", sides, check, 1, rounds);
    row("book of 700 lines, listed", sides, list, 1, rounds);
    row("book of 700 lines, compacted", sides, compact, 1, rounds);
    row("book of 700 lines, salvaged", sides, salvage, 1, rounds);
    row("two lists of 350 lines, merged", sides, merge, 1, rounds);
    return 0;
}
