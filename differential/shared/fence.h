/* For a compare.c: memory between pages that cannot be touched, and the batches of records that it is asked about.
 *
 * asking.py sends a batch to standard input; how its records are laid out is up to each compare.c. The answer to a batch, on
 * standard output, is a 32-bit number, how many of its records differ, and for each of them, at most MOST_KEPT, its place in the
 * batch and a text with its length. All numbers are as the machine stores them.
 *
 * For each batch, a program calls begin_batch, then `differ` at most once for each record and place_of_difference if it did, then
 * answer_batch. Include this file first: it asks the system's headers for mmap with MAP_ANONYMOUS.
 */
#ifndef FENCE_H
#define FENCE_H

#define _DEFAULT_SOURCE
#include <stdarg.h>
#include <stdint.h>
#include <stdio.h>
#include <stdlib.h>
#include <string.h>
#include <sys/mman.h>
#include <unistd.h>

/* FRONT is how many bytes beside a room must not change. asking.py has MOST_KEPT too. */
enum { PAGE = 4096, FRONT = 64, MOST_KEPT = 64, TEXT = 480, SECONDS_FOR_A_BATCH = 120 };

/* What the variables for a length or a line hold before a call. */
static const size_t LEFT_OVER = (size_t)0x5aa55aa55aa55aa5u;

typedef struct {
    uint32_t place, length;
    char text[TEXT];
} difference;

static difference differences[MOST_KEPT];
static uint32_t differing;

static void give_up(const char *why)
{
    fprintf(stderr, "compare: %s\n", why);
    exit(2);
}

/* `len` bytes, a multiple of PAGE, between two pages that cannot be touched. */
static uint8_t *fenced(size_t len)
{
    uint8_t *pages = mmap(NULL, len + 2 * PAGE, PROT_NONE, MAP_PRIVATE | MAP_ANONYMOUS, -1, 0);
    if (pages == MAP_FAILED || mprotect(pages + PAGE, len, PROT_READ | PROT_WRITE) != 0)
        give_up("no memory");
    return pages + PAGE;
}

/* The bytes that a room and its neighbours hold before a call. */
static void fill(uint8_t *pattern, size_t len)
{
    for (size_t i = 0; i < len; i++)
        pattern[i] = (uint8_t)(i * 167 + (i >> 8) + 128);
}

/* Reads `len` bytes. Answers 0 at the end of the input. */
static int take(void *to, size_t len)
{
    size_t got = fread(to, 1, len, stdin);
    if (got != 0 && got != len)
        give_up("the input ends inside a batch");
    return got == len;
}

static void give(const void *from, size_t len)
{
    if (fwrite(from, 1, len, stdout) != len)
        give_up("cannot write");
}

/* From here on a call that does not return ends the program after SECONDS_FOR_A_BATCH. */
static void begin_batch(void)
{
    alarm(SECONDS_FOR_A_BATCH);
    differing = 0;
}

/* Keeps the first difference of a record as a text. Always answers 1. */
static int differ(const char *format, ...)
{
    if (differing < MOST_KEPT) {
        va_list values;
        va_start(values, format);
        vsnprintf(differences[differing].text, TEXT, format, values);
        va_end(values);
    }
    differing++;
    return 1;
}

/* Says which record of the batch the last difference belongs to. */
static void place_of_difference(uint32_t place)
{
    if (differing <= MOST_KEPT)
        differences[differing - 1].place = place;
}

static void answer_batch(void)
{
    alarm(0);
    give(&differing, sizeof differing);
    for (uint32_t i = 0; i < differing && i < MOST_KEPT; i++) {
        differences[i].length = (uint32_t)strlen(differences[i].text);
        give(&differences[i], 2 * sizeof(uint32_t) + differences[i].length);
    }
    if (fflush(stdout) != 0)
        give_up("cannot write");
}

#endif
