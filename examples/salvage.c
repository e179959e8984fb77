/* The good lines of a damaged book, and what is wrong with the others.
 *
 *   cc -O2 -Iinclude examples/salvage.c target/staticlib/libchowderbell.a -o target/salvage
 *   target/salvage
 *
 * salvages a small book with half a line in the middle, as a full disk leaves it: the line of the whaler ends after its path, and the
 * next line was appended to it. It prints the lines that are kept:
 *
 *   hull    ships/cog   00112233445566ff    1745570000 +0200
 *   since   1 hour ago  1745582210  7200
 *   hull    canoe   c0ffee0000000001    1745582211 +0200
 *
 * with tabs between their fields, and to standard error, for each line that is dropped, its number and its length:
 *
 *   line 2 dropped, of 60 bytes
 *   line 5 dropped, of 15 bytes
 *   the last bad line is line 5
 */
#include "chowderbell.h"

#include <stdio.h>
#include <string.h>

static const char BOOK[] = "hull\tships/cog\t00112233445566ff\t1745570000 +0200\n"
                           "hull\tships/whaler" /* here the disk was full */
                           "hull\traft\t8899aabbccddeeff\t1745578610 +0200\n"
                           "since\t1 hour ago\t1745582210\t7200\n"
                           "hull\tcanoe\tc0ffee0000000001\t1745582211 +0200\n"
                           "hull\tships/cog\t"; /* and here again */

/* A room as long as the book always holds the lines that are kept. Eight times as much always holds the report. */
static uint8_t room[sizeof BOOK];
static uint8_t report[8 * sizeof BOOK];

int main(void)
{
    size_t length, report_length, last_bad;
    uint8_t number = chowderbell_book_salvage((const uint8_t *)BOOK, strlen(BOOK), room, sizeof room, report, sizeof report, &length,
                                              &report_length, &last_bad);
    if (number == CHOWDERBELL_BOOK) {
        fprintf(stderr, "salvage: the book has more than %d bytes\n", CHOWDERBELL_BOOK_MAX);
        return 1;
    }
    if (number != CHOWDERBELL_OK) {
        fprintf(stderr, "salvage: refused by %d\n", number);
        return 1;
    }

    if (fwrite(room, 1, length, stdout) != length || fflush(stdout) != 0) {
        perror("salvage");
        return 2;
    }
    /* A row is the number of a line and its length, with a tab between and a newline after. */
    for (size_t at = 0; at < report_length;) {
        const uint8_t *row = report + at, *tab = memchr(row, '\t', report_length - at), *end = memchr(row, '\n', report_length - at);
        fprintf(stderr, "line %.*s dropped, of %.*s bytes\n", (int)(tab - row), (const char *)row, (int)(end - tab - 1),
                (const char *)tab + 1);
        at += (size_t)(end - row) + 1;
    }
    if (last_bad != 0)
        fprintf(stderr, "the last bad line is line %zu\n", last_bad);
    return 0;
}
