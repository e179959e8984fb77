/* One book from the lists of two build machines.
 *
 *   merge FIRST SECOND
 *
 * prints the merged book; and to standard error, for each path in both lists whose last keys differ, the path and both keys. For
 * lists that are not good it prints which of the two files is at fault, and at which line.
 */
#include "chowderbell.h"

#include <stdio.h>
#include <string.h>

/* One byte more than a list has, so that a longer one is seen to be too long. */
static uint8_t lists[2][CHOWDERBELL_LIST_MAX + 1];
/* Always enough, since the merged book has as many bytes as both lists. */
static uint8_t book[2 * CHOWDERBELL_LIST_MAX];
static uint8_t report[CHOWDERBELL_REPORT_MAX];

/* Reads a file, or as much of it as there is room for. Returns 0 if that fails. */
static int read_list(const char *name, uint8_t *list, size_t room, size_t *length)
{
    FILE *file = fopen(name, "rb");
    if (file == NULL) {
        perror(name);
        return 0;
    }
    *length = fread(list, 1, room, file);
    int failed = ferror(file);
    if (failed)
        perror(name);
    fclose(file);
    return !failed;
}

int main(int argc, char **argv)
{
    if (argc != 3) {
        fprintf(stderr, "Usage: merge FIRST SECOND\n");
        return 2;
    }
    size_t lengths[2], book_length, report_length, line;
    uint8_t machine;
    for (int i = 0; i < 2; i++)
        if (!read_list(argv[i + 1], lists[i], sizeof lists[i], &lengths[i]))
            return 2;

    uint8_t number = chowderbell_lists_merge(lists[0], lengths[0], lists[1], lengths[1], book, sizeof book, report, sizeof report,
                                             &book_length, &report_length, &machine, &line);
    if (number == CHOWDERBELL_LISTS && line == 0) {
        fprintf(stderr, "merge: %s: more than %d bytes\n", argv[machine], CHOWDERBELL_LIST_MAX);
        return 1;
    }
    if (number == CHOWDERBELL_LISTS) {
        fprintf(stderr, "merge: %s: line %zu is bad, or earlier than the line above it\n", argv[machine], line);
        return 1;
    }
    if (number != CHOWDERBELL_OK) {
        fprintf(stderr, "merge: refused by %d\n", number);
        return 1;
    }

    if (fwrite(book, 1, book_length, stdout) != book_length || fflush(stdout) != 0) {
        perror("merge");
        return 2;
    }
    /* A row is a path and two keys, with tabs between and a newline after. */
    for (size_t at = 0; at < report_length;) {
        const uint8_t *row = report + at, *end = memchr(row, '\n', report_length - at);
        int path = (int)(end - row) - 2 * (CHOWDERBELL_KEY_LENGTH + 1);
        fprintf(stderr, "%.*s: keys differ: %.*s, %.*s\n", path, (const char *)row, CHOWDERBELL_KEY_LENGTH,
                (const char *)row + path + 1, CHOWDERBELL_KEY_LENGTH, (const char *)row + path + CHOWDERBELL_KEY_LENGTH + 2);
        at += (size_t)(end - row) + 1;
    }
    return 0;
}
