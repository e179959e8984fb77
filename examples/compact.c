/* The compacted book of stamps: of each hull its last line, and every cut-off.
 *
 *   compact < BOOK
 *
 * prints the compacted book; for a book that is not good, its first bad line, or that it is too long. Do not send the output to the
 * file that is read: the shell empties it first.
 */
#include "chowderbell.h"

#include <stdio.h>

/* One byte more than a book has, so that a longer one is seen to be too long. */
static uint8_t book[CHOWDERBELL_BOOK_MAX + 1];
/* The compacted book has no more bytes than the book, so this is always enough. It must not be the book itself. */
static uint8_t room[CHOWDERBELL_BOOK_MAX];

int main(void)
{
    size_t len = fread(book, 1, sizeof book, stdin), length, line;
    if (ferror(stdin)) {
        perror("compact");
        return 2;
    }
    uint8_t number = chowderbell_book_compact(book, len, room, sizeof room, &length, &line);
    if (number == CHOWDERBELL_BOOK && line == 0) {
        fprintf(stderr, "compact: the book has more than %d bytes\n", CHOWDERBELL_BOOK_MAX);
        return 1;
    }
    if (number == CHOWDERBELL_BOOK) {
        fprintf(stderr, "compact: line %zu is bad\n", line);
        return 1;
    }
    if (number != CHOWDERBELL_OK) {
        fprintf(stderr, "compact: refused by %d\n", number);
        return 1;
    }
    if (fwrite(room, 1, length, stdout) != length || fflush(stdout) != 0) {
        perror("compact");
        return 2;
    }
    return 0;
}
