/* Which hulls a book of stamps keeps.
 *
 *   stamps < BOOK
 *
 * prints the listing; for a book that is not good, its first bad line, or that it is too long.
 */
#include "chowderbell.h"

#include <stdio.h>

/* One byte more than a book has, so that a longer one is seen to be too long. */
static uint8_t book[CHOWDERBELL_BOOK_MAX + 1];
/* A listing has no more bytes than its book, so this is always enough. */
static uint8_t room[CHOWDERBELL_BOOK_MAX];

int main(void)
{
    size_t len = fread(book, 1, sizeof book, stdin), length, line;
    if (ferror(stdin)) {
        perror("stamps");
        return 2;
    }
    uint8_t number = chowderbell_book_list(book, len, room, sizeof room, &length, &line);
    if (number == CHOWDERBELL_BOOK && line == 0) {
        fprintf(stderr, "stamps: the book has more than %d bytes\n", CHOWDERBELL_BOOK_MAX);
        return 1;
    }
    if (number == CHOWDERBELL_BOOK) {
        fprintf(stderr, "stamps: line %zu is bad\n", line);
        return 1;
    }
    if (number != CHOWDERBELL_OK) {
        fprintf(stderr, "stamps: refused by %d\n", number);
        return 1;
    }
    if (fwrite(room, 1, length, stdout) != length || fflush(stdout) != 0) {
        perror("stamps");
        return 2;
    }
    return 0;
}
