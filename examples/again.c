/* A commit header's date, read and written again with the minus of -0000 kept.
 *
 *   again HEADER
 *
 * prints the bytes written, and `same` or `differs`; for a date that cannot be read or written, its refusal.
 * `again '1745582210 -0000'` and `again '1745582210 -000000'` print
 *
 *   1745582210 -0000 same
 *   1745582210 -0000 differs
 */
#include "chowderbell.h"

#include <stdio.h>
#include <string.h>

static int refused(const char *what, const char *text, uint8_t number)
{
    fprintf(stderr, "again: %s '%s' is refused by %d\n", what, text, number);
    return 1;
}

int main(int argc, char **argv)
{
    if (argc != 2) {
        fprintf(stderr, "Usage: again HEADER\n");
        return 2;
    }
    const char *header = argv[1];
    size_t len = strlen(header);
    int64_t seconds;
    int32_t offset;
    uint8_t mark;
    uint8_t number = chowderbell_header_marked((const uint8_t *)header, len, &seconds, &offset, &mark);
    if (number != CHOWDERBELL_OK)
        return refused("reading", header, number);

    /* By chowderbell_write_header, which takes no mark, -0000 would come back as +0000. */
    uint8_t room[CHOWDERBELL_HEADER_MAX];
    size_t length;
    number = chowderbell_write_header_marked(seconds, offset, mark, room, sizeof room, &length);
    if (number != CHOWDERBELL_OK)
        return refused("writing", header, number);
    int same = length == len && memcmp(room, header, len) == 0;
    printf("%.*s %s\n", (int)length, (const char *)room, same ? "same" : "differs");
    return 0;
}
