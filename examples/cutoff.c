/* Whether a hull is fresh: its last commit's date against the cut-off that an artist types.
 *
 *   cutoff HEADER TEXT NOW
 *
 * prints the commit's time, the cut-off as an ISO line, and `keep` or `skip`; for a date that cannot be read, its refusal.
 */
#include "chowderbell.h"

#include <inttypes.h>
#include <stdio.h>
#include <stdlib.h>
#include <string.h>

static int refused(const char *what, const char *text, uint8_t number)
{
    fprintf(stderr, "cutoff: %s '%s' is refused by %d\n", what, text, number);
    return 1;
}

int main(int argc, char **argv)
{
    if (argc != 4) {
        fprintf(stderr, "Usage: cutoff HEADER TEXT NOW\n");
        return 2;
    }
    const char *header = argv[1], *text = argv[2];
    int64_t now = strtoll(argv[3], NULL, 10), commit, cutoff;
    int32_t commit_offset, cutoff_offset;

    uint8_t number = chowderbell_header((const uint8_t *)header, strlen(header), &commit, &commit_offset);
    if (number != CHOWDERBELL_OK)
        return refused("commit", header, number);
    number = chowderbell_relative((const uint8_t *)text, strlen(text), 1, now, 0, &cutoff, &cutoff_offset);
    if (number != CHOWDERBELL_OK)
        return refused("cut-off", text, number);

    uint8_t line[CHOWDERBELL_ISO_LENGTH];
    size_t length;
    number = chowderbell_write_iso(cutoff, cutoff_offset, line, sizeof line, &length);
    if (number != CHOWDERBELL_OK)
        return refused("line of", text, number);
    printf("commit %" PRId64 " cut-off %.*s %s\n", commit, (int)length, (const char *)line, commit < cutoff ? "skip" : "keep");
    return 0;
}
