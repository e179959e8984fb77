/* By which rule a raw date is read. A partner's dates at offsets like +0520 need rule 2.
 *
 *   rules TEXT
 *
 * prints a line for each rule: seconds and offset, or the number of the refusal. `rules '1745582210 +0520'` prints
 *
 *   rule 1: refused by 2
 *   rule 2: 1745582210 19200
 */
#include "chowderbell.h"

#include <inttypes.h>
#include <stdio.h>
#include <string.h>

int main(int argc, char **argv)
{
    if (argc != 2) {
        fprintf(stderr, "Usage: rules TEXT\n");
        return 2;
    }
    const uint8_t *text = (const uint8_t *)argv[1];
    size_t len = strlen(argv[1]);
    for (uint32_t rule = CHOWDERBELL_RULE_1; rule <= CHOWDERBELL_RULE_2; rule++) {
        int64_t seconds;
        int32_t offset;
        uint8_t number = chowderbell_raw_by(rule, text, len, &seconds, &offset);
        if (number == CHOWDERBELL_OK)
            printf("rule %" PRIu32 ": %" PRId64 " %" PRId32 "\n", rule, seconds, offset);
        else
            printf("rule %" PRIu32 ": refused by %d\n", rule, number);
    }
    return 0;
}
