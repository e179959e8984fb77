/* Asks the library about the lines on standard input, each a rule, a tab and a raw date.
 *
 * For each line it writes three answers, with tabs between: of "raw", of "any", and of "any" with `@` in front of the date. An
 * answer is number, seconds and offset, with spaces between. compare.py starts it and knows what is wanted.
 */
#include <stdint.h>
#include <stdio.h>
#include <stdlib.h>
#include <string.h>

#include "chowderbell.h"

/* The declarations that callers are written against; the compiler refuses a header that declares them otherwise. */
uint8_t chowderbell_raw_by(uint32_t rule, const uint8_t *text, size_t len, int64_t *seconds, int32_t *offset);
uint8_t chowderbell_any_by(uint32_t rule, const uint8_t *text, size_t len, uint8_t has_now, int64_t now_seconds,
                           int32_t now_offset, int64_t *seconds, int32_t *offset);

enum { LONGEST = 100 };

typedef struct {
    int64_t seconds;
    int32_t offset;
} stamp;

/* What a time holds before a call, which must set it. */
static const stamp LEFT_OVER = { -7, -7 };

static void print(unsigned number, const stamp *time, char end)
{
    printf("%u %lld %ld%c", number, (long long)time->seconds, (long)time->offset, end);
}

/* `marked` is the text with `@` in front. */
static void ask(uint32_t rule, const uint8_t *marked, size_t len)
{
    stamp time = LEFT_OVER;
    unsigned number = chowderbell_raw_by(rule, marked + 1, len - 1, &time.seconds, &time.offset);
    print(number, &time, '\t');
    time = LEFT_OVER;
    number = chowderbell_any_by(rule, marked + 1, len - 1, 0, 0, 0, &time.seconds, &time.offset);
    print(number, &time, '\t');
    time = LEFT_OVER;
    number = chowderbell_any_by(rule, marked, len, 0, 0, 0, &time.seconds, &time.offset);
    print(number, &time, '\n');
}

int main(void)
{
    char line[LONGEST];
    while (fgets(line, sizeof line, stdin) != NULL) {
        char *tab = strchr(line, '\t');
        if (tab == NULL || strchr(tab, '\n') == NULL) {
            fputs("compare: a line without a tab, or too long\n", stderr);
            return 2;
        }
        *tab = '@';
        ask((uint32_t)strtoul(line, NULL, 10), (const uint8_t *)tab, strcspn(tab, "\n"));
    }
    return ferror(stdin) || fflush(stdout) != 0 ? 2 : 0;
}
