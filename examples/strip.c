/* A month as a calendar shows it, with the numbers of its ISO weeks.
 *
 *   strip YEAR MONTH
 *
 * prints the month's length, the weekday of its first day and its rows; for a month that has no strip, its refusal.
 * `strip 2021 1` prints
 *
 *   31 days from Friday
 *   week  Mo Tu We Th Fr Sa Su
 *     53               1  2  3
 *      1   4  5  6  7  8  9 10
 *      2  11 12 13 14 15 16 17
 *      3  18 19 20 21 22 23 24
 *      4  25 26 27 28 29 30 31
 */
#include "chowderbell.h"

#include <errno.h>
#include <stdio.h>
#include <stdlib.h>

enum { WEEKDAY = 1, WEEKS = 2, DAYS = 8, ROWS = 6, DAYS_PER_WEEK = 7 };

static const char *const WEEKDAYS[] = {"Monday", "Tuesday", "Wednesday", "Thursday", "Friday", "Saturday", "Sunday"};

/* Reads all of a word as a number, or ends the program. */
static int64_t number_of(const char *what, const char *word)
{
    char *end;
    errno = 0;
    long long number = strtoll(word, &end, 10);
    if (end == word || *end != '\0' || errno == ERANGE) {
        fprintf(stderr, "strip: the %s '%s' is not a number of 64 bits\n", what, word);
        exit(2);
    }
    return number;
}

int main(int argc, char **argv)
{
    if (argc != 3) {
        fprintf(stderr, "Usage: strip YEAR MONTH\n");
        return 2;
    }
    int64_t year = number_of("year", argv[1]), month = number_of("month", argv[2]);
    uint8_t strip[CHOWDERBELL_STRIP_LENGTH];
    size_t length;
    uint8_t number = chowderbell_strip(year, month, strip, sizeof strip, &length);
    if (number == CHOWDERBELL_RANGE) {
        fprintf(stderr, "strip: the year is not -9999 to 9999, or the month is not 1 to 12\n");
        return 1;
    }
    if (number != CHOWDERBELL_OK) {
        fprintf(stderr, "strip: refused by %d\n", number);
        return 1;
    }

    printf("%d days from %s\nweek  Mo Tu We Th Fr Sa Su\n", strip[0], WEEKDAYS[strip[WEEKDAY] - 1]);
    /* A row that is not used has week 0. */
    for (int row = 0; row < ROWS && strip[WEEKS + row] != 0; row++) {
        printf("%4d ", strip[WEEKS + row]);
        for (int column = 0; column < DAYS_PER_WEEK; column++) {
            int day = strip[DAYS + DAYS_PER_WEEK * row + column];
            if (day != 0)
                printf(" %2d", day);
            else if (row == 0)
                printf("   "); /* behind the last day nothing is left to fill */
        }
        printf("\n");
    }
    return 0;
}
