/* Asks the library for the strips of months from standard input and says which answers differ from those wanted.
 *
 * compare.py starts it, knows what is wanted and reads what differs. Input is a sequence of batches: a 32-bit number, how many
 * records follow, and then the records, as the struct below. All numbers are as the machine stores them. fence.h says how a batch
 * is answered.
 *
 * A record may hold a planted answer. Then the library is not asked: the answer is the planted one, as an entry would give it that
 * is right in all else. With an argument, the number of a mistake below, every answer of the library has that mistake. In both
 * cases differences must be found.
 *
 * The room and the variable for the length lie against pages that cannot be touched, in turn in front and behind: a call that goes
 * beyond ends the program, and compare.py sees that it did.
 */
#include "../shared/fence.h"

#include "chowderbell.h"

/* The declaration that callers are written against; the compiler refuses a header that declares it otherwise. */
uint8_t chowderbell_strip(int64_t year, int64_t month, uint8_t *room, size_t len, size_t *length);
#if CHOWDERBELL_STRIP_LENGTH != 50
#error "a strip has 50 bytes"
#endif

enum { LENGTH = 50, LARGEST = 2 * PAGE };
enum { SOME_ROOMS, ALL_ROOMS, LONGEST_OF_ALL = 130, LONG_ROOM = 5000 };

/* Mistakes that the library might make with memory, numbers or the order of its tests. mistakes.py has their names, in this
   order. */
enum { NONE, CHANGES_BEHIND, CLEARS_BEHIND, CHANGES_ON_RANGE, CHANGES_ON_ROOM, WRITES_PART, CHANGES_IN_FRONT, WRITES_BEHIND,
       WRITES_NULL, LEAVES_LENGTH, STORES_NEED, STORES_NO_LENGTH, STORES_ROOM, STORES_WIDE, STORES_IN_FRONT, ROOM_FIRST, ROOM_OF_49,
       ROOM_OF_51, YEAR_OF_32_BITS, YEAR_OF_16_BITS, MONTH_OF_32_BITS, MONTH_OF_8_BITS, MISTAKES };
static int mistake = NONE;

/* A month and the answer wanted: its number, 0 or 6, and its strip. A room that is too short is 8 in the place of 0. */
typedef struct {
    int64_t year, month;
    uint32_t number;
    uint32_t rooms;   /* SOME_ROOMS: three, which differ from record to record. ALL_ROOMS: every length up to LONGEST_OF_ALL */
    uint32_t planted; /* the number of the planted answer, or NOT_PLANTED */
    uint8_t strip[LENGTH], planted_strip[LENGTH];
} record;
enum { NOT_PLANTED = 255, RECORD = 128 };

static uint8_t *room_pages, *length_pages;
static uint8_t pattern[LARGEST], wanted_room[LARGEST];

/* A strip as compare.py shows it too: length and weekday, the weeks, the rows of days. */
static const char *shown(const uint8_t *strip)
{
    static char text[5 * LENGTH];
    size_t at = 0;
    for (int i = 0; i < LENGTH; i++) {
        const char *before = i == 0 ? "" : i == 2 || (i >= 8 && (i - 8) % 7 == 0) ? " | " : " ";
        at += (size_t)snprintf(text + at, sizeof text - at, "%s%u", before, strip[i]);
    }
    return text;
}

/* The planted answer, by an entry that is right in all else. */
static uint8_t planted_call(const record *want, uint8_t *room, size_t len, size_t *length)
{
    *length = 0;
    if (want->planted != 0)
        return (uint8_t)want->planted;
    if (len < LENGTH)
        return CHOWDERBELL_ROOM;
    memcpy(room, want->planted_strip, LENGTH);
    *length = LENGTH;
    return 0;
}

static uint8_t call(const record *want, uint8_t *room, size_t len, size_t *length)
{
    int64_t year = want->year, month = want->month;
    uint8_t whole[LENGTH], number;
    size_t whole_length;

    if (want->planted != NOT_PLANTED)
        return planted_call(want, room, len, length);
    if (mistake == YEAR_OF_32_BITS)
        year = (int32_t)(uint32_t)(uint64_t)year;
    if (mistake == YEAR_OF_16_BITS)
        year = (int16_t)(uint16_t)(uint64_t)year;
    if (mistake == MONTH_OF_32_BITS)
        month = (int32_t)(uint32_t)(uint64_t)month;
    if (mistake == MONTH_OF_8_BITS)
        month = (uint8_t)(uint64_t)month;
    number = chowderbell_strip(year, month, room, len, length);

    switch (mistake) {
    case CHANGES_BEHIND:
        if (number == 0 && len > LENGTH)
            room[LENGTH] ^= 1;
        break;
    case CLEARS_BEHIND:
        if (number == 0)
            memset(room + LENGTH, 0, len - LENGTH);
        break;
    case CHANGES_ON_RANGE:
        if (number == CHOWDERBELL_RANGE && len > 0)
            room[0] ^= 1;
        break;
    case CHANGES_ON_ROOM:
        if (number == CHOWDERBELL_ROOM && len > 0)
            room[len - 1] ^= 1;
        break;
    case WRITES_PART:
        if (number == CHOWDERBELL_ROOM && len > 0 && chowderbell_strip(year, month, whole, LENGTH, &whole_length) == 0)
            memcpy(room, whole, len);
        break;
    case CHANGES_IN_FRONT:
        if (number == 0)
            room[-1] ^= 1;
        break;
    case WRITES_BEHIND:
        if (number == 0)
            room[len] = 0;
        break;
    case WRITES_NULL:
        if (len == 0 && room == NULL)
            *(volatile uint8_t *)room = 0;
        break;
    case LEAVES_LENGTH:
        if (number != 0)
            *length = LEFT_OVER;
        break;
    case STORES_NEED:
        if (number == CHOWDERBELL_ROOM)
            *length = LENGTH;
        break;
    case STORES_NO_LENGTH:
        if (number == 0)
            *length = LEFT_OVER;
        break;
    case STORES_ROOM:
        if (number == 0)
            *length = len;
        break;
    case STORES_WIDE:
        length[1] = 0;
        break;
    case STORES_IN_FRONT:
        length[-1] = 0;
        break;
    case ROOM_FIRST:
        if (len < LENGTH)
            number = CHOWDERBELL_ROOM;
        break;
    case ROOM_OF_49:
        if (number == CHOWDERBELL_ROOM && len == LENGTH - 1 && chowderbell_strip(year, month, whole, LENGTH, &whole_length) == 0) {
            memcpy(room, whole, len);
            *length = len;
            number = 0;
        }
        break;
    case ROOM_OF_51:
        if (number == 0 && len == LENGTH) {
            *length = 0;
            number = CHOWDERBELL_ROOM;
        }
        break;
    }
    return number;
}

/* One call with a room of `len` bytes, behind which or in front of which the fence is. The variable for the length has its fence on
   the same side, and a neighbour on the other. */
static int call_differs(const record *want, size_t len, int at_end, int null)
{
    const char *side = null ? "NULL" : at_end ? "at the end" : "at the start";
    const size_t front = at_end ? FRONT : 0, behind = at_end ? 0 : FRONT, all = front + len + behind;
    uint8_t *front_of_room = at_end ? room_pages + LARGEST - all : room_pages;
    uint8_t *room = front_of_room + front;
    size_t *lengths = (size_t *)(void *)(at_end ? length_pages + LARGEST - 2 * sizeof(size_t) : length_pages);
    size_t *length = at_end ? lengths + 1 : lengths, *neighbour = at_end ? lengths : lengths + 1;
    size_t wanted_length = 0, i;
    unsigned wanted = want->number;

    memcpy(front_of_room, pattern, all);
    memcpy(wanted_room, pattern, all);
    *length = *neighbour = LEFT_OVER;
    if (wanted == 0 && len < LENGTH)
        wanted = CHOWDERBELL_ROOM;
    if (wanted == 0) {
        wanted_length = LENGTH;
        memcpy(wanted_room + front, want->strip, LENGTH);
    }

    unsigned number = call(want, null ? NULL : room, len, length);
    if (number != wanted || *length != wanted_length)
        return differ("room of %zu %s: got number %u, length %zu; wanted %u, %zu", len, side, number, *length, wanted,
                      wanted_length);
    if (*neighbour != LEFT_OVER)
        return differ("room of %zu %s: got a change beside the variable for the length", len, side);
    if (memcmp(front_of_room, wanted_room, all) == 0)
        return 0;
    for (i = 0; front_of_room[i] == wanted_room[i];)
        i++;
    if (number == 0 && i >= front && i < front + LENGTH)
        return differ("got    %s\n  byte %zu, room of %zu %s", shown(room), i - front, len, side);
    return differ("room of %zu %s, number %u: got %u in byte %ld of the room; wanted %u, as it was", len, side, number,
                  front_of_room[i], (long)i - (long)front, wanted_room[i]);
}

static int record_differs(const record *want, uint32_t place)
{
    static const size_t SHORT[] = {0, 1, LENGTH - 1, 2, LENGTH / 2, 7, 8};
    if (want->rooms == SOME_ROOMS) {
        int at_end = place & 1;
        size_t shorter = place % 3 == 0 ? SHORT[place / 3 % (sizeof SHORT / sizeof SHORT[0])] : place % LENGTH;
        return call_differs(want, LENGTH, at_end, 0) || call_differs(want, LENGTH + 1 + place % 61, !at_end, 0) ||
               call_differs(want, shorter, at_end, 0);
    }
    for (size_t len = 0; len <= LONGEST_OF_ALL; len++)
        if (call_differs(want, len, 1, 0) || call_differs(want, len, 0, 0))
            return 1;
    return call_differs(want, LONG_ROOM, 1, 0) || call_differs(want, LONG_ROOM, 0, 0) || call_differs(want, 0, 1, 1);
}

int main(int count, char **arguments)
{
    uint32_t records, i;
    if (count > 1)
        mistake = atoi(arguments[1]);
    if (mistake < NONE || mistake >= MISTAKES)
        give_up("there is no such mistake");
    if (sizeof(record) != RECORD)
        give_up("a record has another size");
    room_pages = fenced(LARGEST);
    length_pages = fenced(LARGEST);
    fill(pattern, LARGEST);

    while (take(&records, sizeof records)) {
        begin_batch();
        for (i = 0; i < records; i++) {
            record want;
            if (!take(&want, sizeof want))
                give_up("the input ends inside a batch");
            if (record_differs(&want, i))
                place_of_difference(i);
        }
        answer_batch();
    }
    return 0;
}
