/* Salvages books from standard input and says which answers differ from those wanted.
 *
 * compare.py starts it, makes the books, knows what is wanted and reads what differs. Input is a sequence of batches: two 32-bit
 * numbers, the records and the bytes that follow; then the records, each seven 32-bit numbers and bytes: the length of the book; the
 * number wanted; the lengths of the lines kept and of the report; the number of the last bad line; the rooms that the lines kept and
 * the report need; then the bytes of the book, of the lines kept and of the report.
 *
 * All numbers are as the machine stores them. fence.h says how a batch is answered.
 *
 * With one argument, the number of a mistake below, every answer has that mistake, and differences must be found.
 *
 * A book lies against a page that cannot be read, in front or behind, and a room against one that cannot be written: a call that goes
 * beyond ends the program, and compare.py sees that it did.
 */
#include "../shared/fence.h"

#include "chowderbell.h"

/* The declaration that callers are written against; the compiler refuses a header that declares it otherwise. */
uint8_t chowderbell_book_salvage(const uint8_t *book, size_t len, uint8_t *room, size_t room_len, uint8_t *report, size_t report_len,
                                 size_t *length, size_t *report_length, size_t *last_bad);

/* A report has at most PER_BYTE bytes for each byte of the book. A book of at most SHORT bytes is salvaged with every two rooms. */
enum { LARGEST = 1 << 20, LONGEST_SENT = 100000, PER_BYTE = 8, SHORT = 1024 };

/* Mistakes that the library might make with memory and with what it stores. mistakes.py has their names, in this order. The last
   ones are made only with rooms that are so long that the book need not be measured, or only with shorter ones. */
enum { NONE, READS_BEHIND, READS_IN_FRONT, CHANGES_BOOK, CHANGES_BEHIND_KEPT, CHANGES_BEHIND_REPORT, ROOM_ON_10, REPORT_ON_10,
       ROOM_ON_8, REPORT_ON_8, PART_OF_KEPT_ON_8, PART_OF_REPORT_ON_8, CHANGES_IN_FRONT_OF_ROOM, CHANGES_IN_FRONT_OF_REPORT,
       WRITES_BEHIND_ROOM, WRITES_BEHIND_REPORT, LEAVES_LENGTH, LEAVES_REPORT_LENGTH, LEAVES_LAST_BAD, LEAVES_LAST_BAD_IF_NONE,
       TELLS_LENGTH, TELLS_REPORT_LENGTH, TELLS_LAST_BAD, TELLS_LAST_BAD_ON_10, LENGTHS_CHANGED_OVER, LAST_BAD_IS_A_LENGTH, NO_REPORT,
       NO_LINES, TERMINATING_ZERO,
       LONG_ROOMS_LEAVE_A_LINE, LONG_ROOMS_LEAVE_A_ROW, LONG_ROOMS_NO_LAST_BAD, SHORT_ROOMS_ARE_REFUSED, SHORT_ROOMS_NO_LAST_BAD,
       MISTAKES };
static int mistake = NONE;

/* `len` bytes that lie against a fence. */
typedef struct {
    uint8_t *bytes;
    size_t len;
} part;

typedef struct {
    uint32_t book, number, kept, report, last_bad, room_need, report_need;
} record;

/* What a call returns and stores. */
typedef struct {
    size_t number, kept, report, last_bad;
} answer;

static uint8_t *book_pages, *room_pages, *report_pages;
static uint8_t pattern[LARGEST], wanted_bytes[LARGEST], kept_bytes[LARGEST], rows[LARGEST], again_bytes[LARGEST];

/* --- the call, with a mistake if there is one --- */

static answer called(part book, part room, part report)
{
    answer got = {0, LEFT_OVER, LEFT_OVER, LEFT_OVER};
    got.number = chowderbell_book_salvage(book.bytes, book.len, room.bytes, room.len, report.bytes, report.len, &got.kept, &got.report,
                                          &got.last_bad);
    return got;
}

static void spoil_memory(part book, part room, part report, const answer *got)
{
    const size_t number = got->number;
    if (mistake == READS_BEHIND && book.len > 0)
        (void)((const volatile uint8_t *)book.bytes)[book.len];
    if (mistake == READS_IN_FRONT && book.len > 0)
        (void)((const volatile uint8_t *)book.bytes)[-1];
    if (mistake == CHANGES_BOOK && book.len > 0)
        book.bytes[book.len / 2] ^= 1;
    if (mistake == CHANGES_BEHIND_KEPT && number == 0 && got->kept < room.len)
        room.bytes[got->kept] ^= 1;
    if (mistake == CHANGES_BEHIND_REPORT && number == 0 && got->report < report.len)
        report.bytes[got->report] ^= 1;
    if (mistake == ROOM_ON_10 && number == CHOWDERBELL_BOOK && room.len > 0)
        room.bytes[0] ^= 1;
    if (mistake == REPORT_ON_10 && number == CHOWDERBELL_BOOK && report.len > 0)
        report.bytes[report.len - 1] ^= 1;
    if (mistake == ROOM_ON_8 && number == CHOWDERBELL_ROOM && room.len > 0)
        room.bytes[room.len - 1] ^= 1;
    if (mistake == REPORT_ON_8 && number == CHOWDERBELL_ROOM && report.len > 0)
        report.bytes[0] ^= 1;
    if (mistake == CHANGES_IN_FRONT_OF_ROOM && room.len > 0)
        room.bytes[-1] ^= 1;
    if (mistake == CHANGES_IN_FRONT_OF_REPORT && report.len > 0)
        report.bytes[-1] ^= 1;
    if (mistake == WRITES_BEHIND_ROOM && room.len > 0)
        room.bytes[room.len] = 0;
    if (mistake == WRITES_BEHIND_REPORT && report.len > 0)
        report.bytes[report.len] = 0;
    if (mistake == NO_REPORT && number == 0 && got->report > 0) /* it is as long as it should be, and not written */
        memset(report.bytes, 0, got->report);
    if (mistake == NO_LINES && number == 0 && got->kept > 0)
        memset(room.bytes, 0, got->kept);
    if (mistake == TERMINATING_ZERO && number == 0 && got->report < report.len)
        report.bytes[got->report] = 0;
}

/* What a refusal must not tell. */
static void spoil_refusal(part book, part room, part report, answer *got)
{
    answer whole = *got;
    if (got->number == CHOWDERBELL_ROOM)
        whole = called(book, (part){kept_bytes, LARGEST}, (part){rows, LARGEST});
    if (mistake == PART_OF_KEPT_ON_8 && got->number == CHOWDERBELL_ROOM)
        memcpy(room.bytes, kept_bytes, room.len < whole.kept ? room.len : whole.kept);
    if (mistake == PART_OF_REPORT_ON_8 && got->number == CHOWDERBELL_ROOM)
        memcpy(report.bytes, rows, report.len < whole.report ? report.len : whole.report);
    if (mistake == TELLS_LENGTH)
        got->kept = whole.kept;
    if (mistake == TELLS_REPORT_LENGTH)
        got->report = whole.report;
    if (mistake == TELLS_LAST_BAD)
        got->last_bad = whole.last_bad;
    if (mistake == TELLS_LAST_BAD_ON_10 && got->number == CHOWDERBELL_BOOK)
        got->last_bad = 1;
    if (mistake == LEAVES_LENGTH)
        got->kept = LEFT_OVER;
    if (mistake == LEAVES_REPORT_LENGTH)
        got->report = LEFT_OVER;
    if (mistake == LEAVES_LAST_BAD)
        got->last_bad = LEFT_OVER;
}

/* Mistakes of what is stored on success, some of them only where the book is measured first, or only where it is not. */
static void spoil_success(part book, part room, part report, answer *got)
{
    const int long_rooms = room.len >= book.len && report.len / PER_BYTE >= book.len;
    const size_t kept = got->kept;
    if (mistake == LEAVES_LAST_BAD_IF_NONE && got->last_bad == 0)
        got->last_bad = LEFT_OVER;
    if (mistake == LENGTHS_CHANGED_OVER) {
        got->kept = got->report;
        got->report = kept;
    }
    if (mistake == LAST_BAD_IS_A_LENGTH)
        got->last_bad = got->report;
    if (mistake == LONG_ROOMS_LEAVE_A_LINE && long_rooms && kept < book.len) /* the bytes of a bad line are left behind */
        room.bytes[kept] = book.bytes[kept];
    if (mistake == LONG_ROOMS_LEAVE_A_ROW && long_rooms && got->report < report.len)
        report.bytes[got->report] = '1';
    if (mistake == LONG_ROOMS_NO_LAST_BAD && long_rooms)
        got->last_bad = 0;
    if (mistake == SHORT_ROOMS_NO_LAST_BAD && !long_rooms)
        got->last_bad = 0;
    if (mistake == SHORT_ROOMS_ARE_REFUSED && !long_rooms)
        got->number = CHOWDERBELL_ROOM;
}

static answer salvage(part book, part room, part report)
{
    answer got = called(book, room, report);
    if (mistake == NONE)
        return got;
    spoil_memory(book, room, report, &got);
    if (got.number == 0)
        spoil_success(book, room, report, &got);
    else
        spoil_refusal(book, room, report, &got);
    return got;
}

/* --- one call --- */

/* A room of `len` bytes, behind which or in front of which the fence is. It holds the pattern, with FRONT bytes beside it. */
typedef struct {
    uint8_t *beside;
    size_t front;
    part room;
} place;

static place room_at(uint8_t *pages, size_t len, int at_end)
{
    place p = {.front = at_end ? FRONT : 0};
    p.beside = at_end ? pages + LARGEST - len - FRONT : pages;
    p.room = (part){p.beside + p.front, len};
    memcpy(p.beside, pattern, p.front + len);
    return p;
}

/* Compares a room with the pattern and the bytes written over it. */
static int room_differs(const char *what, const char *where, const place *p, const uint8_t *written, size_t length, size_t other_len,
                        size_t number)
{
    size_t i;
    memcpy(wanted_bytes, pattern, p->front + p->room.len);
    memcpy(wanted_bytes + p->front, written, length < p->room.len ? length : p->room.len);
    if (memcmp(p->beside, wanted_bytes, p->front + p->room.len) == 0)
        return 0;
    for (i = 0; p->beside[i] == wanted_bytes[i];)
        i++;
    return differ("%s, room of %zu for the %s beside one of %zu, number %zu: byte %ld is %u; wanted %u", where, p->room.len, what,
                  other_len, number, (long)i - (long)p->front, p->beside[i], wanted_bytes[i]);
}

static int call_differs(const char *where, part book, const record *want, const uint8_t *kept, const uint8_t *report, size_t room_len,
                        size_t report_len, int at_end)
{
    place one = room_at(room_pages, room_len, at_end), other = room_at(report_pages, report_len, !at_end);
    answer wanted = {.number = want->number};
    if (wanted.number == 0) {
        if (room_len < want->room_need || report_len < want->report_need)
            wanted.number = CHOWDERBELL_ROOM;
        else
            wanted = (answer){0, want->kept, want->report, want->last_bad};
    }
    answer got = salvage(book, one.room, other.room);
    if (got.number != wanted.number || got.kept != wanted.kept || got.report != wanted.report || got.last_bad != wanted.last_bad)
        return differ("%s, rooms of %zu and %zu: number %zu, lengths %zu and %zu, last bad %zu; wanted %zu, %zu and %zu, %zu", where,
                      room_len, report_len, got.number, got.kept, got.report, got.last_bad, wanted.number, wanted.kept, wanted.report,
                      wanted.last_bad);
    return room_differs("lines", where, &one, kept, wanted.kept, report_len, got.number) ||
           room_differs("report", where, &other, report, wanted.report, room_len, got.number);
}

/* --- the rooms --- */

enum { EXACT, NO_ROOM, MORE, ONE_LESS, HALF, ALWAYS_ENOUGH, ONE_BELOW, ONE_ABOVE, ROOMS };

/* The lengths of rooms that tell something, where so many bytes are needed and `enough` always are. */
static void rooms_for(size_t need, size_t enough, size_t some, size_t *rooms)
{
    rooms[EXACT] = need;
    rooms[NO_ROOM] = 0;
    rooms[MORE] = need + 1 + some % 61;
    rooms[ONE_LESS] = need > 0 ? need - 1 : 0;
    rooms[HALF] = need / 2;
    rooms[ALWAYS_ENOUGH] = enough;
    rooms[ONE_BELOW] = enough > 0 ? enough - 1 : 0;
    rooms[ONE_ABOVE] = enough + 1;
}

/* The two rooms that a longer book is salvaged with. */
static const int PAIRS[][2] = {
    {EXACT, EXACT}, {ONE_LESS, EXACT}, {EXACT, ONE_LESS}, {NO_ROOM, EXACT}, {EXACT, NO_ROOM}, {NO_ROOM, NO_ROOM}, {MORE, MORE},
    {ALWAYS_ENOUGH, ALWAYS_ENOUGH}, {ONE_BELOW, ALWAYS_ENOUGH}, {ALWAYS_ENOUGH, ONE_BELOW}, {ONE_ABOVE, ONE_ABOVE},
    {ONE_LESS, ALWAYS_ENOUGH}, {ALWAYS_ENOUGH, ONE_LESS}, {HALF, ALWAYS_ENOUGH}, {ALWAYS_ENOUGH, HALF},
};
enum { NUMBER_OF_PAIRS = sizeof PAIRS / sizeof PAIRS[0] };

/* A pointer may be NULL where its length is 0. */
static int null_differs(part book, const record *want)
{
    part none = {NULL, 0};
    size_t wanted = want->number;
    if (wanted == 0 && (want->room_need > 0 || want->report_need > 0))
        wanted = CHOWDERBELL_ROOM;
    answer got = salvage(book.len == 0 ? none : book, none, none);
    if (got.number != wanted || got.kept != 0 || got.report != 0 || got.last_bad != 0)
        return differ("rooms NULL: number %zu, lengths %zu and %zu, last bad %zu; wanted %zu, 0 and 0, 0", got.number, got.kept,
                      got.report, got.last_bad, wanted);
    return 0;
}

/* --- laws that the library keeps by itself, whatever the reference says --- */

static size_t newlines(const uint8_t *bytes, size_t len)
{
    size_t count = 0;
    for (size_t i = 0; i < len; i++)
        count += bytes[i] == '\n';
    return count;
}

/* The lines kept are a good book. With the lines reported they are as many as the book has. Salvaged again they are the same, and
   nothing is reported. The first row has the line that a check of the book names, and without a row the book is good. */
static int laws_differ(part book)
{
    size_t line, again_line, lines = newlines(book.bytes, book.len) + (book.len > 0 && book.bytes[book.len - 1] != '\n');
    answer got = salvage(book, (part){kept_bytes, LARGEST}, (part){rows, LARGEST});
    if (got.number != 0 || got.kept > book.len || got.report > PER_BYTE * book.len)
        return 0; /* a mistake, which is found elsewhere */
    if (chowderbell_book_check(kept_bytes, got.kept, &again_line) != 0)
        return differ("the lines kept are bad at line %zu", again_line);
    if (newlines(kept_bytes, got.kept) + newlines(rows, got.report) != lines)
        return differ("%zu lines kept and %zu reported; the book has %zu", newlines(kept_bytes, got.kept), newlines(rows, got.report),
                      lines);
    if (got.report > CHOWDERBELL_SALVAGE_REPORT_MAX)
        return differ("the report has %zu bytes", got.report);
    unsigned number = chowderbell_book_check(book.bytes, book.len, &line);
    rows[got.report] = 0;
    size_t first = got.report > 0 ? strtoul((const char *)rows, NULL, 10) : 0;
    if ((number != 0) != (got.report > 0) || first != line)
        return differ("the first row has line %zu; a check returns %u at line %zu", first, number, line);
    answer twice = salvage((part){kept_bytes, got.kept}, (part){again_bytes, LARGEST}, (part){rows, LARGEST});
    if (twice.number != 0 || twice.kept != got.kept || twice.report != 0 || twice.last_bad != 0 ||
        memcmp(again_bytes, kept_bytes, got.kept) != 0)
        return differ("the lines kept, of %zu bytes, salvaged again: number %zu, lengths %zu and %zu, last bad %zu", got.kept,
                      twice.number, twice.kept, twice.report, twice.last_bad);
    return 0;
}

/* --- records --- */

static int record_differs(const record *want, const uint8_t *book, const uint8_t *kept, const uint8_t *report)
{
    static const char *const WHERE[] = {"book at the end", "book at the start"};
    const part books[] = {{book_pages + LARGEST - want->book, want->book}, {book_pages, want->book}};
    size_t rooms[ROOMS], reports[ROOMS], turn;

    for (turn = 0; turn < 2; turn++)
        memcpy(books[turn].bytes, book, want->book);
    rooms_for(want->room_need, want->book, want->book + 7, rooms);
    rooms_for(want->report_need, PER_BYTE * (size_t)want->book, want->book + 3, reports);
    const size_t calls = want->book <= SHORT ? ROOMS * ROOMS : NUMBER_OF_PAIRS;
    for (turn = 0; turn < calls; turn++) {
        const size_t i = want->book <= SHORT ? turn / ROOMS : (size_t)PAIRS[turn][0];
        const size_t j = want->book <= SHORT ? turn % ROOMS : (size_t)PAIRS[turn][1];
        if (call_differs(WHERE[turn & 1], books[turn & 1], want, kept, report, rooms[i], reports[j], turn % 3 == 0))
            return 1;
    }
    if (null_differs(books[0], want))
        return 1;
    if (want->number == 0 && laws_differ(books[0]))
        return 1;
    for (turn = 0; turn < 2; turn++)
        if (memcmp(books[turn].bytes, book, want->book) != 0)
            return differ("the book was changed");
    return 0;
}

int main(int count, char **arguments)
{
    uint32_t head[2], i;
    if (count > 1)
        mistake = atoi(arguments[1]);
    if (mistake < NONE || mistake >= MISTAKES)
        give_up("there is no such mistake");
    book_pages = fenced(LARGEST);
    room_pages = fenced(LARGEST);
    report_pages = fenced(LARGEST);
    fill(pattern, LARGEST);

    while (take(head, sizeof head)) {
        uint8_t *batch = malloc(head[1] + 1), *at = batch, *end = batch + head[1];
        if (batch == NULL || (head[1] > 0 && !take(batch, head[1])))
            give_up("no batch");
        begin_batch();
        for (i = 0; i < head[0]; i++) {
            record want;
            memcpy(&want, at, sizeof want);
            at += sizeof want;
            if (want.book > LONGEST_SENT || want.room_need > LARGEST / 2 || want.report_need > LARGEST / 2 + LARGEST / 4)
                give_up("a book is too long for this program");
            if (record_differs(&want, at, at + want.book, at + want.book + want.kept))
                place_of_difference(i);
            at += want.book + want.kept + want.report;
        }
        if (at != end)
            give_up("a batch is not what its numbers say");
        free(batch);
        answer_batch();
    }
    return 0;
}
