/* Runs the entries for two lists on records from standard input and says which answers differ from those wanted.
 *
 * compare.py starts it, makes the pairs, knows what is wanted and reads what differs. Input is a sequence of batches: two 32-bit
 * numbers, the records and the bytes that follow; then the records, each ten 32-bit numbers and bytes.
 *
 *   MERGE   the lengths of both lists; the number, the machine and the line wanted; the lengths of the merged book and of the report,
 *           and the rooms that they need; then the bytes of both lists, of the merged book and of the report
 *   FRONTS  the lengths of both front lines; the number, the machine and the line wanted of a check; the length and the machine
 *           wanted of the earlier line; two zeros; then the bytes of both front lines
 *
 * All numbers are as the machine stores them. fence.h says how a batch is answered.
 *
 * With two arguments, the name of an entry (check, earlier, merge) and the number of a mistake below, every answer of that entry
 * has that mistake, and differences must be found.
 *
 * A list or a front line lies against a page that cannot be read, in front or behind, and a room against one that cannot be written:
 * a call that goes beyond ends the program, and compare.py sees that it did.
 */
#include "../shared/fence.h"

#include "chowderbell.h"

/* The declarations that callers are written against; the compiler refuses a header that declares them otherwise. */
uint8_t chowderbell_fronts_check(const uint8_t *first, size_t first_len, const uint8_t *second, size_t second_len, uint8_t *machine,
                                 size_t *line);
size_t chowderbell_fronts_earlier(const uint8_t *first, size_t first_len, const uint8_t *second, size_t second_len,
                                  uint8_t *machine);
uint8_t chowderbell_lists_merge(const uint8_t *first, size_t first_len, const uint8_t *second, size_t second_len, uint8_t *book,
                                size_t book_len, uint8_t *report, size_t report_len, size_t *book_length, size_t *report_length,
                                uint8_t *machine, size_t *line);

enum { LARGEST = 1 << 18, LONGEST_SENT = LARGEST / 2, MERGE = 0, FRONTS = 1 };

/* What the variable for a machine holds before a call. */
enum { LEFT_OVER_MACHINE = 0x5a };

/* Mistakes that the library might make with memory and with what it stores. mistakes.py has their names, in this order. From
   CHANGES_BEHIND_BOOK on they are mistakes of a merge, which has rooms. */
enum { NONE, LEAVES_MACHINE, LEAVES_LINE, READS_BEHIND_FIRST, READS_BEHIND_SECOND, READS_IN_FRONT_OF_FIRST, READS_IN_FRONT_OF_SECOND,
       CHANGES_FIRST, CHANGES_SECOND,
       CHANGES_BEHIND_BOOK, CHANGES_BEHIND_REPORT, BOOK_ON_12, REPORT_ON_12, BOOK_ON_8, REPORT_ON_8, PART_OF_BOOK_ON_8,
       PART_OF_REPORT_ON_8, CHANGES_IN_FRONT_OF_BOOK, CHANGES_IN_FRONT_OF_REPORT, WRITES_BEHIND_BOOK, WRITES_BEHIND_REPORT,
       LEAVES_BOOK_LENGTH, LEAVES_REPORT_LENGTH, TELLS_BOOK_LENGTH, TELLS_REPORT_LENGTH, TELLS_MACHINE_ON_8, TELLS_LINE_ON_8,
       LENGTHS_CHANGED_OVER, NO_REPORT, MISTAKES };
static int mistake = NONE;
static const char *mistaken = "";

/* `len` bytes that lie against a fence. */
typedef struct {
    uint8_t *bytes;
    size_t len;
} part;

typedef struct {
    uint32_t kind, first, second, number, machine, line;
    /* of a merge; of front lines, the first two are the length and the machine of the earlier line */
    uint32_t book, report, book_need, report_need;
} record;

/* What a call stores. */
typedef struct {
    size_t number, book, report, line;
    uint8_t machine;
} answer;

static uint8_t *first_pages, *second_pages, *book_pages, *report_pages;
static uint8_t pattern[LARGEST], wanted_book[LARGEST], wanted_report[LARGEST], merged[LARGEST], rows[LARGEST];

/* --- the calls, with a mistake if there is one --- */

static answer nothing_stored(void)
{
    return (answer){.book = LEFT_OVER, .report = LEFT_OVER, .line = LEFT_OVER, .machine = LEFT_OVER_MACHINE};
}

/* The mistakes that need no room. `refused` if a machine and a line are told. */
static void spoil(part first, part second, int refused, answer *got)
{
    if (mistake == LEAVES_MACHINE && !refused)
        got->machine = LEFT_OVER_MACHINE;
    if (mistake == LEAVES_LINE && !refused)
        got->line = LEFT_OVER;
    if (mistake == READS_BEHIND_FIRST && first.len > 0)
        (void)((const volatile uint8_t *)first.bytes)[first.len];
    if (mistake == READS_BEHIND_SECOND && second.len > 0)
        (void)((const volatile uint8_t *)second.bytes)[second.len];
    if (mistake == READS_IN_FRONT_OF_FIRST && first.len > 0)
        (void)((const volatile uint8_t *)first.bytes)[-1];
    if (mistake == READS_IN_FRONT_OF_SECOND && second.len > 0)
        (void)((const volatile uint8_t *)second.bytes)[-1];
    if (mistake == CHANGES_FIRST && first.len > 0)
        first.bytes[first.len / 2] ^= 1;
    if (mistake == CHANGES_SECOND && second.len > 0)
        second.bytes[second.len / 2] ^= 1;
}

static answer check(part first, part second)
{
    answer got = nothing_stored();
    got.number = chowderbell_fronts_check(first.bytes, first.len, second.bytes, second.len, &got.machine, &got.line);
    if (strcmp(mistaken, "check") == 0)
        spoil(first, second, got.number != 0, &got);
    return got;
}

/* The length of the earlier line is stored as `number`. */
static answer earlier(part first, part second)
{
    answer got = nothing_stored();
    got.number = chowderbell_fronts_earlier(first.bytes, first.len, second.bytes, second.len, &got.machine);
    if (strcmp(mistaken, "earlier") == 0)
        spoil(first, second, got.number != 0, &got);
    return got;
}

static void spoil_rooms(part first, part second, part book, part report, answer *got)
{
    const size_t number = got->number;
    answer whole;
    spoil(first, second, number == CHOWDERBELL_LISTS, got);
    if (mistake == CHANGES_BEHIND_BOOK && number == 0 && got->book < book.len)
        book.bytes[got->book] ^= 1;
    if (mistake == CHANGES_BEHIND_REPORT && number == 0 && got->report < report.len)
        report.bytes[got->report] ^= 1;
    if (mistake == BOOK_ON_12 && number == CHOWDERBELL_LISTS && book.len > 0)
        book.bytes[0] ^= 1;
    if (mistake == REPORT_ON_12 && number == CHOWDERBELL_LISTS && report.len > 0)
        report.bytes[report.len - 1] ^= 1;
    if (mistake == BOOK_ON_8 && number == CHOWDERBELL_ROOM && book.len > 0)
        book.bytes[book.len - 1] ^= 1;
    if (mistake == REPORT_ON_8 && number == CHOWDERBELL_ROOM && report.len > 0)
        report.bytes[0] ^= 1;
    if (number == CHOWDERBELL_ROOM) {
        chowderbell_lists_merge(first.bytes, first.len, second.bytes, second.len, merged, LARGEST, rows, LARGEST, &whole.book,
                                &whole.report, &whole.machine, &whole.line);
        if (mistake == PART_OF_BOOK_ON_8)
            memcpy(book.bytes, merged, book.len < whole.book ? book.len : whole.book);
        if (mistake == PART_OF_REPORT_ON_8)
            memcpy(report.bytes, rows, report.len < whole.report ? report.len : whole.report);
        if (mistake == TELLS_BOOK_LENGTH) /* how long the room should have been */
            got->book = whole.book;
        if (mistake == TELLS_REPORT_LENGTH)
            got->report = whole.report;
        if (mistake == TELLS_MACHINE_ON_8)
            got->machine = 1;
        if (mistake == TELLS_LINE_ON_8)
            got->line = 1;
    }
    if (mistake == CHANGES_IN_FRONT_OF_BOOK && book.len > 0)
        book.bytes[-1] ^= 1;
    if (mistake == CHANGES_IN_FRONT_OF_REPORT && report.len > 0)
        report.bytes[-1] ^= 1;
    if (mistake == WRITES_BEHIND_BOOK && book.len > 0)
        book.bytes[book.len] = 0;
    if (mistake == WRITES_BEHIND_REPORT && report.len > 0)
        report.bytes[report.len] = 0;
    if (mistake == LEAVES_BOOK_LENGTH && number != 0)
        got->book = LEFT_OVER;
    if (mistake == LEAVES_REPORT_LENGTH && number != 0)
        got->report = LEFT_OVER;
    if (mistake == LENGTHS_CHANGED_OVER) {
        size_t length = got->book;
        got->book = got->report;
        got->report = length;
    }
    if (mistake == NO_REPORT && number == 0 && got->report > 0) /* it is as long as it should be, and not written */
        memset(report.bytes, 0, got->report);
}

static answer merge(part first, part second, part book, part report)
{
    answer got = nothing_stored();
    got.number = chowderbell_lists_merge(first.bytes, first.len, second.bytes, second.len, book.bytes, book.len, report.bytes,
                                         report.len, &got.book, &got.report, &got.machine, &got.line);
    if (strcmp(mistaken, "merge") == 0)
        spoil_rooms(first, second, book, report, &got);
    return got;
}

/* --- front lines --- */

static int fronts_differ(const char *where, part first, part second, const record *want)
{
    answer got = check(first, second);
    if (got.number != want->number || got.machine != want->machine || got.line != want->line)
        return differ("check, %s: number %zu, machine %u, line %zu; wanted %u, %u, %u", where, got.number, got.machine, got.line,
                      want->number, want->machine, want->line);
    got = earlier(first, second);
    if (got.number != want->book || got.machine != want->report)
        return differ("earlier, %s: length %zu, machine %u; wanted %u, %u", where, got.number, got.machine, want->book, want->report);
    return 0;
}

/* --- merging --- */

/* A room of `len` bytes, behind which or in front of which the fence is. It holds the pattern, with FRONT bytes beside it. */
typedef struct {
    uint8_t *beside;
    size_t front;
    part room;
} place;

static place room_at(uint8_t *pages, size_t len, int at_end)
{
    place p = {.front = at_end ? FRONT : 0};
    p.beside = at_end ? pages + LARGEST - len - FRONT : pages;
    p.room = (part){p.beside + p.front, len};
    memcpy(p.beside, pattern, p.front + len);
    return p;
}

/* Compares a room with the pattern and the bytes written over it. */
static int room_differs(const char *what, const char *where, const place *p, uint8_t *wanted, const uint8_t *written, size_t length,
                        size_t other_len, size_t number)
{
    size_t i;
    memcpy(wanted, pattern, p->front + p->room.len);
    memcpy(wanted + p->front, written, length < p->room.len ? length : p->room.len);
    if (memcmp(p->beside, wanted, p->front + p->room.len) == 0)
        return 0;
    for (i = 0; p->beside[i] == wanted[i];)
        i++;
    return differ("merge, %s, room of %zu for the %s beside one of %zu, number %zu: byte %ld is %u; wanted %u", where, p->room.len,
                  what, other_len, number, (long)i - (long)p->front, p->beside[i], wanted[i]);
}

static int merge_differs(const char *where, part first, part second, const record *want, const uint8_t *book, const uint8_t *report,
                         size_t book_len, size_t report_len, int at_end)
{
    place one = room_at(book_pages, book_len, at_end), other = room_at(report_pages, report_len, !at_end);
    answer wanted = {.number = want->number, .machine = (uint8_t)want->machine, .line = want->line};
    if (wanted.number == 0) {
        if (book_len < want->book_need || report_len < want->report_need)
            wanted.number = CHOWDERBELL_ROOM;
        else {
            wanted.book = want->book;
            wanted.report = want->report;
        }
    }
    answer got = merge(first, second, one.room, other.room);
    if (got.number != wanted.number || got.book != wanted.book || got.report != wanted.report || got.machine != wanted.machine ||
        got.line != wanted.line)
        return differ("merge, %s, rooms of %zu and %zu: number %zu, lengths %zu and %zu, machine %u, line %zu; wanted %zu, %zu and "
                      "%zu, %u, %zu", where, book_len, report_len, got.number, got.book, got.report, got.machine, got.line,
                      wanted.number, wanted.book, wanted.report, wanted.machine, wanted.line);
    return room_differs("book", where, &one, wanted_book, book, wanted.book, report_len, got.number) ||
           room_differs("report", where, &other, wanted_report, report, wanted.report, book_len, got.number);
}

/* The lengths of rooms that tell something, where so many bytes are needed. */
static size_t rooms_for(size_t need, size_t some, size_t *rooms)
{
    size_t count = 0;
    rooms[count++] = need;
    rooms[count++] = 0;
    rooms[count++] = need + 1 + some % 61;
    if (need > 0)
        rooms[count++] = need - 1;
    if (need > 2)
        rooms[count++] = need / 2;
    return count;
}

/* A pointer may be NULL where its length is 0. */
static int null_differs(part first, part second, const record *want)
{
    part none = {NULL, 0};
    size_t wanted = want->number;
    if (wanted == 0 && (want->book_need > 0 || want->report_need > 0))
        wanted = CHOWDERBELL_ROOM;
    answer got = merge(first.len == 0 ? none : first, second.len == 0 ? none : second, none, none);
    if (got.number != wanted || got.book != 0 || got.report != 0 || got.machine != want->machine || got.line != want->line)
        return differ("merge, rooms NULL: number %zu, lengths %zu and %zu, machine %u, line %zu; wanted %zu, 0 and 0, %u, %u", got.number,
                      got.book, got.report, got.machine, got.line, wanted, want->machine, want->line);
    return 0;
}

/* The line at the front of what is left of a list. */
static part front_line(part list, size_t at)
{
    const uint8_t *end = at < list.len ? memchr(list.bytes + at, '\n', list.len - at) : NULL;
    return (part){list.bytes + at, end == NULL ? 0 : (size_t)(end - (list.bytes + at)) + 1};
}

/* Laws that the library keeps by itself, whatever the reference says: the merged book is a good book; merged with an empty list it
   is itself, if it is not too long for a list; and the earlier front lines, taken one after the other, are the merged book. */
static int laws_differ(part first, part second)
{
    size_t line, length = first.len + second.len, i = 0, j = 0, at = 0;
    part none = {NULL, 0}, room = {merged, LARGEST}, report = {rows, LARGEST}, again = {wanted_book, LARGEST};
    answer got = merge(first, second, room, report);
    if (got.number != 0 || got.book != length)
        return 0; /* a mistake, which is found elsewhere */
    if (chowderbell_book_check(merged, length, &line) != 0)
        return differ("the merged book is bad at line %zu", line);
    while (i < first.len || j < second.len) {
        part one = front_line(first, i), other = front_line(second, j);
        answer next = earlier(one, other);
        part taken = next.machine == 1 ? one : other;
        if (next.number == 0 || next.machine < 1 || next.machine > 2 || next.number != taken.len ||
            memcmp(merged + at, taken.bytes, taken.len) != 0)
            return differ("at byte %zu of the merged book: the earlier front line has %zu bytes and machine %u", at, next.number,
                          next.machine);
        *(next.machine == 1 ? &i : &j) += taken.len;
        at += taken.len;
    }
    if (length > CHOWDERBELL_LIST_MAX)
        return 0;
    part list = {merged, length};
    for (int turn = 0; turn < 2; turn++) {
        answer once_more = merge(turn ? none : list, turn ? list : none, again, report);
        if (once_more.number != 0 || once_more.book != length || once_more.report != 0 || memcmp(wanted_book, merged, length) != 0)
            return differ("the merged book, of %zu bytes, and an empty list: number %zu, lengths %zu and %zu", length, once_more.number,
                          once_more.book, once_more.report);
    }
    return 0;
}

/* --- records --- */

static int record_differs(const record *want, const uint8_t *first, const uint8_t *second, const uint8_t *book, const uint8_t *report)
{
    static const char *const WHERE[] = {"lists at the end", "lists at the start", "first at the end", "second at the end"};
    const part firsts[] = {{first_pages + LARGEST - want->first, want->first}, {first_pages, want->first}};
    const part seconds[] = {{second_pages + LARGEST - want->second, want->second}, {second_pages, want->second}};
    const part none = {NULL, 0};
    size_t books[5], reports[5], turn = 0, i, j;

    for (i = 0; i < 2; i++) {
        memcpy(firsts[i].bytes, first, want->first);
        memcpy(seconds[i].bytes, second, want->second);
    }
    if (want->kind == FRONTS) {
        for (i = 0; i < 4; i++)
            if (fronts_differ(WHERE[i], firsts[i & 1], seconds[(i ^ i >> 1) & 1], want))
                return 1;
        if (fronts_differ("NULL if empty", want->first == 0 ? none : firsts[0], want->second == 0 ? none : seconds[0], want))
            return 1;
    } else {
        size_t book_rooms = rooms_for(want->book_need, want->second + 7, books);
        size_t report_rooms = rooms_for(want->report_need, want->first + 3, reports);
        for (i = 0; i < book_rooms; i++)
            for (j = 0; j < report_rooms; j++, turn++)
                if (merge_differs(WHERE[turn & 3], firsts[turn & 1], seconds[(turn ^ turn >> 1) & 1], want, book, report, books[i],
                                  reports[j], turn % 3 == 0))
                    return 1;
        if (null_differs(firsts[0], seconds[0], want))
            return 1;
        /* two lists may be the same bytes of memory */
        if (want->first == want->second && memcmp(first, second, want->first) == 0 &&
            merge_differs("one list for both", firsts[0], firsts[0], want, book, report, want->book_need, want->report_need, 1))
            return 1;
    }
    for (i = 0; i < 2; i++)
        if (memcmp(firsts[i].bytes, first, want->first) != 0 || memcmp(seconds[i].bytes, second, want->second) != 0)
            return differ("a list was changed");
    return want->kind == MERGE && want->number == 0 && laws_differ(firsts[0], seconds[0]);
}

int main(int count, char **arguments)
{
    uint32_t head[2], i;
    if (count > 2) {
        mistaken = arguments[1];
        mistake = atoi(arguments[2]);
    }
    if (mistake < NONE || mistake >= MISTAKES)
        give_up("there is no such mistake");
    first_pages = fenced(LARGEST);
    second_pages = fenced(LARGEST);
    book_pages = fenced(LARGEST);
    report_pages = fenced(LARGEST);
    fill(pattern, LARGEST);

    while (take(head, sizeof head)) {
        uint8_t *batch = malloc(head[1] + 1), *at = batch, *end = batch + head[1];
        if (batch == NULL || (head[1] > 0 && !take(batch, head[1])))
            give_up("no batch");
        begin_batch();
        for (i = 0; i < head[0]; i++) {
            record want;
            memcpy(&want, at, sizeof want);
            at += sizeof want;
            if (want.first > LONGEST_SENT || want.second > LONGEST_SENT || want.book > LONGEST_SENT || want.report > LONGEST_SENT ||
                want.book_need > LONGEST_SENT || want.report_need > LONGEST_SENT)
                give_up("a list is too long for this program");
            const uint8_t *second = at + want.first, *book = second + want.second;
            const uint8_t *report = want.kind == MERGE ? book + want.book : book;
            if (record_differs(&want, at, second, book, report))
                place_of_difference(i);
            at += want.first + want.second + (want.kind == MERGE ? want.book + want.report : 0);
        }
        if (at != end)
            give_up("a batch is not what its numbers say");
        free(batch);
        answer_batch();
    }
    return 0;
}
