/* Runs the book entries of the library on records from standard input and says which answers differ from those wanted.
 *
 * compare.py starts it, makes the books, knows what is wanted and reads what differs. Input is a sequence of batches: two 32-bit
 * numbers, the records and the bytes that follow; then the records, each nine 32-bit numbers (the length of the book; for a
 * listing and then for compacting the number wanted, the line wanted, the length of what is written, and the room that it needs)
 * and the bytes of the book, of the listing and of the compacted book. A check is held to the number and the line of a listing.
 * All numbers are as the machine stores them. fence.h says how a batch is answered.
 *
 * With two arguments, the name of an entry (check, list, compact) and the number of a mistake below, every answer of that entry
 * has that mistake, and differences must be found.
 *
 * A book lies against a page that cannot be read, in front or behind, and a room against one that cannot be written: a call
 * that goes beyond ends the program, and compare.py sees that it did.
 */
#include "../shared/fence.h"

#include "chowderbell.h"

/* The declarations that callers are written against; the compiler refuses a header that declares them otherwise. */
uint8_t chowderbell_book_check(const uint8_t *book, size_t len, size_t *line);
uint8_t chowderbell_book_list(const uint8_t *book, size_t len, uint8_t *room, size_t room_len, size_t *length, size_t *line);
uint8_t chowderbell_book_compact(const uint8_t *book, size_t len, uint8_t *room, size_t room_len, size_t *length, size_t *line);

enum { LARGEST = 1 << 18 };

/* An entry that writes lines of the book to a room. */
typedef uint8_t writer(const uint8_t *book, size_t len, uint8_t *room, size_t room_len, size_t *length, size_t *line);
typedef struct {
    const char *name;
    writer *call;
} entry;
static const entry LIST = {"list", chowderbell_book_list}, COMPACT = {"compact", chowderbell_book_compact};

/* Mistakes that the library might make with memory. compare.py has their names, in this order. From CHANGES_BEHIND on they are of
   entries that write. */
enum { NONE, LEAVES_LINE, READS_BEHIND, READS_IN_FRONT, CHANGES_BOOK, CHANGES_BEHIND, CHANGES_ON_REFUSAL, CHANGES_FIRST_ON_REFUSAL,
       CHANGES_IN_FRONT, WRITES_PART, WRITES_BEHIND, LEAVES_LENGTH, TELLS_LENGTH, TELLS_LINE, NEXT_LINE, MISTAKES };
static int mistake = NONE;
static const char *mistaken = "";

typedef struct {
    uint32_t number, line, length, need;
} answer;

typedef struct {
    uint32_t book;
    answer list, compact;
} record;

static uint8_t *book_pages, *room_pages;
static uint8_t pattern[LARGEST], wanted_room[LARGEST], compacted[LARGEST], again[LARGEST];

/* The mistakes that need no room. */
static void spoil(const char *name, const uint8_t *book, size_t len, unsigned number, size_t *line, size_t held_line)
{
    if (strcmp(mistaken, name) != 0)
        return;
    if (mistake == LEAVES_LINE && number != CHOWDERBELL_BOOK)
        *line = held_line;
    if (mistake == READS_BEHIND && len > 0)
        (void)((const volatile uint8_t *)book)[len];
    if (mistake == READS_IN_FRONT && len > 0)
        (void)((const volatile uint8_t *)book)[-1];
    if (mistake == CHANGES_BOOK && len > 0)
        ((uint8_t *)(uintptr_t)book)[len / 2] ^= 1;
}

static uint8_t check(const uint8_t *book, size_t len, size_t *line)
{
    const size_t held_line = *line;
    const uint8_t number = chowderbell_book_check(book, len, line);
    spoil("check", book, len, number, line, held_line);
    return number;
}

static uint8_t call(const entry *e, const uint8_t *book, size_t len, uint8_t *room, size_t room_len, size_t *length, size_t *line)
{
    const size_t held_length = *length, held_line = *line;
    const uint8_t number = e->call(book, len, room, room_len, length, line);
    if (strcmp(mistaken, e->name) != 0)
        return number;
    spoil(e->name, book, len, number, line, held_line);
    if (mistake == CHANGES_BEHIND && number == 0 && *length < room_len)
        room[*length] ^= 1;
    if (mistake == CHANGES_ON_REFUSAL && number != 0 && room_len > 0)
        room[room_len - 1] ^= 1;
    if (mistake == CHANGES_FIRST_ON_REFUSAL && number == CHOWDERBELL_BOOK && room_len > 0)
        room[0] = len > 0 ? book[0] : 0;
    if (mistake == CHANGES_IN_FRONT && room_len > 0)
        room[-1] ^= 1;
    if (mistake == WRITES_PART && number == CHOWDERBELL_ROOM && room_len > 0) {
        size_t whole;
        e->call(book, len, again, sizeof again, &whole, line);
        memcpy(room, again, room_len);
    }
    if (mistake == WRITES_BEHIND && room_len > 0)
        room[room_len] = 0;
    if (mistake == LEAVES_LENGTH && number != 0)
        *length = held_length;
    if (mistake == TELLS_LENGTH && number == CHOWDERBELL_ROOM) /* how long the room should have been */
        e->call(book, len, again, sizeof again, length, line);
    if (mistake == TELLS_LINE && number == CHOWDERBELL_ROOM)
        *line = 1;
    if (mistake == NEXT_LINE && number == CHOWDERBELL_BOOK && *line > 0)
        ++*line;
    return number;
}

static int check_differs(const char *where, const uint8_t *book, const record *want)
{
    size_t line = LEFT_OVER;
    unsigned number = check(book, want->book, &line);
    if (number != want->list.number || line != want->list.line)
        return differ("check, book %s: number %u, line %zu; wanted %u, %u", where, number, line, want->list.number, want->list.line);
    return 0;
}

/* One call with a room of `len` bytes, behind which or in front of which the fence stands. `written` is what is wanted in it. */
static int call_differs(const entry *e, const char *where, const uint8_t *book, size_t book_len, const answer *want,
                        const uint8_t *written, size_t len, int at_end)
{
    const size_t front = at_end ? FRONT : 0;
    uint8_t *front_of_room = at_end ? room_pages + LARGEST - len - FRONT : room_pages;
    uint8_t *room = front_of_room + front;
    size_t length = LEFT_OVER, line = LEFT_OVER, wanted_length = 0, wanted_line = 0, wanted = want->number, i;

    memcpy(front_of_room, pattern, front + len);
    memcpy(wanted_room, pattern, front + len);
    if (wanted != 0)
        wanted_line = want->line;
    else if (len < want->need)
        wanted = CHOWDERBELL_ROOM;
    else {
        wanted_length = want->length;
        memcpy(wanted_room + front, written, wanted_length < len ? wanted_length : len);
    }

    size_t number = call(e, book, book_len, room, len, &length, &line);
    if (number != wanted || length != wanted_length || line != wanted_line)
        return differ("%s, book %s, room of %zu: number %zu, length %zu, line %zu; wanted %zu, %zu, %zu", e->name, where, len,
                      number, length, line, wanted, wanted_length, wanted_line);
    if (memcmp(front_of_room, wanted_room, front + len) == 0)
        return 0;
    for (i = 0; front_of_room[i] == wanted_room[i];)
        i++;
    return differ("%s, book %s, room of %zu, number %zu: byte %ld of the room is %u; wanted %u", e->name, where, len, number,
                  (long)i - (long)front, front_of_room[i], wanted_room[i]);
}

/* A pointer may be NULL where its length is 0. */
static int null_differs(const entry *e, const uint8_t *book, size_t book_len, const answer *want)
{
    size_t length = LEFT_OVER, line = LEFT_OVER, wanted = want->number;
    if (wanted == 0 && want->need > 0)
        wanted = CHOWDERBELL_ROOM;
    size_t number = call(e, book_len == 0 ? NULL : book, book_len, NULL, 0, &length, &line);
    if (number != wanted || length != 0 || line != want->line)
        return differ("%s, room NULL: number %zu, length %zu, line %zu; wanted %zu, 0, %u", e->name, number, length, line, wanted,
                      want->line);
    return 0;
}

/* One entry with rooms of all the lengths that tell something. `first` and `last` are the book in front and at the end of its
   pages. */
static int entry_differs(const entry *e, const uint8_t *first, const uint8_t *last, size_t book_len, const answer *want,
                         const uint8_t *written)
{
    size_t rooms[8], count = 0, i;

    rooms[count++] = 0;
    rooms[count++] = want->need;
    rooms[count++] = want->need + 1 + book_len % 61;
    if (want->need > 0)
        rooms[count++] = want->need - 1;
    if (want->need > 2)
        rooms[count++] = want->need / 2;
    rooms[count++] = book_len;

    for (i = 0; i < count; i++)
        if (call_differs(e, "at the end", last, book_len, want, written, rooms[i], (i & 1) == 0) ||
            call_differs(e, "at the start", first, book_len, want, written, rooms[i], (i & 1) == 1))
            return 1;
    return null_differs(e, last, book_len, want);
}

/* Laws that the library keeps by itself, whatever the reference says: what it compacted is no longer than the book, is good, and
   compacts to itself. */
static int laws_differ(const uint8_t *book, size_t book_len)
{
    size_t length, line, length_again, line_again;
    if (call(&COMPACT, book, book_len, compacted, book_len, &length, &line) != 0)
        return 0; /* the book is not good, or a mistake asks for more room */
    if (length > book_len)
        return differ("the compacted book has %zu bytes, the book %zu", length, book_len);
    if (check(compacted, length, &line) != 0)
        return differ("the compacted book is bad at line %zu", line);
    if (call(&COMPACT, compacted, length, again, length, &length_again, &line_again) != 0 || length_again != length ||
        memcmp(again, compacted, length) != 0)
        return differ("the compacted book, of %zu bytes, does not compact to itself: %zu bytes", length, length_again);
    return 0;
}

static int record_differs(const record *want, const uint8_t *book, const uint8_t *listing, const uint8_t *kept)
{
    uint8_t *first = book_pages, *last = book_pages + LARGEST - want->book;

    memcpy(first, book, want->book);
    memcpy(last, book, want->book);
    if (check_differs("at the end", last, want) || check_differs("at the start", first, want) ||
        (want->book == 0 && check_differs("NULL", NULL, want)) ||
        entry_differs(&LIST, first, last, want->book, &want->list, listing) ||
        entry_differs(&COMPACT, first, last, want->book, &want->compact, kept))
        return 1;
    if (memcmp(first, book, want->book) != 0 || memcmp(last, book, want->book) != 0)
        return differ("the book was changed");
    return want->list.number == 0 && laws_differ(last, want->book);
}

int main(int count, char **arguments)
{
    uint32_t head[2], i;
    if (count > 2) {
        mistaken = arguments[1];
        mistake = atoi(arguments[2]);
    }
    if (mistake < NONE || mistake >= MISTAKES)
        give_up("there is no such mistake");
    book_pages = fenced(LARGEST);
    room_pages = fenced(LARGEST);
    fill(pattern, LARGEST);

    while (take(head, sizeof head)) {
        uint8_t *batch = malloc(head[1] + 1), *at = batch, *end = batch + head[1];
        if (batch == NULL || (head[1] > 0 && !take(batch, head[1])))
            give_up("no batch");
        begin_batch();
        for (i = 0; i < head[0]; i++) {
            record want;
            memcpy(&want, at, sizeof want);
            at += sizeof want;
            if (want.book > LARGEST / 2 || want.list.need > LARGEST / 2 || want.compact.need > LARGEST / 2 ||
                want.list.length > want.book || want.compact.length > want.book)
                give_up("a book is too long for this program");
            const uint8_t *listing = at + want.book, *kept = listing + want.list.length;
            if (record_differs(&want, at, listing, kept))
                place_of_difference(i);
            at += want.book + want.list.length + want.compact.length;
        }
        if (at != end)
            give_up("a batch is not what its numbers say");
        free(batch);
        answer_batch();
    }
    return 0;
}
