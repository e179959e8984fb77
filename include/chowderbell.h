/* Chowderbell: reads and writes the dates that Git writes and people type, lists, compacts and salvages books of stamps, merges the
 * lists of two build machines into one book, and shows months.
 *
 * A time is signed 64-bit seconds since 1970, a signed 32-bit offset from UTC in seconds, and a mark. The library uses no heap,
 * keeps no state and no pointer, and never looks at the clock, the time zone or the locale of the machine: the current time is an
 * argument. Every text and every number has an answer. Thread-safe: there is no shared state.
 *
 * The mark keeps the minus of "-0000", so that a program that reads a header and writes it again gets the same bytes. Set beside
 * offset 0, it says that this offset is written "-0000". Beside any other offset it means nothing. The functions with a name that
 * ends in _marked give or take it, as a uint8_t. They store 0 if it is clear and 1 if it is set; passed to them, any value but 0
 * sets it. The other functions do without: readers drop it, and chowderbell_write_header writes a time with the mark clear. An ISO
 * line does not show it, and a current time is passed without it.
 *
 * Every function but chowderbell_size and chowderbell_fronts_earlier, which return a length and cannot fail, returns one of these
 * numbers: 0 for success, else why it refused.
 *
 *   number                        given exactly when
 *   0  CHOWDERBELL_OK             it succeeded
 *   1  CHOWDERBELL_NOT_ASCII      the text holds a byte of 128 or more
 *   2  CHOWDERBELL_FORM           the text is not of the form asked for; or the number of a rule is not 1 or 2; or the text has more
 *                                 than the 4096 bytes that chowderbell_relative_turns takes
 *   3  CHOWDERBELL_MISSING        the text is relative and the current time is missing
 *   4  CHOWDERBELL_CURRENT        the text is relative and the current time's seconds or offset is out of range
 *   5  CHOWDERBELL_PAIRS          the text is relative with more than 256 pairs of a count and a unit
 *   6  CHOWDERBELL_RANGE          a relative step leaves the range; or the ISO writer is given seconds out of range or a local
 *                                 year, at the cut offset, outside 0 to 9999; or the year of a strip is outside -9999 to 9999 or
 *                                 its month outside 1 to 12
 *   7  CHOWDERBELL_OFFSET         a writer is given an offset that is too wide
 *   8  CHOWDERBELL_ROOM           the room is shorter than the bytes to be written
 *  10  CHOWDERBELL_BOOK           the book has more than 65536 bytes or a bad line; if it is to be salvaged, only if it has more
 *                                 than 65536 bytes
 *  11  CHOWDERBELL_TOO_LARGE      the number that opens a header or a raw date is too large for 64 bits: below -9223372036854775808
 *                                 or above 9223372036854775807
 *  12  CHOWDERBELL_LISTS          of the lists of two build machines, one has more than 32768 bytes, a bad line, or a line with
 *                                 fewer seconds than the line above it; or one of two front lines is bad
 *
 * No function returns 9: by that number the program whenread refuses a line of the wrong layout.
 *
 * Readers test 1, 2, 5, 3, 4, 6 in that order; writers 7, 6, 8; the functions for a book, that for a damaged one too, 10, 8; those
 * for two lists 12, 8; a strip 6, 8. A header and a raw date are tested for 11 after 1, after the number of the rule and after the
 * ":" of a header, and before all else that is 2, such as the missing or bad offset of a raw date.
 *
 * The range is seconds -377705023201 to 253402207200, and for a current time an offset of -93599 to 93599. Header and raw dates may
 * lie outside it.
 *
 * A text, a book, a list or a room of length 0 is never read or written, so its pointer may be NULL. No other pointer may be NULL.
 * What a call reads, its rooms and the variables that results are stored in must not overlap. Only two lists that are merged, or two
 * front lines, may overlap one another: they are only read.
 */
#ifndef CHOWDERBELL_H
#define CHOWDERBELL_H

#include <stddef.h>
#include <stdint.h>

#ifdef __cplusplus
extern "C" {
#endif

#define CHOWDERBELL_OK 0
#define CHOWDERBELL_NOT_ASCII 1
#define CHOWDERBELL_FORM 2
#define CHOWDERBELL_MISSING 3
#define CHOWDERBELL_CURRENT 4
#define CHOWDERBELL_PAIRS 5
#define CHOWDERBELL_RANGE 6
#define CHOWDERBELL_OFFSET 7
#define CHOWDERBELL_ROOM 8
#define CHOWDERBELL_BOOK 10
#define CHOWDERBELL_TOO_LARGE 11
#define CHOWDERBELL_LISTS 12

/* The rules for the offset of a raw date. A caller names one by its number. */
#define CHOWDERBELL_RULE_1 1 /* hours to 14; minutes 0, 15, 30 or 45 */
#define CHOWDERBELL_RULE_2 2 /* hours to 23; minutes to 59 */

/* The bytes of the longest header, and of every ISO line. */
#define CHOWDERBELL_HEADER_MAX 26
#define CHOWDERBELL_ISO_LENGTH 25

/* The most pairs of a count and a unit that a relative date has. */
#define CHOWDERBELL_PAIRS_MAX 256

/* The bytes of the longest text that chowderbell_relative_turns reads. */
#define CHOWDERBELL_TURNS_MAX 4096

/* The most bytes that a book has, and that the path of a hull has. The bytes of every key. */
#define CHOWDERBELL_BOOK_MAX 65536
#define CHOWDERBELL_PATH_MAX 255
#define CHOWDERBELL_KEY_LENGTH 16

/* The most bytes that the report on a salvaged book has. A book of 65536 newlines takes that: its rows have the numbers 1 to 65536, a
   tab, "0" and a newline. A report also has no more than 8 bytes for each byte of its book. */
#define CHOWDERBELL_SALVAGE_REPORT_MAX 513182

/* The most bytes that the list of a build machine has. The book that two lists are merged into has at most CHOWDERBELL_BOOK_MAX
   bytes, and the report on paths whose keys differ at most CHOWDERBELL_REPORT_MAX: a report is at most nine eighths as long as the
   first list, which is proved. (The row of a path of p bytes has p + 35, and each list has a line of at least p + 31 with it. Since
   few paths are short, no report has more than 36748 bytes; two lists reach that.) */
#define CHOWDERBELL_LIST_MAX 32768
#define CHOWDERBELL_REPORT_MAX 36864

/* The bytes of every strip. */
#define CHOWDERBELL_STRIP_LENGTH 50

/* Readers. When they return 0, *seconds and *offset are the time, with *mark where there is one; otherwise these are set to 0.
   They read text[0] to text[len - 1] and no other byte. */

/* A commit header's date, "1745582210 +0200". No rule limits the offset here: "+0520" and "+9999" are read. A word that is no
   offset is read as 0 and is not refused. If the first word is not a number, its leading digits are read: "12abc" is 12. A ":"
   anywhere is 2. Without one, if the first word or else its leading digits are too large, the answer is 11:
   "99999999999999999999 +0200". The mark is dropped: "5 -0000" and "5 +0000" give the same answer. Returns 0, 1, 2 or 11. */
uint8_t chowderbell_header(const uint8_t *text, size_t len, int64_t *seconds, int32_t *offset);

/* A commit header's date with its mark. The number, the seconds and the offset are those of chowderbell_header. The mark is set
   exactly if the second word is read as an offset, opens with "-" and gives 0: "5 -0000", "5 -000000", and also "5 -00-160", whose
   0 hours, -1 minutes and 60 seconds add up to 0. It is clear for "5 -0000 x", where no offset is read since there is a third word.
   Returns 0, 1, 2 or 11. */
uint8_t chowderbell_header_marked(const uint8_t *text, size_t len, int64_t *seconds, int32_t *offset, uint8_t *mark);

/* A raw date, strictly: two words, a number and an offset. An offset is a sign and two or three fields of two bytes, each of them
   two digits, or "+" and a digit: "+0545", "++5+0". Its hours are at most 14, its minutes 0, 15, 30 or 45, its seconds 0. These are
   the limits of rule 1, below. If the first word is a number that is too large, the answer is 11, also without an offset.
   The mark is dropped. Returns 0, 1, 2 or 11. */
uint8_t chowderbell_raw(const uint8_t *text, size_t len, int64_t *seconds, int32_t *offset);

/* A raw date by the rule with this number.
     rule 1  lets through an offset with hours to 14 and minutes 0, 15, 30 or 45: "+0545", "-1400".
     rule 2  lets through an offset with hours to 23 and minutes to 59: also "+0520", "-2000", "+2359".
   By both rules seconds must be 0 if there are any: "+054500". What rule 1 reads, rule 2 reads as the same time.
   For any number but 1 or 2 every text is refused: by 1 if it holds a byte of 128 or more, otherwise by 2. The mark is
   dropped. Returns 0, 1, 2 or 11. */
uint8_t chowderbell_raw_by(uint32_t rule, const uint8_t *text, size_t len, int64_t *seconds, int32_t *offset);

/* A raw date by the rule with this number, with its mark. The number returned, the seconds and the offset are those of
   chowderbell_raw_by; by rule 1 those of chowderbell_raw. The mark is set exactly if the offset opens with "-" and is 0: "5 -0000",
   "5 -+0+0". Returns 0, 1, 2 or 11. */
uint8_t chowderbell_raw_marked(uint32_t rule, const uint8_t *text, size_t len, int64_t *seconds, int32_t *offset, uint8_t *mark);

/* An ISO date: "2008-02-14 20:30:45 -0500", "20080214T203045-04:00", "2008.02.14 20:30:45". It has no mark, also with "-0000".
   Returns 0, 1 or 2. */
uint8_t chowderbell_iso(const uint8_t *text, size_t len, int64_t *seconds, int32_t *offset);

/* A relative date, "2 weeks ago", counted back from the current time. If has_now is 0 the current time is missing, and now_seconds
   and now_offset are ignored. The answer has the offset of the current time, and no mark. Returns 0 to 6. */
uint8_t chowderbell_relative(const uint8_t *text, size_t len, uint8_t has_now, int64_t now_seconds, int32_t now_offset,
                             int64_t *seconds, int32_t *offset);

/* A relative date, read by a second reader, which takes turns: one function waits for a count, the other for its unit, and each
   hands the rest of the text to the other. docs/relative-dates.md explains relative dates by this reader. If you only want the
   answer, call chowderbell_relative: it has no limit on the length, takes less than a kilobyte of stack, and is up to twice as fast.
   If len is at most 4096, the answer is that of chowderbell_relative in every case, refusals and the bound of 256 pairs included.
   White space at the ends counts toward len. If len is more, the text is refused: by 1 if it holds a byte of 128 or more,
   otherwise by 2. It calls itself at most once for each word of the text, so it goes at most 2049 calls deep. A call takes 432 bytes
   of stack on x86-64, as measured: 0.9 megabytes for 4096 bytes that are 2048 words. Returns 0 to 6. */
uint8_t chowderbell_relative_turns(const uint8_t *text, size_t len, uint8_t has_now, int64_t now_seconds, int32_t now_offset,
                                   int64_t *seconds, int32_t *offset);

/* A date in any form, tried in this order: "@" and then a raw date or a number; a number of at least 100000000, as seconds at
   offset 0; an ISO date; a relative date; a raw date. Raw dates are read by rule 1. 11 is given only by that last step:
   "99999999999999999999 days ago" is 11, and "@99999999999999999999" is 2. The mark is dropped. Returns 0 to 6, or 11. */
uint8_t chowderbell_any(const uint8_t *text, size_t len, uint8_t has_now, int64_t now_seconds, int32_t now_offset,
                        int64_t *seconds, int32_t *offset);

/* A date in any form, tried in the same order, with raw dates read by the rule with this number, also behind "@". Wherever
   chowderbell_any does not return 2, rule 2 gives the same answer. For any number but 1 or 2 every text is refused, "now" too: by 1
   if it holds a byte of 128 or more, otherwise by 2. The mark is dropped. Returns 0 to 6, or 11. */
uint8_t chowderbell_any_by(uint32_t rule, const uint8_t *text, size_t len, uint8_t has_now, int64_t now_seconds,
                           int32_t now_offset, int64_t *seconds, int32_t *offset);

/* A date in any form, with raw dates read by the rule with this number, and with its mark. The number returned, the seconds and the
   offset are those of chowderbell_any_by; by rule 1 those of chowderbell_any. If the text is read as a raw date, also behind "@",
   the mark is that of chowderbell_raw_marked: it is set for "5 -0000" and "@5 -0000". Otherwise it is clear. Returns 0 to 6, or
   11. */
uint8_t chowderbell_any_marked(uint32_t rule, const uint8_t *text, size_t len, uint8_t has_now, int64_t now_seconds,
                               int32_t now_offset, int64_t *seconds, int32_t *offset, uint8_t *mark);

/* Returns how many bytes the header of a time has, 7 to 26, also for an offset that is too wide to write. With the mark or without,
   they are as many. This is a length and not a number of the table above. */
size_t chowderbell_size(int64_t seconds, int32_t offset);

/* Writers. `len` is the length of the room. When they return 0, room[0] to room[*length - 1] are the bytes written, and the bytes
   beyond them are as they were. Otherwise *length is set to 0, and every byte of the room is as it was. They add no
   terminating zero. */

/* A header, "1745582210 +0200", of chowderbell_size bytes, with the mark clear: offset 0 is written "+0000". Seconds of the offset
   are dropped, and its sign stays: -30 is written "-0000". Returns 0; 7 for an offset of 360000 seconds (100 hours) or more either
   way; or 8. */
uint8_t chowderbell_write_header(int64_t seconds, int32_t offset, uint8_t *room, size_t len, size_t *length);

/* A header of a time with this mark. Offset 0 is written "-0000" if the mark is set. Beside any other offset the mark is ignored:
   30 is written "+0000". All else is as by chowderbell_write_header.
   A header comes back byte for byte if it is seconds as this function prints them, a space, "+" or "-", two digits of hours and two
   of minutes below 60: what chowderbell_header_marked reads from such a text is written as that text again. Returns 0, 7 or 8. */
uint8_t chowderbell_write_header_marked(int64_t seconds, int32_t offset, uint8_t mark, uint8_t *room, size_t len, size_t *length);

/* An ISO line, "2008-02-14T20:30:45-05:00", 25 bytes. The offset is first cut toward zero to whole minutes, and the line shows the
   clock at the cut offset, with + where that is zero. So chowderbell_iso reads every line back with the same seconds and the cut
   offset. Returns 0; 7 for an offset of 86400 seconds (24 hours) or more either way; 6 for seconds out of range or a local year,
   at the cut offset, outside 0 to 9999; or 8. */
uint8_t chowderbell_write_iso(int64_t seconds, int32_t offset, uint8_t *room, size_t len, size_t *length);

/* A book of stamps is a text of at most 65536 bytes with lines for cooked hulls. The empty book is good. Every line ends in a
   newline, the last one too, and has four fields with tabs between:

     hull   PATH  KEY      TIME
     since  TEXT  SECONDS  OFFSET

   PATH     1 to 255 bytes from 32 to 126.
   KEY      16 bytes, each "0" to "9" or "a" to "f".
   TIME     exactly the bytes that chowderbell_write_header_marked writes for some time at an offset of whole minutes, as
            "1745582210 +0200". It may end in "-0000". Not of that form are "+5 +0000", "05 +0000", "5 +0060" and "5 -000000".
   TEXT     a relative date without tab and newline, for which chowderbell_relative returns 0 at the current time SECONDS, OFFSET.
            So it has at most 256 pairs of a count and a unit.
   SECONDS, OFFSET
            plain decimals, as chowderbell_write_header prints seconds: "0", "-18000". Not of that form are "+5", "05" and "-0".

   Any other line is bad, and so is an empty line, or one without its newline at the end of the book. Lines are counted from 1.

   The time that a `since` line's text means is the cut-off for the `hull` lines below it, up to the next `since` line. The listing
   of a good book has the `hull` lines whose seconds are at or after their cut-off, and all those that have no `since` line above
   them, in the order of the book. Each is listed with its newline, byte for byte. A path may be in several lines; each line is
   listed or not by itself.

   A book grows by lines that are appended to it. Compacting makes it short again: of the `hull` lines with one path the last stays
   and the earlier ones go.

   A disk that is full can leave half a line in the middle of a book. Salvaging keeps the good lines of such a book and reports the
   bad ones.

   The four functions read book[0] to book[len - 1] and no other byte. */

/* Checks a book.
     0   The book is good. *line is set to 0.
     10  The book is too long, which is tested first: *line is set to 0. Or a line is bad: *line is set to the number of the first
         bad line. */
uint8_t chowderbell_book_check(const uint8_t *book, size_t len, size_t *line);

/* Writes the listing of a book to the front of a room of room_len bytes. A room of len bytes is always long enough, since a listing
   has no more bytes than its book.
     0   room[0] to room[*length - 1] are the listing, without a terminating zero. The bytes beyond them are as they were. *line is
         set to 0.
     10  The book is not good. *line is set as by chowderbell_book_check.
     8   The book is good, and its listing is longer than the room. *line is set to 0.
   If it returns 8 or 10, *length is set to 0, and every byte of the room is as it was. It uses some 6 KB of stack more than a
   check, a byte for each line that a book can have. */
uint8_t chowderbell_book_list(const uint8_t *book, size_t len, uint8_t *room, size_t room_len, size_t *length, size_t *line);

/* Writes the compacted book to the front of a room of room_len bytes: the book without each `hull` line whose path a later `hull`
   line has. Every `since` line stays, also one that is there twice. The lines that stay keep their order and their bytes. Two paths
   are the same if all their bytes are. Keys, times and cut-offs do not matter: the last line stays, even if an earlier one has a
   later time. A room of len bytes is always long enough, and one as long as the compacted book is enough. The room must not
   overlap the book, so a book is not compacted in place.
     0   room[0] to room[*length - 1] are the compacted book, without a terminating zero. The bytes beyond them are as they were.
         *line is set to 0.
     10  The book is not good. *line is set as by chowderbell_book_check.
     8   The book is good, and the compacted book is longer than the room. *line is set to 0.
   If it returns 8 or 10, *length is set to 0, and every byte of the room is as it was.
   The compacted book is good, and compacted again it stays the same. Good lines may be appended to it, up to 65536 bytes in all. Its
   listing is the listing of the book without the lines that went. So compacting can take a hull off the listing: if its last line is
   before the cut-off, an older line of it may have been listed, and that line is gone.
   It uses some 28 KB of stack more than a check, for the paths that it has met and the places of the lines that stay. */
uint8_t chowderbell_book_compact(const uint8_t *book, size_t len, uint8_t *room, size_t room_len, size_t *length, size_t *line);

/* Salvages a damaged book: copies its good lines, and reports the bad ones.

   Each line is judged alone, by the rules for a book above: whether it is good does not depend on the lines around it. The good lines
   are written to the front of a room of room_len bytes, each with its newline, in their order and with their bytes. The report is
   written to the front of a room of report_len bytes. It has a row for each bad line:

     NUMBER  LENGTH

   with a tab between and a newline after. NUMBER is the number of the line, counted from 1 among all lines of the book. LENGTH is how
   many bytes the line has without its newline. Both are plain decimals. The rows are in the order of the book.

   A last piece without a newline is bad, even if its bytes would do, and is reported with its full length. An empty last piece is no
   line. Two newlines are two bad lines of length 0. So the lines kept and the lines reported add up to the newlines of the book, and
   one more for a last piece that is not empty.

   A room of len bytes is always long enough for the lines kept. A report has at most 8 bytes for each byte of the book, and never
   more than CHOWDERBELL_SALVAGE_REPORT_MAX. Rooms of exactly the bytes to be written are enough. If room_len is at least len and
   report_len at least 8 * len, each line is judged once. Otherwise the book is measured first, and its lines are judged twice.
   Neither room may overlap the book, so a book is not salvaged in place.
     0   room[0] to room[*length - 1] are the lines kept, report[0] to report[*report_length - 1] the report, both without a
         terminating zero. The bytes beyond them are as they were. *last_bad is set to the number of the last bad line, or to 0 if no
         line is bad.
     10  The book has more than CHOWDERBELL_BOOK_MAX bytes. A bad line is not a reason to refuse.
     8   The lines kept are longer than their room, or the report is longer than its room.
   If it returns 8 or 10, *length, *report_length and *last_bad are set to 0, and every byte of both rooms is as it was.
   The lines kept are a good book. A good book is kept as it is, and its report is empty; so the lines kept, salvaged again, stay the
   same. For a book that is not good and not too long, the first row has the line that chowderbell_book_check names.
   A line is judged by its form. Damage that leaves a line in good form is not found, and the line is kept: a digit of a key that
   has become another digit, for example.
   If a bad line was a `since` line, its cut-off is lost: the `hull` lines below it then fall under the cut-off of the `since` line
   above it, or under none. So the listing can gain hulls or lose hulls by salvaging, also hulls whose own lines were not damaged. */
uint8_t chowderbell_book_salvage(const uint8_t *book, size_t len, uint8_t *room, size_t room_len, uint8_t *report, size_t report_len,
                                 size_t *length, size_t *report_length, size_t *last_bad);

/* Two build machines keep a list each: a text of at most 32768 bytes that has `hull` lines only, as they are in a book, each with its
   newline, with seconds that never fall from line to line. The empty list is good. A bad line of a list is any line that is not a
   good `hull` line, so a `since` line is bad, and a last line without its newline. A line with fewer seconds than the line above it
   is a step back, and refused too. Offsets and marks do not count. Lines are counted from 1, in each list.

   The first of two lists is the first machine's, the second the second machine's. Where these functions store a machine, it is 1 or
   2, or 0 if there is none to name.

   A front line is the line that is next in a list: one good `hull` line with its newline, or nothing, if no line is left. Any other
   text is bad: also two lines, a line without its newline, and a newline alone.

   The three functions read first[0] to first[first_len - 1] and second[0] to second[second_len - 1] and no other byte. */

/* Checks two front lines.
     0   Neither is bad. An empty one is not bad. *machine and *line are set to 0.
     12  One is bad. *machine is set to the machine whose line it is, 1 if both are bad, and *line to 1. */
uint8_t chowderbell_fronts_check(const uint8_t *first, size_t first_len, const uint8_t *second, size_t second_len,
                                 uint8_t *machine, size_t *line);

/* Finds the earlier of two front lines, the one with fewer seconds. On a tie it is the first machine's. An empty front line loses.
   It returns the length of the earlier line, with its newline, and sets *machine to the machine whose line it is: the line is
   first[0] to first[first_len - 1] if that is 1, and second[0] to second[second_len - 1] if it is 2. Nothing is copied.
   If both are empty, or if one of them is bad, it returns 0 and sets *machine to 0: a good line beside a bad one is not returned.
   chowderbell_fronts_check tells these two cases apart. The value returned is a length and not a number of the table above. */
size_t chowderbell_fronts_earlier(const uint8_t *first, size_t first_len, const uint8_t *second, size_t second_len,
                                  uint8_t *machine);

/* Merges two lists into one book, and reports the paths whose keys differ.

   The merged book has every line of both lists, byte for byte. Seconds never fall in it. Of lines with the same seconds those of the
   first machine come first. The lines of each machine keep their order. A line that both lists have is there twice.

   The report has a row for each path that is in both lists, if the key in its last line of the first list differs from the key in
   its last line of the second:

     PATH  KEY of the first machine  KEY of the second machine

   with tabs between and a newline after. Each such path is there once. The rows have the order in which their paths first come in
   the merged book, from whichever machine. Two paths are the same if all their bytes are.

   The merged book is written to the front of a room of book_len bytes, the report to the front of one of report_len bytes. The
   merged book has first_len + second_len bytes. The report has no more than CHOWDERBELL_REPORT_MAX bytes, and no more than nine
   eighths of first_len. Two lists without a path in both need no room for a report.
     0   book[0] to book[*book_length - 1] are the merged book, report[0] to report[*report_length - 1] the report, both without a
         terminating zero. The bytes beyond them are as they were. *machine and *line are set to 0.
     12  A list is not good. *machine is set to the machine whose list it is.
         It is too long: *line is set to 0. The lengths of both lists are tested first, that of machine 1 before that of machine 2.
         Or a line of it is bad or a step back: *line is set to the number of the first such line. The lines of machine 1 are tested
         before those of machine 2.
     8   Both lists are good, and the merged book or the report is longer than its room. *machine and *line are set to 0.
   If it returns 8 or 12, *book_length and *report_length are set to 0, and every byte of both rooms is as it was.
   The merged book is a good book. If it has at most 32768 bytes, it is also a good list.
   It uses some 69 KB of stack, for the last lines of the paths in both lists. */
uint8_t chowderbell_lists_merge(const uint8_t *first, size_t first_len, const uint8_t *second, size_t second_len, uint8_t *book,
                                size_t book_len, uint8_t *report, size_t report_len, size_t *book_length, size_t *report_length,
                                uint8_t *machine, size_t *line);

/* A month's strip: what a calendar shows of one month, with a row for each week. Rows begin on Monday. The calendar is the proleptic
   Gregorian calendar of ISO 8601: year 0 is there, and is a leap year.

     room[0]         the length of the month, 28 to 31
     room[1]         the weekday of its first day, 1 for Monday to 7 for Sunday
     room[2 + r]     the ISO week of row r, 1 to 53; r is 0 to 5
     room[8 + 7 * r + c]
                     the number of the day in row r and column c, 1 to room[0], or 0 if it is a day of another month; c is 0 for
                     Monday to 6 for Sunday

   The first row holds the 1st. Each day of the month is there once, in order and under its weekday. The week of a row is that of its
   Thursday, also where that is a day of a neighbouring year: in January 2021 the weeks are 53, 1, 2, 3, 4, 0. A row with no day of
   the month has week 0; only the last two rows can be such rows.

   `len` is the length of the room.
     0   room[0] to room[49] are the strip, the bytes beyond them are as they were, and *length is set to 50.
     6   The year is not -9999 to 9999, or the month is not 1 to 12. *length is set to 0, and every byte of the room is as it was.
     8   The room has fewer than 50 bytes. *length and the room are as for 6.

   A call reads the table of 4,800 months, which stands in the archive once. */
uint8_t chowderbell_strip(int64_t year, int64_t month, uint8_t *room, size_t len, size_t *length);

#ifdef __cplusplus
}
#endif

#endif
