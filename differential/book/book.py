#!/usr/bin/env python3
"""Judges, checks, lists and compacts a book of stamps: a reference that shares no code with the library.

It was written from the words of docs/RULES.md (1.4, 2.4, 3, 4.1, 7, 9.1; 13.5 for the mark of a stamp, 13.15 and 13.16 for
compacting), and for the rest of the book from those that section 13 was made from.
Every number is a Python integer, so nothing here can overflow.

Usage: book.py list < BOOK      the number, the line and the length, then the listing
       book.py compact < BOOK   the number, the line and the length, then the compacted book
       book.py judge < BOOK     each line of the book judged alone: `hull` and its seconds, `since` and its cut-off, or `bad`
       book.py selftest [FOLDER]
                                the cases at the end of this file, all offsets of a sign and four digits, the laws of
                                compacting for all small books, the calendar, the example beside this file, and the relative
                                dates among the vectors in FOLDER; exit status 1 if anything differs

The book is read from standard input. In the output of `judge` the last line is marked if it has no newline.
"""

import re
import sys
from itertools import product
from pathlib import Path

# ---------------------------------------------------------------------------------------------------------------------------
# The calendar: RULES 3. Day 0 is 1 January 1970; years are counted as in ISO 8601, so year 0 comes before year 1.

DAY = 86400


def is_leap(year):
    """It divides by 4, but not by 100 unless by 400."""
    return year % 4 == 0 and (year % 100 != 0 or year % 400 == 0)


def first_day_of_year(year):
    """365 days for each year since 1970, and one for each leap year among them. Python's division rounds down, also below 0."""
    before = year - 1
    leap_years = before // 4 - before // 100 + before // 400
    return 365 * (year - 1970) + leap_years - (1969 // 4 - 1969 // 100 + 1969 // 400)


def month_lengths(year):
    return [31, 29 if is_leap(year) else 28, 31, 30, 31, 30, 31, 31, 30, 31, 30, 31]


def first_day_of_month(months):
    """The first day of a month counted from January of year 0, which is month 0."""
    year, month = divmod(months, 12)
    return first_day_of_year(year) + sum(month_lengths(year)[:month])


def date_of_day(day):
    """The month that a day lies in, counted from January of year 0, and its day of the month, from 1."""
    year = 1970 + day * 400 // 146097
    while first_day_of_year(year) > day:
        year -= 1
    while first_day_of_year(year + 1) <= day:
        year += 1
    left = day - first_day_of_year(year)
    for month, length in enumerate(month_lengths(year)):
        if left < length:
            return 12 * year + month, left + 1
        left -= length
    raise AssertionError("a year ends after its twelfth month")


# ---------------------------------------------------------------------------------------------------------------------------
# The rules. Each is a method or a constant of its own, so that compare.py can replace one of them by a mistake.

BAD = None  # the judgement of a bad line; a good one has ("hull", seconds) or ("since", cut-off)


class Rules:
    LONGEST_BOOK = 65536
    LINE_OF_LONG_BOOK = 0
    FIRST_LINE = 1
    SHORTEST_PATH, LONGEST_PATH = 1, 255
    SMALLEST_IN_PATH, LARGEST_IN_PATH = 32, 126
    KEY = re.compile(rb"[0-9a-f]{16}")

    MIN_SECONDS, MAX_SECONDS = -377705023201, 253402207200  # RULES 2.4
    MAX_CURRENT_OFFSET = 93599
    WIDEST_OFFSET = 360000  # RULES 2.5: refused from here on
    MOST_PAIRS = 256
    WHITE_SPACE = bytes([9, 10, 11, 12, 13, 32])  # RULES 4.1
    WORD = re.compile(rb"[A-Za-z0-9]+")
    COUNTS = {
        b"one": 1, b"two": 2, b"three": 3, b"four": 4, b"five": 5,
        b"six": 6, b"seven": 7, b"eight": 8, b"nine": 9, b"ten": 10, b"last": 1,
    }
    SECONDS_OF = {b"second": 1, b"minute": 60, b"hour": 3600, b"day": DAY, b"week": 7 * DAY}
    MONTHS_OF = {b"month": 1, b"year": 12}

    def __init__(self):
        self.known = {}  # the judgements of lines that were judged before

    # --- a book ------------------------------------------------------------------------------------------------------------

    def answer(self, book):
        """The number, the line, the listing, and the room that the listing needs."""
        if len(book) > self.LONGEST_BOOK:
            return 10, self.LINE_OF_LONG_BOOK, b"", 0
        lines = book.split(b"\n")
        last_piece = lines.pop()
        hulls = []
        cut_off = None
        for number, line in enumerate(lines, self.FIRST_LINE):
            judgement = self.judge(line)
            if judgement is BAD:
                return 10, number, b"", 0
            kind, seconds = judgement
            if kind == "since":
                cut_off = self.next_cut_off(cut_off, seconds)
            elif kind == "hull" and self.keeps(cut_off, seconds):
                hulls.append(line)
        if self.is_bad_piece(last_piece):
            return 10, len(lines) + self.FIRST_LINE, b"", 0
        listing = self.listing(hulls)
        return 0, 0, listing, self.room_needed(book, listing)

    def is_bad_piece(self, piece):
        """Lines end in a newline, so what follows the last newline must be nothing."""
        return piece != b""

    def next_cut_off(self, cut_off, seconds):
        """The last `since` line above counts, whatever came before it."""
        return seconds

    def keeps(self, cut_off, seconds):
        """At or after the cut-off; all lines where there is none."""
        return cut_off is None or seconds >= cut_off

    def listing(self, hulls):
        return b"".join(line + b"\n" for line in hulls)

    def room_needed(self, book, listing):
        return len(listing)

    # --- a compacted book: RULES 13.15 and 13.16 -----------------------------------------------------------------------------

    def compact(self, book):
        """The number, the line, the compacted book, and the room that it needs. A book that is not good is refused as ever."""
        number, line, _, _ = self.answer(book)
        if number != 0:
            return number, line, b"", 0
        lines = book.split(b"\n")[:-1]
        compacted = self.listing([lines[place] for place in self.places_that_stay(lines)])
        return 0, 0, compacted, self.room_to_compact(book, compacted)

    def places_that_stay(self, lines):
        """Each `hull` line whose path a later `hull` line has is dropped. All other lines stay, in their order."""
        paths_below = set()
        stay = []
        for place in reversed(range(len(lines))):
            fields = lines[place].split(b"\t")
            if fields[0] == b"hull":
                if fields[1] in paths_below:
                    continue
                paths_below.add(fields[1])
            stay.append(place)
        return stay[::-1]

    def room_to_compact(self, book, compacted):
        return len(compacted)

    def compact_into(self, book, room):
        """What a call leaves behind: the number, the length, the line, and the bytes of the room."""
        number, line, compacted, need = self.compact(book)
        if number != 0:
            return number, 0, line, room
        if len(room) < need:
            return 8, 0, 0, room
        return 0, len(compacted), 0, compacted + room[len(compacted):]

    # --- a line, without its newline ---------------------------------------------------------------------------------------

    def judge(self, line):
        if line not in self.known:
            self.known[line] = self.judge_alone(line)
        return self.known[line]

    def judge_alone(self, line):
        fields = line.split(b"\t")
        if len(fields) != 4:
            return BAD
        if fields[0] == b"hull":
            _, path, key, time = fields
            if not self.is_path(path) or not self.is_key(key):
                return BAD
            seconds = self.stamp(time)
            return BAD if seconds is None else ("hull", seconds)
        if fields[0] == b"since":
            _, text, current_seconds, current_offset = fields
            seconds = self.plain_number(current_seconds, 64)
            offset = self.plain_number(current_offset, 32)
            if seconds is None or offset is None:
                return BAD
            number, cut_off = self.relative(text, seconds, offset)
            return BAD if number != 0 else ("since", cut_off)
        return BAD

    def is_path(self, path):
        """1 to 255 bytes from 32 to 126."""
        return self.SHORTEST_PATH <= len(path) <= self.LONGEST_PATH and all(
            self.SMALLEST_IN_PATH <= byte <= self.LARGEST_IN_PATH for byte in path
        )

    def is_key(self, key):
        """16 lower-case hex digits."""
        return self.KEY.fullmatch(key) is not None

    def stamp(self, text):
        """The seconds of a time, if the text is exactly what the header writer gives for some time at a whole-minute offset.

        The text is read as loosely as Python reads numbers; what decides is that the time found is written as the same bytes.
        Whether it has the mark is not read from the text: it is written both ways.
        """
        seconds, space, offset = text.partition(b" ")
        if not space or len(offset) != 5:
            return None
        try:
            seconds, hours, minutes = int(seconds), int(offset[1:3]), int(offset[3:5])
        except ValueError:
            return None
        offset = (3600 * hours + 60 * minutes) * (-1 if offset[:1] == b"-" else 1)
        if not self.is_time(seconds, offset) or not any(self.header(seconds, offset, mark) == text for mark in (False, True)):
            return None
        return seconds

    def is_time(self, seconds, offset):
        """64-bit seconds, a 32-bit offset of whole minutes which the header writer does not refuse."""
        return fits(seconds, 64) and offset % 60 == 0 and abs(offset) < self.WIDEST_OFFSET

    def header(self, seconds, offset, mark):
        """RULES 9.1: what the header writer writes. The mark tells the sign of offset 0, and of no other."""
        hours, minutes = divmod(abs(offset) // 60, 60)
        return b"%d %c%02d%02d" % (seconds, b"-" if offset < 0 or (offset == 0 and mark) else b"+", hours, minutes)

    def plain_number(self, text, bits):
        """A number that stands as the header writer prints seconds: plain decimal, `-` only below 0, no leading zero."""
        try:
            number = int(text)
        except ValueError:
            return None
        return number if fits(number, bits) and b"%d" % number == text else None

    # --- a relative date: RULES 7, refusals in the order of 2.2 --------------------------------------------------------------

    def relative(self, text, seconds, offset):
        """The number, and on success the seconds of the answer."""
        if any(byte >= 128 for byte in text):
            return 1, 0
        trimmed = text.strip(self.WHITE_SPACE).lower()
        if trimmed in (b"now", b"today"):
            pairs = []
        elif trimmed == b"yesterday":
            pairs = [(1, b"day")]
        else:
            pairs, marked = self.pairs(text)
            units = [unit for _, unit in pairs]
            if not pairs or (not marked and any(self.is_unknown(unit) for unit in units)):
                return 2, 0
            if len(pairs) > self.MOST_PAIRS:
                return 5, 0
        if not self.is_current(seconds, offset):
            return 4, 0
        for count, unit in pairs:
            seconds = self.step(seconds, offset, count, unit)
            if not self.in_range(seconds):
                return 6, 0
        return 0, seconds

    def in_range(self, seconds):
        return self.MIN_SECONDS <= seconds <= self.MAX_SECONDS

    def is_current(self, seconds, offset):
        return self.in_range(seconds) and abs(offset) <= self.MAX_CURRENT_OFFSET

    def pairs(self, text):
        """The pairs of a count and a unit, and whether the mark was set."""
        pairs = []
        marked = False
        count = None
        for word in self.WORD.findall(text.lower()):
            if count is not None:
                pairs.append((count, self.unit(word)))
                count = None
            elif word == b"ago":
                marked = True
            elif word.isdigit():
                digits = word.lstrip(b"0") or b"0"
                count = int(digits) if len(digits) < 20 and fits(int(digits), 64) else None
            else:
                count = self.COUNTS.get(word)
        return pairs, marked

    def unit(self, word):
        """A unit loses one final `s`."""
        return word[:-1] if word.endswith(b"s") else word

    def is_unknown(self, unit):
        return unit not in self.SECONDS_OF and unit not in self.MONTHS_OF

    def step(self, seconds, offset, count, unit):
        if unit in self.MONTHS_OF:
            return self.months_back(seconds, offset, count * self.MONTHS_OF[unit])
        return seconds - count * self.SECONDS_OF.get(unit, 1)

    def months_back(self, seconds, offset, count):
        """On the local clock. Days beyond the end of the month reached run on from the next month's first."""
        day, clock = divmod(seconds + offset, DAY)
        month, day_of_month = date_of_day(day)
        return (first_day_of_month(month - count) + day_of_month - 1) * DAY + clock - offset


def fits(number, bits):
    return -(1 << (bits - 1)) <= number < 1 << (bits - 1)


# ---------------------------------------------------------------------------------------------------------------------------
# Cases with their answers, worked out by hand. H is a hull line and S a since line, without their newlines.

K = b"0123456789abcdef"


def H(time, path=b"a", key=K):
    return b"hull\t" + path + b"\t" + key + b"\t" + time


def S(text, seconds=b"0", offset=b"0"):
    return b"since\t" + text + b"\t" + seconds + b"\t" + offset


def book(*lines):
    return b"".join(line + b"\n" for line in lines)


def good(what, *lines, listed):
    """A good book, and the numbers (from 1) of the lines that are listed."""
    return what, book(*lines), 0, 0, book(*(lines[place - 1] for place in listed))


def bad(what, *lines, line=1):
    return what, book(*lines), 10, line, b""


def good_line(what, line):
    """One line, good by itself: a hull is listed, a since is not."""
    return good(what, line, listed=[1] if line.startswith(b"hull") else [])


# Noon of 31 May 2021, 1622462400, less a month is noon of 1 May, 1619870400 (RULES 11.7); noon of 31 March is 1617192000.
NOON = b"1622462400"

CASES = [
    # the rows of the table of open readings
    good_line("1a: `-0000` is offset 0 with the mark", H(b"0 -0000")),
    ("1b: a good line without its newline", H(b"5 +0000"), 10, 1, b""),
    ("1b: also behind a good line", book(H(b"5 +0000")) + H(b"5 +0000"), 10, 2, b""),
    good_line("1c: the numbers of the text are its own", S(b"007 days ago")),
    bad("1d: `now` must succeed at its current time", S(b"now", b"253402207201")),
    good_line("1d: the last second of the range", S(b"now", b"253402207200")),
    good_line("1e: the header writer has no range", H(b"9223372036854775807 +9959")),
    ("1f: too long is tested first", b"\n" * 65537, 10, 0, b""),
    ("1f: 65,536 bytes are not too long", b"\n" * 65536, 10, 1, b""),
    good("1g: a listed line has its newline", H(b"5 +0000"), listed=[1]),
    good_line("1h: only tab and newline are kept out of the text", S(b"1\rday\0")),
    bad("1h: a byte of 128 makes the text fail", S(b"1 day\x80")),
    good("1i: the last since above", S(b"now", b"9"), S(b"now", b"1"), H(b"5 +0000"), listed=[3]),
    good("1i: also if it is the stricter one", S(b"now", b"1"), S(b"now", b"9"), H(b"5 +0000"), listed=[]),
    bad("1j: an empty line is neither kind", b""),
    bad("1j: also between good lines", H(b"5 +0000"), b"", H(b"5 +0000"), line=2),
    # books
    good("the empty book", listed=[]),
    good("no since: all hulls", H(b"5 +0000"), H(b"-5 +0000"), H(b"5 +0000"), listed=[1, 2, 3]),
    good("hulls above the since are not cut", H(b"5 +0000"), S(b"now", b"9"), H(b"8 +0000"), listed=[1]),
    good("at the cut-off, before it, after it", S(b"now", b"9"), H(b"9 +0000"), H(b"8 +0000"), H(b"10 +0000"), listed=[2, 4]),
    good("the offset of a hull does not count", S(b"now", b"0"), H(b"0 +9959"), H(b"0 -9959"), H(b"-1 +9959"), listed=[2, 3]),
    good("nor does its mark", S(b"now", b"9"), H(b"9 -0000"), H(b"8 -0000"), H(b"9 +0000"), H(b"8 +0000"), listed=[2, 4]),
    good("the offset of a since moves no `now`", S(b"now", b"5", b"93599"), H(b"5 +0000"), H(b"4 +0000"), listed=[2]),
    good("since lines alone list nothing", S(b"now"), S(b"yesterday"), listed=[]),
    bad("the first bad line is named", H(b"5 +0000"), S(b"now"), H(b"05 +0000"), b"", line=3),
    # cut-offs
    good("31 May less a month is 1 May", S(b"1 month ago", NOON), H(b"1619870400 +0000"), H(b"1619870399 +0000"), listed=[2]),
    good("31 May less two months is 31 March", S(b"2 months", NOON), H(b"1617192000 +0000"), H(b"1617191999 +0000"), listed=[2]),
    good("yesterday", S(b" YesterDay\x0b", b"86400"), H(b"0 +0000"), H(b"-1 +0000"), listed=[2]),
    # 1614555000 at +1:00 is 00:30 of 1 March 2021; 28 days before is 00:30 of 1 February
    good("months by the local clock", S(b"1 month", b"1614555000", b"3600"), H(b"1612135800 +0000"), H(b"1612135799 +0000"), listed=[2]),
    # midnight of 29 February of year 0; year -1 has no such day, so a year before is 1 March of year -1, and from there to
    # 29 February are 306 + 31 + 28 = 365 days
    good("a year back over year 0", S(b"1 year", b"-62162121600"), H(b"-62193657600 +0000"), H(b"-62193657601 +0000"), listed=[2]),
    good("weeks to seconds", S(b"1 week 1 day 1 hour 1 minute 1 second", b"694861"), H(b"0 +0000"), H(b"-1 +0000"), listed=[2]),
    good("unknown units with ago are seconds", S(b"5 x 3 ago ago", b"8"), H(b"0 +0000"), H(b"-1 +0000"), listed=[2]),
    good("too many digits are passed over", S(b"9223372036854775808 1 day", b"86400"), H(b"0 +0000"), H(b"-1 +0000"), listed=[2]),
    good("leading zeros are not too many", S(b"0" * 40 + b"1 day", b"86400"), H(b"0 +0000"), H(b"-1 +0000"), listed=[2]),
    # since lines
    bad("a text that is not relative", S(b"5 +0000")),
    bad("an empty text", S(b"")),
    bad("an unknown unit without ago", S(b"2 ago")),
    bad("an unknown unit beside a known one", S(b"1 day 1 x")),
    bad("a count alone", S(b"5 ago")),
    good_line("256 pairs", S(b"1 day " * 256)),
    bad("257 pairs", S(b"1 day " * 257)),
    good_line("256 pairs and a count", S(b"1 day " * 256 + b"5")),
    # 40 less 33 seconds; by the first 32 pairs the cut-off would be 8
    good("33 pairs, all of them counted", S(b"1 second " * 33, b"40"), H(b"7 +0000"), H(b"6 +0000"), listed=[2]),
    good("256 pairs, all of them counted", S(b"1 second " * 256, b"256"), H(b"0 +0000"), H(b"-1 +0000"), listed=[2]),
    good_line("the first second of the range", S(b"now", b"-377705023201")),
    bad("one before it", S(b"now", b"-377705023202")),
    bad("a step from there", S(b"1 second", b"-377705023201")),
    good_line("no step from there", S(b"0 seconds", b"-377705023201")),
    good_line("the widest current offsets", S(b"now", b"0", b"93599")),
    good_line("also below 0", S(b"now", b"0", b"-93599")),
    bad("one beyond", S(b"now", b"0", b"93600")),
    bad("one beyond, below 0", S(b"now", b"0", b"-93600")),
    bad("no 64-bit number", S(b"now", b"9223372036854775808")),
    bad("no 32-bit number, 2^32", S(b"now", b"0", b"4294967296")),
    bad("current seconds with a sign", S(b"now", b"+5")),
    bad("current seconds with a leading zero", S(b"now", b"05")),
    bad("minus zero", S(b"now", b"-0")),
    bad("no current seconds", S(b"now", b"")),
    bad("a missing current time", S(b"now", b"-", b"-")),
    bad("offset `+0`", S(b"now", b"0", b"+0")),
    bad("offset `-0`", S(b"now", b"0", b"-0")),
    bad("offset `-0000`, which is for hulls", S(b"now", b"0", b"-0000")),
    bad("offset `007`", S(b"now", b"0", b"007")),
    bad("offset as a header has it", S(b"now", b"0", b"+0100")),
    bad("a fifth field", S(b"now") + b"\t"),
    bad("a tab in the text", S(b"1\tday")),
    bad("a capital", b"Since\tnow\t0\t0"),
    bad("three fields", b"since\tnow\t0"),
    # hull lines
    good_line("a path of 255 bytes", H(b"5 +0000", b"~" * 255)),
    bad("a path of 256 bytes", H(b"5 +0000", b"~" * 256)),
    bad("an empty path", H(b"5 +0000", b"")),
    good_line("a path of a space", H(b"5 +0000", b" ")),
    bad("byte 31 in a path", H(b"5 +0000", b"a\x1f")),
    bad("byte 127 in a path", H(b"5 +0000", b"\x7fa")),
    bad("byte 128 in a path", H(b"5 +0000", b"a\x80a")),
    bad("a key of 15 digits", H(b"5 +0000", key=K[1:])),
    bad("a key of 17 digits", H(b"5 +0000", key=K + b"0")),
    bad("a key with a capital", H(b"5 +0000", key=b"0123456789abcdeF")),
    bad("a key with g", H(b"5 +0000", key=b"0123456789abcdeg")),
    bad("an empty key", H(b"5 +0000", key=b"")),
    good_line("a time", H(b"1745582210 +0200")),
    good_line("whole minutes", H(b"5 +0130")),
    good_line("west", H(b"5 -0800")),
    good_line("west by one minute", H(b"5 -0001")),
    good_line("zero", H(b"0 +0000")),
    good_line("below zero", H(b"-1 +0000")),
    bad("minus zero", H(b"-0 +0000")),
    bad("a leading zero", H(b"05 +0000")),
    bad("a sign", H(b"+5 +0000")),
    # the mark lets `-0000` in, and nothing like it: what the header reader also takes for offset 0 is never written
    good_line("the mark", H(b"1745582210 -0000")),
    good_line("the mark, below zero", H(b"-1 -0000")),
    good_line("the mark, 2^63 - 1", H(b"9223372036854775807 -0000")),
    good_line("the mark, -2^63", H(b"-9223372036854775808 -0000")),
    bad("the mark, 2^63", H(b"9223372036854775808 -0000")),
    bad("the mark, minus zero", H(b"-0 -0000")),
    bad("the mark, a leading zero", H(b"05 -0000")),
    bad("the mark, a sign", H(b"+5 -0000")),
    bad("the mark, minute 60", H(b"5 -0060")),
    bad("the mark, seconds", H(b"5 -000000")),
    bad("the mark, seconds that add up to 0", H(b"5 -00-160")),
    bad("the mark, signs inside", H(b"5 -+0+0")),
    bad("the mark, three digits", H(b"5 -000")),
    bad("the mark, a colon", H(b"5 -00:00")),
    bad("the mark, two signs", H(b"5 --0000")),
    bad("the mark, a word behind", H(b"5 -0000 x")),
    bad("the mark, a space behind", H(b"5 -0000 ")),
    bad("the mark, no space", H(b"5-0000")),
    good_line("the widest offset", H(b"5 +9959")),
    good_line("also west", H(b"5 -9959")),
    bad("minute 60", H(b"5 +0160")),
    bad("minute 60 of hour 99", H(b"5 +9960")),
    bad("an offset with seconds", H(b"5 +013000")),
    bad("an offset without a sign", H(b"5 0130")),
    bad("an offset with a colon", H(b"5 +01:30")),
    bad("an offset of three digits", H(b"5 +130")),
    bad("a sign inside the offset", H(b"5 ++1+3")),
    bad("no offset", H(b"5")),
    bad("two spaces", H(b"5  +0000")),
    bad("a space behind", H(b"5 +0000 ")),
    bad("a space in front", H(b" 5 +0000")),
    bad("a carriage return", H(b"5 +0000\r")),
    bad("2^63", H(b"9223372036854775808 +0000")),
    good_line("-2^63", H(b"-9223372036854775808 -9959")),
    bad("-2^63 - 1", H(b"-9223372036854775809 +0000")),
    bad("a fifth field", H(b"5 +0000") + b"\t"),
    bad("a space for a tab", H(b"5 +0000").replace(b"\t", b" ", 1)),
    bad("a capital", b"HULL" + H(b"5 +0000")[4:]),
    bad("no field but the first", b"hull"),
]

# ---------------------------------------------------------------------------------------------------------------------------
# Compacting: cases worked out by hand. The keys and times are made different where the answer would otherwise not show which of
# two lines stayed.


def stays(what, *lines, stay):
    """A good book, and the numbers (from 1) of the lines that stay when it is compacted."""
    return what, book(*lines), 0, 0, book(*(lines[place - 1] for place in stay))


def with_path(path, seconds=5):
    """A hull line whose time and key tell it from other lines with its path."""
    return H(b"%d +0000" % seconds, path, b"%016x" % (seconds & 0xFFFF))


A1, A2, A3 = (with_path(b"a", seconds) for seconds in (1, 2, 3))
B1, B2 = (with_path(b"b", seconds) for seconds in (1, 2))
C1 = with_path(b"c", 1)
NOW5, NOW9 = S(b"now", b"5"), S(b"now", b"9")

COMPACT_CASES = [
    # which lines stay
    stays("the empty book", stay=[]),
    stays("one hull", A1, stay=[1]),
    stays("the same path twice: the last line", A1, A2, stay=[2]),
    stays("the same path three times", A1, A2, A3, stay=[3]),
    stays("the last line, and not the latest time", A3, A1, A2, stay=[3]),
    stays("the same line three times", A1, A1, A1, stay=[3]),
    stays("a, b, a' gives b, a'", A1, B1, A2, stay=[2, 3]),
    stays("a, a', b gives a', b", A1, A2, B1, stay=[2, 3]),
    stays("a, b, b' gives a, b'", A1, B1, B2, stay=[1, 3]),
    stays("a, b, a', b' gives a', b'", A1, B1, A2, B2, stay=[3, 4]),
    stays("a, b, b', a' gives b', a'", A1, B1, B2, A2, stay=[3, 4]),
    stays("different paths all stay, in their order", C1, B1, A1, stay=[1, 2, 3]),
    stays("and also where the order is by path", A1, B1, C1, stay=[1, 2, 3]),
    stays("a, b, c, a', b', a'' gives c, b', a''", A1, B1, C1, A2, B2, A3, stay=[3, 5, 6]),
    # keys and times do not count
    stays("the same path with another key", H(b"5 +0000", b"a", b"0" * 16), H(b"5 +0000", b"a", b"f" * 16), stay=[2]),
    stays("the same path with another time", H(b"5 +0000"), H(b"5 +0130"), stay=[2]),
    stays("the same path and seconds, then with the mark", H(b"5 +0000"), H(b"5 -0000"), stay=[2]),
    stays("the same path and seconds, then without", H(b"5 -0000"), H(b"5 +0000"), stay=[2]),
    stays("other paths, with the mark and without", H(b"5 -0000", b"a"), H(b"5 +0000", b"b"), stay=[1, 2]),
    stays("other paths with the same key and time", H(b"5 +0000", b"a"), H(b"5 +0000", b"b"), stay=[1, 2]),
    stays("the path is as the key", H(b"5 +0000", K), H(b"5 +0000", b"a"), H(b"5 +0000", K), stay=[2, 3]),
    stays("the path is as the time", H(b"5 +0000", b"5 +0000"), H(b"5 +0000", b"5 +0001"), stay=[1, 2]),
    # since lines
    stays("only since lines", NOW5, NOW9, stay=[1, 2]),
    stays("the same since line three times", NOW5, NOW5, NOW5, stay=[1, 2, 3]),
    stays("since lines between", A1, NOW5, A2, NOW5, A3, NOW9, stay=[2, 4, 5, 6]),
    stays("a since line between does not keep the first", A1, NOW9, A2, stay=[2, 3]),
    stays("since lines without a hull between them", NOW9, A1, NOW5, NOW9, NOW5, A2, stay=[1, 3, 4, 5, 6]),
    stays("a since line at the end", A1, A2, NOW9, stay=[2, 3]),
    # cut-offs do not count: line 2 would be listed, line 4 is not, and line 4 stays
    stays("before the cut-off", NOW5, with_path(b"a", 5), NOW9, with_path(b"a", 8), stay=[1, 3, 4]),
    stays("a path that is the text of a since line below", H(b"5 +0000", b"now"), NOW5, stay=[1, 2]),
    stays("and of one above", NOW5, H(b"5 +0000", b"now"), stay=[1, 2]),
    stays("and of one between", H(b"5 +0000", b"now"), NOW5, H(b"6 +0000", b"now"), stay=[2, 3]),
    stays("the path `since`, the path `hull`", H(b"5 +0000", b"since"), NOW5, H(b"5 +0000", b"hull"), stay=[1, 2, 3]),
    # paths are the same if all their bytes are
    stays("prefixes of one another", with_path(b"a"), with_path(b"aa"), with_path(b"aaa"), stay=[1, 2, 3]),
    stays("prefixes, the longest first", with_path(b"aaa"), with_path(b"aa"), with_path(b"a"), stay=[1, 2, 3]),
    stays("ends of one another", with_path(b"ba"), with_path(b"a"), with_path(b"cba"), stay=[1, 2, 3]),
    stays("the same bytes in another order", with_path(b"ab"), with_path(b"ba"), stay=[1, 2]),
    stays("a small and a capital letter", with_path(b"a"), with_path(b"A"), stay=[1, 2]),
    stays("spaces count", with_path(b"a"), with_path(b"a "), with_path(b" a"), with_path(b" "), stay=[1, 2, 3, 4]),
    stays("slashes and dots are bytes", with_path(b"a/b"), with_path(b"a//b"), with_path(b"./a/b"), with_path(b"a\\b"), stay=[1, 2, 3, 4]),
    stays("255 bytes, the last differs", with_path(b"x" * 254 + b"y"), with_path(b"x" * 255), stay=[1, 2]),
    stays("255 bytes, the first differs", with_path(b"y" + b"x" * 254), with_path(b"x" * 255), stay=[1, 2]),
    stays("255 bytes, none differs", with_path(b"x" * 255, 1), with_path(b"x" * 254), with_path(b"x" * 255, 2), stay=[2, 3]),
    # full books
    stays("2,048 lines of one path, 65,536 bytes", *[H(b"5 +0000")] * 2047, H(b"6 +0000"), stay=[2048]),
    stays("4,681 since lines, all the same", *[S(b"now")] * 4681, stay=range(1, 4682)),
    # books that are not good
    ("a bad line between", book(A1, b"", A2), 10, 2, b""),
    ("a bad line that would go", book(H(b"5 -000000", b"a"), A2), 10, 1, b""),
    ("a bad last line", book(A1, A2, b"x"), 10, 3, b""),
    ("the last line lacks its newline", book(A1) + A2, 10, 2, b""),
    ("two bad lines: the first", book(A1, b"x", A2, b"y"), 10, 2, b""),
    ("too long, though the compacted book would not be", book(*[H(b"5 +0000")] * 2049), 10, 0, b""),
    ("too long is tested first", b"\n" * 65537, 10, 0, b""),
]

# With a room: number, length, line, and the room afterwards. A line of A1 to B2 has 32 bytes with its newline.
ROOM_CASES = [
    ("exact room", book(A1, A2), b"." * 32, 0, 32, 0, book(A2)),
    ("one byte less", book(A1, A2), b"." * 31, 8, 0, 0, b"." * 31),
    ("one byte more", book(A1, A2), b"." * 33, 0, 32, 0, book(A2) + b"."),
    ("room of the book", book(A1, A2), b"." * 64, 0, 32, 0, book(A2) + b"." * 32),
    ("exact room for two", book(A1, B1, A2), b"." * 64, 0, 64, 0, book(B1, A2)),
    ("room for one of two", book(A1, B1, A2), b"." * 63, 8, 0, 0, b"." * 63),
    ("no room", book(A1), b"", 8, 0, 0, b""),
    ("no room, and no book", b"", b"", 0, 0, 0, b""),
    ("no book", b"", b"...", 0, 0, 0, b"..."),
    ("a bad book is refused before the room", book(A1, b"x"), b"", 10, 0, 2, b""),
    ("a bad book and a room", book(A1, b"x"), b"." * 99, 10, 0, 2, b"." * 99),
    ("a long book is refused before the room", b"\n" * 65537, b"", 10, 0, 0, b""),
]

# ---------------------------------------------------------------------------------------------------------------------------


def differing_cases(rules):
    for what, text, number, line, listing in CASES:
        got = rules.answer(text)[:3]
        if got != (number, line, listing):
            yield f"{what}: {text[:200]!r}: wanted {(number, line, listing)}, got {got}"
    for what, text, number, line, compacted in COMPACT_CASES:
        got = rules.compact(text)
        if got != (number, line, compacted, len(compacted)):
            yield f"compact, {what}: {text[:200]!r}: wanted {(number, line, compacted)}, got {got}"
    for what, text, room, *wanted in ROOM_CASES:
        got = rules.compact_into(text, room)
        if got != tuple(wanted):
            yield f"compact, {what}: {text[:200]!r}: wanted {wanted}, got {got}"


def broken_laws(rules, text, more):
    """The sentences of RULES 13.15 and 13.17 that do not hold for a good book and one more good line, each as a text.

    The lines listed and the lines that stay are compared by their places in the book, since equal lines may differ in this.
    """
    def places_listed(lines):
        return [place for place, line in enumerate(lines) if line.startswith(b"hull") and rules.answer(
            book(*(line for line in lines[:place] if line.startswith(b"since")), line))[2]]

    def paths(lines):
        return [line.split(b"\t")[1] for line in lines if line.startswith(b"hull")]

    lines = text.split(b"\n")[:-1]
    compacted = rules.compact(text)[2]
    left = compacted.split(b"\n")[:-1]
    stay = rules.places_that_stay(lines)
    listed = set(places_listed(lines))
    both = [line for place, line in enumerate(lines) if place in listed and place in stay]
    if rules.answer(text)[2] != book(*(lines[place] for place in sorted(listed))):
        yield "each line is listed or not by itself"
    if set(paths(left)) != set(paths(lines)) or len(paths(left)) != len(set(paths(left))):
        yield "a path is in the compacted book exactly if it was in the book, and once"
    if [line for line in left if line.startswith(b"since")] != [line for line in lines if line.startswith(b"since")]:
        yield "every since line stays"
    if rules.answer(compacted)[:2] != (0, 0) or len(compacted) > len(text):
        yield "the compacted book is good and no longer than the book"
    if rules.compact(compacted) != (0, 0, compacted, len(compacted)):
        yield "the compacted book compacts to itself"
    if rules.answer(compacted)[2] != book(*both):
        yield "the listing of the compacted book is the listing of the book without the lines that went"
    longer = compacted + book(more)
    if len(longer) > rules.LONGEST_BOOK:
        return
    if rules.answer(longer)[:2] != (0, 0):
        yield "with any good line behind it the compacted book is good"
    overtaken = paths([more])
    again = book(*(line for line in left if paths([line]) != overtaken or not overtaken), more)
    if rules.compact(longer)[2] != again or (again == longer) != (not overtaken or overtaken[0] not in paths(left)):
        yield "with a good line behind it only the line with its path goes"
    if rules.compact(text + book(more))[:3] != (0, 0, again) and len(text + book(more)) <= rules.LONGEST_BOOK:
        yield "a line behind the book, and behind the compacted book, compact to the same"


def differing_laws(rules):
    """The laws for all books of up to four lines over seven, with each of the seven behind them."""
    lines = [A1, A3, with_path(b"ab", 2), with_path(b"now", 9), S(b"now", b"2"), S(b"now", b"9"), H(b"1 -0000", b"b")]
    for count in range(5):
        for chosen in product(lines, repeat=count):
            for more in lines:
                for law in broken_laws(rules, book(*chosen), more):
                    yield f"{law}: {book(*chosen)!r}, {more!r}"


def differing_stamps(rules):
    """RULES 12.9: a sign and four digits are the offset of a stamp exactly if the minutes are below 60."""
    written = {rules.header(5, 60 * minutes, mark) for minutes in range(-5999, 6000) for mark in (False, True)}
    for sign, digits in product(b"+-", range(10000)):
        text = b"5 %c%04d" % (sign, digits)
        wanted = digits % 100 < 60
        if (rules.stamp(text) is not None) != wanted or (text in written) != wanted:
            yield f"{text!r} is {'a stamp' if wanted else 'no stamp'}"
    if len(written) != 12000:
        yield f"{len(written)} offsets of stamps, wanted 12000"


def differing_days():
    """The calendar against its own rules for 20,000 years, and against Python's `datetime` for the years that it knows."""
    from datetime import date

    if first_day_of_year(1970) != 0 or first_day_of_year(2370) != 146097:
        yield "day 0, or the days of 400 years"
    for year in range(-10000, 10001):
        if first_day_of_year(year + 1) - first_day_of_year(year) != (366 if is_leap(year) else 365):
            yield f"the length of year {year}"
        if sum(month_lengths(year)) != first_day_of_year(year + 1) - first_day_of_year(year):
            yield f"the months of year {year}"
    epoch = date(1970, 1, 1).toordinal()
    for day in range(date(1, 1, 1).toordinal() - epoch, date(9999, 12, 31).toordinal() - epoch + 1, 11):
        known = date.fromordinal(day + epoch)
        if date_of_day(day) != (12 * known.year + known.month - 1, known.day):
            yield f"the date of day {day}"
    for day in range(-4400000, 3000000, 13):
        month, day_of_month = date_of_day(day)
        if first_day_of_month(month) + day_of_month - 1 != day:
            yield f"day {day} and back"


def differing_vectors(rules, folder):
    """The lines of whenread with a relative text, a current time and an answer: number, seconds, offset."""
    for answers in sorted(Path(folder).glob("*.out")):
        inputs = answers.with_suffix(".in").read_bytes().split(b"\n")
        for line, wanted in zip(inputs, answers.read_bytes().split(b"\n")):
            fields = line.split(b"\t", 3)
            if len(fields) != 4 or fields[0] != b"relative" or fields[1] == b"-" or wanted.startswith(b"9\t"):
                continue
            number, seconds = rules.relative(fields[3], int(fields[1]), int(fields[2]))
            got = b"%d\t%d\t%d" % (number, seconds, int(fields[2]) if number == 0 else 0)
            rules.vectors = getattr(rules, "vectors", 0) + 1
            if got != wanted:
                yield f"{answers.name}: {line!r}: wanted {wanted!r}, got {got!r}"


def differing_example(rules):
    here = Path(__file__).resolve().parent
    text = (here / "example.book").read_bytes()
    for got, name in (rules.answer(text), "example.listing"), (rules.compact(text), "example.compacted"):
        wanted = (here / name).read_bytes()
        if got[:3] != (0, 0, wanted):
            yield f"{name}: wanted {wanted!r}, got {got}"


def selftest(folder):
    rules = Rules()
    differences = [*differing_cases(rules), *differing_stamps(rules), *differing_laws(rules), *differing_days()]
    differences += differing_example(rules)
    vectors = ""
    if folder is not None:
        differences += differing_vectors(rules, folder)
        vectors = f", {rules.vectors} vectors"
    for difference in differences:
        print(difference)
    cases = f"{len(CASES)} cases, {len(COMPACT_CASES) + len(ROOM_CASES)} of compacting"
    rest = "the offsets of stamps, the laws of compacting, the example, the calendar"
    print(f"book: {cases}{vectors}, {rest}: {len(differences)} differ")
    return 1 if differences else 0


def main(arguments):
    match arguments:
        case ["list"]:
            number, line, listing, _ = Rules().answer(sys.stdin.buffer.read())
            sys.stdout.buffer.write(b"%d %d %d\n" % (number, line, len(listing)) + listing)
        case ["compact"]:
            number, line, compacted, _ = Rules().compact(sys.stdin.buffer.read())
            sys.stdout.buffer.write(b"%d %d %d\n" % (number, line, len(compacted)) + compacted)
        case ["judge"]:
            *lines, last = sys.stdin.buffer.read().split(b"\n")
            for line in lines:
                judgement = Rules().judge(line)
                print("bad" if judgement is BAD else "%s %d" % judgement)
            if last:
                print("bad (no newline)")
        case ["selftest"]:
            return selftest(None)
        case ["selftest", folder]:
            return selftest(folder)
        case _:
            print(__doc__)
            return 0 if arguments == ["--help"] else 2
    return 0


if __name__ == "__main__":
    sys.exit(main(sys.argv[1:]))
