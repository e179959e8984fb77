#!/usr/bin/env python3
"""Merges the lists of two build machines, and compares their front lines: a reference that shares no code with the library.

It was written from the words of the request for one list from two build machines, and for `hull` lines from RULES 13.2 to 13.5 and
9.1. Every number is a Python integer, so nothing here can overflow.

Usage: lists.py merge FIRST SECOND    the number, the machine, the line and both lengths, then the merged book and the report
       lists.py fronts FIRST SECOND   the number, the machine and the line of a check; then the length of the earlier front line and
                                      its machine
       lists.py selftest              the cases at the end of this file, the laws of merging for all small lists, the example beside
                                      this file, and `hull` lines as ../book/book.py judges them; exit status 1 if anything differs

FIRST and SECOND are files.
"""

import re
import sys
from itertools import product
from pathlib import Path

NEITHER, FIRST, SECOND = 0, 1, 2  # the machines
GOOD = (0, 0, 0)  # the number, the machine and the line of a check that refuses nothing

# What a front line can be, besides seconds.
EMPTY, BAD = "empty", "bad"

# ---------------------------------------------------------------------------------------------------------------------------
# The rules. Each is a method or a constant of its own, so that mistakes.py can replace one of them by a mistake.


class Rules:
    LONGEST_LIST = 32768
    FIRST_LINE = 1
    LINE_OF_LONG_LIST = 0
    LINE_OF_FRONT = 1
    # RULES 13.3, 13.4. A time, RULES 13.5, is what the header writer gives (9.1): seconds in plain decimal, a space, a sign, two
    # digits of hours and two of minutes below 60.
    PATH = rb"[ -~]{1,255}"
    KEY = rb"[0-9a-f]{16}"
    TIME = rb"(0|-?[1-9][0-9]*) ([+-])([0-9]{2})([0-5][0-9])"
    SMALLEST, LARGEST = -(1 << 63), (1 << 63) - 1

    def __init__(self):
        self.hull = re.compile(rb"hull\t(%s)\t(%s)\t%s" % (self.PATH, self.KEY, self.TIME))
        self.known = {}  # the lines that were read before

    # --- a line: bytes with its newline, or a last piece without one ---------------------------------------------------------

    def read(self, line):
        """The seconds, the path and the key of a good `hull` line with its newline. Nothing for any other."""
        if line not in self.known:
            self.known[line] = self.read_alone(line)
        return self.known[line]

    def read_alone(self, line):
        if not self.has_newline(line):
            return None
        fields = self.hull.fullmatch(line.removesuffix(b"\n"))
        if fields is None or not self.SMALLEST <= int(fields[3]) <= self.LARGEST:
            return None
        return self.when(fields), fields[1], fields[2]

    def has_newline(self, line):
        return line.endswith(b"\n")

    def when(self, fields):
        """What lines are ordered by: their seconds, and neither offset nor mark."""
        return int(fields[3])

    def lines(self, text):
        """The lines of a text, each with its newline; what follows the last newline is a line too, unless it is empty."""
        *lines, rest = text.split(b"\n")
        return [line + b"\n" for line in lines] + ([rest] if rest else [])

    # --- front lines ---------------------------------------------------------------------------------------------------------

    def front(self, text):
        """Empty, bad, or the seconds of one `hull` line with its newline."""
        if text == b"":
            return EMPTY
        line = self.read(text) if len(self.lines(text)) == 1 else None
        return BAD if line is None else line[0]

    def check_fronts(self, first, second):
        """The number, the machine and the line. A bad front line is line 1 of its machine; machine 1 before 2."""
        for machine, text in (FIRST, first), (SECOND, second):
            if self.front(text) == BAD:
                return 12, machine, self.LINE_OF_FRONT
        return GOOD

    def earlier(self, first, second):
        """The earlier front line, and its machine. An empty part and no machine if there is none."""
        machine = self.earlier_machine(self.front(first), self.front(second))
        return {NEITHER: b"", FIRST: first, SECOND: second}[machine], machine

    def earlier_machine(self, one, other):
        """The first machine's on a tie; an empty front line loses; a bad one gives an empty part."""
        if BAD in (one, other):
            return NEITHER
        if one == EMPTY:
            return NEITHER if other == EMPTY else SECOND
        if other == EMPTY:
            return FIRST
        return FIRST if self.goes_first(one, other) else SECOND

    def fronts(self, first, second):
        """What both calls answer: the number, the machine and the line; the length of the earlier line and its machine."""
        line, machine = self.earlier(first, second)
        return (*self.check_fronts(first, second), len(line), machine)

    # --- two lists -----------------------------------------------------------------------------------------------------------

    def check(self, first, second):
        """The number, the machine and the line. Both lengths first; machine 1 before 2."""
        both = (FIRST, first), (SECOND, second)
        for machine, text in both:
            if len(text) > self.LONGEST_LIST:
                return 12, machine, self.LINE_OF_LONG_LIST
        for machine, text in both:
            place = self.fault(text)
            if place is not None:
                return 12, machine, place + self.FIRST_LINE
        return GOOD

    def fault(self, text):
        """The place, from 0, of the first line that is bad or a step back."""
        above = None
        for place, line in enumerate(self.lines(text)):
            read = self.read(line)
            if read is None or (above is not None and self.is_step_back(above, read[0])):
                return place
            above = read[0]
        return None

    def is_step_back(self, above, seconds):
        return seconds < above

    def goes_first(self, one, other):
        """Whether a line of the first machine goes before one of the second: also on a tie."""
        return one <= other

    def merge(self, first, second):
        """The number, the machine, the line, the merged book and the report, and the rooms that these need."""
        refusal = self.check(first, second)
        if refusal != GOOD:
            return (*refusal, b"", b"", 0, 0)
        lists = self.lines(first), self.lines(second)
        merged = self.merged(*lists)
        book = b"".join(merged)
        report = b"".join(self.rows(merged, *lists))
        return (*GOOD, book, report, *self.rooms(book, report))

    def merged(self, first, second):
        """Every line once with its bytes: seconds never fall, ties from the first machine, each machine's lines in their order.

        It is not merged line by line: a line of the second list has before it the lines of the first that go first.
        """
        merged, taken = [], 0
        for line in second:
            seconds = self.read(line)[0]
            until = taken
            while until < len(first) and self.goes_first(self.read(first[until])[0], seconds):
                until += 1
            merged += first[taken:until]
            merged.append(line)
            taken = until
        return merged + first[taken:]

    def keys(self, lines):
        """The last key of each path."""
        return {path: key for _, path, key in map(self.read, lines)}

    def rows(self, merged, first, second):
        """Each path in both lists whose last keys differ, once, by its first place in the merged book."""
        one, other = self.keys(first), self.keys(second)
        paths = dict.fromkeys(self.read(line)[1] for line in self.order(merged, first, second))
        return [self.row(path, one[path], other[path]) for path in paths if self.is_reported(path, one, other)]

    def order(self, merged, first, second):
        """The lines that give the report its order."""
        return merged

    def is_reported(self, path, one, other):
        return path in one and path in other and one[path] != other[path]

    def row(self, path, key, other):
        return b"\t".join((path, key, other)) + b"\n"

    def rooms(self, book, report):
        return len(book), len(report)

    def merge_into(self, first, second, book, report):
        """What a call leaves behind: the number, both lengths, the machine, the line, and the bytes of both rooms."""
        number, machine, line, merged, rows, need, need_report = self.merge(first, second)
        if number != 0:
            return number, 0, 0, machine, line, book, report
        if len(book) < need or len(report) < need_report:
            return 8, 0, 0, NEITHER, 0, book, report
        return 0, len(merged), len(rows), NEITHER, 0, merged + book[len(merged):], rows + report[len(rows):]


# ---------------------------------------------------------------------------------------------------------------------------
# Cases with their answers, worked out by hand. H is a hull line with its newline.

K, L, M = b"0123456789abcdef", b"fedcba9876543210", b"0000000000000000"
SINCE = b"since\tnow\t5\t0\n"


def H(seconds, path=b"a", key=K, offset=b"+0000"):
    time = seconds if isinstance(seconds, bytes) else b"%d" % seconds
    return b"hull\t" + path + b"\t" + key + b"\t" + time + b" " + offset + b"\n"


def row(path, key, other):
    return path + b"\t" + key + b"\t" + other + b"\n"


A, B = (lambda seconds, key=K: H(seconds, b"a", key)), (lambda seconds, key=K: H(seconds, b"b", key))
LONG = H(5, b"x" * 255)  # 286 bytes
FULL = H(5) * 1024  # 32,768 bytes
BIG, SMALL = b"9223372036854775807", b"-9223372036854775808"


def merges(what, first, second, merged, report=b""):
    """Two good lists, given as lines: what they are merged to, and the report."""
    return what, b"".join(first), b"".join(second), (0, 0, 0, b"".join(merged), report)


def refused(what, first, second, machine, line):
    return what, first, second, (12, machine, line, b"", b"")


CASES = [
    # the rows of the table of open readings
    merges("11a: the same line in both lists is there twice", [A(5)], [A(5)], [A(5), A(5)]),
    refused("11b: both lengths first", b"x\n", b"\n" * 32769, SECOND, 0),
    refused("11d: without the last newline", A(5) + B(6)[:-1], b"", FIRST, 2),
    # b is first in the merged book by line 1 of the second list; the first line that differs from the other list's is a's
    merges("11e: by the first place in the merged book", [A(2), B(3)], [B(1), A(2, L), B(4, L)],
           [B(1), A(2), A(2, L), B(3), B(4, L)], row(b"b", K, L) + row(b"a", K, L)),
    refused("11h: a step back at line 2, a bad line at line 3", A(5) + A(4) + b"x\n", b"", FIRST, 2),
    refused("11h: also if the bad piece lacks its newline", A(5) + A(4) + b"x", b"", FIRST, 2),
    refused("a bad line at line 2, a step back at line 3", A(5) + b"x\n" + A(4), b"", FIRST, 2),
    # the order of the merged book
    merges("two empty lists", [], [], []),
    merges("the first is empty", [], [A(5), B(5)], [A(5), B(5)]),
    merges("the second is empty", [A(5), B(5)], [], [A(5), B(5)]),
    merges("one line each", [A(1)], [B(2)], [A(1), B(2)]),
    merges("the second machine's is earlier", [A(2)], [B(1)], [B(1), A(2)]),
    merges("a tie: the first machine's", [B(5)], [A(5)], [B(5), A(5)]),
    merges("ties with several lines", [A(5), B(5)], [H(5, b"c"), H(5, b"d")], [A(5), B(5), H(5, b"c"), H(5, b"d")]),
    merges("a tie between other lines", [A(1), A(5), A(9)], [B(0), B(5), B(8)], [B(0), A(1), A(5), B(5), B(8), A(9)]),
    merges("the same line twice in a list", [A(5), A(5)], [A(5)], [A(5), A(5), A(5)]),
    merges("the order within a list is kept, not that of the paths", [B(5), A(5)], [], [B(5), A(5)]),
    merges("seconds below 0", [A(-10), A(-1)], [B(-9), B(0)], [A(-10), B(-9), A(-1), B(0)]),
    merges("9 is before 10", [A(10)], [B(9)], [B(9), A(10)]),
    merges("-10 is before -9", [A(-9)], [B(-10)], [B(-10), A(-9)]),
    merges("the largest and the smallest seconds", [H(BIG)], [H(SMALL, b"b")], [H(SMALL, b"b"), H(BIG)]),
    merges("from the smallest to the largest", [H(SMALL), H(BIG)], [A(0)], [H(SMALL), A(0), H(BIG)]),
    merges("offsets do not count", [H(5, offset=b"-9959")], [H(5, offset=b"+9959")], [H(5, offset=b"-9959"), H(5, offset=b"+9959")]),
    merges("nor against seconds", [H(6, offset=b"+9959")], [H(5, offset=b"-9959")], [H(5, offset=b"-9959"), H(6, offset=b"+9959")]),
    merges("nor does the mark", [H(5)], [H(5, offset=b"-0000")], [H(5), H(5, offset=b"-0000")]),
    merges("nor does the mark, in a list", [H(5, offset=b"-0000"), H(5), H(5, offset=b"-0000")], [],
           [H(5, offset=b"-0000"), H(5), H(5, offset=b"-0000")]),
    merges("1,024 lines each", [A(5)] * 1024, [B(5)] * 1024, [A(5)] * 1024 + [B(5)] * 1024),
    # the report
    merges("the same keys", [A(1)], [A(2)], [A(1), A(2)]),
    merges("other keys", [A(1)], [A(2, L)], [A(1), A(2, L)], row(b"a", K, L)),
    merges("the first machine's key first", [A(2)], [A(1, L)], [A(1, L), A(2)], row(b"a", K, L)),
    merges("in one list only", [A(1), A(2, L)], [B(1)], [A(1), B(1), A(2, L)]),
    merges("the last keys are the same", [A(1, L), A(2)], [A(1, M), A(3)], [A(1, L), A(1, M), A(2), A(3)]),
    merges("only the last keys differ", [A(1), A(2, L)], [A(1), A(2)], [A(1), A(1), A(2, L), A(2)], row(b"a", L, K)),
    merges("the last line, also among equal seconds", [A(5), A(5, L)], [A(5, L), A(5)], [A(5), A(5, L), A(5, L), A(5)], row(b"a", L, K)),
    merges("once, though it is in many lines", [A(1), A(2), A(3)], [A(1, L), A(2, L)], [A(1), A(1, L), A(2), A(2, L), A(3)],
           row(b"a", K, L)),
    merges("by the first place, and not by path", [B(1), A(2)], [A(3, L), B(4, L)], [B(1), A(2), A(3, L), B(4, L)],
           row(b"b", K, L) + row(b"a", K, L)),
    merges("the first place may be a line of the second machine", [A(2), B(2)], [B(1, L), A(1, L)], [B(1, L), A(1, L), A(2), B(2)],
           row(b"b", K, L) + row(b"a", K, L)),
    merges("and on a tie it is one of the first", [A(1), B(1)], [B(1, L), A(1, L)], [A(1), B(1), B(1, L), A(1, L)],
           row(b"a", K, L) + row(b"b", K, L)),
    merges("a path between that is not reported", [A(1), B(2), H(3, b"c")], [A(1, L), B(2), H(3, b"c", L)],
           [A(1), A(1, L), B(2), B(2), H(3, b"c"), H(3, b"c", L)], row(b"a", K, L) + row(b"c", K, L)),
    merges("paths that begin alike", [H(1, b"a"), H(1, b"aa")], [H(1, b"aa", L), H(1, b"aaa", L)],
           [H(1, b"a"), H(1, b"aa"), H(1, b"aa", L), H(1, b"aaa", L)], row(b"aa", K, L)),
    merges("the longest path", [LONG], [LONG.replace(K, L)], [LONG, LONG.replace(K, L)], row(b"x" * 255, K, L)),
    merges("a path of a space", [H(1, b" ")], [H(1, b" ", L)], [H(1, b" "), H(1, b" ", L)], row(b" ", K, L)),
    merges("the last digit of the keys differs", [A(1, K)], [A(1, K[:-1] + b"0")], [A(1), A(1, K[:-1] + b"0")],
           row(b"a", K, K[:-1] + b"0")),
    # lists that are not good
    refused("the first list is too long", FULL + A(5), b"", FIRST, 0),
    refused("the second list is too long", b"", FULL + A(5), SECOND, 0),
    refused("both are too long", FULL + A(5), FULL + A(5), FIRST, 0),
    refused("too long, and bad", b"\n" * 32769, b"", FIRST, 0),
    refused("32,768 bytes are not too long", b"\n" * 32768, b"", FIRST, 1),
    refused("a step back in the first, the second too long", A(5) + A(4), FULL + A(5), SECOND, 0),
    refused("both are bad", A(5) + b"x\n", b"x\n", FIRST, 2),
    refused("a bad line in the second", A(5), A(5) + b"x\n", SECOND, 2),
    refused("a step back in the first, a bad line in the second", A(5) + A(6) + A(5), b"x\n", FIRST, 3),
    refused("a step back in the second", A(9), A(5) + A(4), SECOND, 2),
    refused("a step back by one second from the largest", H(BIG) + H(b"9223372036854775806"), b"", FIRST, 2),
    refused("a step back to the smallest", b"", H(BIG) + H(SMALL), SECOND, 2),
    refused("a step back below 0", A(-9) + A(-10), b"", FIRST, 2),
    refused("a since line", SINCE, b"", FIRST, 1),
    refused("a since line between", A(5) + SINCE + A(5), b"", FIRST, 2),
    refused("an empty line", b"", A(5) + b"\n" + A(5), SECOND, 2),
    refused("an empty line at the end", A(5) + b"\n", b"", FIRST, 2),
    refused("a path of 256 bytes", H(5, b"x" * 256), b"", FIRST, 1),
    refused("an empty path", H(5, b""), b"", FIRST, 1),
    refused("a control byte in the path", H(5, b"a\x1f"), b"", FIRST, 1),
    refused("byte 127 in the path", H(5, b"\x7f"), b"", FIRST, 1),
    refused("a key of 15 digits", H(5, key=K[1:]), b"", FIRST, 1),
    refused("a key with a capital", H(5, key=K.replace(b"f", b"F")), b"", FIRST, 1),
    refused("minute 60", H(5, offset=b"+0060"), b"", FIRST, 1),
    refused("seconds of an offset", H(5, offset=b"-000000"), b"", FIRST, 1),
    refused("a zero in front", H(b"05"), b"", FIRST, 1),
    refused("minus zero", H(b"-0"), b"", FIRST, 1),
    refused("beyond 64 bits", H(b"9223372036854775808"), b"", FIRST, 1),
    refused("a carriage return", A(5)[:-1] + b"\r\n", b"", FIRST, 1),
    refused("a step back is at its own line, and the line above it is not bad", A(1) + A(2) + A(1) + A(3), b"", FIRST, 3),
    refused("not counted from the largest line above", A(1) + A(3) + A(2) + A(1), b"", FIRST, 3),
]

# Rooms of dots: number, lengths, machine, line, rooms afterwards. A line of A has 32 bytes, the row of a path `a` 36.
R, S = row(b"a", K, L), A(1) + A(2, L)
ROOM_CASES = [
    ("exact rooms", A(1), A(2, L), 64, 36, (0, 64, 36, 0, 0, S, R)),
    ("the book's room is a byte short", A(1), A(2, L), 63, 36, (8, 0, 0, 0, 0, b"." * 63, b"." * 36)),
    ("the report's room is a byte short", A(1), A(2, L), 64, 35, (8, 0, 0, 0, 0, b"." * 64, b"." * 35)),
    ("both are a byte short", A(1), A(2, L), 63, 35, (8, 0, 0, 0, 0, b"." * 63, b"." * 35)),
    ("a byte more in each", A(1), A(2, L), 65, 37, (0, 64, 36, 0, 0, S + b".", R + b".")),
    ("one is long, the other too short", A(1), A(2, L), 999, 0, (8, 0, 0, 0, 0, b"." * 999, b"")),
    ("no row, no room", A(1), A(2), 64, 0, (0, 64, 0, 0, 0, A(1) + A(2), b"")),
    ("empty lists, no rooms", b"", b"", 0, 0, (0, 0, 0, 0, 0, b"", b"")),
    ("empty lists, rooms", b"", b"", 3, 2, (0, 0, 0, 0, 0, b"...", b"..")),
    ("a bad list is refused before the rooms", A(1), b"x\n", 0, 0, (12, 0, 0, 2, 1, b"", b"")),
    ("a bad list and rooms", A(1) + A(0), b"", 99, 99, (12, 0, 0, 1, 2, b"." * 99, b"." * 99)),
    ("a long list is refused before the rooms", b"", FULL + b"\n", 1, 1, (12, 0, 0, 2, 0, b".", b".")),
]

# Front lines: the number, the machine and the line of a check; the length of the earlier line and its machine.
FRONT_CASES = [
    ("two empty ones", b"", b"", (0, 0, 0, 0, 0)),
    ("an empty one loses", b"", A(5), (0, 0, 0, 32, 2)),
    ("also the second machine's", A(5), b"", (0, 0, 0, 32, 1)),
    ("the first is earlier", A(5), B(6), (0, 0, 0, 32, 1)),
    ("the second is earlier", A(65), B(6), (0, 0, 0, 32, 2)),
    ("a tie", A(5), H(5, b"bb"), (0, 0, 0, 32, 1)),
    ("a tie, the other way", H(5, b"bb"), A(5), (0, 0, 0, 33, 1)),
    ("the same line", A(5), A(5), (0, 0, 0, 32, 1)),
    ("offsets do not count", H(5, offset=b"-9959"), H(5, b"bb", offset=b"+9959"), (0, 0, 0, 32, 1)),
    ("seconds below 0", A(-1), A(-10), (0, 0, 0, 34, 2)),
    ("the largest and the smallest", H(BIG), H(SMALL), (0, 0, 0, 51, 2)),
    ("11c: a good one beside a bad one", A(5), b"x\n", (12, 2, 1, 0, 0)),
    ("11c: a bad one beside a good one", b"x\n", A(5), (12, 1, 1, 0, 0)),
    ("both are bad", b"x\n", b"x\n", (12, 1, 1, 0, 0)),
    ("a bad one beside an empty one", b"", b"x\n", (12, 2, 1, 0, 0)),
    ("also the first machine's", b"x\n", b"", (12, 1, 1, 0, 0)),
    ("11f: two lines", A(5) + A(6), A(7), (12, 1, 1, 0, 0)),
    ("11f: two lines of the second machine", A(5), A(6) + A(7), (12, 2, 1, 0, 0)),
    ("without its newline", A(5)[:-1], A(7), (12, 1, 1, 0, 0)),
    ("a newline alone", b"\n", b"", (12, 1, 1, 0, 0)),
    ("a good line and a newline", A(5) + b"\n", b"", (12, 1, 1, 0, 0)),
    ("a since line", A(5), SINCE, (12, 2, 1, 0, 0)),
    ("a line as long as a list is bad", b"x" * 32767 + b"\n", A(5), (12, 1, 1, 0, 0)),
]

# ---------------------------------------------------------------------------------------------------------------------------


def differing_cases(rules):
    for what, first, second, wanted in CASES:
        got = rules.merge(first, second)
        if got != (*wanted, len(wanted[3]), len(wanted[4])):
            yield f"{what}: {first[:200]!r}, {second[:200]!r}: wanted {wanted}, got {got}"
    for what, first, second, book, report, wanted in ROOM_CASES:
        got = rules.merge_into(first, second, b"." * book, b"." * report)
        if got != wanted:
            yield f"{what}: {first[:200]!r}, {second[:200]!r}: wanted {wanted}, got {got}"
    for what, first, second, wanted in FRONT_CASES:
        got = rules.fronts(first, second)
        if got != wanted:
            yield f"fronts, {what}: {first[:200]!r}, {second[:200]!r}: wanted {wanted}, got {got}"


def small_lists(most):
    """All good lists of at most so many lines over two paths, two keys and two seconds."""
    every = [H(seconds, path, key) for seconds in (1, 2) for path in (b"a", b"b") for key in (K, L)]
    seconds = {line: place >= 4 for place, line in enumerate(every)}
    for count in range(most + 1):
        for lines in product(every, repeat=count):
            if all(seconds[one] <= seconds[other] for one, other in zip(lines, lines[1:])):
                yield b"".join(lines)


def broken_laws(rules, first, second):
    """The sentences of the request that do not hold for two good lists, each as a text. They are tested on the lines alone."""
    _, _, _, book, report, _, _ = rules.merge(first, second)
    one, other, merged = rules.lines(first), rules.lines(second), rules.lines(book)
    seconds = [rules.read(line)[0] for line in merged]
    if sorted(merged) != sorted(one + other):
        yield "every line once with its bytes"
    if seconds != sorted(seconds):
        yield "seconds never fall"
    # a stable sort of the first list's lines and then the second's: ties from the first, each machine's lines in their order
    if merged != sorted(one + other, key=lambda line: rules.read(line)[0]):
        yield "ties from the first machine, each machine's lines in their order"
    rows = [text.rstrip(b"\n").split(b"\t") for text in rules.lines(report)]
    paths = [path for path, _, _ in rows]
    if len(set(paths)) != len(paths):
        yield "each path once"
    firsts = [next(place for place, line in enumerate(merged) if line.split(b"\t")[1] == path) for path in paths]
    if firsts != sorted(firsts):
        yield "by its first place in the merged book"
    for path in {line.split(b"\t")[1] for line in merged}:
        last = [[line.split(b"\t")[2] for line in lines if line.split(b"\t")[1] == path][-1:] for lines in (one, other)]
        wanted = [[path, last[0][0], last[1][0]]] if all(last) and last[0] != last[1] else []
        if [found for found in rows if found[0] == path] != wanted:
            yield "each path in both lists whose last keys differ, with the first machine's key and the second's"
    # front line by front line
    taken, lists = [], [list(one), list(other)]
    while lists[0] or lists[1]:
        line, machine = rules.earlier(*(lines[0] if lines else b"" for lines in lists))
        taken.append(line)
        del lists[machine - 1][0]
    if taken != merged:
        yield "the earlier front lines, one after the other, are the merged book"


def differing_laws(rules):
    for first, second in product(list(small_lists(2)), repeat=2):
        for law in broken_laws(rules, first, second):
            yield f"{law}: {first!r}, {second!r}"


def differing_lines(rules):
    """Whether a line is a good `hull` line, and its seconds, as the reference for books says."""
    sys.path.append(str(Path(__file__).resolve().parents[1] / "book"))
    import book
    import pairs

    books = book.Rules()
    lines = pairs.odd_lines() + pairs.good_lines() + [line for line in pairs.changed(H(-1234, b"a/b", offset=b"-0000"))]
    rules.compared = len(lines)
    for line in lines:
        judged = books.judge(line[:-1]) if line.endswith(b"\n") else None
        wanted = judged[1] if judged is not None and judged[0] == "hull" else None
        got = rules.read(line)
        if (got and got[0]) != wanted:
            yield f"{line!r}: book.py has {wanted}, this file {got}"


def differing_example(rules):
    here = Path(__file__).resolve().parent
    first, second, merged, report = ((here / f"example.{name}").read_bytes() for name in ("first", "second", "merged", "report"))
    got = rules.merge(first, second)
    if got[:5] != (*GOOD, merged, report):
        yield f"the example: wanted {merged!r} and {report!r}, got {got}"


def selftest():
    rules = Rules()
    differences = [*differing_cases(rules), *differing_laws(rules), *differing_lines(rules), *differing_example(rules)]
    for difference in differences:
        print(difference)
    cases = f"{len(CASES)} cases, {len(ROOM_CASES)} of rooms, {len(FRONT_CASES)} of front lines"
    rest = f"the laws of merging, the example, {rules.compared} lines as book.py judges them"
    print(f"lists: {cases}, {rest}: {len(differences)} differ")
    return 1 if differences else 0


def main(arguments):
    match arguments:
        case ["merge", first, second]:
            number, machine, line, book, report, _, _ = Rules().merge(Path(first).read_bytes(), Path(second).read_bytes())
            sys.stdout.buffer.write(b"%d %d %d %d %d\n" % (number, machine, line, len(book), len(report)) + book + report)
        case ["fronts", first, second]:
            print(*Rules().fronts(Path(first).read_bytes(), Path(second).read_bytes()))
        case ["selftest"]:
            return selftest()
        case _:
            print(__doc__)
            return 0 if arguments == ["--help"] else 2
    return 0


if __name__ == "__main__":
    sys.exit(main(sys.argv[1:]))
