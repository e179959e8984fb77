#!/usr/bin/env python3
"""Salvages a damaged book of stamps: a reference that shares no code with the library.

It was written from the words of the request that docs/RULES.md, section 16, was made from. Whether a line is good is the judgement of
../book/book.py, which was written from RULES 13 and shares no code with the library either.

Usage: salvage.py salvage < BOOK   the number, both lengths and the last bad number, then the lines kept, then the report
       salvage.py selftest         the cases at the end of this file, the laws of salvaging for all small books, and the example of
                                   ../book; exit status 1 if anything differs
"""

import sys
from itertools import product
from pathlib import Path

sys.path.append(str(Path(__file__).resolve().parents[1] / "book"))
from book import BAD, H, K, S, book
from book import Rules as BookRules

# ---------------------------------------------------------------------------------------------------------------------------
# The rules. Each is a method or a constant of its own, so that mistakes.py can replace one of them by a mistake.


class Rules:
    LONGEST_BOOK = 65536
    FIRST_LINE = 1

    def __init__(self):
        self.book_rules = BookRules()

    def salvage(self, text):
        """The number, the lines kept, the report, the last bad number, and the rooms that lines and report need."""
        if len(text) > self.LONGEST_BOOK:
            return self.too_long(text)
        kept, bad = [], []
        for number, piece in enumerate(self.pieces(text), self.FIRST_LINE):
            if self.is_good(piece):
                kept.append(piece)
            else:
                bad.append((number, self.length_of(piece)))
        kept, report = self.joined(kept), self.report(bad)
        return 0, kept, report, self.last_bad(bad), *self.rooms(text, kept, report)

    def too_long(self, text):
        """Input over 65,536 bytes is 10."""
        return 10, b"", b"", 0, 0, 0

    def pieces(self, text):
        """The lines with their newlines, and what follows the last newline, unless that is empty."""
        *lines, last = text.split(b"\n")
        return [line + b"\n" for line in lines] + ([last] if last else [])

    def is_good(self, piece):
        """Each line is judged alone. A last piece without a newline is bad, even if its bytes would do."""
        return piece.endswith(b"\n") and self.book_rules.judge(piece[:-1]) is not BAD

    def length_of(self, piece):
        """Its length without the newline."""
        return len(piece.removesuffix(b"\n"))

    def joined(self, kept):
        """Good lines keep order and bytes."""
        return b"".join(kept)

    def report(self, bad):
        """For every bad line a line: its number, a tab, its length."""
        return b"".join(b"%d\t%d\n" % row for row in bad)

    def last_bad(self, bad):
        """The last bad number, 0 if none."""
        return bad[-1][0] if bad else 0

    def rooms(self, text, kept, report):
        return len(kept), len(report)

    def salvage_into(self, text, room, report_room):
        """What a call leaves behind: the number, both lengths, the last bad number, and the bytes of both rooms."""
        number, kept, report, last, need, report_need = self.salvage(text)
        if number == 0 and (len(room) < need or len(report_room) < report_need):
            number = 8
        if number != 0:
            return number, 0, 0, 0, room, report_room
        return 0, len(kept), len(report), last, kept + room[len(kept):], report + report_room[len(report):]


def broken_laws(rules, text):
    """The sentences about a book and what is salvaged from it that do not hold, each as a text. A book that is too long has none."""
    number, kept, report, last, _, _ = rules.salvage(text)
    if number != 0:
        return
    if kept.count(b"\n") + report.count(b"\n") != text.count(b"\n") + (text[-1:] not in (b"", b"\n")):
        yield "lines kept and lines reported add up to the newlines, plus one for a last piece that is not empty"
    if rules.book_rules.answer(kept)[:2] != (0, 0):
        yield "the result is a good book"
    if rules.salvage(kept)[:4] != (0, kept, b"", 0):
        yield "salvaged again it is the same"
    number, line, _, _ = rules.book_rules.answer(text)
    first = int(report.split(b"\t")[0]) if report else 0
    if (number, line) != (10 if report else 0, first):
        yield "the first row has the first bad line, and only a good book has no report"
    if not report and kept != text:
        yield "a good book comes out the same"
    if last != (int(report.splitlines()[-1].split(b"\t")[0]) if report else 0):
        yield "the last bad number is that of the last row"


# ---------------------------------------------------------------------------------------------------------------------------
# Cases with their answers, worked out by hand. A line of A, B or N has 31, 31 or 13 bytes without its newline.

A, B, N = H(b"5 +0000"), H(b"6 +0000", b"b"), S(b"now")


def salvages(what, text, kept, report, last):
    """A case: the lines kept, without their newlines, the report, and the last bad number."""
    return what, text, book(*kept), report, last


CASES = [
    # the rows of the table of open readings
    salvages("12a: a good line without its newline", A, [], b"1\t31\n", 1),
    salvages("12a: behind a good line", book(A) + B, [A], b"2\t31\n", 2),
    salvages("12c: two newlines", b"\n\n", [], b"1\t0\n2\t0\n", 2),
    # good books
    salvages("the empty book", b"", [], b"", 0),
    salvages("one line", book(A), [A], b"", 0),
    salvages("three lines", book(A, N, B), [A, N, B], b"", 0),
    salvages("the same line three times", book(A, A, A), [A, A, A], b"", 0),
    salvages("an order that a list does not have", book(B, A, B), [B, A, B], b"", 0),
    salvages("a hull before the cut-off", book(S(b"now", b"9"), A), [S(b"now", b"9"), A], b"", 0),
    # one bad line
    salvages("one newline", b"\n", [], b"1\t0\n", 1),
    salvages("one byte", b"x", [], b"1\t1\n", 1),
    salvages("one byte and a newline", b"x\n", [], b"1\t1\n", 1),
    salvages("the first of three", book(b"xy", A, B), [A, B], b"1\t2\n", 1),
    salvages("the second of three", book(A, b"xy", B), [A, B], b"2\t2\n", 2),
    salvages("the last of three", book(A, B, b"xy"), [A, B], b"3\t2\n", 3),
    salvages("half a line in the middle, with its newline", book(A, A[:15], B), [A, B], b"2\t15\n", 2),
    salvages("half a line in the middle, run into the next", book(A) + A[:15] + book(B, N), [A, N], b"2\t46\n", 2),
    salvages("half a line at the end", book(A, B) + A[:15], [A, B], b"3\t15\n", 3),
    salvages("a line without its tabs", book(A.replace(b"\t", b" "), B), [B], b"1\t31\n", 1),
    salvages("the newline between two lines is lost", book(A + B, N), [N], b"1\t62\n", 1),
    salvages("a since line that is not read", book(S(b"then"), A), [A], b"1\t14\n", 1),
    salvages("since lines are kept", book(N, b"x", N), [N, N], b"2\t1\n", 2),
    salvages("256 pairs, and 257", book(S(b"1 day " * 256), S(b"1 day " * 257)), [S(b"1 day " * 256)], b"2\t1552\n", 2),
    # several bad lines
    salvages("all of three", book(b"a", b"bc", b"def"), [], b"1\t1\n2\t2\n3\t3\n", 3),
    salvages("the first and the last", book(b"x", A, b"yz"), [A], b"1\t1\n3\t2\n", 3),
    salvages("every second", book(b"x", A, b"", B, b"yz", N), [A, B, N], b"1\t1\n3\t0\n5\t2\n", 5),
    salvages("an empty line and a last piece", b"\n" + A, [], b"1\t0\n2\t31\n", 2),
    salvages("a good line between, and a last piece", b"x\n" + book(A) + b"y", [A], b"1\t1\n3\t1\n", 3),
    salvages("a space as a last piece", book(A) + b" ", [A], b"2\t1\n", 2),
    salvages("a zero as a last piece", book(A) + b"\0", [A], b"2\t1\n", 2),
    salvages("three newlines behind a line", book(A) + b"\n\n\n", [A], b"2\t0\n3\t0\n4\t0\n", 4),
    # bytes that other tools take for the end of a line, or for nothing
    salvages("carriage returns", book(A + b"\r", B + b"\r"), [], b"1\t32\n2\t32\n", 2),
    salvages("a carriage return in place of a newline", A + b"\r" + book(B), [], b"1\t63\n", 1),
    salvages("a line feed, then a carriage return", book(A) + b"\r" + book(B), [A], b"2\t32\n", 2),
    salvages("a form feed", A + b"\x0c" + book(B), [], b"1\t63\n", 1),
    salvages("zeros in the middle", book(A) + b"\0" * 512 + book(B, N), [A, N], b"2\t543\n", 2),
    salvages("zeros up to the end", book(A) + b"\0" * 512, [A], b"2\t512\n", 2),
    salvages("zeros in place of a line and its newline", book(A) + b"\0" * 32 + book(N), [A], b"2\t45\n", 2),
    salvages("a zero behind a line", book(A + b"\0", B), [B], b"1\t32\n", 1),
    salvages("a byte order mark", b"\xef\xbb\xbf" + book(A, B), [B], b"1\t34\n", 1),
    # numbers and lengths of more than one digit
    salvages("line 10", book(*[A] * 9, b"", A), [A] * 10, b"10\t0\n", 10),
    salvages("lines 9, 10 and 100", book(*[A] * 8, b"", b"", *[A] * 89, b""), [A] * 97, b"9\t0\n10\t0\n100\t0\n", 100),
    salvages("9, 10, 99 and 100 bytes", book(b"x" * 9, b"x" * 10, b"x" * 99, b"x" * 100), [], b"1\t9\n2\t10\n3\t99\n4\t100\n", 4),
    salvages("a last piece of 10,000 bytes", b"x" * 10000, [], b"1\t10000\n", 1),
    # full books
    salvages("65,536 bytes without a newline", b"x" * 65536, [], b"1\t65536\n", 1),
    salvages("a line of 65,535 bytes", b"x" * 65535 + b"\n", [], b"1\t65535\n", 1),
    salvages("65,536 newlines", b"\n" * 65536, [], b"".join(b"%d\t0\n" % n for n in range(1, 65537)), 65536),
    salvages("65,535 newlines and a byte", b"\n" * 65535 + b"x", [], b"".join(b"%d\t0\n" % n for n in range(1, 65536)) + b"65536\t1\n", 65536),
    salvages("2,048 good lines, 65,536 bytes", book(A) * 2048, [A] * 2048, b"", 0),
    salvages("the last of 2,048 lacks its newline", (book(A) * 2048)[:-1], [A] * 2047, b"2048\t31\n", 2048),
]

LONG_BOOKS = [b"\n" * 65537, b"x" * 65537, book(A) * 2048 + b"\n", book(A) * 2049, book(A) * 2048 + b"x", b"\0" * 70000]

# With rooms: number, both lengths, last bad number, and both rooms afterwards.
ROOM_CASES = [
    ("exact rooms", book(A, b"x"), b"." * 32, b"." * 4, 0, 32, 4, 2, book(A), b"2\t1\n"),
    ("a byte more", book(A, b"x"), b"." * 33, b"." * 5, 0, 32, 4, 2, book(A) + b".", b"2\t1\n."),
    ("12b: a bad line, and a byte too little for the lines", book(A, b"x"), b"." * 31, b"." * 4, 8, 0, 0, 0, b"." * 31, b"." * 4),
    ("12b: a bad line, and a byte too little for the report", book(A, b"x"), b"." * 32, b"." * 3, 8, 0, 0, 0, b"." * 32, b"." * 3),
    ("too little for both", book(A, b"x"), b"." * 31, b"." * 3, 8, 0, 0, 0, b"." * 31, b"." * 3),
    ("no room, and no book", b"", b"", b"", 0, 0, 0, 0, b"", b""),
    ("no book", b"", b"..", b"..", 0, 0, 0, 0, b"..", b".."),
    ("no bad line needs no report", book(A), b"." * 32, b"", 0, 32, 0, 0, book(A), b""),
    ("no good line needs no room", b"\n", b"", b"." * 4, 0, 0, 4, 1, b"", b"1\t0\n"),
    ("no room for one newline's row", b"\n", b"", b"." * 3, 8, 0, 0, 0, b"", b"." * 3),
    ("12d: too long is tested before the rooms", b"\n" * 65537, b"", b"", 10, 0, 0, 0, b"", b""),
    ("12d: too long, with rooms", b"\n" * 65537, b"." * 9, b"." * 9, 10, 0, 0, 0, b"." * 9, b"." * 9),
]

# ---------------------------------------------------------------------------------------------------------------------------


def differing_cases(rules):
    for what, text, kept, report, last in CASES:
        wanted = 0, kept, report, last, len(kept), len(report)
        got = rules.salvage(text)
        if got != wanted:
            yield f"{what}: {text[:200]!r}: wanted {wanted}, got {got}"
    for text in LONG_BOOKS:
        if rules.salvage(text) != (10, b"", b"", 0, 0, 0):
            yield f"a book of {len(text)} bytes is too long"
    for what, text, room, report_room, *wanted in ROOM_CASES:
        got = rules.salvage_into(text, room, report_room)
        if got != tuple(wanted):
            yield f"{what}: {text[:200]!r}: wanted {wanted}, got {got}"
    if len(rules.salvage(b"\n" * 65536)[2]) != 513182:
        yield "the longest report has 513,182 bytes"


def small_books(most):
    """Every book of up to so many lines over eight, with each of five last pieces."""
    lines = [book(A), book(B), book(N), b"\n", b"x\n", A[:15] + b"\n", A + b"\r\n", b"\0\n"]
    for count in range(most + 1):
        for chosen in product(lines, repeat=count):
            for piece in (b"", b"x", A, N, b"\0"):
                yield b"".join(chosen) + piece


def differing_laws(rules):
    for text in small_books(4):
        for law in broken_laws(rules, text):
            yield f"{law}: {text!r}"


def differing_example(rules):
    """A good book comes out the same."""
    text = (Path(__file__).resolve().parents[1] / "book" / "example.book").read_bytes()
    if rules.salvage(text) != (0, text, b"", 0, len(text), 0):
        yield "the example of ../book"


def selftest():
    rules = Rules()
    differences = [*differing_cases(rules), *differing_laws(rules), *differing_example(rules)]
    for difference in differences:
        print(difference)
    cases = f"{len(CASES) + len(LONG_BOOKS)} cases, {len(ROOM_CASES)} of rooms"
    print(f"salvage: {cases}, the laws for {sum(1 for _ in small_books(4))} books, the example: {len(differences)} differ")
    return 1 if differences else 0


def main(arguments):
    match arguments:
        case ["salvage"]:
            number, kept, report, last, _, _ = Rules().salvage(sys.stdin.buffer.read())
            sys.stdout.buffer.write(b"%d %d %d %d\n" % (number, len(kept), len(report), last) + kept + report)
        case ["selftest"]:
            return selftest()
        case _:
            print(__doc__)
            return 0 if arguments == ["--help"] else 2
    return 0


if __name__ == "__main__":
    sys.exit(main(sys.argv[1:]))
