"""Rules with one mistake each, to see whether the comparison finds them. The name of a mistake is the sentence below its class.

What is wanted of the library comes from salvage.py; nothing of it is held to these.
"""

import re

from salvage import BAD, Rules

# ---------------------------------------------------------------------------------------------------------------------------
# What is a line.


class PieceKept(Rules):
    """a last piece is kept if its bytes would do, with a newline added"""
    def pieces(self, text):
        *lines, last = super().pieces(text) or [b""]
        return lines + ([last + b"\n" if self.book_rules.judge(last) is not BAD else last] if last else [])


class PieceKeptAsItIs(Rules):
    """a last piece is kept as it is if its bytes would do"""
    def is_good(self, piece):
        return super().is_good(piece if piece.endswith(b"\n") else piece + b"\n")


class PieceIgnored(Rules):
    """a last piece is neither kept nor reported"""
    def pieces(self, text):
        return [piece for piece in super().pieces(text) if piece.endswith(b"\n")]


class EmptyPiece(Rules):
    """an empty last piece is a bad line"""
    def pieces(self, text):
        return super().pieces(text) + ([b""] if text.endswith(b"\n") else [])


class EmptyBook(Rules):
    """the empty book has a bad line"""
    def pieces(self, text):
        return super().pieces(text) or [b""]


class EmptyIgnored(Rules):
    """an empty line is neither counted nor reported"""
    def pieces(self, text):
        return [piece for piece in super().pieces(text) if piece != b"\n"]


class EmptyTogether(Rules):
    """empty lines below one another are one line"""
    def pieces(self, text):
        return super().pieces(re.sub(rb"(?<![^\n])\n+", b"\n", text))


class EmptyKept(Rules):
    """an empty line is kept"""
    def is_good(self, piece):
        return piece == b"\n" or super().is_good(piece)


class CarriageReturnGood(Rules):
    """a carriage return may end a line"""
    def is_good(self, piece):
        return super().is_good(piece.replace(b"\r\n", b"\n"))


class CarriageReturnDropped(Rules):
    """a line is kept without its carriage return"""
    def pieces(self, text):
        return super().pieces(text.replace(b"\r\n", b"\n"))


class CarriageReturnIsNewline(Rules):
    """a carriage return ends a line"""
    def pieces(self, text):
        return super().pieces(text.replace(b"\r", b"\n"))


class OtherNewlines(Rules):
    """a form feed ends a line"""
    def pieces(self, text):
        return super().pieces(text.replace(b"\x0c", b"\n"))


class ZeroEndsBook(Rules):
    """a zero ends the book"""
    def pieces(self, text):
        return super().pieces(text.partition(b"\0")[0])


class ZeroEndsLine(Rules):
    """a line is judged up to its first zero"""
    def is_good(self, piece):
        return super().is_good(piece.partition(b"\0")[0] + b"\n" if b"\0" in piece else piece)


class ZerosAtEnd(Rules):
    """zeros at the end of the book are no line"""
    def pieces(self, text):
        return super().pieces(text.rstrip(b"\0"))


class ZerosSkipped(Rules):
    """zeros in front of a line are passed over"""
    def pieces(self, text):
        return [piece.lstrip(b"\0") or piece for piece in super().pieces(text)]


# ---------------------------------------------------------------------------------------------------------------------------
# Which lines are good.


class EveryLineKept(Rules):
    """a bad line is kept if it has four fields"""
    def is_good(self, piece):
        return super().is_good(piece) or (piece.endswith(b"\n") and piece.count(b"\t") == 3)


class OddLineKept(Rules):
    """a bad line is kept if it opens with `hull` and a tab"""
    def is_good(self, piece):
        return super().is_good(piece) or (piece.endswith(b"\n") and piece.startswith(b"hull\t"))


class Trimmed(Rules):
    """a line is judged without white space at its ends"""
    def is_good(self, piece):
        return super().is_good(piece.strip() + b"\n" if piece.endswith(b"\n") else piece)


class SinceDropped(Rules):
    """since lines are dropped"""
    def is_good(self, piece):
        return super().is_good(piece) and not piece.startswith(b"since")


class SinceWithoutText(Rules):
    """the text of a since line is not read"""
    def is_good(self, piece):
        fields = piece.split(b"\t")
        return super().is_good(b"\t".join([fields[0], b"now", *fields[2:]]) if len(fields) == 4 and fields[0] == b"since" else piece)


class NotAlone(Rules):
    """a line below a bad line is dropped too"""
    def salvage(self, text):
        self.bad_above = False
        return super().salvage(text)

    def is_good(self, piece):
        good = super().is_good(piece)
        kept, self.bad_above = good and not self.bad_above, not good
        return kept


class OnlyAbove(Rules):
    """nothing below the first bad line is kept"""
    def salvage(self, text):
        self.bad_above = False
        return super().salvage(text)

    def is_good(self, piece):
        self.bad_above = self.bad_above or not super().is_good(piece)
        return not self.bad_above


class StopsAtBad(Rules):
    """nothing below the first bad line is kept or reported"""
    def pieces(self, text):
        pieces = super().pieces(text)
        first = next((place for place, piece in enumerate(pieces) if not self.is_good(piece)), len(pieces))
        return pieces[:first + 1]


class Once(Rules):
    """a line that is there twice is kept once"""
    def joined(self, kept):
        return b"".join(dict.fromkeys(kept))


class LastOfPath(Rules):
    """of the hulls with one path the last is kept"""
    def joined(self, kept):
        return self.book_rules.compact(b"".join(kept))[2]


class Listed(Rules):
    """only hulls at or after their cut-off are kept"""
    def joined(self, kept):
        text = b"".join(kept)
        return text if b"since" not in text else self.book_rules.answer(text)[2]


class Sorted(Rules):
    """the lines kept are sorted"""
    def joined(self, kept):
        return b"".join(sorted(kept))


class SincesFirst(Rules):
    """since lines are kept in front of hulls"""
    def joined(self, kept):
        return b"".join(sorted(kept, key=lambda line: line.startswith(b"hull")))


class TurnedRound(Rules):
    """the lines kept are in the order from the last to the first"""
    def joined(self, kept):
        return b"".join(kept[::-1])


class NoNewlines(Rules):
    """lines are kept without their newlines"""
    def joined(self, kept):
        return b"".join(line[:-1] for line in kept)


class LastNewline(Rules):
    """the last line kept has no newline"""
    def joined(self, kept):
        return b"".join(kept)[:-1]


class LastLineLost(Rules):
    """the last line kept is lost"""
    def joined(self, kept):
        return b"".join(kept[:-1])


class BlankForBad(Rules):
    """a bad line leaves an empty line"""
    def salvage(self, text):
        number, kept, report, last, room, report_room = super().salvage(text)
        if number == 0:
            kept = b"".join(piece if self.is_good(piece) else b"\n" for piece in self.pieces(text))
            room = len(kept)
        return number, kept, report, last, room, report_room


# ---------------------------------------------------------------------------------------------------------------------------
# The report and the last bad number.


class CountedAmongBad(Rules):
    """rows are numbered one after the other"""
    def report(self, bad):
        return super().report([(place, length) for place, (_, length) in enumerate(bad, 1)])


class CountedAmongKept(Rules):
    """a row has the number that its line would have among the lines kept"""
    def report(self, bad):
        return super().report([(number - place, length) for place, (number, length) in enumerate(bad)])


class LengthWithNewline(Rules):
    """lengths are counted with the newline"""
    def length_of(self, piece):
        return len(piece)


class PieceLess(Rules):
    """the length of a last piece is one less"""
    def length_of(self, piece):
        return len(piece) - 1


class LengthTrimmed(Rules):
    """lengths are counted without a carriage return"""
    def length_of(self, piece):
        return len(piece.removesuffix(b"\n").removesuffix(b"\r"))


class LengthToZero(Rules):
    """lengths are counted up to the first zero"""
    def length_of(self, piece):
        return len(piece.removesuffix(b"\n").partition(b"\0")[0])


class LengthInCharacters(Rules):
    """lengths are counted in characters of UTF-8"""
    def length_of(self, piece):
        return len(piece.removesuffix(b"\n").decode(errors="replace"))


class LengthIn16Bits(Rules):
    """lengths are stored in 16 bits"""
    def length_of(self, piece):
        return super().length_of(piece) & 0xFFFF


class LengthIn15Bits(Rules):
    """lengths are stored in 15 bits"""
    def length_of(self, piece):
        return super().length_of(piece) & 0x7FFF


class LengthInAByte(Rules):
    """lengths are stored in a byte"""
    def length_of(self, piece):
        return super().length_of(piece) & 0xFF


class NumberIn16Bits(Rules):
    """numbers are stored in 16 bits"""
    def report(self, bad):
        return super().report([(number & 0xFFFF, length) for number, length in bad])


class NumberInAByte(Rules):
    """numbers are stored in a byte"""
    def report(self, bad):
        return super().report([(number & 0xFF, length) for number, length in bad])


class FirstRowOnly(Rules):
    """only the first bad line is reported"""
    def report(self, bad):
        return super().report(bad[:1])


class LastRowOnly(Rules):
    """only the last bad line is reported"""
    def report(self, bad):
        return super().report(bad[-1:])


class LastRowMissing(Rules):
    """the last row is missing"""
    def report(self, bad):
        return super().report(bad[:-1])


class ARowMissing(Rules):
    """the third row is missing"""
    def report(self, bad):
        return super().report(bad[:2] + bad[3:])


class RowForARun(Rules):
    """bad lines below one another have one row"""
    def report(self, bad):
        numbers = {number for number, _ in bad}
        return super().report([(number, length) for number, length in bad if number - 1 not in numbers])


class EmptyNotReported(Rules):
    """a bad line of length 0 is not reported"""
    def report(self, bad):
        return super().report([row for row in bad if row[1] > 0])


class At6553Rows(Rules):
    """no more than 6,553 rows are written"""
    def report(self, bad):
        return super().report(bad[:6553])


class At65535Rows(Rules):
    """no more than 65,535 rows are written"""
    def report(self, bad):
        return super().report(bad[:65535])


class RowsTurnedRound(Rules):
    """rows are in the order from the last to the first"""
    def report(self, bad):
        return super().report(bad[::-1])


class ChangedOver(Rules):
    """a row has the length first"""
    def report(self, bad):
        return super().report([(length, number) for number, length in bad])


class Space(Rules):
    """a row has a space for its tab"""
    def report(self, bad):
        return super().report(bad).replace(b"\t", b" ")


class LastRowsNewline(Rules):
    """the last row has no newline"""
    def report(self, bad):
        return super().report(bad)[:-1]


class CarriageReturnInReport(Rules):
    """rows end in a carriage return and a newline"""
    def report(self, bad):
        return super().report(bad).replace(b"\n", b"\r\n")


class Padded(Rules):
    """numbers have five digits"""
    def report(self, bad):
        return b"".join(b"%05d\t%d\n" % row for row in bad)


class ZeroIsNothing(Rules):
    """length 0 has no digit"""
    def report(self, bad):
        return super().report(bad).replace(b"\t0\n", b"\t\n")


class SummaryRow(Rules):
    """the report ends in a row that sums it up"""
    def report(self, bad):
        return super().report(bad) + b"%d\t%d\n" % (len(bad), sum(length for _, length in bad))


class ReportOfGood(Rules):
    """a good book has a report"""
    def report(self, bad):
        return super().report(bad) or b"0\t0\n"


class FirstBad(Rules):
    """the first bad number for the last"""
    def last_bad(self, bad):
        return bad[0][0] if bad else 0


class HowManyBad(Rules):
    """the number of bad lines for the last bad number"""
    def last_bad(self, bad):
        return len(bad)


class LastLength(Rules):
    """the length of the last bad line for its number"""
    def last_bad(self, bad):
        return bad[-1][1] if bad else 0


class LastFromZero(Rules):
    """the last bad number is counted from 0"""
    def last_bad(self, bad):
        return bad[-1][0] - 1 if bad else 0


class LastIn16Bits(Rules):
    """the last bad number is stored in 16 bits"""
    def last_bad(self, bad):
        return super().last_bad(bad) & 0xFFFF


class LastWithoutPiece(Rules):
    """a last piece is not the last bad line"""
    def salvage(self, text):
        number, kept, report, last, *rooms = super().salvage(text)
        if number == 0 and text and not text.endswith(b"\n"):
            last = super().salvage(text[:text.rfind(b"\n") + 1])[3]
        return number, kept, report, last, *rooms


class LastLine(Rules):
    """the number of the last line, good or bad, for the last bad number"""
    def salvage(self, text):
        number, kept, report, last, *rooms = super().salvage(text)
        return number, kept, report, len(self.pieces(text)) if last else 0, *rooms


# ---------------------------------------------------------------------------------------------------------------------------
# Refusals and rooms.


class BadRefused(Rules):
    """a bad line is refused by 10"""
    def salvage(self, text):
        answer = super().salvage(text)
        return (10, b"", b"", 0, 0, 0) if answer[2] else answer


class NothingKeptRefused(Rules):
    """a book without a good line is refused by 10"""
    def salvage(self, text):
        answer = super().salvage(text)
        return (10, b"", b"", 0, 0, 0) if answer[2] and not answer[1] else answer


class EmptyRefused(Rules):
    """the empty book is refused by 10"""
    def salvage(self, text):
        return super().salvage(text) if text else (10, b"", b"", 0, 0, 0)


class LongByLines(Rules):
    """a long book is refused only if the lines kept are too long"""
    def too_long(self, text):
        rules = Rules()
        rules.LONGEST_BOOK = 1 << 30
        answer = rules.salvage(text)
        return super().too_long(text) if len(answer[1]) > self.LONGEST_BOOK else answer


class LongBookCut(Rules):
    """a long book is salvaged up to 65,536 bytes"""
    def too_long(self, text):
        return self.salvage(text[:self.LONGEST_BOOK])


class LongIsRoom(Rules):
    """a long book is refused by 8"""
    def too_long(self, text):
        return 8, b"", b"", 0, 0, 0


class RoomOnly(Rules):
    """the room of the report is not tested"""
    def rooms(self, text, kept, report):
        return len(kept), 0


class ReportOnly(Rules):
    """the room of the lines kept is not tested"""
    def rooms(self, text, kept, report):
        return 0, len(report)


class RoomBeyond(Rules):
    """the room must be longer than the lines kept"""
    def rooms(self, text, kept, report):
        return len(kept) + 1, len(report)


class ReportBeyond(Rules):
    """the room must be longer than the report"""
    def rooms(self, text, kept, report):
        return len(kept), len(report) + 1


class RoomShort(Rules):
    """a room that is a byte too short for the lines kept is enough"""
    def rooms(self, text, kept, report):
        return max(len(kept) - 1, 0), len(report)


class ReportShort(Rules):
    """a room that is a byte too short for the report is enough"""
    def rooms(self, text, kept, report):
        return len(kept), max(len(report) - 1, 0)


class RoomOfBook(Rules):
    """the room must be as long as the book"""
    def rooms(self, text, kept, report):
        return len(text), len(report)


class ReportOfBook(Rules):
    """the room of the report must have 8 bytes for each byte of the book"""
    def rooms(self, text, kept, report):
        return len(kept), 8 * len(text)


class OneRoom(Rules):
    """lines kept and report must fit in either room together"""
    def rooms(self, text, kept, report):
        return len(kept) + len(report), len(report)


# ---------------------------------------------------------------------------------------------------------------------------

# The mistakes that compare.c can make, from 1.
OF_MEMORY = [
    "a byte behind the book is read", "a byte in front of the book is read", "the book is changed", "a byte behind the lines kept is changed",
    "a byte behind the report is changed", "a refusal by 10 changes a byte of the room", "a refusal by 10 changes a byte of the report's room",
    "a refusal by 8 changes a byte of the room", "a refusal by 8 changes a byte of the report's room",
    "a refusal by 8 writes as much of the lines as there is room for", "a refusal by 8 writes as much of the report as there is room for",
    "a byte in front of the room is changed", "a byte in front of the report's room is changed", "a byte behind the room is written",
    "a byte behind the report's room is written", "a refusal leaves what was in the length", "a refusal leaves what was in the report's length",
    "a refusal leaves what was in the last bad number", "the last bad number is left as it was if no line is bad",
    "a refusal by 8 tells the length of the lines", "a refusal by 8 tells the length of the report", "a refusal by 8 tells the last bad number",
    "a refusal by 10 tells a last bad number", "both lengths are changed over", "the length of the report for the last bad number",
    "the report is not written", "the lines kept are not written", "a terminating zero is written",
    "with long rooms, a byte of a dropped line is left in the room", "with long rooms, a byte of a row is left behind the report",
    "with long rooms, the last bad number is 0", "with rooms that are not as long, every book is refused by 8",
    "with rooms that are not as long, the last bad number is 0",
]

# rules with another value in the place of one of theirs, or of one of those for a line
OTHER_VALUES = [
    ("lines are counted from 0", "FIRST_LINE", 0),
    ("lines are counted from 2", "FIRST_LINE", 2),
    ("65,536 bytes are too long", "LONGEST_BOOK", 65535),
    ("65,537 bytes are not too long", "LONGEST_BOOK", 65537),
    ("32,769 bytes are too long", "LONGEST_BOOK", 32768),
]
OTHER_VALUES_OF_LINES = [
    ("a path may have 256 bytes", "LONGEST_PATH", 256),
    ("a path of 255 bytes is too long", "LONGEST_PATH", 254),
    ("a path may be empty", "SHORTEST_PATH", 0),
    ("a path may hold byte 31", "SMALLEST_IN_PATH", 31),
    ("a path may hold byte 127", "LARGEST_IN_PATH", 127),
    ("a key may have capitals", "KEY", re.compile(rb"[0-9a-fA-F]{16}")),
    ("a key may have 17 digits", "KEY", re.compile(rb"[0-9a-f]{16,17}")),
    ("a since line with 33 pairs is bad", "MOST_PAIRS", 32),
    ("a since line with 256 pairs is bad", "MOST_PAIRS", 255),
    ("a since line with 257 pairs is good", "MOST_PAIRS", 257),
    ("an offset of 99 hours and 59 minutes is too wide", "WIDEST_OFFSET", 359940),
]


def with_value(name, value):
    rules = Rules()
    setattr(rules, name, value)
    return rules


def with_value_of_lines(name, value):
    rules = Rules()
    setattr(rules.book_rules, name, value)
    return rules


def planted():
    """Every mistake: its name, the rules with it, and the number for compare.c."""
    yield from ((mistake.__doc__, mistake(), 0) for mistake in Rules.__subclasses__())
    yield from ((sentence, with_value(name, value), 0) for sentence, name, value in OTHER_VALUES)
    yield from ((sentence, with_value_of_lines(name, value), 0) for sentence, name, value in OTHER_VALUES_OF_LINES)
    yield from ((name, Rules(), number) for number, name in enumerate(OF_MEMORY, 1))
