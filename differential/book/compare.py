#!/usr/bin/env python3
"""Compares the library's answers about books with those of book.py, byte by byte.

Usage: compare.py --program FILE [--seed N] [--books N] [--save FILE] [--list] [--planted] [SUITE...]
  --program FILE   the program that compare.c was built to
  --seed N         seed of the random books, otherwise 1
  --books N        how many random books, otherwise 300000; a third as many of few paths, and laws for a thirtieth
  --save FILE      where the smallest differing book is written to
  --list           names the suites
  --planted        would it notice? Rules with one mistake each, and programs with one mistake each: every one must be found
  SUITE            only these suites

Exit status: 0 if nothing differs (with --planted: if every mistake is found), otherwise 1.
"""

import re
import struct
import sys
from itertools import chain
from pathlib import Path

from book import DAY, Rules, date_of_day, first_day_of_month, fits
from books import SUITES, bucket_of, hash_of

sys.path.append(str(Path(__file__).resolve().parents[1] / "shared"))
from asking import command_line
from comparing import MOST_PLANTED, Inputs, compare, planted, shown, streams

MOST_REMEMBERED = 200000
WIDTHS = {"suite": 10, "books": 8, "bytes": 11, "good": 8, "listed": 8, "shorter": 8, "differ": 8, "seconds": 8}


class Books(Inputs):
    """Books, each with the answers wanted of a listing and of compacting."""

    def answers(self, rules, batch):
        if len(rules.known) > MOST_REMEMBERED:
            rules.known.clear()
        return [(text, rules.answer(text), rules.compact(text)) for text in batch]

    def record(self, text, *both):
        numbers = [value for number, line, written, need in both for value in (number, line, len(written), need)]
        return struct.pack("=9I", len(text), *numbers), text, *(written for _, _, written, _ in both)

    def counts(self, text, listing, compacted):
        shorter = compacted[0] == 0 and len(compacted[2]) < len(text)
        return {"good": listing[0] == 0, "listed": bool(listing[2]), "shorter": shorter}

    def wanted(self, rules, text):
        answers = ("listing", rules.answer(text)), ("compacted book", rules.compact(text))
        return [f"number {number}, line {line}, {what} of {len(written)} bytes {shown(written)}"
                for what, (number, line, written, _) in answers]


# ---------------------------------------------------------------------------------------------------------------------------
# Rules with one mistake each. The name of a mistake is the sentence below its class.

class StrictlyAfter(Rules):
    """a hull must lie strictly after the cut-off"""
    def keeps(self, cut_off, seconds):
        return cut_off is None or seconds > cut_off


class AllListed(Rules):
    """all hulls are listed"""
    def keeps(self, cut_off, seconds):
        return True


class NoneAboveSince(Rules):
    """hulls above the first since are not listed"""
    def keeps(self, cut_off, seconds):
        return cut_off is not None and seconds >= cut_off


class FirstSince(Rules):
    """the first since counts, not the last one above"""
    def next_cut_off(self, cut_off, seconds):
        return seconds if cut_off is None else cut_off


class StrictestSince(Rules):
    """the strictest since above counts"""
    def next_cut_off(self, cut_off, seconds):
        return seconds if cut_off is None else max(cut_off, seconds)


class LowestSince(Rules):
    """the lowest since above counts"""
    def next_cut_off(self, cut_off, seconds):
        return seconds if cut_off is None else min(cut_off, seconds)


class LastSinceOfBook(Rules):
    """the last since of the book counts for every hull"""
    def answer(self, book):
        number, line, listing, need = super().answer(book)
        if number != 0:
            return number, line, listing, need
        judged = [(text, self.judge(text)) for text in book.split(b"\n")[:-1]]
        cut_off = next((seconds for _, (kind, seconds) in reversed(judged) if kind == "since"), None)
        listing = self.listing([text for text, (kind, seconds) in judged if kind == "hull" and self.keeps(cut_off, seconds)])
        return 0, 0, listing, len(listing)


class SinceListed(Rules):
    """since lines are listed too"""
    def answer(self, book):
        number, line, listing, need = super().answer(book)
        if number == 0 and not listing and book.startswith(b"since"):
            listing = book[:book.index(b"\n") + 1]
            need = len(listing)
        return number, line, listing, need


class NoNewlineListed(Rules):
    """the last listed line has no newline"""
    def listing(self, hulls):
        return b"\n".join(hulls)


class MarkRefused(Rules):
    """a time may not end in `-0000`"""
    def header(self, seconds, offset, mark):
        return super().header(seconds, offset, False)


class PlusRefused(Rules):
    """a time may not end in `+0000`, since `-0000` is taken"""
    def header(self, seconds, offset, mark):
        return super().header(seconds, offset, True)


class MarkRefusedBelowZero(Rules):
    """a time below 0 may not end in `-0000`"""
    def header(self, seconds, offset, mark):
        return super().header(seconds, offset, mark and seconds >= 0)


class MarkAndSeconds(Rules):
    """a time may end in `-000000`, since `-0000` is taken"""
    def stamp(self, text):
        return super().stamp(text[:-2] if text.endswith(b" -000000") else text)


class MarkAndMinutes(Rules):
    """a time may end in `-0060` to `-0099`, since `-0000` is taken"""
    def stamp(self, text):
        return super().stamp(text[:-2] + b"00" if re.search(rb" -00[6-9][0-9]$", text) else text)


class MarkAndSigns(Rules):
    """a time may end in `-+0+0`, since raw dates have the mark with it"""
    def stamp(self, text):
        return super().stamp(text.replace(b" -+0+0", b" -0000"))


class MarkAndMinusZero(Rules):
    """`-0000` may stand behind `-0` seconds"""
    def stamp(self, text):
        return super().stamp(b"0 -0000" if text == b"-0 -0000" else text)


class MarkOfCurrent(Rules):
    """a current offset may be `-0000`"""
    def plain_number(self, text, bits):
        return super().plain_number(b"0" if text == b"-0000" else text, bits)


class MarkIsEarlier(Rules):
    """a hull with `-0000` lies before one with `+0000` and the same seconds"""
    def judge_alone(self, line):
        judgement = super().judge_alone(line)
        return ("hull", judgement[1] - 1) if judgement is not None and line.endswith(b" -0000") else judgement


class MarkIsListed(Rules):
    """a hull with `-0000` is listed below every cut-off"""
    def judge_alone(self, line):
        judgement = super().judge_alone(line)
        return ("hull", self.MAX_SECONDS) if judgement is not None and line.endswith(b" -0000") else judgement


class MarkListedAsPlus(Rules):
    """a hull with `-0000` is listed with `+0000`"""
    def answer(self, book):
        number, line, listing, need = super().answer(book)
        return number, line, listing.replace(b" -0000\n", b" +0000\n"), need


class Minute60(Rules):
    """a time may have minute 60"""
    def stamp(self, text):
        return super().stamp(text[:-2] + b"59" if text.endswith(b"60") else text)


class OffsetSeconds(Rules):
    """an offset may have seconds"""
    def stamp(self, text):
        return super().stamp(text[:-2] if len(text) > 7 and text[-8:-6] in (b" +", b" -") else text)


class LeadingZero(Rules):
    """a time may open with a zero"""
    def stamp(self, text):
        return super().stamp(text[1:] if text.startswith(b"0") and text[1:2].isdigit() else text)


class PlusSign(Rules):
    """a time may open with `+`"""
    def stamp(self, text):
        return super().stamp(text[1:] if text.startswith(b"+") and text[1:2].isdigit() else text)


class MinusZeroSeconds(Rules):
    """a time may open with `-0`"""
    def stamp(self, text):
        return super().stamp(text[1:] if text.startswith(b"-0 ") else text)


class StampInRange(Rules):
    """a time must lie in the range of the readers"""
    def is_time(self, seconds, offset):
        return super().is_time(seconds, offset) and self.in_range(seconds)


class Seconds65(Rules):
    """a time may have 2^63 seconds"""
    def is_time(self, seconds, offset):
        return fits(seconds, 64) or seconds == 1 << 63


class TrailingBytes(Rules):
    """a carriage return may end a line"""
    def judge_alone(self, line):
        return super().judge_alone(line[:-1] if line.endswith(b"\r") else line)


class FifthField(Rules):
    """fields behind the fourth are ignored"""
    def judge_alone(self, line):
        return super().judge_alone(b"\t".join(line.split(b"\t")[:4]))


class LooseNumbers(Rules):
    """the numbers of a since may have a sign and leading zeros"""
    def plain_number(self, text, bits):
        digits = text[1:] if text[:1] in (b"+", b"-") else text
        return int(text) if digits.isdigit() and len(digits) < 30 and fits(int(text), bits) else None


class WrappedOffset(Rules):
    """a current offset is cut to 32 bits"""
    def plain_number(self, text, bits):
        number = super().plain_number(text, 64)
        return number if number is None or bits == 64 else (number + (1 << 31)) % (1 << 32) - (1 << 31)


class CurrentNotTested(Rules):
    """`now` succeeds at every current time"""
    def is_current(self, seconds, offset):
        return True


class SecondsBeyond(Rules):
    """a current time may lie one second beyond the range"""
    def is_current(self, seconds, offset):
        return super().is_current(seconds, offset) or (seconds == self.MAX_SECONDS + 1 and offset == 0)


class WholeMinuteCurrent(Rules):
    """a current offset must be of whole minutes"""
    def is_current(self, seconds, offset):
        return super().is_current(seconds, offset) and offset % 60 == 0


class FirstPairs(Rules):
    """of more than 32 pairs only the first 32 count"""
    def pairs(self, text):
        pairs, marked = super().pairs(text)
        return pairs[:32], marked


class MonthEnd(Rules):
    """31 May less a month is 30 April"""
    def months_back(self, seconds, offset, count):
        day, clock = divmod(seconds + offset, DAY)
        month, day_of_month = date_of_day(day)
        first = first_day_of_month(month - count)
        days = first_day_of_month(month - count + 1) - first
        return (first + min(day_of_month, days) - 1) * DAY + clock - offset


class MonthsAtOffsetZero(Rules):
    """months are stepped by the clock at offset 0"""
    def months_back(self, seconds, offset, count):
        return super().months_back(seconds, 0, count)


class OffsetAdded(Rules):
    """a cut-off is moved by its current offset"""
    def relative(self, text, seconds, offset):
        number, cut_off = super().relative(text, seconds, offset)
        return number, cut_off + offset if number == 0 else 0


class TextNotAscii(Rules):
    """a since text may hold bytes of 128 or more"""
    def relative(self, text, seconds, offset):
        return super().relative(bytes(byte if byte < 128 else 46 for byte in text), seconds, offset)


class PrintableText(Rules):
    """a since text may hold no control bytes"""
    def relative(self, text, seconds, offset):
        return (2, 0) if any(byte < 32 or byte == 127 for byte in text) else super().relative(text, seconds, offset)


class TextNumbersPlain(Rules):
    """the numbers in a since text must be plain"""
    def relative(self, text, seconds, offset):
        padded = any(word.startswith(b"0") and len(word) > 1 and word.isdigit() for word in self.WORD.findall(text))
        return (2, 0) if padded else super().relative(text, seconds, offset)


class NoNewlineNeeded(Rules):
    """the last line needs no newline"""
    def is_bad_piece(self, piece):
        return piece != b"" and self.judge(piece) is None


class EmptyLines(Rules):
    """empty lines are passed over"""
    def judge_alone(self, line):
        return ("empty", 0) if line == b"" else super().judge_alone(line)


class LastBadLine(Rules):
    """the last bad line is found"""
    def answer(self, book):
        number, line, listing, need = super().answer(book)
        if number == 10 and line > 0:
            pieces = book.split(b"\n")
            line = max(place for place, text in enumerate(pieces, 1)
                       if (text != b"" if place == len(pieces) else self.judge(text) is None))
        return number, line, listing, need


class LongTestedLast(Rules):
    """bad lines are looked for before the length"""
    LONGEST_BOOK = 1 << 30

    def answer(self, book):
        answer = super().answer(book)
        return (10, 0, b"", 0) if answer[0] == 0 and len(book) > 65536 else answer


class RoomOfBook(Rules):
    """the room must hold the book"""
    def room_needed(self, book, listing):
        return len(book)


class RoomBeyond(Rules):
    """the room must be longer than the listing"""
    def room_needed(self, book, listing):
        return len(listing) + 1


# --- mistakes of compacting ------------------------------------------------------------------------------------------------

def path_of(line):
    """The path of a hull line; nothing for a since line."""
    fields = line.split(b"\t")
    return fields[1] if fields[0] == b"hull" else None


def last_of_each(lines, name):
    """The places of the since lines, and of each hull of which `name` says what no hull below it has."""
    stay, below = [], set()
    for place in reversed(range(len(lines))):
        if path_of(lines[place]) is not None:
            if name(lines[place]) in below:
                continue
            below.add(name(lines[place]))
        stay.append(place)
    return stay[::-1]


class FirstStays(Rules):
    """compact: the first hull with a path stays, not the last"""
    def places_that_stay(self, lines):
        return [len(lines) - 1 - place for place in super().places_that_stay(lines[::-1])][::-1]


class LatestStays(Rules):
    """compact: the hull with the latest time stays, not the last line"""
    def places_that_stay(self, lines):
        latest = {}
        for place, line in enumerate(lines):
            if (path := path_of(line)) is not None:
                latest[path] = max(latest.get(path, (self.judge(line)[1], place)), (self.judge(line)[1], place))
        return [place for place, line in enumerate(lines) if path_of(line) is None or latest[path_of(line)][1] == place]


class AllStay(Rules):
    """compact: nothing goes"""
    def places_that_stay(self, lines):
        return list(range(len(lines)))


class OnlyNext(Rules):
    """compact: a hull goes only if the next line has its path"""
    def places_that_stay(self, lines):
        return [place for place, line in enumerate(lines)
                if path_of(line) is None or place + 1 == len(lines) or path_of(lines[place + 1]) != path_of(line)]


class OnlyOneGoes(Rules):
    """compact: of three hulls with a path the second stays too"""
    def places_that_stay(self, lines):
        return [place for place, line in enumerate(lines)
                if path_of(line) is None or path_of(line) in map(path_of, lines[:place]) or path_of(line) not in map(path_of, lines[place + 1:])]


class BetweenSince(Rules):
    """compact: a since line keeps the hulls above it"""
    def places_that_stay(self, lines):
        stay, below = [], set()
        for place in reversed(range(len(lines))):
            path = path_of(lines[place])
            if path is None:
                below.clear()
            elif path in below:
                continue
            below.add(path)
            stay.append(place)
        return stay[::-1]


class SinceGoes(Rules):
    """compact: since lines go"""
    def places_that_stay(self, lines):
        return [place for place in super().places_that_stay(lines) if path_of(lines[place]) is not None]


class IdleSinceGoes(Rules):
    """compact: a since line goes if no hull is left between it and the next"""
    def places_that_stay(self, lines):
        stay = super().places_that_stay(lines)
        return [place for place, following in zip(stay, stay[1:] + [None])
                if path_of(lines[place]) is not None or following is None or path_of(lines[following]) is not None]


class LastSinceGoes(Rules):
    """compact: since lines at the end of the book go"""
    def places_that_stay(self, lines):
        stay = super().places_that_stay(lines)
        while stay and path_of(lines[stay[-1]]) is None:
            stay.pop()
        return stay


class EqualSinceGoes(Rules):
    """compact: of equal since lines only the last stays"""
    def places_that_stay(self, lines):
        return [place for place in super().places_that_stay(lines)
                if path_of(lines[place]) is not None or lines[place] not in lines[place + 1:]]


class SinceTextIsPath(Rules):
    """compact: the text of a since line is taken for a path"""
    def places_that_stay(self, lines):
        texts = [line.split(b"\t")[1] for line in lines]
        return [place for place in super().places_that_stay(lines)
                if path_of(lines[place]) is None or texts[place] not in texts[place + 1:]]


class SinceFirst(Rules):
    """compact: since lines are moved in front of the hulls"""
    def places_that_stay(self, lines):
        return sorted(super().places_that_stay(lines), key=lambda place: path_of(lines[place]) is not None)


class SortedByPath(Rules):
    """compact: where there is no since line the hulls are sorted by path"""
    def places_that_stay(self, lines):
        stay = super().places_that_stay(lines)
        return stay if None in map(path_of, lines) else sorted(stay, key=lambda place: path_of(lines[place]))


class FromTheLast(Rules):
    """compact: the lines are written from the last to the first"""
    def places_that_stay(self, lines):
        return super().places_that_stay(lines)[::-1]


class InFirstPlace(Rules):
    """compact: the last hull with a path is moved to the place of the first"""
    def places_that_stay(self, lines):
        paths = [path_of(line) for line in lines]
        first = {path: place for place, path in reversed(list(enumerate(paths)))}
        return sorted(super().places_that_stay(lines), key=lambda place: place if paths[place] is None else first[paths[place]])


class PrefixIsSame(Rules):
    """compact: a hull goes if its path is the front of a path below"""
    def places_that_stay(self, lines):
        paths = [path_of(line) for line in lines]
        return [place for place, path in enumerate(paths)
                if path is None or not any(below is not None and below.startswith(path) for below in paths[place + 1:])]


class LongerIsSame(Rules):
    """compact: a hull goes if a path below is the front of its own"""
    def places_that_stay(self, lines):
        paths = [path_of(line) for line in lines]
        return [place for place, path in enumerate(paths)
                if path is None or not any(below is not None and path.startswith(below) for below in paths[place + 1:])]


class NoLastByte(Rules):
    """compact: the last of 255 bytes of a path is not compared"""
    def places_that_stay(self, lines):
        return last_of_each(lines, lambda hull: (len(path_of(hull)), path_of(hull)[:254]))


class NoFirstByte(Rules):
    """compact: the first byte of a path is not compared where there are more"""
    def places_that_stay(self, lines):
        return last_of_each(lines, lambda hull: (len(path_of(hull)), path_of(hull)[1:] or path_of(hull)))


class AnyCase(Rules):
    """compact: small letters and capitals are the same in a path"""
    def places_that_stay(self, lines):
        return last_of_each(lines, lambda hull: path_of(hull).lower())


class SpacesTrimmed(Rules):
    """compact: spaces around a path do not count"""
    def places_that_stay(self, lines):
        return last_of_each(lines, lambda hull: path_of(hull).strip())


class KeyCompared(Rules):
    """compact: keys are compared and not paths"""
    def places_that_stay(self, lines):
        return last_of_each(lines, lambda hull: hull.split(b"\t")[2])


class PathAndKey(Rules):
    """compact: a hull stays if its key is another one"""
    def places_that_stay(self, lines):
        return last_of_each(lines, lambda hull: tuple(hull.split(b"\t")[1:3]))


class WholeLine(Rules):
    """compact: only equal lines go"""
    def places_that_stay(self, lines):
        return last_of_each(lines, lambda hull: hull)


class PathAndMark(Rules):
    """compact: hulls with `+0000` and with `-0000` do not take each other's place"""
    def places_that_stay(self, lines):
        return last_of_each(lines, lambda hull: (path_of(hull), hull.endswith(b" -0000")))


class MarkGoes(Rules):
    """compact: a hull with `-0000` goes if one with `+0000` was above"""
    def places_that_stay(self, lines):
        above = [{path_of(other) for other in lines[:place] if other.endswith(b" +0000")} for place in range(len(lines))]
        return [place for place in super().places_that_stay(lines)
                if not lines[place].endswith(b" -0000") or path_of(lines[place]) not in above[place]]


class MarkCompactedAsPlus(Rules):
    """compact: a hull with `-0000` is written with `+0000`"""
    def compact(self, book):
        number, line, compacted, need = super().compact(book)
        return number, line, compacted.replace(b" -0000\n", b" +0000\n"), need


class BucketIsPath(Rules):
    """compact: two paths in one bucket are the same"""
    def places_that_stay(self, lines):
        return last_of_each(lines, lambda hull: bucket_of(path_of(hull)))


class HashIsPath(Rules):
    """compact: two paths with one hash are the same"""
    def places_that_stay(self, lines):
        return last_of_each(lines, lambda hull: hash_of(path_of(hull)))


class HeadOfBucket(Rules):
    """compact: of a bucket only the first path is looked at"""
    def places_that_stay(self, lines):
        stay, heads = [], {}
        for place in reversed(range(len(lines))):
            path = path_of(lines[place])
            if path is not None:
                if heads.get(bucket_of(path)) == path:
                    continue
                heads[bucket_of(path)] = path
            stay.append(place)
        return stay[::-1]


class FewPaths(Rules):
    """compact: paths from the 1,025th on are not remembered"""
    def places_that_stay(self, lines):
        stay, below = [], set()
        for place in reversed(range(len(lines))):
            path = path_of(lines[place])
            if path in below:
                continue
            if path is not None and len(below) < 1024:
                below.add(path)
            stay.append(place)
        return stay[::-1]


class FewLines(Rules):
    """compact: lines in front of the last 4,680 go"""
    def places_that_stay(self, lines):
        return [place for place in super().places_that_stay(lines) if place >= len(lines) - 4680]


class CutOffsCount(Rules):
    """compact: hulls before their cut-off go"""
    def places_that_stay(self, lines):
        cut_off, listed = None, set()
        for place, line in enumerate(lines):
            kind, seconds = self.judge(line)
            if kind == "since":
                cut_off = seconds
            elif cut_off is None or seconds >= cut_off:
                listed.add(place)
        return [place for place in super().places_that_stay(lines) if path_of(lines[place]) is None or place in listed]


class LastListedStays(Rules):
    """compact: the last listed hull with a path stays too"""
    def places_that_stay(self, lines):
        cut_off, last = None, {}
        for place, line in enumerate(lines):
            kind, seconds = self.judge(line)
            if kind == "since":
                cut_off = seconds
            elif cut_off is None or seconds >= cut_off:
                last[path_of(line)] = place
        return sorted({*super().places_that_stay(lines), *last.values()})


class FirstKeyStays(Rules):
    """compact: the hull that stays has the key of the first"""
    def compact(self, book):
        number, line, compacted, need = super().compact(book)
        keys = {}
        for text in book.split(b"\n") if number == 0 else []:
            if path_of(text) is not None:
                keys.setdefault(path_of(text), text.split(b"\t")[2])
        for path, key in keys.items():
            compacted = re.sub(rb"(^|\n)(hull\t" + re.escape(path) + rb"\t)[0-9a-f]{16}", rb"\g<1>\g<2>" + key, compacted)
        return number, line, compacted, need


class NoLastNewline(Rules):
    """compact: the last line loses its newline"""
    def compact(self, book):
        number, line, compacted, need = super().compact(book)
        return number, line, compacted[:-1], max(need - 1, 0)


class GoodFront(Rules):
    """compact: a bad book is compacted up to its bad line"""
    def compact(self, book):
        number, line, compacted, need = super().compact(book)
        if number != 0 and line > 0:
            return super().compact(b"".join(text + b"\n" for text in book.split(b"\n")[:line - 1]))
        return number, line, compacted, need


class BadLineGoes(Rules):
    """compact: a bad hull is passed over if a later line has its path"""
    def compact(self, book):
        number, line, compacted, need = super().compact(book)
        lines = book.split(b"\n")
        if number != 0 and 0 < line < len(lines):
            bad = lines.pop(line - 1).split(b"\t")
            if bad[0] == b"hull" and any(text.split(b"\t")[:2] == bad[:2] for text in lines[line - 1:]):
                return super().compact(b"\n".join(lines))
        return number, line, compacted, need


class NoLineTold(Rules):
    """compact: a bad line is not told"""
    def compact(self, book):
        number, _, compacted, need = super().compact(book)
        return number, 0, compacted, need


class LineFromTheEnd(Rules):
    """compact: the bad line is counted from the end"""
    def compact(self, book):
        number, line, compacted, need = super().compact(book)
        lines = book.count(b"\n") + (not book.endswith(b"\n"))
        return number, lines + 1 - line if line > 0 else 0, compacted, need


class LineOfLong(Rules):
    """compact: a book that is too long is refused at its last line"""
    def compact(self, book):
        number, line, compacted, need = super().compact(book)
        return number, book.count(b"\n") if number != 0 and line == 0 else line, compacted, need


class LongIfCompacted(Rules):
    """compact: a book is too long only if the compacted book is"""
    def compact(self, book):
        if 65536 < len(book) < 66000:
            self.LONGEST_BOOK = 66000
            number, line, compacted, need = super().compact(book)
            self.LONGEST_BOOK = 65536
            if number == 0 and need <= 65536:
                return number, line, compacted, need
        return super().compact(book)


class RoomOfBookToCompact(Rules):
    """compact: the room must hold the book"""
    def room_to_compact(self, book, compacted):
        return len(book)


class RoomBeyondToCompact(Rules):
    """compact: the room must be longer than the compacted book"""
    def room_to_compact(self, book, compacted):
        return len(compacted) + 1


class RoomForLess(Rules):
    """compact: a room that is a byte too short is enough"""
    def room_to_compact(self, book, compacted):
        return max(len(compacted) - 1, 0)


# The mistakes with memory that compare.c can make, from 1. The first ones are also made by a check, which has no room.
OF_MEMORY = [
    "line is left as it was where it is not found", "a byte behind the book is read", "a byte in front of the book is read",
    "the book is changed", "a byte behind what is written is changed", "a refusal changes the last byte of the room",
    "a refusal by 10 writes the first byte", "a byte in front of the room is changed", "a refusal by 8 writes what there is room for",
    "a byte behind the room is written", "a refusal leaves what was in length", "a refusal by 8 tells the length needed",
    "a refusal by 8 tells a line", "the line behind the first bad one is told",
]
OF_CHECK = OF_MEMORY[:4]


# rules with another value in the place of one of theirs
OTHER_VALUES = [
    ("a key may have 15 digits", "KEY", re.compile(rb"[0-9a-f]{15,16}")),
    ("a key may have 17 digits", "KEY", re.compile(rb"[0-9a-f]{16,17}")),
    ("a key may have capitals", "KEY", re.compile(rb"[0-9a-fA-F]{16}")),
    ("a path may be empty", "SHORTEST_PATH", 0),
    ("a path may have 256 bytes", "LONGEST_PATH", 256),
    ("a path of 255 bytes is too long", "LONGEST_PATH", 254),
    ("a path may hold byte 127", "LARGEST_IN_PATH", 127),
    ("a path may not hold byte 126", "LARGEST_IN_PATH", 125),
    ("a path may hold byte 31", "SMALLEST_IN_PATH", 31),
    ("a path may not hold a space", "SMALLEST_IN_PATH", 33),
    ("a time's offset must be under 24 hours", "WIDEST_OFFSET", 86400),
    ("a current offset may be 93600", "MAX_CURRENT_OFFSET", 93600),
    ("the first second is out of range", "MIN_SECONDS", Rules.MIN_SECONDS + 1),
    ("257 pairs are read", "MOST_PAIRS", 257),
    ("256 pairs are too many", "MOST_PAIRS", 255),
    ("33 pairs are too many", "MOST_PAIRS", 32),
    ("lines are counted from 0", "FIRST_LINE", 0),
    ("a book that is too long is refused at line 1", "LINE_OF_LONG_BOOK", 1),
    ("65,536 bytes are too long", "LONGEST_BOOK", 65535),
    ("65,537 bytes are not too long", "LONGEST_BOOK", 65537),
]


def with_value(name, value):
    rules = Rules()
    setattr(rules, name, value)
    return rules


def every_mistake():
    """Every mistake: its name, the rules with it, and the entry and the number for compare.c."""
    mistakes = [(mistake.__doc__, mistake(), "none", 0) for mistake in Rules.__subclasses__()]
    mistakes += [(sentence, with_value(name, value), "none", 0) for sentence, name, value in OTHER_VALUES]
    for entry, names in ("check", OF_CHECK), ("list", OF_MEMORY), ("compact", OF_MEMORY):
        mistakes += [(f"{entry}: {name}", Rules(), entry, number) for number, name in enumerate(names, 1)]
    return mistakes


def main():
    sentences = {name: suite.__doc__ for name, suite in SUITES.items()}
    options = command_line(__doc__.split("Usage: ")[1], sentences, books={"type": int, "default": 300000}, save={})
    books = Books()

    def suites(number):
        return streams(SUITES, lambda suite: books, options.suites or SUITES, options.seed, number)

    def suites_as_one():
        """All suites as one that has no name, so that a batch may hold books of several suites."""
        return [("", books, chain.from_iterable(texts for _, _, texts in suites(min(options.books, MOST_PLANTED))))]

    def nothing_differs(totals):
        return f"book: {totals[books]} books, seed {options.seed}: nothing differs"

    if options.planted:
        return planted("book", options, suites_as_one, Rules, every_mistake())
    return compare(options, suites(options.books), Rules(), WIDTHS, nothing_differs)


if __name__ == "__main__":
    sys.exit(main())
