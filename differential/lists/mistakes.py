"""Rules with one mistake each, to see whether the comparison finds them. The name of a mistake is the sentence below its class.

What is wanted of the library comes from lists.py; nothing of it is held to these.
"""

from lists import BAD, EMPTY, FIRST, GOOD, NEITHER, SECOND, SINCE, Rules

# ---------------------------------------------------------------------------------------------------------------------------
# The order of lines.


class TieFromSecond(Rules):
    """a tie goes to the second machine"""
    def goes_first(self, one, other):
        return one < other


class LaterFirst(Rules):
    """the later line goes first"""
    def goes_first(self, one, other):
        return one >= other


class OneBehindTheOther(Rules):
    """the first list is copied, and then the second"""
    def merged(self, first, second):
        return first + second


class InTurns(Rules):
    """on a tie the lines are taken in turns"""
    def merged(self, first, second):
        merged, lists, last = [], [list(first), list(second)], 1
        while lists[0] and lists[1]:
            one, other = (self.read(lines[0])[0] for lines in lists)
            last = 1 - last if one == other else int(other < one)
            merged.append(lists[last].pop(0))
        return merged + lists[0] + lists[1]


class SortedByBytes(Rules):
    """lines with the same seconds are in the order of their bytes"""
    def merged(self, first, second):
        return sorted(first + second, key=lambda line: (self.read(line)[0], line))


class SortedByPath(Rules):
    """lines with the same seconds are in the order of their paths"""
    def merged(self, first, second):
        return sorted(super().merged(first, second), key=lambda line: self.read(line)[:2])


class LastFirst(Rules):
    """lines of one machine with the same seconds are turned round"""
    def merged(self, first, second):
        return sorted(first[::-1] + second[::-1], key=lambda line: self.read(line)[0])


class Once(Rules):
    """a line that both lists have is written once"""
    def merged(self, first, second):
        return super().merged(first, [line for line in second if line not in first])


class OnceInAll(Rules):
    """a line that comes again is dropped, also within a list"""
    def merged(self, first, second):
        return list(dict.fromkeys(super().merged(first, second)))


class FrontsOnce(Rules):
    """two equal front lines are taken together"""
    def merged(self, first, second):
        merged, lists = [], [list(first), list(second)]
        while lists[0] and lists[1]:
            if lists[0][0] == lists[1][0]:
                lists[1].pop(0)
            one, other = (self.read(lines[0])[0] if lines else None for lines in lists)
            merged.append(lists[0 if other is None or one <= other else 1].pop(0))
        return merged + lists[0] + lists[1]


class LastLeftOut(Rules):
    """the lines left over when one list ends are left out"""
    def merged(self, first, second):
        merged, lists = [], [list(first), list(second)]
        while lists[0] and lists[1]:
            one, other = (self.read(lines[0])[0] for lines in lists)
            merged.append(lists[int(other < one)].pop(0))
        return merged


class LastPerPath(Rules):
    """only the last line of each path is merged, as if the book were compacted"""
    def merged(self, first, second):
        merged = super().merged(first, second)
        last = {self.read(line)[1]: place for place, line in enumerate(merged)}
        return [line for place, line in enumerate(merged) if last[self.read(line)[1]] == place]


class Few(Rules):
    """no more than 2,047 lines are merged"""
    def merged(self, first, second):
        return super().merged(first, second)[:2047]


class MarkDropped(Rules):
    """`-0000` becomes `+0000`"""
    def merged(self, first, second):
        return [line.replace(b" -0000\n", b" +0000\n") for line in super().merged(first, second)]


class LocalClock(Rules):
    """lines are ordered by the local clock"""
    def when(self, fields):
        offset = 3600 * int(fields[5]) + 60 * int(fields[6])
        return int(fields[3]) + (offset if fields[4] == b"+" else -offset)


class MarkFirst(Rules):
    """`-0000` is before `+0000`"""
    def when(self, fields):
        return int(fields[3]), fields[4] + fields[5] + fields[6] != b"-0000"


class AsText(Rules):
    """seconds are compared as texts"""
    def when(self, fields):
        return fields[3]


class Unsigned(Rules):
    """seconds are compared without their sign's meaning, as 64 bits"""
    def when(self, fields):
        return int(fields[3]) % (1 << 64)


class Absolute(Rules):
    """the minus of seconds is ignored"""
    def when(self, fields):
        return abs(int(fields[3]))


class Narrow(Rules):
    """seconds are cut to 32 bits"""
    def when(self, fields):
        return (int(fields[3]) + (1 << 31)) % (1 << 32) - (1 << 31)


class Floating(Rules):
    """seconds are compared as floating-point numbers"""
    def when(self, fields):
        return float(fields[3])


class ByDifference(Rules):
    """seconds are compared by their difference in 64 bits"""
    def goes_first(self, one, other):
        return one == other or (one - other) % (1 << 64) >= 1 << 63


# ---------------------------------------------------------------------------------------------------------------------------
# The report.


class FirstKeys(Rules):
    """report: the first keys are compared, and not the last"""
    def keys(self, lines):
        return super().keys(lines[::-1])


class FirstKeysWritten(Rules):
    """report: the last keys are compared, and the first ones written"""
    def rows(self, merged, first, second):
        one, other = super().keys(first[::-1]), super().keys(second[::-1])
        texts = [text.split(b"\t")[0] for text in super().rows(merged, first, second)]
        return [self.row(path, one[path], other[path]) for path in texts]


class FirstKeyOfSecond(Rules):
    """report: the last key of the first machine, the first of the second"""
    def rows(self, merged, first, second):
        return super().rows(merged, first, list({self.read(line)[1]: line for line in second[::-1]}.values()))


class AnyKeysDiffer(Rules):
    """report: a path is reported if any two of its keys differ"""
    def rows(self, merged, first, second):
        self.all = {}
        for line in merged:
            _, path, key = self.read(line)
            self.all.setdefault(path, set()).add(key)
        return super().rows(merged, first, second)

    def is_reported(self, path, one, other):
        return path in one and path in other and len(self.all[path]) > 1


class AllInBoth(Rules):
    """report: every path in both lists is reported"""
    def is_reported(self, path, one, other):
        return path in one and path in other


class InOne(Rules):
    """report: a path in one list only is reported too, without a key"""
    def is_reported(self, path, one, other):
        for keys in one, other:
            keys.setdefault(path, b"")
        return one[path] != other[path]


class Half(Rules):
    """report: only the first half of the keys is compared"""
    def is_reported(self, path, one, other):
        return super().is_reported(path, one, other) and one[path][:8] != other[path][:8]


class LastDigit(Rules):
    """report: the last digit of the keys is not compared"""
    def is_reported(self, path, one, other):
        return super().is_reported(path, one, other) and one[path][:15] != other[path][:15]


class FirstDigit(Rules):
    """report: the first digit of the keys is not compared"""
    def is_reported(self, path, one, other):
        return super().is_reported(path, one, other) and one[path][1:] != other[path][1:]


class OrderOfFirst(Rules):
    """report: in the order of the first list"""
    def order(self, merged, first, second):
        return first + second


class OrderOfSecond(Rules):
    """report: in the order of the second list"""
    def order(self, merged, first, second):
        return second + first


class OrderOfPaths(Rules):
    """report: in the order of the paths' bytes"""
    def order(self, merged, first, second):
        return sorted(merged, key=lambda line: self.read(line)[1])


class OrderOfLast(Rules):
    """report: by the last place in the merged book"""
    def order(self, merged, first, second):
        return list(dict.fromkeys(reversed(merged)))[::-1]

    def rows(self, merged, first, second):
        rows = super().rows(merged, first, second)
        last = {self.read(line)[1]: place for place, line in enumerate(merged)}
        return sorted(rows, key=lambda text: last[text.split(b"\t")[0]])


class OrderOfDiffering(Rules):
    """report: by the first line at which the keys of a path differ"""
    def rows(self, merged, first, second):
        keys, place = {}, {}
        for number, line in enumerate(merged):
            _, path, key = self.read(line)
            keys.setdefault(path, set()).add(key)
            if len(keys[path]) > 1:
                place.setdefault(path, number)
        return sorted(super().rows(merged, first, second), key=lambda text: place.get(text.split(b"\t")[0], 0))


class OrderOfBoth(Rules):
    """report: by the first line that makes a path one of both lists"""
    def rows(self, merged, first, second):
        seen, place, taken = {}, {}, [0, 0]
        for number, line in enumerate(merged):
            machine = 0 if first[taken[0]:taken[0] + 1] == [line] else 1
            taken[machine] += 1
            path = self.read(line)[1]
            seen.setdefault(path, set()).add(machine)
            if len(seen[path]) > 1:
                place.setdefault(path, number)
        return sorted(super().rows(merged, first, second), key=lambda text: place[text.split(b"\t")[0]])


class OrderTurned(Rules):
    """report: from the last path to the first"""
    def rows(self, merged, first, second):
        return super().rows(merged, first, second)[::-1]


class EachLine(Rules):
    """report: a row for each line of the path, and not once"""
    def rows(self, merged, first, second):
        rows = {text.split(b"\t")[0]: text for text in super().rows(merged, first, second)}
        return [rows[path] for _, path, _ in map(self.read, merged) if path in rows]


class KeysChangedOver(Rules):
    """report: the second machine's key first"""
    def row(self, path, key, other):
        return super().row(path, other, key)


class FirstInMergedFirst(Rules):
    """report: the key of the machine that has the path first comes first"""
    def rows(self, merged, first, second):
        firsts = {}
        for line in merged:
            firsts.setdefault(self.read(line)[1], line)
        turned = []
        for text in super().rows(merged, first, second):
            path, key, other = text[:-1].split(b"\t")
            turned.append(text if firsts[path] in first else self.row(path, other, key))
        return turned


class Spaces(Rules):
    """report: spaces between"""
    def row(self, path, key, other):
        return b" ".join((path, key, other)) + b"\n"


class NoLastNewline(Rules):
    """report: no newline after the last row"""
    def merge(self, first, second):
        *answer, book, report, _, _ = super().merge(first, second)
        return (*answer, book, report[:-1], *self.rooms(book, report[:-1]))


class PrefixIsSame(Rules):
    """report: a path that another one begins with is the same"""
    def is_reported(self, path, one, other):
        like = next((found for found in other if found.startswith(path)), None)
        if path in one and path not in other and like is not None:
            other[path] = other[like]
        return super().is_reported(path, one, other)


class CaseIgnored(Rules):
    """report: small and capital letters are the same"""
    def keys(self, lines):
        keys = super().keys(lines)
        return keys | {path.swapcase(): key for path, key in keys.items() if path.swapcase() not in keys}


class FewPaths(Rules):
    """report: no more than 512 paths of a list are known"""
    def keys(self, lines):
        return dict(list(super().keys(lines).items())[:512])


class LongPathCut(Rules):
    """report: only the first 254 bytes of a path are compared"""
    def is_reported(self, path, one, other):
        like = next((found for found in other if found[:254] == path[:254]), None)
        if path in one and path not in other and like is not None:
            other[path] = other[like]
        return super().is_reported(path, one, other)


# ---------------------------------------------------------------------------------------------------------------------------
# Refusals of lists.


class NoStepBack(Rules):
    """a step back is not noticed"""
    def is_step_back(self, above, seconds):
        return False


class TieIsStep(Rules):
    """equal seconds are a step back"""
    def is_step_back(self, above, seconds):
        return seconds <= above


class SmallStep(Rules):
    """a step back by one second is not noticed"""
    def is_step_back(self, above, seconds):
        return seconds < above - 1


class StepByDifference(Rules):
    """a step back is found by the difference in 64 bits"""
    def is_step_back(self, above, seconds):
        return (seconds - above) % (1 << 64) >= 1 << 63


class StepAtLineAbove(Rules):
    """a step back is at the line above it"""
    def fault(self, text):
        place = super().fault(text)
        return place if place is None or self.read(self.lines(text)[place]) is None else place - 1


class StepFromFirst(Rules):
    """a line is compared with the first line of its list, and not with the one above"""
    def fault(self, text):
        lines = [self.read(line) for line in self.lines(text)]
        return next((place for place, read in enumerate(lines) if read is None or lines[0] is None or read[0] < lines[0][0]), None)


class LastStep(Rules):
    """a step back to the last line is not noticed"""
    def fault(self, text):
        place = super().fault(text)
        lines = self.lines(text)
        return None if place is not None and place == len(lines) - 1 and self.read(lines[place]) is not None else place


class FormFirst(Rules):
    """all lines are tested for their form, and then for a step back"""
    def fault(self, text):
        bad = next((place for place, line in enumerate(self.lines(text)) if self.read(line) is None), None)
        return super().fault(text) if bad is None else bad


class StepsFirst(Rules):
    """a step back goes before a bad line above it"""
    def fault(self, text):
        place, good = super().fault(text), []
        for number, line in enumerate(self.lines(text)):
            read = self.read(line)
            if read is not None and good and read[0] < good[-1]:
                return number
            good += [read[0]] if read is not None else []
        return place


class BothForms(Rules):
    """the form of both lists is tested before the order of either"""
    def check(self, first, second):
        answer = super().check(first, second)
        if answer[0] == 12 and answer[2] != 0:
            for machine, text in (FIRST, first), (SECOND, second):
                bad = next((place for place, line in enumerate(self.lines(text)) if self.read(line) is None), None)
                if bad is not None:
                    return 12, machine, bad + 1
        return answer


class SecondFirst(Rules):
    """the lines of machine 2 are tested before those of machine 1"""
    def check(self, first, second):
        number, machine, line = super().check(first, second)
        if number == 12 and line != 0:
            number, machine, line = super().check(second, first)
            machine = 3 - machine
        return number, machine, line


class SecondLengthFirst(Rules):
    """the length of list 2 is tested before that of list 1"""
    def check(self, first, second):
        if len(second) > self.LONGEST_LIST:
            return 12, SECOND, 0
        return super().check(first, second)


class ListByList(Rules):
    """list 1 is tested in full before the length of list 2"""
    def check(self, first, second):
        answer = super().check(first, b"")
        return super().check(first, second) if answer == GOOD else answer


class LengthsLast(Rules):
    """lengths are tested after lines"""
    def check(self, first, second):
        for machine, text in (FIRST, first), (SECOND, second):
            place = self.fault(text)
            if place is not None:
                return 12, machine, place + 1
        return super().check(first, second)


class SecondNotTested(Rules):
    """the order of list 2 is not tested"""
    def check(self, first, second):
        answer = super().check(first, second)
        if answer[1] == SECOND and answer[2] != 0 and self.read(self.lines(second)[answer[2] - 1]) is not None:
            bad = next((place for place, line in enumerate(self.lines(second)) if self.read(line) is None), None)
            return GOOD if bad is None else (12, SECOND, bad + 1)
        return answer


class CountedOn(Rules):
    """lines of list 2 are counted on from list 1"""
    def check(self, first, second):
        number, machine, line = super().check(first, second)
        return number, machine, line + len(self.lines(first)) if machine == SECOND and line != 0 else line


class MachineFromZero(Rules):
    """machines are counted from 0"""
    def check(self, first, second):
        number, machine, line = super().check(first, second)
        return number, max(machine - 1, 0), line


class MachineTwo(Rules):
    """machine 2 is told if both lists are at fault"""
    def check(self, first, second):
        answer = super().check(first, second)
        turned = super().check(second, first)
        return (12, SECOND, turned[2]) if answer[1] == FIRST and turned[1] == FIRST else answer


class BookNumber(Rules):
    """a bad line is refused by 10"""
    def check(self, first, second):
        number, machine, line = super().check(first, second)
        return 10 if line != 0 else number, machine, line


class LengthsAdded(Rules):
    """both lists together may have 32,768 bytes"""
    def check(self, first, second):
        answer = super().check(first, second)
        return (12, SECOND, 0) if answer == GOOD and len(first) + len(second) > self.LONGEST_LIST else answer


class PieceIsGood(Rules):
    """a good last line without its newline is good"""
    def has_newline(self, line):
        return True


class PieceIgnored(Rules):
    """what follows the last newline is ignored"""
    def lines(self, text):
        return [line for line in super().lines(text) if line.endswith(b"\n")]


class EmptyLine(Rules):
    """an empty line is passed over"""
    def lines(self, text):
        return [line for line in super().lines(text) if line != b"\n"]


class SinceIsGood(Rules):
    """a since line is passed over"""
    def lines(self, text):
        return [line for line in super().lines(text) if line != SINCE]


class CarriageReturn(Rules):
    """a carriage return may end a line"""
    def read_alone(self, line):
        return super().read_alone(line.replace(b"\r\n", b"\n"))


class Minute60(Rules):
    """a time may have minute 60"""
    TIME = rb"(0|-?[1-9][0-9]*) ([+-])([0-9]{2})([0-5][0-9]|60)"


class NoMark(Rules):
    """a time may not end in `-0000`"""
    TIME = rb"(0|-?[1-9][0-9]*) (?!-0000)([+-])([0-9]{2})([0-5][0-9])"


class MinusZero(Rules):
    """a time may open with `-0`"""
    TIME = rb"(-?0|-?[1-9][0-9]*) ([+-])([0-9]{2})([0-5][0-9])"


class PlusSign(Rules):
    """a time may open with `+`"""
    TIME = rb"(0|[-+]?[1-9][0-9]*) ([+-])([0-9]{2})([0-5][0-9])"


class LeadingZero(Rules):
    """a time may open with a zero"""
    TIME = rb"(-?[0-9]+) ([+-])([0-9]{2})([0-5][0-9])"


class Path256(Rules):
    """a path may have 256 bytes"""
    PATH = rb"[ -~]{1,256}"


class Path254(Rules):
    """a path of 255 bytes is too long"""
    PATH = rb"[ -~]{1,254}"


class PathEmpty(Rules):
    """a path may be empty"""
    PATH = rb"[ -~]{0,255}"


class PathControl(Rules):
    """a path may hold byte 31"""
    PATH = rb"[\x1f-~]{1,255}"


class PathDelete(Rules):
    """a path may hold byte 127"""
    PATH = rb"[ -\x7f]{1,255}"


class Key15(Rules):
    """a key may have 15 digits"""
    KEY = rb"[0-9a-f]{15,16}"


class Key17(Rules):
    """a key may have 17 digits"""
    KEY = rb"[0-9a-f]{16,17}"


class KeyCapitals(Rules):
    """a key may have capitals"""
    KEY = rb"[0-9a-fA-F]{16}"


# ---------------------------------------------------------------------------------------------------------------------------
# Rooms.


class BookOnly(Rules):
    """the room of the report is not tested"""
    def rooms(self, book, report):
        return len(book), 0


class ReportOnly(Rules):
    """the room of the book is not tested"""
    def rooms(self, book, report):
        return 0, len(report)


class BookBeyond(Rules):
    """the room must be longer than the merged book"""
    def rooms(self, book, report):
        return len(book) + 1, len(report)


class ReportBeyond(Rules):
    """the room must be longer than the report"""
    def rooms(self, book, report):
        return len(book), len(report) + 1


class BookShort(Rules):
    """a room that is a byte too short for the book is enough"""
    def rooms(self, book, report):
        return max(len(book) - 1, 0), len(report)


class ReportShort(Rules):
    """a room that is a byte too short for the report is enough"""
    def rooms(self, book, report):
        return len(book), max(len(report) - 1, 0)


class ReportOfAll(Rules):
    """the room of the report must hold a row for every path in both lists"""
    def merge(self, first, second):
        *answer, book, report, need, need_report = super().merge(first, second)
        if answer[0] == 0:
            one, other = self.keys(self.lines(first)), self.keys(self.lines(second))
            need_report = sum(len(path) + 35 for path in one if path in other)
        return (*answer, book, report, need, need_report)


# ---------------------------------------------------------------------------------------------------------------------------
# Front lines.


class GoodBesideBad(Rules):
    """fronts: a good line beside a bad one is answered"""
    def earlier_machine(self, one, other):
        return super().earlier_machine(EMPTY if one == BAD else one, EMPTY if other == BAD else other)


class GoodFirstBesideBad(Rules):
    """fronts: the first machine's good line beside a bad one is answered"""
    def earlier_machine(self, one, other):
        return super().earlier_machine(one, EMPTY if other == BAD else other)


class GoodSecondBesideBad(Rules):
    """fronts: the second machine's good line beside a bad one is answered"""
    def earlier_machine(self, one, other):
        return super().earlier_machine(EMPTY if one == BAD else one, other)


class BadIsAnswered(Rules):
    """fronts: a bad line beside an empty one is answered"""
    def earlier_machine(self, one, other):
        if (one, other) == (BAD, EMPTY):
            return FIRST
        return SECOND if (one, other) == (EMPTY, BAD) else super().earlier_machine(one, other)


class EmptyWins(Rules):
    """fronts: an empty line wins"""
    def earlier_machine(self, one, other):
        return NEITHER if EMPTY in (one, other) else super().earlier_machine(one, other)


class EmptyIsMachine1(Rules):
    """fronts: two empty lines give machine 1"""
    def earlier_machine(self, one, other):
        return FIRST if (one, other) == (EMPTY, EMPTY) else super().earlier_machine(one, other)


class NoMachineOnTie(Rules):
    """fronts: a tie has no machine"""
    def fronts(self, first, second):
        *check, length, machine = super().fronts(first, second)
        one, other = self.front(first), self.front(second)
        return (*check, length, NEITHER if one == other and one not in (EMPTY, BAD) else machine)


class SameLineSecond(Rules):
    """fronts: of two equal lines the second machine's is answered"""
    def earlier(self, first, second):
        line, machine = super().earlier(first, second)
        return line, SECOND if line and first == second else machine


class NoNewline(Rules):
    """fronts: the length is told without the newline"""
    def fronts(self, first, second):
        *check, length, machine = super().fronts(first, second)
        return (*check, max(length - 1, 0), machine)


class EmptyIsBad(Rules):
    """fronts: an empty line is bad"""
    def check_fronts(self, first, second):
        return super().check_fronts(first or b"x", second or b"x")


class TwoEmptyAreBad(Rules):
    """fronts: two empty lines are bad"""
    def check_fronts(self, first, second):
        return super().check_fronts(first, second) if first or second else (12, FIRST, 1)


class FrontOfSecondFirst(Rules):
    """fronts: machine 2 is told if both are bad"""
    def check_fronts(self, first, second):
        number, machine, line = super().check_fronts(second, first)
        return number, 3 - machine if number else 0, line


class FrontLineZero(Rules):
    """fronts: a bad line is line 0"""
    LINE_OF_FRONT = 0


class FirstOfTwo(Rules):
    """fronts: of two lines the first counts"""
    def front(self, text):
        return super().front(text[:text.find(b"\n") + 1] if b"\n" in text else text)


class LastOfTwo(Rules):
    """fronts: of two lines the last counts"""
    def front(self, text):
        return super().front((self.lines(text) or [b""])[-1])


class ListForFront(Rules):
    """fronts: a good list counts by its first line"""
    def front(self, text):
        lines = self.lines(text)
        return super().front(lines[0]) if lines and self.fault(text) is None else super().front(text)


class FrontWithoutNewline(Rules):
    """fronts: a line without its newline is good"""
    def front(self, text):
        return super().front(text if text.endswith(b"\n") or not text else text + b"\n")


class NewlineIsEmpty(Rules):
    """fronts: a newline alone is an empty line"""
    def front(self, text):
        return super().front(b"" if text == b"\n" else text)


class SinceIsFront(Rules):
    """fronts: a since line is good"""
    def front(self, text):
        return 5 if text == SINCE else super().front(text)


class LongFront(Rules):
    """fronts: a text that is longer than a list is told as line 0"""
    def check_fronts(self, first, second):
        number, machine, line = super().check_fronts(first, second)
        return number, machine, 0 if len((b"", first, second)[machine]) > self.LONGEST_LIST else line


# The mistakes that compare.c can make, from 1. The first ones are also made by both calls for front lines, which have no room, and of
# these only a check stores a line.
OF_MEMORY = [
    "machine is left as it was where there is none", "line is left as it was where there is none", "a byte behind the first list is read",
    "a byte behind the second list is read", "a byte in front of the first list is read", "a byte in front of the second list is read",
    "the first list is changed", "the second list is changed",
    "a byte behind the merged book is changed", "a byte behind the report is changed", "a refusal by 12 changes a byte of the book's room",
    "a refusal by 12 changes a byte of the report's room", "a refusal by 8 changes a byte of the book's room",
    "a refusal by 8 changes a byte of the report's room", "a refusal by 8 writes as much of the book as there is room for",
    "a refusal by 8 writes as much of the report as there is room for", "a byte in front of the book's room is changed",
    "a byte in front of the report's room is changed", "a byte behind the book's room is written", "a byte behind the report's room is written",
    "a refusal leaves what was in the book's length", "a refusal leaves what was in the report's length",
    "a refusal by 8 tells the length of the book", "a refusal by 8 tells the length of the report", "a refusal by 8 tells a machine",
    "a refusal by 8 tells a line", "both lengths are changed over", "the report is not written",
]
OF_CHECK = OF_MEMORY[:8]
OF_EARLIER = [name for name in OF_CHECK if not name.startswith("line")]

# rules with another value in the place of one of theirs
OTHER_VALUES = [
    ("lines are counted from 0", "FIRST_LINE", 0),
    ("a list that is too long is refused at line 1", "LINE_OF_LONG_LIST", 1),
    ("32,768 bytes are too long", "LONGEST_LIST", 32767),
    ("32,769 bytes are not too long", "LONGEST_LIST", 32769),
    ("a list may have 65,536 bytes", "LONGEST_LIST", 65536),
    ("2^63 seconds are good", "LARGEST", 1 << 63),
    ("-2^63 seconds are bad", "SMALLEST", 1 - (1 << 63)),
]


def with_value(name, value):
    rules = Rules()
    setattr(rules, name, value)
    return rules


def planted():
    """Every mistake: its name, the rules with it, and the entry and the number for compare.c."""
    yield from ((mistake.__doc__, mistake(), "none", 0) for mistake in Rules.__subclasses__())
    yield from ((sentence, with_value(name, value), "none", 0) for sentence, name, value in OTHER_VALUES)
    for entry, names in ("check", OF_CHECK), ("earlier", OF_EARLIER), ("merge", OF_MEMORY):
        yield from ((f"{entry}: {name}", Rules(), entry, OF_MEMORY.index(name) + 1) for name in names)
