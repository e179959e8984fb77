#!/usr/bin/env python3
"""Compares the library's answers about the lists of two build machines with those of lists.py, byte by byte.

Usage: compare.py --program FILE [--seed N] [--pairs N] [--save FILE] [--list] [--planted] [SUITE...]
  --program FILE   the program that compare.c was built to
  --seed N         seed of the random lists, otherwise 1
  --pairs N        how many random pairs of lists in each of two suites, otherwise 50000; a hundredth as many of many lines
  --save FILE      where the smallest differing lists are written to, as FILE.1 and FILE.2
  --list           names the suites
  --planted        would it notice? Rules with one mistake each, and programs with one mistake each: every one must be found
  SUITE            only these suites

Exit status: 0 if nothing differs (with --planted: if every mistake is found), otherwise 1.
"""

import struct
import sys
from pathlib import Path

import mistakes
from lists import Rules
from pairs import MERGES, SUITES

sys.path.append(str(Path(__file__).resolve().parents[1] / "shared"))
from asking import command_line
from comparing import MOST_PLANTED, Inputs, compare, planted, shown, streams

MOST_REMEMBERED = 200000
MERGE, FRONT_LINES = 0, 1  # the kinds of records, as compare.c has them
WIDTHS = {"suite": 11, "pairs": 8, "bytes": 11, "0": 8, "12": 8, "report": 8, "differ": 8, "seconds": 8}


class Pairs(Inputs):
    """Pairs of lists, or of front lines, each with its kind and the answer wanted."""

    ONE, MANY = "pair", "pairs"

    def __init__(self, kind):
        self.kind = kind

    def answers(self, rules, batch):
        if len(rules.known) > MOST_REMEMBERED:
            rules.known.clear()
        answer = rules.merge if self.kind == MERGE else rules.fronts
        return [(first, second, answer(first, second)) for first, second in batch]

    def record(self, first, second, answer):
        if self.kind == FRONT_LINES:
            return struct.pack("=10I", self.kind, len(first), len(second), *answer, 0, 0), first, second
        number, machine, line, book, report, *rooms = answer
        numbers = self.kind, len(first), len(second), number, machine, line, len(book), len(report), *rooms
        return struct.pack("=10I", *numbers), first, second, book, report

    def counts(self, first, second, answer):
        return {"0": answer[0] == 0, "12": answer[0] == 12, "report": self.kind == MERGE and bool(answer[4])}

    def wanted(self, rules, pair):
        if self.kind == MERGE:
            number, machine, line, book, rows, _, _ = rules.merge(*pair)
            return [f"number {number}, machine {machine}, line {line}, book {shown(book)}, report {shown(rows)}"]
        number, machine, line, length, earlier = rules.fronts(*pair)
        return [f"number {number}, machine {machine}, line {line}; earlier {length} bytes of machine {earlier}"]

    def in_words(self, first, second, answer):
        number, machine, line = answer[:3]
        if self.kind == FRONT_LINES:
            return f"fronts: 12, machine {machine}" if number else f"fronts: 0, earlier of machine {answer[4]}"
        if number:
            return f"merge: 12, machine {machine}, {'line 0' if line == 0 else 'a line'}"
        return f"merge: 0, {'with a report' if answer[4] else 'no report'}"

    def size(self, pair):
        return len(pair[0]) + len(pair[1])

    def size_in_words(self, pair):
        return f"{len(pair[0])} and {len(pair[1])} bytes"

    def parts(self, pieces, pair):
        return [(machine, piece) for machine, text in enumerate(pair) for piece in pieces(text)]

    def joined(self, parts):
        return tuple(b"".join(text for machine, text in parts if machine == which) for which in (0, 1))

    def shown(self, pair, most=600):
        return f"{shown(pair[0], most)} and {shown(pair[1], most)}"

    def save(self, pair, file):
        for number, text in enumerate(pair, 1):
            Path(f"{file}.{number}").write_bytes(text)
        return f"{file}.1 and {file}.2"


def main():
    sentences = {name: suite.__doc__ for name, suite in SUITES.items()}
    options = command_line(__doc__.split("Usage: ")[1], sentences, pairs={"type": int, "default": 50000}, save={})
    merges, fronts = Pairs(MERGE), Pairs(FRONT_LINES)

    def suites(number):
        return streams(SUITES, lambda suite: merges if suite in MERGES else fronts, options.suites or SUITES, options.seed, number)

    def nothing_differs(totals):
        return f"lists: {totals[merges]} pairs of lists, {totals[fronts]} of front lines, seed {options.seed}: nothing differs"

    if options.planted:
        return planted("lists", options, lambda: suites(min(options.pairs, MOST_PLANTED)), Rules, mistakes.planted())
    return compare(options, suites(options.pairs), Rules(), WIDTHS, nothing_differs)


if __name__ == "__main__":
    sys.exit(main())
