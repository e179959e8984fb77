#!/usr/bin/env python3
"""Compares what the library salvages from damaged books with what salvage.py does, byte by byte.

Usage: compare.py --program FILE [--seed N] [--books N] [--save FILE] [--list] [--planted] [SUITE...]
  --program FILE   the program that compare.c was built to
  --seed N         seed of the random books, otherwise 1
  --books N        how many random books, otherwise 50000; a hundredth as many long ones
  --save FILE      where the smallest differing book is written to
  --list           names the suites
  --planted        would it notice? Rules with one mistake each, and programs with one mistake each: every one must be found
  SUITE            only these suites

Exit status: 0 if nothing differs (with --planted: if every mistake is found), otherwise 1.
"""

import struct
import sys
from pathlib import Path

import mistakes
from damages import SUITES
from salvage import Rules, broken_laws

sys.path.append(str(Path(__file__).resolve().parents[1] / "shared"))
from asking import command_line
from comparing import MOST_PLANTED, Inputs, compare, planted, shown, streams

MOST_REMEMBERED = 200000
WIDTHS = {"suite": 13, "books": 8, "bytes": 11, "kept": 9, "reported": 9, "good": 7, "10": 5, "differ": 7, "seconds": 8}


class Books(Inputs):
    """Damaged books, each with the answer wanted."""

    def answers(self, rules, batch):
        if len(rules.book_rules.known) > MOST_REMEMBERED:
            rules.book_rules.known.clear()
        return [(text, rules.salvage(text)) for text in batch]

    def record(self, text, answer):
        number, kept, report, last, *rooms = answer
        return struct.pack("=7I", len(text), number, len(kept), len(report), last, *rooms), text, kept, report

    def counts(self, text, answer):
        number, kept, rows, *_ = answer
        return {"kept": kept.count(b"\n"), "reported": rows.count(b"\n"), "good": number == 0 and not rows, "10": number == 10}

    def wanted(self, rules, text):
        number, kept, rows, last, _, _ = rules.salvage(text)
        return [f"number {number}, last bad {last}, kept {shown(kept)}, report {shown(rows)}"]

    def in_words(self, text, answer):
        number, kept, rows, *_ = answer
        if number != 0:
            return f"{number}: too long"
        if not rows:
            return "0, a good book"
        piece = "lines" if text.endswith(b"\n") else "a last piece"
        return f"0, {'some lines' if kept else 'no line'} kept, {piece} reported"

    def test(self, rules, wanted):
        for text, _ in wanted:
            for law in broken_laws(rules, text):
                raise SystemExit(f"compare: salvage.py breaks a law: {law}: {shown(text)}")

    def cost(self, text):
        """A line counts as 30 bytes more, since a row may be written for it."""
        return super().cost(text) + 30 * text.count(b"\n")

    def lines(self, text):
        """Only a newline ends a line. What is behind the last one is a piece too, even if it is empty."""
        *lines, last = text.split(b"\n")
        return [line + b"\n" for line in lines] + [last]


def main():
    sentences = {name: suite.__doc__ for name, suite in SUITES.items()}
    options = command_line(__doc__.split("Usage: ")[1], sentences, books={"type": int, "default": 50000}, save={})
    books = Books()

    def suites(number):
        return streams(SUITES, lambda suite: books, options.suites or SUITES, options.seed, number)

    def nothing_differs(totals):
        return f"salvage, seed {options.seed}: {totals[books]} books, none differs"

    if options.planted:
        return planted("salvage", options, lambda: suites(min(options.books, MOST_PLANTED)), Rules, mistakes.planted())
    return compare(options, suites(options.books), Rules(), WIDTHS, nothing_differs)


if __name__ == "__main__":
    sys.exit(main())
