#!/usr/bin/env python3
"""Compares the library's strips with those of the sources in strip.py, byte by byte.

Usage: compare.py --program FILE [--seed N] [--list] [--planted] [SUITE...]
  --program FILE   the program that compare.c was built to
  --seed N         seed of the random years and months that have no strip, otherwise 1
  --list           names the suites
  --planted        would it notice? Answers with one mistake each: every mistake must be found
  SUITE            only these suites

Exit status: 0 if nothing differs (with --planted: if every mistake is found), otherwise 1.
"""

import random
import struct
import sys
import time
from pathlib import Path

from mistakes import OF_THE_CALL, RANGE, Almanac
from strip import FIRST_YEAR, LAST_YEAR, LENGTH, SOURCES, Skipped, by_python, name_of, shown, year_from_1_on

sys.path.append(str(Path(__file__).resolve().parents[1] / "shared"))
from asking import Program, command_line

BATCH = 2000  # records
SOME_ROOMS, ALL_ROOMS = 0, 1
NOT_PLANTED = 255
NO_STRIP = bytes(LENGTH)

INT64_MIN, INT64_MAX = -(1 << 63), (1 << 63) - 1


class Library(Program):
    """The program that calls the library for batches of months."""

    def send(self, records):
        """How many records differ, and the first of them as places and texts. Nothing if the program ended."""
        packed = b"".join(struct.pack("=2q3I50s50s", *record) for record in records)
        return self.ask(struct.pack("=I", len(records)) + packed)

    def differences(self, records):
        """As `send`. If the program ended, the batch is sent again up to ever later records, until it ends there too."""
        answer = self.send(records)
        if answer is not None:
            return answer
        least, most = 0, len(records)  # so many records from the front are answered; so many end the program
        while most - least > 1:
            middle = (least + most) // 2
            self.start()
            if self.send(records[:middle]) is None:
                most = middle
            else:
                least = middle
        self.start()
        if self.send(records[:most]) is not None:
            raise SystemExit("compare: the program ended on a batch, but not when it was sent again")
        return 1, [(most - 1, f"got an end of the program by {self.how_it_ended()}")]


# --- the suites: years, months, the number wanted, which rooms, and the strip wanted -------------------------------------------

def strips_of(source):
    return lambda seed: ((year, month, 0, SOME_ROOMS, strip) for year, month, strip in source())


def refusals(seed):
    """years and months that have no strip: just outside, far outside, and numbers that would fit if they were cut"""
    near = [FIRST_YEAR - 1, FIRST_YEAR - 2, LAST_YEAR + 1, LAST_YEAR + 2, -10400, 10400, INT64_MIN, INT64_MIN + 1, INT64_MAX - 1,
            INT64_MAX]
    for bits in 15, 16, 31, 32, 62:
        for sign in 1, -1:
            near += [(sign << bits) + more for more in (-10000, -9999, -1, 0, 1, 2021, 9999, 10000)]
    near += [INT64_MIN + 2021, INT64_MAX - 9999, INT64_MIN + 9999, INT64_MIN + 10000]
    years = sorted({year for year in near if not FIRST_YEAR <= year <= LAST_YEAR})
    good_years = [FIRST_YEAR, -1, 0, 1, 2021, LAST_YEAR]
    months = [0, 13, -1, -2, 14, -12, 24, 127, 128, 129, -128, 255, 256, 257, 268, -255, -256, 65536, 65537, (1 << 31) + 1,
              -(1 << 31) + 1, (1 << 32) + 1, -(1 << 32) + 12, (1 << 32) + 13, INT64_MIN, INT64_MIN + 1, INT64_MIN + 12,
              INT64_MAX - 1, INT64_MAX]
    pairs = [(year, month) for year in good_years for month in months]
    pairs += [(year, month) for year in years for month in (1, 2, 12, 0, 13, INT64_MIN, INT64_MAX)]
    return ((year, month, RANGE, ALL_ROOMS, NO_STRIP) for year, month in pairs)


def outside(seed):
    """years and months from the seed that have no strip, of every size"""
    chance = random.Random(seed)
    pairs = []
    while len(pairs) < 20000:
        year, month = (chance.randint(-1 << size, (1 << size) - 1) for size in (chance.randint(1, 63), chance.randint(1, 63)))
        if chance.random() < 0.3:
            year = chance.randint(FIRST_YEAR, LAST_YEAR)
        elif chance.random() < 0.5:
            month = chance.randint(1, 12)
        if not (FIRST_YEAR <= year <= LAST_YEAR and 1 <= month <= 12):
            pairs.append((year, month))
    return ((year, month, RANGE, SOME_ROOMS, NO_STRIP) for year, month in pairs)


def rooms(seed):
    """months of 31 years, in rooms of every length from 0 to 130"""
    for year in [FIRST_YEAR, 0, LAST_YEAR, *range(2001, 2029)]:
        for month in range(1, 13):
            yield year, month, 0, ALL_ROOMS, by_python(year if year > 0 else year_from_1_on(year), month)


SUITES = {name: strips_of(source) for name, source in SOURCES.items()}
SUITES.update(refusals=refusals, outside=outside, rooms=rooms)
WHAT = {name: source.__doc__.split("\n")[0] for name, source in SOURCES.items()}
WHAT.update({suite.__name__: suite.__doc__ for suite in (refusals, outside, rooms)})


def batches(suite):
    """The records of a suite, some at a time."""
    batch = []
    for record in suite:
        batch.append(record)
        if len(batch) == BATCH:
            yield batch
            batch = []
    if batch:
        yield batch


def not_planted(batch):
    return [(year, month, number, which, NOT_PLANTED, strip, NO_STRIP) for year, month, number, which, strip in batch]


def days_in(batch):
    return sum(strip[0] for *_, strip in batch)


def compare(chosen, options):
    library = Library(options.program)
    total = differing = 0
    skipped = []
    print(f"{'suite':10} {'months':>8} {'days':>8} {'differ':>8} {'seconds':>8}")
    for name in chosen:
        started = time.monotonic()
        months = days = differ = 0
        try:
            for batch in batches(SUITES[name](options.seed)):
                count, found = library.differences(not_planted(batch))
                months += len(batch)
                days += days_in(batch)
                if found and differ == 0:
                    place, what = found[0]
                    year, month, number, _, strip = batch[place]
                    wanted = shown(strip) if number == 0 else f"number {number}"
                    print(f"{name}: the first that differs is {name_of(year, month)}\n  wanted {wanted}\n  {what}", flush=True)
                differ += count
        except Skipped as why:
            print(f"{name:10} skipped: {why}", flush=True)
            skipped.append(name)
            continue
        total += months
        differing += differ
        print(f"{name:10} {months:8} {days:8} {differ:8} {time.monotonic() - started:8.1f}", flush=True)
    library.stop()
    left_out = f"; skipped: {', '.join(skipped)}" if skipped else ""
    print(f"strip: {total} answers compared, {differing or 'nothing'} {'differ' if differing > 1 else 'differs'}{left_out}")
    return 1 if differing else 0


def first_found(library, suite, mistaken):
    """The first record that differs, with what differs; and how many records were looked at."""
    looked_at = 0
    for batch in suite:
        records = not_planted(batch)
        if mistaken is not None:
            records = [(*record[:4], *answer_of(mistaken, record)) for record in records]
        _, found = library.differences(records)
        if found:
            return batch[found[0][0]], looked_at + found[0][0] + 1
        looked_at += len(batch)
    return None, looked_at


def answer_of(mistaken, record):
    """The planted number, the strip wanted, and the planted strip."""
    year, month, _, _, _, wanted, _ = record
    number, strip = mistaken.answer(year, month)
    return number, wanted, strip


def planted(chosen, options):
    """Every mistake must be found by some suite. Prints by which, and where first."""
    suites = {}
    for name in chosen:
        try:
            suites[name] = list(batches(SUITES[name](options.seed)))
        except Skipped as why:
            print(f"{name}: skipped, {why}")
    right = Library(options.program)
    for what, mistaken in ("the library's answers", None), ("the almanac's answers without a mistake", Almanac()):
        for name, suite in suites.items():
            record, _ = first_found(right, suite, mistaken)
            if record is not None:
                print(f"{what} differ by {name}: {name_of(*record[:2])}")
                return 1
        print(f"nothing found: {what}", flush=True)
    mistakes = [(mistake.__doc__, mistake(), 0) for mistake in Almanac.__subclasses__()]
    mistakes += [(name, None, number) for number, name in enumerate(OF_THE_CALL, 1)]
    missed, by_suite = 0, dict.fromkeys(suites, 0)
    for sentence, mistaken, number in mistakes:
        library = Library(options.program, number)
        places = []
        for name, suite in suites.items():
            record, looked_at = first_found(library, suite, mistaken)
            if record is not None:
                places.append(f"{name} {looked_at}")
                by_suite[name] += 1
        library.stop()
        missed += not places
        print(f"{'found' if places else 'NOT FOUND'}: {sentence}: {', '.join(places)}", flush=True)
    right.stop()
    print("The number behind a suite is that of the first record that differs.")
    print("by suite: " + ", ".join(f"{name} {count}" for name, count in by_suite.items()))
    print(f"strip: {len(mistakes)} mistakes planted, {missed} not found")
    return 1 if missed else 0


def main():
    options = command_line(__doc__.split("Usage: ")[1], {name: WHAT[name] for name in SUITES})
    chosen = [name for name in SUITES if name in options.suites] or list(SUITES)
    return planted(chosen, options) if options.planted else compare(chosen, options)


if __name__ == "__main__":
    sys.exit(main())
