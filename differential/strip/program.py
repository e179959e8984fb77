#!/usr/bin/env python3
"""Runs the program monthstrip and compares what it writes: the pages of months with Python's calendar, and the messages with those
that its manual page states. The gate runs it on one month.

Usage: program.py [MONTHSTRIP]
  MONTHSTRIP  the program, target/bin/monthstrip by default
Exit status: 0 all as wanted; 1 something differs, each with what was wanted and got; 2 there is no such program.
"""

import calendar
import os
import subprocess
import sys

sys.dont_write_bytecode = True
from strip import DAYS_PER_WEEK, LENGTH, PLAIN, ROWS, by_python, year_from_1_on

COLUMNS = 23
NAMES = calendar.month_name[1:]

# Two whole cycles of 400 years would take minutes. These have every kind of year, the years around 0, and both ends.
YEARS = [*range(-9999, -9992), *range(-4, 5), *range(1896, 1905), *range(1996, 2033), *range(9993, 10000)]

MISSING = "YEAR and MONTH are missing; try --help"
NO_MONTH = "MONTH is missing; try --help"
TOO_MANY = "more than YEAR and MONTH; try --help"
NONE = "no such month: YEAR is -9999 to 9999, MONTH is 1 to 12"
TOO_LONG = "argument of more than 4,096 bytes; try --help"


def not_a_number(word):
    return f"not a number: '{word}'; try --help"


def unknown(word):
    return f"unknown option '{word}'; try --help"


# The words of a call, and the message that it writes.
MESSAGES = [
    ([], MISSING),
    (["2021"], NO_MONTH),
    (["-5"], NO_MONTH),
    (["2021", "1", "1"], TOO_MANY),
    (["2021", "1", "--help"], TOO_MANY),
    *[([word, "1"], unknown(word)) for word in ("--foo", "-x", "-", "--", "-5x", "-+5")],
    *[([word, "1"], not_a_number(word)) for word in ("x", "", "20 21", "+", "2021x", "9" * 20, "-" + "9" * 20)],
    *[(["2021", word], not_a_number(word)) for word in ("x", "", "-", "--help", "1.", "9" * 20)],
    *[(["2021", word], NONE) for word in ("0", "13", "-1", "-12", "256", "257", str(2**32 + 1), str(2**63 - 1), str(-(2**63)))],
    *[([word, "1"], NONE) for word in ("10000", "-10000", str(2**16 + 2021), str(2**32 + 2021), str(2**63 - 1), str(-(2**63)))],
    (["1" * 5000, "1"], TOO_LONG),
    (["2021", "1" * 5000], TOO_LONG),
]

# The same month by other words.
SPELLINGS = [(["+2021", "02"], (2021, 2)), (["002021", "+2"], (2021, 2)), (["-0", "1"], (0, 1)), (["-0005", "03"], (-5, 3))]


def cell(number):
    return f"{number:2}" if number else "  "


def page(year, month):
    """The page of a month, from Python's calendar."""
    strip = by_python(year_from_1_on(year), month)
    title = f"{NAMES[month - 1]} {year}"
    lines = [" " * ((COLUMNS - len(title)) // 2) + title, "   Mo Tu We Th Fr Sa Su"]
    for row in range(ROWS):
        week, at = strip[2 + row], LENGTH - DAYS_PER_WEEK * (ROWS - row)
        if week:
            lines.append(cell(week) + "".join(" " + cell(day) for day in strip[at:at + DAYS_PER_WEEK]))
    return "".join(line + "\n" for line in lines)


def main():
    here = os.path.dirname(os.path.abspath(__file__))
    program = sys.argv[1] if len(sys.argv) > 1 else os.path.join(here, "..", "..", "target", "bin", "monthstrip")
    if not os.access(program, os.X_OK):
        print(f"program.py: there is no program {program}; tools/build.sh monthstrip builds it", file=sys.stderr)
        return 2
    cases = [([str(year), str(month)], page(year, month), "") for year in YEARS for month in range(1, 13)]
    cases += [(words, page(*month), "") for words, month in SPELLINGS]
    cases += [(words, "", f"monthstrip: {message}\n") for words, message in MESSAGES]
    cases += [(["--version"], "monthstrip 0.1.0\n", "")]
    differ = 0
    for words, out, err in cases:
        got = subprocess.run([program, *words], capture_output=True, text=True, env=PLAIN, stdin=subprocess.DEVNULL)
        if (got.stdout, got.stderr, got.returncode) != (out, err, 0):
            differ += 1
            print(f"monthstrip {' '.join(words)[:60]}: wanted\n{out}{err}got, with status {got.returncode}\n{got.stdout}{got.stderr}")
    with open("/dev/full", "w") as full:
        got = subprocess.run([program, "2021", "1"], stdout=full, stderr=subprocess.PIPE, text=True, env=PLAIN)
        if got.stderr != "monthstrip: standard output: No space left on device\n":
            differ += 1
            print(f"monthstrip 2021 1 > /dev/full: got {got.stderr!r}")
    print(f"monthstrip: {len(cases) + 1} calls, {differ} differ")
    return 1 if differ else 0


if __name__ == "__main__":
    sys.exit(main())
