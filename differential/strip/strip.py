#!/usr/bin/env python3
"""The strip of a month as programs outside the library know it: Python's `calendar` and `datetime`, GNU date, and ncal.

A strip is 50 bytes: the month's length; the weekday of its first day, Monday 1 to Sunday 7; six ISO week numbers, one for each
row; six rows of seven days, Monday first, with 0 where there is no day of the month. A row that is not used has week 0.

Each source gives years, months and strips, all from its own answers: how long the month is, on which weekday each day falls and
in which ISO week. This file holds no rule of the calendar but two: a week begins on Monday, and the calendar repeats after 400
years. It calls no code of the library.

Usage: strip.py YEAR MONTH     what the sources say about one month
       strip.py selftest       test the sources by strips worked out by hand
"""

import calendar
import datetime
import os
import re
import shutil
import subprocess
import sys
from itertools import groupby
from operator import itemgetter

LENGTH = 50
ROWS = 6
DAYS_PER_WEEK = 7
FIRST_YEAR, LAST_YEAR = -9999, 9999

# The calendar repeats after 400 years, which are 146,097 days and so exactly 20,871 weeks.
REPEAT_YEARS = 400
REPEAT_DAYS = 146097

SECONDS_PER_DAY = 86400

# Programs are run without the language and the time zone of the machine.
PLAIN = {**os.environ, "LC_ALL": "C", "TZ": "UTC0"}


class Surprise(Exception):
    """A source did not answer in the way that this file expects."""


class Skipped(Exception):
    """A source is not installed."""


def expect(fact, why):
    if not fact:
        raise Surprise(why)


def strip_of(length, weekday, rows):
    """The bytes of a strip. A row is its week and its seven days."""
    expect(len(rows) <= ROWS and all(len(days) == DAYS_PER_WEEK for _, days in rows), f"the month has the rows {rows}")
    unused = ROWS - len(rows)
    weeks = [week for week, _ in rows] + [0] * unused
    days = [day for _, row in rows for day in row] + [0] * (DAYS_PER_WEEK * unused)
    return bytes([length, weekday, *weeks, *days])


def shown(strip):
    """A strip as text: length and weekday, the weeks, the rows of days."""
    groups = [strip[:2], strip[2:8]] + [strip[place:place + DAYS_PER_WEEK] for place in range(8, LENGTH, DAYS_PER_WEEK)]
    return " | ".join(" ".join(map(str, group)) for group in groups)


def name_of(year, month):
    return f"year {year}, month {month}"


# --- Python ------------------------------------------------------------------------------------------------------------------

def by_python(year, month):
    """The strip of a month in the years 1 to 9999, which are those that `datetime` has.

    The Thursday of a row may lie in another month or year. No such day is asked for: all seven days of a row are in one ISO week,
    so any day that the month has in the row gives the number. All of them are asked and have to agree.
    """
    weekday, length = calendar.monthrange(year, month)
    rows = []
    for days in calendar.Calendar(calendar.MONDAY).monthdayscalendar(year, month):
        found = {datetime.date(year, month, day).isocalendar()[1] for day in days if day != 0}
        expect(len(found) == 1, f"{name_of(year, month)}: the days {days} are in the ISO weeks {found}")
        rows.append((found.pop(), days))
    return strip_of(length, weekday + 1, rows)


def from_python():
    """Python's calendar and datetime: the years 1 to 9999"""
    for year in range(datetime.MINYEAR, datetime.MAXYEAR + 1):
        for month in range(1, 13):
            yield year, month, by_python(year, month)


def year_from_1_on(year):
    """The first year from 1 on that is a multiple of 400 years after `year`."""
    return (year - 1) % REPEAT_YEARS + 1


def from_repeat():
    """Python for the same month a multiple of 400 years later: the years -9999 to 0"""
    for year in range(FIRST_YEAR, datetime.MINYEAR):
        for month in range(1, 13):
            yield year, month, by_python(year_from_1_on(year), month)


# --- GNU date ----------------------------------------------------------------------------------------------------------------

def run(program, *words, given=""):
    """What a program writes, if it is installed."""
    if shutil.which(program) is None:
        raise Skipped(f"{program} is not installed")
    ended = subprocess.run([program, *words], env=PLAIN, input=given, capture_output=True, text=True)
    expect(ended.returncode == 0, f"{program} ended with status {ended.returncode}: {ended.stderr[:200]}")
    return ended.stdout


def strip_of_days(days):
    """The strip of a month from its days in order, each as `DDUVV`: day, weekday and ISO week."""
    rows = []
    for place, text in enumerate(days):
        day, weekday, week = int(text[:2]), int(text[2]), int(text[3:5])
        expect(day == place + 1 and 1 <= weekday <= DAYS_PER_WEEK, f"day {place + 1} of a month is {text}")
        if place == 0 or weekday == 1:
            rows.append((week, [0] * DAYS_PER_WEEK))
        expect(week == rows[-1][0], f"the week changes inside a row, at {text}")
        expect(rows[-1][1][weekday - 1] == 0, f"the weekdays do not go round by seven, at {text}")
        rows[-1][1][weekday - 1] = day
    return strip_of(len(days), int(days[0][2]), rows)


def from_date():
    """GNU date for every day from 1 January of year -9999 to 31 December of year 9999

    Days are asked for by their seconds since 1970, since a text like `-0001-01-01` is refused. They are asked for in batches of 400
    years. Each month is made of the days that date names in it.
    """
    if "GNU coreutils" not in run("date", "--version"):
        raise Skipped("date is not GNU date")
    first = -REPEAT_DAYS * 25 + datetime.date(1, 1, 1).toordinal() - datetime.date(1970, 1, 1).toordinal()
    last = datetime.date(9999, 12, 31).toordinal() - datetime.date(1970, 1, 1).toordinal()
    strips, expected = {}, (FIRST_YEAR, 1)
    for start in range(first, last + 1, REPEAT_DAYS):
        asked = range(start, min(start + REPEAT_DAYS, last + 1))
        text = "".join(f"@{day * SECONDS_PER_DAY}\n" for day in asked)
        lines = run("date", "-u", "-f", "-", "+%d%u%V %Y %m", given=text).splitlines()
        expect(len(lines) == len(asked), f"date answered {len(lines)} of {len(asked)} days")
        for month_text, days in groupby(lines, itemgetter(slice(5, None))):
            year, month = map(int, month_text.split())
            expect((year, month) == expected, f"date names {name_of(year, month)}; expected {name_of(*expected)}")
            days = tuple(line[:5] for line in days)
            if days not in strips:
                strips[days] = strip_of_days(days)
            yield year, month, strips[days]
            expected = (year, month + 1) if month < 12 else (year + 1, 1)
    expect(expected == (LAST_YEAR + 1, 1), f"date ends before {name_of(*expected)}")


# --- ncal --------------------------------------------------------------------------------------------------------------------

# ncal changes from the Julian to the Gregorian calendar in October 1582 with `-s IT`, which is the earliest change that it knows.
# That makes 1582 ten days short, and ncal then counts 1 January 1583, a Saturday, as week 51. From 1584 on nothing of it is left.
NCAL_FIRST_YEAR = 1584
MONTHS = "January February March April May June July August September October November December".split()
WEEKDAYS = "Mo Tu We Th Fr Sa Su".split()
LABEL, COLUMN, COLUMNS, ACROSS = 2, 3, 6, 4


def columns(line, place):
    """The six numbers that the month at this place has in a line, 0 for a blank."""
    start = LABEL + place * COLUMN * COLUMNS
    cells = [line[at:at + COLUMN].strip() for at in range(start, start + COLUMN * COLUMNS, COLUMN)]
    return [int(cell) if cell else 0 for cell in cells]


def from_ncal():
    """ncal -M -w: the years 1584 to 9999

    ncal writes a week as a column, with its number below, and four months beside one another.
    """
    more = (LAST_YEAR - NCAL_FIRST_YEAR + 1) * 12 - 1
    text = run("ncal", "-h", "-M", "-w", "-s", "IT", "-d", f"{NCAL_FIRST_YEAR}-01", "-A", str(more))
    lines = iter([line for line in text.splitlines() if line.strip()])
    for year in range(NCAL_FIRST_YEAR, LAST_YEAR + 1):
        title = next(lines, "").strip()
        expect(title == str(year), f"ncal writes {title!r} above year {year}")
        for first in range(0, 12, ACROSS):
            names = next(lines, "").split()
            expect(names == MONTHS[first:first + ACROSS], f"ncal writes {names} in year {year}")
            days = [next(lines, "") for _ in WEEKDAYS]
            expect([line[:LABEL] for line in days] == WEEKDAYS, f"ncal writes the weekdays {days} in year {year}")
            weeks = next(lines, "")
            for place in range(ACROSS):
                month = first + place + 1
                table = [columns(line, place) for line in days]
                rows = [(week, list(row)) for week, row in zip(columns(weeks, place), zip(*table)) if any(row) or week != 0]
                weekday = 1 + [row[0] for row in table].index(1)
                yield year, month, strip_of(max(map(max, table)), weekday, rows)
    expect(next(lines, None) is None, "ncal writes more than was asked for")


SOURCES = {"calendar": from_python, "repeat": from_repeat, "date": from_date, "ncal": from_ncal}


# --- the selftest ------------------------------------------------------------------------------------------------------------

# Months whose strips were worked out by hand, or copied from a printed calendar with ISO weeks: the month's length, the weekday
# of its first day and the weeks. The days follow from these.
KNOWN = [
    # 1 January 2021 was a Friday. Its week is the last one of 2020, a year of 53 weeks.
    ((2021, 1), 31, 5, [53, 1, 2, 3, 4]),
    # four rows: 28 days from a Monday
    ((2021, 2), 28, 1, [5, 6, 7, 8]),
    # six rows, from a Saturday
    ((2021, 5), 31, 6, [17, 18, 19, 20, 21, 22]),
    # 31 December 2004 was a Friday of week 53; 1 and 2 January 2005 are in 2004-W53
    ((2004, 12), 31, 3, [49, 50, 51, 52, 53]),
    ((2005, 1), 31, 6, [53, 1, 2, 3, 4, 5]),
    # 1 January 2006 was a Sunday, in 2005-W52
    ((2006, 1), 31, 7, [52, 1, 2, 3, 4, 5]),
    # 1 January 2007 was a Monday, and 31 December 2007 too, in 2008-W01
    ((2007, 1), 31, 1, [1, 2, 3, 4, 5]),
    ((2007, 12), 31, 6, [48, 49, 50, 51, 52, 1]),
    # 29 December 2008 is in 2009-W01; 28 December 2008 is in 2008-W52
    ((2008, 12), 31, 1, [49, 50, 51, 52, 1]),
    # 31 December 2009 was a Thursday, in week 53; 3 January 2010 is in 2009-W53
    ((2009, 12), 31, 2, [49, 50, 51, 52, 53]),
    ((2010, 1), 31, 5, [53, 1, 2, 3, 4]),
    # leap days: 1900 has none, 2000 and 2024 have one
    ((1900, 2), 28, 4, [5, 6, 7, 8, 9]),
    ((2000, 2), 29, 2, [5, 6, 7, 8, 9]),
    ((2024, 2), 29, 4, [5, 6, 7, 8, 9]),
    # 1 January 1970 was a Thursday, in week 1
    ((1970, 1), 31, 4, [1, 2, 3, 4, 5]),
    # 1 January of year 1 is a Monday, 31 December 9999 a Friday
    ((1, 1), 31, 1, [1, 2, 3, 4, 5]),
    ((9999, 12), 31, 3, [48, 49, 50, 51, 52]),
]

# Two strips in full.
IN_FULL = [
    ((2021, 1), [31, 5, 53, 1, 2, 3, 4, 0,
                 0, 0, 0, 0, 1, 2, 3, 4, 5, 6, 7, 8, 9, 10, 11, 12, 13, 14, 15, 16, 17,
                 18, 19, 20, 21, 22, 23, 24, 25, 26, 27, 28, 29, 30, 31, 0, 0, 0, 0, 0, 0, 0]),
    ((2021, 2), [28, 1, 5, 6, 7, 8, 0, 0,
                 1, 2, 3, 4, 5, 6, 7, 8, 9, 10, 11, 12, 13, 14, 15, 16, 17, 18, 19, 20, 21, 22, 23, 24, 25, 26, 27, 28,
                 0, 0, 0, 0, 0, 0, 0, 0, 0, 0, 0, 0, 0, 0]),
]

# Years, and the first year from 1 on that repeats them.
REPEATS = [(0, 400), (-1, 399), (-399, 1), (-400, 400), (-9999, 1), (-9600, 400), (-4, 396)]


def known_strip(length, weekday, weeks):
    days = [0] * (weekday - 1) + list(range(1, length + 1))
    days += [0] * (ROWS * DAYS_PER_WEEK - len(days))
    return bytes([length, weekday, *weeks, *[0] * (ROWS - len(weeks)), *days])


def selftest():
    cases = [(month, known_strip(*known)) for month, *known in KNOWN] + [(month, bytes(strip)) for month, strip in IN_FULL]
    wrong = total = 0
    sources = {}
    for name in "calendar", "date", "ncal":
        try:
            sources[name] = {(year, month): strip for year, month, strip in SOURCES[name]()}
        except Skipped as why:
            print(f"{name}: skipped, {why}")
            continue
        asked = 0
        for (year, month), wanted in cases:
            got = sources[name].get((year, month))
            if got is None:
                continue  # ncal begins later
            asked += 1
            if got != wanted:
                print(f"{name}: {name_of(year, month)}\n  wanted {shown(wanted)}\n  got    {shown(got)}")
                wrong += 1
        total += asked
        print(f"{name}: {len(sources[name])} months read, {asked} of them known", flush=True)
    for year, wanted in REPEATS:
        total += 1
        if year_from_1_on(year) != wanted:
            print(f"repeat: year {year}: wanted {wanted}, got {year_from_1_on(year)}")
            wrong += 1
    # the calendar repeats after 400 years, wherever Python can be asked
    repeated = 0
    for (year, month), strip in sources["calendar"].items():
        later = sources["calendar"].get((year + REPEAT_YEARS, month))
        if later is None:
            continue
        repeated += 1
        if strip != later:
            print(f"repeat: {name_of(year, month)} is not as 400 years later")
            wrong += 1
    print(f"repeat: {repeated} months are compared with those of 400 years later")
    print(f"strip: {total} known cases and {repeated} repeated months, {wrong} wrong")
    return 1 if wrong else 0


def main():
    words = sys.argv[1:]
    if words == ["selftest"]:
        return selftest()
    if len(words) != 2 or not all(re.fullmatch("-?[0-9]+", word) for word in words):
        print(__doc__.split("\n\n")[-1].strip(), file=sys.stderr)
        return 2
    wanted = tuple(map(int, words))
    for name, source in SOURCES.items():
        try:
            answer = next((shown(strip) for year, month, strip in source() if (year, month) == wanted), "does not reach this month")
        except Skipped as why:
            answer = f"skipped, {why}"
        print(f"{name:8} {answer}", flush=True)
    return 0


if __name__ == "__main__":
    sys.exit(main())
