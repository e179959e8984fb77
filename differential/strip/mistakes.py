"""Strips with one mistake each, to see whether the comparison finds them.

`Almanac` is a calendar by arithmetic without a mistake. Each class below it has one, which is the sentence under its name. No
answer of the library is held to these: what is wanted comes from the sources in strip.py.
"""

from strip import DAYS_PER_WEEK, FIRST_YEAR, LAST_YEAR, LENGTH, ROWS

RANGE = 6
LENGTHS = [31, 28, 31, 30, 31, 30, 31, 31, 30, 31, 30, 31]
FEBRUARY, DECEMBER = 2, 12
# where the weeks and the days of a strip begin
WEEKS, DAYS = 2, 8


class Almanac:
    """no mistake"""

    def answer(self, year, month):
        """The number of the answer, and the strip."""
        if self.has_strip(year, month):
            return 0, bytes(self.strip(year, month))
        return RANGE, bytes(LENGTH)

    def has_strip(self, year, month):
        return FIRST_YEAR <= year <= LAST_YEAR and 1 <= month <= DECEMBER

    def is_leap(self, year):
        return year % 4 == 0 and (year % 100 != 0 or year % 400 == 0)

    def leap_years_before(self, year):
        """The leap years from year 1 on that are before this one; less than 0 for a year before year 1."""
        return (year - 1) // 4 - (year - 1) // 100 + (year - 1) // 400

    def length(self, year, month):
        return LENGTHS[month - 1] + (month == FEBRUARY and self.is_leap(year))

    def new_year(self, year):
        """1 January as a number of days. That of year 1, a Monday, is 0."""
        return 365 * (year - 1) + self.leap_years_before(year)

    def first_day(self, year, month):
        return self.new_year(year) + sum(self.length(year, before) for before in range(1, month))

    def year_of(self, day, near):
        """The year that a day is in, which is that year, the one before or the one after."""
        if day < self.new_year(near):
            return near - 1
        return near if day < self.new_year(near + 1) else near + 1

    def week(self, monday, year):
        """The week that begins on this day. It has days of `year`."""
        thursday = monday + 3
        return (thursday - self.new_year(self.year_of(thursday, year))) // DAYS_PER_WEEK + 1

    def weekday(self, day):
        """0 for Monday to 6 for Sunday."""
        return day % DAYS_PER_WEEK

    def strip(self, year, month):
        length, first = self.length(year, month), self.first_day(year, month)
        before = self.weekday(first)
        weeks, days = [0] * ROWS, [0] * (ROWS * DAYS_PER_WEEK)
        days[before:before + length] = range(1, length + 1)
        for row in range((before + length + DAYS_PER_WEEK - 1) // DAYS_PER_WEEK):
            weeks[row] = self.week(first - before + DAYS_PER_WEEK * row, year)
        return [length, before + 1, *weeks, *days]


def used(strip):
    """How many rows have a day."""
    return sum(1 for row in range(ROWS) if any(row_of(strip, row)))


def row_of(strip, row):
    return strip[DAYS + DAYS_PER_WEEK * row:DAYS + DAYS_PER_WEEK * (row + 1)]


# --- weeks -------------------------------------------------------------------------------------------------------------------

class FromNewYear(Almanac):
    """weeks are counted by seven days from 1 January"""
    def week(self, monday, year):
        return max(monday - self.new_year(year), 0) // 7 + 1


class FromFirstMonday(Almanac):
    """week 1 begins on the first Monday of the year"""
    def week(self, monday, year):
        return (monday - self.new_year(year) + 7) // 7


class WithNewYear(Almanac):
    """week 1 is the week that has 1 January"""
    def week(self, monday, year):
        sunday = monday + 6
        return (sunday - self.new_year(self.year_of(sunday, year))) // 7 + 1


class OfMonday(Almanac):
    """a row's week is counted at its Monday"""
    def week(self, monday, year):
        return (monday - self.new_year(self.year_of(monday, year))) // 7 + 1


class OfWednesday(Almanac):
    """a row's week is counted at its Wednesday"""
    def week(self, monday, year):
        return (monday + 2 - self.new_year(self.year_of(monday + 2, year))) // 7 + 1


class OfFriday(Almanac):
    """a row's week is counted at its Friday"""
    def week(self, monday, year):
        return (monday + 4 - self.new_year(self.year_of(monday + 4, year))) // 7 + 1


class NoWeek53(Almanac):
    """week 53 is 52"""
    def week(self, monday, year):
        return min(super().week(monday, year), 52)


class Week53Is1(Almanac):
    """week 53 is 1"""
    def week(self, monday, year):
        return super().week(monday, year) % 53 or 1


class Week0(Almanac):
    """a row of January that belongs to the year before has week 0"""
    def week(self, monday, year):
        return 0 if monday + 3 < self.new_year(year) else super().week(monday, year)


class Week53ForWeek1(Almanac):
    """a row of December that belongs to the next year has week 53"""
    def week(self, monday, year):
        return 53 if monday + 3 >= self.new_year(year + 1) else super().week(monday, year)


class YearBeforeIsShort(Almanac):
    """a row of January has week 53 only if the year before is a leap year"""
    def week(self, monday, year):
        if monday + 3 < self.new_year(year) and not self.is_leap(year - 1):
            return 52
        return super().week(monday, year)


class WeeksGoOn(Almanac):
    """each row's week is one more than that of the row above"""
    def strip(self, year, month):
        strip = super().strip(year, month)
        for row in range(1, used(strip)):
            strip[WEEKS + row] = strip[WEEKS + row - 1] + 1
        return strip


class UnusedHasWeek(Almanac):
    """a row that is not used has its week too"""
    def strip(self, year, month):
        strip = super().strip(year, month)
        for row in range(used(strip), ROWS):
            strip[WEEKS + row] = strip[WEEKS + row - 1] % 53 + 1
        return strip


class SixthWeek(Almanac):
    """the sixth row has week 0"""
    def strip(self, year, month):
        strip = super().strip(year, month)
        strip[WEEKS + 5] = 0
        return strip


class FirstWeekOfWhole(Almanac):
    """a first row that is not whole has no week"""
    def strip(self, year, month):
        strip = super().strip(year, month)
        if strip[1] > 1:
            strip[WEEKS] = 0
        return strip


# --- rows --------------------------------------------------------------------------------------------------------------------

class FromSunday(Almanac):
    """rows begin on Sunday"""
    def strip(self, year, month):
        strip = super().strip(year, month)
        before = strip[1] % 7
        strip[DAYS:] = [0] * before + list(range(1, strip[0] + 1)) + [0] * (42 - before - strip[0])
        return strip


class SixthRow(Almanac):
    """the sixth row is left out"""
    def strip(self, year, month):
        return super().strip(year, month)[:DAYS + 35] + [0] * 7


class SixthRow31(Almanac):
    """the 31st is left out where it is in the sixth row"""
    def strip(self, year, month):
        strip = super().strip(year, month)
        strip[DAYS + 35:] = [day if day != 31 else 0 for day in strip[DAYS + 35:]]
        return strip


class NoLeapDay(Almanac):
    """29 February is not in its row"""
    def strip(self, year, month):
        strip = super().strip(year, month)
        return [*strip[:DAYS], *(day if day != 29 or month != FEBRUARY else 0 for day in strip[DAYS:])]


class EmptyFirstRow(Almanac):
    """a month that begins on Monday begins in the second row"""
    def strip(self, year, month):
        strip = super().strip(year, month)
        if strip[1] == 1:
            strip[WEEKS:DAYS] = [0] + strip[WEEKS:DAYS - 1]
            strip[DAYS:] = [0] * 7 + strip[DAYS:-7]
        return strip


class DaysBefore(Almanac):
    """the first row shows days of the month before"""
    def strip(self, year, month):
        strip = super().strip(year, month)
        before = strip[1] - 1
        last = self.length(year, month - 1) if month > 1 else 31
        strip[DAYS:DAYS + before] = range(last - before + 1, last + 1)
        return strip


class DaysBehind(Almanac):
    """the last row shows days of the month behind"""
    def strip(self, year, month):
        strip = super().strip(year, month)
        end = strip[1] - 1 + strip[0]
        more = -end % 7
        strip[DAYS + end:DAYS + end + more] = range(1, more + 1)
        return strip


class DaysOn(Almanac):
    """days of the year are shown, cut to a byte"""
    def strip(self, year, month):
        strip = super().strip(year, month)
        before = self.first_day(year, month) - self.new_year(year)
        return [*strip[:DAYS], *((day + before) % 256 if day else 0 for day in strip[DAYS:])]


class ByColumns(Almanac):
    """days are written by columns, all Mondays first"""
    def strip(self, year, month):
        strip = super().strip(year, month)
        return [*strip[:DAYS], *(strip[DAYS + 7 * row + column] for column in range(7) for row in range(6))]


class WeeksLast(Almanac):
    """the weeks are behind the days"""
    def strip(self, year, month):
        strip = super().strip(year, month)
        return strip[:WEEKS] + strip[DAYS:] + strip[WEEKS:DAYS]


# --- length and weekday ------------------------------------------------------------------------------------------------------

class Swapped(Almanac):
    """weekday and length are swapped"""
    def strip(self, year, month):
        length, weekday, *rest = super().strip(year, month)
        return [weekday, length, *rest]


class LengthBefore(Almanac):
    """the length is that of the month before"""
    def strip(self, year, month):
        return [self.length(year, (month - 2) % 12 + 1), *super().strip(year, month)[1:]]


class LengthBehind(Almanac):
    """the length is that of the month behind"""
    def strip(self, year, month):
        return [self.length(year, month % 12 + 1), *super().strip(year, month)[1:]]


class Sunday0(Almanac):
    """a Sunday is 0"""
    def strip(self, year, month):
        length, weekday, *rest = super().strip(year, month)
        return [length, weekday % 7, *rest]


class Monday0(Almanac):
    """a Monday is 0, a Sunday 6"""
    def strip(self, year, month):
        length, weekday, *rest = super().strip(year, month)
        return [length, weekday - 1, *rest]


class Sunday1(Almanac):
    """a Sunday is 1, a Monday 2"""
    def strip(self, year, month):
        length, weekday, *rest = super().strip(year, month)
        return [length, weekday % 7 + 1, *rest]


class WeekdayOfLast(Almanac):
    """the weekday is that of the last day"""
    def strip(self, year, month):
        length, weekday, *rest = super().strip(year, month)
        return [length, (weekday + length - 2) % 7 + 1, *rest]


# --- leap years and years ----------------------------------------------------------------------------------------------------

class Leap400(Almanac):
    """years that are multiples of 400 are no leap years"""
    def is_leap(self, year):
        return year % 4 == 0 and year % 100 != 0

    def leap_years_before(self, year):
        return (year - 1) // 4 - (year - 1) // 100


class Leap100(Almanac):
    """every fourth year is a leap year"""
    def is_leap(self, year):
        return year % 4 == 0

    def leap_years_before(self, year):
        return (year - 1) // 4


class Leap4000(Almanac):
    """years that are multiples of 4000 are no leap years"""
    def is_leap(self, year):
        return super().is_leap(year) and year % 4000 != 0

    def leap_years_before(self, year):
        return super().leap_years_before(year) - (year - 1) // 4000


class LeapOnlyInRows(Almanac):
    """February of a leap year is 28 days long, and the days behind it are right"""
    def strip(self, year, month):
        strip = super().strip(year, month)
        return [28 if month == FEBRUARY else strip[0], *strip[1:]]


class Year0(Almanac):
    """year 0 is no leap year"""
    def is_leap(self, year):
        return super().is_leap(year) and year != 0

    def leap_years_before(self, year):
        return super().leap_years_before(year) + (year <= 0)


class NoYear0(Almanac):
    """there is no year 0: year -1 is the year before year 1"""
    def strip(self, year, month):
        return super().strip(year + (year < 0), month)


class Truncated(Almanac):
    """leap years below year 1 are counted by division that drops the fraction"""
    def leap_years_before(self, year):
        before = year - 1
        return int(before / 4) - int(before / 100) + int(before / 400)


class Mirrored(Almanac):
    """a negative year is taken without its sign"""
    def strip(self, year, month):
        return super().strip(abs(year), month)


class Julian(Almanac):
    """the Julian calendar is kept before 1583"""
    def is_leap(self, year):
        return year % 4 == 0 if year < 1583 else super().is_leap(year)

    def leap_years_before(self, year):
        return (year - 1) // 4 - 2 if year < 1583 else super().leap_years_before(year)


class YearOfTheCentury(Almanac):
    """only the last two digits of the year count, as of 1900 to 1999"""
    def strip(self, year, month):
        return super().strip(1900 + year % 100, month)


class From1970(Almanac):
    """weekdays before 1970 are those of the day behind"""
    def weekday(self, day):
        return (day + (day < self.new_year(1970))) % 7


class Last(Almanac):
    """December of year 9999 is as November"""
    def strip(self, year, month):
        return super().strip(year, 11 if (year, month) == (LAST_YEAR, DECEMBER) else month)


class First(Almanac):
    """January of year -9999 has no day 31"""
    def strip(self, year, month):
        strip = super().strip(year, month)
        return [day if day != 31 or (year, month) != (FIRST_YEAR, 1) else 0 for day in strip]


# --- which months have a strip -----------------------------------------------------------------------------------------------

class FirstRefused(Almanac):
    """year -9999 has no strip"""
    def has_strip(self, year, month):
        return super().has_strip(year, month) and year != FIRST_YEAR


class LastRefused(Almanac):
    """year 9999 has no strip"""
    def has_strip(self, year, month):
        return super().has_strip(year, month) and year != LAST_YEAR


class Year0Refused(Almanac):
    """year 0 has no strip"""
    def has_strip(self, year, month):
        return super().has_strip(year, month) and year != 0


class DecemberRefused(Almanac):
    """a month is below 12"""
    def has_strip(self, year, month):
        return super().has_strip(year, month) and month != DECEMBER


class Year10000(Almanac):
    """year 10000 has a strip"""
    def has_strip(self, year, month):
        return super().has_strip(9999 if year == 10000 else year, month)


class YearBefore(Almanac):
    """year -10000 has a strip"""
    def has_strip(self, year, month):
        return super().has_strip(-9999 if year == -10000 else year, month)


class Month0(Almanac):
    """month 0 is December of the year before"""
    def has_strip(self, year, month):
        return super().has_strip(year, month) or (month == 0 and super().has_strip(year - 1, 12))

    def strip(self, year, month):
        return super().strip(year, month) if month else super().strip(year - 1, 12)


class Month13(Almanac):
    """month 13 is January of the next year"""
    def has_strip(self, year, month):
        return super().has_strip(year, month) or (month == 13 and super().has_strip(year + 1, 1))

    def strip(self, year, month):
        return super().strip(year, month) if month < 13 else super().strip(year + 1, 1)


class RefusedBy8(Almanac):
    """a month that does not exist is refused by 8"""
    def answer(self, year, month):
        number, strip = super().answer(year, month)
        return 8 if number == RANGE else number, strip


# The mistakes with memory, numbers and tests that compare.c can make with the library's own answers, from 1.
OF_THE_CALL = [
    "a byte behind the strip is changed", "the room behind the strip is set to 0",
    "a refusal by 6 changes the first byte of the room", "a refusal by 8 changes the last byte of the room",
    "a refusal by 8 writes what there is room for", "a byte in front of the room is changed",
    "a byte behind the room is written", "a byte is written to a room of length 0 at NULL",
    "a refusal leaves what was in length", "a refusal by 8 stores the length needed", "success leaves what was in length",
    "the length stored is that of the room", "the length is stored in 16 bytes", "bytes in front of the length are written",
    "8 is tested before 6", "a room of 49 bytes is enough", "a room of 50 bytes is not enough", "the year is cut to 32 bits",
    "the year is cut to 16 bits", "the month is cut to 32 bits", "the month is cut to 8 bits",
]
