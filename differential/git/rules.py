"""The offset of a raw date by rule 1 and rule 2, from the words of RULES 5.6 and 5.7. It calls no code of the library."""

from typing import Container, NamedTuple


class Rule(NamedTuple):
    hours: Container[int]
    minutes: Container[int]


RULES = {
    1: Rule(hours=range(15), minutes=(0, 15, 30, 45)),  # hours at most 14
    2: Rule(hours=range(24), minutes=range(60)),  # hours below 24, minutes below 60
}


def field(text):
    """The value of a field, an unsigned number that may open with `+`; None if it is not one."""
    digits = text.removeprefix("+")
    return int(digits) if digits.isascii() and digits.isdigit() else None


def offset(rule, word):
    """The offset in seconds that a rule reads from a word; None where it refuses, by 2."""
    if len(word) not in (5, 7) or word[0] not in "+-":
        return None
    hours, minutes, seconds = field(word[1:3]), field(word[3:5]), field(word[5:7] or "00")
    if hours not in rule.hours or minutes not in rule.minutes or seconds != 0:
        return None
    return (hours * 3600 + minutes * 60) * (-1 if word[0] == "-" else 1)
