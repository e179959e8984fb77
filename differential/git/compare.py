#!/usr/bin/env python3
"""Asks the installed git what it makes of every offset word, `+0000` to `+9999` and `-0000` to `-9999`, and compares with rule 2.

The words are in classes. In each class all of git's answers are of one kind, and all of ours are. The tables of docs/DIFFERENCES.md
must be those counted here.

Usage: compare.py [--program FILE] [--planted]
  --program FILE  the program that compare.c was built to: our answers are the library's. Otherwise they are those of rules.py
  --planted       would it notice? Mistakes in our answers, in git's and on the page: every one must be found

Exit status: 0 if all is as the page says (with --planted: if every mistake is found), otherwise 1.
"""

import argparse
import subprocess
import sys
import tempfile
from pathlib import Path
from typing import Callable, NamedTuple

from ask import LOCAL, REFUSED, SECONDS, WAYS, Git, Read, seconds_of
from rules import RULES, Rule, offset

PAGE = Path(__file__).resolve().parents[2] / "docs" / "DIFFERENCES.md"
HEADING = "### Raw by rule 2, all ±HHMM"

WORDS = [f"{sign}{number:04}" for sign in "+-" for number in range(10000)]
OTHER_WORDS = ["++5+7", "++520", "+-520", "+000000", "+052000", "+000030", "+05", "+05:20", "Z"]

# Kinds of answer, beside LOCAL and REFUSED: the offset is the word's hours and minutes, or it is another one.
KEPT = "read"
CARRIED = "read and written as another word"
WIDER = "read and written with five digits"
OTHERWISE = "read as another offset"


class Class(NamedTuple):
    """Words to which all answers are of one kind."""
    name: str  # on the page
    holds: Callable[[int, str], bool]  # is a word in the class? It is given HHMM as a number, and the word
    ours: str  # the kind of our answers by rule 2
    git: str  # the kind of git's answers


def within(number):
    """Hours below 24 and minutes below 60."""
    return number // 100 < 24 and number % 100 < 60


CLASSES = {
    "without `@`": [
        Class("hours below 24 and minutes below 60, but not `-0001`", lambda n, w: within(n) and w != "-0001", KEPT, KEPT),
        Class("minus one minute, both read", lambda n, w: w == "-0001", KEPT, LOCAL),
        Class("hours of 24 or more, or minutes of 60 or more", lambda n, w: not within(n), REFUSED, LOCAL),
    ],
    "behind `@`": [
        Class("hours below 24 and minutes below 60", lambda n, w: within(n), KEPT, KEPT),
        Class("hours of 24 or more, minutes below 60", lambda n, w: n >= 2400 and n % 100 < 60, REFUSED, KEPT),
        Class("minutes of 60 or more, together below 100 hours", lambda n, w: n % 100 >= 60 and n < 9960, REFUSED, CARRIED),
        Class("minutes of 60 or more, together 100 hours or more", lambda n, w: n >= 9960, REFUSED, WIDER),
    ],
    "`raw`": [
        Class("HHMM up to 1400, minutes below 60", lambda n, w: n <= 1400 and n % 100 < 60, KEPT, KEPT),
        Class("HHMM up to 1400, minutes of 60 or more", lambda n, w: n <= 1400 and n % 100 >= 60, REFUSED, KEPT),
        Class("HHMM above 1400, hours below 24 and minutes below 60", lambda n, w: n > 1400 and within(n), KEPT, REFUSED),
        Class("HHMM above 1400, any other", lambda n, w: n > 1400 and not within(n), REFUSED, REFUSED),
    ],
    "`raw-permissive`": [
        Class("hours below 24 and minutes below 60", lambda n, w: within(n), KEPT, KEPT),
        Class("hours of 24 or more, or minutes of 60 or more", lambda n, w: not within(n), REFUSED, KEPT),
    ],
}


def kind(word, answer):
    """The kind of an answer, ours or git's."""
    if not isinstance(answer, Read):
        return answer
    if answer.offset != seconds_of(word):
        return OTHERWISE
    if answer.written == word or answer.offset == 0:
        return KEPT
    return CARRIED if len(answer.written) == 5 else WIDER


def shown(answer, word):
    """An answer of git, for the page."""
    if not isinstance(answer, Read):
        return answer
    return f"{answer.offset}, written `{answer.written}`" if kind(word, answer) in (CARRIED, WIDER) else str(answer.offset)


class Answers(NamedTuple):
    """What was asked: our offset for each rule and word (None: refused), and git's answer for each way and word."""
    ours: dict
    git: dict


def our_kind(seconds, word):
    return REFUSED if seconds is None else kind(word, Read(seconds, word))


def misplaced(answers):
    """The words that are not in exactly one class of a way, or whose answers are not those of their class."""
    for way, classes in CLASSES.items():
        for word in WORDS:
            got = our_kind(answers.ours[2][word], word), kind(word, answers.git[way][word])
            homes = [one for one in classes if one.holds(int(word[1:]), word)]
            if len(homes) != 1:
                yield f"{way}, {word}: in {len(homes)} classes"
            elif got != (homes[0].ours, homes[0].git):
                yield f"{way}, {word}: wanted ours {homes[0].ours}, git {homes[0].git}; got ours {got[0]}, git {got[1]}"


def unlike_rule_1(answers):
    """The words that rule 1 reads and rule 2 does not read alike."""
    for word, seconds in answers.ours[1].items():
        if seconds is not None and seconds != answers.ours[2][word]:
            yield f"{word}: {seconds} by rule 1, {answers.ours[2][word]} by rule 2"


def class_rows(answers):
    """The table of classes: way, class, first word, both answers to it, words, and how many of them rule 1 reads."""
    for way, classes in CLASSES.items():
        for one in classes:
            words = [word for word in WORDS if one.holds(int(word[1:]), word)]
            first = words[0]
            ours = 2 if answers.ours[2][first] is None else answers.ours[2][first]
            by_git = shown(answers.git[way][first], first)
            by_rule_1 = sum(answers.ours[1][word] is not None for word in words)
            yield f"| {way} | {one.name} | `{first}` | {ours} | {by_git} | {len(words):,} | {by_rule_1} |"


def other_rows(answers):
    """The table of other words: our answer by rule 2, and git's by each way."""
    for word in OTHER_WORDS:
        ours = 2 if answers.ours[2][word] is None else answers.ours[2][word]
        by_git = (answers.git[way][word] for way in WAYS)
        yield f"| `{word}` | {ours} | " + " | ".join(str(one.offset) if isinstance(one, Read) else one for one in by_git) + " |"


def page_rows():
    """The rows of the tables under HEADING, without their heads."""
    section = PAGE.read_text().partition(f"\n{HEADING}\n")[2].partition("\n#")[0]
    lines = section.splitlines()
    return [line for line, second_before in zip(lines[2:], lines) if line.startswith("|") and second_before.startswith("|")]


def differences(answers, page):
    """All that is not as the classes and the page say."""
    found = [*misplaced(answers), *unlike_rule_1(answers)]
    rows = [*class_rows(answers), *other_rows(answers)]
    found += [f"not on the page: {row}" for row in rows if row not in page]
    found += [f"only on the page: {row}" for row in page if row not in rows]
    return found if found or rows == page else ["the rows on the page are in another order, or are there twice"]


def of_rules(rules):
    """Our answers, by a statement of the two rules."""
    return {number: {word: offset(rule, word) for word in WORDS + OTHER_WORDS} for number, rule in rules.items()}


ASKED = [(number, word) for number in RULES for word in WORDS + OTHER_WORDS]


def ask_library(program):
    """For each rule and word what the library answers: as a raw date, by "any", and by "any" behind `@`."""
    texts = "".join(f"{number}\t{SECONDS} {word}\n" for number, word in ASKED)
    lines = subprocess.run([program], input=texts, text=True, stdout=subprocess.PIPE, check=True).stdout.splitlines()
    return dict(zip(ASKED, (line.split("\t") for line in lines), strict=True))


def line_of(seconds):
    """The answer of the library for an offset: number, seconds, offset."""
    return "2 0 0" if seconds is None else f"0 {SECONDS} {seconds}"


def unlike_rules(lines):
    """Where the library does not answer as rules.py, all three times."""
    for (number, word), got in lines.items():
        wanted = line_of(offset(RULES[number], word))
        if got != [wanted] * 3:
            yield f"rule {number}, {word}: wanted {wanted!r} as raw, by any and behind @; got {got}"


def of_library(lines):
    """Our answers, the library's as raw dates."""
    ours = {number: {} for number in RULES}
    for (number, word), (raw, _, _) in lines.items():
        refusal, _, seconds = raw.split(" ")
        ours[number][word] = int(seconds) if refusal == "0" else None
    return ours


# Mistakes to be found, for `--planted`: in the limits of our rules, in git's answers, in one of the library's three answers.
OUR_MISTAKES = {
    "rule 2: hours 24 let through": {2: Rule(range(25), range(60))},
    "rule 2: minutes 60 let through": {2: Rule(range(24), range(61))},
    "rule 2: hours 23 refused": {2: Rule(range(23), range(60))},
    "rule 2: minutes 59 refused": {2: Rule(range(24), range(59))},
    "rule 2 is rule 1": {2: RULES[1]},
    "rule 1: hours 15 let through": {1: Rule(range(16), RULES[1].minutes)},
    "rule 1: minutes 20 let through": {1: Rule(range(15), (0, 15, 20, 30, 45))},
    "rule 1: hours 14 refused": {1: Rule(range(14), RULES[1].minutes)},
}
GIT_MISTAKES = [
    ("without `@`", "+2400", Read(86400, "+2400")),
    ("without `@`", "-0060", Read(-3600, "-0100")),
    ("without `@`", "-0001", Read(-60, "-0001")),
    ("without `@`", "+2359", LOCAL),
    ("without `@`", "+0520", Read(19260, "+0521")),
    ("without `@`", "++5+7", Read(18420, "+0507")),
    ("behind `@`", "-2400", LOCAL),
    ("behind `@`", "+0060", Read(3600, "+0060")),
    ("behind `@`", "+9960", REFUSED),
    ("`raw`", "+1401", Read(50460, "+1401")),
    ("`raw`", "-1400", REFUSED),
    ("`raw-permissive`", "+9999", REFUSED),
]
LIBRARY_MISTAKES = {"raw": 0, "any": 1, "any behind `@`": 2}


def planted(answers, page):
    """Answers and pages with one mistake each."""
    for name, rules in OUR_MISTAKES.items():
        yield name, answers._replace(ours=of_rules(RULES | rules)), page
    by_rule_2 = answers.ours[2]
    signless = {word: None if seconds is None else abs(seconds) for word, seconds in by_rule_2.items()}
    yield "rule 2: the sign is lost", answers._replace(ours=answers.ours | {2: signless}), page
    yield "rule 2: `++5+7` refused", answers._replace(ours=answers.ours | {2: by_rule_2 | {"++5+7": None}}), page
    for way, word, answer in GIT_MISTAKES:
        changed = answers.git | {way: answers.git[way] | {word: answer}}
        yield f"git, {way}: {word} is {answer}", answers._replace(git=changed), page
    yield "the page: a word more", answers, [row.replace("17,120", "17,121") for row in page]
    yield "the page: a row less", answers, page[:-1]
    yield "the page: a row twice", answers, page + page[-1:]
    yield "the page: a row more", answers, page + [page[0].replace("`+0000`", "`+0001`")]


def planted_in_library(lines):
    """The library's answers, where one of the three calls takes rule 2 for rule 1, or lets hours 24 through."""
    for name, place in LIBRARY_MISTAKES.items():
        for what, rule in ("rule 2 is rule 1", RULES[1]), ("hours 24 let through", Rule(range(25), range(60))):
            wrong = {key: list(got) for key, got in lines.items()}
            for number, word in ASKED:
                if number == 2:
                    wrong[number, word][place] = line_of(offset(rule, word))
            yield f"library, {name}: {what}", wrong


def ask_git():
    with tempfile.TemporaryDirectory() as folder:
        git = Git(folder)
        print(f"asked: {git.version()}", flush=True)
        return {way: ask(git, WORDS + OTHER_WORDS) for way, ask in WAYS.items()}


def find_planted(answers, page, lines):
    """Every mistake must be found."""
    mistakes = [(name, differences(wrong, wrong_page)) for name, wrong, wrong_page in planted(answers, page)]
    mistakes += [(name, list(unlike_rules(wrong))) for name, wrong in planted_in_library(lines)] if lines else []
    for name, found in mistakes:
        print(f"found, {len(found)} differ: {name}: {found[0]}" if found else f"NOT FOUND: {name}")
    missed = sum(not found for _, found in mistakes)
    print(f"git: {len(mistakes)} mistakes planted, {missed} not found")
    return 1 if missed else 0


def main():
    parser = argparse.ArgumentParser(usage=__doc__.split("Usage: ")[1])
    parser.add_argument("--program")
    parser.add_argument("--planted", action="store_true")
    options = parser.parse_args()
    lines = ask_library(options.program) if options.program else {}
    answers = Answers(of_library(lines) if lines else of_rules(RULES), ask_git())
    page = page_rows()
    found = [*unlike_rules(lines), *differences(answers, page)]
    if options.planted and not found:
        return find_planted(answers, page, lines)
    print("\n".join([*class_rows(answers), *other_rows(answers), *found[:20]]))
    source = "the library" if lines else "rules.py"
    print(f"git: {len(WORDS):,} words asked in {len(WAYS)} ways, our answers from {source}; {len(found)} not as the page says")
    return 1 if found else 0


if __name__ == "__main__":
    sys.exit(main())
