"""Asks the installed git what it makes of the offset word of a raw date, in four ways."""

import os
import re
import shutil
import subprocess
from datetime import datetime, timezone
from pathlib import Path
from typing import NamedTuple

SECONDS = 100000000  # the smallest number that git takes without `@`

# What git may answer instead of reading an offset.
LOCAL = "the local zone"  # the offset is passed over, and that of the local zone is used
REFUSED = "refused"
NO_DATE = "no date"  # the header has the word, but `git log` finds no date there

# Two local zones, each with the offset that git writes for it. An answer that moves with the zone is the zone's.
ZONES = {"<here>-9:17": "+0917", "<there>3:43": "-0343"}

# For fast-import: a commit of which the word is the author's name and offset.
COMMIT = f"""commit refs/heads/all
author {{word}} <b> {SECONDS} {{word}}
committer a <b> {SECONDS} +0000
data 0

"""


class Read(NamedTuple):
    """git reads an offset: its seconds, and the word that it writes to the header."""
    offset: int
    written: str


class Git:
    """The installed git, in an empty folder and without anyone's settings."""

    def __init__(self, folder):
        self.folder = Path(folder)
        self.settings = {
            "PATH": os.environ["PATH"], "HOME": str(folder), "LC_ALL": "C", "TZ": "UTC0",
            "GIT_CONFIG_NOSYSTEM": "1", "GIT_CONFIG_GLOBAL": os.devnull, "GIT_CEILING_DIRECTORIES": str(self.folder.parent),
            "GIT_AUTHOR_NAME": "a", "GIT_AUTHOR_EMAIL": "b",
        }

    def run(self, *words, text="", **settings):
        environment = self.settings | settings
        return subprocess.run(["git", *words], input=text, text=True, capture_output=True, cwd=self.folder, env=environment)

    def output(self, *words, **others):
        """What git writes; it must not fail."""
        done = self.run(*words, **others)
        if done.returncode != 0:
            raise SystemExit(f"git {' '.join(words)}: {done.stderr}")
        return done.stdout

    def version(self):
        return self.output("version").strip()

    # By GIT_AUTHOR_DATE, as for a commit.

    def written(self, date, zone):
        """The offset word that git makes of a date in a local zone, or REFUSED."""
        done = self.run("var", "GIT_AUTHOR_IDENT", TZ=zone, GIT_AUTHOR_DATE=date)
        if done.returncode != 0 and f"invalid date format: {date}" in done.stderr:
            return REFUSED
        identity = re.fullmatch(rf"a <b> {SECONDS} ([+-][0-9]+)\n", done.stdout)
        if identity is None:
            raise SystemExit(f"GIT_AUTHOR_DATE={date!r}: {done.stdout}{done.stderr}")
        return identity[1]

    def author_date(self, date):
        (here, offset_here), (there, offset_there) = ZONES.items()
        word = self.written(date, here)
        if word == REFUSED:
            return REFUSED
        if word == offset_here and self.written(date, there) == offset_there:
            return LOCAL
        return Read(seconds_of(word), word)

    # By fast-import, which keeps the word as it is given; `git log` shows how it is read.

    def empty_store(self):
        shutil.rmtree(self.folder / "store", ignore_errors=True)
        self.output("init", "--quiet", "--bare", "store")

    def imports(self, form, words):
        """Imports one commit for each word; False if fast-import refuses one of them."""
        commits = "".join(COMMIT.format(word=word) for word in words)
        done = self.run("fast-import", "--quiet", "--force", f"--date-format={form}", text=commits, GIT_DIR="store")
        if done.returncode != 0 and "Invalid raw date" not in done.stderr:
            raise SystemExit(f"fast-import: {done.stderr}")
        return done.returncode == 0

    def imported(self, form, words):
        """The answers for words. A refusal ends fast-import, so where it refuses a word it is asked for each of them alone."""
        self.empty_store()
        taken = words
        if not self.imports(form, words):
            taken = [word for word in words if self.imports(form, [word])]
            self.empty_store()
            self.imports(form, taken)
        return {word: REFUSED for word in words} | self.history()

    def history(self):
        """For each word in the store, its answer: the word in the header, and by how much `git log` moves the clock."""
        objects = self.output("cat-file", "--batch", "--batch-all-objects", GIT_DIR="store")
        kept = dict(re.findall(rf"^author (\S+) <b> {SECONDS} (\S+)$", objects, re.MULTILINE))
        shown = self.output("log", "--format=%an%x09%at%x09%ad", "--date=format:%Y-%m-%d %H:%M:%S", "all", GIT_DIR="store")
        answers = {}
        for word, seconds, clock in (line.split("\t") for line in shown.splitlines()):
            if seconds == "":
                answers[word] = NO_DATE
            else:
                local = datetime.strptime(clock, "%Y-%m-%d %H:%M:%S").replace(tzinfo=timezone.utc)
                answers[word] = Read(int(local.timestamp()) - SECONDS, kept[word])
        return answers


def seconds_of(word):
    """The seconds of a sign and digits, of which the last two are minutes."""
    return (int(word[1:-2]) * 3600 + int(word[-2:]) * 60) * (-1 if word[0] == "-" else 1)


WAYS = {
    "without `@`": lambda git, words: {word: git.author_date(f"{SECONDS} {word}") for word in words},
    "behind `@`": lambda git, words: {word: git.author_date(f"@{SECONDS} {word}") for word in words},
    "`raw`": lambda git, words: git.imported("raw", words),
    "`raw-permissive`": lambda git, words: git.imported("raw-permissive", words),
}
