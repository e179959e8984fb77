"""For the compare.py of books, lists and damaged books: compares in batches, cuts an input down that differs, and plants mistakes.

An input is what the library is asked about: a book, or a pair of lists. A compare.py has a class derived from Inputs that says what its
inputs are, and calls `compare` or `planted`. Both take streams: for each suite its name, the Inputs, and the inputs themselves.
"""

import random
import struct
import time
from collections import Counter
from pathlib import Path

from asking import Program

BATCH = 1 << 20  # bytes
MOST_IN_A_BATCH = 2000  # inputs
MOST_TRIED = 20 << 20  # bytes of smaller inputs that are tried, by `cost`
MOST_PRINTED = 3  # differences that are printed when they are found
MOST_PLANTED = 20000  # random inputs of a suite that a mistake is looked for in


def single_bytes(text):
    """The bytes of a text, each as a text."""
    return [text[i:i + 1] for i in range(len(text))]


def shown(text, most=600):
    """A text as Python writes it, shortened if it has more than `most` bytes."""
    if len(text) > most and text == text[:1] * len(text):
        return f"{len(text)} times {text[:1]!r}"
    return repr(text) if len(text) <= most else f"{text[:most // 2]!r} ... {text[-most // 2:]!r}"


class Inputs:
    """What the inputs are: books, where a derived class does not say otherwise. It has to have `answers`, `record`, `counts` and `wanted`."""

    ONE, MANY = "book", "books"

    def answers(self, rules, batch):
        """Each input with the answers wanted, as one tuple."""
        raise NotImplementedError

    def record(self, *one):
        """An input and its answers as compare.c reads them, in pieces."""
        raise NotImplementedError

    def counts(self, *one):
        """What an input and its answers add to the row of the suite, by the titles of the table."""
        raise NotImplementedError

    def wanted(self, rules, text):
        """The answers wanted, in words: a text for each."""
        raise NotImplementedError

    def in_words(self, *one):
        """What kind of answer it is, to be counted below the table. Nothing if kinds are not counted."""
        return None

    def test(self, rules, wanted):
        """Ends compare.py if the reference breaks a law."""

    def size(self, text):
        return len(text)

    def size_in_words(self, text):
        return f"{len(text)} bytes"

    def cost(self, text):
        """What it costs to try an input, of MOST_TRIED."""
        return self.size(text) + 1000

    def lines(self, text):
        return text.splitlines(keepends=True)

    def parts(self, pieces, text):
        """The parts of an input, each of whose texts is cut by `pieces`."""
        return pieces(text)

    def joined(self, parts):
        return b"".join(parts)

    def shown(self, text, most=600):
        return shown(text, most)

    def save(self, text, file):
        """Writes an input to a file, and returns the name."""
        Path(file).write_bytes(text)
        return file

    def batches(self, stream):
        """The inputs, some at a time."""
        batch, length = [], 0
        for one in stream:
            batch.append(one)
            length += self.size(one)
            if length > BATCH or len(batch) == MOST_IN_A_BATCH:
                yield batch
                batch, length = [], 0
        if batch:
            yield batch

    def send(self, library, wanted):
        """The differences of a batch, as places and texts; nothing if the program ended."""
        pieces = []
        for one in wanted:
            pieces += self.record(*one)
        records = b"".join(pieces)
        return library.ask(struct.pack("=2I", len(wanted), len(records)) + records)

    def differences(self, library, wanted):
        """As `send`. If the program ended, the inputs are sent one by one until it ends again."""
        answer = self.send(library, wanted)
        if answer is not None:
            return answer
        library.start()
        for place, one in enumerate(wanted):
            answer = self.send(library, [one])
            if answer is None:
                return 1, [(place, f"the program was ended by {library.how_it_ended()}")]
        raise SystemExit(f"compare: the program ended on a batch, but on no {self.ONE} of it alone")

    def difference(self, library, rules, one):
        """What differs for one input, or nothing."""
        _, found = self.differences(library, self.answers(rules, [one]))
        return found[0][1] if found else None

    def smallest(self, library, rules, one):
        """The input cut down as far as it still differs: first by lines, then by bytes, in ever smaller parts."""
        left = MOST_TRIED
        for pieces in self.lines, single_bytes:
            parts = self.parts(pieces, one)
            size = max(len(parts) // 2, 1)
            while size > 0:
                before = len(parts)
                left = self.cut(library, rules, parts, size, left)
                if size > 1 or len(parts) == before:
                    size //= 2
            one = self.joined(parts)
        return one

    def cut(self, library, rules, parts, size, left):
        """Removes `size` parts at a time wherever the rest still differs. Returns what is left of MOST_TRIED, and stops if nothing is."""
        place = 0
        while place < len(parts) and left > 0:
            less = self.joined(parts[:place] + parts[place + size:])
            left -= self.cost(less)
            if self.difference(library, rules, less) is not None:
                del parts[place:place + size]
            else:
                place += size
        return left


def streams(suites, inputs_of, chosen, seed, number):
    """The chosen suites. A suite makes its inputs from a seed and from how many random ones are wanted."""
    for name in chosen:
        yield name, inputs_of(name), suites[name](random.Random(seed), number)


# --- comparing ------------------------------------------------------------------------------------------------------------------

class Differing:
    """The inputs that differ: how many were described, and the smallest of them with its Inputs."""

    def __init__(self):
        self.number, self.smallest = 0, None

    def add(self, suite, inputs, one, what):
        if self.number < MOST_PRINTED:
            print(f"{suite}: {inputs.shown(one, 200)}: {what}")
        self.number += 1
        if self.smallest is None or inputs.size(one) < inputs.size(self.smallest[1]):
            self.smallest = inputs, one


def print_row(widths, cells):
    """A row of the table: the name of a suite, then numbers."""
    (name, *numbers), (width, *others) = cells, widths.values()
    print(f"{name:{width}}", *(f"{number:>{other}}" for number, other in zip(numbers, others)), flush=True)


def compare_suite(library, rules, stream, differing, kinds):
    """Compares one suite, and returns the numbers of its row by the titles of the table."""
    suite, inputs, texts = stream
    row = Counter()
    for batch in inputs.batches(texts):
        wanted = inputs.answers(rules, batch)
        inputs.test(rules, wanted)
        for one in wanted:
            for title, number in inputs.counts(*one).items():
                row[title] += number
        kinds.update(filter(None, (inputs.in_words(*one) for one in wanted)))
        count, found = inputs.differences(library, wanted)
        row[inputs.MANY] += len(batch)
        row["bytes"] += sum(map(inputs.size, batch))
        row["differ"] += count
        for place, what in found:
            differing.add(suite, inputs, batch[place], what)
    return row


def compare(options, suites, rules, widths, nothing_differs):
    """Compares all streams, prints a table and the smallest difference, and returns the exit status.
    `widths` has the titles of the table. `nothing_differs` makes the last line from how many inputs each Inputs had."""
    library, differing, kinds, totals = Program(options.program), Differing(), Counter(), Counter()
    print_row(widths, widths)
    for stream in suites:
        suite, inputs, _ = stream
        started = time.monotonic()
        row = compare_suite(library, rules, stream, differing, kinds)
        totals[inputs] += row[inputs.MANY]
        print_row(widths, [suite, *(row[title] for title in list(widths)[1:-1]), f"{time.monotonic() - started:.1f}"])
    for what, count in sorted(kinds.items()):
        print(f"{count:8} {what}")
    if differing.smallest is None:
        library.stop()
        print(nothing_differs(totals))
        return 0
    report(library, rules, *differing.smallest, options)
    library.stop()
    return 1


def report(library, rules, inputs, one, options):
    """Prints the smallest difference, and saves its input if --save asks for it."""
    one = inputs.smallest(library, rules, one)
    print(f"The smallest differing {inputs.ONE}, of {inputs.size_in_words(one)} (seed {options.seed}):")
    print(f"  {inputs.shown(one)}")
    for answer in inputs.wanted(rules, one):
        print(f"  wanted: {answer}")
    print(f"  {inputs.difference(library, rules, one)}")
    if options.save is not None:
        print(f"  written to {inputs.save(one, options.save)}")


# --- planted mistakes -----------------------------------------------------------------------------------------------------------

def first_found(library, rules, suites):
    """The suite and the Inputs of the first batch that has a difference, the inputs of it that differ, and how many were looked at up to
    the first of these. If there is none, it is the last suite, and no inputs."""
    looked_at = 0
    for suite, inputs, texts in suites:
        for batch in inputs.batches(texts):
            _, found = inputs.differences(library, inputs.answers(rules, batch))
            if found:
                return suite, inputs, [batch[place] for place, _ in found], looked_at + found[0][0] + 1
            looked_at += len(batch)
    return suite, inputs, [], looked_at


def planted(name, options, suites, right_rules, mistakes):
    """Looks for every mistake, prints how many inputs that took, and the smallest, and returns the exit status.
    A mistake is a sentence, its rules, and the words that make the program mistaken. `suites` makes the streams anew for each."""
    number = missed = 0
    right = Program(options.program)
    for sentence, rules, *words in mistakes:
        number += 1
        library = Program(options.program, *words)
        suite, inputs, differing, looked_at = first_found(library, rules, suites())
        if differing:
            one = inputs.smallest(library, rules, min(differing, key=inputs.size))
            if inputs.difference(right, right_rules(), one) is not None:
                print(f"differs without a mistake: {inputs.shown(one)}")
                return 1
            by = f", by {suite}" if suite else ""
            print(f"found after {looked_at:6} {inputs.MANY}{by}: {sentence}: {inputs.shown(one, 120)}", flush=True)
        else:
            print(f"NOT FOUND in {looked_at} {inputs.MANY}: {sentence}", flush=True)
            missed += 1
        library.stop()
    right.stop()
    print(f"{name}: {number} mistakes planted, {missed} not found")
    return 1 if missed else 0
