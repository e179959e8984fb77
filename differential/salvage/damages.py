"""The damaged books that are compared, in suites.

A suite is a function of a source of random numbers and of a count, which only the random suites look at. It yields books, and does not
say which of their lines are good: that is for salvage.py.
"""

import sys
from hashlib import sha1
from itertools import product
from pathlib import Path

import salvage
from salvage import CASES, LONG_BOOKS, ROOM_CASES, A, B, H, N, S, book, small_books

HERE = Path(__file__).resolve().parent
sys.path.append(str(HERE.parent / "book"))
import books

EXAMPLE = (HERE.parent / "book" / "example.book").read_bytes()
LONGEST = salvage.Rules.LONGEST_BOOK

# ---------------------------------------------------------------------------------------------------------------------------
# A book as a year of cooking leaves it: paths as a repository has them, keys from a hash, times that go up, and since lines

FOLDERS = [b"", b"src/", b"src/date/", b"docs/", b"tests/", b"crates/hulls/src/", b"third party/zlib-1.3/", b"include/", b".github/workflows/"]
FILES = [b"parse.c", b"parse.h", b"main.rs", b"README.md", b"Makefile", b"a b.txt", b"lib.rt", b"date-0.18.obj", b"~backup", b"x"]
SINCES = [b"2 weeks ago", b"1 month ago", b"yesterday", b"last year", b"3 days, 4 hours ago", b"now"]
ZONES = [b"+0200", b"+0000", b"-0000", b"-0800", b"+0530"]


def used_book(length):
    """As many whole lines as fit in so many bytes."""
    lines, size, now = [], 0, 1745582210
    for number in range(LONGEST):
        now += 37 + number * 7919 % 5000
        if number % 19 == 7:
            line = S(SINCES[number // 19 % 6], b"%d" % now, b"%d" % (3600 * (number % 5 - 2)))
        else:
            path = FOLDERS[number * 5 % 9] + FILES[number * 7 % 10]
            line = H(b"%d %s" % (now, ZONES[number % 5]), path, sha1(path + b"%d" % now).hexdigest()[:16].encode())
        if size + len(line) + 1 > length:
            return book(*lines)
        lines.append(line)
        size += len(line) + 1


SMALL, USED, FULL = used_book(2000), used_book(5600), used_book(LONGEST)


def whole_lines(text):
    """The lines of a good book, with their newlines."""
    return [line + b"\n" for line in text.split(b"\n")[:-1]]


def near_newlines(text, step):
    """Places in a book: every so many bytes, and those around each newline in every seventh line."""
    places, at = set(range(0, len(text) + 1, step)), 0
    for number, line in enumerate(whole_lines(text)):
        at += len(line)
        if number % 7 == 0:
            places.update(place for place in range(at - 2, at + 3) if place <= len(text))
    return sorted(places)


# ---------------------------------------------------------------------------------------------------------------------------
# As a new user would try it


def telling(random, count):
    """the cases of salvage.py"""
    for _, text, *_ in CASES + ROOM_CASES:
        yield text
    yield from LONG_BOOKS


def cuts(random, count):
    """two books cut at every byte: what is in front, and what is behind; a full one cut at some bytes and around newlines"""
    for text in (EXAMPLE, USED):
        for place in range(len(text) + 1):
            yield text[:place]
            yield text[place:]
    for place in near_newlines(FULL, 997):
        yield FULL[:place]


def halves(random, count):
    """half a line in the middle: every line of a book cut at every byte, with its newline and without"""
    lines = whole_lines(SMALL)
    for number, line in enumerate(lines):
        before, after = b"".join(lines[:number]), b"".join(lines[number + 1:])
        for place in range(len(line)):
            yield before + line[:place] + b"\n" + after
            yield before + line[:place] + after
            yield before + line[place:] + after


def flips(random, count):
    """every bit of every byte of two books turned over; of a longer one three bits of every byte"""
    for text, bits in (EXAMPLE, range(8)), (SMALL, range(8)), (USED, (0, 3, 7)):
        changed = bytearray(text)
        for place, bit in product(range(len(text)), bits):
            changed[place] ^= 1 << bit
            yield bytes(changed)
            changed[place] ^= 1 << bit


def zeros(random, count):
    """a block of zeros at every place of a book, over its bytes: 1, 2, 16, 512 and 4,096 of them; at places of a full book, whole blocks"""
    for text, sizes in (EXAMPLE, (1, 2, 16, 512)), (USED, (1, 512, 4096)):
        for place, size in product(range(len(text)), sizes):
            end = min(place + size, len(text))
            yield text[:place] + b"\0" * (end - place) + text[end:]
    for size in (512, 4096):
        for place in range(0, len(FULL), size):
            yield FULL[:place] + b"\0" * size + FULL[place + size:]
            yield FULL[:place] + b"\0" * (LONGEST - place)
            yield FULL[:place] + FULL[place + size:]


def zeros_between(random, count):
    """zeros at every place of a book, between its bytes: 1, 512 and 4,096 of them; and up to the end, with 512 or 4,096 bytes to a block"""
    for place, size in product(range(len(EXAMPLE) + 1), (1, 512, 4096)):
        yield EXAMPLE[:place] + b"\0" * size + EXAMPLE[place:]
    for place in range(len(USED) + 1):
        yield USED[:place] + b"\0" * (-place % 512)
    for place in range(0, len(USED) + 1, 5):
        yield USED[:place] + b"\0" * (-place % 4096)


def together(random, count):
    """two books run together, the first cut at every byte: with a newline between, without, and with zeros"""
    for first, second in (EXAMPLE, SMALL), (SMALL, EXAMPLE), (EXAMPLE, EXAMPLE):
        for place, between in product(range(len(first) + 1), (b"", b"\n", b"\0" * 16, b"\r\n")):
            yield first[:place] + between + second
    for place, between in product(range(len(USED) + 1), (b"", b"\n")):
        yield USED[:place] + between + EXAMPLE
    for place in range(len(EXAMPLE) + 1):
        yield EXAMPLE[:place] + SMALL[place:]


def lost(random, count):
    """bytes lost at every place of a book: 1, 2, 31 and 512 of them; and bytes that are there twice"""
    for place, size in product(range(len(SMALL)), (1, 2, 31, 512)):
        yield SMALL[:place] + SMALL[place + size:]
        yield SMALL[:place + size] + SMALL[place:]


# ---------------------------------------------------------------------------------------------------------------------------
# Lines, ends of lines, numbers


def small(random, count):
    """every book of up to four lines over eight, with each of five last pieces"""
    return small_books(4)


def line_by_line(random, count):
    """every odd line of ../book in full books, with good lines between; every fifth of them alone, with its newline and without"""
    some, size = [], 0
    for number, line in enumerate(books.lines()):
        if number % 5 == 0:
            yield line + b"\n"
            yield book(A) + line
        if size + len(line) + 40 > LONGEST:
            yield b"".join(some)
            some, size = [], 0
        some.append(line + b"\n")
        size += len(line) + 1
        if number % 11 == 0:
            some.append(book(A))
            size += 32
    yield b"".join(some)


def every_byte(random, count):
    """every byte put at every place of two books of three lines, in place of the old one, and at every third place in front of it"""
    for line in (A, S(b"1 day ago", b"86400")):
        text = book(B, line, N)
        for place, byte in product(range(len(text)), range(256)):
            yield text[:place] + bytes([byte]) + text[place + 1:]
            if place % 3 == 0:
                yield text[:place] + bytes([byte]) + text[place:]


def line_ends(random, count):
    """lines that end in carriage returns: each, all, or at random; other bytes for a newline; empty lines at every place"""
    for text in (EXAMPLE, SMALL, USED):
        lines = whole_lines(text)
        for end in (b"\r\n", b"\r", b"\n\r", b"\n\n", b"\0", b"\0\n", b" \n", b"\t\n", b"\x0b", b"\x0c", b"\x85", b"\xe2\x80\xa8", b"\\n", b""):
            yield b"".join(line[:-1] + end for line in lines)
            yield b"".join(line[:-1] + end for line in lines)[:-1]
            for place in range(len(lines)):
                yield b"".join(line[:-1] + end if at == place else line for at, line in enumerate(lines))
                yield b"".join(line[:-1] + end if at <= place else line for at, line in enumerate(lines))
            for _ in range(20):
                yield b"".join(line[:-1] + random.choice((end, b"\n")) for line in lines)
        for place, number in product(range(len(lines) + 1), (1, 2, 3, 10)):
            yield b"".join(lines[:place]) + b"\n" * number + b"".join(lines[place:])


def numbers(random, count):
    """numbers and lengths around each width: as many empty lines, or as many good lines and then a bad one; bad lines of such lengths"""
    around = [n + d for n in (1, 9, 99, 255, 256, 999, 4095, 4681, 9999, 32767, 65535) for d in (-1, 0, 1, 2) if n + d <= LONGEST]
    for number in around:
        yield b"\n" * number
        yield b"x" * number
        yield b"x" * (number - 1) + b"\n"
        yield b"\n" * (number - 1) + b"x"
        if number * 14 < LONGEST - 40:
            yield book(N) * number + b"\n"
            yield book(N) * number + b"x"
            yield book(N) * number + b"x\n" + book(A)
            yield book(N, b"") * (number // 2) + A
            yield book(b"", N) * (number // 2)
        for other in (1, 9, 10, 99, 100, 999, 1000):
            if number + other < LONGEST:
                yield b"\n" * other + b"x" * number
                yield b"x" * number + b"\n" * other


def lengths(random, count):
    """books of 65,530 to 65,542 bytes and of 100,000: good, damaged, newlines, zeros, one line, a cut line at the end"""
    ends = (b"\n", b"x", b"\0", N + b"\n", A + b"\n", A)
    for length in (*range(65530, 65543), 100000):
        yield b"\n" * length
        yield b"x" * length
        yield b"\0" * length
        yield b"x" * (length - 1) + b"\n"
        yield b"\n" * (length - 1) + b"x"
        yield (book(A) * 4000)[:length]
        yield (book(N) * 8000)[:length]
        yield (book(A, b"", N, b"x") * 4000)[:length]
        yield (b"x\n" * 60000)[:length]
        for end in ends:
            yield (book(A) * 4000)[:length - len(end)] + end
            yield FULL[:length - len(end)] + b" " * (length - len(end) - len(FULL)) + end
        path = b"p" * 200
        fill = book(H(b"5 +0000", path)) * 400
        yield fill[:length - 1] + b"\n"


def whole_books(random, count):
    """good books: the example, used books of many lengths, and those of book.py, which are not all good"""
    yield EXAMPLE
    for length in range(0, 6000, 11):
        yield used_book(length)
    for length in range(6000, LONGEST, 6007):
        yield used_book(length)
    yield FULL
    for _, text, *_ in books.CASES + books.COMPACT_CASES + books.ROOM_CASES:
        yield text


# ---------------------------------------------------------------------------------------------------------------------------
# From the seed


def damaged(random, text):
    """A book with one thing wrong, as disks and programs do it."""
    place, other = random.randrange(len(text) + 1), random.randrange(len(text) + 1)
    size = random.choice((1, 1, 2, 5, 31, 32, 100, 512, 4096))
    match random.randrange(9):
        case 0:
            return text[:place]
        case 1:
            return text[:place] + text[place + size:]
        case 2:
            return text[:place] + b"\0" * size + text[place + size:]
        case 3:
            return text[:place] + bytes(random.randrange(256) for _ in range(min(size, 40))) + text[place:]
        case 4:
            return text[:place] + random.choice((b"\n", b"\r", b"\t", b"\0", b" ", b"\xff", b"hull", b"since\t")) * random.choice((1, 1, 2, 3)) + text[place:]
        case 5:
            return text[:place] + text[other:other + size] + text[place:]
        case 6:
            return text[:place] + text[other:]
        case 7:
            return text.replace(*random.choice(((b"\n", b"\r\n"), (b"\t", b" "), (b"+0", b"-0"), (b"hull", b"Hull"), (b"\n", b"\n\n"))), random.randrange(4))
        case _:
            changed = bytearray(text)
            for _ in range(random.choice((1, 1, 2, 8))):
                if changed:
                    changed[random.randrange(len(changed))] ^= 1 << random.randrange(8)
            return bytes(changed)


POOL = whole_lines(FULL)


def lines_of(random, most):
    """Lines of a full book in any order, as many as fit in so many bytes."""
    text, size = [], 0
    while True:
        line = random.choice(POOL)
        if size + len(line) > most:
            return b"".join(text)
        text.append(line)
        size += len(line)


def at_random(random, count):
    """from the seed: one to six things wrong with books of up to 1,000 bytes"""
    for _ in range(count):
        text = lines_of(random, random.choice((100, 300, 600, 1000)))
        for _ in range(random.choice((1, 1, 2, 3, 6))):
            text = damaged(random, text)[:LONGEST]
        yield text


def long_at_random(random, count):
    """from the seed: one to forty things wrong with books of up to 65,536 bytes"""
    for _ in range(count // 100):
        text = lines_of(random, random.choice((5000, 20000, 65000, LONGEST)))
        for _ in range(random.choice((1, 2, 5, 40))):
            text = damaged(random, text)
        yield text[:LONGEST + 200]


# in the order in which they are compared: cases and lines first, so that most planted mistakes are found soon
SUITES = {
    "telling": telling, "lines": line_by_line, "small": small, "cuts": cuts, "halves": halves, "flips": flips, "zeros": zeros,
    "zeros-between": zeros_between, "together": together, "lost": lost, "bytes": every_byte, "line-ends": line_ends, "numbers": numbers,
    "lengths": lengths, "whole": whole_books, "random": at_random, "long-random": long_at_random,
}
