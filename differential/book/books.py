"""Books to compare: whole sets, and random ones from a seed.

A suite is a function of a random number generator and a number of books, which only `random`, `paths` and `laws` look at. It
yields books, good and bad ones, and does not say which they are: that is for book.py. Here book.py is asked for cut-offs, so that
hulls can be put next to them; by `random` and `paths` for good lines, so that enough books are good; and by `laws` for compacted
books, which it holds to the laws of compacting and yields as books again.
"""

from functools import lru_cache
from itertools import count as count_from
from itertools import islice, product
from pathlib import Path

import book as reference
from book import CASES, COMPACT_CASES, ROOM_CASES, H, K, S, book

RULES = reference.Rules()

MIN_64, MAX_64 = -(1 << 63), (1 << 63) - 1
FIRST, LAST = RULES.MIN_SECONDS, RULES.MAX_SECONDS

# ---------------------------------------------------------------------------------------------------------------------------
# Fields, good and nearly good

PATHS = [b"", b" ", b"a", b"~", b"ships/oak hull.obj", b"a" * 254, b"b" * 255, b"c" * 256, b"d" * 257, b"e" * 1000]
PATHS += [b"a" + bytes([byte]) + b"b" for byte in (0, 8, 9, 10, 11, 13, 31, 32, 126, 127, 128, 160, 255)]
PATHS += [bytes(range(32, 127)), bytes(range(32, 127)) * 2 + b"x" * 65, bytes(range(32, 127)) * 2 + b"x" * 66]

KEYS = [K, b"0" * 16, b"f" * 16, b"", K[1:], K[:15], K + b"0", K * 2, K.upper(), b"0123456789abcdeF", b"0123456789abcdeg"]
KEYS += [K[:15] + bytes([byte]) for byte in (0, 9, 10, 32, 47, 48, 57, 58, 64, 65, 70, 96, 97, 102, 103, 128, 255)]
KEYS += [b"-" + K[1:], b"+" + K[1:], b"0x" + K[2:], b" " + K, K + b" ", K + b"\r"]

NUMBERS = sorted(
    {0, 1, 5, 59, 60, 86399, 86400, 93599, 93600, 93601, 359999, 360000, 1622462400, 1745582210, FIRST, LAST, MIN_64, MAX_64}
    | {n + d for n in (FIRST, LAST, MIN_64, MAX_64, 1 << 31, 1 << 32, 1 << 64, -(1 << 31), -(1 << 32), 0) for d in (-2, -1, 1, 2)}
    | {sign * 10**k + d for k in range(21) for d in (-1, 0, 1) for sign in (-1, 1)}
    | {sign * n for n in (93598, 93599, 93600) for sign in (-1, 1)}
)


def spellings(number):
    """A number in plain decimal, and in spellings that a loose reader takes."""
    plain = b"%d" % number
    size = b"%d" % abs(number)
    return [plain, b"+" + size, b"-" + size, b"0" + size, b"-0" + size, b"00" + plain, plain + b" ", b" " + plain, plain + b".0",
            plain + b"\r", plain + b"e0", size + b"-", b"--" + size, plain + b"\0", plain[:-1], plain + b"0", plain + b"_0"]


SPELLINGS = [spelling for number in NUMBERS for spelling in spellings(number)]
SPELLINGS += [b"", b"-", b"+", b"0x5", b"\xb2", b"now", b"+0000", b"-0000", b"-000000"]

OFFSETS = [b"+0000", b"-0000", b"+0001", b"-0001", b"+0059", b"+0060", b"+0130", b"-0800", b"+0099", b"+0100", b"+0160", b"-0160",
           b"+9959", b"-9959", b"+9960", b"-9960", b"+9999", b"+2400", b"", b"+", b"+1", b"+01", b"+013", b"+01300", b"+013000",
           b"-013030", b"0000", b"00000", b" 0000", b"++1+3", b"+-1-3", b"+01-5", b"-00-5", b"+01:30", b"Z", b"+ 130", b"+0130 ", b"+0130\r",
           b"+013\0", b"+0 30", b"*0130", b"+0a00", b"+000\xb2"]
# What is nearly `-0000`, and what the header reader, the raw reader or a loose one would take for it.
OFFSETS += [b"-", b"-0", b"-00", b"-000", b"-00000", b"-000000", b"-0000000", b"-000001", b"-000030", b"-000059", b"-000060", b"-00-160",
            b"-0060", b"-0099", b"-00-0", b"-0-00", b"-+0+0", b"--0-0", b"-00+0", b"--0000", b"+-0000", b"-+0000", b" -0000", b"-0000 ",
            b"-0000x", b"-0000\r", b"-0000\0", b"-000\0", b"-00:00", b"-00 00", b"- 000", b"-0 00", b"-0x00", b"-00O0", b"\xad0000",
            b"\xe2\x88\x920000", b"-000\xb2", b"0000-", b"-0000+0000", b"-0000-0000", b"-Z", b"-00.0", b"-0e00", b"-0_00"]

# All spellings of the seconds stand in front of both zeros.
ZEROS = [b"+0000", b"-0000"]
TIMES = [b"%d %s" % (5, offset) for offset in OFFSETS] + [spelling + b" " + zero for zero in ZEROS for spelling in SPELLINGS]
TIMES += [b"%d -9959" % number for number in NUMBERS]
TIMES += [b"", b" ", b"5", b"5 ", b"now", b"12abc +0100"]
TIMES += [time.replace(b"+0000", zero) for zero in ZEROS for time in (
    b" +0000", b"5+0000", b"5  +0000", b"5\t+0000", b"5\n+0000", b"5\r+0000", b"5\x0b+0000", b"5 +0000 x", b"5 +0000 +0000", b"@5 +0000",
    b"5:00 +0000", b"1 5 +0000", b"5\0+0000", b"5 +0000\0", b"12abc +0000", b"5 +0000 5", b"5 5 +0000", b"+0000", b"+0000 5")]
TIMES += [b"5 +0000 -0000", b"5 -0000 +0000"]

UNITS = [b"second", b"minute", b"hour", b"day", b"week", b"month", b"year"]
UNITS += [unit + b"s" for unit in UNITS] + [b"Day", b"DAYS", b"mOnThS", b"days"]
ODD_UNITS = [b"x", b"ago", b"secondss", b"s", b"5", b"mon", b"yea", b"fortnight", b"dayss", b"now", b"min"]
COUNT_WORDS = [b"one", b"Two", b"three", b"four", b"five", b"SIX", b"seven", b"eight", b"nine", b"ten", b"last"]
COUNTS = [b"0", b"1", b"2", b"3", b"5", b"7", b"11", b"12", b"13", b"14", b"25", b"48", b"007", b"100", b"400", b"1200", b"4800", b"99999",
          b"9223372036854775807", b"9223372036854775808", b"99999999999999999999", b"0" * 30 + b"1", b"0" * 20]

TEXTS = [b"now", b"today", b"yesterday", b"NOW", b" Today\r", b"\x0b\x0cyesterday ", b"\r", b"", b" ", b"now.", b"now now", b"nowx", b"no",
         b"yesterday 1 day", b"1 day ago", b"1 day", b"2 weeks ago", b"1 month ago", b"1 year ago", b"1 month 1 month", b"1 month, 2 days",
         b"2 ago", b"2 ago ago", b"ago 5 x", b"5 x", b"5 6 days", b"5 6 days ago", b"5 ago 3 x ago", b"2 days 3 ago", b"-5 days", b"2weeks",
         b"1 x ago", b"5 secondss ago", b"5 s ago", b"5 s", b"1\rday\0", b"1\0day", b"1\x0bday", b"1\x7fday", b"1 day\x80", b"\xff1 day",
         b"1 day \xc3\xa9", b"5", b"ago", b"day", b"one day", b"last month", b"Ten Years Ago", b"5 +0000", b"2021-05-31", b"@5", b"100000000",
         b"1 day " * 31, b"1 day " * 32, b"1 day " * 33, b"1 day " * 32 + b"5", b"1 x " * 32 + b"ago", b"1 x " * 33 + b"ago", b"1 x " * 33,
         b"1 month " * 32, b"1 month " * 33, b"0 days " * 33, b"1 day" + b" " * 500, b"word " * 300 + b"1 day", b"9" * 400 + b" 1 day"]

CURRENT_SECONDS = [0, 1622462400, 1614555000, 951825600, 1583020799, -1, -62162121600]
CURRENT_SECONDS += [FIRST - 1, FIRST, FIRST + 1, FIRST + 86400, LAST, LAST + 1, LAST - 1]
CURRENT_OFFSETS = [0, 3600, -28800, 5400, -1, 30, 93599, -93599, 93600, -93600]
CURRENT = [(b"%d" % seconds, b"%d" % offset) for seconds in CURRENT_SECONDS for offset in CURRENT_OFFSETS]

NAMES = [b"", b"Hull", b"HULL", b"hul", b"hulls", b"hull ", b" hull", b"since", b"sinc", b"sinces", b"Since", b"hull\r", b"#", b"hull\0"]

GOOD = [H(b"5 +0000"), S(b"1 day ago", b"86400")]
GOOD += [H(b"-1 -0800", b"ships/oak hull.obj", b"f" * 16), S(b"1 month ago", b"1622462400", b"-28800")]


def layouts():
    """Lines that are wrong as a whole: too few or too many fields, other separators, other names."""
    for line in GOOD:
        fields = line.split(b"\t")
        for count in range(4):
            yield b"\t".join(fields[:count])
        for separator in (b" ", b"\t\t", b"  ", b"", b",", b"\0", b"\n", b"\t\n", b"\r\t", b"\x0b"):
            yield separator.join(fields)
            for place in range(1, 4):
                yield b"\t".join(fields[:place]) + separator + b"\t".join(fields[place:])
        for name in NAMES:
            yield b"\t".join([name] + fields[1:])
        yield b"\t".join(fields[::-1])
        yield b"\t".join([fields[0]] + fields[:0:-1])
        for more in (b"\t", b"\tx", b"\t\t", b"\t5", b"\r", b" ", b"\0", b"x"):
            yield line + more
            yield more + line


# ---------------------------------------------------------------------------------------------------------------------------
# Whole sets

def lines():
    """Every line that is made of the fields above, one of them odd."""
    yield from layouts()
    for path in PATHS:
        yield H(b"5 +0000", path)
    for key in KEYS:
        yield H(b"5 +0000", key=key)
    for time in TIMES:
        yield H(time)
    for text in TEXTS:
        for seconds, offset in CURRENT:
            yield S(text, seconds, offset)
    for number in SPELLINGS:
        yield S(b"now", number, b"0")
        yield S(b"now", b"0", number)
        yield S(b"0 days", number, number)


def telling(rng, number):
    """The cases of book.py, the example, and each of its lines taken out, doubled or moved to the front."""
    for _, text, *_ in CASES + COMPACT_CASES + ROOM_CASES:
        yield text
    example = (Path(__file__).resolve().parent / "example.book").read_bytes().splitlines(keepends=True)
    yield b"".join(example)
    for place, line in enumerate(example):
        yield b"".join(example[:place] + example[place + 1:])
        yield b"".join(example[:place] + [line] + example[place:])
        yield b"".join([line] + example[:place] + example[place + 1:])
        yield b"".join(example[:place + 1])


def settings(rng, number):
    """Every odd line alone, behind a good line, in front of one, without its newline, and below a cut-off."""
    hull, since = GOOD[0], S(b"now", b"5")
    for line in lines():
        yield line + b"\n"
        yield line
        yield book(hull, line)
        yield book(since, line, hull)
        yield book(hull, since) + line


def changed_bytes(rng, number):
    """Every byte put at every place of a few lines, in place of the old one and beside it; every byte removed, or moved by one."""
    for line in GOOD + [H(b"5 -0000"), H(b"9223372036854775807 +9959"), S(b"now", b"-377705023201", b"-93599"), S(b"3 Ago 2 x ago", b"7")]:
        line += b"\n"
        for place in range(len(line)):
            front, behind = line[:place], line[place + 1:]
            yield front + behind
            yield front + line[place:place + 2][::-1] + line[place + 2:]
            yield front
            for byte in range(256):
                yield front + bytes([byte]) + behind
                yield front + bytes([byte]) + line[place:]


def orders(rng, number):
    """Every book of up to five lines over eight: two cut-offs, one of them by months, and hulls around them."""
    pool = [S(b"yesterday", b"86409"), S(b"1 month ago", b"2678405", b"0"), H(b"8 -0000"), H(b"9 +0130"), H(b"10 -0800"), H(b"4 +0000"),
            H(b"5 -0001"), H(b"-9 +9959")]
    for count in range(6):
        for chosen in product(pool, repeat=count):
            yield book(*chosen)


def offsets(rng, number):
    """Every offset of a sign and four digits; of five bytes over eight; of up to eight over three; seconds of up to four over seven."""
    for sign, digits in product(b"+-", range(10000)):
        yield book(H(b"5 %c%04d" % (sign, digits)))
    for offset in product(b"+-0169 :", repeat=5):
        yield book(H(b"5 " + bytes(offset)))
    for count in range(9):
        for offset in product(b"+-0", repeat=count):
            yield book(H(b"5 " + bytes(offset)))
            yield book(S(b"now", b"5", bytes(offset)))
    for count in range(5):
        for seconds in product(b"+-0159 ", repeat=count):
            for zero in ZEROS:
                yield book(H(bytes(seconds) + b" " + zero))
            yield book(S(b"now", bytes(seconds), b"0"))
            yield book(S(b"now", b"0", bytes(seconds)))


def beside(seconds, offset, text):
    """A book with one cut-off, if the text has one, and hulls one second before it, at it and one second after it."""
    since = S(text, b"%d" % seconds, b"%d" % offset)
    number, cut_off = RULES.relative(text, seconds, offset)
    if number != 0:
        return book(H(b"5 +0000"), since)
    return book(since, *(H(b"%d %s" % (cut_off + distance, end)) for distance in (-1, 0, 1) for end in (*ZEROS, b"-0330")))


def month_ends(rng, number):
    """Month ends and their neighbours of telling years, less some months or years, at offsets that change the local day."""
    years = (-9999, -400, -1, 0, 1, 4, 1600, 1900, 1968, 1999, 2000, 2020, 2021, 2024, 2100, 9999)
    texts = (b"1 month", b"2 months", b"3 months", b"11 months ago", b"12 months", b"1 year", b"4 years", b"1 month 1 month")
    for year in years:
        for month in range(12):
            first = reference.first_day_of_month(12 * year + month)
            for day in (first - 3, first - 1, first, first + 28, first + 30):
                for clock, offset in ((0, 0), (86399, 0), (84600, 3600), (1800, -3600)):
                    for text in texts:
                        yield beside(day * 86400 + clock, offset, text)


def ends_of_range(rng, number):
    """Both ends of the range of current times, and steps that land at its first second or one beyond it."""
    texts = [b"now", b"yesterday", b"0 s ago", b"1 second", b"1 minute", b"1 hour", b"1 day", b"1 week", b"1 month", b"1 year"]
    texts += [b"0 months", b"0 years", b"86400 seconds", b"31 days", b"19999 years", b"9223372036854775807 years"]
    for end in (FIRST, LAST):
        for distance in (-86401, -86400, -2, -1, 0, 1, 2, 59, 60, 3600, 86399, 86400, 86401, 604800, 2678400, 31536000):
            for offset in (0, 1, -1, 3600, -3600, 93599, -93599, 93600, -93600, 2147483647, -2147483648):
                for text in texts:
                    yield beside(end + distance, offset, text)


def long_books(rng, number):
    """Books around the longest length, good or with one fault somewhere, and lines that are very long."""
    hull, since = book(H(b"1622462400 +0200", b"ships/%s.obj" % (b"x" * 25))), book(S(b"2 weeks ago", b"1622462400", b"7200"))
    for unit in (hull, hull * 9 + since, since, book(H(b"5 -0000")), book(S(b"1 month", b"5"))):
        whole = unit * (65536 // len(unit))
        left = 65536 - len(whole)
        for fill in range(left - 2, left + 3):
            yield whole + b"\n" * fill
            for line in (H(b"5 +0000", b"p" * max(fill - 32, 0)), S(b"now" + b" " * max(fill - 14, 0))):
                yield whole + book(line)
                yield book(line) + whole
        yield whole
        yield whole[:-1]
        yield whole + whole[:left]
        yield (whole + unit)[:65537]
        yield whole + unit * 2
        for place in (0, 1, len(whole) // 2, len(whole) - 2, len(whole) - 1):
            for byte in (0, 9, 10, 32, 255):
                yield whole[:place] + bytes([byte]) + whole[place + 1:]
    for count in (65534, 65535, 65536, 65537, 65538, 100000):
        for byte in (b"\n", b"\t", b"\0", b"h", b"\xff"):
            yield byte * count
        text = S(b"1 day" + b"." * (count - len(S(b"1 day")) - 1)) + b"\n"
        yield text
        yield text[:-1]
        yield S(b"1 day" + b" 1" * ((count - len(S(b"1 day"))) // 2 - 1)) + b"\n"
        yield S((b"a " * count)[:count - len(S(b"1 day")) - 1] + b"1 day") + b"\n"
        yield book(S(b"9" * (count - 20) + b" 1 day"))
        yield book(H(b"5 +0000", b"p" * (count - 32)))
        yield book(H(b"5 +0000", key=b"0" * (count - 17)))
        yield book(H(b"0" * (count - 32) + b"5 +0000"))
        yield book(S(b"now", b"0" * (count - 13)))


# ---------------------------------------------------------------------------------------------------------------------------
# Books to compact. The key of a hull is the number of its line where it matters which of several lines with a path stays.

PATH_BYTES = bytes(range(32, 127))
LONGEST = RULES.LONGEST_BOOK


def keyed(items):
    """A book of since lines, as they are, and of hulls, given as paths; keys and times, with the mark or not, go with the place."""
    return book(*(item if item.startswith(b"since\t") else H(b"%d %s" % (4 + place % 3, ZEROS[place % 2]), item, b"%016x" % place)
                  for place, item in enumerate(items)))


def that_fit(items, times=1):
    """As many of the items, from the first on, as a book has room for if each is in it so many times, as `keyed` writes them."""
    chosen, length = [], 0
    for item in items:
        length += times * (len(item) + (1 if item.startswith(b"since\t") else 31))
        if length > LONGEST:
            break
        chosen.append(item)
    return chosen


def shortest_paths():
    """All paths, the short ones first: 95 of one byte, 9,025 of two, and so on."""
    for length in count_from(1):
        for path in product(PATH_BYTES, repeat=length):
            yield bytes(path)


def shuffled(rng, items):
    items = list(items)
    rng.shuffle(items)
    return items


def arrangements(rng, paths):
    """Books in which the paths, which must fit twice, are once, twice, in several orders, with since lines between."""
    paths = list(paths)
    since = S(b"now", b"5")
    yield keyed(paths)
    yield keyed(paths[::-1])
    yield keyed(shuffled(rng, paths))
    yield keyed(paths + paths)
    yield keyed(paths + paths[::-1])
    yield keyed(path for path in paths for _ in range(2))
    yield keyed(shuffled(rng, paths + paths))
    yield keyed(paths + paths[:len(paths) // 2])
    yield keyed(paths[len(paths) // 2:] + paths)
    yield keyed(that_fit(item for path in paths for item in (path, since)))
    yield keyed(that_fit(shuffled(rng, paths + paths[::2] + [since] * (len(paths) // 3))))


def repeats(rng, number):
    """Every book of up to six lines over three paths and a since line; of up to five over four paths and two since lines."""
    # the first ones with keys that differ, and with equal lines; of the others, the texts of the since lines are paths too
    since, later = S(b"now", b"5"), S(b"1 day ago", b"86406")
    for count in range(7):
        for chosen in product((b"a", b"ab", b"b", since), repeat=count):
            yield keyed(chosen)
            yield book(*(item if item == since else H(b"5 +0000", item) for item in chosen))
    for count in range(6):
        for chosen in product((b"now", b"1 day ago", b"no", b"a", since, later), repeat=count):
            yield keyed(chosen)


def prefixes(rng, number):
    """Every two paths of one byte; paths of 255 bytes that differ at one place; paths that are the front or the end of another."""
    for one, other in product(PATH_BYTES, repeat=2):
        yield keyed([bytes([one]), bytes([other])])
    long = bytes(rng.choices(PATH_BYTES, k=255))
    for place in range(255):
        for bit in (1, 2, 4, 8, 16):
            other = long[:place] + bytes([long[place] ^ bit]) + long[place + 1:]
            yield keyed([long, other, long])
            yield keyed([long[:place + 1], other[:place + 1]])
            yield keyed([other[place:], long[place:], long[place:]])
        yield keyed([long[:place + 1], long])
        yield keyed([long, long[:place + 1]])
        yield keyed([long[place:], long, long[place:]])
    for place in (0, 1, 2, 3, 4, 7, 8, 15, 16, 31, 63, 127, 191, 247, 251, 252, 253, 254):
        yield from arrangements(rng, (long[:place] + bytes([byte]) + long[place + 1:] for byte in PATH_BYTES))
    for same in (b"a" * 255, long):
        yield from arrangements(rng, (same[:length] for length in range(1, 170)))
        yield from arrangements(rng, (same[-length:] for length in range(1, 170)))
        yield keyed(same[:length] for length in range(1, 256))
        yield keyed(same[:length] for length in range(255, 0, -1))


# A table of paths by a hash may take two paths for the same if their hashes are, or lose one in a bucket of many. Here the hash is
# the one that the library uses: for each byte `h = (h + byte) * 2654435761`, modulo 2^32, and the bucket is the first 11 bits.
HASH_FACTOR = 2654435761


@lru_cache(1 << 16)
def hash_of(path):
    h = 0
    for byte in path:
        h = (h + byte) * HASH_FACTOR & 0xFFFFFFFF
    return h


def bucket_of(path):
    return hash_of(path) >> 21


def in_bucket(bucket, fronts):
    """Paths in this bucket that begin with one of the fronts, by search: two more bytes are tried out."""
    for front in fronts:
        h = hash_of(bytes(front))
        for byte in PATH_BYTES:
            before_last = (h + byte) * HASH_FACTOR & 0xFFFFFFFF
            for last in PATH_BYTES:
                if ((before_last + last) * HASH_FACTOR & 0xFFFFFFFF) >> 21 == bucket:
                    yield bytes(front) + bytes([byte, last])


def of_length(length):
    """What `in_bucket` makes paths of this length of."""
    return product(PATH_BYTES, repeat=length - 2)


def grown(rng, bucket, step):
    """Paths in this bucket, each the front of the next one, which is longer by `step` bytes."""
    path = b""
    while len(path) + step <= 255:
        fronts = (path + bytes(rng.choices(PATH_BYTES, k=step - 2)) for _ in range(1000))
        path = next(in_bucket(bucket, fronts))
        yield path


def grown_in_front(rng, bucket, number):
    """Paths in this bucket, each the end of the next one, which is longer by three bytes."""
    path = b""
    for _ in range(number):
        path = next(longer for longer in (bytes(rng.choices(PATH_BYTES, k=3)) + path for _ in range(1000000)) if bucket_of(longer) == bucket)
        yield path


def differing_at(path, place):
    """Paths that differ from this one at one place alone, by the bucket that they are in."""
    by_bucket = {}
    for byte in PATH_BYTES:
        other = path[:place] + bytes([byte]) + path[place + 1:]
        by_bucket.setdefault(bucket_of(other), []).append(other)
    return by_bucket.values()


def same_hash(rng):
    """Two paths of six bytes whose hashes are the same in all 32 bits: of some 100,000 random ones a pair is likely to be found."""
    known = {}
    while True:
        path = bytes(rng.choices(PATH_BYTES, k=6))
        other = known.setdefault(hash_of(path), path)
        if other != path:
            return other, path


def buckets(rng, number):
    """Paths that a hash does not tell apart: many in one bucket, and many whose hashes are the same in all bits."""
    for bucket in (0, 1, 1023, 1024, 2047, rng.randrange(2048)):
        for few in (2, 3, 10, 300):
            yield from arrangements(rng, islice(in_bucket(bucket, of_length(3)), few))
        # a library that compares paths within a bucket shows a mistake in comparing them only there
        for step in (2, 3, 8, 50):
            yield from arrangements(rng, that_fit(grown(rng, bucket, step), times=2))
        yield from arrangements(rng, grown_in_front(rng, bucket, 8))
    for length in (2, 3, 4, 8, 20, 255):
        path = bytes(rng.choices(PATH_BYTES, k=length))
        for place in range(length):
            for paths in differing_at(path, place):
                if len(paths) > 1:
                    yield keyed(paths)
                    yield keyed(paths + paths[:1])
                    yield keyed(paths[:1] + paths[::-1])
    yield from arrangements(rng, that_fit(in_bucket(7, of_length(4)), times=2))
    yield keyed(that_fit(in_bucket(7, of_length(4))))
    # joined in any way, the two paths of a pair give paths with the same hash again: 2^k of them from k pairs
    for pair in (same_hash(rng) for _ in range(3)):
        yield from arrangements(rng, pair)
        for count in (2, 3, 5, 8):
            paths = [b"".join(pieces) for pieces in product(pair, repeat=count)]
            yield from arrangements(rng, that_fit(shuffled(rng, paths), times=2))
        long = [b"x" * 190 + b"".join(pieces) for pieces in product(pair, repeat=10)]
        yield from arrangements(rng, that_fit(shuffled(rng, long), times=2))
    # all buckets used, and each of them twice
    first = {}
    for path in shortest_paths():
        first.setdefault(bucket_of(path), path)
        if len(first) == 2048:
            break
    yield keyed(that_fit(first.values()))
    yield from arrangements(rng, that_fit(first.values(), times=2))


def full_books(rng, number):
    """Full books: one path 2,048 times, as many different paths as fit, each some times, since lines between; also with a fault."""
    since = S(b"now", b"5")
    most = that_fit(shortest_paths())
    books = [book(*[H(b"5 " + zero)] * 2048) for zero in ZEROS]
    books += [keyed([b"a"] * 2048), keyed([b"a"] * 2047 + [b"b"]), keyed([b"b"] + [b"a"] * 2047)]
    books += [keyed(most), keyed(most[::-1]), keyed(shuffled(rng, most)), keyed(most[1:] + most[-1:]), keyed(most[:-1] + most[:1])]
    # paths that come again below many others, and paths that many others come below
    for count in (1, 40, 400, 900):
        for paths in (most, shuffled(rng, most)):
            books.append(keyed(that_fit(paths[:count] + paths)))
            books.append(keyed(that_fit(paths[:count][::-1] + paths)))
            books.append(keyed(that_fit(paths[:count] + paths)[::-1]))
    for count in (2, 3, 95):
        books.append(keyed(most[place % count] for place in range(2048)))
        books.append(keyed(most[place * count // 2048] for place in range(2048)))
        books.append(keyed(that_fit(shuffled(rng, most[:count] * (2048 // count + 1)))))
    for times in (2, 3, 10):
        books.append(keyed(that_fit(shortest_paths(), times) * times))
        books.append(keyed(shuffled(rng, that_fit(shortest_paths(), times) * times)))
    books.extend(arrangements(rng, that_fit(shortest_paths(), times=2)))
    # the shortest since line has 14 bytes, so 4,681 lines are the most that a book has
    shortest = S(b"now")
    books += [book(*[shortest] * 4681), keyed([b"a"] + [shortest] * 4678 + [b"a"]), keyed([shortest] * 2340 + [b"a"] * 1000)]
    books += [keyed(that_fit(item for path in shortest_paths() for item in (path, shortest)))]
    books += [keyed(that_fit(item for path in shortest_paths() for item in (path, shortest, b"a", since)))]
    for _ in range(40):
        paths = [some_good_path(rng) for _ in range(rng.choice((5, 50, 500, 3000)))]
        books.append(keyed(that_fit(rng.choice(paths) if rng.random() < 0.9 else since for _ in range(5000))))
        books.append(keyed(that_fit(shuffled(rng, paths))))
    for text in books:
        yield text
        # one line more, too long or not; the last newline gone; one bad byte
        yield text + book(H(b"5 +0000"))
        yield text[:-1]
        place = rng.randrange(len(text))
        yield text[:place] + bytes([rng.choice((0, 9, 10, 127))]) + text[place + 1:]


# ---------------------------------------------------------------------------------------------------------------------------
# Random ones. A pool of lines is made, then many books of lines from it, some of them damaged.

def some_time(rng):
    return rng.choice((
        lambda: rng.randint(0, 2000000000), lambda: rng.randint(FIRST, LAST), lambda: rng.randint(-100, 100),
        lambda: rng.randint(MIN_64, MAX_64), lambda: rng.choice(NUMBERS),
    ))()


def some_offset(rng):
    usual = (0, 3600, 5400, -28800, 93599, -93599)
    return rng.choice((*usual, rng.randint(-93599, 93599), rng.randint(-60, 60), rng.randint(-100000, 100000)))


def some_count(rng):
    """How many pairs: mostly few, now and then around 32, and now and then up to two more than are read."""
    if rng.random() < 0.02:
        return rng.choice((rng.randint(35, 258), rng.randint(254, 258)))
    return rng.choice((1, 1, 1, 2, 2, 3, 5, rng.randint(28, 34)))


def some_text(rng):
    """A relative text: now and then an odd one, otherwise pairs, with other words and other separators among them."""
    if rng.random() < 0.15:
        return rng.choice(TEXTS)
    words = []
    for _ in range(some_count(rng)):
        words.append(rng.choice(COUNT_WORDS if rng.random() < 0.3 else COUNTS if rng.random() < 0.3 else COUNTS[:12]))
        words.append(rng.choice(ODD_UNITS if rng.random() < 0.1 else UNITS))
        if rng.random() < 0.1:
            words.append(rng.choice((b"and", b"ago", b"the", b"99999999999999999999", b"x1", b"yesterday")))
    if rng.random() < 0.5:
        words.append(b"ago")
    if rng.random() < 0.05:
        words.append(rng.choice(COUNTS))
    if rng.random() < 0.8:
        return b" ".join(words)
    text = b""
    for word in words:
        text += word + rng.choice((b" ", b".", b", ", b"-", b"\r", b"\0", b"\x0b", b"\x7f", b"  ", b"@", b"[", b"`", b"{", b"/", b":"))
    return text


def some_stamp(rng, seconds):
    if rng.random() < 0.15:
        return b"%d %s" % (seconds, rng.choice(ZEROS))
    hours = rng.choice((0, 1, 2, 8, 23, 24, 99, rng.randint(0, 99)))
    minutes = rng.choice((0, 30, 59, rng.randint(0, 60)))
    return b"%d %c%02d%02d" % (seconds, rng.choice(b"+-"), hours, minutes)


def some_path(rng):
    length = rng.choice((1, 2, 8, 20, 20, 40, rng.randint(1, 260), 255))
    return bytes(rng.choices(range(32, 127), k=length))


def some_key(rng):
    return b"%016x" % rng.getrandbits(64)


def damaged(rng, text):
    """A byte changed, removed, added or doubled, two swapped, a part cut out, or the end cut off."""
    place = rng.randrange(len(text) + 1)
    byte = bytes([rng.choice((0, 9, 10, 13, 32, 43, 45, 48, 57, 97, 102, 103, 126, 127, 128, 255, rng.randrange(256)))])
    match rng.randrange(9):
        case 0 | 1 | 2:
            return text[:place] + byte + text[place + 1:]
        case 3:
            return text[:place] + text[place + 1:]
        case 4:
            return text[:place] + byte + text[place:]
        case 5:
            return text[:place] + text[place:place + 1] + text[place:]
        case 6:
            return text[:place] + text[place:place + 2][::-1] + text[place + 2:]
        case 7:
            return text[:place] + text[place + rng.randrange(40):]
        case _:
            return text[:place]


def pool(rng):
    """Good lines, which are cut-offs and hulls around them, and lines that may be bad."""
    sound, doubtful = [], []
    now, offset = some_time(rng), some_offset(rng)
    for _ in range(rng.randint(1, 6)):
        if rng.random() < 0.3:
            now, offset = some_time(rng), some_offset(rng)
        text = some_text(rng)
        since = S(text, b"%d" % now, b"%d" % offset)
        judgement = RULES.judge_alone(since)
        if judgement is None:
            doubtful.append(since)
            continue
        sound.append(since)
        for distance in (-1, 0, 1, rng.randint(-100, 100)):
            sound.append(H(some_stamp(rng, judgement[1] + distance), some_path(rng), some_key(rng)))
    for _ in range(rng.randint(1, 6)):
        sound.append(H(some_stamp(rng, some_time(rng)), some_path(rng), some_key(rng)))
    doubtful += [line for line in sound if RULES.judge_alone(line) is None]
    sound = [line for line in sound if RULES.judge_alone(line) is not None] or [GOOD[0]]
    for _ in range(5):
        doubtful.append(damaged(rng, rng.choice(sound)))
    doubtful.append(H(rng.choice(TIMES)))
    doubtful.append(H(b"%d %s" % (some_time(rng), rng.choice(OFFSETS))))
    doubtful.append(H(b"5 +0000", rng.choice(PATHS), rng.choice(KEYS)))
    doubtful.append(S(rng.choice(TEXTS), *rng.choice(CURRENT)))
    doubtful.append(S(b"now", rng.choice(SPELLINGS), b"0"))
    doubtful.append(S(b"now", b"0", rng.choice(SPELLINGS)))
    return sound, doubtful


def random_books(rng, number):
    """From the seed: cut-offs, and hulls around them, in any order; a quarter with lines that may be bad, a fifth with damaged bytes."""
    made = 0
    while made < number:
        sound, doubtful = pool(rng)
        for _ in range(min(40, number - made)):
            made += 1
            chosen = rng.choices(sound, k=rng.choice((0, 1, 2, 3, 4, 5, 6, 8, 12, 30)))
            kind = rng.random()
            if kind < 0.25:
                for _ in range(rng.choice((1, 1, 2))):
                    chosen.insert(rng.randint(0, len(chosen)), rng.choice(doubtful))
            text = book(*chosen)
            if 0.25 <= kind < 0.45:
                for _ in range(rng.choice((1, 1, 2))):
                    text = damaged(rng, text)
            yield text


def some_good_path(rng):
    return bytes(rng.choices(PATH_BYTES, k=rng.choice((1, 2, 3, 8, 20, 40, rng.randint(1, 255)))))


def like(rng, path):
    """A path that is nearly the same: a byte changed, added or taken, or some bytes moved."""
    place = rng.randrange(len(path))
    byte = bytes([rng.choice(PATH_BYTES)])
    changed = rng.choice((
        path[:place] + byte + path[place + 1:], path + byte, byte + path, path[:-1], path[1:], path[:place], path[place:] + path[:place],
        path[::-1], path.swapcase(), path * 2,
    ))
    return changed if RULES.is_path(changed) else path


def few_paths(rng):
    """Lines with few paths, which are like one another or like other fields, and since lines, some of them with a path as their text."""
    paths = [rng.choice((some_good_path(rng), b"hull", b"since", K, b"now", b"5 +0000", b"5 -0000", b"2 weeks ago"))]
    while len(paths) < rng.choice((1, 2, 3, 4, 6, 10)):
        paths.append(like(rng, rng.choice(paths)) if rng.random() < 0.8 else some_good_path(rng))
    lines = []
    for path in paths:
        for _ in range(rng.choice((1, 1, 2, 3))):
            offset = rng.choice((*ZEROS, b"%c%02d00" % (rng.choice(b"+-"), rng.randrange(100))))
            lines.append(H(b"%d %s" % (rng.randint(-3, 3), offset), path, rng.choice((K, some_key(rng)))))
    for text in (b"now", b"0 days", b"2 weeks ago", *paths):
        since = S(text, b"%d" % rng.randint(-3, 3))
        if rng.random() < 0.5 and RULES.judge_alone(since) is not None:
            lines.append(since)
    return lines


def paths_at_random(rng, number):
    """From the seed: few paths in many lines, keys and times that differ or not, since lines between; a tenth damaged."""
    made = 0
    while made < number // 3:
        lines = few_paths(rng)
        for _ in range(min(20, number // 3 - made)):
            made += 1
            text = book(*rng.choices(lines, k=rng.choice((1, 2, 3, 4, 5, 6, 8, 12, 20, 60))))
            yield damaged(rng, text) if rng.random() < 0.1 else text


def laws(rng, number):
    """From the seed: good books, what the reference compacts them to, and both with a good line behind; held to RULES 13.15 and 13.17."""
    made = 0
    while made < number // 30:
        lines = few_paths(rng) + pool(rng)[0]
        for _ in range(10):
            made += 1
            text = book(*rng.choices(lines, k=rng.choice((0, 1, 2, 3, 5, 8, 12, 30))))
            more = rng.choice(lines)
            for law in reference.broken_laws(RULES, text, more):
                raise SystemExit(f"books: the reference breaks a law: {law}: {text!r}, {more!r}")
            compacted = RULES.compact(text)[2]
            yield text
            yield compacted
            yield text + book(more)
            yield compacted + book(more)


SUITES = {
    "telling": telling, "repeats": repeats, "prefixes": prefixes, "buckets": buckets, "full": full_books, "settings": settings,
    "bytes": changed_bytes, "orders": orders, "offsets": offsets, "months": month_ends, "range": ends_of_range, "long": long_books,
    "paths": paths_at_random, "laws": laws, "random": random_books,
}
