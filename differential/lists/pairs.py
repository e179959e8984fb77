"""The pairs of lists, and the pairs of front lines, that are compared, in suites.

A suite is a function of a source of random numbers and of a count, which only the random suites look at. It yields pairs of bytes.
"""

from itertools import product

from lists import BIG, CASES, FRONT_CASES, FULL, H, K, L, M, ROOM_CASES, SINCE, SMALL, small_lists

LONGEST = 32768
HIGHEST, LOWEST = int(BIG), int(SMALL)
# seconds that a wrong width, a wrong sign or an order of texts would put elsewhere
SECONDS = sorted({
    0, 1, 2, 5, 9, 10, 11, 99, 100, -1, -2, -5, -9, -10, -11, -99, -100, 1745582210, 1745582211, -1745582210,
    *(sign * (1 << bits) + more for bits in (7, 8, 15, 16, 31, 32, 53, 62) for sign in (1, -1) for more in (-1, 0, 1)),
    HIGHEST, HIGHEST - 1, HIGHEST - 9, LOWEST, LOWEST + 1, LOWEST + 9, 10**18, 10**18 - 1, -10**18, 1 - 10**18,
})
OFFSETS = [b"+0000", b"-0000", b"+9959", b"-9959", b"+0001", b"-0001", b"+0130", b"-1200"]
PRINTED = bytes(range(32, 127))

# ---------------------------------------------------------------------------------------------------------------------------
# Lines.


def good_lines():
    """Good lines of each kind there is."""
    lines = [H(seconds, offset=offset) for seconds in SECONDS for offset in OFFSETS[:4]]
    lines += [H(5, offset=b"%c%02d%02d" % (sign, hours, minutes)) for sign in b"+-" for hours in (0, 1, 9, 10, 23, 24, 99)
              for minutes in (0, 1, 9, 10, 30, 59)]
    lines += [H(5, path) for path in (b"a", b" ", b"~", b"hull", b"since", K, b"5 +0000", b"ships/cog.hull", PRINTED, b"x" * 254, b"x" * 255)]
    lines += [H(5, bytes([byte])) for byte in PRINTED]
    return lines + [H(5, key=key) for key in (L, M, b"f" * 16, b"0" * 15 + b"1", b"abcdef" + b"9" * 10)]


def odd_lines():
    """Lines that are not good `hull` lines with their newline: each with one fault, or with no line in them at all."""
    good = H(5)
    lines = [b"\n", b"\r\n", b" \n", b"\t\n", b"\t\t\t\n", b"x\n", b"\0\n", b"hull\n", b"hull\t\n", b"hull\t\t\t\n", b"# none\n"]
    # since lines, good ones and bad ones
    lines += [SINCE, b"since\t2 weeks ago\t1745582210\t7200\n", b"since\tyesterday\t-5\t-93599\n", b"since\t1 month\t0\t0\n",
              b"since\tx\t0\t0\n", b"since\n", b"since\ta\t" + K + b"\t5 +0000\n", b"hull\tnow\t5\t0\n"]
    # the word in front
    lines += [word + good[4:] for word in (b"", b"Hull", b"HULL", b"hul", b"hulls", b" hull", b"hull ", b"\thull", b"\0hull", b"hull\r")]
    # fields
    lines += [good.replace(b"\t", b" "), good.replace(b"\t", b" ", 1), good.replace(b"\t", b"\t\t", 1), good[:-1] + b"\t\n",
              good[:-1] + b"\tx\n", b"hull\ta\t" + K + b"\n", b"hull\ta\t5 +0000\n", b"hull\t" + K + b"\ta\t5 +0000\n"]
    # paths
    lines += [H(5, path) for path in (b"", b"x" * 256, b"x" * 300, b"x" * 511, b"x" * 1000, b"a\tb", b"a\rb", b"\xc3\xa9")]
    lines += [H(5, b"a" + bytes([byte])) for byte in (*range(10), *range(11, 32), 127, 128, 160, 254, 255)]
    lines += [H(5, b"x" * 254 + bytes([byte])) for byte in (0, 31, 127, 128, 255)]
    # keys
    lines += [H(5, key=key) for key in (b"", K[:15], K + b"0", K[:-1] + b"F", K[:-1] + b"g", K[:-1] + b"`", K[:-1] + b"/", K[:-1] + b":",
                                        K[:-1] + b"@", K[:-1] + b" ", b"0x" + K[2:], K[:-1] + b"\0", K.upper(), K * 2)]
    # times
    lines += [H(seconds) for seconds in (b"", b"-", b"+5", b"05", b"00", b"-0", b"-05", b"--5", b" 5", b"5 ", b"5a", b"0x5", b"5.0", b"5_0",
                                         b"9223372036854775808", b"-9223372036854775809", b"18446744073709551616", b"9" * 19, b"9" * 30,
                                         b"1" + b"0" * 300, b"0" * 20, b"\xd9\xa1", b"now")]
    lines += [H(5, offset=offset) for offset in (b"", b"+", b"-", b"0000", b"+000", b"+00000", b"+0060", b"-0060", b"+0099", b"+1360", b"-000000",
                                                 b"+000000", b"+013000", b"-+0+0", b"+ 100", b"+1 00", b"+01:0", b"+01:00", b"+010a", b"a0100",
                                                 b" 0100", b"+0100 ", b"+0100\r", b"+010\0", b"Z", b"+0100x", b"*0100", b",0100", b".0100")]
    # no newline
    return lines + [good[:-1], good[:-2], b"h", b"\0", b"x", b"\r", good[:-1] + b"\r", good[:-1] + b" \n"]


def changed(line):
    """The line with every byte put at every place, in place of the old one and beside it; with bytes removed and swapped."""
    for place in range(len(line)):
        for byte in range(256):
            if byte != line[place]:
                yield line[:place] + bytes([byte]) + line[place + 1:]
        yield line[:place] + line[place + 1:]
        yield line[:place] + line[place:place + 2][::-1] + line[place + 2:]
    for place in range(len(line) + 1):
        for byte in (0, 9, 10, 13, 32, 43, 45, 48, 57, 97, 102, 126, 127, 128, 255):
            yield line[:place] + bytes([byte]) + line[place:]


def hash_of(path, hashed=0):
    """The hash that the library puts paths into buckets by, from the hash of what is in front."""
    for byte in path:
        hashed = (hashed + byte) * 2654435761 % (1 << 32)
    return hashed


def in_bucket(count, front=b""):
    """Different paths that the library puts into one of its 2,048 buckets: only within a bucket are paths compared."""
    paths = []
    for behind in product(PRINTED, repeat=3):
        hashed = hash_of(bytes(behind), hash_of(front))
        paths += [front + bytes((*behind, byte)) for byte in PRINTED if hash_of((byte,), hashed) >> 21 == 7]
        if len(paths) >= count:
            return paths[:count]


def short_path(number):
    """The path with this number, the shortest ones first: 95 of one byte, then 9,025 of two."""
    return PRINTED[number:number + 1] if number < 95 else bytes((PRINTED[(number - 95) // 95], PRINTED[(number - 95) % 95]))


# ---------------------------------------------------------------------------------------------------------------------------
# Suites of lists.


def telling(random, count):
    """the cases of lists.py, also with the machines changed over"""
    for _, first, second, *_ in CASES + ROOM_CASES:
        yield first, second
        yield second, first


def small(random, count):
    """every two good lists of up to three lines over two paths, two keys and two seconds"""
    lists = list(small_lists(3))
    return product(lists, lists)


def steps(random, count):
    """every two lists of up to three lines over three seconds, good or not, each with one line that is bad or has no newline"""
    lines = [H(seconds) for seconds in (1, 2, 3)]
    lists = [b"".join(chosen) for number in range(4) for chosen in product(lines, repeat=number)]
    for first, second in product(lists, lists):
        yield first, second
    bad = [b"x\n", b"\n", SINCE, H(2)[:-1], b"x"]
    damaged = [b"".join(chosen[:place] + (piece,) + chosen[place:]) for number in range(4) for chosen in product(lines, repeat=number)
               for place in range(number + 1) for piece in bad]
    others = [b"", lines[1], lines[2] + lines[0], lines[0] + b"x\n", lines[0] + lines[1] + lines[0] + b"\n"]
    for text, other in product(damaged, others):
        yield text, other
        yield other, text


def long_steps(random, count):
    """a step back, a bad line or both at each place of a list of 12 lines, in the first list, the second and both"""
    base = [H(10 * place + 10, b"abc"[place % 3:][:1]) for place in range(12)]
    lists = [b"".join(base)]
    for place in range(12):
        for line in (H(10 * place + 9), H(10 * place), H(-5), H(LOWEST), b"x\n", b"\n", SINCE, base[place][:-1]):
            lists.append(b"".join(base[:place + 1] + [line] + base[place + 1:]))
            for other in range(place + 1, 12):
                bad = base[place + 1:other] + [b"x\n"] + base[other:]
                lists.append(b"".join(base[:place + 1] + [line] + bad))
    some = lists[::41]
    for text, other in product(lists, some):
        yield text, other
        yield other, text


def seconds(random, count):
    """every two seconds out of 78, wide ones and negative ones: one in each list, and both in one list; every two offsets beside them"""
    for one, other in product(SECONDS, SECONDS):
        yield H(one, b"a"), H(other, b"b")
        yield H(one, b"a") + H(other, b"a", L), H(other, b"a")
    for one, other in product(OFFSETS, OFFSETS):
        for near in (-1, 0, 1):
            yield H(5, offset=one) + H(5 + near, offset=other), H(5, key=L, offset=other)
            yield H(0, offset=one), H(near, key=L, offset=other)


def settings(random, count):
    """every odd line and every good one alone, behind and in front of good ones, as a last piece, in each list"""
    before, after = H(LOWEST, b"b"), H(HIGHEST, b"b", L)
    for line in odd_lines() + good_lines():
        for text in (line, before + line, line + after, before + line + after, before + line + line, line + before):
            yield text, after
            yield before, text
        yield line, line
        yield before + line, line


def bytes_changed(random, count):
    """every byte put at every place of four lines, in place of the old one and beside it; bytes removed and swapped"""
    before = H(LOWEST, b"z")
    for number, line in enumerate((H(5), H(-1234, b"a/b", L, b"-0000"), H(1745582210, b"ships/cog", M, b"+0530"), H(HIGHEST, b"~", offset=b"-9959"))):
        for place, text in enumerate(changed(line)):
            yield (text, H(7)) if (place + number) % 2 else (H(7), text)
            if place % 4 == 0:
                yield before + text, text


def paths(random, count):
    """paths that are the front, the end or nearly the bytes of one another, with keys that differ in one digit"""
    long = b"x" * 254
    names = [b"a", b"aa", b"aaa", b"b", b"ab", b"ba", b"A", b"a ", b" a", b" ", b"a/b", b"a//b", b"a\\b", K, L, b"5 +0000", b"hull",
             long, long + b"x", long + b"y", b"y" + long, long[:100] + b"y" + long[:154]]
    keys = [K] + [K[:place] + b"%x" % ((K[place] + 1) % 10) + K[place + 1:] for place in (0, 1, 7, 8, 14, 15)]
    for one, other in product(names, names):
        yield H(1, one) + H(2, other), H(1, other, L) + H(2, one, M)
        yield H(1, one) + H(2, other), H(1, one, L)
        yield H(1, one), H(1, other, L)
    for one, other in product(keys, keys):
        yield H(1, key=one), H(2, key=other)
        yield H(1, key=one) + H(1, key=other), H(2, key=other) + H(3, b"b") + H(4, key=one)
    for one, other in product(PRINTED, PRINTED):
        yield H(1, bytes([one])), H(1, bytes([other]), L)


def buckets(random, count):
    """paths that the library's hash puts into one bucket: up to 900 of them, in both lists or in one"""
    for front, most in (b"", 900), (b"x" * 100, 200):
        names = in_bucket(most, front)
        for number in (2, 3, 5, 20, most):
            some = names[:number]
            first, second = b"".join(H(5, path) for path in some), b"".join(H(5, path, L) for path in some)
            half = b"".join(H(5, path, L) for path in some[number // 2:])
            turned = b"".join(H(5, path, L) for path in reversed(some))
            for one, other in product((first, second, half, turned), repeat=2):
                yield one, other


def kept(lines):
    """As many of these lines as a list has room for."""
    text, length = [], 0
    for line in lines:
        if length + len(line) > LONGEST:
            break
        text.append(line)
        length += len(line)
    return b"".join(text)


def widest():
    """The two lists with the longest report: 995 different paths in each, 95 of one byte, 899 of two and one of 30."""
    names = [short_path(number) for number in range(994)] + [b"x" * 30]
    return b"".join(H(5, path) for path in names), b"".join(H(5, path, L) for path in names)


def full_lists():
    """Lists that are nearly or exactly full."""
    names = [short_path(number) for number in range(1100)]
    return [
        FULL, H(5, key=L) * 1024, H(5, b"b") * 1024, H(5) * 1023 + H(6, key=L),
        b"".join(H(place * 10 // 1024, key=L if place % 3 else K) for place in range(1024)),
        kept(H(5, path) for path in names), kept(H(5, path, L) for path in names), kept(H(5, path, L) for path in reversed(names[:990])),
        kept(H(5, path, L if place % 2 else K) for place, path in enumerate(names)),
        kept(H(5, names[place // 2]) for place in range(1024)), kept(H(5, names[place % 500], L) for place in range(1024)),
        kept(H(place, b"ships/harbours-%04d/hull-%04d/cooked.obj" % (place, place)) for place in range(1024)),
        kept(H(place + 1, b"ships/harbours-%04d/hull-%04d/cooked.obj" % (place, place), L) for place in range(1024)),
        kept(H(LOWEST + place, b"x" * 251 + b"%04d" % place, L) for place in range(200)),
        *widest(), H(5) * 1022 + H(5, b"x" * 33), H(5) * 1023 + H(5)[:-1],
    ]


def full(random, count):
    """every two out of 18 full lists: 1,024 shortest lines, one path, all different, the longest report; each also with a byte more"""
    lists = full_lists()
    for first, second in product(lists, lists):
        yield first, second
    for text in lists:
        for longer in (text + b"\n", text + b"x", text + H(5), text[:-1], text[:-1] + b"x"):
            yield longer, H(5)
            yield H(5), longer
            yield longer, longer
            yield longer, text


def lengths(random, count):
    """every two out of texts around 32,768 bytes: good, bad at the first line or the last, a step back, too long"""
    lists = [b"", H(5), b"x\n", H(5) + H(4), FULL, FULL + b"\n", FULL[:-1], FULL[32:] + H(5)[:-1] + b"\n", FULL[32:] + H(4), H(6) + FULL[32:],
             b"x\n" + FULL[2:], b"\n" * LONGEST, b"\n" * (LONGEST + 1), b"x" * LONGEST, b"x" * (LONGEST + 1), FULL + H(4), FULL[64:] + H(5, b"bb"),
             FULL[64:] + H(5, b"b" * 33), FULL[64:] + H(5, b"b" * 34), FULL * 2, FULL * 2 + b"\n", b"\0" * 100000]
    return product(lists, lists)


def random_list(random, names, keys, most):
    """A good list of few paths and keys, with ties, ups of a second and of many."""
    lines, now = [], random.choice((0, 0, 5, -3, -20, 1745582210, random.choice(SECONDS[:-1])))
    for _ in range(random.randrange(most + 1)):
        now = min(now + random.choice((0, 0, 0, 1, 1, 2, 7, 1000, 1 << 40)), HIGHEST)
        lines.append(H(now, random.choice(names), random.choice(keys), random.choice(OFFSETS)))
    return lines


def few_paths(random, count):
    """from the seed: two good lists of up to 12 lines over few paths and keys, with many ties"""
    every = [b"a", b"b", b"c", b"aa", b"ab", b"ships/cog", b" ", b"x" * 255]
    keys = [K, L, M, K[:-1] + b"0"]
    for _ in range(count):
        names = random.sample(every, random.randrange(1, 6))
        yield tuple(b"".join(random_list(random, names, keys[:random.randrange(1, 5)], random.choice((3, 6, 12)))) for _ in range(2))


def damaged(random, count):
    """from the seed: two lists of up to 8 lines, of which one or both have a bad line, lines out of order, or a byte changed"""
    odd = odd_lines()
    for _ in range(count):
        lists = []
        for _ in range(2):
            lines = random_list(random, [b"a", b"b", b"c"], [K, L], 8)
            for _ in range(random.choice((0, 1, 1, 2))):
                place = random.randrange(len(lines) + 1)
                how = random.randrange(5)
                if how == 0:
                    lines.insert(place, random.choice(odd))
                elif how == 1:
                    lines.insert(place, H(random.choice((0, 4, 5, -4)), b"d"))
                elif how == 2:
                    random.shuffle(lines)
                elif how == 3 and lines:
                    line = lines.pop(random.randrange(len(lines)))
                    at = random.randrange(len(line))
                    lines.insert(place, line[:at] + bytes([random.randrange(256)]) + line[at + 1:])
                elif lines:
                    lines[-1] = lines[-1][:-1]
            lists.append(b"".join(lines))
        yield tuple(lists)


def many_lines(random, count):
    """from the seed: two lists of up to 300 lines over up to 200 paths, a tenth of them with a step back"""
    for _ in range(count // 100):
        names = [b"p%d" % number for number in range(random.choice((1, 2, 10, 50, 200)))]
        lists = []
        for _ in range(2):
            lines = random_list(random, names, [K, L, M], 300)
            if lines and random.randrange(10) == 0:
                lines.insert(random.randrange(len(lines) + 1), random.choice(lines))
            lists.append(kept(lines))
        yield tuple(lists)


# ---------------------------------------------------------------------------------------------------------------------------
# Suites of front lines.


def front_texts():
    """Some hundred front lines: empty, good, bad, of two lines, without a newline."""
    good = H(5)
    texts = [b"", *odd_lines()]
    texts += [H(seconds, b"a" * (place % 5 + 1)) for place, seconds in enumerate(SECONDS)]
    texts += [H(seconds, b"b", L, OFFSETS[place % 8]) for place, seconds in enumerate(SECONDS)]
    texts += [H(5, offset=offset) for offset in OFFSETS] + [H(5, key=key) for key in (L, M)] + [H(5, b"x" * 255), H(4, b"x" * 255)]
    texts += [good + good, good + H(4), good + b"\n", b"\n" + good, good + b"x", good + b"x\n", b"x\n" + good, good + good[:-1], good + SINCE,
              SINCE + good, good * 3, FULL, FULL + good, b"\n\n", good[:-1] + b"\n\n", good[:-1] + b"\0\n", good + b"\0", b"\0" + good]
    return texts


def front_cases(random, count):
    """the cases of front lines in lists.py, also with the machines changed over"""
    for _, first, second, _ in FRONT_CASES:
        yield first, second
        yield second, first


def fronts(random, count):
    """every two out of 347 front lines: empty, good, bad, of two lines, without a newline"""
    texts = front_texts()
    return product(texts, texts)


def front_bytes(random, count):
    """every byte put at every place of two front lines, beside an empty, an earlier, a later and a bad one"""
    others = [b"", H(-2000), H(2000), b"x\n"]
    for line in (H(5), H(-1234, b"a/b", L, b"-0000")):
        for place, text in enumerate(changed(line)):
            other = others[place % 4]
            yield (text, other) if place // 4 % 2 else (other, text)


MERGES = {
    "telling": telling, "small": small, "steps": steps, "long-steps": long_steps, "seconds": seconds, "settings": settings,
    "bytes": bytes_changed, "paths": paths, "buckets": buckets, "full": full, "lengths": lengths, "few-paths": few_paths,
    "damaged": damaged, "many-lines": many_lines,
}
FRONTS = {"front-cases": front_cases, "fronts": fronts, "front-bytes": front_bytes}
# in the order in which they are compared: the cases first, so that most planted mistakes are found soon
SUITES = {"telling": telling, "front-cases": front_cases} | FRONTS | MERGES
