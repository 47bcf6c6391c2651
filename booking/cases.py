"""The files of bookings that booking/check tries.

A file is made as lines, each a word and its numbers, and then written down by lines.py. What is to be said of it is not known here: the maker only keeps
a table of model.py at hand, to find the edges of the limits and of the load.
"""
from collections import namedtuple
from functools import lru_cache
from random import Random

from lines import damaged, plain, tidy, untidy, wrong_lines
from model import BYTES_MAX, PERIODS, SPANS, STREAMS_MAX, WORSTS, Table, padding_meant

# A file, and what is tried by it.
Case = namedtuple("Case", "what data")
ENDLESS, WORD = 2**64 - 1, 2**32
# Desks that are none, among them such as are 1 or 2 in 8 or 32 bits.
ODD_DESKS = (0, 3, ENDLESS, WORD + 1, WORD + 2, 257, 2**63 + 1)
ROUND_SPANS = (1_000, 2_000, 6_000, 20_000, 60_000, 1_000_000, 5_040_000, 60_000_000, 360_360_000, 599_997_000, SPANS[-1])


# ---- tables, and bookings that come to their edges


@lru_cache(maxsize=None)
def divisors(span):
    small = [n for n in range(1, int(span**0.5) + 1) if span % n == 0]
    return sorted({*small, *(span // n for n in small)})


def table_numbers(chance):
    """W, H and k of a table, and the periods of its streams; room is left for one stream at least."""
    span = chance.choice((*ROUND_SPANS, 1_000 * chance.randint(1, SPANS[-1] // 1_000), chance.randint(PERIODS[0], PERIODS[-1])))
    fitting = [period for period in divisors(span) if period in PERIODS]
    periods = chance.sample(fitting, min(len(fitting), chance.choice((1, 1, 2, 2, 3, 8))))
    padding = chance.choice((0, 1, 2, 3))
    most = min(WORSTS[-1], (min(periods) - 1) // (padding_meant(padding) + 1))
    worst = chance.choice((1, most, chance.randint(1, most), chance.randint(1, max(1, most // 10)), chance.randint(1, max(1, most // 100))))
    return (worst, span, padding), periods


def most_reserved(table, room, period):
    """The largest reserved time whose share of the load is within so much room; below 1 where there is none."""
    return room // (table.span // period) - table.granted(0)


def edges_of_reserved(table, desk, period):
    """Reserved times at the edges of the load, of the desk's limit and of the period."""
    load = table.sum(table.all()) + table.worst * (table.span // min([period, *(p for _, p in table.all())]))
    own = table.limits[desk] - table.sum(table.streams[desk])
    return [most_reserved(table, room, period) for room in (table.span - load, own) if room < ENDLESS // 2] + [period - table.granted(0)]


def added(table, periods, chance):
    """An add of a stream: a small one, a part of what is left, or one at an edge or just past it."""
    desk, period = chance.choice((1, 2)), chance.choice(periods)
    edge = chance.choice(edges_of_reserved(table, desk, period))
    reserved = chance.choice((1, edge, edge + 1, edge // chance.randint(2, 9), chance.randint(1, max(1, edge))))
    return [b"add", desk, min(max(reserved, 1), WORD - 1), period]


def odd_periods(table, chance):
    """Periods that are out of range, among them one that divides H, or that most often do not divide it."""
    outside = [period for period in divisors(table.span) if period not in PERIODS]
    return (0, PERIODS[0] - 1, PERIODS[-1] + 1, WORD - 1, chance.choice(outside), chance.choice(PERIODS), table.span + 1)


def faulty(table, periods, chance):
    """An add with up to three faults: of its desk, of its period and of its reserved time."""
    _, desk, reserved, period = added(table, periods, chance)
    odd = [chance.random() < 0.5 for _ in range(3)]
    if odd[0]:
        desk = chance.choice(ODD_DESKS)
    if odd[1]:
        period = chance.choice(odd_periods(table, chance))
    if odd[2]:
        padded = table.granted(0)
        reserved = chance.choice((0, WORD - 1, max(period - padded, -1) + 1, WORD - padded + chance.randint(0, padded - 1), max(period, 1)))
    return [b"add", desk, min(reserved, WORD - 1), period]


def withdrawn(table, _, chance):
    """A withdrawal of a desk's first stream, its last, or one between; or of a number that it has not, or of a desk that is none."""
    desk = chance.choice((1, 2))
    count, other = len(table.streams[desk]), len(table.streams[3 - desk])
    if chance.random() < 0.6:
        return [b"withdraw", desk, chance.choice((1, max(count, 1), chance.randint(1, max(count, 1))))]
    number = chance.choice((0, count + 1, other, ENDLESS, WORD + 1, WORD + max(count, 1), 257, 1))
    return [b"withdraw", chance.choice((desk, desk, desk, *ODD_DESKS)), number]


def bookings(table, periods, steps, chance):
    """So many bookings; the table takes up those that are accepted."""
    for _ in range(steps):
        booking = chance.choices((added, faulty, withdrawn), (6, 2, 2))[0](table, periods, chance)
        table.book(*booking)
        yield booking


def crowd(table, periods, steps, chance):
    """Streams that are small enough for a full table, and bookings at a full one: more streams, faulty ones, and withdrawals that make room again."""
    for _ in range(steps + STREAMS_MAX):
        booking = [b"add", chance.choice((1, 2)), chance.choice((1, 1, 2)), chance.choice(periods)]
        if len(table.all()) == STREAMS_MAX:
            booking = chance.choice((booking, faulty(table, periods, chance), withdrawn(table, periods, chance)))
        table.book(*booking)
        yield booking


def limits_by_chance(span, chance):
    """A limit for each desk: none at all, nothing, H or a part of it, or one above 32 bits of which the low bits are within H."""
    return [chance.choice((0, span, span, span // 2, chance.randint(0, span), WORD + chance.randint(0, span), ENDLESS, ENDLESS)) for _ in range(2)]


def limits_of_sums(numbers, lines, chance):
    """For each desk a limit at the edge of what its streams come to at some time, where no limit refused any."""
    table, sums = Table(*numbers, ENDLESS, ENDLESS), {1: [0], 2: [0]}
    for booking in lines:
        table.book(*booking)
        for desk, streams in table.streams.items():
            sums[desk].append(table.sum(streams))
    each = []
    for desk in (1, 2):
        sum_then = chance.choice((max(sums[desk]), max(sums[desk]), chance.choice(sums[desk]), max(sums[3 - desk])))
        each.append(max(0, sum_then + chance.choice((0, 0, 0, -1, -1, 1, chance.randint(0, numbers[1])))))
    return each


def made_lines(chance):
    """A table that is begun, and bookings: with limits that are drawn first, or that are drawn from what comes of it without any."""
    numbers, periods = table_numbers(chance)
    steps, how = chance.choice((2, 4, 8, 16, 16, 40)), chance.choice((bookings, bookings, crowd))
    if how is crowd:
        numbers = (min(numbers[0], max(1, min(periods) // 40)), *numbers[1:])
    if chance.random() < 0.4:
        limits = limits_by_chance(numbers[1], chance)
        lines = list(how(Table(*numbers, *limits), periods, steps, chance))
    else:
        lines = list(how(Table(*numbers, ENDLESS, ENDLESS), periods, steps, chance))
        limits = limits_of_sums(numbers, lines, chance)
    return [[b"begin", *numbers, *limits], *lines]


def refused_beginning(lines, chance):
    """The same with one to three of W, H and k out of range."""
    odd = [(0, WORSTS[-1] + 1, WORD - 1), (0, SPANS[0] - 1, SPANS[-1] + 1, WORD - 1), (4, 5, WORD - 1)]
    word, *numbers = lines[0]
    for at in chance.sample(range(3), chance.choice((1, 1, 2, 3))):
        numbers[at] = chance.choice(odd[at])
    return [[word, *numbers], *lines[1:]]


# ---- files with wrong lines


# Of the ways in which a number is wrong each number has every fifth.
TURNS = 5
SHORT = [[b"begin", 25_000, 1_000_000, 1, 400_000, 600_000], [b"add", 1, 25_000, 250_000], [b"add", 2, 175_000, 500_000], [b"withdraw", 1, 1]]


def wrong_cases():
    """Each line of a short file wrong in each way; a number in each way by turns, and just too large wherever it stands."""
    for at, fields in enumerate(SHORT):
        for turn, (what, text) in enumerate(wrong_lines(fields).items()):
            if " in number " not in what or what.startswith("just") or (turn + at) % TURNS == 0:
                yield Case(f"line {at + 1} of {len(SHORT)}: {what}", b"\n".join(text if i == at else plain(other) for i, other in enumerate(SHORT)))


def wrong_by_chance(lines, chance):
    """A file with a wrong line, or two; every now and then it is a booking before the beginning, or another beginning."""
    texts = [plain(fields) for fields in lines]
    for _ in range(chance.choice((1, 1, 2))):
        at = chance.choice((0, len(lines) - 1, chance.randrange(len(lines))))
        texts[at] = chance.choice(list(wrong_lines(lines[at]).values()) + [plain(lines[0]) if at else b"add 1 1 1000"] * 8)
    return b"\n".join(texts) + chance.choice((b"\n", b""))


# ---- files that chance would hardly make


TABLE = "begin 25000 1000000 {} 18446744073709551615 18446744073709551615"
# W 100, H 20,000, k 1: either stream of desk 2 makes one load, and not the same smallest period.
ONE_LOAD = "begin 100 20000 1 20000 20000; add 2 {}; add 1 7800 10000; add 1 1 20000"
CRAFTED = {
    "document 01's streams alone, padding 1": TABLE.format(1) + "; add 1 950001 1000000; add 1 975000 1000000; add 1 975001 1000000; add 1 950000 1000000; add 2 1 1000000",
    "document 01's streams alone, padding 3": TABLE.format(3) + "; add 2 900001 1000000; add 2 900000 1000000; withdraw 2 1; add 1 925000 1000000; add 1 925001 1000000",
    "a padding of 0 is one of 3": TABLE.format(0) + "; add 2 900001 1000000; add 2 900000 1000000; withdraw 2 1; add 1 925000 1000000; add 1 925001 1000000",
    "a padding of 2": TABLE.format(2) + "; add 2 925001 1000000; add 2 925000 1000000",
    "a load of H by eight streams": "begin 100 20000 1 20000 20000; add 1 9380 10000" + "; add 2 20 20000" * 7 + "; add 2 20 20000; withdraw 1 1; add 1 9381 10000; add 1 9380 10000",
    "eight streams of one desk": "begin 100 20000 1 20000 20000" + "; add 2 20 20000" * 9 + "; add 1 20 20000; withdraw 1 1" + "; withdraw 2 1" * 9,
    "one load with a period of 10,000": ONE_LOAD.format("1900 10000"),
    "one load with a period of 20,000": ONE_LOAD.format("4000 20000"),
    "the other desk's period, left alone": "begin 100 20000 1 20000 20000; add 2 100 10000; add 1 100 5000; add 1 18601 20000; withdraw 1 1; add 1 18601 20000; add 1 18600 20000; add 1 18600 20000",
    "limits that together come to more than H": "begin 100 20000 1 15000 15000; add 1 14900 20000; add 2 14900 20000; add 2 4700 20000; add 2 1 20000",
    "the first desk takes what the other would have had": "begin 100 20000 1 20000 20000; add 1 19800 20000; add 2 1 20000; withdraw 1 1; add 2 19800 20000; add 1 1 20000",
    "the limit and H passed at once": "begin 100 20000 1 1000 20000; add 1 19000 20000; add 2 19801 20000; add 1 901 20000; add 1 900 20000",
    "limits of 0": "begin 100 20000 1 0 0; add 1 1 20000; add 2 1 20000; add 1 0 20000; withdraw 1 1",
    "limits of one microsecond less, and of just so much": "begin 100 20000 1 599 600; add 1 500 20000; add 2 500 20000; add 1 499 20000; add 2 1 20000",
    "limits above 32 bits": "begin 100 20000 1 4294967296 4294967297; add 1 500 20000; add 2 500 20000",
    "the largest numbers": "begin 4294967295 4294967295 4294967295 18446744073709551615 18446744073709551615; add 18446744073709551615 4294967295 4294967295; withdraw 18446744073709551615 18446744073709551615",
    "the largest table": "begin 1000000 600000000 3 18446744073709551615 18446744073709551615; add 1 56000000 60000000; add 2 1 60000000; add 2 1 1000; add 1 57000001 60000000",
    "the smallest table": "begin 1 1000 0 1000 1000; add 1 1 1000; add 2 1 1000; add 1 997 1000; add 1 998 1000; add 1 1 999; add 1 1 500",
    "the same stream six times": "begin 1 60000 1 60000 60000" + "; add 1 9 1000" * 3 + "; add 2 9 1000" * 3 + "; withdraw 1 2; withdraw 2 1; withdraw 1 3; withdraw 1 2; withdraw 1 1; withdraw 1 1",
    "withdrawn from the front, from behind and between": "begin 1 60000 1 60000 60000" + "".join(f"; add {1 + n % 2} {n + 1} {p}" for n, p in enumerate((1000, 2000, 3000, 4000, 5000, 6000, 10000, 12000)))
    + "; withdraw 1 2; withdraw 2 4; withdraw 1 1; withdraw 2 2; add 1 20 15000; withdraw 1 3; add 2 30 20000; withdraw 1 4",
    "as many withdrawn as booked": "begin 25000 1000000 1 400000 600000; add 1 25000 250000; add 2 25000 250000; withdraw 2 1; withdraw 1 1",
    "no booking": "begin 25000 1000000 1 400000 600000",
    "a beginning refused, and nothing else": "begin 0 1000000 1 400000 600000",
    "a beginning refused by each number": "begin 1000001 999 4 0 0; add 0 0 0; withdraw 3 0; add 1 1 1000",
    "a beginning refused by H and k": "begin 1000000 600000001 4 0 0; add 1 1 1000; withdraw 1 1",
    "begun twice": "begin 25000 1000000 1 400000 600000; begin 25000 1000000 1 400000 600000",
    "begun again after a refused beginning": "begin 0 1000000 1 400000 600000; begin 25000 1000000 1 400000 600000; add 1 25000 250000",
    "begun last": "add 1 25000 250000; begin 25000 1000000 1 400000 600000",
    "never begun": "withdraw 1 1; add 1 25000 250000",
    "two wrong lines": "begin 25000 1000000 1 400000 600000; add 1 25000; add 1 25000 250000 1",
}
# Files with nothing on any line.
BLANK = {"no byte": b"", "a newline": b"\n", "newlines": b"\n\n\n", "a carriage return": b"\r", "carriage returns": b"\r\n\r\n", "a comment": b"# begin 25000 1000000 1 400000 600000",
         "spaces and tabs": b"  \t\n\t", "comments": b"#\n  # a\r\n#\r\r\n#\0"}


def long_file(size, start, more, end=b""):
    """A file of so many bytes, by as many repeats of some bytes between two others as it takes."""
    room = size - len(start) - len(end)
    return start + more * (room // len(more)) + b"#" * (room % len(more)) + end


def long_files(size):
    """Files of so many bytes."""
    short = tidy(SHORT)
    return {"a comment": long_file(size, short, b"#"), "blank lines": long_file(size, short, b"\n"), "spaces": long_file(size, short, b" "),
            "spaces before the first word": long_file(size, b"", b" ", short), "zeros": long_file(size, short + b"add 1 ", b"0", b"1 500000"),
            "bookings": long_file(size, short, b"add 1 1 500000\nwithdraw 1 1\nadd 2 1 500000\nwithdraw 2 2\n"), "lines of comments": long_file(size, short, b"# add\r\n"),
            "a wrong line first": long_file(size, b"x\n" + short, b"#"), "a wrong line last": long_file(size, short, b"\n", b"x\n"), "a comment alone": long_file(size, b"", b"#")}


def crafted_cases():
    for what, text in CRAFTED.items():
        yield Case(what, text.replace("; ", "\n").encode() + b"\n")
    for what, data in BLANK.items():
        yield Case(what, data)
    for size in (BYTES_MAX, BYTES_MAX + 1, 4 * BYTES_MAX):
        for what, data in long_files(size).items():
            yield Case(f"{size} bytes: {what}", data)
    yield from wrong_cases()


# ---- all of them


def made_case(index, seed, chance):
    """A made-up file: of ten one has its beginning refused, one has a wrong line or two, one is damaged, and the others are right, on the average."""
    lines = made_lines(chance)
    how = chance.random()
    if how < 0.1:
        lines = refused_beginning(lines, chance)
    text = tidy(lines) if chance.random() < 0.3 else untidy(lines, chance)
    if 0.1 <= how < 0.2:
        text = wrong_by_chance(lines, chance)
    elif 0.2 <= how < 0.3:
        text = damaged(text, chance)
    return Case(f"file {index} of seed {seed}", text)


def all_cases(count, seed):
    """Crafted files, and so many made-up ones of the seed; each follows from the seed and its index."""
    return [*crafted_cases(), *(made_case(index, seed, Random(f"{seed} {index}")) for index in range(count))]
