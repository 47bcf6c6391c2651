"""The session files that salvage/check tries: sound ones, and such as are broken in every way that a pulled card may break them, or a writer.

What is salvaged of a file is not known here. A file is made of events as bytes, so that broken ones may stand among them.
"""
import os
import struct
import sys
from collections import namedtuple
from glob import glob
from itertools import combinations
from random import Random

ROOT = os.path.dirname(os.path.dirname(os.path.abspath(__file__)))
sys.path.insert(0, os.path.join(ROOT, "tools"))
from session_file import EVENT, NEAREST, SWEEP, TURN, arrival, clock, done, own_turn, session_file, table_bytes  # noqa: E402

from model import EVENT_BYTES, EVENTS_MAX, STREAM_BYTES, STREAMS_MAX, TABLE_AT, TABLE_BYTES, contents  # noqa: E402

# A file, and what is tried by it.
Case = namedtuple("Case", "what data")
COUNT_AT, TAG, PIECE = TABLE_AT + 12, 0x8001_00FF, 65_536
STREAMS = [(25_000, 250_000), (175_000, 500_000)]
EVENTS = [arrival(1, 100, TAG), TURN, done(5_000), own_turn(2, 1), clock(105_000)]
SMALL = session_file(25_000, 1_000_000, 1, STREAMS, EVENTS)
BARE = session_file(0, 0, 0, [], [])
WIDE = session_file(1_000, 1_000_000, 1, [(1_000, 250_000)] * STREAMS_MAX, EVENTS[:2])
SWEPT = session_file(25_000, 1_000_000, 1, STREAMS, EVENTS, SWEEP)
SOUND = [struct.pack(EVENT, *event) for event in EVENTS]
BROKEN = [bytes(16), b"\xff" * 16, b"\6" + bytes(15), b"\2\1" + bytes(14), b"\2" + bytes(14) + b"\1", b"\4\1" + bytes(14), b"\2\0\1" + bytes(13),
          b"\1\1" + bytes(5) + b"\1" + bytes(8)]


def filed(trace, count=0, head=None):
    """A file of these events, with a table of so many streams, and the contents that it would have as it stands, or other ones."""
    table = table_bytes(25_000, 1_000_000, 1, [(25_000, 250_000)] * count)
    return (contents(count, len(trace) // EVENT_BYTES) if head is None else head) + table + trace


def put(data, at, new, over=None):
    """With other bytes at that place, over as many or over so many."""
    return data[:at] + new + data[at + (len(new) if over is None else over):]


# ---- small files, damaged at every place


def changed_bytes(data, values):
    """Each byte of a file in turn by each of these values."""
    for at, byte in enumerate(data):
        for value in sorted({new(at, byte) for new in values} - {byte}):
            yield Case(f"byte {at} of {len(data)} is {value}", put(data, at, bytes([value])))


VALUES = (lambda _, __: 0, lambda _, __: 255, lambda at, byte: byte ^ 1 << at % 8, lambda _, byte: (byte + 1) % 256)


def cut_files(data):
    for length in range(len(data)):
        yield Case(f"{length} of {len(data)} bytes", data[:length])
        yield Case(f"{length} bytes gone at the front", data[length:])


def inserted(chance):
    """Garbage in the middle, in whole events and in odd lengths, and as much taken away."""
    for at in range(0, len(SMALL) + 1, 4):
        for length in (1, 8, 15, 16, 17, 32):
            garbage = chance.choice((bytes(length), b"\xff" * length, chance.randbytes(length), (SOUND[0] * 3)[:length]))
            if (at // 4 + length) % 3 == 0:
                yield Case(f"{length} bytes of garbage at {at}", put(SMALL, at, garbage, 0))
                yield Case(f"{length} bytes gone at {at}", put(SMALL, at, b"", length))
    for length in range(1, 34):
        yield Case(f"{length} zeros behind the end", SMALL + bytes(length))
        yield Case(f"{length} bytes of events behind the end", SMALL + (SOUND[1] + SOUND[0] + SOUND[2])[:length])


def shuffled(chance):
    """Events doubled, taken away and in another order, and broken ones at each place and at two."""
    for at in range(len(SOUND)):
        yield Case(f"event {at} doubled", filed(b"".join(SOUND[:at + 1] + SOUND[at:]), 2))
        yield Case(f"event {at} doubled, and the contents of before", filed(b"".join(SOUND[:at + 1] + SOUND[at:]), 2, SMALL[:TABLE_AT]))
        yield Case(f"event {at} gone, and the contents of before", filed(b"".join(SOUND[:at] + SOUND[at + 1:]), 2, SMALL[:TABLE_AT]))
    for one, other in combinations(range(len(SOUND)), 2):
        events = list(SOUND)
        events[one], events[other] = events[other], events[one]
        yield Case(f"events {one} and {other} swapped", filed(b"".join(events), 2))
        events[one] = events[other] = chance.choice(BROKEN)
        yield Case(f"events {one} and {other} broken", filed(b"".join(events), 2))


# ---- contents


def wrong_contents():
    """The contents of other files, or such as say nothing; and such as are right by accident, once something is dropped or cut."""
    trace, rest = b"".join(SOUND), SMALL[TABLE_AT:]
    heads = {"all zero": bytes(TABLE_AT), "all 255": b"\xff" * TABLE_AT, "of an event more": contents(2, 6), "of an event less": contents(2, 4),
             "of a stream more": contents(3, 5), "of a stream less": contents(1, 5), "of no event": contents(2, 0), "of 4,001 events": contents(2, 4_001),
             "with swapped entries": SMALL[:2] + SMALL[14:26] + SMALL[2:14], "with entry one twice": SMALL[:2] + SMALL[2:14] * 2,
             "with entry two twice": SMALL[:2] + SMALL[14:26] * 2, "of three entries": SWEPT[:TABLE_AT], "of three entries, as two": b"\2\0" + SWEPT[2:TABLE_AT],
             "with the highest byte first": struct.pack(">HIIIIII", *struct.unpack("<HIIIIII", SMALL[:TABLE_AT])), "of the words of a page": b"a page of something else.."}
    for what, head in heads.items():
        yield Case(f"contents {what}", head + rest)
        yield Case(f"contents {what}, and a broken event", head + put(rest, 64, b"\7"))
    for field in range(2, TABLE_AT, 4):
        (number,) = struct.unpack_from("<I", SMALL, field)
        for other in (0, number - 1, number + 16, number + 2**16, 2**32 - 1):
            yield Case(f"the number at {field} is {other}", put(SMALL, field, struct.pack("<I", other)))
    for broken in BROKEN:
        yield Case("contents that come right by a drop", filed(broken + trace, 2, contents(2, 5)))
        yield Case("contents that a drop makes wrong", filed(trace + broken, 2))
        yield Case("contents that come right by a drop and a cut", filed(trace[:32] + broken + trace[32:] + trace[:9], 2, contents(2, 5)))
    for torn in (1, 8, 15):
        yield Case("contents that come right by a cut", filed(trace + trace[:torn], 2, contents(2, 5)))
        yield Case("contents with the torn bytes in the length", filed(trace + trace[:torn], 2, put(contents(2, 5), 22, bytes([80 + torn]))))


def first_bytes():
    """The first two bytes say 3, or not, of a file that has two entries and of one that has three; of this W is then the count."""
    numbers = (0, 1, 2, 3, 4, 255, 256, 258, 259, 512, 768, 770, 771, 0x0303, 0x8003, 0xFFFF)
    for number in numbers:
        told = struct.pack("<H", number)
        yield Case(f"{number} first, of two entries", told + SMALL[2:])
        yield Case(f"{number} first, of two entries, and a broken event", told + put(SMALL, 58, b"\0")[2:])
        yield Case(f"{number} first, of two bytes", told)
        yield Case(f"{number} first, of 42 bytes", told + bytes(40))
        for worst in (0, 3, 8, 9):
            data = session_file(worst, 1_000_000, 1, STREAMS, EVENTS * 2, NEAREST)
            yield Case(f"{number} first, of three entries, and W {worst}", told + data[2:])


# ---- tables


def counts():
    """Counts within their range and past it, in 8 bits and in others, with as many streams and more bytes behind, and tables cut short by a byte or more."""
    behind = b"".join(SOUND) * 3
    for count in (*range(11), 16, 127, 128, 255, 256, 257, 264, 2**16, 2**16 + 1, 2**24, 2**24 + 1, 2**29, 2**29 + 1, 2**31, 2**32 - 1):
        for what, head in (("contents of its own", contents(min(count, 8), 1)), ("contents of two streams", contents(2, 5))):
            yield Case(f"count {count}, {what}", put(filed(behind, 0, head), COUNT_AT, struct.pack("<I", count)))
    for count in range(STREAMS_MAX + 1):
        whole = filed(SOUND[0] + SOUND[1], count)
        end = len(whole) - 2 * EVENT_BYTES
        for length in (end - 8, end - 1, end, end + 1, end + 15, end + 16, end + 17):
            yield Case(f"count {count}, {length} bytes", whole[:length])
            yield Case(f"count {count}, {length} bytes, and contents of so many", put(whole[:length], 0, contents(count, max(0, length - end) // EVENT_BYTES)[:length]))
    for length in (0, 1, 2, 3, 25, 26, 27, 41, 42, 43, 49, 50, 57, 58, 59):
        yield Case(f"{length} zeros", bytes(length))
        yield Case(f"{length} bytes of 255", b"\xff" * length)
    for words in ((0, 0, 0), (2**32 - 1,) * 3, (1, 2, 4), (25_000, 1_000_000, 1)):
        yield Case(f"a table of {words}, and of streams of 0", put(session_file(*words, [(0, 0), (2**32 - 1, 7)], EVENTS), 70, b"\0"))


# ---- events


def odd_events():
    """Every kind with every byte set in turn, in one file of each kind; every kind with all else 0; and tags of every byte."""
    for kind in (*range(8), 255):
        events = [put(bytes([kind]) + bytes(15), at, bytes([byte])) for at in range(1, EVENT_BYTES) for byte in (1, 128)]
        yield Case(f"kind {kind} with each byte set", filed(b"".join(events), 1))
        yield Case(f"kind {kind} with all bytes set", filed(bytes([kind]) + b"\xff" * 15, 1))
        yield Case(f"kind {kind} with a tag alone", filed(bytes([kind, 0]) + b"\xff" * 4 + bytes(10), 1))
        yield Case(f"kind {kind} with a stream alone", filed(bytes([kind, 9]) + bytes(14), 1))
        yield Case(f"kind {kind} with a value alone", filed(bytes([kind]) + bytes(7) + b"\xff" * 8, 1))
    yield Case("every kind with all else 0", filed(b"".join(bytes([kind]) + bytes(15) for kind in range(256)), 3))
    yield Case("every kind as an arrival", filed(b"".join(bytes([kind]) + SOUND[0][1:] for kind in range(256)), 3))


def many_events():
    """As many sound events as a file may have, one more and one less, and many more; with broken ones first, last, between and every other, and a torn rest."""
    for number in (EVENTS_MAX - 1, EVENTS_MAX, EVENTS_MAX + 1, EVENTS_MAX + 100):
        sound = [SOUND[i % 5] for i in range(number)]
        last = sound[:EVENTS_MAX] + [BROKEN[1]] + sound[EVENTS_MAX:]
        mixed = {"alone": sound, "a broken one first": [BROKEN[0], *sound], "a broken one behind the 4,000th": last, "a broken one last": [*sound, BROKEN[2]],
                 "every other broken": [event for i, good in enumerate(sound) for event in (BROKEN[i % 8], good)],
                 "the last two broken": [*sound[:-2], BROKEN[3], BROKEN[4]]}
        for what, events in mixed.items():
            trace = b"".join(events)
            yield Case(f"{number} sound events, {what}", filed(trace, 1))
            yield Case(f"{number} sound events, {what}, and a torn rest", filed(trace + SOUND[0][:15], 8, contents(8, min(number, EVENTS_MAX))))
    for broken in range(93, 98):
        yield Case(f"{broken} broken events first, so that the 4,000th sound one ends a piece or starts one", filed(BROKEN[6] * broken + b"".join(SOUND) * 801, 1))
    yield Case("4,001 events in the contents, and 4,000 sound ones", filed(SOUND[1] * 4_000 + BROKEN[0], 0, contents(0, 4_001)))


# ---- long files


def at_bounds(length, bounds, usual, other):
    """A trace of so many bytes, of one kind of events, and of the other kind on either side of each of these places."""
    trace = bytearray(b"".join(usual[i % len(usual)] for i in range(length // EVENT_BYTES + 1))[:length])
    for turn, bound in enumerate(bounds):
        first = bound // EVENT_BYTES * EVENT_BYTES
        for at in (first - EVENT_BYTES, first):
            if 0 <= at <= length - EVENT_BYTES:
                trace[at:at + EVENT_BYTES] = other[turn % len(other)]
    return bytes(trace)


def long_files():
    """Files of one piece, two and three, counted from the start of the file, from behind the contents and from the trace, and a little less and more."""
    for pieces, count in ((1, 0), (1, 1), (2, 2), (3, 8)):
        start = TABLE_AT + TABLE_BYTES + STREAM_BYTES * count
        for more in (-17, -16, -15, -1, 0, 1, 15, 16, 17):
            for first in (0, TABLE_AT, start):
                length = first + PIECE * pieces + more - start
                bounds = [PIECE * piece + origin - start for piece in range(1, pieces + 1) for origin in (0, TABLE_AT, start)]
                usual, other = (SOUND, BROKEN) if pieces == 1 and more % 2 else (BROKEN, SOUND)
                if first != TABLE_AT or more in (-1, 0, 1):
                    yield Case(f"{pieces} pieces from {first} and {more} bytes, count {count}", filed(at_bounds(length, bounds, usual, other), count))


def longest_files(chance):
    """Files of megabytes: zeros; broken events with sound ones behind them; any events; and one sound event in many."""
    yield Case("two megabytes of zeros", bytes(2_000_003))
    yield Case("sound events behind a megabyte of broken ones", filed(BROKEN[5] * 2**16 + b"".join(SOUND) * 1_000 + SOUND[0][:7], 3))
    any_bytes = b"".join(bytes([chance.randrange(7), 0]) + bytes(6) + chance.randbytes(8) for _ in range(30_000))
    yield Case("any kinds with any values", filed(any_bytes, 5))
    seldom = b"".join(chance.choice(SOUND) if chance.random() < 0.1 else chance.choice(BROKEN) for _ in range(50_000))
    yield Case("one event of ten sound", filed(seldom, 8, contents(8, EVENTS_MAX)))


# ---- mixtures


def any_event(chance):
    """A sound event with any bytes where any may stand, at their ends too."""
    value = struct.pack("<Q", chance.choice((0, 1, 100, 25_000, 2**32, 2**64 - 1, chance.getrandbits(64))))
    stream, tag = bytes([chance.randrange(10)]), struct.pack("<I", chance.choice((0, 1, 2**16, 2**31, 2**32 - 1, chance.getrandbits(32))))
    return chance.choice((b"\1" + stream + tag + bytes(2) + value, b"\2" + bytes(15), b"\3" + stream + bytes(6) + value, b"\4" + bytes(7) + value, b"\5" + bytes(7) + value))


def any_file(chance):
    """A sound file of any table and any events."""
    streams = [(chance.getrandbits(32), chance.getrandbits(32)) for _ in range(chance.randrange(STREAMS_MAX + 1))]
    number = chance.choice((0, 1, 2, 5, 5, 20, 20, 60)) if chance.random() < 0.95 else chance.randint(3_990, 4_010)
    trace = b"".join(any_event(chance) for _ in range(number))
    return contents(len(streams), number) + table_bytes(chance.getrandbits(32), chance.getrandbits(32), chance.randrange(5), streams) + trace


def byte_changed(data, chance):
    return put(data, chance.randrange(len(data)), chance.randbytes(1))


def bit_flipped(data, chance):
    at = chance.randrange(len(data))
    return put(data, at, bytes([data[at] ^ 1 << chance.randrange(8)]))


def end_torn(data, chance):
    return data[:chance.randrange(len(data) // 2, len(data) + 1)]


def bytes_put(data, chance):
    length = chance.choice((1, 2, 7, 8, 15, 16, 16, 32, 48))
    return put(data, chance.randrange(len(data) + 1), chance.choice((bytes(length), chance.randbytes(length))), chance.choice((0, 0, length)))


def bytes_gone(data, chance):
    return put(data, chance.randrange(len(data)), b"", chance.choice((1, 2, 8, 15, 16, 16, 32)))


def page_gone(data, chance):
    """A page of the card, erased."""
    at = chance.randrange(len(data) // 64 + 1) * 64
    return put(data, at, chance.choice((b"\0", b"\xff")) * min(64, len(data) - at))


def contents_damaged(data, chance):
    head = chance.choice((contents(chance.randrange(9), chance.randrange(64)), chance.randbytes(TABLE_AT), put(data, chance.choice((10, 22)), chance.randbytes(1))))
    return put(data, 0, head[:TABLE_AT][:len(data)])


def event_put(data, chance):
    """An event, sound or broken, at a place where one starts in the file as it was."""
    place = len(data) - EVENT_BYTES * chance.randrange(max(len(data) - 106, 0) // EVENT_BYTES + 1)
    return put(data, place, chance.choice((any_event(chance), chance.choice(BROKEN))), 0)


def count_changed(data, chance):
    return put(data, COUNT_AT, chance.choice((b"\0", b"\1", b"\2", b"\7", b"\x08", b"\x09")))


HARMS = (byte_changed, bit_flipped, bit_flipped, end_torn, bytes_put, bytes_gone, page_gone, contents_damaged, event_put, event_put, event_put, count_changed)


def mixture(index, seed):
    """A file that follows from the seed and its index: a sound one with up to four harms."""
    chance = Random(f"{seed} {index}")
    data = any_file(chance)
    for _ in range(chance.choice((0, 1, 1, 2, 2, 3, 4))):
        data = chance.choice(HARMS)(data, chance) or BARE
    return Case(f"mixture {index} of seed {seed}", data)


# ---- all of them


def examples():
    for path in sorted(glob(os.path.join(ROOT, "examples", "**", "*.session"), recursive=True)):
        with open(path, "rb") as file:
            yield Case(os.path.relpath(path, ROOT), file.read())


def crafted_cases():
    """The cases that are the same in every run."""
    chance = Random("salvage")
    yield from examples()
    yield from (Case("sound", data) for data in (SMALL, BARE, WIDE))
    for data, values in ((SMALL, VALUES), (BARE, VALUES), (WIDE, VALUES[2:3])):
        yield from changed_bytes(data, values)
        yield from cut_files(data)
    for made in (inserted(chance), shuffled(chance), wrong_contents(), first_bytes(), counts(), odd_events(), many_events(), long_files(), longest_files(chance)):
        yield from made


def all_cases(count, seed):
    """Each file once."""
    made = {case.data: case for case in (*crafted_cases(), *(mixture(index, seed) for index in range(count)))}
    return list(made.values())
