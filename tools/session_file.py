"""Events and session files as docs/FORMAT.md lays them out, and what a padding stands for, for the project's scripts."""
import struct
from collections import namedtuple

# An event; its tag is an arrival's, and 0 in every other.
Event = namedtuple("Event", "kind stream tag value")
EVENT = "<BBI2xQ"
TURN = Event(2, 0, 0, 0)
# What a padding of 0 stands for.
PADDING_DEFAULT = 3
# The orders by their numbers. A file that tells its order has a third entry, whose body is the last: four bytes.
NEAREST, SWEEP = 0, 1
ORDER_WORDS = {NEAREST: "nearest first", SWEEP: "sweep"}
ENTRIES_TOLD, ORDER_BYTES = 3, 4


def arrival(stream, place, tag=0):
    return Event(1, stream, tag, place)


def own_turn(stream, index):
    return Event(3, stream, 0, index)


def done(duration):
    return Event(4, 0, 0, duration)


def clock(time):
    return Event(5, 0, 0, time)


def padding_meant(k):
    """The padding that a table's k stands for."""
    return k or PADDING_DEFAULT


def table_start(entries):
    """Where the first body starts: after the last entry."""
    return 2 + 12 * entries


def table_bytes(worst, span, padding, streams):
    """The bytes of a table, whose streams are pairs of e and p: the first body of a file."""
    return struct.pack("<IIII", worst, span, padding, len(streams)) + b"".join(struct.pack("<II", *stream) for stream in streams)


def session_file(worst, span, padding, streams, events, order=None):
    """The bytes of a table and a trace; and, if it is given, of an order, which takes a third entry."""
    table = table_bytes(worst, span, padding, streams)
    trace = b"".join(struct.pack(EVENT, *event) for event in events)
    bodies = [table, trace] + ([] if order is None else [struct.pack("<I", order)])
    contents, at = struct.pack("<H", len(bodies)), table_start(len(bodies))
    for kind, body in enumerate(bodies, 1):
        contents += struct.pack("<III", kind, at, len(body))
        at += len(body)
    return contents + b"".join(bodies)


def bounds(data):
    """Where the table of a file starts and where its trace ends, by its first two bytes alone."""
    told = data[:2] == struct.pack("<H", ENTRIES_TOLD)
    return (table_start(ENTRIES_TOLD), len(data) - ORDER_BYTES) if told else (table_start(2), len(data))


def order_told(data):
    """The number of the order that a file tells which a reader accepts; None where it has two entries, which means nearest."""
    _, end = bounds(data)
    return struct.unpack_from("<I", data, end)[0] if end < len(data) else None


def parts(data):
    """The table's numbers W, H and k, its pairs of e and p, and the events of a file that a reader accepts."""
    start, end = bounds(data)
    worst, span, padding, count = struct.unpack_from("<4I", data, start)
    streams = [struct.unpack_from("<2I", data, start + 16 + 8 * i) for i in range(count)]
    events = [Event(*struct.unpack_from(EVENT, data, at)) for at in range(start + 16 + 8 * count, end, 16)]
    return (worst, span, padding), streams, events
