"""What is salvaged of a session file, by document 02's Request 11, once more in Python and without any program."""
import re
import struct
from collections import namedtuple

TABLE_AT, TABLE_BYTES, STREAM_BYTES, EVENT_BYTES = 26, 16, 8, 16
STREAMS_MAX, EVENTS_MAX = 8, 4_000
# The events as they are laid out: an arrival with any tag, a turn, an own turn, and a done or a clock.
SOUND = re.compile(rb"\x01.{5}\0\0.{8}|\x02\0{15}|\x03.\0{6}.{8}|[\x04\x05]\0{7}.{8}", re.DOTALL)
# What is salvaged: the new file, the positions of the events that are dropped, of the tail that is cut, and whether the contents are rewritten.
Salvaged = namedtuple("Salvaged", "new dropped cut rewritten")


def contents(count, events):
    """The contents of a file with so many streams and events."""
    table = TABLE_BYTES + STREAM_BYTES * count
    return struct.pack("<HIIIIII", 2, 1, TABLE_AT, table, 2, TABLE_AT + table, EVENT_BYTES * events)


def count_in(old):
    """The count of the table, in the last four of its sixteen bytes."""
    return int.from_bytes(old[TABLE_AT + TABLE_BYTES - 4:TABLE_AT + TABLE_BYTES], "little")


def trace_at(old):
    """Where the trace of a file starts, by the count of its table; None where the file is refused."""
    if len(old) < TABLE_AT + TABLE_BYTES or old[:2] == b"\3\0":
        return None
    start = TABLE_AT + TABLE_BYTES + STREAM_BYTES * count_in(old)
    return start if count_in(old) <= STREAMS_MAX and start <= len(old) else None


def salvaged(old):
    """What is salvaged of a file; None where it is refused."""
    start = trace_at(old)
    if start is None:
        return None
    whole = range(start, len(old) - EVENT_BYTES + 1, EVENT_BYTES)
    kept = [at for at in whole if SOUND.fullmatch(old, at, at + EVENT_BYTES)][:EVENTS_MAX]
    head = contents((start - TABLE_AT - TABLE_BYTES) // STREAM_BYTES, len(kept))
    new = head + old[TABLE_AT:start] + b"".join(old[at:at + EVENT_BYTES] for at in kept)
    end = start + EVENT_BYTES * len(whole)
    return Salvaged(new, sorted(set(whole) - set(kept)), [end] * (end < len(old)), head != old[:TABLE_AT])


def printed_of(told):
    """What is printed of it."""
    if told is None:
        return b"refused 16\n"
    lines = ["contents 0"] * told.rewritten + [f"dropped {at}" for at in told.dropped] + [f"cut {at}" for at in told.cut]
    return "".join(line + "\n" for line in lines).encode()
