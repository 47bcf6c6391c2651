"""What is said of a file of bookings, by document 02's Request 10 and by the notation, once more in Python and without any program."""
import os
import re
import sys
from collections import namedtuple

sys.path.insert(0, os.path.join(os.path.dirname(os.path.dirname(os.path.abspath(__file__))), "tools"))
from session_file import padding_meant  # noqa: E402

# The bits of the numbers behind each word.
WIDTHS = {b"begin": (32, 32, 32, 64, 64), b"add": (64, 32, 32), b"withdraw": (64, 64)}
BYTES_MAX, STREAMS_MAX = 65_536, 8
DESKS = (1, 2)
WORSTS, SPANS, PADDINGS, PERIODS = range(1, 1_000_001), range(1_000, 600_000_001), range(4), range(1_000, 60_000_001)
# A booking, or the beginning, as it was answered: all refusals of it that hold, of which the first is given, and the value.
Answer = namedtuple("Answer", "word refusals value")
# What is told of a file: what is printed, how the message begins, each answer, and the table, if one was begun.
Told = namedtuple("Told", "printed message answers table")


class Wrong(Exception):
    """A line, or a file, that is not as it should be."""


# ---- the notation


def number(field, bits):
    digits = field.lstrip(b"0") or field[:1]
    if not re.fullmatch(rb"[0-9]{1,20}", digits) or int(digits) >> bits:
        raise Wrong
    return int(digits)


def read_line(line, first):
    """The word of a line and its numbers, or nothing of a blank one."""
    word, *fields = re.findall(rb"[^ \t]+", line.removesuffix(b"\r").split(b"#")[0]) or [b""]
    if word == b"":
        return []
    widths = WIDTHS.get(word, ())
    if len(fields) != len(widths) or not widths or (word == b"begin") != first:
        raise Wrong
    return [word, *map(number, fields, widths)]


def read_file(data):
    """The lines of a file that are not blank; or it is wrong, as its message begins to say."""
    if len(data) > BYTES_MAX:
        raise Wrong("book:")
    lines = []
    for at, text in enumerate(data.split(b"\n"), 1):
        try:
            lines += filter(None, [read_line(text, not lines)])
        except Wrong:
            raise Wrong(f"line {at}:") from None
    if not lines:
        raise Wrong("end:")
    return lines


# ---- the table


class Table:
    """A table as it is begun, and the streams of each desk in order of booking."""

    def __init__(self, worst, span, padding, *limits):
        self.worst, self.span, self.padding = worst, span, padding
        self.limits, self.streams = dict(zip(DESKS, limits)), {desk: [] for desk in DESKS}
        judged = ((2, worst in WORSTS), (3, span in SPANS), (4, padding in PADDINGS))
        self.refused = [reply for reply, holds in judged if not holds]

    def all(self):
        """Desk 1's streams first, then desk 2's."""
        return self.streams[1] + self.streams[2]

    def granted(self, reserved):
        return reserved + padding_meant(self.padding) * self.worst

    def sum(self, streams):
        return sum(self.granted(reserved) * (self.span // period) for reserved, period in streams)

    def load(self, streams):
        return self.sum(streams) + self.worst * (self.span // min(period for _, period in streams)) if streams else 0

    def refusals(self, word, desk, *numbers):
        """All refusals of a booking that hold, in the order in which they are judged."""
        if self.refused:
            yield 31
        if desk not in DESKS:
            yield 30
        yield from self.withdrawing(desk, *numbers) if word == b"withdraw" else () if self.refused else self.adding(desk, *numbers)

    def withdrawing(self, desk, which):
        if which not in range(1, len(self.streams.get(desk, [])) + 1):
            yield 19

    def adding(self, desk, reserved, period):
        fits = period in PERIODS and self.span % period == 0
        if len(self.all()) == STREAMS_MAX:
            yield 1
        if not fits:
            yield 5
        if reserved == 0 or self.granted(reserved) > period:
            yield 6
        if fits and desk in DESKS and self.sum([*self.streams[desk], (reserved, period)]) > self.limits[desk]:
            yield 18
        if fits and self.load([*self.all(), (reserved, period)]) > self.span:
            yield 7

    def book(self, word, desk, *numbers):
        refusals = list(self.refusals(word, desk, *numbers))
        if not refusals and word == b"add":
            self.streams[desk].append(numbers)
        elif not refusals:
            del self.streams[desk][numbers[0] - 1]
        return Answer(word, refusals, 0 if refusals else len(self.streams[desk]))

    def notes(self):
        lines = [f"worst {self.worst}", f"span {self.span}", f"padding {self.padding}", *("stream %d %d" % stream for stream in self.all())]
        return [] if self.refused else lines


def told_of(data):
    """What is told of a file."""
    try:
        (word, *numbers), *bookings = read_file(data)
    except Wrong as wrong:
        return Told(b"", str(wrong).encode(), [], None)
    table = Table(*numbers)
    answers = [Answer(word, table.refused, 0)] + [table.book(*booking) for booking in bookings]
    lines = [f"{(*answer.refusals, 0)[0]} {answer.value}" for answer in answers] + table.notes()
    return Told("".join(line + "\n" for line in lines).encode(), b"", answers, table)
