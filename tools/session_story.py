"""What a listing tells of a session: each thing that happened, with its times, and every job with its charge.

Answers, values and clocks are the listing's; the table and the calls are the file's. No rule of the dispatcher is worked out again,
but that a move closes every job whose deadline is the horizon, and that the next job starts with what it was charged above its granted budget.
"""
import struct

from session_file import order_told, padding_meant, parts

ARRIVAL, TURN, OWN_TURN, DONE, CLOCK = range(1, 6)
CALLS = {ARRIVAL: "arrival", TURN: "turn", OWN_TURN: "own turn", DONE: "done", CLOCK: "clock"}
ARRIVED, SENT, EXPIRED, MOVED, WAIT, FINISHED, OVERLONG, TOLD, LATE = range(20, 29)
HEADER = "event answer stream value clock tag"
# So many times the clock is far away.
FAR = 20


class Line:
    """An event with its answer, and the clock before and after."""

    def __init__(self, event, numbers, before):
        self.kind, self.named, self.given_tag, self.given = event
        self.number, self.answer, self.stream, self.value, self.after, self.tag = numbers
        self.before = before

    def refused(self):
        return self.answer < ARRIVED or self.answer > LATE


class Job:
    """A job of a stream: it is charged from the closing of the one before it until its own, on top of what it starts with."""

    def __init__(self, stream, number, granted, period, opened, start=0):
        self.stream, self.number, self.granted, self.period = stream, number, granted, period
        self.deadline = number * period
        self.opened, self.closed, self.above = opened, None, opened if start > granted else None
        self.start = self.charge = start
        self.requests = self.expired = 0
        self.curve = [(opened, start)]

    def charged(self, start, end, charge):
        """The charge grew to this one between two clocks, and perhaps passed the granted budget."""
        self.curve.append((start, self.charge))
        if self.charge <= self.granted < charge:
            self.above = start + (self.granted - self.charge) * (end - start) // (charge - self.charge)
            self.curve.append((self.above, self.granted))
        self.curve.append((end, charge))
        self.charge = charge

    def charge_at(self, clock):
        """The charge at a clock: it grows evenly while a request is at the disk."""
        for (start, low), (end, high) in zip(self.curve, self.curve[1:]):
            if start <= clock < end:
                return low + (high - low) * (clock - start) // (end - start)
        return self.charge

    def curve_between(self, start, end):
        """The clocks and charges between two clocks, with those at both."""
        points = [point for point in self.curve if start < point[0] <= end or point[0] == start == self.opened]
        first = [] if start == self.opened else [(start, self.charge_at(start))]
        return [*first, *points, (end, self.charge_at(end))]

    def close(self, clock):
        """Closes the job, and gives the one that follows it, which starts with what is left above the granted budget."""
        self.closed = clock
        self.curve.append((clock, self.charge))
        return Job(self.stream, self.number + 1, self.granted, self.period, clock, max(0, self.charge - self.granted))

    def late(self):
        """By how much it was closed after its deadline."""
        return max(0, self.closed - self.deadline)


class Session:
    """What a listing tells: each thing that is drawn, with its times.

    Most are lines; a request is its send, its completion or None, and its end; a wait is its line and its end. The order is None where the
    file tells none.
    """

    def __init__(self, table, order, streams, lines):
        (self.worst, self.span, self.padding), self.order = table, order
        self.streams, self.lines = streams, lines
        self.arrivals, self.requests, self.expired, self.refusals, self.reports, self.moves = [], [], [], [], [], []
        self.waits, self.waiting = [], []
        self.sent, self.closed = None, []
        self.jobs = [Job(i + 1, 1, reserved + padding_meant(self.padding) * self.worst, period, 0) for i, (reserved, period) in enumerate(streams)]
        takers = {ARRIVED: self.arrivals.append, SENT: self.send, EXPIRED: self.expire, MOVED: self.move, WAIT: self.waiting.append,
                  FINISHED: self.finish, OVERLONG: self.finish, TOLD: self.reports.append, LATE: self.reports.append}
        for line in lines:
            if line.after > line.before:
                self.end_waits(line.after)
            takers.get(line.answer, self.refusals.append)(line)
        self.clock = lines[-1].after if lines else 0
        self.end_waits(None)
        if self.sent:
            self.requests.append((self.sent, None, self.sent.before + self.worst))

    def end_waits(self, clock):
        """A wait lasts until the clock moves on or the latest safe moment comes; one that nothing followed, until then."""
        self.waits += [(wait, wait.value if clock is None else min(clock, wait.value)) for wait in self.waiting]
        self.waiting.clear()

    def send(self, line):
        self.sent = line

    def finish(self, line):
        job = self.jobs[line.stream - 1]
        job.charged(self.sent.before, line.after, line.value)
        job.requests += 1
        self.requests.append((self.sent, line, line.after))
        self.sent = None

    def expire(self, line):
        job = self.jobs[line.stream - 1]
        job.charged(line.before, line.before, line.value)
        job.expired += 1
        self.expired.append(line)

    def move(self, line):
        """The job of every stream whose deadline is the horizon is closed."""
        horizon = min(job.deadline for job in self.jobs)
        for i, job in enumerate(self.jobs):
            if job.deadline == horizon:
                self.jobs[i] = job.close(line.before)
                self.closed.append(job)
        self.moves.append(line)

    def carries(self):
        """Whether some job starts with what the one before it was charged above its granted budget."""
        return any(job.start for job in (*self.closed, *self.jobs))

    def tagged(self):
        """Whether some request that was sent has a tag other than 0."""
        return any(sent.tag for sent, _, _ in self.requests)

    def end(self):
        """The last moment worth drawing: the first deadline that is not past, or what reaches beyond it, unless that is far away."""
        deadline = min(-(-max(self.clock, 1) // period) * period for _, period in self.streams)
        reach = max([deadline, *(end for _, _, end in self.requests), *(until for _, until in self.waits)])
        return min(reach, FAR * self.clock) if self.clock else reach


def story(data, listing):
    """The session of a file's bytes and its listing's lines; a ValueError says where the two do not fit."""
    if listing[:1] != [HEADER]:
        raise ValueError(listing[0] if listing and listing[0].startswith("refused ") else "it has no header")
    try:
        table, streams, events = parts(data)
    except struct.error:
        streams = []
    if not streams or not all(period for _, period in streams):
        raise ValueError("the file has no table that it could be of")
    if len(listing) - 1 != len(events):
        raise ValueError(f"it has {len(listing) - 1} lines for {len(events)} events")
    lines, sent = [], None
    for event, printed in zip(events, listing[1:]):
        words = printed.split(" ")
        before = lines[-1].after if lines else 0
        if len(words) != 6 or not all(word.isascii() and word.isdigit() for word in words):
            raise ValueError(f"line {len(lines) + 2} is not six numbers")
        line = Line(event, tuple(map(int, words)), before)
        if not fits(line, len(lines) + 1, len(streams), sent):
            raise ValueError(f"line {len(lines) + 2} cannot follow the one before it")
        sent = line if line.answer == SENT else None if line.answer in (FINISHED, OVERLONG) else sent
        lines.append(line)
    return Session(table, order_told(data), streams, lines)


def fits(line, number, count, sent):
    """Whether a line may stand here: its number, its clock, its stream, and what is at the disk, whose tag a completion has."""
    of_a_stream = line.answer in (ARRIVED, SENT, EXPIRED, FINISHED, OVERLONG)
    needs_disk, needs_none = line.answer in (FINISHED, OVERLONG), line.answer in (SENT, EXPIRED, MOVED, WAIT, TOLD, LATE)
    tag = line.tag if line.answer == SENT else sent.tag if sent and needs_disk else 0
    return (line.number == number and line.after >= line.before and (1 <= line.stream <= count or not of_a_stream)
            and (sent or not needs_disk) and not (sent and needs_none) and line.tag == tag)
