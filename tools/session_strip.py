"""A stretch of a session's time, drawn: a row for the house and one for each stream, with a lane for each kind of mark."""
from session_story import CALLS, LATE, OVERLONG, OWN_TURN
from svg import MARK, colour, cross, diamond, dot, flag, merged, millis, room, several, step_for, tag, text, tick, upright, warning, wide

# Places of the page, in pixels.
WIDTH, LEFT, RIGHT = 1200, 132, 38
PLOT = WIDTH - LEFT - RIGHT
BEFORE, AXIS = 24, 26
HOUSE_ROW, ROW, GAP = 36, 92, 10
# Lanes of a stream's row: where marks have their middle, where words stand, and where boxes start and how high they are.
REFUSED_LANE, ARRIVAL_LANE, EXPIRED_LANE, JOB_LANE = 7, 18, 46, 62
REQUEST_LANE, CHARGE_LANE = (24, 15), (66, 24)
# What is narrower is drawn as one with its neighbours; the least room from deadline to deadline.
NARROW, FOR_A_DEADLINE = 3, 20


class Strip:
    """A stretch of a session's time on the page."""

    def __init__(self, session, start, end, y):
        self.session, self.start, self.end, self.top = session, start, end, y + BEFORE
        self.rows = self.top + HOUSE_ROW + GAP
        self.bottom = self.rows + len(session.streams) * (ROW + GAP)
        self.out = []

    def x(self, micros):
        """Where a moment stands; one that is not in this strip stands at its edge."""
        return float(LEFT + PLOT * (min(max(micros, self.start), self.end) - self.start) / (self.end - self.start))

    def holds(self, micros):
        return self.start <= micros < self.end

    def meets(self, start, end):
        return self.holds(start) or start < self.start < end

    def row(self, stream):
        """The top of a stream's row; of no stream that the table has, the house's."""
        return self.rows + (stream - 1) * (ROW + GAP) if 1 <= stream <= len(self.session.streams) else self.top

    def draw(self, *elements):
        self.out.extend(elements)

    def svg(self):
        for drawer in (self.names, self.axis, self.waits, self.deadlines, self.moves, self.jobs, self.requests, self.points):
            drawer()
        return tag("g", inside="\n" + "\n".join(self.out) + "\n", class_="strip", data_from=self.start, data_to=self.end)

    def names(self):
        """The rows, and in each stream's the lane of its charge, as high as its granted budget."""
        session = self.session
        self.draw(text(16, self.top + 22, "the house", class_="name"), tag("rect", x=LEFT, y=self.top, width=PLOT, height=HOUSE_ROW, class_="band"))
        for job, (reserved, period) in zip(session.jobs, session.streams):
            y, (lane, high) = self.row(job.stream), CHARGE_LANE
            least = y + lane + high * session.worst / job.granted
            self.draw(tag("rect", x=LEFT, y=y, width=PLOT, height=ROW, class_="band"),
                      tag("rect", x=16, y=y + 7, width=10, height=10, rx=2, fill=colour(job.stream)),
                      text(32, y + 16, f"stream {job.stream}", class_="name"),
                      text(32, y + 31, f"e {millis(reserved)} ms", class_="faint"), text(32, y + 45, f"p {millis(period)} ms", class_="faint"),
                      tag("rect", x=LEFT, y=y + lane, width=PLOT, height=high, class_="lane"),
                      tag("line", x1=LEFT, x2=LEFT + PLOT, y1=least, y2=least, class_="least"),
                      text(LEFT - 5, y + lane + 8, f"g {millis(job.granted)} ms", class_="faint end"),
                      text(LEFT - 5, y + lane + high, "0", class_="faint end"))

    def axis(self):
        step = step_for((self.end - self.start) / PLOT * 95)
        self.draw(tag("line", x1=LEFT, x2=LEFT + PLOT, y1=self.bottom, y2=self.bottom, class_="axis"))
        for micros in range(-(-self.start // step) * step, self.end + 1, step):
            x = self.x(micros)
            last = x + wide(millis(micros)) / 2 > WIDTH
            self.draw(upright(x, self.top, self.bottom + 5, class_="grid"),
                      text(WIDTH - 4 if last else x, self.bottom + 18, millis(micros), class_="faint end" if last else "faint middle"))
        self.draw(text(16, self.bottom + 18, "milliseconds", class_="faint"))

    def waits(self):
        """A box for each wait, and the latest safe moment that it may last until."""
        def edges(wait):
            return self.x(wait[0].before), self.x(wait[1])
        for group in merged([wait for wait in self.session.waits if self.meets(wait[0].before, wait[1])], edges, narrow):
            x, end = edges(group[0])[0], max(edges(wait)[1] for wait in group)
            titles = [f"event {line.number}: wait from {millis(line.before)} until {millis(line.value)} ms" for line, _ in group]
            self.draw(tag("rect", several(titles), x=x, y=self.top, width=max(1.5, end - x), height=HOUSE_ROW, class_="wait",
                          data_wait=sum(self.holds(line.before) for line, _ in group)))
        for safe in sorted({line.value for line, _ in self.session.waits if self.holds(line.value)}):
            self.draw(upright(self.x(safe), self.top + 12, self.top + HOUSE_ROW - 10, f"latest safe moment {millis(safe)} ms", class_="until"))

    def deadlines(self):
        """A line with a flag at each deadline of a stream, with a break for the words of its jobs; none where they would be too close."""
        words = JOB_LANE - 10
        for stream, (_, period) in enumerate(self.session.streams, 1):
            y, first = self.row(stream), max(1, -(-self.start // period))
            if PLOT * period < FOR_A_DEADLINE * (self.end - self.start):
                self.draw(text(16, y + 58, "deadlines too close", class_="small"))
                continue
            places = [self.x(number * period) for number in range(first, -(-self.end // period))]
            lines = "".join(f"M{x:.1f} {y}v{words}m0 {CHARGE_LANE[0] - words}v{CHARGE_LANE[1]}" for x in places)
            self.draw(tag("path", f"stream {stream}: a deadline every {millis(period)} ms", d=lines, class_="deadline"),
                      tag("path", d="".join(flag(x, y - 8) for x in places), class_="flag"))

    def moves(self):
        """A line for each moment at which the horizon moves, and the horizon that it moves to where there is room."""
        free = 0
        for x, group in self.together(self.session.moves, narrow):
            titles = [f"event {line.number}: at {millis(line.before)} ms the horizon moves to {millis(line.value)} ms" for line in group]
            words = f"h {millis(group[-1].value)} {times(group)}".strip()
            self.draw(upright(x, self.top - 6, self.top + HOUSE_ROW, several(titles), class_="move", data_move=len(group)),
                      upright(x, self.top + HOUSE_ROW, self.bottom, class_="move below"))
            if x - wide(words) / 2 > free:
                free = x + wide(words) / 2 + MARK
                self.draw(text(x, self.top - 10, words, class_="moved"))

    def requests(self):
        """A box for each request, from its send to its completion; one that is still at the disk is open."""
        def edges(request):
            return self.x(request[0].before), self.x(request[2])
        requests = [request for request in self.session.requests if self.meets(request[0].before, request[2])]
        for stream in range(1, len(self.session.streams) + 1):
            for group in merged([request for request in requests if request[0].stream == stream], edges, narrow):
                self.request(group, edges(group[0])[0], edges(group[-1])[1])

    def request(self, group, x, end):
        """The box of a request, or of several that are too narrow for a box each. It counts in the strip in which it was sent."""
        sent, width = group[0][0], max(2.5, end - x)
        y, height = self.row(sent.stream) + REQUEST_LANE[0], REQUEST_LANE[1]
        here = [request for request in group if self.holds(request[0].before)]
        classes = "request" + (" unfinished" if group[-1][1] is None else " overlong" if any(map(overlong, group)) else "")
        self.draw(tag("rect", several([request_title(*request) for request in group]), x=x, y=y, width=width, height=height, rx=2,
                      fill=colour(sent.stream), class_=classes, data_request=len(here), data_overlong=sum(map(overlong, here))))
        words = next((words for words in request_words(sent) if width > wide(words) + 2), "")
        if len(group) == 1 and words:
            self.draw(text(x + width / 2, y + 11, words, class_="place"))
        if any(sent.kind == OWN_TURN for sent, _, _ in here):
            self.draw(tag("circle", "the caller's own choice", cx=x, cy=y + height, r=2.4, class_="own"))

    def points(self):
        """What takes no time: arrivals, expired slots, clock reports and refusals."""
        session = self.session
        for stream in range(1, len(session.streams) + 1):
            y = self.row(stream)
            self.marks([line for line in session.expired if line.stream == stream], y + EXPIRED_LANE, diamond, expired_title, "expired")
            self.marks([line for line in session.arrivals if line.stream == stream], y + ARRIVAL_LANE, dot, arrival_title, "arrival")
        for y in (self.top, *(self.row(job.stream) for job in session.jobs)):
            self.marks([line for line in session.refusals if self.row(line.stream) == y], y + REFUSED_LANE, cross, refusal_title, "refused")
        self.reports([line for line in session.reports if line.answer != LATE], "report", self.top + HOUSE_ROW - 8)
        self.reports([line for line in session.reports if line.answer == LATE], "late", self.top + 14)

    def marks(self, lines, y, shape, words, kind):
        """A mark for each line; where several would stand on each other, one with ×N."""
        for x, group in self.together(lines):
            self.draw(shape(x, y, group[0].stream, several([words(line) for line in group]), **{f"data_{kind}": len(group)}))
            if len(group) > 1:
                self.draw(text(x + MARK - 2, y + 3.5, times(group), class_="times"))

    def together(self, lines, space=room, at=lambda line: line.before):
        """The lines of this strip, in lists that one mark stands for, each with its place."""
        def edges(line):
            return self.x(at(line)), self.x(at(line))
        return [(edges(group[0])[0], group) for group in merged([line for line in lines if self.holds(at(line))], edges, space)]

    def reports(self, lines, kind, y):
        for x, group in self.together(lines, narrow, lambda line: line.after):
            titles = [f"event {line.number}: the clock is {millis(line.after)} ms" + (", late" if kind == "late" else "") for line in group]
            self.draw(upright(x, y, self.top + HOUSE_ROW, several(titles), class_=kind, **{f"data_{kind}": len(group)}))

    def jobs(self):
        """The jobs of every stream, each from the closing of the one before it to its own."""
        for stream, last in enumerate(self.session.jobs, 1):
            jobs = [job for job in self.session.closed if job.stream == stream]
            free = LEFT
            for _, group in self.together(jobs, lambda number: MARK + room(number), lambda job: job.closed):
                self.closing(group, free)
                free = self.x(group[-1].closed) + wide(times(group)) + 4
            self.going_on(next((job for job in jobs if job.opened < self.end <= job.closed), last), free)

    def closing(self, group, free):
        """The charge of a job that is closed here, with a tick if it was closed in time; of several too close for that, with one mark."""
        last, late = group[-1], [job for job in group if job.late()]
        x, y, kind = self.x(last.closed), self.row(last.stream), "toolate" if late else "closed"
        inside = self.charge(group, last.closed) + (self.overdue(late[0], last.closed) if late else "")
        inside += upright(x, y + JOB_LANE - 9, y + sum(CHARGE_LANE), class_=kind)
        inside += tag("path", d=(warning if late else tick)(x, y + JOB_LANE - 8), class_=kind)
        if len(group) > 1:
            inside += text(x + 3, y + JOB_LANE, times(group), class_="times bad" if late else "times")
        else:
            inside += label(closed_words(last), free, x - 14, y + JOB_LANE, late or last.charge > last.granted)
        self.draw(tag("g", several([job_title(job) for job in group]), inside, data_closed=len(group), data_toolate=len(late)))

    def going_on(self, job, free):
        """The charge so far of a job that is not closed here."""
        y, x, until = self.row(job.stream), self.x(job.opened), min(self.end, self.session.clock)
        charge, late = job.charge_at(until), until > job.deadline
        inside = self.charge([job], until) + (self.overdue(job, until) if late else "")
        if job.closed is None:
            inside += tag("rect", x=x, y=y + CHARGE_LANE[0], width=LEFT + PLOT - x, height=CHARGE_LANE[1], class_="open")
        inside += label(open_words(job, charge, late), free, LEFT + PLOT - 4, y + JOB_LANE, late or charge > job.granted)
        self.draw(tag("g", job_title(job), inside, data_open=int(job.closed is None and self.holds(self.session.clock))))

    def charge(self, jobs, until):
        """The charges of jobs until a clock, each as high as its part of the granted budget, with a red line where it is above."""
        stream, y = jobs[0].stream, self.row(jobs[0].stream) + CHARGE_LANE[0]
        out = tag("path", d="".join(self.curve(job, until) for job in jobs), fill=colour(stream), stroke=colour(stream), class_="charge")
        for job in jobs:
            end = until if job.closed is None else min(until, job.closed)
            if job.above is not None and job.above < end:
                out += tag("rect", x=self.x(job.above), y=y, width=max(1.5, self.x(end) - self.x(job.above)), height=4, class_="overrun")
        return out

    def curve(self, job, until):
        bottom, high = self.row(job.stream) + sum(CHARGE_LANE), CHARGE_LANE[1]
        start, end = max(job.opened, self.start), until if job.closed is None else min(until, job.closed)
        points = [f"{self.x(at):.1f} {bottom - high * min(1, charge / job.granted):.1f}" for at, charge in job.curve_between(start, end)]
        return f"M{self.x(start):.1f} {bottom}L" + " ".join(dict.fromkeys(points)) + f" {self.x(end):.1f} {bottom}z"

    def overdue(self, job, until):
        """From a job's deadline to when it was closed after it."""
        x, y = self.x(job.deadline), self.row(job.stream) + sum(CHARGE_LANE)
        return tag("rect", x=x, y=y - 4, width=max(1.5, self.x(until) - x), height=4, class_="overdue")


def narrow(_):
    return NARROW


def label(choices, free, end, y, bad):
    """The longest text that there is room for, or none."""
    words = next((words for words in choices if wide(words) <= end - free), "")
    return text(end, y, words, class_="small end bad" if bad else "small end") if words else ""


def times(group):
    return f"×{len(group)}" if len(group) > 1 else ""


def overlong(request):
    return request[1] is not None and request[1].answer == OVERLONG


def charge_words(job, charge):
    """A charge as a part of the granted budget, where there is room from what the job began with."""
    of = f"{millis(charge)} of {millis(job.granted)}"
    return (f"from {millis(job.start)} to {of}", of) if job.start else (of,)


def closed_words(job):
    late, choices = millis(job.late()), []
    for of in charge_words(job, job.charge):
        if job.late():
            choices += [f"job {job.number}: {of} ms, {late} ms late", f"{of}, {late} late"]
        else:
            choices += [f"job {job.number}: {of} ms", f"{of} ms", of]
    return [*choices, f"{late} late"] if job.late() else choices


def open_words(job, charge, late):
    so_far, choices = "so far, late" if late else "so far", []
    for of in charge_words(job, charge):
        choices += [f"job {job.number}: {of} ms {so_far}", f"{of} ms {so_far}", of]
    return choices


def job_title(job):
    began = f"began with {millis(job.start)} ms, " if job.start else ""
    title = f"stream {job.stream}, job {job.number}: {began}charged {millis(job.charge)} of {millis(job.granted)} ms, "
    if job.closed is None:
        title += f"open at the end, with the deadline {millis(job.deadline)} ms"
    else:
        title += f"closed at {millis(job.closed)} ms, " + (
            f"{millis(job.late())} ms after its deadline {millis(job.deadline)} ms" if job.late() else f"in time for its deadline {millis(job.deadline)} ms")
    return title + f"; requests done {job.requests}, slots expired {job.expired}"


def with_tag(number):
    """What is said of a request's tag behind its place: nothing of 0, which a request has whose host gives none."""
    return f" tag {number}" if number else ""


def request_words(sent):
    """What stands in the box of a request: its place, and its tag where there is room."""
    return f"{sent.value}{with_tag(sent.tag)}", str(sent.value)


def request_title(sent, finished, _):
    title = f"event {sent.number}: stream {sent.stream}, place {sent.value}{with_tag(sent.tag)}, sent at {millis(sent.before)} ms"
    title += ", the caller's own choice" if sent.kind == OWN_TURN else ""
    if finished is None:
        return title + ", still at the disk"
    return title + f", took {millis(finished.after - sent.before)} ms" + (", overlong" if finished.answer == OVERLONG else "")


def expired_title(line):
    return f"event {line.number}: a slot of stream {line.stream} expired at {millis(line.before)} ms, charge {millis(line.value)} ms"


def arrival_title(line):
    return f"event {line.number}: place {line.given}{with_tag(line.given_tag)} queued at {millis(line.before)} ms, queue {line.value}"


def refusal_title(line):
    words = " ".join(str(word) for word in (CALLS[line.kind], line.named or "", line.given) if word != "") + with_tag(line.given_tag)
    return f"event {line.number}: {words} refused, {line.answer}"
