"""The listings that follow/check tries, and what is known of each without any program.

A case is a session file and a listing that was made by one change of a listing that follows. A change is a splice: where it starts and ends among the
lines, and what takes their place.
"""
import os
import re
import sys
from collections import namedtuple
from itertools import zip_longest
from types import SimpleNamespace

sys.path.insert(0, os.path.join(os.path.dirname(os.path.dirname(os.path.abspath(__file__))), "tools"))
from scripts import script  # noqa: E402
from session_file import NEAREST, SWEEP, TURN, arrival, clock, done, own_turn, parts, session_file  # noqa: E402
from session_story import OWN_TURN, SENT, Line  # noqa: E402

with_queues = script("trials", "run").with_queues
# What is tried: whose listing, and the change; the session file and its events; the listing, and the lines of the one that follows, from which it was made.
Case = namedtuple("Case", "what whose session events listing right")
HEADER = b"event answer stream value clock tag\n"
FIELDS = ("the number", "the answer", "the stream", "the value", "the clock", "the tag")
NUMBER, ANSWER, STREAM, PLACE, CLOCK, TAG = range(6)
# A line as it is printed, without a needless zero.
PRINTED = re.compile(rb"(?:(?:0|[1-9][0-9]*) ){5}(?:0|[1-9][0-9]*)\n")
# Lines as long as a buffer might be, or a little longer or shorter.
LENGTHS = (127, 128, 129, 65_535, 65_536, 65_537, 200_000)

# So many changes are tried of an example or a made-up file. Where all are, it is in so many places, and so many of the last lines are looked at for turns.
CHANGES_EACH, PLACES, LAST = 2, 5, 32


# ---- what is known of a listing


def lines_of(listing):
    """The lines of a listing, each with its newline; the last may have none."""
    return re.findall(rb"[^\n]*\n|[^\n]+\Z", listing)


def events_of(data, right):
    """The events of a session file; none where it is refused."""
    return parts(data)[2] if right[0] == HEADER else []


def fields_of(line):
    return [int(field) for field in line.split()]


def sent_line(number, stream, place, clock_then, tag):
    return b"%d %d %d %d %d %d\n" % (number, SENT, stream, place, clock_then, tag)


def is_send(events, at, line):
    """Whether a right line at that index is a turn's send, in whose place another one may stand."""
    return 0 < at <= len(events) and events[at - 1] == TURN and fields_of(line)[ANSWER] == SENT


def may_follow(right_line, line):
    """Whether a line in place of a turn's send could be another send: only stream, place and tag are others."""
    return PRINTED.fullmatch(line) and all(fields_of(line)[i] == fields_of(right_line)[i] for i in (NUMBER, ANSWER, CLOCK))


def first_other(case):
    """The number of the first line that is not as in the listing that follows, or 0; and whether it is sure that it does not follow."""
    given = lines_of(case.listing)
    for at, (line, right) in enumerate(zip_longest(given, case.right)):
        if line != right:
            return at + 1, not (line and right and is_send(case.events, at, right) and may_follow(right, line))
    return 0, True


def queues_after(events, lines):
    """The queues after some lines that follow, by their streams, each request as its place and its tag."""
    told = [Line(event, fields_of(line), 0) for event, line in zip(events, lines[1:])]
    queues = {}
    for _, queues, _ in with_queues(SimpleNamespace(lines=told)):
        pass
    return queues


# ---- the changes of a line


def changed_fields(line, chance):
    """Each field by little and by much: by a power of ten, and by what 32 or 64 bits would not show."""
    fields = fields_of(line)
    for at, name in enumerate(FIELDS):
        little = fields[at] + (chance.choice((1, -1)) if fields[at] else 1)
        much = fields[at] + chance.choice((2**32, 2**64, 10**chance.randrange(1, 19)))
        for how, number in (("little", little), ("much", much)):
            yield f"{name} by {how}", b" ".join(b"%d" % field for field in (*fields[:at], number, *fields[at + 1:])) + b"\n"


def changed_bytes(line, chance):
    """A line that says the same to a reader who is not strict, or that is damaged."""
    digit, gap = (chance.choice([found.start() for found in re.finditer(form, line)] or [0]) for form in (rb"\b[0-9]", rb" "))
    inside = chance.randrange(len(line))
    put = lambda at, new, over=0: line[:at] + new + line[at + over:]
    yield "a leading zero", put(digit, b"0")
    yield "a plus sign", put(digit, b"+")
    yield "two spaces", put(gap, b" ")
    yield "a tab", put(gap, b"\t", 1)
    yield "a space first", b" " + line
    yield "a space last", put(len(line) - 1, b" ")
    yield "a carriage return", put(len(line) - 1, b"\r")
    yield "a carriage return for the newline", put(len(line) - 1, b"\r", 1)
    yield "a NUL in it", put(inside, b"\0")
    yield "a NUL behind it", line + b"\0"
    yield "a NUL before its newline", put(len(line) - 1, b"\0")
    yield "a byte above 127 in it", put(inside, bytes([chance.randrange(128, 256)]))
    yield "a byte with its highest bit set", put(inside, bytes([line[inside] | 128]), 1)
    yield "a field more", put(len(line) - 1, b" 0")
    yield "a field less", line.rpartition(b" ")[0] + b"\n"
    yield "a digit more", put(len(line) - 1, b"0")
    yield "a byte less", put(chance.randrange(len(line) - 1), b"", 1)
    yield "an empty line", b"\n"


def other_request(events, lines, at, chance):
    """The line of a turn or an own turn with any other queued request as the one that is sent, if there is one."""
    if at == 0 or events[at - 1].kind not in (TURN.kind, OWN_TURN):
        return
    fields, queues = fields_of(lines[at]), queues_after(events, lines[:at])
    sends = {sent_line(fields[NUMBER], stream, place, fields[CLOCK], tag) for stream, queue in queues.items() for place, tag in queue}
    if sends - {lines[at]}:
        yield "another request", chance.choice(sorted(sends - {lines[at]}))


# ---- the changes among lines


def moved_lines(lines, at, chance):
    """A line that is lost, doubled, displaced, joined or cut. The last line has none after it."""
    line, after = lines[at], lines[at + 1:at + 2]
    cut = chance.randrange(1, len(line))
    yield "a line dropped", (at, at + 1, [])
    yield "a line doubled", (at, at, [line])
    yield "an empty line before it", (at, at, [b"\n"])
    if after:
        yield "swapped with the next", (at, at + 2, [*after, line])
    yield "joined with the next", (at, at + 2, [line[:-1], *after])
    yield "joined with the next by a space", (at, at + 2, [line[:-1] + b" ", *after])
    yield "cut, with its newline", (at, at + 1, [line[:cut - 1] + b"\n"])
    yield "the listing cut in it", (at, len(lines), [line[:cut]])
    yield "the listing ends before it", (at, len(lines), [])
    yield "the listing ends with it, unended", (at, len(lines), [line[:-1]])


def changed_ends(lines, chance):
    """What is wrong at the start or at the end of a listing, or all through it."""
    count = len(lines)
    yield "nothing", (0, count, [])
    yield "no header", (0, 1, [])
    yield "the header without the tag", (0, 1, [b"event answer stream value clock\n"])
    yield "a mark of bytes first", (0, 0, [b"\xef\xbb\xbf"])
    yield "carriage returns throughout", (0, count, [line[:-1] + b"\r\n" for line in lines])
    yield "the last line wrong", (count - 1, count, [lines[-1][:-1] + b"1\n"])
    yield "the last newline missing", (count - 1, count, [lines[-1][:-1]])
    for what, more in (("line", lines[-1]), ("header", HEADER), ("refusal", b"refused 16\n"), ("empty line", b"\n"), ("unended line", b"0"), ("NUL", b"\0"),
                       ("listing", b"".join(lines)), ("long line", b" " * chance.choice(LENGTHS))):
        yield f"a surplus {what}", (count, count, [more])


def long_lines(lines, at):
    """A line that is as long as a buffer: by zeros before its last field, by spaces behind it, and with no newline."""
    before, gap, last = lines[at].rpartition(b" ")
    for length in LENGTHS:
        more = length - len(lines[at])
        yield f"{length} bytes, with zeros", (at, at + 1, [before + gap + b"0" * more + last])
        yield f"{length} bytes, with spaces", (at, at + 1, [lines[at][:-1] + b" " * more + b"\n"])
        yield f"{length} bytes without a newline", (at, len(lines), [lines[at][:-1] + b" " * (more + 1)])


def changes(events, lines, at, chance):
    """Each change of the line at that index, or of the whole listing, by its name, as a splice."""
    made = dict([*moved_lines(lines, at, chance), *changed_ends(lines, chance)])
    within = list(changed_bytes(lines[at], chance))
    if PRINTED.fullmatch(lines[at]):
        within += [*changed_fields(lines[at], chance), *other_request(events, lines, at, chance)]
    elif lines[at] != HEADER:
        number = int(lines[at].split()[1])
        within += [("another refusal", b"refused %d\n" % (number % 7 + 1)), ("a refusal with an amount", lines[at][:-1] + b" 1\n"), ("a header", HEADER)]
    return made | {what: (at, at + 1, [line]) for what, line in within}


# ---- the changes that are tried of a listing


def changed(case, title, splice):
    start, stop, new = splice
    return case._replace(what=f"{case.what}, {title}", listing=b"".join([*case.right[:start], *new, *case.right[stop:]]))


def by_chance(case, chance):
    """Each change by its name, on a line by chance: every other time on a turn's send, where there is one."""
    sends = [at for at, line in enumerate(case.right) if is_send(case.events, at, line)] if chance.randrange(2) else []
    return changes(case.events, case.right, chance.choice(sends or range(len(case.right))), chance)


def some_changes(case, turn, chance):
    """A few changes. They take turns from listing to listing, so that each is met."""
    for n in range(CHANGES_EACH):
        made = by_chance(case, chance)
        title = list(made)[(turn * CHANGES_EACH + n) % len(made)]
        yield changed(case, title, made[title])


def each_change(case, chance):
    """Every change, in a few places by chance, and another request in each of the last turns and own turns, whether they send or not."""
    made = [by_chance(case, chance) for _ in range(PLACES)]
    for n, title in enumerate(sorted(set().union(*made))):
        yield changed(case, title, next(some[title] for some in made[n % PLACES:] + made if title in some))
    for at in range(max(1, len(case.right) - LAST), len(case.right)):
        for title, line in other_request(case.events, case.right, at, chance):
            yield changed(case, f"{title} in line {at + 1}", (at, at + 1, [line]))


def each_end(case, chance):
    """Every change at the ends of a listing."""
    return [changed(case, *change) for change in changed_ends(case.right, chance)]


def each_length(case, chance):
    """A long line in the place of the last."""
    return [changed(case, *change) for change in long_lines(case.right, len(case.right) - 1)]


# ---- sessions that chance would hardly make


# Each of so many streams has a slot for each request that it can queue.
ROOMY = (1_000, 1_000_000, 1, [(100_000, 1_000_000)] * 8)
# Stream 2 has an earlier deadline than stream 1, and one slot before it; stream 1 has four.
UNEVEN = (25_000, 1_000_000, 1, [(175_000, 500_000), (1, 250_000)])
LAST_PLACE, LAST_TAG = 2**64 - 1, 2**32 - 1
X, Y, Z = (100, 7), (200, 8), (100, 8)


def served(*turns):
    """Each turn with a completion behind it."""
    return [event for turn in turns for event in (turn, done(1_000))]


def equal_requests():
    """One stream asks for X, Y, X: an own turn afterwards shows which X was taken. Z has the place of X and the tag of Y, and so have those of stream 2."""
    asked = [arrival(1, *request) for request in (X, Y, X, Z)] + [arrival(2, *request) for request in (X, X, Z, Z)]
    return session_file(*ROOMY, asked + served(TURN, own_turn(1, 0), own_turn(2, 0), TURN, own_turn(1, 1), TURN, TURN, TURN, TURN) + [TURN])


def many_requests(request):
    """Eight streams with sixteen requests each, all of the set, and a turn that sends one; then the rest."""
    asked = [arrival(stream, *request(stream, n)) for n in range(16) for stream in range(1, 9)]
    return session_file(*ROOMY, asked + served(*[TURN] * 20) + [own_turn(8, 15), TURN, arrival(9, 1), arrival(8, 1, 1)], SWEEP)


def past_the_set():
    """Queues that are longer than the slots, of two deadlines: turns wait, let a slot expire and move on while requests are queued past the set."""
    waiting = [arrival(2, place, n) for n, place in enumerate((800, 1, 800, 2))] + [TURN, done(25_000), TURN, clock(149_999), TURN, TURN]
    asked = [arrival(1, place, n) for n, place in enumerate((900, 500, 700, 100, 300, 500))]
    refused = [own_turn(2, 0), own_turn(3, 0), own_turn(1, 9), own_turn(1, 1), TURN, clock(150_000), done(0), done(20_000)]
    return session_file(*UNEVEN, waiting + asked + refused + [TURN, done(30_000), TURN, done(25_000), TURN, done(25_000), TURN, TURN, done(25_000), TURN, TURN])


def ends_of_numbers():
    """Places and tags at the ends of their types, which differ in one bit, or by their type's end."""
    requests = [(place, tag) for place in (LAST_PLACE, 0, 2**63, LAST_PLACE - 1) for tag in (LAST_TAG, 0, 2**31)]
    return session_file(*ROOMY, [arrival(n % 2 + 1, *request) for n, request in enumerate(requests)] + served(*[TURN] * 10) + [TURN], NEAREST)


def longest():
    """4,000 events, whose listing is longer than 65,536 bytes; each turn has ten requests to choose from."""
    asked = [arrival(n % 8 + 1, LAST_PLACE - n % 3, LAST_TAG - n % 2) for n in range(1340)]
    return session_file(*ROOMY, asked[:10] + [event for more in asked[10:] for event in (TURN, done(1), more)])


def crafted():
    """The name and the bytes of each, and the changes that are tried of its listing."""
    past_end = session_file(*ROOMY, [TURN] * 4000, SWEEP) + b"\0"
    return [
        ("equal requests", equal_requests(), each_change),
        ("128 requests", many_requests(lambda stream, n: (1000 * (n ^ 5) + stream, n)), each_change),
        ("128 requests, of each stream equal ones", many_requests(lambda stream, n: (7, 7)), each_change),
        ("past the set", past_the_set(), each_change),
        ("ends of numbers", ends_of_numbers(), each_change),
        ("refused by 7", session_file(25_000, 1_000_000, 3, [(900_001, 1_000_000)], [TURN]), each_change),
        ("two requests", session_file(*ROOMY, [arrival(1, *X), arrival(1, *Y), TURN]), each_length),
        ("4,000 events", longest(), each_end),
        ("no event", session_file(*ROOMY, []), each_end),
        ("no byte", b"", each_end),
        ("one byte too long", past_end, each_end),
        ("longer than any buffer", past_end * 2, each_end),
    ]
