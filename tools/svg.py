"""SVG by hand: elements, colours, the shapes of marks, and which of them are drawn as one."""
from xml.sax.saxutils import escape

INK, FAINT, PAPER, BAND, RED, GREEN, MOVE = "#22272e", "#5b6470", "#fdfdfb", "#eef1f5", "#c81e1e", "#15803d", "#6d28d9"
COLOURS = ("#2f6fb0", "#b45f06", "#2e7d4f", "#8e44ad", "#8a7000", "#0f7f8c", "#b0386f", "#566573")
# How wide a mark is, and a letter of the small text.
MARK, LETTER = 8, 6.2
MOST_TITLES = 8

STYLE = f"""
text {{ font: 12px system-ui, 'Segoe UI', 'DejaVu Sans', sans-serif; fill: {INK}; }}
.title {{ font-size: 15px; font-weight: 600; }}
.name {{ font-weight: 600; }}
.faint {{ fill: {FAINT}; font-size: 11px; }}
.small, .times {{ font-size: 10px; paint-order: stroke; stroke: {BAND}; stroke-width: 3px; }}
.bad {{ fill: {RED}; font-weight: 600; }}
.end {{ text-anchor: end; }}
.middle {{ text-anchor: middle; }}
.band {{ fill: {BAND}; }}
.axis {{ stroke: #b8c0ca; }}
.grid {{ stroke: #cfd6de; stroke-dasharray: 1 3; }}
.lane {{ fill: #ffffff; stroke: #c3cad3; stroke-width: 0.8; }}
.least {{ stroke: {FAINT}; stroke-width: 0.8; stroke-dasharray: 4 3; }}
.charge {{ fill-opacity: 0.32; stroke-width: 1; }}
.open {{ fill: none; stroke: {FAINT}; stroke-dasharray: 3 3; }}
.closed {{ stroke: {GREEN}; stroke-width: 1.8; fill: none; }}
.toolate {{ stroke: {RED}; stroke-width: 2.2; fill: none; }}
.overdue, .overrun {{ fill: {RED}; }}
.wait {{ fill: #f4dc9a; stroke: {PAPER}; stroke-width: 0.6; }}
.until {{ stroke: #8a6508; stroke-width: 1.5; }}
.report {{ stroke: {FAINT}; stroke-width: 1.2; }}
.late {{ stroke: {RED}; stroke-width: 3; }}
.move {{ stroke: {MOVE}; stroke-width: 1.3; stroke-dasharray: 5 3; }}
.below {{ stroke-opacity: 0.4; }}
.moved {{ fill: {MOVE}; font-size: 11px; text-anchor: middle; }}
.deadline {{ stroke: {INK}; stroke-width: 1.2; fill: none; }}
.flag {{ fill: {INK}; }}
.place {{ fill: #ffffff; font-size: 10px; text-anchor: middle; }}
.request {{ stroke: {PAPER}; stroke-width: 0.6; }}
.own {{ fill: #ffffff; stroke: {INK}; }}
.overlong {{ stroke: {RED}; stroke-width: 3; }}
.unfinished {{ stroke: {INK}; stroke-width: 1; stroke-dasharray: 3 2; fill-opacity: 0.45; }}
.refused {{ stroke: {RED}; stroke-width: 1.6; fill: none; }}
"""


def tag(name, title="", inside="", **values):
    """An element; a title is what a reader sees who points at it."""
    words = "".join(f' {key.rstrip("_").replace("_", "-")}="{shown(value)}"' for key, value in values.items())
    body = (f"<title>{escape(title)}</title>" if title else "") + inside
    return f"<{name}{words}>{body}</{name}>" if body else f"<{name}{words}/>"


def shown(value):
    return f"{value:.1f}".removesuffix(".0") if isinstance(value, float) else escape(str(value), {'"': "&quot;"})


def text(x, y, words, **values):
    return tag("text", inside=escape(words), x=x, y=y, **values)


def upright(x, y1, y2, title="", **values):
    return tag("line", title, x1=x, x2=x, y1=y1, y2=y2, **values)


def millis(micros):
    """Microseconds in milliseconds, with no needless zero."""
    whole, part = divmod(micros, 1000)
    return f"{whole:,}" + (f".{part:03d}".rstrip("0") if part else "")


def colour(stream):
    return COLOURS[(stream - 1) % len(COLOURS)]


def dot(x, y, stream, title="", **values):
    return tag("circle", title, cx=x, cy=y, r=2.8, fill=colour(stream), **values)


def cross(x, y, _stream=0, title="", **values):
    return tag("path", title, d=f"M{x - 3:.1f} {y - 3:.1f}l6 6m0 -6l-6 6", class_="refused", **values)


def diamond(x, y, stream, title="", **values):
    return tag("path", title, d=f"M{x - 5:.1f} {y:.1f}l5 -5l5 5l-5 5z", fill=f"url(#hatch{stream})", stroke=colour(stream), stroke_width=1.3, **values)


def flag(x, y):
    """A flag left of x."""
    return f"M{x:.1f} {y}h-6l6 8z"


def tick(x, y):
    """A check mark that ends left of x."""
    return f"M{x - 10:.1f} {y + 4:.1f}l3 4l5 -8"


def warning(x, y):
    """An exclamation mark left of x."""
    return f"M{x - 5:.1f} {y:.1f}v5m0 2v2"


def hatches(streams):
    """A pattern of slanted lines for each stream."""
    return "".join(tag("pattern", inside=tag("path", d="M-1 1l2 -2M0 4l4 -4M3 5l2 -2", stroke=colour(i), stroke_width=1.1), id=f"hatch{i}",
                       width=4, height=4, patternUnits="userSpaceOnUse") for i in range(1, streams + 1))


def wide(words):
    """About how wide small text is."""
    return LETTER * len(words)


def room(times):
    """What a mark takes, with ×N beside it if it stands for several."""
    return MARK + (MARK + wide(f"×{times}") if times > 1 else 0)


def merged(marks, edges, space=room):
    """Marks in order of time, as lists: a mark joins the list before it where it ends within the space that this takes already."""
    groups = []
    for mark in marks:
        if groups and edges(mark)[1] < edges(groups[-1][0])[0] + space(len(groups[-1])):
            groups[-1].append(mark)
        else:
            groups.append([mark])
    return groups


def several(titles):
    """The title of a mark that stands for several: a line for each of the first, and how many more."""
    more = len(titles) - MOST_TITLES
    return "\n".join(titles[:MOST_TITLES] + ([f"and {more} more"] if more > 0 else []))


def round_steps():
    """1, 2, 3, 4, 5, 6, 8, 10, 20, .. microseconds."""
    power = 1
    while True:
        yield from (power * n for n in (1, 2, 3, 4, 5, 6, 8))
        power *= 10


def step_for(least):
    """The first of 1, 2, 5, 10, 20, .. microseconds that is not below."""
    power = 1
    while power * 10 < least:
        power *= 10
    return next(power * n for n in (1, 2, 5, 10) if power * n >= least)
