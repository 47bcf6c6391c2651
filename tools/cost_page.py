"""Tables of docs/COST.md, each between two marks; the rest of the page is written by hand."""
import os

PAGE = os.path.join(os.path.dirname(os.path.dirname(os.path.abspath(__file__))), "docs", "COST.md")


def table(heads, rows):
    """A table of Markdown. All columns but the first are numbers."""
    line = lambda cells: "| " + " | ".join(cells) + " |"
    return "\n".join([line(heads), "|---" + "|---:" * (len(heads) - 1) + "|"] + [line(row) for row in rows])


def store(name, text):
    """Puts a text between the marks of this name."""
    start, end = f"<!-- {name}: written by bench -->", f"<!-- end of {name} -->"
    with open(PAGE, encoding="utf-8") as page:
        before, _, rest = page.read().partition(start)
    _, found, after = rest.partition(end)
    if not found:
        raise SystemExit(f"bench: docs/COST.md has no marks for {name}")
    with open(PAGE, "w", encoding="utf-8") as page:
        page.write(f"{before}{start}\n{text}\n{end}{after}")
