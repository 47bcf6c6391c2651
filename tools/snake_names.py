#!/usr/bin/env python3
"""Spells the repository's own definitions, lemmas, fields and constructors as today's Rattle does: words in snake case, types in camel case.

usage: tools/snake_names.py [--check]      once, at the top of the repository, after port.py and before any edit by hand

Names are those that a file of specs/ or proofs/ declares. One that a file takes from the library keeps its spelling there.
Names of src/, of goals and of steps, strings, inputs and outputs stay. With --check nothing is written; names that would fall together are printed, and end it with 1.
"""
import os
import re
import sys

ROOT = os.path.dirname(os.path.dirname(os.path.abspath(__file__)))
CRATES = sorted(os.listdir(os.path.join(ROOT, "crates")))
TOKEN = re.compile(r"[^\s(){}\[\],;.\"|`∥⌜⌝]+")
DECLARED = re.compile(r"^(?P<in> *)(?:unfoldable )?(?:abbrev )?(?:pub )?(?:(?P<kind>data|record) (?P<type>[^\s(){}:]+)|(?P<names>[^\s(){}:=\[\]]+(?: [^\s(){}:=\[\]]+)*) :(?: |$))")
# Names that would fall together with another, by the folder or file that they are in: a lemma that would have its function's name gets `_lem`.
LEMMAS = {
    "logs": {"same_bytes": "same_bytes_lem", "sent-outcome": "sent_outcome_lem"},
    "repair/proofs/Joined.antt": {"kept_by": "kept_by_lem", "count_by": "count_by_lem", "listed_by": "listed_by_lem"},
    "session/proofs/Counted.antt": {"share_in": "share_in_lem", "in_order": "in_order_lem"},
    "notes/proofs/Grammar.antt": {"line-of": "line_of_values"},
    "notes/proofs/RoundTrip.antt": {"line-of": "line_there"},
}
# Words at a line's head that begin no declaration.
HEADS = {"use", "pub use", "let", "in", "elim", "module", "unfolding", "where", "infixr", "infixl", "infix", "mod"}


def files(*ends):
    for crate in CRATES:
        for folder, dirs, names in os.walk(os.path.join(ROOT, "crates", crate)):
            dirs[:] = sorted(d for d in dirs if d != "out")
            for name in sorted(names):
                if name.endswith(ends):
                    yield os.path.join(folder, name)


def read(path):
    with open(path, encoding="utf-8") as f:
        text = f.read()
    inside = os.path.relpath(path, os.path.join(ROOT, "crates"))
    for place, names in LEMMAS.items() if path.endswith(".antt") else ():
        if inside == place or inside.startswith(place + "/"):
            for name, new in names.items():
                text = re.sub(rf"(?<![^\s(){{}},]){re.escape(name)}(?![^\s(){{}},.])", new, text)
    return text


def is_proof(path):
    """Whether a file is the proof of a function, in a folder of its own; `proofs/Answers.antt` of a crate is a file of lemmas."""
    return os.path.basename(path) in ("Proof.antt", "Answers.antt", "Invariants.antt") and os.path.basename(os.path.dirname(path)) != "proofs"


def words(name):
    parts = []
    for part in name.split("-"):
        parts += re.sub(r"(?<=[a-z0-9])(?=[A-Z])", "\0", part).split("\0")
    return [p for p in parts if p]


def spelled(name):
    """A name as it is to be: a type in camel case, anything else in snake case."""
    if re.match(r"[A-Z]", name):
        return "".join(p[0].upper() + p[1:] for p in re.split("[-_]", name) if p) if re.search(r"-|_[a-z]", name) else name
    if not re.match(r"[a-z]", name):
        return name
    return "_".join(w.lower() if re.fullmatch(r"[A-Z][a-z0-9]*", w) else w for w in words(name))


def declared(text):
    """The names that a file of specs or lemmas declares, with record fields and constructors."""
    found = set()
    for line in text.splitlines():
        if line.lstrip().startswith("--"):
            continue
        m = DECLARED.match(line)
        if not m:
            continue
        if m["kind"]:
            found.add(m["type"])
            continue
        names = m["names"].split(" ")
        if names[0] in HEADS or (len(names) > 1 and names[0] in ("let", "in")):
            continue
        if len(names) == 1:
            found.add(names[0])
    return found


def imports(text):
    """The names that a file takes from elsewhere: of the repository, and of the library."""
    own, other = set(), set()
    for m in re.finditer(r"^ *(?:pub )?(?:ghost )?use ([^\s{};]+?)(?:\.\{([^}]*)\})?(?: as (\S+?))?;?$", text, re.M):
        path, names, alias = m[1], m[2], m[3]
        into = own if re.match(r"Rattle\.(%s)\." % "|".join(map(re.escape, CRATES)), path) else other
        if names is None:
            into.add(alias or path.split(".")[-1])
        else:
            for it in names.split(","):
                into.update(re.split(r"\s+as\s+", it.strip()))
    return own, other


def main():
    check = "--check" in sys.argv[1:]
    table, where, modules = {}, {}, {}
    for path in files(".antt"):
        if is_proof(path):
            continue
        names = declared(read(path))
        modules[path] = names
        for name in names:
            bare = name.strip("◌")
            new = spelled(bare)
            if new != bare:
                table[bare] = new
                where.setdefault(bare, set()).add(path)
    # Two names of one file that would be one: the lemma, which has a dash, gets `_lem` everywhere.
    together = True
    while together:
        together = set()
        for path in files(".antt", ".rt"):
            text = read(path)
            own, other = imports(text)
            held = {n for it in other for n in (it, it.strip("◌"))} - own
            if path.endswith(".rt"):
                present = own
            else:
                present = set(TOKEN.findall(re.sub(r"(?<=[\w)'])\.[\w'-]+|^ *(?:pub )?use [^{\n]*", "", re.sub(r"--.*", "", text), flags=re.M)))
            news = {}
            for token in present:
                bare = token.strip("◌")
                if is_proof(path) and bare not in own:
                    continue
                news.setdefault(bare if bare in held else table.get(bare, bare), set()).add(bare)
            together |= {it for olds in news.values() if len(olds) > 1 for it in olds if "-" in it and it in table}
        for it in together:
            table[it] += "_lem"
            print(f"{it}: {table[it]}")
    clash = []
    for path, names in modules.items():
        byname = {}
        for name in names:
            byname.setdefault(table.get(name, name), set()).add(name)
        clash += [f"{path}: {sorted(olds)} would both be {new}" for new, olds in byname.items() if len(olds) > 1]
    changed = 0
    for path in files(".antt", ".rt", ".edit"):
        text = read(path)
        with open(path, encoding="utf-8") as f:
            before_all = f.read()
        own, other = imports(text)
        held = {n for it in other for n in (it, it.strip("◌"))} - own
        if path.endswith(".edit"):
            held = set()
        # what stands there already: in code a function may have a definition's name, but no parameter, field or local; behind a dot a step or a field stands, and in a path a module
        if path.endswith(".rt"):
            present = set(re.findall(r"(?<![\w.:])([a-z]\w*) ?:(?!:)", text)) | set(re.findall(r"\blet (?:mut )?(\w+)", text))
        else:
            present = set(TOKEN.findall(re.sub(r"(?<=[\w)'])\.[\w'-]+|^ *(?:pub )?use [^{\n]*", "", re.sub(r"--.*", "", text), flags=re.M)))

        def turned(m):
            token = m[0]
            bare = token.strip("◌")
            if bare not in table or bare in held:
                return token
            before = text[: m.start()]
            if is_proof(path) and re.search(r"(?:^|[^\w.'-])(?:tie|goal|Goals)\.$", before[-12:]):
                return token
            new = token.replace(bare, table[bare])
            if before[-1:] == "." and new.endswith("_lem"):
                new = new[: -len("_lem")]
            if new in present:
                clash.append(f"{path}: {token} would be {new}, which is there already")
            return new

        if path.endswith(".rt"):
            # code and strings have no such name; a dash in code is a minus between spaces
            pieces = re.split(r'("(?:[^"\\\n]|\\.)*")', text)
            out, at = [], 0
            for k, piece in enumerate(pieces):
                if k % 2:
                    out.append(piece)
                else:
                    whole, text = text, piece
                    out.append(TOKEN.sub(turned, piece))
                    text = whole
            new = "".join(out)
        else:
            new = TOKEN.sub(turned, text)
        if new != before_all:
            changed += 1
            if not check:
                with open(path, "w", encoding="utf-8") as f:
                    f.write(new)
    for it in sorted(set(clash)):
        print(it)
    print(f"{len(table)} names, {changed} files, {len(set(clash))} that fall together")
    if not check:
        pages = ["README.md"] + sorted(os.path.join("docs", n) for n in os.listdir(os.path.join(ROOT, "docs")) if n.endswith(".md") and n not in ("PORT.md", "CHANGES.md"))
        for page in pages:
            text = read(os.path.join(ROOT, page))
            new = re.sub(r"`[^`\n]*`", lambda m: TOKEN.sub(lambda t: table.get(t[0], t[0]), m[0]) if "/" not in m[0] else m[0], text)
            if new != text:
                with open(os.path.join(ROOT, page), "w", encoding="utf-8") as f:
                    f.write(new)
    return 1 if clash else 0


if __name__ == "__main__":
    sys.exit(main())
