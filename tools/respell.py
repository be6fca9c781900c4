#!/usr/bin/env python3
"""Brings this repository's own definitions and lemmas to today's spelling: words in snake case. Run once, at the top, after port.py.

A name in camel case that a .antt file has, as bytesNumber, becomes bytes_number wherever it stands: in specs/, proofs/, clauses, must-fail
edits and the pages of docs/ (docs/notes/ aside). A dash keeps joining the parts of a name. Strings and the rest of the code keep theirs:
no name of src/ is in camel case. Where a lemma already had the new name of a definition, the lemma gets _lem.
"""
import os
import re

SEGMENT = re.compile(r"(?<![\w'])[A-Za-z_][A-Za-z0-9_'₀-₉]*")
CAMEL = re.compile(r"^[a-z][a-z0-9]*([A-Z][A-Za-z0-9]*)+'*[₀-₉]*$")
# lemmas and locals that had, with a dash, what is now a definition's name
LEMMAS = ("too_many passes_count walked_to written_in quiet_step by_form count_at row_before front_length list_length too_long in_order"
          " tail_of same_answer").split()
OTHER = {"getD": "get_or"}


def snake(name):
    return OTHER.get(name) or re.sub(r"[A-Z]", lambda it: "_" + it[0].lower(), name)


def files():
    for top in ("crates", "docs"):
        for folder, dirs, names in os.walk(top):
            dirs[:] = sorted(it for it in dirs if it not in ("out", "notes"))
            for name in sorted(names):
                if name.endswith((".antt", ".rt", ".edit", ".md")):
                    yield os.path.join(folder, name)
    yield "README.md"


def read(path):
    with open(path, encoding="utf-8") as file:
        return file.read()


def code(text):
    return re.sub(r"--.*", "", text)


def main():
    paths = list(files())
    texts = {it: read(it) for it in paths}
    words = {s for p, t in texts.items() if p.endswith(".antt") for s in SEGMENT.findall(code(t))}
    camel = {it for it in words if CAMEL.match(it)}
    if not camel:
        return
    # port.py gave some of them their new spelling already, but not in pages and edits
    camel |= {s for p, t in texts.items() if p.endswith((".md", ".edit")) for s in SEGMENT.findall(t) if CAMEL.match(s) and snake(s) in words}
    bare = re.compile(r"(?<![\w'.\-])(" + "|".join(LEMMAS) + r")(?![\w'\-])")
    for path, old in texts.items():
        new = old
        if path.endswith(".antt") and "/proofs/" in path:
            new = "".join(it if it.startswith("--") else bare.sub(r"\1_lem", it) for it in re.split(r"(--.*)", new))
        new = SEGMENT.sub(lambda it: snake(it[0]) if it[0] in camel else it[0], new)
        if new != old:
            with open(path, "w", encoding="utf-8") as file:
                file.write(new)


main()
