#!/usr/bin/env python3
"""tools/snake_names.py [FOLDER]: brings the repository's own definitions and lemmas to snake case, in place.

A word that begins with a small letter and has a capital inside (`cellAt`, also as a part between dashes) becomes `cell_at`, in .antt and
.rt files, in must-fail edits, and between backticks in the pages. Lemmas whose names would then be a definition's get their dash back
(DASHED): these names had a dash before. Functions, types and strings have no such words. Run it once, after port.py.
"""
import os
import re
import sys

KEPT = {"not_T", "is_Within"}
DASHED = ["all_in", "joined_in", "walk_first", "cells_at", "ids_at", "one_more", "row_list", "take_next", "number_by", "units_of", "is_found", "too_short"]
PART = re.compile(r"[a-z][a-z0-9_ℕℤ]*[A-Z]")
WORD = re.compile(r"[^\W\d][\w'-]*", re.UNICODE)
LEMMA = re.compile(r"(?<![\w.'-])(" + "|".join(DASHED) + r")(?![\w'-])")


def snake(part):
    if not PART.match(part) or part in KEPT:
        return part
    part = re.sub(r"([a-z0-9'])([A-Z])", r"\1_\2", part)
    return re.sub(r"([A-Z])([A-Z][a-z])", r"\1_\2", part).lower()


def turned(text):
    return WORD.sub(lambda m: "-".join(snake(p) for p in m.group(0).split("-")), text)


def dashed(text):
    """Lemmas get their dash back; lines of comments name functions too, and stay."""
    lines = text.split("\n")
    return "\n".join(l if l.lstrip().startswith("--") else LEMMA.sub(lambda m: m.group(1).replace("_", "-"), l) for l in lines)


def page(text):
    return re.sub(r"`[^`\n]*`", lambda m: turned(m.group(0)), text)


def files(top):
    for folder, inner, names in os.walk(top):
        inner[:] = [d for d in inner if d not in (".git", "out", "wip", "tools")]
        for name in sorted(names):
            yield os.path.join(folder, name)


def main(top):
    for path in files(top):
        kind = os.path.splitext(path)[1]
        if kind not in (".antt", ".rt", ".edit", ".md"):
            continue
        with open(path, encoding="utf-8") as f:
            old = f.read()
        if kind == ".md":
            new = page(old)
        else:
            new = turned(dashed(old) if kind == ".antt" else old)
        if new != old:
            with open(path, "w", encoding="utf-8") as f:
                f.write(new)


main(sys.argv[1] if len(sys.argv) > 1 else ".")
