#!/usr/bin/env python3
"""Works out by exact fractions, apart from the proved code, what the reports of crates/reported make, and prints one line each.

    compare/metres_expected.py | cmp - crates/reported/stdout

It reads the calls in crates/reported/src/cases.rt."""
import math
import pathlib
import re
import struct
from fractions import Fraction

FAR = 1048576
EDGES = (1, 2, 4, 8, 16, 32, 64)


def nearest(exact):
    """The float nearest to a fraction, ties to even; a zero is plus zero."""
    return float(exact) + 0.0


def place(x, origin):
    """A coordinate less the origin's with one rounding, or None where that may not be."""
    if not math.isfinite(x):
        return None
    try:
        p = nearest(Fraction(x) - Fraction(origin))
    except OverflowError:
        return None
    return p if abs(p) <= FAR else None


def is_origin(x):
    return math.isfinite(x) and Fraction(x).denominator == 1 and abs(x) <= FAR


def first(fails):
    return [bool(f) for f in fails].index(True)


def bits(x):
    return "nan" if x != x else "%016x" % struct.unpack(">Q", struct.pack(">d", x))[0]


def event(frame, report, entity, grid):
    *origin, edge = frame
    if edge not in EDGES:
        return "refused 11 at 0 axis 0"
    if not all(map(is_origin, origin)):
        return "refused 11 at 1 axis %d" % first(not is_origin(o) for o in origin)
    if report is None:
        return "no event"
    coordinates, error = report
    places = [place(x, o) for x, o in zip(coordinates, origin)]
    if None in places:
        return "refused 10 at 0 axis %d" % places.index(None)
    if error is not None and not (math.isfinite(error) and error >= 0):
        return "refused 10 at 1 axis 0"
    cells = [math.floor(Fraction(p) / Fraction(edge)) for p in places]
    offsets = [bits(nearest(Fraction(p) - c * Fraction(edge))) for p, c in zip(places, cells)]
    margin = "fix" if error is None else "within " + bits(error)
    return "event entity %d grid %d cell %d %d %d offset %s %s" % (entity, grid, *cells, " ".join(offsets), margin)


NAMES = {
    "frame": lambda x, y, z, edge: (x, y, z, edge),
    "cells": lambda edge: (0.0, 0.0, 0.0, edge),
    "fix": lambda f, x, y, z: print(event(f, ((x, y, z), None), 7, 3)),
    "reckoned": lambda f, x, y, z, err: print(event(f, ((x, y, z), err), 8, 2**64 - 1)),
    "nothing": lambda f: print(event(f, None, 9, 3)),
    "nan": math.nan,
    "inf": math.inf,
}
cases = pathlib.Path(__file__).parent.parent / "crates/reported/src/cases.rt"
lines = r"^    (?:let )?((?:\w+ = (?:frame|cells)|fix|reckoned|nothing)\(.*\));$"
for line in re.findall(lines, cases.read_text(), re.MULTILINE):
    exec(line, NAMES)
