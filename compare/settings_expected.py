#!/usr/bin/env python3
"""Works out, apart from the proved code, what the calls of crates/stored answer, and prints their lines.

    compare/settings_expected.py | cmp - crates/stored/stdout

It reads the rows in crates/stored/stdin, where they are explained."""
import pathlib
import struct

EDGES = (1, 2, 4, 8, 16, 32, 64)
KINDS = (6, 18, 26)
FAR = 1048576


def wrong(edge, kind, origin):
    """The name of what is wrong with settings, or None."""
    if edge not in EDGES:
        return "bad edge"
    if kind not in KINDS:
        return "bad kind"
    if max(map(abs, origin)) > FAR:
        return "bad origin"
    return None


def records(data, version):
    """The records as (grid, settings, bytes), or the first fault with its place."""
    at, found = 0, []
    while at < len(data):
        mark = data[at:at + 2]
        size = {b"Y1": 12, b"Y2": 24}.get(mark)
        if len(mark) < 2:
            return "cut end at %d" % at
        if size is None:
            return "bad mark at %d" % at
        if size == 24 and version == 1:
            return "newer record at %d" % at
        record = data[at:at + size]
        if len(record) < size:
            return "cut end at %d" % at
        grid, edge, kind = struct.unpack_from("<QBB", record, 2)
        origin = struct.unpack_from("<iii", record, 12) if size == 24 else (0, 0, 0)
        name = wrong(edge, kind, origin)
        if name:
            return "%s at %d" % (name, at)
        found.append((grid, "edge %d kind %d origin %d %d %d" % (edge, kind, *origin), record))
        at += size
    return found


def reading(s, n, grid, version):
    if n > len(s):
        return "overlong"
    found = records(bytes(s[:n]), version)
    if isinstance(found, str):
        return found
    return dict((g, text) for g, text, _ in found).get(grid, "not found")


def read(s, _, n, grid):
    print("read: %s; %s" % (reading(s, n, grid, 1), reading(s, n, grid, 2)))


def write(s, _, n, grid, edge, kind, *origin):
    if n > len(s):
        answer = "overlong"
    elif wrong(edge, kind, origin):
        answer = wrong(edge, kind, origin)
    elif len(s) < n + 24:
        answer = "8, length needed %d" % (n + 24)
    else:
        s[n:n + 24] = b"Y2" + struct.pack("<QBBiii", grid, edge, kind, *origin)
        answer = "length %d" % (n + 24)
    print("write: " + answer)


def keep(s, scratch, n):
    found = "overlong" if n > len(s) else records(bytes(s[:n]), 2)
    if isinstance(found, str):
        print("keep: " + found)
        return
    last = {grid: i for i, (grid, _, _) in enumerate(found)}
    kept = b"".join(record for i, (grid, _, record) in enumerate(found) if last[grid] == i)
    s[:n] = kept + bytes(n - len(kept))
    scratch[:] = [0] * len(scratch)
    print("keep: length %d" % len(kept))


def put(s, _, at, b):
    s[at] = b


def old(s, _, at, grid, edge, kind):
    s[at:at + 12] = b"Y1" + struct.pack("<QBB", grid, edge, kind)


def slice_of(s, _, n, b):
    s[:] = bytes([b] * n)


def scratch_of(_, t, n, w):
    t[:] = [w] * n


ROWS = {
    "read": read,
    "write": write,
    "keep": keep,
    "put": put,
    "old": old,
    "slice": slice_of,
    "scratch": scratch_of,
    "bytes": lambda s, _: print(s.hex()),
    "words": lambda _, t: print("scratch: " + " ".join(map(str, t))),
}
lent, scratch = bytearray(), []
rows = pathlib.Path(__file__).parent.parent / "crates/stored/stdin"
for line in rows.read_text().split("\n"):
    row = line.split("%")[0].split()
    if row:
        ROWS[row[0]](lent, scratch, *map(int, row[1:]))
