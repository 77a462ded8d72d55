"""Counts what docs/DESIGN-PASS.md counts over parameter lists and clauses: python3 tools/count_places.py [FOLDER]"""
import collections
import glob
import re
import sys

root = sys.argv[1] if len(sys.argv) > 1 else "."
functions, wide, pairs, facts = 0, [], 0, collections.Counter()
for path in sorted(glob.glob(root + "/crates/*/src/*.rt")):
    text = open(path).read()
    crate = path.split("/")[-3]
    for match in re.finditer(r"fn ([a-z_0-9]+)(<[^(]*>)?\(([^)]*)\)", text):
        functions += 1
        parameters = [p for p in match[3].split(",") if p.strip()]
        if len(parameters) >= 6:
            wide.append(f"{crate}::{match[1]}")
        if re.search(r"&(mut )?\[u(64|size|8)\][^,]*, *\n? *[a-z_]+: usize", match[3]):
            pairs += 1
    for match in re.finditer(r"requires[^{\n]*\{([^\n]*)\}\n", text):
        for fact in re.split(r"\) × \(", match[1].strip().strip("()")):
            facts[fact.strip()] += 1
often = [(f, n) for f, n in facts.most_common() if n >= 3]
print(f"{functions} functions, {len(wide)} with six parameters or more: {' '.join(wide)}")
print(f"{pairs} parameter lists with a slice and a number behind it")
print(f"{len(often)} facts in three contracts or more")
for fact, times in often:
    print(f"  {times} {fact}")
