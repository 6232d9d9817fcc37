#!/usr/bin/env python3
"""shapes.py [TOP]: the functions of crates/*/src that have one shape: equal but for the names and the numbers in them. A line for each group."""
import re
import sys
from collections import defaultdict
from pathlib import Path

KEPT = set("fn pub mut let for in while loop if else match return break continue as ref move impl struct enum true false".split())
TOKEN = re.compile(r"b?'(?:\\.|[^'\\])'|b?\"(?:\\.|[^\"\\])*\"|[A-Za-z_]\w*|\d\w*|[^\s\w]")


def functions(text):
    """Yields each function's name, and its text without comments and clauses."""
    text = re.sub(r"//[^\n]*", "", text)
    for found in re.finditer(r"\bfn (\w+)", text):
        at, depth = found.end(), 0
        head = ""
        while text[at] != ";":
            clause = re.compile(r"\s*(requires|ensures|ghost)\b[^{]*").match(text, at)
            if clause and depth == 0:
                at, level = clause.end(), 0
                while True:
                    level += {"{": 1, "}": -1}.get(text[at], 0)
                    at += 1
                    if level == 0:
                        break
                continue
            if text[at] == "{" and depth == 0:
                break
            depth += {"(": 1, "[": 1, ")": -1, "]": -1}.get(text[at], 0)
            head += text[at]
            at += 1
        else:
            continue
        start, level = at, 0
        while True:
            level += {"{": 1, "}": -1}.get(text[at], 0)
            at += 1
            if level == 0:
                break
        yield found[1], head + text[start:at]


def shape(text):
    told = []
    for it in TOKEN.findall(text):
        it = it if it in KEPT or not re.match(r"[A-Za-z_]", it) else "x"
        told.append("0" if re.match(r"\d", it) else "'" if re.match(r"b?['\"]", it) else it)
    # a path is one name
    return re.sub(r"x(?: : : x)+", "x", " ".join(told))


groups = defaultdict(list)
top = Path(sys.argv[1] if sys.argv[1:] else ".")
for file in sorted(top.glob("crates/*/src/**/*.rt")):
    crate = file.relative_to(top / "crates").parts[0]
    for name, text in functions(file.read_text()):
        groups[shape(text)].append(f"{crate}::{name}")
found = sorted((it for it in groups.items() if len(it[1]) > 1 and len(it[0].split()) >= 24), key=lambda it: -len(it[1]))
for told, names in found:
    print(f"{len(names)} of {len(told.split())} tokens: {' '.join(names)}")
print(f"{len(found)} shapes, {sum(len(it[1]) for it in found)} functions")
