#!/usr/bin/env python3
"""facts.py [TOP]: facts that stand in the requires of three or more functions of crates/*/src, with _ for each value, and in how many functions."""
import re
import sys
from collections import defaultdict
from pathlib import Path

found = defaultdict(set)
top = Path(sys.argv[1] if sys.argv[1:] else ".")
for file in sorted(top.glob("crates/*/src/**/*.rt")):
    crate, name = file.relative_to(top / "crates").parts[0], ""
    for line in file.read_text().splitlines():
        begun = re.search(r"\bfn (\w+)", line)
        name = begun[1] if begun else name
        clause = re.match(r"\s*requires\*?(?: \w+)? \{ (.*) \}$", line)
        for fact in re.split(r" × ", clause[1]) if clause else []:
            told = re.sub(r"\b[a-z]\w*(?:\.(?:now|old|entry|\w+))*\b(?!\()|\b\d+\b", lambda it: it[0] if it[0] in ("length", "rows", "true", "all_below") else "_", fact)
            found[re.sub(r"^\(|\)$", "", told.strip()) if told.count("(") == told.count(")") and told.startswith("(") and told.endswith(")") else told.strip()].add(f"{crate}::{name}")
for told, names in sorted(found.items(), key=lambda it: -len(it[1])):
    if len(names) > 2:
        print(f"{len(names)}: {told}")
