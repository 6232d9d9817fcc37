"""Holds the theorems that README calls proved, and those in docs/TRACE.md's columns of theorems, to the proofs: each is stated in
some file of specs/, and in the same crate a declaration of proofs/ has the statement for its type.

`rt ci` checks every file of proofs/ but knows no list of theorems: one whose proof is gone would pass it.
"""
import pathlib
import re
import sys

STATED = re.compile(r"^(?:(?:pub|abbrev|unfoldable) )*(?:record )?([A-Z]\w*) : Type\b", re.M)
PROVED = re.compile(r"^(?:pub )?[^\s:]+ : (?:\w+\.)?([A-Z]\w*)$", re.M)


def found(pattern, part):
    """The crates whose files of that part have the name."""
    names = {}
    for path in pathlib.Path("crates").glob(f"*/{part}/*.antt"):
        for name in pattern.findall(path.read_text()):
            names.setdefault(name, set()).add(path.parts[1])
    return names


stated, proved = found(STATED, "specs"), found(PROVED, "proofs")
claims = re.search(r"^\*\*Proved\*\*.*?^\*\*Tested\*\*", pathlib.Path("README.md").read_text(), re.M | re.S)[0]
named = {name: "README.md" for name in re.findall(r"`([A-Z]\w*)`", claims)}
faults = [f"README.md: `{name}` is stated nowhere" for name in named if name not in stated]
columns = []
for line in pathlib.Path("docs/TRACE.md").read_text().splitlines():
    cells = line.strip("| ").split(" | ")
    columns = columns or [place for place, cell in enumerate(cells) if "theorem" in cell] if line.startswith("|") else []
    for place in (place for place in columns if place < len(cells)):
        # a name behind a crate's is a type or a file
        for name in re.findall(r"(?<![\w`] )`([A-Z]\w*)`", cells[place]):
            if name in stated:
                named.setdefault(name, "docs/TRACE.md")
faults += [f"{page}: `{name}` is not proved in {', '.join(sorted(stated[name]))}"
           for name, page in named.items() if not stated.get(name, set()) <= proved.get(name, set())]
sys.exit("\n".join(faults) or 0)
