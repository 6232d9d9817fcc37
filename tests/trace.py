"""Holds docs/TRACE.md to the tree: whatever it names exists, and it names every must-fail edit.

In a cell, a crate in backticks is followed by its files of specs/ or proofs/, and a file by its declarations in backticks; any
other name in backticks is a function, a type, a program or a declaration of some file of specs/. Where edits stand, a lone word
behind CRATE/LABEL is a further label of the crate.
"""
import fnmatch
import pathlib
import re
import sys

EDIT_COLUMNS = {"edit", "where", "refused as"}
CRATES = {path.name: path for path in pathlib.Path("crates").iterdir()}
FILES = {(name, path.stem): path for name, crate in CRATES.items() for kind in ("proofs", "specs") for path in crate.glob(f"{kind}/*.antt")}
EDITS = {f"{name}/{path.stem}" for name, crate in CRATES.items() for path in crate.glob("must-fail/*.edit")}


def declared(path):
    """The records, types, definitions and fields of a file."""
    found = re.findall(r"^ *(?:(?:pub|abbrev|unfoldable) )*(?:(?:record|data) (\S+)|(?!let |-- )((?:[^\s(){}:]+ )+)(?:\{\S+\} )?:)", path.read_text(), re.M)
    return {name for line in found for name in " ".join(line).split()}


def items(crate):
    """Modules, functions and types of a crate."""
    sources = list(crate.glob("src/*.rt"))
    text = "".join(path.read_text() for path in sources)
    return {path.stem for path in sources} | set(re.findall(r"^ *(?:pub(?:\(crate\))? |extern \"C\" )*(?:fn|struct|enum) (\w+)", text, re.M))


ITEMS = {name: items(crate) for name, crate in CRATES.items()}
STATED = {name for path in FILES.values() if path.parent.name == "specs" for name in declared(path)}
PROGRAMS = {path.stem for path in pathlib.Path("bindings").glob("*/src/bin/*")}
KNOWN = set(CRATES) | STATED | PROGRAMS | set().union(*ITEMS.values())


def exists(name, crate, file):
    """Whether there is what stands in backticks, behind a crate and a file of its."""
    if re.fullmatch(r"[\w/.]+[/.]\w+", name):
        return any(pathlib.Path(".").glob(name)) or any(pathlib.Path("bindings").rglob(name))
    if re.search(r"[^\w*:-]", name):
        return True  # code, not a name
    if "::" in name:
        first, *rest = name.split("::")
        of = ITEMS.get(first) or set().union(*(own for own in ITEMS.values() if first in own))
        return all(fnmatch.filter(of, part) for part in rest)
    if file:
        return name in declared(FILES[crate, file]) | ITEMS[crate]
    return bool(fnmatch.filter(KNOWN, name))


def unknown_names(cell, files):
    crate = file = None
    for quoted, word in re.findall(r"`([^`]+)`|(?<!\w)([A-Z]\w+)", cell):
        if quoted in CRATES:
            crate, file = quoted, None
        elif quoted:
            if not exists(quoted, crate, file):
                yield f"`{quoted}`" + (f" in {crate} {file}" if file else "")
        elif crate and files:
            file = word if (crate, word) in FILES else None
            if not file:
                yield f"file {word} of {crate}"


def edits(cell):
    crate = "?"
    for item in re.split(r"[,;()]", re.sub(r"(?:programs? )?`[^`]*`", "", cell)):
        if found := re.fullmatch(r" *(?:([a-z0-9_]+)/)?([a-z0-9_]+) *", item):
            crate = found[1] or crate
            yield f"{crate}/{found[2]}"


faults, named, header = [], set(), []
for number, line in enumerate(pathlib.Path("docs/TRACE.md").read_text().splitlines(), 1):
    cells = line.strip("| ").split(" | ")
    if not line.startswith("|"):
        header = []
    elif not header:
        header = cells
    for place, cell in enumerate(cells):
        wrong = list(unknown_names(cell, place > 0))
        if header and cells != header and header[place] in EDIT_COLUMNS:
            here = set(edits(cell))
            named |= here
            wrong += [edit for edit in here - EDITS if not pathlib.Path(edit).is_file()]
        faults += [f"docs/TRACE.md:{number}: there is no {name}" for name in wrong]
faults += [f"docs/TRACE.md does not name the edit {edit}" for edit in sorted(EDITS - named)]
sys.exit("\n".join(faults) or 0)
