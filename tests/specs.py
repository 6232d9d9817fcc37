"""Holds README's table of what to read to the tree: its files exist and have as many lines as it says, the files of the crates named
terms and those that README names are among them, and by their imports they and the exported functions' contracts rest on no other.

A cell has crates in backticks, each alone, which means all its files, or with its files behind a colon: `crate`: File, File; `crate`
"""
import pathlib
import re
import sys

EXPORTS = "tealbobbin_c"
ROW = re.compile(r"^\| \d+ \| (`[^|]*) \| ([\d,]+) \| [^|]* \|$", re.M)
IMPORT = re.compile(r"^ *(?:pub |ghost )?use Rattle\.(\w+)\.(specs|proofs)(?:\.(\w+))?", re.M)

CRATES = {path.name: path for path in pathlib.Path("crates").iterdir()}
FILES = {(name, path.stem): path for name, crate in CRATES.items() for path in crate.glob("specs/*.antt") if path.stem != "Lib"}
README = pathlib.Path("README.md").read_text()
faults, listed = [], set()

for cell, lines in ROW.findall(README):
    crate, here = None, []
    for item in re.split("[,;] *", cell):
        found = re.fullmatch(r"`(\w+)`(?:: (\w+))?|(\w+)", item)
        crate = found and found[1] or crate
        name = found and (found[2] or found[3])
        files = [file for file in FILES if found and file[0] == crate and name in (None, file[1])]
        here += files
        if not files:
            faults.append(f"there is no: {item}")
    counted = sum(len(FILES[file].read_text().splitlines()) for file in here)
    if counted != int(lines.replace(",", "")):
        faults.append(f"{cell}: {counted:,} lines, not {lines}")
    listed.update(here)


def rests_on(crate, file):
    """The files that a file imports; it may speak of contracts, whose crate then stands for a file."""
    paths = [FILES[crate, file]] if file else CRATES[crate].glob("src/*.rt")
    for path in paths:
        for other, kind, name in IMPORT.findall(path.read_text()):
            # the kit's std is trusted, and a declared type stands in src/
            if other in CRATES and name != "declared":
                yield other, name if kind == "specs" and name != "contracts" else None


seen, left = set(), [(EXPORTS, None), *(file for file in FILES if file in listed or file[0].startswith("terms"))]
left += re.findall(r"crates/(\w+)/specs/(\w+)\.antt", README)
while left:
    file = left.pop()
    if file in seen:
        continue
    seen.add(file)
    if file[1] and file not in listed:
        faults.append(f"does not list {file[0]}: {file[1]}")
    if not file[1] or file in FILES:
        left += rests_on(*file)
sys.exit("\n".join(f"README.md: {fault}" for fault in faults) or 0)
