#!/usr/bin/env python3
"""Brings this repository's own definitions and lemmas to today's spelling: words in snake case.

usage: python3 tools/respell.py [--list]      at the top, once, right behind the kit's port.py

A camel-case word becomes a snake-case one, and so does a word with dashes, but for the dash that
parts the name of a definition from what a lemma says of it (length-words, count-append). A lemma
that would have a definition's name gets _lem. Types, facts, functions of src/, exported names and
strings keep theirs, and so do names in capitals: with an underscore they would fall together with
the constants of src/, which clauses see by their own names. --list prints the renaming alone.
"""

import os
import re
import sys

TOKEN = re.compile(r"[^\s(){}\[\].,;:@\"|]+")
HEAD = re.compile(r"^(?:  |    )?((?:abbrev |unfoldable |pub )*)([^\s(){}:.,;]+)((?: [({][^)}]*[)}])*) : (.*)$")
BLOCK = re.compile(r"^( *)(?:pub )?(?:abbrev |unfoldable )?(?:pub )?(record|data) (\S+).* where$")
USE = re.compile(r"^use ([^\s{]+)\.\{(.*)\}$")
FIELD = re.compile(r"^ +(?:pub )?([^\s(){}:]+(?: [^\s(){}:]+)*) :")
# the functions that lemmas here begin with
HEADS = "length take drop map reverse append sum product count mul add sub pow mod el into normOf norm_of bytesOf bytes_of littleEndian little_endian".split()
PLAIN = "comm assoc refl sym same other one zero is by at spec".split()
WORDS = "let in λ use open module | [ ] =".split()
# the logic's and the tool's names, which files here repeat
KEPT = set("returns start statement".split())


def files(root, endings):
    for folder, dirs, names in os.walk(os.path.join(root, "crates")):
        dirs[:] = sorted(d for d in dirs if d != "out")
        for name in sorted(names):
            if name.endswith(endings):
                yield os.path.join(folder, name)


def of_function(path):
    return "/proofs/" in path and "/" in path.split("/proofs/")[1]


def snake(name):
    return re.sub(r"([a-z0-9₀-₉])([A-Z])", r"\1_\2", name).lower()


def names(root):
    """The definitions, lemmas, fields and constructors of the repository, which of them are fields, and what comes from elsewhere."""
    found, fields, others = set(), set(), set()
    own = os.listdir(os.path.join(root, "crates"))
    for path in files(root, ".antt"):
        block, inside = None, 1
        for line in open(path, encoding="utf-8"):
            line = line.rstrip("\n")
            it = USE.match(line)
            if it and not (it[1].startswith("Rattle.") and it[1].split(".")[1] in own):
                others.update(re.split(r"[,\s]+", re.sub(r"\S+ as ", "", it[2]).strip()))
            it = BLOCK.match(line)
            if it:
                block = it[2]
                inside = len(it[1]) + 1
                continue
            if len(line) - len(line.lstrip()) < inside:
                block = None
            if block:
                it = FIELD.match(line)
                for name in it[1].split() if it else ():
                    found.add(name)
                    if block == "record":
                        fields.add(name)
                continue
            it = HEAD.match(line)
            if it and it[2] not in WORDS and not (of_function(path) and (it[4].startswith(("tie.", "goal.", "{M : Type 1}")))):
                found.add(it[2])
    return found - others, fields


def respelled(name):
    if name.isupper():
        return name
    if name[0].isupper():
        head, dash, rest = name.partition("-")
        return head + dash + snake(rest).replace("-", "_")
    if "◌" in name:
        return name
    head, dash, rest = name.partition("-")
    dash = "-" if dash and head in HEADS and rest not in PLAIN else dash and "_"
    return snake(head) + dash + snake(rest).replace("-", "_")


def renaming(root):
    found, fields = names(root)
    new = {n: respelled(n) for n in sorted(found - KEPT)}
    definitions = {new[n] for n in new if n not in fields and "-" not in n}
    for n in new:
        if "-" in n and n not in fields and new[n] in definitions:
            new[n] += "_lem"
    return {n: to for n, to in new.items() if n != to}, fields


def apart(root, new):
    """Stops at names that fall together."""
    at = {}
    for old, name in new.items():
        at.setdefault(name, []).append(old)
    words = set()
    for path in files(root, ".antt"):
        words.update(TOKEN.findall(open(path, encoding="utf-8").read()))
    return [(name, olds) for name, olds in at.items() if len(olds) > 1 or name in words]


def turn(text, new, fields, aliases=True):
    """Renames whole words; one behind a dot only where it is a field or the path leads into this repository."""
    own = {it[2] for it in re.finditer(r"use (Rattle\.\S+) as (\S+?);?\s*$", text, re.M) if not it[1].endswith((".Tie", ".Lts", ".Goals", ".Reads", ".Met"))}

    def one(line):
        out, last = [], 0
        for it in TOKEN.finditer(line):
            word = it[0]
            if word not in new:
                continue
            before = line[: it.start()]
            if before.endswith("."):
                chain = re.search(r"([^\s(){}\[\],;:]*)\.$", before)[1]
                head = chain.split(".")[0]
                if not (word in fields or head in own or head == "Rattle"):
                    continue
            out.append(line[last : it.start()] + new[word])
            last = it.end()
        return "".join(out) + line[last:]

    lines = text.split("\n")
    for i, line in enumerate(lines):
        code, dashes, comment = line.partition("--") if line.lstrip().startswith("--") else (line, "", "")
        lines[i] = one(code) + dashes + comment
    return "\n".join(lines)


def turn_rust(text, new, fields):
    """In a .rt file only ghost text is turned: Rust has neither dashes in names nor words in camel case."""
    camel = {o: n for o, n in new.items() if "-" in o or re.search("[a-z0-9][A-Z]", o)}
    return turn(text, camel, fields)


def main(argv):
    root = "."
    new, fields = renaming(root)
    clashes = apart(root, new)
    if "--list" in argv:
        for old, name in new.items():
            print(old, name)
    for name, olds in clashes:
        print("respell: falls together:", name, *olds, file=sys.stderr)
    if "--list" in argv:
        return 0
    for path in files(root, (".antt", ".rt")):
        with open(path, encoding="utf-8") as f:
            text = f.read()
        to = turn(text, new, fields) if path.endswith(".antt") else turn_rust(text, new, fields)
        if to != text:
            with open(path, "w", encoding="utf-8") as f:
                f.write(to)
    return 0


if __name__ == "__main__":
    raise SystemExit(main(sys.argv[1:]))
