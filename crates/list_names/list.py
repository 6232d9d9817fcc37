# Prints what the program must print, from the Rust's source: python3 list.py docs/src >stdout
# The instructions are those of list_instructions, by opcode; columns and challenges are the variants of their enums.
import os
import re
import sys

here = os.path.dirname(os.path.abspath(__file__))
air = os.path.join(sys.argv[1], "triton-air", "src")


def variants(file, enum):
    rust = open(os.path.join(air, file)).read()
    body = rust[rust.index("pub enum " + enum + " {") :].split("\n}")[0]
    return re.findall(r"^    (\w+),$", body, re.M)


instructions = [line.split()[:2] for line in open(os.path.join(here, "..", "list_instructions", "stdin"))]
for name, opcode in sorted(instructions, key=lambda line: line[1]):
    print("instruction", name, int(opcode))
for kind, file, enum in [
    ("main", "table_column.rs", "ProcessorMainColumn"),
    ("auxiliary", "table_column.rs", "ProcessorAuxColumn"),
    ("challenge", "challenge_id.rs", "ChallengeId"),
]:
    for place, name in enumerate(variants(file, enum)):
        print(kind, name, place)
