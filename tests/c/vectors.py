"""vectors.py PROGRAM FILE: runs examples/c/open.c, or terminals.c, on the batches of FILE, which has the original's answers;
src/main.rt beside it says how it is laid out.

Prints each batch for which it prints something else than the original's answer; exit status 1 if there is any, or no batch.
"""
import struct
import subprocess
import sys

COLUMNS, WORDS = 11, 33
program, path = sys.argv[1:]
with open(path, "rb") as file:
    data = file.read()

at = batches = wrong = 0
while at < len(data):
    number, length = struct.unpack_from("<BH", data, at)
    batch = data[at + 3 : at + 3 + length]
    cells = struct.unpack_from(f"<{WORDS}Q", data, at + 3 + length)
    at += 3 + length + 8 * WORDS
    lines = [f"{c} {cells[3 * c]} {cells[3 * c + 1]} {cells[3 * c + 2]}\n" for c in range(COLUMNS)]
    due = (3, f"refused {number}\n") if number else (0, "".join(lines))
    ran = subprocess.run([program], input=batch, stdout=subprocess.PIPE, timeout=60)
    if (ran.returncode, ran.stdout.decode()) != due:
        print(f"batch {batches}: {ran.stdout.decode()!r}, not {due[1]!r}")
        wrong += 1
    batches += 1
sys.exit(wrong > 0 or batches == 0)
