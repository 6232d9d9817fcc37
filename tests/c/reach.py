"""reach.py LIBRARY NAME: the exported functions that may call the function of this name, itself or through others, one a line.

Every function has a section of its own, and a call names its callee or the callee's section. It is an error if there is no NAME.
"""
import re
import subprocess
import sys

library, name = sys.argv[1:]
callers = {}
for line in subprocess.run(["objdump", "-dr", library], capture_output=True, check=True, text=True).stdout.splitlines():
    if begins := re.fullmatch(r"[0-9a-f]+ <(.+)>:", line):
        function = begins[1]
        callers.setdefault(function, set())
    elif named := re.search(r": R_X86_64_\w+\t(?:\.text\.)?(.+?)(?:[-+]0x[0-9a-f]+)?$", line):
        callers.setdefault(named[1], set()).add(function)
left = [function for function in callers if function.split("::")[-1] == name]
if not left:
    sys.exit(f"reach.py: {library} has no function {name}")
reached = set(left)
while left:
    new = callers[left.pop()] - reached
    reached |= new
    left += new
print("\n".join(sorted(function for function in reached if "::" not in function)))
