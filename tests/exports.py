"""Holds what `tealbobbin_c` exports to the public functions of `tealbobbin`: the same names, parameters, answers and clauses, each
name in these imported as there; and each body is the call of the function of that name with the parameters as they stand.

So what is proved of the contracts of `tealbobbin` (`terms_calls`) holds of the functions that C calls.
"""
import pathlib
import re
import sys


def functions(crate, begins):
    """By name, a function's parameters, its answer with its clauses, and its body, without layout; and what is imported for clauses."""
    found, uses = {}, set()
    for file in pathlib.Path(f"crates/{crate}/src").rglob("*.rt"):
        text = file.read_text()
        for path, names in re.findall(r"^ghost use (.*)\.\{(.*)\};$", text, re.M):
            uses |= {f"{path}.{it.strip()}" for it in names.split(",")}
        uses |= set(re.findall(r"^ghost use [^{}]*;$", text, re.M))
        for name, parameters, clauses, body in re.findall(rf"^{begins}fn (\w+)\(([^)]*)\)(.*?)^{{\n(.*?)^}}$", text, re.M | re.S):
            flat = [re.sub(r"\s+", " ", part).strip(" ,") for part in (parameters, clauses, body)]
            found[name] = flat
    return found, uses


here, uses = functions("tealbobbin", r"pub ")
exported, its_uses = functions("tealbobbin_c", r"#\[unsafe\(no_mangle\)\]\npub extern \"C\" ")
faults = [f"crates/tealbobbin_c: {it} is not imported so in tealbobbin" for it in sorted(its_uses - uses)]
for name in sorted(here.keys() | exported.keys()):
    if name not in here or name not in exported:
        faults.append(f"{name} is in one of tealbobbin and tealbobbin_c alone")
        continue
    if here[name][:2] != exported[name][:2]:
        faults.append(f"{name}: tealbobbin and tealbobbin_c differ in its parameters or clauses")
    arguments = ", ".join(re.findall(r"(\w+):", exported[name][0]))
    if re.sub(r"\( | \)|, \)", lambda it: it[0].strip(" ,"), exported[name][2]) != f"tealbobbin::{name}({arguments})":
        faults.append(f"{name}: its body in tealbobbin_c is no plain call: {exported[name][2]}")
sys.exit("\n".join(faults) or (0 if here else "no function was found"))
