"""prototypes.py HEADER SOURCE..: holds the header's prototypes equal to the functions that the Rattle sources export.

A slice parameter is a pointer and a count. Prints what only one of the two has; exit status 1 if there is any.
"""
import re
import sys

TYPES = {"u8": "uint8_t", "u32": "uint32_t", "u64": "uint64_t", "usize": "size_t"}


def declared(header):
    code = re.sub(r"/\*.*?\*/", "", header, flags=re.S)
    return {" ".join(found.split()) for found in re.findall(r"\w+ tealbobbin_\w+\([^)]*\)", code)}


def parameter(name, kind):
    lent = re.fullmatch(r"&(mut )?\[(\w+)\]", kind)
    if not lent:
        return f"{TYPES[kind]} {name}"
    const = "" if lent[1] else "const "
    return f"{const}{TYPES[lent[2]]} *{name}, size_t {name}_count"


def exported(source):
    for name, parameters, answer in re.findall(r'extern "C" fn (tealbobbin_\w+)\(([^)]*)\) -> (\w+)', source):
        pairs = (pair.split(":") for pair in parameters.split(",") if pair.strip())
        yield f"{TYPES[answer]} {name}({', '.join(parameter(n.strip(), k.strip()) for n, k in pairs)})"


header = declared(open(sys.argv[1]).read())
library = {prototype for path in sys.argv[2:] for prototype in exported(open(path).read())}
for prototype in sorted(header - library):
    print("only in the header:", prototype)
for prototype in sorted(library - header):
    print("only exported:", prototype)
sys.exit(header != library or not header)
