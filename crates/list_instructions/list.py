# Prints the list that the program reads, from the Rust's source: python3 list.py instruction.rs >stdin
# A line for each variant of its instruction type, in its order: name, opcode, what the argument may be
# (- none, w any word, s 0 to 15, n 1 to 5) and the influence on the stack's height (nn: the argument).
import re
import sys

rust = open(sys.argv[1]).read()


def arms(function):
    body = rust[rust.rindex("pub const fn " + function + "(&self)") :].split("\n    }\n")[0]
    return dict(re.findall(r"AnInstruction::(\w+)(?:\(\w\))? => (.*),", body))


names, opcodes, influences = arms("name"), arms("opcode"), arms("op_stack_size_influence")
kinds = {"": "-", "BFieldElement": "w", "Dest": "w", "OpStackElement": "s", "NumberOfWords": "n"}
declared = rust[rust.index("pub enum AnInstruction") :].split("\n}")[0]
for variant, argument in re.findall(r"^    (\w+)(?:\((\w+)\))?,$", declared, re.M):
    change = influences[variant]
    if "num_words" in change:
        change = ("-" if change.startswith("-") else "+") + "nn"
    else:
        change = "%+03d" % int(change)
    print("%17s %03d %s %s" % (names[variant].strip('"'), int(opcodes[variant]), kinds[argument], change))
