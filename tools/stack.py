"""Prints how many bytes of stack a call of a function may take: the deepest sum of frames below it, in the machine code.

Usage: stack.py PROGRAM NAME, where NAME is a part of the function's symbol. Frames are read from the pushes and from what
is taken off the stack pointer, calls and jumps between functions from their targets. A function of a shared library counts
for its return address alone. What is called is known by name, and nothing here recurs.
"""

import re
import subprocess
import sys

HEAD = re.compile(r"^[0-9a-f]+ <(.*)>:$")
CALL = re.compile(r"\b(call|j[a-z]+)\s+[0-9a-f]+ <(.*)>$")
TAKEN = re.compile(r"\bsub\s+\$0x([0-9a-f]+),%(rsp|r11|rax)$")
GIVEN = re.compile(r"\badd\s+\$(-?)0x([0-9a-f]+),%rsp$")


def functions(program):
    """The lines of each function."""
    text = subprocess.run(
        ["objdump", "-d", "--no-show-raw-insn", program], check=True, capture_output=True, text=True
    ).stdout
    found, name = {}, None
    for line in text.splitlines():
        head = HEAD.match(line)
        if head:
            name = head.group(1)
            found[name] = []
        elif name and "\t" in line:
            found[name].append(line.split("\t", 1)[1].strip())
    return found


def frame(lines):
    """The most bytes that the function itself has on the stack, and the functions that it goes to, each with those bytes."""
    depth = most = 0
    probed = False
    for line in lines:
        taken = TAKEN.search(line)
        if line.startswith("push"):
            depth += 8
        elif line.startswith("pop"):
            depth -= 8
        elif taken and taken.group(2) == "rsp":
            # A large frame is taken a few pages at a time, in a loop whose end another register has.
            depth += 0 if probed else int(taken.group(1), 16)
            probed = False
        elif taken and taken.group(2) == "r11":
            depth += int(taken.group(1), 16)
            probed = True
        elif GIVEN.search(line):
            sign, size = GIVEN.search(line).groups()
            depth += int(size, 16) if sign else -int(size, 16)
        most = max(most, depth)
        if line.startswith("ret"):
            depth = most
    return most


def targets(name, lines):
    for line in lines:
        call = CALL.search(line)
        if call:
            target = call.group(2).rsplit("+0x", 1)[0]
            if target != name:
                yield call.group(1) == "call", target


def deepest(found, name, known):
    """The bytes below the return address of a call of the function."""
    if name not in known:
        known[name] = 0
        own = frame(found.get(name, []))
        most = own
        for is_call, target in targets(name, found.get(name, [])):
            below = deepest(found, target, known)
            most = max(most, own + 8 + below if is_call else below)
        known[name] = most
    return known[name]


def main():
    program, part = sys.argv[1:]
    found = functions(program)
    names = [name for name in found if part in name]
    if not names:
        sys.exit(f"stack.py: {program} has no function {part}")
    print(max(deepest(found, name, {}) for name in names))


main()
