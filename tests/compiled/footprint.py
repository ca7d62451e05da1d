#!/usr/bin/env python3
"""Holds the static library to what include/fortuna.h and README.md say of its size and its needs.

    tests/compiled/footprint.py ARCHIVE      a line for each function; exits 1 where something said is not so

Each exported function has a bound in the header's table, and needs no more stack than that (tests/compiled/stack.c, on
x86-64). The library calls memcpy and memset and nothing else, has no variables, and runs at any address."""
import re
import subprocess
import sys
import tempfile
from pathlib import Path

ROOT = Path(__file__).resolve().parents[2]
HEADER = ROOT / "include" / "fortuna.h"
README = ROOT / "README.md"
ROW = re.compile(r"^ +(fortuna_\w+) +([\d,]+)$", re.MULTILINE)
CALLED = {"memcpy", "memset"}
RELATIVE = {"R_X86_64_PC32", "R_X86_64_PLT32"}  # an address as a distance from the instruction


def said_by(*words):
    return subprocess.run(words, check=True, stdout=subprocess.PIPE, text=True).stdout


def bounds():
    """The header's table."""
    return {name: int(figure.replace(",", "")) for name, figure in ROW.findall(HEADER.read_text())}


def measured(archive):
    """For each function the stack that it needed, and the copies that it left: of K, and of V of CTR_DRBG or of the
    scheduler key."""
    with tempfile.TemporaryDirectory() as directory:
        program = Path(directory) / "stack"
        # all of C's functions found before the start: to find one at its first call would take stack too
        words = ["gcc", "-std=c11", "-O2", "-Wall", "-Wextra", "-Werror", "-pthread", "-Wl,-z,now"]
        source = Path(__file__).with_name("stack.c")
        subprocess.run([*words, f"-I{HEADER.parent}", "-o", program, source, archive], check=True)
        rows = [line.split() for line in said_by(program).splitlines()]
    return {name: (int(used), left) for name, used, *left in rows}


def copies_said(name, left):
    """Of the key before and after a call; for CTR_DRBG of V before and after it; of the scheduler key, which stays."""
    if not left:
        return ""
    said = f"; copies of K left: {left[0]} of the one before, {left[1]} of the one after"
    if not left[2:]:
        return said
    return f"{said}, of {f'the scheduler key {left[2]}' if 'keyed' in name else f'V {left[2]} and {left[3]}'}"


def stack_faults(archive, exported):
    table, found = bounds(), measured(archive)
    for name in sorted(exported | table.keys() | found.keys()):
        if name not in exported:
            yield f"{name} is not exported"
        elif name not in table:
            yield f"{name} has no bound in include/fortuna.h"
        elif name not in found:
            yield f"{name} is not measured by tests/compiled/stack.c"
        else:
            used, left = found[name]
            print(f"{name}: {used:,} bytes of stack, at most {table[name]:,} said{copies_said(name, left)}")
            if used > table[name]:
                yield f"{name} needs {used:,} bytes of stack, and include/fortuna.h says at most {table[name]:,}"


def link_faults(archive, called):
    if called != CALLED:
        yield f"it calls {', '.join(sorted(called))}, and README.md says {', '.join(sorted(CALLED))}"
    members = [row.split()[:3] for row in said_by("size", archive).splitlines()[1:]]
    text, data, bss = (sum(map(int, column)) for column in zip(*members))
    print(f"{text:,} bytes of code and constants, {data} of data, {bss} of bss")
    told = re.search(r"has (\d+)\s+KB of code and constants", README.read_text())
    if not told or int(told[1]) != round(text / 1000):
        yield f"it has {text:,} bytes of code and constants, and README.md says {told[1] if told else 'no number of'} KB"
    if data or bss:
        yield "it has variables, and README.md says that it has none"
    kinds = set(re.findall(r"R_X86_64_\w+", said_by("readelf", "-rW", archive)))
    if not kinds <= RELATIVE:
        yield f"it has addresses of the kinds {', '.join(sorted(kinds - RELATIVE))}, which depend on where it is loaded"


def main(args):
    if len(args) != 1:
        print(__doc__, file=sys.stderr)
        return 2
    rows = [line.split() for line in said_by("nm", args[0]).splitlines()]
    exported = {row[2] for row in rows if len(row) == 3 and row[1] in "TDB"}
    called = {row[1] for row in rows if len(row) == 2 and row[0] == "U"}
    faults = [*stack_faults(args[0], exported), *link_faults(args[0], called)]
    for fault in faults:
        print(f"footprint: {fault}")
    return 1 if faults else 0


if __name__ == "__main__":
    sys.exit(main(sys.argv[1:]))
