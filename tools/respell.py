#!/usr/bin/env python3
"""Spells the repository's own definitions and lemmas as today's Rattle does: words in snake case.

usage: python3 tools/respell.py [--list]        once, at the top, after /opt/rattle/port/port.py

port.py respells the names of the library and those of the repository's names that are built from them. This script turns the
others: each name of specs/ and proofs/ that has a capital after a small first letter, as `maxCounter` in `max_counter`. It goes
over .antt files, and over the contracts and `ghost use` lines of .rt files, which alone have such names. Comments of .antt files
follow, strings don't. Types, modules and facts keep their capitals. Where the new name would fall together with another, KEPT and
OTHER say what stands for it. --list prints each old name with its new one."""
import os
import re
import sys

# Names that the library has too, or that would say something else in snake case.
KEPT = {
    "mut_Tells", "shr_slice_Tells", "mut_slice_Tells", "shr_slice_Lawful", "walk_Meets",
    "uint_Makes", "uint_Tells", "uint_Lawful", "nA",
}
OTHER = {
    "lastLine": "final_line",  # a lemma of bench is last_line
    "linesAfter": "lines_following",  # a lemma of bench is lines_after
    "listLeft": "list_remaining",  # a lemma of metered is list_left
    "noLine": "absent_line",  # a lemma of convert is no_line
    "step_Block": "step_block",
}
STRING = r'"(?:[^"\\]|\\.)*"'
NAME = re.compile(r"(?<![A-Za-z0-9_])[a-z][a-z0-9_]*[A-Z][A-Za-z0-9_]*")


def snake(name):
    if name in OTHER:
        return OTHER[name]
    name = re.sub(r"([a-z0-9])([A-Z])", r"\1_\2", name)
    name = re.sub(r"([A-Z])([A-Z][a-z])", r"\1_\2", name)
    return name.lower()


def texts():
    for folder, dirs, files in os.walk("crates"):
        dirs[:] = sorted(d for d in dirs if d != "out")
        for f in sorted(files):
            if f.endswith((".antt", ".rt")):
                yield os.path.join(folder, f)


def main():
    seen = {}

    def turn(m):
        name = m.group(0)
        if name in KEPT:
            return name
        seen[name] = snake(name)
        return seen[name]

    for path in texts():
        with open(path, encoding="utf-8") as f:
            old = f.read()
        new = re.sub(STRING + "|" + NAME.pattern, lambda m: m.group(0) if m.group(0)[0] == '"' else turn(m), old)
        if new != old and "--list" not in sys.argv:
            with open(path, "w", encoding="utf-8") as f:
                f.write(new)
    for name in sorted(seen):
        print(f"{name} {seen[name]}")


if __name__ == "__main__":
    main()
