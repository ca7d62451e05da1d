#!/usr/bin/env python3
"""Lays the contracts and definitions of the working tree beside those of a commit, for docs/DESIGN-PASS.md.

    tools/side_by_side.py COMMIT

What the kit's contracts.py finds by text alone is printed as two lists: functions whose signature or clauses changed, and definitions,
statements and rows of specs/ that changed, each old (-) and new (+). A definition of more than 700 characters, as a table of rows, is
printed by its parts that differ."""
import difflib
import json
import re
import subprocess
import sys
import tempfile
import textwrap
from pathlib import Path


def said(*words, **more):
    return subprocess.run(words, capture_output=True, text=True, check=True, **more).stdout


def wrapped(mark, text, width=116):
    lines = textwrap.wrap(re.sub(r"\s+", " ", text).strip(), width - 2, break_long_words=False, break_on_hyphens=False) or [""]
    return [f"{mark} {lines[0]}", *(f"{mark}   {line}" for line in lines[1:])]


def parts(old, new):
    """The parts of two long texts that differ, with some words around them."""
    a, b = old.split(), new.split()
    for group in difflib.SequenceMatcher(None, a, b, autojunk=False).get_grouped_opcodes(6):
        yield " ".join(a[group[0][1]:group[-1][2]]), " ".join(b[group[0][3]:group[-1][4]])


def public(top, place):
    crate, path, *names = place.split()
    file = Path(top) / "crates" / crate / path
    return file.is_file() and bool(re.search(rf"^\s*pub (extern \"C\" )?fn {re.escape(names[-1])}\b", file.read_text(), re.M))


def main(commit):
    kit = Path(said("rt", "doc").strip()).parent / "port/contracts.py"
    with tempfile.TemporaryDirectory() as old:
        subprocess.run(f"git archive {commit} crates | tar -x -C {old}", shell=True, check=True)
        found = json.loads(said(sys.executable, kit, old, ".", "--json"))
    signatures = {place: (a, b) for place, a, b in found["signatures changed"]}
    clauses = {place: rest for place, *rest in found["contracts changed"]}
    print("Functions")
    for place in sorted({*signatures, *clauses}):
        print(f"\n{place}{' (public)' if public('.', place) else ''}")
        for mark, at in (("-", 0), ("+", 1)):
            if place in signatures:
                print("\n".join(wrapped(mark, signatures[place][at])))
            for kind, group in zip(("requires", "ensures"), clauses[place][2 * at:2 * at + 2] if place in clauses else ()):
                for name, text in group:
                    print("\n".join(wrapped(mark, f"{kind} {name + ' ' if name else ''}{{ {text} }}")))
    print("\nDefinitions, statements and rows that changed")
    for crate, name, old, new in found["definitions"]["changed"]:
        print(f"\n{crate} {name}")
        one, other = " ".join(old), " ".join(new)
        if len(one) + len(other) > 1400:
            for a, b in parts(one, other):
                print("\n".join([*wrapped("-", f".. {a} .."), *wrapped("+", f".. {b} ..")]))
        else:
            print("\n".join([*wrapped("-", one), *wrapped("+", other)]))
    print("\nDefinitions that went")
    print("\n".join(f"    {crate} {name}" for crate, name in found["definitions"]["gone"]))


main(sys.argv[1])
