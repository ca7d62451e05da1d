#!/usr/bin/env python3
"""Which definitions of the crates below it each crate's proofs open: a line for each pair of crates.

    tests/gate/opened.py            print the lines
    tests/gate/opened.py --check    compare them with tests/gate/opened.txt, which is read beside docs/decisions/layers.md

An upper crate relies on the contracts and laws of the lower ones. Where its proofs open a definition instead (`unfolding`,
`unfold .. in`, `#[tactic(auto, unfolding(..))]`), a change of that text can reach them, so what is opened is kept as a list,
and a new entry has to be meant.
Tables compute, and open whatever their rows read: the files named in TABLES are left out."""
import difflib
import re
import sys
from collections import defaultdict
from pathlib import Path

ROOT = Path(__file__).resolve().parents[2]
STORED = ROOT / "tests/gate/opened.txt"
TABLES = {f"{name}.antt" for name in ("Boundaries", "Computing", "Examples", "PublishedVector", "QuotaRows", "Readings")}
IMPORT = re.compile(r"^(?:(?:pub|unfoldable) )*use Rattle\.(\w+)\.(?:specs|proofs)\.[\w.-]+?(?:\.\{([^}]*)\}| as (\S+))$", re.M)
# an `unfolding` goes on in lines that are indented further
OPENED = re.compile(r"^( *)unfolding (.*(?:\n\1 +.*)*)$|\bunfold ((?:\S+ )+?)in\b", re.M)
# what a function has its own proof open: #[tactic(auto, unfolding(pools::specs::Calls::number))]
TACTIC = re.compile(r"\bunfolding\(([^)]*)\)")


def imported(text):
    """The names and the module names that a file takes of other crates, with their crates."""
    names, modules = {}, {}
    for crate, group, module in IMPORT.findall(text):
        if module:
            modules[module] = crate
        for name in group.split(",") if group else []:
            first, _, renamed = name.strip().partition(" as ")
            names[renamed or first] = crate, first
    return names, modules


def opened_in(text):
    """Pairs of a crate and a definition of it that the file opens."""
    names, modules = imported(text)
    for _, whole, part in OPENED.findall(text):
        for name in (whole or part).split():
            module, _, inner = name.partition(".")
            if name in names:
                yield names[name]
            elif module in modules:
                yield modules[module], inner


def lines():
    found = defaultdict(set)
    for path in (ROOT / "crates").glob("*/proofs/**/*.antt"):
        crate = path.relative_to(ROOT / "crates").parts[0]
        if path.name not in TABLES:
            for below, name in opened_in(path.read_text()):
                found[crate, below].add(name)
    for path in (ROOT / "crates").glob("*/src/**/*.rt"):
        crate = path.relative_to(ROOT / "crates").parts[0]
        for names in TACTIC.findall(path.read_text()):
            for name in names.split(","):
                below, *_, last = name.strip().split("::")
                found[crate, below if below != "crate" else crate].add(last)
    return [f"{crate} opens of {below}: {' '.join(sorted(names))}\n" for (crate, below), names in sorted(found.items()) if crate != below]


def main():
    if sys.argv[1:] == []:
        sys.stdout.writelines(lines())
    elif sys.argv[1:] == ["--check"]:
        stored, now = STORED.read_text().splitlines(True), lines()
        if stored != now:
            sys.stdout.writelines(difflib.unified_diff(stored, now, "tests/gate/opened.txt", "opened now"))
            sys.exit("opened: the proofs open other definitions of lower crates than the list says")
        print(f"opened: {len(now)} pairs of crates, as the list says")
    else:
        print("opened: takes nothing, or --check", file=sys.stderr)
        sys.exit(2)


if __name__ == "__main__":
    main()
