"""The crates of this repository, for the scripts beside this."""
from pathlib import Path

ROOT = Path(__file__).resolve().parents[2]


class Failure(Exception):
    """Something that can't be tried; the text says why."""


def crates():
    """The crates of crates.txt in their order, each with those that it is built on."""
    table = {}
    for line in (ROOT / "crates.txt").read_text().splitlines():
        name, colon, uses = line.partition("#")[0].partition(":")
        if colon:
            table[name.split()[0]] = uses.split()  # a static library has a word more before the colon
    return table


def with_below(names):
    """Crates, and all that they are built on, in the order of crates.txt."""
    table = crates()
    found, todo = set(), list(names)
    while todo:
        name = todo.pop()
        if name in table and name not in found:
            found.add(name)
            todo += table[name]
    return [name for name in table if name in found]


def folder_of(name):
    return ROOT / "crates" / name
