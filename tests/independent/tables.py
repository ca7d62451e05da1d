#!/usr/bin/env python3
"""The tables of the cipher by tables, worked out from FIPS 197 by aes256.py, beside those in its source.

    tests/independent/tables.py --check SOURCE     exits 1 where a word of SOURCE differs, and says which

SOURCE is crates/word_cipher/src/table.rt. The proof says the same; this is for a reader who doesn't trust the proof."""
import re
import sys
from pathlib import Path

from aes256 import S_BOX, mix_column

CONSTANT = re.compile(r"^static TABLES: \[u32; 1024\] = \[$(.*?)^\];$", re.M | re.S)


def word(row, x):
    """What x in a row of the state gives to its column: substituted (5.1.1) and mixed (5.1.3), with 0 in the other
    rows. A column is the sum of what its four bytes give. The first byte is the least significant."""
    column = bytearray(4)
    column[row] = S_BOX[x]
    return int.from_bytes(mix_column(column), "little")


TABLES = [[word(row, x) for x in range(256)] for row in range(4)]


def stored(source):
    """The words in a source, one after the other; None where it has no such static."""
    found = CONSTANT.search(source)
    return found and [int(number, 0) for number in found[1].replace(",", " ").split()]


def difference(found):
    """How words differ from the tables; None where they don't."""
    if found is None:
        return "no static TABLES of 1024 words"
    expected = [word for table in TABLES for word in table]
    if len(found) != len(expected):
        return f"expected {len(expected)} words, found {len(found)}"
    places = [i for i, (a, b) in enumerate(zip(expected, found)) if a != b]
    if not places:
        return None
    row, x = divmod(places[0], 256)
    words = f"expected 0x{expected[places[0]]:08x}, found 0x{found[places[0]]:08x}"
    return f"table of row {row}, entry 0x{x:02x}: {words}; words that differ: {len(places)}"


def main(args):
    if len(args) != 2 or args[0] != "--check":
        print(__doc__, file=sys.stderr)
        return 2
    why = difference(stored(Path(args[1]).read_text(encoding="utf-8")))
    if why:
        print(f"{args[1]}: {why}", file=sys.stderr)
    return 1 if why else 0


if __name__ == "__main__":
    sys.exit(main(sys.argv[1:]))
