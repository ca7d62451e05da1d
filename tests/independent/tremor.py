#!/usr/bin/env python3
"""The bytes that the program `tremor`, the README's example, must write, worked out by generator.py.

    tests/independent/tremor.py                  writes them
    tests/independent/tremor.py --check FILE     exits 1 where FILE differs"""
import sys

import generator

drawn = bytearray(48)
_, seeded = generator.reseed(generator.FRESH, b"synthetic tremor, run 17")
generator.request(seeded, drawn)
if sys.argv[1:2] == ["--check"]:
    with open(sys.argv[2], "rb") as stored:
        sys.exit(0 if stored.read() == drawn else f"{sys.argv[2]}: not the 48 bytes that generator.py works out")
sys.stdout.buffer.write(drawn)
