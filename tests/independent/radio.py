#!/usr/bin/env python3
"""The bytes that the program `radio` must write, worked out by station.py: a shuffled polling list, then a slot for
each station.

    tests/independent/radio.py                  writes them
    tests/independent/radio.py --check FILE     exits 1 where FILE differs"""
import sys

import station

CLOCK, STATIONS, SLOTS = 1000, 12, 200
SEED = bytes([1] + [7] * 63)


def written():
    state = station.update(station.FRESH, CLOCK, SEED).next
    shuffled = station.shuffle(state, CLOCK, tuple(range(STATIONS)))
    slots, state = [], shuffled.next
    for _ in range(STATIONS):
        drawn = station.draw(state, CLOCK, SLOTS, 64)
        slots.append(drawn.buffer)
        state = drawn.next
    return bytes([*shuffled.buffer, *slots])


if sys.argv[1:2] == ["--check"]:
    with open(sys.argv[2], "rb") as stored:
        sys.exit(0 if stored.read() == written() else f"{sys.argv[2]}: not the bytes that station.py works out")
sys.stdout.buffer.write(written())
