#!/usr/bin/env python3
"""Scripts of readings of pools' byte strings (history_script.py, beside this), and their answers by
tests/independent/history.py.

    history_runs.py --write DIRECTORY      writes the stored scripts and their answers
    history_runs.py --check DIRECTORY      makes them again and exits 1 where a stored file differs
    history_runs.py --against PROGRAM [--seconds S] [--seed N]
                                           the stored scripts and long strings to history.c, beside this, then random
                                           strings for S seconds, and on until all that must occur has come
    history_runs.py --self-test            wrong versions (wrong_history.py, beside this), each of which a stored script
                                           must tell from the right one

Nothing in the stored scripts comes from chance. A random string is that of a list of events, whole, cut, or with a byte
changed, put in or left out. Read from 0 it gives that list, or 44 exactly where no list gives it; never do two."""
import argparse
import random
import sys
from collections import Counter
from pathlib import Path

sys.path += [str(Path(__file__).resolve().parents[1] / folder) for folder in ("independent", "bench")]

import fuzz
import history_script as script
from frames import Noise, log_of
from history import NO_EVENT, TWO, Event, Reader, Reading, bytes_of, entry_at, lists_giving, read, string_of
from logs import check_files, write_files
from program import Failure, compare, run
from wrong_history import WRONG

SOURCES = (0, 1, 2, 32, 127, 128, 255, 256, 257, 511, 512, 900, 32767, 32768, 65280, 65534, 65535)
LENGTHS = (0, 1, 2, 3, 16, 31, 32, 33, 34, 35, 63, 64, 65, 127, 128, 129, 160, 224, 254, 255)  # a length byte's values
# What a place may wrap around at. A call that adds to a place or cuts its bits comes back into the string.
WIDTHS = (2**8, 2**15, 2**16, 2**31, 2**32, 2**63)
LARGEST = 2**64 - 1


def answers_to(lines):
    return b"".join(script.answers(lines))


def data(size, first=0xA1):
    """Bytes that are all different, none of them 0."""
    return bytes(1 + (first + place - 1) % 255 for place in range(size))


def raw(source, length, size):
    """An event's bytes with any length byte and any number of bytes behind it."""
    return source.to_bytes(2, "little") + bytes([length]) + data(size)


def all_of(string):
    return [script.places(string), script.whole(string)]


# ---- the stored scripts


def example():
    """Each place of the string of two events, and the string cut at each place."""
    yield from (script.entry(place, TWO) for place in range(len(TWO) + 3))
    for end in range(len(TWO) + 1):
        yield from all_of(TWO[:end])


def lengths():
    """A length byte with as many bytes of data, with fewer and with more; alone, behind an event and before one."""
    before, behind = bytes_of(Event(900, data(5))), bytes_of(Event(7, data(4)))
    for length in LENGTHS:
        for size in sorted({0, 1, max(length - 3, 0), max(length - 1, 0), length, length + 1, length + 3}):
            string = raw(7, length, size)
            yield from (*all_of(string), script.whole(before + string), script.whole(string + behind))


def cut():
    """An event cut at each byte, alone and behind another; zeros and ones in the place of what is gone."""
    before = bytes_of(Event(900, data(3)))
    for size in (1, 2, 3, 31, 32):
        string = bytes_of(Event(7, data(size)))
        for end in range(len(string) + 1):
            yield from (*all_of(string[:end]), script.whole(before + string[:end]))
            yield script.whole(string[end:])
    string = bytes_of(Event(7, data(8)))
    for end in range(len(string)):
        yield from (script.whole(string[:end].ljust(len(string), byte)) for byte in (b"\0", b"\1"))


def sources():
    """Each source alone, and all of them in one string."""
    for source in SOURCES:
        yield from all_of(bytes_of(Event(source, data(2))))
    yield script.whole(string_of(Event(source, data(1 + place)) for place, source in enumerate(SOURCES)))


def short():
    """The empty string, and strings of 1 to 5 bytes that all but the data decide."""
    yield from all_of(b"")
    for string in (bytes(3), bytes(4), bytes(5), b"\1" * 3, b"\1" * 4, b"\1" * 5, b"\2" * 4, b"\2" * 5, b"\xff" * 5):
        yield from (line for end in range(1, len(string) + 1) for line in all_of(string[:end]))
    for length in (0, 1, 2, 3, 32, 33, 255):
        for size in range(3):
            yield from all_of(raw(256, length, size))


def far():
    """Places far past the end: from there a sum that wraps, or a place with fewer bits, comes back into the string."""
    for string in (b"", b"\7", TWO, raw(7, 32, 32), string_of([Event(7, data(32)), Event(900, data(29))])):
        yield from (script.entry(LARGEST - back, string) for back in range(70))
        for width in WIDTHS:
            places = {width - 4, width - 3, width - 1, width, width + 5, width + len(string), width + len(string) + 1}
            yield from (script.entry(place, string) for place in sorted(places))
        yield from (script.entry(len(string) * times, string) for times in (1, 2, 3))


def inside():
    """Data that look like events: a place inside data may have a whole event too. Strings of one byte's value."""
    inner = string_of([Event(1, data(3)), Event(900, data(9)), Event(257, data(2))])
    outer = bytes_of(Event(7, inner))
    for string in (outer, outer * 2, bytes_of(Event(8, outer[:29])), bytes_of(Event(3, TWO)) + TWO):
        yield from all_of(string)
    for byte in (0, 1, 2, 3, 31, 32, 33, 255):
        yield from (line for size in (4, 5, 12, 35, 36, 70, 71) for line in all_of(bytes([byte]) * size))
    yield from all_of(bytes(range(1, 120)))
    yield from all_of(bytes(range(120, 0, -1)))


def changed():
    """One byte of a string of three events changed, put in or left out."""
    string = string_of([Event(7, data(2)), Event(900, data(6, 0x10)), Event(65535, data(1))])
    for place in range(len(string)):
        yield script.whole(string[:place] + string[place + 1 :])
        for byte in (0, 1, 2, 32, 33, 255):
            yield script.whole(string[:place] + bytes([byte]) + string[place + 1 :])
            yield script.whole(string[:place] + bytes([byte]) + string[place:])


def many():
    """Whole strings, with every length of data in turn, one event many times, and bytes that repeat at no period."""
    noise = Noise("history")
    yield from all_of(string_of(Event(100 * size, data(size, 5 * size)) for size in range(1, 33)))
    yield script.whole(string_of([Event(7, b"\xa1")] * 300))
    yield script.whole(string_of([Event(32 + 256 * 32, b" " * 32)] * 20))
    for size in (2, 9, 60):
        events = [Event(noise.source(), noise.take(1 + noise.below(32))) for _ in range(size)]
        yield script.whole(string_of(events))
        yield script.whole(string_of(events[::-1]))
        yield script.whole(string_of(events)[:-1])


MADE = (example, lengths, cut, sources, short, far, inside, changed, many)
SCRIPTS = {make.__name__: make for make in MADE}


def stored():
    """Names and scripts."""
    return {name: log_of(make()) for name, make in SCRIPTS.items()}


def files():
    """File names and contents."""
    made = {}
    for name, lines in stored().items():
        made |= {f"{name}.script": lines, f"{name}.answers": answers_to(lines)}
    return made


# ---- random strings


def check_reading(string):
    """What 02 says of every string: 44 comes exactly where no list gives it, and else the one list that does. Gives the
    reading."""
    reading, lists = read(string), lists_giving(string)
    if lists != (reading.number == 0):
        raise Failure(f"{lists} lists give the string, and read from 0 it comes to {reading.number}: {string.hex()}")
    if string_of(reading.events) != string[: reading.place]:
        raise Failure(f"the events read are not those of the string up to {reading.place}: {string.hex()}")
    return reading


class Writer:
    """Writes one script, and counts in `occurred` what its strings are."""

    occurred = Counter()

    def __init__(self, chance):
        self.chance = chance
        self.maker = fuzz.Writer(chance)

    def event(self):
        r = self.chance
        size = r.choice((1, 1, 2, 31, 32, r.randrange(1, 33)))
        filling = r.choice((r.randbytes(size), bytes(size), b"\1" * size, bytes(r.choices(range(36), k=size))))
        return Event(self.maker.source(), filling)

    def bent(self, string):
        """The string cut, or with a byte changed, put in or left out; or any bytes."""
        r = self.chance
        place = r.randrange(len(string) + 1)
        byte = bytes([r.choice((0, 1, 2, 31, 32, 33, 255, r.randrange(256)))])
        return r.choice(
            (
                string[:place],
                string[place:],
                string[:place] + byte + string[place + 1 :],
                string[:place] + byte + string[place:],
                string[:place] + string[place + 1 :],
                bytes(r.choices((0, 1, 2, 3, 5, 32, 33), k=r.randrange(1, 60))),
            )
        )

    def note(self, events, string, reading):
        first = "a string that is whole" if reading.number == 0 else f"{NO_EVENT}"
        self.occurred["strings"] += 1
        self.occurred[f"{first}, {'after events' if reading.events else 'at place 0'}"] += 1
        if reading.number == 0 and reading.events != events:
            self.occurred["a change that makes another list"] += 1
        starts = sum(entry_at(string, place).found for place in range(len(string)))
        if starts > len(reading.events):
            self.occurred["a whole event inside another"] += 1

    def group(self):
        r = self.chance
        events = [self.event() for _ in range(r.choice((0, 1, 2, 3, 5, 15)))]
        string = string_of(events)
        if read(string) != Reading(events, 0, len(string)):
            raise Failure(f"read from 0 the string does not give its events: {string.hex()}")
        if r.random() < 0.6:
            string = self.bent(string)
        self.note(events, string, check_reading(string))
        width, past = r.choice((*WIDTHS, LARGEST + 1)), r.randrange(-70, 70)
        return [script.places(string), script.whole(string), script.entry(min(width + past, LARGEST), string)]

    def log(self):
        return log_of(line for _ in range(10) for line in self.group())


MUST_OCCUR = {
    *("a string that is whole, at place 0", "a string that is whole, after events", "44, at place 0"),
    *("44, after events", "a change that makes another list", "a whole event inside another"),
}


def long_strings():
    """Too long to be stored: with more events, and more bytes, than two bytes can count."""
    string = string_of([Event(7, b"\xa1")] * 70000)
    yield script.whole(string)
    yield script.whole(string + b"\7\0\1")
    yield script.places(string[:70000])


def against(program, seconds, seed):
    for lines in (*stored().values(), *(log_of([line]) for line in long_strings())):
        compare(lines, answers_to(lines), run(program, lines))
    print(f"pass  the stored scripts and long strings; seed {seed}", flush=True)
    return fuzz.fuzz(program, seconds, seed, Writer, answers_to, MUST_OCCUR)


# ---- wrong versions


def place_told(version, scripts):
    """The first line of a stored script whose answer tells a version; None where there is none."""
    for name, (lines, right) in scripts.items():
        for n, (expected, found) in enumerate(zip(right, script.answers(lines, version)), 1):
            if expected != found:
                return f"{name}.script, line {n}"
    return None


def self_test():
    scripts = {name: (lines, list(script.answers(lines))) for name, lines in stored().items()}
    failed = place_told(type("Right", (Reader,), {}), scripts) is not None  # what is not wrong is not told
    for version in WRONG:
        place = place_told(version, scripts)
        failed |= place is None
        print(f"{'pass' if place else 'FAIL'}  one that {version.__doc__}: {place or 'not told'}")
    return 1 if failed else 0


def main():
    parser = argparse.ArgumentParser(description=__doc__, formatter_class=argparse.RawDescriptionHelpFormatter)
    modes = parser.add_mutually_exclusive_group(required=True)
    modes.add_argument("--write", type=Path, metavar="DIRECTORY")
    modes.add_argument("--check", type=Path, metavar="DIRECTORY")
    modes.add_argument("--against", metavar="PROGRAM")
    modes.add_argument("--self-test", action="store_true")
    parser.add_argument("--seconds", type=float, default=15)
    parser.add_argument("--seed", type=int, default=random.randrange(2**32))
    chosen = parser.parse_args()
    if chosen.against:
        try:
            return against(chosen.against, chosen.seconds, chosen.seed)
        except Failure as why:
            print(f"FAIL  {why}")
            return 1
    if chosen.self_test:
        return self_test()
    if chosen.check:
        return check_files(chosen.check, files(), "tests/c_interface/history_runs.py")
    write_files(chosen.write, files())
    return 0


if __name__ == "__main__":
    sys.exit(main())
