#!/usr/bin/env python3
"""Compares a bench program with tests/independent/logbook.py on logs made at random.

    tests/bench/fuzz.py PROGRAM [--seconds S] [--seed N]

Lines lean towards what is near a bound: readings 100 and 101 ms after the mark, pool 0 at 63 and 64 bytes, sources 255,
256 and 65,535, by either event frame where both can carry them, lines of 254 to 262 characters, seeds of 63 to 65
bytes, seeds that are blank or nearly so. At a difference the log is shortened by leaving lines out, stored, and the
exit status is 1. So it is where what must occur never did."""
import argparse
import random
import sys
import tempfile
import time
from collections import Counter
from pathlib import Path

sys.path.append(str(Path(__file__).resolve().parents[1] / "independent"))

import frames
from logbook import MAX_LINE, MAX_WIDE_LINE, Logbook, answer
from logs import answers_to
from program import Failure, compare, run

REPORT_EVERY = 5  # seconds
SHORTENING = 20  # seconds
MOST_LOGS = 1000  # after which nothing that is missing is waited for


MUST_OCCUR = {
    *(f"blank, {when}: 36" for when in ("unseeded", "seeded", "a reseed due")),
    *("nearly blank, unseeded: 0", "nearly blank, seeded: 0", "63 or 65 equal bytes, seeded: 15"),
}


class NotingLogbook(Logbook):
    """Notes in `occurred` what became of seeds that are blank or nearly so, and when."""

    occurred = Counter()

    def kind(self, seed):
        equal = max(Counter(seed).values(), default=0)
        if len(seed) == frames.PAGE_SIZE:
            return {64: "blank", 63: "nearly blank"}.get(equal)
        return "63 or 65 equal bytes" if equal == len(seed) in (63, 65) else None

    def update(self, clock, seed):
        when = ["seeded" if self.generator.count else "unseeded"] + ["a reseed due"] * self.due(clock)
        answer = super().update(clock, seed)
        if kind := self.kind(seed):
            self.occurred.update(f"{kind}, {which}: {answer[0]}" for which in when)
        return answer


class Writer:
    """Writes one log. It keeps the logbook of what it wrote, so that it can aim at the bounds."""

    occurred = NotingLogbook.occurred
    form = frames  # what makes a call's line; its EVENTS are the ways to write an event
    lengths = ([1, 5, 40, 150, 1500], [4, 4, 8, 4, 0.5])  # of a log, with their weights

    def __init__(self, chance):
        self.chance = chance
        self.book = NotingLogbook()
        self.time = self.chance.choice([0, 0, 1, 5000, 2**31, 2**32 - 1000, chance.randrange(2**32)])
        self.seed = chance.randbytes(64)

    def one_of(self, values, weights):
        return self.chance.choices(values, weights)[0]

    # ---- arguments

    def reading(self):
        step = self.chance.choice([0, 1, 49, 50, 50, 99, 100, 101, 150, 1000])
        self.time = self.one_of(
            [
                (self.time + step) % 2**32,
                (self.book.mark + self.chance.choice([0, 99, 100, 101, 102])) % 2**32,
                (self.book.mark - self.chance.choice([1, 2, 50, 101])) % 2**32,
                self.chance.choice([0, 1, 2**31 - 1, 2**31, 2**32 - 1]),
                self.chance.randrange(2**32),
            ],
            [12, 5, 1, 1, 1],
        )
        return self.time

    def size(self):
        """n of a request."""
        small = self.chance.randrange(40)
        return self.one_of([0, 1, 15, 16, 17, small, 300, 5000, 65535], [4, 2, 2, 4, 2, 20, 2, 0.3, 0.05])

    def seed_bytes(self):
        other = self.chance.choice([0, 1, 32, 62, 63, 65, 66, 123])
        byte = self.chance.choice([0x00, 0xFF, self.chance.randrange(256)])
        near = frames.nearly_blank(byte, self.chance.choice([0, 63, self.chance.randrange(64)]))
        pages = [frames.blank_page(byte), near, bytes([byte]) * self.chance.choice([63, 65])]
        seeds = [self.seed, self.chance.randbytes(64), *pages, self.chance.randbytes(other)]
        return self.one_of(seeds, [12, 4, 3, 3, 1, 4])

    def source(self):
        small, any_source = self.chance.randrange(256), self.chance.randrange(65536)
        return self.chance.choice([0, 1, 255, 256, 900, 65535, small, any_source])

    def data(self):
        """Up to 126 bytes, one more than an event frame has room for."""
        longest, usual = self.chance.choice([124, 125, 126]), self.chance.randrange(1, 33)
        size = self.one_of([0, 1, 2, 31, 32, 33, longest, usual], [1, 3, 2, 2, 8, 1, 0.6, 8])
        return self.chance.randbytes(size)

    # ---- right lines

    def event_of(self, pool, data):
        return self.chance.choice(self.form.EVENTS)(self.source(), pool, data)

    def event(self):
        pool = self.one_of([0, self.chance.randrange(6), self.chance.randrange(32), 32, 255], [10, 6, 6, 1, 0.5])
        return self.event_of(pool, self.data())

    def filling(self):
        """An event that brings pool 0 to 63, 64 or 65 bytes, where one can."""
        size = self.chance.choice([63, 64, 64, 65]) - self.book.length(0) - frames.HEADER
        return self.event_of(0, self.chance.randbytes(min(max(size, 1), frames.MOST_DATA)))

    def request(self):
        return self.form.request(self.reading(), self.size())

    def update(self):
        return self.form.update(self.reading(), self.seed_bytes())

    def write(self):
        return self.form.write(self.reading())

    def right(self):
        makers = [self.event, self.filling, self.request, self.update, self.write]
        return self.one_of(makers, [9, 9, 7, 2, 1])()

    # ---- near-frames

    def character(self):
        bounds = b"/:@G`afg \t\r\0\x7f\x80\xb1\xff"
        return bytes([self.chance.choice([self.chance.choice(bounds), self.chance.choice(b"0123456789ABCDEF")])])

    def first_byte(self):
        return b"%02X" % self.chance.choice([*range(7), self.chance.randrange(256)])

    def bent(self, line):
        """The line with one thing changed: a character, a digit more or less, the case, or the first byte."""
        place = self.chance.randrange(len(line))
        return self.chance.choice(
            [
                line[:place] + self.character() + line[place + 1 :],
                line[:place] + self.character() + line[place:],
                line[:place] + line[place + 1 :],
                line[:place],
                line[: place // 2 * 2],
                line + line,
                line.lower(),
                line + b"\r",
                self.first_byte() + line[2:],
            ]
        ).replace(b"\n", b"")

    def stretched(self):
        """A line about as long as a frame may be, or far longer."""
        near = self.chance.randrange(MAX_LINE - 2, MAX_WIDE_LINE + 5)
        size = self.one_of([near, 70000, 10**6], [20, 1, 0.2])
        return (self.right() + b"%02X" % self.chance.randrange(256) * (size // 2))[:size]

    def line(self):
        makers = [
            self.right,
            lambda: self.bent(self.right()),
            self.stretched,
            lambda: self.bent(self.stretched()),
            lambda: b"",
        ]
        return self.one_of(makers, [30, 5, 1, 0.5, 0.5])()

    def output(self, line):
        """The bytes that a line gives, in hexadecimal."""
        return answer(self.book, line)[6:]

    def log(self):
        lines = []
        for _ in range(self.one_of(*self.lengths)):
            lines.append(self.line())
            output = self.output(lines[-1])
            if len(output) == 128:
                self.seed = bytes.fromhex(output.decode())
        return b"\n".join(lines) + self.chance.choice([b"\n", b"\n", b""])


# ---- comparing

def difference(program, log, answers):
    """Why the program's answers are not the logbook's; None where they are."""
    try:
        compare(log, answers(log), run(program, log))
    except Failure as why:
        return str(why)
    return None


def shortened(program, log, answers):
    """The log without lines that the difference does not need: halves first, then ever smaller parts."""
    end = time.monotonic() + SHORTENING
    lines = log.split(b"\n")
    part = max(len(lines) // 2, 1)
    while part and time.monotonic() < end:
        start = 0
        while start < len(lines) and time.monotonic() < end:
            fewer = lines[:start] + lines[start + part :]
            if difference(program, b"\n".join(fewer), answers):
                lines = fewer
            else:
                start += part
        part //= 2
    return b"\n".join(lines)


def report(program, log, answers):
    short = shortened(program, log, answers)
    path = Path(tempfile.mkdtemp(prefix="fuzz-")) / "failing.log"
    path.write_bytes(short)
    path.with_suffix(".answers").write_bytes(answers(short))
    print(f"FAIL  {difference(program, short, answers)}")
    print(f"the log is {path}, the answers that were worked out are beside it")


def status_of(occurred, must_occur):
    """Prints how often each thing occurred, and gives the exit status."""
    print(", ".join(f"{what}: {times}" for what, times in sorted(occurred.items())))
    missing = must_occur - set(occurred)
    if missing:
        print(f"FAIL  never occurred: {', '.join(sorted(missing))}")
    return 1 if missing else 0


def fuzz(program, seconds, seed, writer=Writer, answers=answers_to, must_occur=frozenset()):
    """Logs by a writer, whose right answers a function works out. Past its seconds it goes on while the writer's
    `occurred` lacks what must occur, up to MOST_LOGS: by a count and not by a time, so that a slow machine fails no
    oftener than a fast one."""
    chance = random.Random(seed)
    start = shown = time.monotonic()
    logs = lines = 0
    while time.monotonic() < start + seconds or (must_occur - set(writer.occurred) and logs < MOST_LOGS):
        log = writer(chance).log()
        if difference(program, log, answers):
            report(program, log, answers)
            return 1
        logs += 1
        lines += log.count(b"\n")
        if time.monotonic() > shown + REPORT_EVERY:
            shown = time.monotonic()
            print(f"{shown - start:.0f} s: {logs} logs, {lines} lines", flush=True)
    print(f"pass  {logs} logs with {lines} lines, no difference")
    return status_of(writer.occurred, must_occur) if must_occur else 0


def main():
    parser = argparse.ArgumentParser(description=__doc__, formatter_class=argparse.RawDescriptionHelpFormatter)
    parser.add_argument("program")
    parser.add_argument("--seconds", type=float, default=20)
    parser.add_argument("--seed", type=int, default=random.randrange(2**32))
    chosen = parser.parse_args()
    print(f"seed {chosen.seed}", flush=True)
    return fuzz(chosen.program, chosen.seconds, chosen.seed, must_occur=MUST_OCCUR)


if __name__ == "__main__":
    sys.exit(main())
