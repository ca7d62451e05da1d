"""Call logs of both kinds (02, xii): a log with event frames 01 into one with 05, or the other way, by the words of 02
and of 01's bench lines alone.

A frame is told by one pattern over the whole line, and a line is taken as text: nothing is read as bytes but the
source. The proved program goes byte by byte, so that the two have no step in common.

An answer is the number (0, 16, 43 or 46), the number of the line that was refused (from 1, and 0 where none was), how
many bytes were written, and the whole lent buffer afterwards."""
import re
from collections import namedtuple

Answer = namedtuple("Answer", "number line written buffer")

LF = b"\n"
# Each frame's first byte, and the fewest and most bytes that follow it. 128 bytes are a line's 256 characters; frame 05
# may have one byte more.
FOLLOWING = {b"01": (2, 127), b"02": (6, 6), b"03": (4, 127), b"04": (4, 4), b"05": (3, 128)}


def pattern(following, digits=b"0-9A-F"):
    """What a line must match to be a frame."""
    pairs = [b"%s(?:[%s]{2}){%d,%d}" % (first, digits, *sizes) for first, sizes in following.items()]
    return re.compile(b"|".join(pairs))


class Converter:
    """One call: a log, whether 05 is wanted, and the lent buffer. Wrong versions override a part of it."""

    frame = pattern(FOLLOWING)
    largest = 255  # source of a frame 01

    def __init__(self, log, wide, lent):
        self.log = log
        self.wide = wide
        self.lent = lent

    def lines(self):
        """Each line and its end. The end of the log ends a last line that has a character."""
        *ended, last = self.log.split(LF)
        return [*((line, LF) for line in ended), *([(last, b"")] if last else [])]

    # ---- a line

    def widened(self, line):
        return b"0500" + line[2:]

    def narrowed(self, line):
        return b"01" + line[4:]

    def converted(self, line):
        if self.wide and line.startswith(b"01"):
            return self.widened(line)
        if not self.wide and line.startswith(b"05"):
            return self.narrowed(line)
        return line

    # ---- what is turned away

    def is_frame(self, line):
        return self.frame.fullmatch(line) is not None

    def large(self, line):
        """A source that frame 01, which is wanted, has no byte for."""
        return not self.wide and line.startswith(b"05") and int(line[2:6], 16) > self.largest

    def needed(self, line, end):
        """The room that a line takes."""
        return len(self.converted(line) + end)

    def refusal(self, line, end, used):
        if not self.is_frame(line):
            return 16
        if self.large(line):
            return 43
        return 46 if used + self.needed(line, end) > len(self.lent) else 0

    # ---- the answer

    def ended(self, number, place, front):
        """The work has come to its end with these bytes at the front of the buffer; the others stay."""
        return Answer(number, place, len(front), front + self.lent[len(front) :])

    def answer(self):
        done, used = [], 0
        for place, (line, end) in enumerate(self.lines(), 1):
            number = self.refusal(line, end, used)
            if number:
                return self.ended(number, place, b"".join(done))
            done.append(self.converted(line) + end)
            used += len(done[-1])
        return self.ended(0, 0, b"".join(done))


def most_room(log):
    """Room for whatever a log becomes: each line may gain two characters."""
    return len(log) + 2 * (log.count(LF) + 1)


def convert(log, wide, room):
    """The number, the refused line, and the bytes written, with so much room."""
    found = Converter(log, wide, bytes(room)).answer()
    return found.number, found.line, found.buffer[: found.written]


def converted(log, wide):
    """The answer with all room, and the bytes written."""
    found = Converter(log, wide, bytes(most_room(log))).answer()
    return found, found.buffer[: found.written]


# ---- rows worked out by hand: log, whether 05 is wanted, room, and number, line and bytes written

ROWS = (
    (b"", True, 0, 0, 0, b""),
    (b"010703A1B2\n", True, 13, 0, 0, b"05000703A1B2\n"),
    (b"010703A1B2\n", True, 12, 46, 1, b""),
    (b"010703A1B2", True, 12, 0, 0, b"05000703A1B2"),
    (b"05000703A1B2\n", False, 11, 0, 0, b"010703A1B2\n"),
    (b"05010003A1\n", False, 99, 43, 1, b""),
    (b"05010003A1\n", True, 11, 0, 0, b"05010003A1\n"),
    (b"0400000000\n0500FF03\n0501000\n", False, 99, 16, 3, b"0400000000\n01FF03\n"),
    (b"0400000000\n05010003\n", False, 11, 43, 2, b"0400000000\n"),
    (b"0400000000\n02000000000010\n", False, 25, 46, 2, b"0400000000\n"),
    (b"0400000000\n\n0400000000\n", True, 99, 16, 2, b"0400000000\n"),
    (b"0400000000\r\n", True, 99, 16, 1, b""),
)

for row in ROWS:
    blank = b"?" * row[2]
    assert Converter(*row[:2], blank).answer() == (*row[3:5], len(row[5]), row[5] + blank[len(row[5]) :]), row
