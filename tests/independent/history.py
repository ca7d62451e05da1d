"""Events behind a pool (02, xiii): a pool's byte string and the list of events that it comes from, by the words of 02
(iii) and (xiii) alone.

A whole event is told by one pattern, with a case of its own for each length of data, and a regular expression engine
finds it. The proved reader compares lengths and places, so that the two have no step in common. How many lists give a
string is counted over every way to cut it, with no reading from front to end.

An entry is the number (0 or 44), the event's source, whether an event was found, the place that was asked for, where
the event's data start, and the next place. Where none was found the source is 0, and the other two are the place."""
import re
from collections import namedtuple

Event = namedtuple("Event", "source data")
Entry = namedtuple("Entry", "number source found place start next")
Reading = namedtuple("Reading", "events number place")

SIZES = range(1, 33)  # of an event's data
NO_EVENT = 44


# ---- from events to the string


def bytes_of(event):
    """What an event adds to its pool's string: the source, least significant byte first, the length, the data."""
    return bytes([event.source % 256, event.source // 256, len(event.data), *event.data])


def string_of(events):
    return b"".join(map(bytes_of, events))


# ---- from the string to events


def pattern(sizes=SIZES, header=b"(..)", data=b"(.{%d})"):
    """What stands where an event starts. Its first group is the source, and the last that matched is the data."""
    cases = [re.escape(bytes([size])) + data % size for size in sizes]
    return re.compile(header + b"(?:" + b"|".join(cases) + b")", re.DOTALL)


class Reader:
    """One call: a string, and a place in it. Wrong versions override a part of it."""

    event = pattern()

    def __init__(self, string, place):
        self.string = string
        self.place = place

    def is_end(self):
        return self.place == len(self.string)

    def matched(self):
        """The match of a whole event; None where there is none. The engine takes a place past the end for the end."""
        return self.event.match(self.string, self.place) if self.place < len(self.string) else None

    def source(self, header):
        low, high = header
        return low + 256 * high

    def found(self, match):
        start, following = match.span(match.lastindex)
        return Entry(0, self.source(match[1]), True, self.place, start, following)

    def none(self, number):
        return Entry(number, 0, False, self.place, self.place, self.place)

    def answer(self):
        if self.is_end():
            return self.none(0)
        match = self.matched()
        return self.found(match) if match else self.none(NO_EVENT)


def entry_at(string, place):
    return Reader(string, place).answer()


def read(string, version=Reader):
    """The events from place 0 on, and the number and the place at which they stop: 0 at the end, or 44. A string has
    fewer events than bytes, so that a wrong version that goes nowhere comes to an end too."""
    events, place = [], 0
    for _ in range(len(string) + 1):
        entry = version(string, place).answer()
        if not entry.found:
            return Reading(events, entry.number, entry.place)
        events.append(Event(entry.source, string[entry.start : entry.next]))
        place = entry.next
    return Reading(events, 0, place)


# ---- how many lists give a string


def is_event(part):
    """Whether the bytes are those of an event."""
    return len(part) - 3 in SIZES and part[2] == len(part) - 3


def lists_giving(string):
    """How many lists of events give the string: for each of its starts, by every choice of the last event's bytes."""
    counts = [1]
    for end in range(1, len(string) + 1):
        starts = range(max(end - 3 - SIZES[-1], 0), end)
        counts.append(sum(counts[start] for start in starts if counts[start] and is_event(string[start:end])))
    return counts[-1]


# ---- rows worked out by hand: string, place, and the entry

TWO = bytes.fromhex("070002A1B2 84030105")  # source 7 with A1B2, source 900 with 05
ROWS = (
    (b"", 0, (0, 0, False, 0, 0, 0)),
    (b"", 1, (44, 0, False, 1, 1, 1)),
    (TWO, 0, (0, 7, True, 0, 3, 5)),
    (TWO, 5, (0, 900, True, 5, 8, 9)),
    (TWO, 9, (0, 0, False, 9, 9, 9)),
    *((TWO, place, (44, 0, False, place, place, place)) for place in (1, 2, 3, 4, 6, 7, 8, 10, 2**64 - 1)),
    (b"\0\0\0", 0, (44, 0, False, 0, 0, 0)),
    (b"\xff\xff\x20" + bytes(32), 0, (0, 65535, True, 0, 3, 35)),
    (b"\xff\xff\x20" + bytes(31), 0, (44, 0, False, 0, 0, 0)),
    (b"\xff\xff\x21" + bytes(33), 0, (44, 0, False, 0, 0, 0)),
)
READ = (
    (b"", Reading([], 0, 0)),
    (TWO, Reading([Event(7, b"\xa1\xb2"), Event(900, b"\x05")], 0, 9)),
    (TWO[:-1], Reading([Event(7, b"\xa1\xb2")], NO_EVENT, 5)),
    (TWO + b"\0", Reading([Event(7, b"\xa1\xb2"), Event(900, b"\x05")], NO_EVENT, 9)),
)

for row in ROWS:
    assert entry_at(*row[:2]) == row[2], row
for row in READ:
    assert read(row[0]) == row[1] and lists_giving(row[0]) == (row[1].number == 0), row
assert string_of(READ[1][1].events) == TWO
