"""Wrong versions of tests/independent/history.py. history_runs.py, beside this, shows that its stored scripts tell each
of these from the right one."""
import re

from history import NO_EVENT, SIZES, Entry, Reader, pattern, read


def wrong(text, **parts):
    """A version with these parts in place of the right ones."""
    return type("Wrong", (Reader,), {"__doc__": text, **parts})


def shaped(text, *arguments, **named):
    """One that takes other bytes for an event."""
    return wrong(text, event=pattern(*arguments, **named))


# ---- what an event is


def of_cases(cases):
    """A pattern from a length byte with the fewest and most bytes of data that it may have."""
    texts = [re.escape(bytes([byte])) + b"(.{%d,%d})" % (fewest, most) for byte, fewest, most in cases]
    return re.compile(b"(..)(?:" + b"|".join(texts) + b")", re.DOTALL)


def of_bytes(sizes):
    """A pattern from pairs of a length byte and how many bytes of data it stands for."""
    return of_cases((byte, size, size) for byte, size in sizes)


def masked(bits):
    """Some bits of the length byte count alone."""
    return of_bytes([(byte, byte & bits) for byte in range(256) if byte & bits in SIZES])


def by_header(call):
    """A header alone is looked at, and the next place may be past the end."""
    string, place = call.string, call.place
    if call.is_end() or place + 3 > len(string) or string[place + 2] not in SIZES:
        return Reader.answer(call)
    return Entry(0, call.source(string[place : place + 2]), True, place, place + 3, place + 3 + string[place + 2])


def length_first(call):
    """The length stands before the source."""
    turned = re.compile(b"|".join(re.escape(bytes([size])) + b"..(?:.{%d})" % size for size in SIZES), re.DOTALL)
    match = turned.match(call.string, call.place) if call.place < len(call.string) else None
    if not match:
        return Reader.answer(call)
    return Entry(0, call.source(match[0][1:3]), True, call.place, call.place + 3, match.end())


WRONG_EVENTS = (
    shaped("takes an event without data", range(33)),
    shaped("takes 33 bytes of data", range(1, 34)),
    shaped("takes 64 bytes of data", range(1, 65)),
    shaped("takes 255 bytes of data", range(1, 256)),
    shaped("refuses 32 bytes of data", range(1, 32)),
    shaped("refuses 1 byte of data", range(2, 33)),
    shaped("takes 16 bytes of data at most", range(1, 17)),
    shaped("takes an event that is cut anywhere in its data", data=b"(.{0,%d})"),
    wrong("takes an event whose last byte is cut", event=of_cases((size, size - 1, size) for size in SIZES)),
    wrong("takes a header for an event", answer=by_header),
    shaped("wants a byte behind an event", data=b"(.{%d})(?=.)"),
    shaped("takes no event but the last", data=b"(.{%d})\\Z"),
    shaped("takes no data with a byte 0", data=b"([^\\0]{%d})"),
    shaped("takes no data with a line feed", data=b"([^\\n]{%d})"),
    wrong("has one byte of source", event=pattern(header=b"(.)"), source=lambda call, header: header[0]),
    shaped("has a byte between source and length", header=b"(..)."),
    shaped("has two bytes of length, most significant first", header=b"(..)\\0"),
    shaped("has two bytes of length, least significant first", data=b"\\0(.{%d})"),
    wrong("counts the header in the length", event=of_bytes([(size + 3, size) for size in SIZES])),
    wrong("has a length that is less by one", event=of_bytes([(size - 1, size) for size in SIZES])),
    wrong("has a length that is more by one", event=of_bytes([(size + 1, size) for size in SIZES])),
    wrong("looks at seven bits of the length", event=masked(127)),
    wrong("looks at six bits of the length", event=masked(63)),
    wrong("looks at five bits of the length", event=masked(31)),
    wrong("takes any length above 32 for 32", event=of_bytes([(byte, min(byte, 32)) for byte in range(1, 256)])),
    wrong("takes a length of 0 for 32", event=of_bytes([(0, 32), *((size, size) for size in SIZES)])),
    wrong("has the length before the source", answer=length_first),
)


# ---- the source


def signed_low(call, header):
    low, high = header
    return (low - 2 * (low & 128) + 256 * high) % 2**32


def weighed(text, low, high):
    return wrong(text, source=lambda call, header: low * header[0] + high * header[1])


WRONG_SOURCES = (
    weighed("has the source's bytes swapped", 256, 1),
    weighed("counts the high byte 255", 1, 255),
    weighed("counts the high byte 257", 1, 257),
    weighed("counts the high byte 128", 1, 128),
    weighed("adds the source's bytes", 1, 1),
    weighed("leaves the high byte out", 1, 0),
    weighed("leaves the low byte out", 0, 256),
    weighed("gives the high byte alone", 0, 1),
    weighed("has the low byte twice", 257, 0),
    wrong("reads the source's low byte with a sign", source=signed_low),
    wrong("reads the source with a sign", source=lambda call, h: int.from_bytes(h, "little", signed=True) % 2**32),
    wrong("drops the source's first bit", source=lambda call, h: (h[0] + 256 * h[1]) % 2**15),
    wrong("has source 1 for 0", source=lambda call, h: max(h[0] + 256 * h[1], 1)),
    wrong("gives source 0 always", source=lambda call, h: 0),
)


# ---- the place


def placed(change):
    """The call is made at another place; the place that was asked for is given back."""

    def answer(call):
        entry = Reader(call.string, change(call.place, call.string)).answer()
        return entry._replace(place=call.place) if entry.found else call.none(entry.number)

    return answer


def signed(place, string):
    """A place as a number with a sign, counted from the end where it is below 0."""
    return place if place < 2**63 else max(place - 2**64 + len(string), 0)


def turned(place, string):
    """A place past the end modulo the length."""
    return place % len(string) if place > len(string) > 0 else place


def wrapped(limit):
    """The bounds of an event are told by sums that wrap; the bytes are read where the sums come to."""

    def answer(call):
        string, place = call.string, call.place
        if call.is_end() or place < len(string) or (place + limit) % 2**64 > len(string):
            return Reader.answer(call)
        return Entry(0, 0, True, place, (place + 3) % 2**64, (place + limit) % 2**64)

    return answer


def searched(call):
    """The first event from the place on."""
    match = call.event.search(call.string, min(call.place, len(call.string)))
    return Reader.answer(call) if call.is_end() or not match else call.found(match)


def looked_back(call):
    """The event in whose bytes the place lies, as read from 0."""
    place = 0
    while (entry := Reader(call.string, place).answer()).found:
        if entry.next > call.place:
            return entry
        place = entry.next
    return Reader.answer(call)


def only_reached(call):
    """Nothing but what a reading from 0 comes to is taken."""
    reached = [0]
    while (entry := Reader(call.string, reached[-1]).answer()).found:
        reached.append(entry.next)
    return Reader.answer(call) if call.place in reached else call.none(NO_EVENT)


def of_part(change):
    """The call sees a part of the string."""
    return lambda call: Reader(change(call.string), call.place).answer()


def checks_all(call):
    """44 for every place of a string that no list gives."""
    return call.none(NO_EVENT) if read(call.string).number else Reader.answer(call)


WRONG_PLACES = (
    wrong("takes the end for 44", is_end=lambda call: False),
    wrong("takes the end of an empty string for 44", is_end=lambda call: call.place == len(call.string) > 0),
    wrong("knows the end of an empty string alone", is_end=lambda call: call.place == len(call.string) == 0),
    wrong("takes what is past the end for the end", is_end=lambda call: call.place >= len(call.string)),
    wrong("takes the place one past the end for the end", is_end=lambda c: c.place - len(c.string) in (0, 1)),
    wrong("takes the last byte for the end", is_end=lambda call: call.place == max(len(call.string) - 1, 0)),
    wrong("takes fewer than four bytes for the end", is_end=lambda c: 0 <= len(c.string) - c.place < 4),
    wrong("takes a rest of zeros for the end", is_end=lambda call: not any(call.string[min(call.place, 2**32) :])),
    wrong("takes the largest place for the end", is_end=lambda c: c.place in (len(c.string), 2**64 - 1)),
    *(
        wrong(f"takes {bits} bits of the place", answer=placed(lambda place, _, bits=bits: place % 2**bits))
        for bits in (8, 15, 16, 31, 32, 63)
    ),
    wrong("counts a place from 2^63 on from the end", answer=placed(signed)),
    wrong("takes a place past the end for 0", answer=placed(lambda place, s: place if place <= len(s) else 0)),
    wrong("takes a place past the end for the end", answer=placed(lambda place, s: min(place, len(s)))),
    wrong("takes a place modulo the length", answer=placed(turned)),
    wrong("always reads from 0", answer=placed(lambda place, s: 0)),
    wrong("counts places from 1", answer=placed(lambda place, s: max(place - 1, 0))),
    *(wrong(f"adds {limit} to a place and wraps", answer=wrapped(limit)) for limit in (3, 4, 35)),
    wrong("gives the first event from the place on", answer=searched),
    wrong("gives the event that the place lies in", answer=looked_back),
    wrong("takes no place but those that a reading from 0 comes to", answer=only_reached),
    wrong("looks at the whole string first", answer=checks_all),
    wrong("ends the string at a byte 0", answer=of_part(lambda string: string.split(b"\0")[0])),
    wrong("leaves out the last byte", answer=of_part(lambda string: string[:-1])),
    wrong("sees a byte 1 behind the string", answer=of_part(lambda string: string + b"\1")),
    wrong("sees 255 bytes of a string", answer=of_part(lambda string: string[:255])),
)


# ---- the answer


def retold(text, change, when=lambda entry: True):
    """What is told is not what was found, where this holds of it; change gets the right answer and the call."""

    def answer(call):
        entry = Reader.answer(call)
        return entry._replace(**change(entry, call)) if when(entry) else entry

    return wrong(text, answer=answer)


def is_found(entry):
    return entry.found


def is_none(entry):
    return not entry.found


def is_refused(entry):
    return entry.number == NO_EVENT


def is_end(entry):
    return not entry.found and entry.number == 0


def source_of_rest(entry, call):
    """The source that a cut event would have."""
    rest = call.string[min(entry.place, 2**32) :]
    return {"source": int.from_bytes(rest[:2], "little")}


WRONG_ANSWERS = (
    retold("gives the next place one early", lambda e, c: {"next": e.next - 1}, is_found),
    retold("gives the next place one late", lambda e, c: {"next": e.next + 1}, is_found),
    retold("gives the data's start for the next place", lambda e, c: {"next": e.start}, is_found),
    retold("gives the place for the next place", lambda e, c: {"next": e.place}, is_found),
    retold("gives a whole event's length for the next place", lambda e, c: {"next": e.next - e.place}, is_found),
    retold("gives the data's length for the next place", lambda e, c: {"next": e.next - e.start}, is_found),
    retold("gives the end for the next place", lambda e, c: {"next": len(c.string)}, is_found),
    retold("gives the next place without the header", lambda e, c: {"next": e.next - 3}, is_found),
    retold("gives the next place in one byte", lambda e, c: {"next": e.next % 256}, is_found),
    retold("gives the data's start one early", lambda e, c: {"start": e.start - 1}, is_found),
    retold("gives the data's start one late", lambda e, c: {"start": e.start + 1}, is_found),
    retold("gives the event's start for the data's", lambda e, c: {"start": e.place}, is_found),
    retold("counts the data's start from the event's", lambda e, c: {"start": 3}, is_found),
    retold("gives the data's start in one byte", lambda e, c: {"start": e.start % 256}, is_found),
    retold("says that it found the end", lambda e, c: {"found": True}, is_end),
    retold("says that it found what is not there", lambda e, c: {"found": True}, is_refused),
    retold("says that it found nothing", lambda e, c: {"found": False}, is_found),
    retold("gives place 0 for an event", lambda e, c: {"place": 0}, is_found),
    retold("gives place 0 at the end", lambda e, c: {"place": 0}, is_end),
    retold("gives place 0 with 44", lambda e, c: {"place": 0}, is_refused),
    retold("gives the next place for an event's", lambda e, c: {"place": e.next}, is_found),
    retold("gives the end for a place past it", lambda e, c: {"place": min(e.place, len(c.string))}, is_refused),
    retold("counts a place from 1 with 44", lambda e, c: {"place": e.place + 1}, is_refused),
    retold("gives a next place with 44", lambda e, c: {"next": e.next + 1}, is_refused),
    retold("gives the end for the next place with 44", lambda e, c: {"next": len(c.string)}, is_refused),
    retold("gives next place 0 at the end", lambda e, c: {"next": 0}, is_end),
    retold("gives next place 0 with 44", lambda e, c: {"next": 0}, is_refused),
    retold("gives a start of data where there are none", lambda e, c: {"start": e.start + 3}, is_none),
    retold("gives start 0 of data where there are none", lambda e, c: {"start": 0}, is_none),
    retold("gives the source of a cut event", source_of_rest, is_refused),
    retold("gives 44 for a source at 44", lambda e, c: {"source": NO_EVENT}, is_refused),
    *(
        retold(f"gives {other} for 44", lambda e, c, other=other: {"number": other}, is_refused)
        for other in (0, 1, 16, 43, 45)
    ),
    retold("gives 44 for an event", lambda e, c: {"number": NO_EVENT}, is_found),
    retold("gives 44 with the last event", lambda e, c: {"number": NO_EVENT * (e.next == len(c.string))}, is_found),
    retold("gives 1 for an event", lambda e, c: {"number": 1}, is_found),
)

WRONG = (*WRONG_EVENTS, *WRONG_SOURCES, *WRONG_PLACES, *WRONG_ANSWERS)
