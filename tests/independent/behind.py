"""Which events made a key (02, xiii), by the plain logbook of tests/independent/logbook.py: what bin/logbook, which is
editions.py, prints for --behind, --behind-key and --strings. Nothing is taken from the station or the library, and no
string is read back into events: the logbook has noted them as they came.

A log is gone over up to the pool reseed, or the answer, that is asked for, and no further. What is kept of it is the
logbook, and eight bytes for each event."""
from array import array
from itertools import groupby

from logbook import POOLS, answer, booked, lines


class NotThere(Exception):
    """The log has not what is asked for; the text says so."""


class Past:
    """A logbook of any kind, and the lines of the events that it has taken."""

    def __init__(self, book):
        self.book = book
        self.event_lines = array("Q")  # from 1, one for each of the book's events

    def answers(self, log):
        """The number of each line with its answer, as they are worked out."""
        for number, line in enumerate(lines(log), 1):
            given = answer(self.book, line)
            if len(self.book.events) > len(self.event_lines):
                self.event_lines.append(number)
            yield number, given

    # ---- how far a log is gone over

    def up_to_reseed(self, log, last):
        """Goes on until this pool reseed is made."""
        steps = self.answers(log)
        while self.book.reseeds < last and next(steps, None):
            pass
        if self.book.reseeds < last:
            made = f"{self.book.reseeds} pool reseed{'s' * (self.book.reseeds != 1)}"
            raise NotThere(f"this log makes {made}, fewer than {last}")

    def up_to_bytes(self, log, wanted):
        """Goes on until an answer holds these bytes, and gives its line."""
        for number, given in self.answers(log):
            if wanted in drawn(given):
                return number
        raise NotThere("no answer to this log holds these bytes")

    # ---- what is behind a key

    def events(self, last):
        """Those that have entered the key by this pool reseed, a text each, in the order of reseed, pool and order in
        the pool's string. The logbook has them in arrival order, which a sort keeps among equals."""
        events = self.book.events

        def used(place):
            return booked(events[place]), events[place].pool

        entered = sorted((place for place in range(len(events)) if used(place)[0] <= last), key=used)
        for (reseed, pool), places in groupby(entered, used):
            for order, place in enumerate(places, 1):
                where = f"line {self.event_lines[place]}: reseed {reseed}, pool {pool}, order {order}"
                yield f"{where}, source {events[place].source}, data {capitals(events[place].data)}"

    def strings(self, last):
        """The strings that pool reseeds up to this one have used, a text each; an empty one is nothing behind its
        colon. With one byte for a source they are said to be such: bin/events, which would take them for others,
        refuses them so."""
        header = "" if self.book.source_bytes == 2 else f", header {self.book.source_bytes}"
        for reseed in range(1, last + 1):
            for pool in (pool for pool in range(POOLS) if reseed % 2**pool == 0):
                yield f"reseed {reseed}, pool {pool}{header}: {capitals(self.book.given(pool, reseed))}".rstrip()


def capitals(content):
    return content.hex().upper()


def drawn(given):
    """The bytes of an answer: of `00 01 A1B2` those of A1B2."""
    return bytes.fromhex(given[6:].decode())


# ---- what is printed, a text to a line


def behind(log, book, last):
    past = Past(book)
    past.up_to_reseed(log, last)
    return past.events(last)


def behind_key(log, book, wanted):
    past = Past(book)
    line = past.up_to_bytes(log, wanted)
    last = book.reseeds
    yield f"line {line} draws it, {f'after pool reseed {last}' if last else 'before any pool reseed'}"
    yield from past.events(last)


def strings(log, book, last):
    past = Past(book)
    past.up_to_reseed(log, last)
    return past.strings(last)
