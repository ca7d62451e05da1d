#!/usr/bin/env python3
"""01's 'Readings on the workbench', those of 02 (iii), (iv), (v) and (vii), and the bounds of the refusals, asked of
logbook.py; those of 21, which no run of calls meets, of station.py.

    tests/independent/readings.py      exits 1 at the first that does not hold"""
import hashlib
import sys

import generator
import station
from frames import Noise, blank_page, event, nearly_blank, wide_event
from logbook import Event, Logbook, booked, call_of
from sha256 import INITIAL, finish


PAGE = bytes(range(64))  # a seed that is not blank


def filled(size, r=0, mark=0, count=1):
    """A logbook after r pool reseeds, with the last at `mark`, whose pool 0 holds `size` bytes."""
    book = Logbook()
    book.generator = generator.State(bytes(32) if count == 0 else b"\x01" * 32, count)
    book.reseeds, book.mark = r, mark
    for line in Noise("readings").filling(size) if size else ():
        _, *arguments = call_of(line)
        assert book.event(*arguments) == (0, 0, b"")
    return book


def emptied_at(number):
    return filled(64, number - 1).request(1000, b"")[1]


def growth(n):
    book = filled(0)
    book.request(0, bytes(n))
    return book.generator.count - 1


def counter_after_update():
    book = Logbook()
    book.update(0, PAGE)
    return book.generator.count


def pool_after_event(source):
    book = Logbook()
    book.event(source, 3, b"\xa1\xb2")
    return book.contents(3).hex().upper()


def seen(line):
    """A line's first two characters, its length, and whether it is a frame."""
    return line[:2], len(line), call_of(line) is not None


def at_limit(count, n=0, size=0):
    return filled(size, 1, 0, count).request(1000, bytes(n))[0]


def event_at(size):
    """The answer for 32 bytes more in a pool of this size, which no machine could fill."""
    book = Logbook()
    book.length = lambda pool: size
    return book.event(0, 5, bytes(32))[0]


def digest_of_view(length):
    """SHA-256 continued from the running hash, tail and length that the view shows: of the zero block and what was gained."""
    book = filled(length)
    pool = book.station().pools[0]
    digest = hashlib.sha256(bytes(64) + book.contents(0)).digest()
    return finish(list(pool.chain), pool.tail[: length % 64], 64 + pool.length) == digest


def views():
    """The view's parts that the calls change."""
    book = filled(64, 2**32 - 1, 77)
    before = book.station()
    book.request(500, b"")
    after = book.station()
    lengths = [sum(pool.length for pool in view.pools) for view in (before, after)]
    return before[2:6], after[2:6], lengths


END = 2**128


def readings():
    """A title, what is found, what 01 says."""
    yield "source 7, bytes A1 B2", pool_after_event(7), "070002A1B2"
    yield "source's two bytes", [pool_after_event(n)[:4] for n in (255, 256, 65535)], ["FF00", "0001", "FFFF"]
    yield "pools emptied", [emptied_at(n) for n in (1, 2, 3, 4, 6, 2**31, 2**32)], [1, 2, 1, 3, 2, 32, 32]
    yield "100 ms over the clock's end", filled(64, 1, 4294967290).due(94), False
    yield "101 ms over the clock's end", filled(64, 1, 4294967290).due(95), True
    yield "clock set back", filled(64, 1, 10).due(5), True
    yield "first reseed", [filled(size).due(0) for size in (63, 64)], [False, True]
    yield "after 2^32 reseeds", filled(64, 2**32, 10).due(10), False
    yield "counter growth", [growth(n) for n in (0, 1, 16, 17, 1048576)], [2, 3, 3, 4, 65538]
    yield "counter after an update", counter_after_update(), 7
    yield "counter's end", [at_limit(END - left) for left in (3, 2)], [0, 24]
    yield "counter's end, due", [at_limit(END - left, 0, 64) for left in (4, 3)], [0, 24]
    yield "counter's end, 17 bytes", [at_limit(END - left, 17) for left in (5, 4)], [0, 24]
    yield "counter's end, update", [filled(0, 1, 0, END - left).update(9, PAGE)[0] for left in (8, 7)], [0, 24]
    yield "counter's end, write", [filled(0, 1, 0, END - left).write(9, bytes(64))[0] for left in (7, 6)], [0, 24]
    yield "pool 2", [booked(Event(0, 2, b"", r)) for r in (5, 8)], [8, 12]
    yield "request", [filled(0).request(0, bytes(n))[0] for n in (1048576, 1048577)], [0, 14]
    yield "request, unseeded", [Logbook().request(0, bytes(n))[0] for n in (0, 1048577)], [23, 14]
    yield "unseeded, due", filled(64, count=0).write(0, bytes(64))[:2], (0, 1)
    yield "data", [Logbook().event(0, 0, bytes(n))[0] for n in (0, 1, 32, 33)], [13, 0, 0, 13]
    bad = ((65536, 32), (65535, 32), (65535, 31))
    yield "source, pool, data", [Logbook().event(*a, b"")[0] for a in bad], [11, 12, 13]
    yield "seed", [Logbook().write(0, bytes(n))[0] for n in (63, 64, 65)], [15, 23, 15]
    yield "refused buffer", Logbook().update(0, b"\x05" * 63), (15, 0, b"\x05" * 63)
    yield "view of a pool", all(digest_of_view(n) for n in (0, *range(4, 200))), True
    yield "view", views(), ((77, 2**32 - 1, True, 0), (500, 0, True, 1), [64, 0])
    yield from key_readings()
    yield from zero_block_readings()
    yield from pool_readings()
    yield from frame_readings()
    yield from blank_readings()
    yield from blank_orders()


def on_key(calls, size=0, r=1, before=0):
    """The number of requests on the key after calls at 1000 ms, with pool 0 at `size` bytes and `before` on the key."""
    book = filled(size, r)
    book.served[r] = before
    for name, *arguments in calls:
        getattr(book, name)(*([1000] if name != "event" else []), *arguments)
    return book.key_requests()


def key_readings():
    """Requests on one key (02, iv)."""
    request, update, write = ("request", b""), ("update", PAGE), ("write", bytes(64))
    yield "fresh, requests on the key", Logbook().station().key_requests, 0
    yield "each one more", [on_key([call], before=9) for call in (request, update, write)], [10] * 3
    yield "each with a pool reseed", [on_key([call], 64, before=9) for call in (request, update, write)], [1] * 3
    once, often = ("draw", 2**32, 64), ("shuffle", tuple(range(100)))
    yield "a draw of one try", [on_key([once], size, before=9) for size in (0, 64)], [10, 1]
    yield "a shuffle of tries", [on_key([often], size, before=9) > 99 for size in (0, 64)], [True, True]
    nothing = (("event", 7, 3, b"\xa1"), ("event", 7, 32, b"\xa1"), ("shuffle", ()), ("shuffle", (5,)), ("draw", 0, 1))
    yield "those that count nothing", [on_key([call], 64, before=9) for call in nothing], [9] * 5
    yield "where it stops", [on_key([request] * n, before=65534) for n in (0, 1, 2)], [65534, 65535, 65535]
    yield "after the stop", on_key([request], 64, before=10**6), 1


# ---- the block of zeros in front (02, v)

ZERO_BLOCK_HASH = "da5698be 17b9b469 62335799 779fbeca 8ce5d491 c0d26243 bafef9ea 1837a9d8"


class Lent:
    """Bytes that are only their number: no machine could lend so many. Behind other bytes they leave nothing."""

    def __init__(self, length):
        self.length = length

    def __len__(self):
        return self.length

    def __radd__(self, front):
        return front


def twice(m):
    return hashlib.sha256(hashlib.sha256(m).digest()).digest()


def zero_block_readings():
    """Keys are worked out here from the strings that are hashed."""
    pool = Logbook().station().pools[0]
    words = " ".join(f"{word:08x}" for word in pool.chain)
    yield "an empty pool", (words, pool.tail, pool.length), (ZERO_BLOCK_HASH, bytes(64), 0)
    book = Logbook()
    book.reseed_generator(PAGE)
    key = twice(bytes(64 + 32) + PAGE)
    yield "key after a seed", book.generator.key, key
    for line in Noise("key").filling(64):
        _, *arguments = call_of(line)
        book.event(*arguments)
    gained = book.contents(0)
    book.pool_reseed(0)
    yield "key after a pool's string", book.generator.key, twice(bytes(64) + key + twice(bytes(64) + gained))
    reseeds = [generator.reseed(generator.FRESH, Lent(2**61 - below))[0] for below in (97, 96, 33)]
    yield "seed's end", reseeds, [0, 17, 17]


def pool_answers(chain, lengths):
    """The answers for an event where one pool has this running hash and such a length, its tail zeros."""
    for length in lengths:
        pools = (station.EMPTY,) * 31 + (station.Pool(tuple(chain), bytes(64), length),)
        yield station.event(station.FRESH._replace(pools=pools), 7, 31, b"\xa1").number


def pool_readings():
    """A pool's length and running hash in 21 and 22."""
    yield "pool's end", [event_at(2**61 - 65 - left) for left in (35, 34)], [0, 22]
    lengths = [2**61 - below for below in (69, 68, 65, 64, 1, 0)]
    yield "pool's length", list(pool_answers(INITIAL, lengths)), [0, 22, 22, 21, 21, 21]
    yield "pool's length, far off", list(pool_answers(INITIAL, (2**64 - 64, 2**64 - 1))), [21, 21]
    words = [int(word, 16) for word in ZERO_BLOCK_HASH.split()]
    yield "the zero block's hash", list(pool_answers(words, (0, 1, 63, 64, 128))), [0] * 5
    yield "SHA-256's initial value", list(pool_answers(INITIAL, (0, 1, 63, 64, 128))), [21] * 3 + [0] * 2
    yield "any other", list(pool_answers(range(8), (0, 1, 63, 64, 128))), [21] * 3 + [0] * 2


def frame_readings():
    """The two frames of an event."""
    data = b"\xa1\xb2"
    calls = [call_of(line) for line in (b"010703A1B2", b"05000703A1B2", b"05038403A1B2")]
    yield "frames 01 and 05", calls, [("event", 7, 3, data), ("event", 7, 3, data), ("event", 900, 3, data)]
    fields = [seen(b"05000703"[:size]) for size in (6, 7, 8)]
    yield "frame 05, fields", fields, [(b"05", 6, False), (b"05", 7, False), (b"05", 8, True)]
    lengths = [seen(event(7, 3, bytes(n))) for n in (125, 126)]
    yield "frame 01, length", lengths, [(b"01", 256, True), (b"01", 258, False)]
    lengths = [seen(wide_event(7, 3, bytes(n))) for n in (125, 126)]
    yield "frame 05, length", lengths, [(b"05", 258, True), (b"05", 260, False)]


# ---- blank flash (02, vii)

BLANK = blank_page(0xFF)
SEEN = (0xFF, 0x00, 0x5A)  # two that pages were seen to hold, and one more


def updates(pages, make=Logbook):
    """The numbers of updates, each on a station of its own, by the logbook; and whether station.py says the same."""
    books = [make() for _ in pages]
    states = [station.FRESH._replace(key=book.generator.key, count=book.generator.count) for book in books]
    numbers = [book.update(0, page)[0] for book, page in zip(books, pages)]
    return numbers, numbers == [station.update(state, 0, page).number for state, page in zip(states, pages)]


def seeded():
    return filled(0)


def blank_readings():
    """Which seeds are blank, to both programs; and that a write asks nothing of the page."""
    for make in (Logbook, seeded):
        yield "64 equal bytes", updates(list(map(blank_page, SEEN)), make), ([36] * 3, True)
        yield "64 equal bytes, any", updates(list(map(blank_page, range(256))), make), ([36] * 256, True)
        lengths = [bytes([byte]) * size for byte in SEEN for size in (0, 1, 63, 65, 128)]
        yield "equal bytes, not 64", updates(lengths, make), ([15] * 15, True)
        pages = [nearly_blank(byte, place) for byte in SEEN for place in range(64)]
        yield "63 equal bytes and one other", updates(pages, make), ([0] * 192, True)
        words = [PAGE[:size] * (64 // size) for size in (2, 4, 8, 16, 32)]
        yield "equal words", updates(words, make), ([0] * 5, True)
    pages = list(map(blank_page, SEEN))
    yield "write over a blank page", [seeded().write(0, page)[:2] for page in pages], [(0, 0)] * 3
    yield "what it gives", len({seeded().write(0, page)[2] for page in (*pages, PAGE)}), 1
    yield "write over a blank page, unseeded", [Logbook().write(0, page)[0] for page in pages], [23] * 3
    states = [station.FRESH, station.FRESH._replace(key=b"\x01" * 32, count=1)]
    found = [station.write(state, 0, page).number for state in states for page in pages]
    yield "write over a blank page, station.py", found, [23] * 3 + [0] * 3
    yield "write over a blank page, due", filled(64, count=0).write(0, BLANK)[:2], (0, 1)


def left_by(book, seed, clock):
    """What an update answers, and whether it left all as it was."""
    before = book.station()
    answer = book.update(clock, seed)
    return answer, book.station() == before


def malformed_states():
    """States in each of which one clause of 21 holds and no other."""
    fresh, empty = station.FRESH, station.EMPTY
    kept = fresh._replace(key=b"\x01" * 32, count=1)
    pools = {
        "pool length": empty._replace(chain=tuple(INITIAL), length=2**61),
        "bytes after a tail": empty._replace(tail=bytes(63) + b"\x01"),
        "running hash": empty._replace(chain=tuple(INITIAL)),
    }
    yield from ((name, kept._replace(pools=fresh.pools[:31] + (pool,))) for name, pool in pools.items())
    yield "K without C", fresh._replace(key=bytes(31) + b"\x01")
    yield "flag without C", fresh._replace(reseeded=True)
    yield "mark or number without flag", kept._replace(last_reseed=1)
    yield "requests without C", fresh._replace(key_requests=1)


def on_malformed(seed):
    """The answers to an update on each malformed state, as a set: number, pools emptied, buffer, and whether the state
    is left as it was."""
    answers = set()
    for name, state in malformed_states():
        assert station.clauses(state) == [name], name
        outcome = station.update(state, 1000, seed)
        answers.add((*outcome[:3], outcome.next == state))
    return answers


def blank_orders():
    """15, 36, 21, 24; and what a refused update leaves."""
    spent = [filled(0, 1, 0, END - left) for left in (8, 7, 1)]
    yield "blank, counter's end", [book.update(9, BLANK)[0] for book in spent], [36] * 3
    yield "blank but 63, counter's end", [book.update(9, BLANK[1:])[0] for book in spent], [15] * 3
    yield "blank, malformed", on_malformed(BLANK), {(36, 0, BLANK, True)}
    yield "blank but 65, malformed", on_malformed(BLANK + b"\xff"), {(15, 0, BLANK + b"\xff", True)}
    yield "nearly blank, malformed", on_malformed(nearly_blank(0xFF, 63)), {(21, 0, nearly_blank(0xFF, 63), True)}
    yield "each clause of 21", [name for name, _ in malformed_states()], list(station.CLAUSES)
    for size, r in ((0, 0), (0, 1), (63, 1), (64, 1), (64, 2)):
        yield "blank, what is left", left_by(filled(size, r, 5), BLANK, 1000), ((36, 0, BLANK), True)
    yield "blank, unseeded", left_by(filled(64, count=0), bytes(64), 1000), ((36, 0, bytes(64)), True)
    spent = station.FRESH._replace(key=b"\x01" * 32, count=END - 1)
    yield "blank, spent state", station.update(spent, 9, BLANK), station.Outcome(36, 0, BLANK, spent)


def main():
    count = 0
    for title, found, expected in readings():
        if found != expected:
            print(f"{title}: expected {expected}, found {found}")
            return 1
        count += 1
    print(f"{count} readings hold")
    return 0


if __name__ == "__main__":
    sys.exit(main())
