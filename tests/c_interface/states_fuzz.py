#!/usr/bin/env python3
"""Calls on chosen and random states, made by the library and by tests/independent/station.py, and compared.

    tests/c_interface/states_fuzz.py PROGRAM [--seconds S] [--seed N]

PROGRAM is tests/c_interface/states.c linked with the library, which says how a line is laid out. States and arguments
are biased to the boundaries of every number. Prints how often each number occurred, what became of the requests on the
key, and what blank seeds and lists of quotas met. Exits 1 where an answer differs, with the line that shows it, or
where a number, a clause of 21, a way of counting requests or of meeting a blank seed or a list never occurred. The same
seed gives the same calls; the chosen ones are all made, however long they take."""
import argparse
import random
import subprocess
import sys
import time
from collections import Counter
from dataclasses import dataclass
from itertools import product
from pathlib import Path

sys.path.append(str(Path(__file__).resolve().parents[1] / "independent"))

import station
from frames import blank_page, nearly_blank
from generator import MAX_COUNT, MAX_REQUEST, block_count
from sha256 import INITIAL
from station import EMPTY, FRESH, INPUT_NUMBERS, MAX_KEY_REQUESTS, MAX_POOL, MAX_RECORDS, POOLS, SEED_SIZE, Pool, State

KINDS = ("event", "request", "update", "write", "draw", "shuffle")
NUMBERS = {
    "event": (0, 11, 12, 13, 37, 38, 39, 21, 22),
    "request": (0, 14, 37, 21, 23, 24),
    "update": (0, 15, 36, 37, 21, 24),
    "write": (0, 15, 37, 21, 23, 24),
    "draw": (0, 31, 32, 37, 21, 23, 24, 33),
    "shuffle": (0, 31, 37, 21, 23, 24),
}
KEY_REQUESTS = (0, 1, MAX_KEY_REQUESTS - 2, MAX_KEY_REQUESTS - 1, MAX_KEY_REQUESTS)
# Pool lengths next above the limit, about the limit of before 02 (v), and such that 64 more wrap.
TOO_LONG = (MAX_POOL + 1, MAX_POOL + 2, 2**61 - 1, 2**61, 2**61 + 1, 2**64 - 64, 2**64 - 1)
OLD_EMPTY = tuple(INITIAL)  # the empty pool's running hash before 02 (v)
WITH_QUOTAS = 16  # on top of a call's byte
LARGEST = 2**32 - 1


@dataclass
class Case:
    """A call. buffer is the event's data, or what the lent buffer holds; numbers is the lent list; quotas are the
    records of a call that takes them."""

    kind: str
    state: State
    clock: int = 0
    source: int = 0
    pool: int = 0
    buffer: bytes = b""
    n: int = 1
    tries: int = 1
    numbers: tuple = ()
    quotas: tuple | None = None

    def change(self, **fields):
        self.state = self.state._replace(**fields)

    def set_pool(self, i, pool):
        pools = list(self.state.pools)
        pools[i] = pool
        self.change(pools=tuple(pools))

    def growth(self):
        """u + b of 24."""
        blocks = {
            "event": 0,
            "request": block_count(len(self.buffer)) + 2,
            "update": 7,
            "write": 6,
            "draw": 3 * self.tries,
            "shuffle": 192 * max(len(self.numbers) - 1, 0),
        }[self.kind]
        return blocks + station.due(self.state, self.clock)

    def arguments(self):
        if self.kind == "event":
            return self.source, self.pool, self.buffer
        if self.kind == "draw":
            return self.clock, self.n, self.tries
        return self.clock, self.numbers if self.kind == "shuffle" else self.buffer

    def call(self):
        return getattr(station, self.kind)

    def plain(self):
        """What the call gives without quotas."""
        return self.call()(self.state, *self.arguments())

    def expected(self):
        """The outcome and the quotas left."""
        if self.quotas is None:
            return self.plain(), None
        return station.metered(*self.with_quotas())

    def with_quotas(self):
        """The arguments of a call with quotas, as the station takes them."""
        return self.call(), self.state, self.quotas, *self.arguments()


# ---- lines


def state_hex(s):
    parts = [s.key, s.count.to_bytes(16, "little")]
    for p in s.pools:
        parts += [word.to_bytes(4, "big") for word in p.chain]
        parts += [p.tail, p.length.to_bytes(8, "big")]
    parts += [s.last_reseed.to_bytes(4, "big"), s.reseed_count.to_bytes(4, "big"), bytes([s.reseeded])]
    parts += [s.key_requests.to_bytes(2, "big")]
    return b"".join(parts).hex()


def list_hex(numbers):
    return "".join(f"{number:04x}" for number in numbers)


def quotas_hex(records):
    return "".join(f"{number:08x}" for record in records for number in record)


def arguments_hex(case):
    if case.kind == "event":
        return f"{case.source:08x}{case.pool:08x}{case.buffer.hex()}"
    if case.kind == "draw":
        return f"{case.clock:08x}{case.n:016x}{case.tries:08x}"
    return f"{case.clock:08x}{list_hex(case.numbers) if case.kind == 'shuffle' else case.buffer.hex()}"


def result_hex(kind, result):
    if kind == "draw":
        return f"{result:016x}"
    return list_hex(result) if kind == "shuffle" else result.hex()


def question(case):
    kind, quotas = KINDS.index(case.kind) + 1, ""
    if case.quotas is not None:
        kind, quotas = kind + WITH_QUOTAS, f"{len(case.quotas):04x}{quotas_hex(case.quotas)}"
    return f"{kind:02x}{state_hex(case.state)}{quotas}{arguments_hex(case)}"


def answer(kind, outcome, left):
    words = [f"{outcome.number} {outcome.emptied} {result_hex(kind, outcome.buffer)}"]
    words += [] if left is None else [quotas_hex(left)]
    return " ".join([*words, state_hex(outcome.next)])


# ---- well-formed states and arguments that are taken, unless a pool has no room or the counter is spent


def pool_of(r, length):
    chain = tuple(r.getrandbits(32) for _ in range(8)) if length >= 64 else EMPTY.chain
    return Pool(chain, r.randbytes(length % 64).ljust(64, b"\0"), length)


def any_pool(r):
    near_limit = MAX_POOL - r.randrange(130)
    return pool_of(r, r.choice((0, r.randrange(64), 64, r.randrange(64, 300), near_limit, r.randrange(MAX_POOL + 1))))


def any_state(r):
    carry = 2 ** (8 * r.randrange(1, 16)) - r.randrange(1, 4)
    count = r.choice((1, carry, r.randrange(1, 2**20), r.randrange(1, 2**128)))
    requests = r.choice((*KEY_REQUESTS, r.randrange(300), r.randrange(2**16)))
    state = State(r.randbytes(32), count, tuple(any_pool(r) for _ in range(POOLS)), 0, 0, False, requests)
    if r.random() < 0.3:
        return state
    return state._replace(last_reseed=r.getrandbits(32), reseed_count=r.getrandbits(32), reseeded=True)


def any_clock(r, state):
    waits = (0, 99, 100, 101, 102, 2**32 - 5, r.getrandbits(32))
    return (state.last_reseed + r.choice(waits)) % 2**32


def any_below(r):
    power = 2 ** r.randrange(33)
    near = min(max(power + r.choice((-1, 0, 1)), 1), 2**32)
    return r.choice((near, r.randrange(power) + 1, 129, 2**31 + 1, 2**32))


def any_list(r):
    """A list of distinct numbers; a long one takes time and comes seldom."""
    size = 256 - r.randrange(2) if r.random() < 0.02 else r.choice((0, 1, 2, 2, 3, r.randrange(20)))
    return tuple(r.sample(range(2**16), size))


def any_case(r, kind):
    state = any_state(r)
    if kind == "draw":
        tries = r.choice((1, 1, 2, 63, 64, r.randrange(1, 65)))
        return Case(kind, state, any_clock(r, state), n=any_below(r), tries=tries)
    if kind == "shuffle":
        return Case(kind, state, any_clock(r, state), numbers=any_list(r))
    if kind == "event":
        data = r.randbytes(r.choice((1, 32, r.randrange(1, 33))))
        source = r.choice((0, 255, 256, 65535, r.randrange(65536)))
        return Case(kind, state, 0, source, r.choice((0, 31, r.randrange(32))), data)
    sizes = (0, 1, 15, 16, 17, 32, 64, r.randrange(200))
    size = r.choice(sizes) if kind == "request" else SEED_SIZE
    return Case(kind, state, any_clock(r, state), buffer=r.randbytes(size))


# ---- twists: each brings a case to the boundary of a number


def bad_source(r, case):
    case.source = r.choice((65536, 2**32 - 1, r.randrange(65536, 2**32)))


def bad_pool(r, case):
    case.pool = r.choice((32, 2**32 - 1, r.randrange(32, 2**32)))


def bad_data(r, case):
    case.buffer = r.randbytes(r.choice((0, 33, 64, 300)))


def bad_request(r, case):
    case.buffer = r.randbytes(MAX_REQUEST + r.choice((1, 1, 16)))


def bad_seed(r, case):
    case.buffer = r.randbytes(r.choice((0, 32, 63, 65, 128)))


def any_byte(r):
    """What a page was seen to hold, or any other byte."""
    return r.choice((0x00, 0xFF, r.randrange(256)))


def blank_seed(r, case):
    case.buffer = blank_page(any_byte(r))


def nearly_blank_seed(r, case):
    case.buffer = nearly_blank(any_byte(r), r.choice((0, 63, r.randrange(64))))


def equal_bad_seed(r, case):
    case.buffer = bytes([any_byte(r)]) * r.choice((63, 65))


def bad_below(r, case):
    case.n = r.choice((0, 2**32 + 1, 2**33, 2**64 - 1, r.randrange(2**32 + 1, 2**64)))


def bad_tries(r, case):
    case.tries = r.choice((0, 65, 256, 2**32 - 1, r.randrange(65, 2**32)))


def long_list(r, case):
    case.numbers = tuple(r.sample(range(2**16), r.choice((257, 258, 512))))


def repeat_in_list(r, case):
    numbers = r.sample(range(2**16), r.choice((2, 3, r.randrange(2, 257), 256, 257)))
    first, second = r.choice(((0, -1), (0, 1), (-2, -1), r.sample(range(len(numbers)), 2)))
    numbers[first] = numbers[second]
    case.numbers = tuple(numbers)


def pool_too_long(r, case):
    length = r.choice((*TOO_LONG, 2**63, r.randrange(MAX_POOL + 1, 2**64)))
    case.set_pool(r.randrange(POOLS), pool_of(r, length))


def dirty_tail(r, case):
    i = r.randrange(POOLS)
    pool = case.state.pools[i]
    start = pool.length % 64
    tail = bytearray(pool.tail)
    tail[r.choice((start, 63, r.randrange(start, 64)))] = 1 << r.randrange(8)
    case.set_pool(i, pool._replace(tail=bytes(tail)))


def stray_chain(r, case):
    near = list(EMPTY.chain)
    near[r.randrange(8)] ^= 1 << r.randrange(32)
    pool = pool_of(r, r.choice((0, 63, r.randrange(64))))
    case.set_pool(r.randrange(POOLS), pool._replace(chain=r.choice((tuple(near), OLD_EMPTY))))


def unseeded(r, case):
    case.change(key=bytes(32), count=0, last_reseed=0, reseed_count=0, reseeded=False, key_requests=0)
    case.set_pool(0, pool_of(r, r.choice((0, 63, 64, 65))))
    case.clock = r.choice((0, 100, 101, r.getrandbits(32)))


def key_without_counter(r, case):
    unseeded(r, case)
    key = bytearray(32)
    key[r.choice((0, 31, r.randrange(32)))] = 1 << r.randrange(8)
    case.change(key=bytes(key))


def flag_without_counter(r, case):
    unseeded(r, case)
    case.change(reseeded=True, last_reseed=r.getrandbits(32), reseed_count=r.getrandbits(32))


def requests_without_counter(r, case):
    """Its neighbours are among all states: counter 0 with no request, and a counter above 0 with the flag clear."""
    unseeded(r, case)
    case.change(key_requests=r.choice((1, 256, MAX_KEY_REQUESTS, r.randrange(1, 2**16))))


def timer_without_flag(r, case):
    stray = 1 << r.randrange(32)
    mark, number = r.choice(((stray, 0), (0, stray), (stray, r.getrandbits(32))))
    case.change(last_reseed=mark, reseed_count=number, reseeded=False)


def rubbish(r, case):
    pools = tuple(
        Pool(tuple(r.getrandbits(32) for _ in range(8)), r.randbytes(64), r.getrandbits(64)) for _ in range(POOLS)
    )
    timer = r.getrandbits(32), r.getrandbits(32), r.random() < 0.5
    case.state = State(r.randbytes(32), r.getrandbits(128), pools, *timer, r.getrandbits(16))


def little_room(r, case):
    if case.pool < POOLS:
        length = MAX_POOL - 3 - len(case.buffer) + r.choice((-1, 0, 1, 2))
        case.set_pool(case.pool, pool_of(r, length))


def nearly_due(r, case):
    """Also after 2^32 reseeds, where the number kept is 0 and the flag alone says that there were any."""
    case.set_pool(0, pool_of(r, r.choice((62, 63, 64, 65))))
    case.change(reseed_count=r.choice((0, case.state.reseed_count)))
    case.clock = any_clock(r, case.state)


def much_used(r, case):
    """A due reseed whose number has any count of zeros at its end."""
    number = (r.randrange(2**32) * 2 + 1) << r.randrange(33)
    case.change(last_reseed=r.getrandbits(32), reseed_count=(number - 1) % 2**32, reseeded=True)
    case.set_pool(0, pool_of(r, r.choice((64, r.randrange(64, 300)))))
    case.clock = (case.state.last_reseed + r.choice((101, r.randrange(101, 2**32)))) % 2**32


def counter_at_end(r, case):
    count = MAX_COUNT - case.growth() + r.choice((-1, 0, 1, 2))
    case.change(count=min(count, MAX_COUNT))


def spent(r, case):
    case.change(count=min(MAX_COUNT - case.growth() + 1, MAX_COUNT))


def nearly_stopped(r, case):
    """Requests that bring the number of requests on the key to its end or near it; draws and shuffles make several."""
    case.change(key_requests=MAX_KEY_REQUESTS - r.choice((0, 1, 2, 3, 5, 64)))


def as_it_is(r, case):
    pass


def no_room(r, case):
    case.set_pool(case.pool, pool_of(r, MAX_POOL - 3 - len(case.buffer) + r.choice((1, 2))))


def not_due(r, case):
    case.set_pool(0, pool_of(r, 63))


def never_seeded(r, case):
    unseeded(r, case)
    not_due(r, case)


def some_numbers(r, case):
    """A shuffle of fewer makes no request."""
    if len(case.numbers) < 2:
        case.numbers = tuple(r.sample(range(2**16), 2))


def no_numbers(r, case):
    case.numbers = case.numbers[:1]


# ---- quotas: each gives a list to a case, which may have been twisted before


def any_record(r, source):
    allowance = r.choice((0, 3, 35, 100, LARGEST, r.getrandbits(32)))
    return source, allowance, r.choice((0, allowance, r.randrange(allowance + 1)))


def good_quotas(r, case, room=None, most=MAX_RECORDS):
    """A well-formed list in which the event's source has room for it, or so much, and is at any place."""
    size = r.choice((1, 2, 3, most, r.randrange(1, most + 1)))
    sources = r.sample([source for source in (*range(300), 65535, 65536, LARGEST) if source != case.source], size - 1)
    records = [any_record(r, source) for source in sources]
    room = 3 + len(case.buffer) + r.choice((0, 1, 40)) if room is None else room
    spent = r.choice((0, LARGEST - room, r.randrange(2**32 - room)))
    records.insert(r.choice((0, size - 1, r.randrange(size))), (case.source, spent + room, spent))
    case.quotas = tuple(records)


def just_enough(r, case):
    good_quotas(r, case, 3 + len(case.buffer))


def too_little(r, case):
    good_quotas(r, case, r.choice((0, 2 + len(case.buffer))))


def unlisted(r, case):
    good_quotas(r, case)
    case.quotas = tuple(record for record in case.quotas if record[0] != case.source)


def too_many(r, case):
    good_quotas(r, case)
    known = {source for source, _, _ in case.quotas}
    more = [any_record(r, source) for source in range(1000, 1200) if source not in known]
    case.quotas = (*case.quotas, *more)[: MAX_RECORDS + r.choice((1, 1, 2, 50))]


def repeated_source(r, case):
    good_quotas(r, case, most=MAX_RECORDS - 1)
    place = r.choice((0, -1, r.randrange(len(case.quotas))))
    again = any_record(r, case.quotas[place][0])
    where = r.choice((0, len(case.quotas), r.randrange(len(case.quotas) + 1)))
    case.quotas = (*case.quotas[:where], again, *case.quotas[where:])


def overspent(r, case):
    good_quotas(r, case)
    place = r.choice((0, len(case.quotas) - 1, r.randrange(len(case.quotas))))
    allowance = r.choice((0, 5, LARGEST - 1, r.randrange(LARGEST)))
    bad = case.quotas[place][0], allowance, r.choice((allowance + 1, LARGEST))
    case.quotas = (*case.quotas[:place], bad, *case.quotas[place + 1 :])


BAD_QUOTAS = [too_many, repeated_source, overspent]
QUOTAS = {kind: [good_quotas, *BAD_QUOTAS] for kind in KINDS}
QUOTAS["event"] = [good_quotas, just_enough, too_little, unlisted, *BAD_QUOTAS]
INPUTS = {
    "event": [bad_source, bad_pool, bad_data],
    "request": [bad_request],
    "update": [bad_seed, blank_seed],
    "write": [bad_seed],
    "draw": [bad_below, bad_tries],
    "shuffle": [long_list, repeat_in_list],
}


POOL_CLAUSES = [pool_too_long, dirty_tail, stray_chain]
SEED_CLAUSES = [key_without_counter, flag_without_counter, requests_without_counter]
MALFORMED = POOL_CLAUSES + SEED_CLAUSES + [timer_without_flag, rubbish]
OUTPUT = [unseeded, nearly_due, much_used, counter_at_end, nearly_stopped]
SEEDS = [blank_seed, nearly_blank_seed, equal_bad_seed]
TWISTS = {
    "event": [as_it_is, bad_source, bad_pool, bad_data, little_room, unseeded] + MALFORMED,
    "request": [as_it_is, bad_request] + MALFORMED + OUTPUT,
    "update": [as_it_is, bad_seed] + SEEDS + MALFORMED + OUTPUT,
    "write": [as_it_is, bad_seed] + SEEDS + MALFORMED + OUTPUT,
    "draw": [as_it_is, bad_below, bad_tries] + MALFORMED + OUTPUT,
    "shuffle": [as_it_is, long_list, repeat_in_list] + MALFORMED + OUTPUT,
}


def largest_cases(r):
    """The calls that need the most of the counter."""
    yield Case("request", any_state(r), buffer=bytes(MAX_REQUEST))
    yield Case("draw", any_state(r), n=2**31 + 1, tries=64)
    yield Case("shuffle", any_state(r), numbers=tuple(r.sample(range(2**16), 256)))


def buffer_for(r, kind):
    return r.randbytes(SEED_SIZE if kind in ("update", "write") else 16)


def counted_cases(r):
    """Each call at each bound of the requests on the key: unseeded, seeded by an update alone, and after a pool reseed;
    a pool reseed due or not. The draw makes some tries, and its neighbour all that it has."""
    seeded = FRESH._replace(key=r.randbytes(32), count=1)
    for state in (FRESH, seeded, seeded._replace(last_reseed=5, reseed_count=1, reseeded=True)):
        for requests in KEY_REQUESTS:
            for size in (0, 64):
                pools = (pool_of(r, size), *FRESH.pools[1:])
                counted = state._replace(pools=pools, key_requests=requests)
                for kind in KINDS:
                    lent = {"buffer": buffer_for(r, kind), "numbers": (4, 3, 2, 1)}
                    yield Case(kind, counted, 106, n=2**31 + 1, tries=5, **lent)
                yield Case("draw", counted, 106, n=2**31 + 1, tries=1)


def pool_states(r):
    """Pools at the bounds of 21's first and third clause: lengths about the limit, and empty, short and longer pools with
    the empty pool's running hash, the one of before, and another."""
    yield from (pool_of(r, length) for length in (MAX_POOL - 1, MAX_POOL, *TOO_LONG))
    for length in (0, 1, 63, 64, 65, 128):
        for chain in (EMPTY.chain, OLD_EMPTY, (0,) * 8):
            yield pool_of(r, length)._replace(chain=chain)


def pool_cases(r):
    """Each call on each such pool, as the first and as the last, in a seeded state; a pool 0 of 64 bytes and more is due,
    so that its digest goes into the key."""
    seeded = FRESH._replace(key=r.randbytes(32), count=1)
    for pool in pool_states(r):
        for place in (0, POOLS - 1):
            for kind in KINDS:
                case = Case(kind, seeded, pool=place, buffer=buffer_for(r, kind), n=100, numbers=(2, 1))
                case.set_pool(place, pool)
                yield case


def blank_cases(r):
    """Updates from blank pages, nearly blank ones and equal bytes that are not 64, and writes over them, on states of
    all kinds; then an update from a page of each byte, and one with another byte at each place."""
    states = (as_it_is, unseeded, much_used, spent, *MALFORMED)
    for kind, state, page in 4 * [*product(("update", "write"), states, SEEDS)]:
        case = any_case(r, kind)
        state(r, case)
        page(r, case)
        yield case
    seeded = FRESH._replace(key=r.randbytes(32), count=1)
    pages = [blank_page(byte) for byte in range(256)]
    pages += [nearly_blank(byte, place) for place in range(64) for byte in (0x00, 0xFF)]
    yield from (Case("update", seeded, buffer=page) for page in pages)


def twisted(r, kind, *twists):
    case = any_case(r, kind)
    for twist in twists:
        twist(r, case)
    return case


def quota_cases(r):
    """Lists of all kinds with what the input turns back, and on states of all kinds; then draws of which about every
    other one gives 33, and shuffles that make no request."""
    for kind in KINDS:
        states = [as_it_is, never_seeded, not_due, much_used, no_room if kind == "event" else spent, *MALFORMED]
        for twist, quotas in 2 * [*product(INPUTS[kind] + states, QUOTAS[kind])]:
            yield twisted(r, kind, some_numbers, twist, quotas)
    for state in 10 * [not_due, much_used]:
        case = twisted(r, "draw", state, good_quotas)
        case.n, case.tries = 2**31 + 1, 1
        yield case
    for state, quotas in product((as_it_is, never_seeded, much_used, *MALFORMED), QUOTAS["shuffle"]):
        yield twisted(r, "shuffle", no_numbers, state, quotas)


def fixed_cases(r):
    for kind in KINDS:
        yield Case(kind, FRESH, buffer=buffer_for(r, kind))
    yield from counted_cases(r)
    yield from pool_cases(r)
    yield from blank_cases(r)
    yield from quota_cases(r)
    for largest in largest_cases(r):
        yield largest
        for beyond in (0, 1):
            largest.change(count=MAX_COUNT - largest.growth() + beyond)
            yield largest


def cases(r, end):
    """The chosen ones, and up to the end: each twist of each call in turn, every fourth with another twist on top, and
    every third with a list of quotas."""
    yield from fixed_cases(r)
    while time.monotonic() < end:
        for kind in KINDS:
            for twist in TWISTS[kind]:
                case = twisted(r, kind, twist)
                if r.random() < 0.25:
                    r.choice(TWISTS[kind])(r, case)
                if r.random() < 0.33:
                    r.choice(QUOTAS[kind])(r, case)
                yield case


# ---- comparing and counting

WAYS = ("gone on", "begun anew", "stopped")


def way_counted(outcome):
    """What became of the requests on the key in an accepted call."""
    if outcome.emptied:
        return "begun anew"
    return "stopped" if outcome.next.key_requests == MAX_KEY_REQUESTS else "gone on"


BLANK = (
    *("15 before 36", "36 before 21", "36 before 24", "36 alone", "36, a reseed due", "36, unseeded", "nearly blank 0"),
    *(f"write over equal bytes {n}" for n in NUMBERS["write"] if n != 37),
)


def ways_of_blank(case, outcome):
    """What a blank seed met, or one that is nearly so: of an update the number that would have come next."""
    equal = max(Counter(case.buffer).values(), default=0)
    if case.kind == "write" and equal == len(case.buffer) > 0:
        yield f"write over equal bytes {outcome.number}"
    if case.kind != "update" or equal < 63:
        return
    if outcome.number == 15 and equal == len(case.buffer):
        yield "15 before 36"
    if outcome.number == 0:
        yield "nearly blank 0"
    if outcome.number != 36:
        return
    behind = station.update(case.state, case.clock, nearly_blank(case.buffer[0], 0))
    yield f"36 before {behind.number}" if behind.number else "36 alone"
    if case.state.count == 0:
        yield "36, unseeded"
    if behind.emptied:
        yield "36, a reseed due"


QUOTA_WAYS = (
    *(f"{number} before {later}" for number in (11, 12, 13) for later in (37, 38, 39)),
    *(f"{number} before 37" for number in (14, 15, 36, 31, 32)),
    *(f"{number} before {later}" for number in (37, 38, 39) for later in (21, 22)),
    *("37 before 23", "37 before 24", "event 22, kept", "draw 33, kept", "draw 33, cleared"),
    *(f"{kind} 21, kept" for kind in KINDS),
    *(f"{kind} {number}, kept" for kind in ("request", "write", "draw", "shuffle") for number in (23, 24)),
    *(f"{kind} 0, cleared" for kind in KINDS[1:]),
    *("update 24, kept", "event 0, charged", "event 0, allowance reached", "37 of a shuffle that makes no request"),
)


def ways_of_quotas(case, outcome, left):
    """What a list met: the number that would have come next, and what became of the list."""
    if outcome.number in INPUT_NUMBERS:
        later = station.records_refusal(case.quotas, case.call(), case.arguments())
        yield f"{outcome.number} before {later}"
        return
    if outcome.number in (37, 38, 39):
        yield f"{outcome.number} before {case.plain().number}"
        if case.kind == "shuffle" and len(case.numbers) < 2:
            yield "37 of a shuffle that makes no request"
        return
    if outcome.emptied and left == case.quotas:
        return  # nothing was spent
    became = "cleared" if outcome.emptied else "charged" if left != case.quotas else "kept"
    yield f"{case.kind} {outcome.number}, {became}"
    if became == "charged" and any(record not in case.quotas and record[1] == record[2] for record in left):
        yield f"{case.kind} 0, allowance reached"


class Tally:
    def __init__(self):
        self.numbers = {kind: Counter() for kind in KINDS}
        self.clauses = Counter({name: 0 for name in station.CLAUSES})
        self.emptied = Counter()
        self.counted = Counter({(kind, way): 0 for kind in KINDS[1:] for way in WAYS})
        self.blank = Counter({way: 0 for way in BLANK})
        self.quotas = Counter({way: 0 for way in QUOTA_WAYS})

    def note(self, case, outcome, left):
        self.numbers[case.kind][outcome.number] += 1
        self.blank.update(ways_of_blank(case, outcome))
        if case.quotas is not None:
            self.quotas.update(ways_of_quotas(case, outcome, left))
        if case.kind != "event" and outcome.number in (0, 33):
            self.emptied[outcome.emptied] += 1
            self.counted[case.kind, way_counted(outcome)] += 1
        broken = station.clauses(case.state) if outcome.number == 21 else []
        if len(broken) == 1:
            self.clauses[broken[0]] += 1

    def calls(self):
        return sum(sum(counts.values()) for counts in self.numbers.values())

    def missing(self):
        for kind in KINDS:
            yield from (f"{kind} {n}" for n in NUMBERS[kind] if not self.numbers[kind][n])
        yield from (f"21 by its clause '{name}' alone" for name, n in self.clauses.items() if n == 0)
        yield from (f"{kind}, requests on the key {way}" for (kind, way), n in self.counted.items() if n == 0)
        yield from (way for way, n in {**self.blank, **self.quotas}.items() if n == 0)

    def show(self):
        for kind in KINDS:
            counts = "  ".join(f"{n:02}: {self.numbers[kind][n]}" for n in NUMBERS[kind])
            print(f"{kind:8} {counts}")
        print("21 by one clause alone:", ", ".join(f"{name} {n}" for name, n in self.clauses.items()))
        print("pools emptied:", "  ".join(f"{k}: {n}" for k, n in sorted(self.emptied.items())))
        for way in WAYS:
            print(f"requests on the key {way}:", "  ".join(f"{kind} {self.counted[kind, way]}" for kind in KINDS[1:]))
        print("blank seeds:", ", ".join(f"{way}: {n}" for way, n in self.blank.items()))
        print("lists of quotas:", ", ".join(f"{way}: {self.quotas[way]}" for way in QUOTA_WAYS))


def ask(program, line):
    program.stdin.write(line + "\n")
    program.stdin.flush()
    return program.stdout.readline().rstrip("\n")


def compare(program, r, seconds, tally):
    """The first difference, or nothing."""
    for case in cases(r, time.monotonic() + seconds):
        line, (outcome, left) = question(case), case.expected()
        found = ask(program, line)
        expected = answer(case.kind, outcome, left)
        if found != expected:
            return f"line:     {line}\nexpected: {expected}\nfound:    {found}"
        tally.note(case, outcome, left)
    return None


def main():
    parser = argparse.ArgumentParser(description=__doc__, formatter_class=argparse.RawDescriptionHelpFormatter)
    parser.add_argument("program")
    parser.add_argument("--seconds", type=float, default=20)
    parser.add_argument("--seed", type=int, default=1)
    args = parser.parse_args()
    tally = Tally()
    with subprocess.Popen([args.program], stdin=subprocess.PIPE, stdout=subprocess.PIPE, text=True) as program:
        difference = compare(program, random.Random(args.seed), args.seconds, tally)
        program.stdin.close()
    if difference:
        sys.exit(f"{difference}\nstates_fuzz: the library and tests/independent/station.py differ (seed {args.seed})")
    tally.show()
    missing = list(tally.missing())
    if missing:
        sys.exit(f"states_fuzz: never occurred: {', '.join(missing)}")
    print(f"states_fuzz: {tally.calls()} calls on single states agree (seed {args.seed})")


if __name__ == "__main__":
    main()
