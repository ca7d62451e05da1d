"""The stored scripts of the keyed scheduler (keyed_script.py, beside this). keyed_runs.py writes, checks and runs them.

Nothing in them comes from chance. Runs begin at a fresh start. Steps that no run gets to, counters near their end and
pools near their limit are set."""
from itertools import combinations, product

import keyed_script as script
from frames import Noise, blank_page, nearly_blank
from generator import MAX_COUNT, MAX_REQUEST
from keyed import (
    EMPTY,
    FRONT,
    HEADER,
    LAST_STEP,
    MAX_POOL,
    MAX_REQUESTS,
    POOLS,
    SEED,
    Keyed,
    Pool,
    Running,
    State,
    fresh,
    next_emptying,
    pool_of,
    with_pool,
)
from keyed_script import metered
from quotas import faulty_lists, good_lists
from wrong_keyed import APART, NUMBERS

KEYED = Keyed()
ORDERED = bytes(range(32))
KEYS = (bytes(32), ORDERED, Noise("a scheduler key").take(32), b"\xff" * 32)
SEED_BYTES = bytes(range(64))  # a seed that is not blank
LARGEST = 2**32 - 1
CALLS = ("event", "request", "update", "write")
# Steps about every bound of 02, and where a step number of fewer bits would wrap.
BOUNDS = (
    *(0, 1, 31, 32, 33, 63, 64, 65, 96, 127, 128, 129, 160, 192, 255, 256, 257, 512, 1024, 2**16 - 1, 2**16),
    *(2**16 + 32, 2**31 - 1, 2**31, 2**32 - 1, 2**32, 2**32 + 1, 2**32 + 32, 2**35 - 32, 2**35 - 1, 2**35),
    *(2**35 + 1, 3 * 2**35, 2**36 - 32, 2**36 - 1, 2**36, 2**36 + 1, 2**36 + 32, 2**36 + 64, 2**37 - 1, 2**37),
    *(2**37 + 1, 3 * 2**36, 2**38, 2**48, 2**53, 2**63 - 1, 2**63, 2**63 + 1, 2**63 + 32, 2**64 - 2**36),
    *(2**64 - 2**35, 2**64 - 64, 2**64 - 33, 2**64 - 32, 2**64 - 31, 2**64 - 3, 2**64 - 2, LAST_STEP),
)


def known(string):
    return Pool(FRONT, string)


def unknown(noise, size):
    """A pool of so many bytes, of which nobody knows the first."""
    chain = tuple(int.from_bytes(noise.take(4), "big") for _ in range(8)) if size >= 64 else FRONT.chain
    return pool_of(Running(chain, noise.take(size % 64).ljust(64, b"\0"), size))


class Maker(script.Run):
    """Writes a script. It goes along with it, so that the state is known at each line."""

    def __init__(self, title):
        super().__init__()
        self.noise = Noise(f"keyed {title}")
        self.before, self.lines, self.answers = [], [], []

    def add(self, *lines):
        for line in lines:
            self.before.append((self.state, self.held))
            self.lines.append(line)
            self.answers.append(self.answer(line))

    def set_to(self, state):
        """Sets the fields that differ."""
        if script.changes(self.state, state) != b"=":
            self.add(script.setting(self.state, state))

    def set(self, **fields):
        self.set_to(self.state._replace(**fields))

    def set_pool(self, i, pool):
        self.set(pools=with_pool(self.state.pools, i, pool))

    def picked(self):
        """The pool that the next event goes to."""
        return KEYED.picked(self.state)

    def one_of(self, values):
        return values[self.noise.below(len(values))]

    def event(self, source=7, size=2):
        return script.event(source, self.noise.take(size))

    def each_call(self, source=7):
        """A line of each call, which a seeded state takes."""
        return [self.event(source), script.request(5), script.update(self.noise.take(64)), script.write(bytes(64))]


FILLED = tuple(known(bytes((37 * i + 11 * j + 1) % 256 for j in range((5 * i + 3) % 60))) for i in range(POOLS))


def seeded(scheduler_key=ORDERED, **fields):
    """A state as a run may leave it: each pool holds another string. Always the same but for the fields given."""
    return State(SEED_BYTES[32:], 5, FILLED, 0, 0, False, 3, scheduler_key, 7)._replace(**fields)


# ---- the stored scripts: runs


def any_call(m):
    """Of 16 calls 12 are events, most of them short ones."""
    kind = m.noise.below(16)
    if kind < 12:
        return m.event(m.noise.source(), m.one_of((1, 1, 2, 3, 4, 9, 31, 32)))
    return (
        script.request(m.noise.below(40)),
        script.update(m.noise.take(SEED)),
        script.write(m.noise.take(SEED)),
        m.one_of((m.event(65536), m.event(7, 0), m.event(7, 33), script.update(bytes(64)), script.request(2**20 + 1))),
    )[kind - 12]


def runs(m):
    """From a fresh start under several keys, with refused calls among the others; the last one past step 256."""
    for key, steps in zip((KEYS[0], KEYS[1], KEYS[3], KEYS[2]), (70, 70, 70, 260)):
        m.add(script.new(key))
        while m.state.step < steps:
            m.add(any_call(m))


def events_alone(m):
    """Events from a fresh start, with a request refused before the first emptying and served after it; then the same
    behind a seed."""
    for first in ([], [script.update(SEED_BYTES)]):
        m.add(script.new(KEYS[2]), *first)
        for _ in range(140):
            m.add(script.event(m.noise.below(300), m.noise.take(1)))
            if m.state.step % 32 in (0, 1):
                m.add(script.request(3))


def any_quotas(m):
    records = []
    for source in (7, 900, 3, 65535)[: m.noise.below(5)]:
        allowance = m.one_of((0, 4, 35, 36, 60, 105, 200, LARGEST))
        records.append((source, allowance, m.one_of((0, 0, m.noise.below(allowance + 1), allowance))))
    return records


def metered_runs(m):
    """The same with lists, three of four calls with the one that is held."""
    for key in KEYS[1:3]:
        m.add(script.new(key), script.quotas([(7, 200, 0), (900, 60, 0), (3, LARGEST, LARGEST - 200), (65535, 5, 5)]))
        for _ in range(150):
            if m.noise.below(25) == 0:
                m.add(script.quotas(any_quotas(m)))
            listed = m.event(m.one_of((7, 7, 900, 3, 65535, 8)), 1 + m.noise.below(6))
            line = m.one_of((listed, any_call(m)))
            m.add(metered(line) if m.noise.below(4) else line)


# ---- the stored scripts: the schedule


def schedule(m):
    """The pools of steps: of the first ones, and about each bound. Keys that differ in one bit pick others."""
    m.add(*(script.output_pool(step) for step in sorted({*range(0, 130), *range(0, 5000, 32), *BOUNDS})))
    for bits in range(5, 64):
        m.add(*(script.output_pool(times * 2**bits) for times in (1, 3) if times * 2**bits < 2**64))
        m.add(*(script.output_pool(2**bits + beside) for beside in (-32, -1, 1, 32)))
    for key in KEYS:
        m.add(*(script.input_pool(key, step) for step in sorted({*range(0, 40), *BOUNDS})))
    for bit in (0, 7, 128, 255):
        key = (int.from_bytes(ORDERED, "little") ^ 1 << bit).to_bytes(32, "little")
        m.add(*(script.input_pool(key, step) for step in (0, 1, 2, 2**40)))


def bounds(m):
    """An event at each bound, one behind it, and what the key then gives. The pool that is emptied holds bytes."""
    for key in KEYS[1:3]:
        m.set_to(seeded(key))
        for step in BOUNDS:
            m.set(step=step)
            emptied = KEYED.output_pool(step)
            if emptied is not None:
                m.set_pool(emptied, known(m.noise.take(1 + emptied)))
            m.add(m.event(), script.request(4), m.event(900, 1))


def long_pools(m):
    """The emptied pool holds more than a block, one byte less, and so much that the padding needs another block."""
    for size in (0, 1, 55, 56, 63, 64, 65, 119, 120, 127, 128, 300, 2**32, 2**61 - 200, MAX_POOL - 5, MAX_POOL):
        m.set_to(seeded(step=64))
        m.set_pool(1, unknown(m.noise, size))
        m.add(m.event(size=m.one_of((1, 2))), script.request(4))
        m.set_to(seeded(step=96))
        m.set_pool(0, known(m.noise.take(size if size <= 300 else 4000)))
        m.add(m.event(), script.request(4))


def own_steps(key, wanted, start=32):
    """The first steps, a few for each wanted pool, whose event goes to the pool that they empty."""
    for pool in wanted:
        found, step = 0, next_emptying(pool, start)
        while found < 2 and step is not None:
            if KEYED.input_pool(key, step) == pool:
                found += 1
                yield step
            step = next_emptying(pool, step + 1)


def own_pools(m):
    """The event's own step empties its pool: empty but for the event, with bytes before it, and with no room left."""
    for step in own_steps(ORDERED, (0, 1, 5, 30, 31)):
        picked = KEYED.output_pool(step)
        for pool in (EMPTY, known(m.noise.take(70)), unknown(m.noise, MAX_POOL - 5), unknown(m.noise, MAX_POOL - 4)):
            m.set_to(seeded(step=step))
            m.set_pool(picked, pool)
            m.add(m.event(), script.request(4), m.event())


def empty_pools(m):
    """Pools that hold nothing are emptied too: into a fresh state's key, which is seeded by that, and again."""
    for key, step in product(KEYS[1:3], (32, 64, 96, 2**36, 2**64 - 32)):
        m.add(script.new(key), script.request(4))
        m.set(step=step)
        m.add(script.request(4), script.write(bytes(64)), m.event())
        m.add(script.request(4), script.write(bytes(64)), m.event())
        m.set(step=step + 2**20 if step < 2**63 else step, pools=(EMPTY,) * POOLS)
        m.add(m.event(), script.request(4))


def last_steps(m):
    """Up to the last step, at which every event is refused and all else is served."""
    m.set_to(seeded(step=LAST_STEP - 36))
    while m.state.step < LAST_STEP:
        m.add(m.event(size=1))
    for source in (7, 900, 65535):
        m.add(m.event(source), *m.each_call())
    m.set_to(fresh(KEYS[2])._replace(step=LAST_STEP))
    m.add(m.event(), script.request(4), script.update(SEED_BYTES), script.request(4), m.event())
    m.set(step=LAST_STEP - 1)
    m.add(m.event(), m.event(), m.event())


# ---- the stored scripts: what is turned away


def inputs(m):
    """Lengths and sources of events, lengths of requests, and seeds; behind each refused call the event that comes next
    shows that the step stayed."""
    m.set_to(seeded())
    for source in (0, 1, 255, 256, 257, 65535, 65536, 65537, 2**24, LARGEST):
        m.add(m.event(source, 1))
    for size in (0, 1, 2, 31, 32, 33, 34, 64, 255, 256, 257, 288, 65536, 65537):
        m.add(script.event(900, b"\x5a" * size), m.event(7, 1))
    for size in (0, 1, 15, 16, 17, 32, 33, 128, 129, 4096, MAX_REQUEST, MAX_REQUEST + 1, MAX_REQUEST + 16, 2**21):
        m.add(script.request(size))
    m.add(m.event())
    for seed in (b"", b"\1", SEED_BYTES[:63], SEED_BYTES + b"\1", SEED_BYTES * 2, bytes(63), bytes(65), b"\xff" * 320):
        m.add(script.update(seed), script.write(seed))
    for byte in (0x00, 0xFF, 0x5A):
        m.add(script.update(blank_page(byte)), script.write(blank_page(byte)))
        m.add(*(script.update(nearly_blank(byte, place)) for place in (0, 31, 63)))
    m.add(m.event())


def counters(m):
    """C about its end: 24 is for an event only where its step empties a pool, and for the others by what they need."""
    for count, step in product((0, 1, MAX_COUNT - 2, MAX_COUNT - 1, MAX_COUNT), (31, 32, 33, 64, 2**36, 2**37 + 32)):
        m.set_to(seeded(count=count, step=step))
        if count == 0:
            m.set(key=bytes(32), key_requests=0)
        m.add(m.event(), m.event(), script.request(0))
    for count in (2**8 - 1, 2**16 - 1, 2**64 - 1, 2**127 + 2**64 - 1):  # a carry
        m.set_to(seeded(count=count, step=32))
        m.add(m.event(), script.request(1))
    needs = [(2, script.request(0)), (3, script.request(16)), (4, script.request(17))]
    needs += [(7, script.update(SEED_BYTES)), (6, script.write(SEED_BYTES))]
    for (need, line), beside in product(needs, (-1, 0, 1, 2)):
        m.set(count=MAX_COUNT - need + beside)
        m.add(line, m.event())


def full_pools(m):
    """22 is of the pool that the step picks. One that is full besides, or is to be emptied, is none."""
    for size, beside in product((1, 2, 32), (-1, 0, 1, 3)):
        m.set_to(seeded())
        m.set_pool(m.picked(), unknown(m.noise, MAX_POOL - HEADER - size + beside))
        m.add(m.event(size=size), m.event())
    for step in (7, 32, 64, 2**36, LAST_STEP):
        m.set_to(seeded(step=step))
        picked, full = m.picked(), unknown(m.noise, MAX_POOL)
        for i in sorted({0, 1, 31} - {picked}):
            m.set_pool(i, full)
        m.add(*m.each_call())
        m.set_to(seeded(step=step))
        m.set_pool(picked, full)
        m.add(*m.each_call())


UNSEEDED = {"key": bytes(32), "count": 0, "key_requests": 0}
BAD_FIELDS = (
    *({"mark": mark} for mark in (1, 2**31, LARGEST)),
    *({"number": number} for number in (1, 2**31, LARGEST)),
    *({"flag": True}, {"flag": True, "mark": 5, "number": 1}, {"mark": 5, "number": 1}),
    *(UNSEEDED | {field: value} for field, value in (("mark", 1), ("number", 1), ("flag", True))),
    *(UNSEEDED | {"key": b"\1" + bytes(31)}, UNSEEDED | {"key": bytes(31) + b"\x80"}),
    *(UNSEEDED | {"key_requests": requests} for requests in (1, 256, MAX_REQUESTS)),
)
GOOD_FIELDS = ({"key": bytes(32)}, {"key_requests": 0}, {"key_requests": MAX_REQUESTS}, UNSEEDED, {"count": 1})


def bad_pools(noise):
    yield from (unknown(noise, size) for size in (MAX_POOL + 1, 2**61 - 1, 2**61, 2**63, 2**64 - 64, 2**64 - 1))
    yield from (pool_of(FRONT._replace(tail=tail)) for tail in (b"\1" + bytes(63), bytes(63) + b"\x80"))
    yield pool_of(FRONT._replace(tail=bytes(range(1, 12)) + bytes(53), length=10))
    yield pool_of(unknown(noise, 64).start._replace(tail=b"\1" + bytes(63)))
    yield pool_of(unknown(noise, 127).start._replace(tail=bytes(range(1, 65))))
    for size in (0, 1, 63):
        chain = (FRONT.chain[0] ^ 1, *FRONT.chain[1:])
        yield pool_of(Running(chain, bytes(range(1, size + 1)).ljust(64, b"\0"), size))
        yield pool_of(Running((*FRONT.chain[:7], FRONT.chain[7] ^ 2**31), bytes(64), size))


def good_pools(noise):
    yield from (unknown(noise, size) for size in (63, 64, 65, 128, MAX_POOL - 40))
    yield pool_of(Running((0,) * 8, bytes(64), 64))
    yield pool_of(Running(FRONT.chain, bytes(64), 0))
    yield pool_of(Running(FRONT.chain, bytes(64), 63))


def malformed(m):
    """Each clause of 21, by each call, and states beside it that are taken."""
    for fields in (*BAD_FIELDS, *GOOD_FIELDS):
        m.set_to(seeded(KEYS[2], **fields))
        m.add(*m.each_call())
    base = seeded(KEYS[2])._replace(pools=(EMPTY,) * POOLS)
    for pool, place in product((*bad_pools(m.noise), *good_pools(m.noise)), (0, KEYED.picked(base), POOLS - 1)):
        m.set_to(base)
        m.set_pool(place, pool)
        m.add(*m.each_call())
    for step in (0, 1, 32, LAST_STEP):  # no clause on the step, or on the scheduler key
        for key in (bytes(32), b"\xff" * 32):
            m.set_to(seeded(key, step=step))
            m.add(*m.each_call())


# ---- the stored scripts: the number of requests on the key


def requests(m):
    """It grows to 65,535 and stays there; events leave it, and one that empties a pool sets it to 0."""
    for number in (0, 1, 254, 255, 256, MAX_REQUESTS - 2, MAX_REQUESTS - 1, MAX_REQUESTS):
        m.set_to(seeded(step=29, key_requests=number))
        m.add(*m.each_call(), *m.each_call(), script.request(0), script.request(2**20 + 1), m.event(), m.event())
        m.add(*m.each_call()[1:], m.event(), m.event())
    m.add(script.new(ORDERED), script.update(SEED_BYTES), script.update(SEED_BYTES), script.write(SEED_BYTES))
    for number in (MAX_REQUESTS - 1, MAX_REQUESTS):
        for line in m.each_call()[1:]:
            m.set(key_requests=number)
            m.add(line)


# ---- the stored scripts: lists of quotas


def allowances(m):
    """Room for one byte less than an event needs, just enough, and more; at steps that empty a pool, and at others."""
    for step, size, spent in product((7, 32, 64), (1, 32), (0, 25)):
        cost = HEADER + size
        for room in (cost - 1, cost, cost + 1, 2 * cost):
            m.set_to(seeded(step=step))
            m.add(script.quotas([(3, 9, 9), (7, spent + room, spent), (900, 99, 1)]))
            m.add(*[metered(m.event(size=size)) for _ in range(3)])
    for spent in (LARGEST - 36, LARGEST - 35, LARGEST - 34, LARGEST):
        m.set_to(seeded(step=31))
        m.add(script.quotas([(65535, LARGEST, spent)]), *[metered(m.event(65535, 32)) for _ in range(3)])


def lists(m):
    """Each call with each list; with a long list the calls come in turn. Nothing but an emptying clears a list."""
    for turn, records in enumerate((*good_lists(), *faulty_lists())):
        m.set_to(seeded(step=31 + turn % 2))
        m.add(script.quotas(records))
        others = [m.event(900), *m.each_call(), *m.each_call(65535)]
        m.add(*map(metered, others if len(records) < 10 else others[turn % 3 :: 3]))


def clearing(m):
    """An emptying clears every record, its event's own among them. A call that is refused at its step clears none, nor
    does one that takes no list; requests and seed calls neither clear nor charge."""
    spent = [(7, 100, 60), (900, 70, 70), (3, 50, 0), (65540, 9, 9), (65535, 20, 20)]
    for step in (31, 32, 64, 96, 2**36, 2**64 - 32):
        m.set_to(seeded(step=step))
        m.add(script.quotas(spent), *map(metered, m.each_call()[1:]))
        m.add(metered(m.event(900)), metered(m.event(8)), metered(m.event(7, 0)), metered(m.event(7, 33)))
        m.add(metered(m.event()), metered(m.event(900)), metered(m.event(65535)), *map(metered, m.each_call()))
        m.set_to(seeded(step=step))
        m.add(script.quotas(spent), m.event(), metered(m.event()), script.quotas([]), metered(m.event()), m.event())
    for fields in ({"count": MAX_COUNT, "step": 32}, {"step": LAST_STEP}, {"mark": 1, "step": 32}, {"step": 32}):
        m.set_to(seeded(**fields))
        if fields == {"step": 32}:
            m.set_pool(m.picked(), unknown(m.noise, MAX_POOL))
        m.add(script.quotas(spent), metered(m.event()), m.event())


# ---- the stored scripts: the order of the numbers


def event_with(m, faults):
    """An event for which these numbers apply, and perhaps others by the way."""
    m.set_to(seeded(step=LAST_STEP if 45 in faults else 64 if 24 in faults else 7))
    if 24 in faults:
        m.set(count=MAX_COUNT)
    if 22 in faults:
        m.set_pool(m.picked(), unknown(m.noise, MAX_POOL))
    if 21 in faults:
        m.set(number=1)
    source = 65536 if 11 in faults else 7
    records = [(source, 2 if 39 in faults else 100, 0)] if 38 not in faults else [(8, 100, 0)]
    m.add(script.quotas([*records, (3, 5, 6 if 37 in faults else 5)]))
    line = m.event(source, 0 if 13 in faults else 2)
    m.add(metered(line))
    if not {37, 38, 39} & set(faults):
        m.add(line)


def output_with(m, name, faults):
    """A request, update or write for which these numbers apply."""
    m.set_to(seeded(**(UNSEEDED if 23 in faults else {}), **({"count": MAX_COUNT} if 24 in faults else {})))
    if 21 in faults:
        m.set(mark=1)
    seed = bytes([m.noise.below(256)]) * 64 if 36 in faults else m.noise.take(64)
    seed = seed[:63] if 15 in faults else seed
    size = MAX_REQUEST + 1 if 14 in faults else 5
    line = {"request": script.request(size), "update": script.update(seed), "write": script.write(seed)}[name]
    m.add(script.quotas([(3, 5, 6 if 37 in faults else 5)]), metered(line))
    if 37 not in faults:
        m.add(line)


def pairs_of(name):
    return [pair for pair in combinations(NUMBERS[name], 2) if pair not in APART]


def most_of(name):
    """As many numbers at once as there can be."""
    apart = product((38, 39), (45, 24)) if name == "event" else [(23,), (24,)]
    return [tuple(number for number in NUMBERS[name] if number not in left) for left in apart]


def orders(m):
    """Each number alone, each two at once, and as many as there can be."""
    m.add(script.new(ORDERED))
    for name in CALLS:
        for faults in ((), *[(number,) for number in NUMBERS[name]], *pairs_of(name), *most_of(name)):
            if name == "event":
                event_with(m, faults)
            else:
                output_with(m, name, faults)


MADE = (
    *(runs, events_alone, metered_runs, schedule, bounds, long_pools, own_pools, empty_pools, last_steps, inputs),
    *(counters, full_pools, malformed, requests, allowances, lists, clearing, orders),
)


def made():
    """The makers of the stored scripts, with the scripts written."""
    makers = {make.__name__: Maker(make.__name__) for make in MADE}
    for make in MADE:
        make(makers[make.__name__])
    return makers
