"""Random states and calls of the keyed scheduler for keyed_runs.py, beside this. A share of the states is malformed;
states and arguments lean towards the bounds of every number."""
from collections import Counter
from dataclasses import dataclass
from itertools import cycle

import keyed_script as script
from frames import blank_page, log_of, nearly_blank
from generator import MAX_COUNT, MAX_REQUEST, block_count
from keyed import (
    CLAUSES,
    EMPTY,
    FRONT,
    HEADER,
    LAST_STEP,
    MAX_POOL,
    MAX_REQUESTS,
    PERIOD,
    POOLS,
    SEED,
    Running,
    State,
    clauses,
    pool_of,
    running,
    with_pool,
)
from keyed_script import metered
from keyed_stored import BOUNDS, CALLS, KEYED, KEYS, LARGEST, own_steps, pairs_of
from logbook import Quota
from states_fuzz import BAD_QUOTAS, good_quotas, just_enough, too_little, unlisted
from wrong_keyed import NUMBERS


@dataclass
class Case:
    """A call. buffer is the event's data, or what is lent; quotas are the records of a call that takes them."""

    name: str
    state: State
    source: int
    buffer: bytes
    quotas: tuple | None = None

    def change(self, **fields):
        self.state = self.state._replace(**fields)

    def set_pool(self, i, pool):
        self.change(pools=with_pool(self.state.pools, i, pool))

    def growth(self):
        """What C grows by."""
        return {"event": 1, "request": block_count(len(self.buffer)) + 2, "update": 7, "write": 6}[self.name]

    def line(self):
        if self.name == "event":
            return script.event(self.source, self.buffer)
        if self.name == "request":
            return script.request(len(self.buffer))
        return {"update": script.update, "write": script.write}[self.name](self.buffer)

    def lines(self, before):
        """What brings a run from the state before to the call, and the call."""
        if script.changes(before, self.state) != b"=":
            yield script.setting(before, self.state)
        if self.quotas is None:
            yield self.line()
        else:
            yield from (script.quotas(self.quotas), metered(self.line()))


def pool_by(r, size):
    chain = tuple(r.getrandbits(32) for _ in range(8)) if size >= 64 else FRONT.chain
    return pool_of(Running(chain, r.randbytes(size % 64).ljust(64, b"\0"), size))


def any_pool(r):
    sizes = (r.randrange(64), r.randrange(64, 300), MAX_POOL - r.randrange(130), r.randrange(MAX_POOL + 1))
    return pool_by(r, r.choices((0, *sizes), (12, 4, 2, 1, 1))[0])


def emptying(r, pool=None):
    """A step that empties the pool, or any one."""
    pool = r.randrange(POOLS) if pool is None else pool
    odd = 1 + 2 * r.choice((0, 1, r.getrandbits(60)))
    return odd * PERIOD * 2**pool % 2**64 or PERIOD


def any_step(r):
    near = (emptying(r) + r.choice((-1, 0, 1))) % 2**64
    return r.choice((r.choice(BOUNDS), emptying(r), near, r.randrange(200), r.getrandbits(64)))


def any_state(r):
    carry = 2 ** (8 * r.randrange(1, 16)) - r.randrange(1, 4)
    count = r.choice((1, carry, r.randrange(1, 2**20), r.randrange(1, 2**128)))
    requests = r.choice((0, 1, MAX_REQUESTS - 1, MAX_REQUESTS, r.randrange(2**16)))
    pools = tuple(any_pool(r) for _ in range(POOLS))
    key = r.choice((*KEYS, r.randbytes(32)))
    return State(r.randbytes(32), count, pools, 0, 0, False, requests, key, any_step(r))


def any_buffer(r, name):
    if name == "event":
        return r.randbytes(r.choice((1, 32, r.randrange(1, 33))))
    return r.randbytes(r.choice((0, 1, 15, 16, 17, r.randrange(200))) if name == "request" else SEED)


def any_case(r, name):
    source = r.choice((0, 255, 256, 65535, r.randrange(65536)))
    return Case(name, any_state(r), source, any_buffer(r, name))


# ---- twists: each brings a case to the bound of a number, and now and then just short of it


def bad_source(r, case):
    case.source = r.choice((65535, 65536, LARGEST, r.randrange(65536, 2**32)))


def bad_length(r, case):
    sizes = {"event": (0, 33, 64, 300), "request": (MAX_REQUEST + 1, MAX_REQUEST + 16)}
    case.buffer = r.randbytes(r.choice(sizes.get(case.name, (0, 32, 63, 65, 128))))


def blank_seed(r, case):
    byte = r.choice((0x00, 0xFF, r.randrange(256)))
    pages = (blank_page(byte), nearly_blank(byte, r.randrange(64)), bytes([byte]) * r.choice((63, 65)))
    case.buffer = r.choices(pages, (4, 1, 1))[0]


def at_last_step(r, case):
    case.change(step=r.choice((LAST_STEP, LAST_STEP, LAST_STEP - 1)))


def counter_at_end(r, case):
    if case.name == "event" and case.state.step != LAST_STEP:
        case.change(step=r.choice((emptying(r), emptying(r), any_step(r))))
    case.change(count=min(MAX_COUNT - case.growth() + r.choice((0, 1, 1, 2)), MAX_COUNT))


def unseeded(r, case):
    case.change(key=bytes(32), count=0, key_requests=0)


def no_room(r, case):
    picked = KEYED.picked(case.state)
    size = MAX_POOL - HEADER - len(case.buffer) + r.choice((0, 1, 1, 2))
    case.set_pool(picked, pool_by(r, min(max(size, 0), MAX_POOL)))


def break_clause(r, case, clause):
    i, stray = r.randrange(POOLS), 1 << r.randrange(32)
    if clause == "pool length":
        case.set_pool(i, pool_by(r, r.choice((MAX_POOL + 1, 2**61, 2**64 - 1, r.randrange(MAX_POOL + 1, 2**64)))))
    elif clause == "bytes after a tail":
        chain, tail, size = running(case.state.pools[i])
        place = r.randrange(size % 64, 64)
        case.set_pool(i, pool_of(Running(chain, tail[:place] + b"\x10" + tail[place + 1 :], size)))
    elif clause == "running hash":
        chain = tuple(word ^ stray if place == i % 8 else word for place, word in enumerate(FRONT.chain))
        case.set_pool(i, pool_of(pool_by(r, r.randrange(64)).start._replace(chain=chain)))
    elif clause in ("K without C", "requests without C"):
        unseeded(r, case)
        case.change(**({"key": bytes(i) + b"\1" + bytes(31 - i)} if clause[0] == "K" else {"key_requests": 1 + i * i}))
    else:
        case.change(**{"mark": {"mark": stray}, "flag": {"flag": True}, "reseed number": {"number": stray}}[clause])


def own_step(r, case):
    """The event's pool is the one that its step empties; empty before, or not."""
    step = next(own_steps(case.state.scheduler_key, [r.randrange(POOLS)], r.choice((32, r.randrange(2**50)))))
    case.change(step=step)
    if r.random() < 0.5:
        case.set_pool(KEYED.output_pool(step), EMPTY)


def stopping(r, case):
    case.change(key_requests=MAX_REQUESTS - r.choice((0, 1)))


def faulty_and_unlisted(r, case):
    other = (case.source + r.choice((1, 2**8, 2**16))) % 2**32
    case.quotas = ((other, 5, r.choice((6, LARGEST))),)


TWISTS = {
    "event": {11: bad_source, 13: bad_length, 45: at_last_step, 24: counter_at_end, 0: own_step, 22: no_room},
    "request": {14: bad_length, 24: counter_at_end, 0: stopping},
    "update": {15: bad_length, 36: blank_seed, 24: counter_at_end, 0: stopping, 23: unseeded},
    "write": {15: bad_length, 24: counter_at_end, 0: stopping},
}
LISTS = {37: [*BAD_QUOTAS, faulty_and_unlisted], 38: [unlisted], 39: [too_little, just_enough]}


def add_list(r, case, some):
    """A list of quotas, with the faults that are wanted."""
    wanted = [number for number in LISTS if number in some and number in NUMBERS[case.name]]
    if wanted[:2] == [37, 38]:
        faulty_and_unlisted(r, case)
    else:
        r.choice(LISTS[r.choice(wanted)] if wanted else [good_quotas])(r, case)


def twisted(r, name, wanted=None, clause=None):
    """A case with the numbers wanted, or any ones, in an order in which no twist undoes another."""
    case = any_case(r, name)
    rate = 0.2 if name == "event" else 0.35
    some = {number for number in (0, *NUMBERS[name], 23) if r.random() < rate} if wanted is None else set(wanted)
    for number, twist in TWISTS[name].items():
        if number in some:
            twist(r, case)
    if 23 in some and name in ("request", "write") and 24 not in some:
        unseeded(r, case)
    if 21 in some:
        break_clause(r, case, clause or r.choice(list(CLAUSES)))
    if some & set(LISTS) or r.random() < 0.4:
        add_list(r, case, some)
    return case


# What each script has besides: a number alone, two at once or one clause, and an emptying, in turn.
WANTED = [(name, (number,)) for name in CALLS for number in NUMBERS[name]]
WANTED += [(name, pair) for name in CALLS for pair in pairs_of(name)]
WANTED += [(name, (21,), clause) for name in CALLS for clause in CLAUSES]


class Writer:
    """Writes one script, and counts in `occurred` what its calls come to."""

    occurred = Counter()
    wanted, pools = cycle(WANTED), cycle(range(POOLS))

    def __init__(self, chance):
        self.chance = chance
        self.run = script.Run()
        self.lines = []

    def note(self, case, found):
        name, emptied = case.name, KEYED.output_pool(case.state.step)
        applying = [n for n, holds in KEYED.numbers(name, *self.arguments(case)).items() if holds]
        self.occurred[f"{'metered ' * (case.quotas is not None)}{name} {found.number}"] += 1
        self.occurred.update(f"{name} {found.number} before {later}" for later in applying[1:])
        if found.number == 21 and len(clauses(case.state)) == 1:
            self.occurred[f"{name} 21 by its clause '{clauses(case.state)[0]}' alone"] += 1
        if found.number or name != "event":
            return
        full = any(KEYED.full(pool, case.buffer) for pool in case.state.pools)
        self.occurred["event taken with another pool full"] += full
        if emptied is None:
            self.occurred["event at the end of C, no pool emptied"] += case.state.count == MAX_COUNT
            return
        self.occurred[f"pool {emptied:02} emptied"] += 1
        own = emptied == KEYED.picked(case.state)
        self.occurred["own pool emptied"] += own
        self.occurred["an empty pool emptied"] += not own and running(case.state.pools[emptied]) == FRONT
        self.occurred["list cleared"] += bool(case.quotas) and found.quotas != case.quotas

    def arguments(self, case):
        records = None if case.quotas is None else tuple(Quota(*record) for record in case.quotas)
        return case.state, records, *([case.source] if case.name == "event" else []), case.buffer

    def make(self, case):
        """A case, on from what the run left."""
        *before, line = case.lines(self.run.state)
        self.lines += [*before, line]
        for one in before:
            self.run.answer(one)
        self.note(case, self.run.call(line)[2])

    def follow(self):
        """Calls on what the case left, with the list that it left or without one."""
        r = self.chance
        for _ in range(r.randrange(4)):
            line = Case(name := r.choice(CALLS), self.run.state, r.choice((7, 900)), any_buffer(r, name)).line()
            self.lines.append(metered(line) if r.random() < 0.3 else line)
            self.run.call(self.lines[-1])

    def log(self):
        r = self.chance
        cases = [twisted(r, "event" if r.random() < 0.4 else name) for name in CALLS * 2]
        cases += [twisted(r, *next(self.wanted)), twisted(r, *next(self.wanted)), any_case(r, "event")]
        cases[-1].change(step=emptying(r, next(self.pools)), count=7)
        for case in cases:
            self.make(case)
            self.follow()
        step = any_step(self.chance)
        self.lines += [script.input_pool(self.chance.randbytes(32), step), script.output_pool(step)]
        return log_of(self.lines)


MUST_OCCUR = {
    *(f"{name} {number}" for name in CALLS for number in (0, *NUMBERS[name]) if number not in (37, 38, 39)),
    *(f"metered {name} {number}" for name in CALLS for number in (0, *NUMBERS[name])),
    *(f"{name} {first} before {later}" for name in CALLS for first, later in pairs_of(name)),
    *(f"{name} 21 by its clause '{clause}' alone" for name in CALLS for clause in CLAUSES),
    *(f"pool {i:02} emptied" for i in range(POOLS)),
    *("own pool emptied", "an empty pool emptied", "list cleared", "event taken with another pool full"),
    "event at the end of C, no pool emptied",
}
