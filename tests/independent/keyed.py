"""The keyed scheduler (02, xiv; source document 000, figure 6): its calls on any state, by the words of 02 alone.

A pool is a byte string, and its digest is D of that string. The running hash, tail and length that the station's state
has in its place are worked out from the string whenever they are told. A pool that comes from outside may have a start
that nobody knows: it is kept as it came, in front of the bytes gained since.

A call takes the state and the list of quotas, or None where it takes no list. It gives its number, the pools emptied,
the bytes lent as they are left, the next state and the list left. AES-256 is tests/independent/aes256.py, D and the
generator are tests/independent/generator.py's."""
import hashlib
from collections import namedtuple
from functools import lru_cache

import aes256
import generator
from sha256 import INITIAL, compress, finish

Running = namedtuple("Running", "chain tail length")  # a pool as the station has it
Pool = namedtuple("Pool", "start string")
State = namedtuple("State", "key count pools mark number flag key_requests scheduler_key step")
Answer = namedtuple("Answer", "number emptied lent next quotas")

POOLS = 32
PERIOD = 32  # steps from one emptying to the next
LAST_STEP = 2**64 - 1  # at which no event is taken
HEADER = 3
MAX_SOURCE = 65535
MAX_DATA = 32
MAX_POOL = 2**61 - 65
MAX_REQUESTS = 65535  # where the state's number of requests on the key stops
MAX_QUOTAS = 64
SEED = 64

# Tests look at a state and a step many times, so that blocks, running hashes and clauses are kept for a while.
kept = lru_cache(maxsize=2**14)
encrypt = kept(aes256.encrypt)

FRONT = Running(tuple(compress(INITIAL, bytes(64))), bytes(64), 0)  # after the block of zeros that D has in front
EMPTY = Pool(FRONT, b"")


# ---- pools


def length(pool):
    return pool.start.length + len(pool.string)


@kept
def running(pool):
    chain, tail, before = pool.start
    if not pool.string:
        return pool.start
    waiting = tail[: before % 64] + pool.string
    whole = len(waiting) // 64 * 64
    for i in range(0, whole, 64):
        chain = compress(chain, waiting[i : i + 64])
    return Running(tuple(chain), waiting[whole:].ljust(64, b"\0"), length(pool))


def pool_of(found):
    """A pool as the station has it; of one below 64 bytes all bytes are known."""
    if found.length < 64 and found == running(known := Pool(FRONT, found.tail[: found.length])):
        return known
    return Pool(found, b"")


def digest(pool):
    """D of the pool's bytes."""
    if pool.start == FRONT:
        return generator.sha_d256(pool.string)
    chain, tail, size = running(pool)
    first = finish(chain, tail[: size % 64], 64 + size)
    return hashlib.sha256(first).digest()


def with_pool(pools, i, pool):
    return (*pools[:i], pool, *pools[i + 1 :])


def fresh(scheduler_key):
    return State(bytes(32), 0, (EMPTY,) * POOLS, 0, 0, False, 0, scheduler_key, 0)


# ---- 21, clause by clause

CLAUSES = {
    "pool length": lambda s: any(length(p) > MAX_POOL for p in s.pools),
    "bytes after a tail": lambda s: any(any(p.start.tail[p.start.length % 64 :]) for p in s.pools),
    "running hash": lambda s: any(p.start.length < 64 and p.start.chain != FRONT.chain for p in s.pools),
    "K without C": lambda s: s.count == 0 and any(s.key),
    "requests without C": lambda s: s.count == 0 and s.key_requests > 0,
    "mark": lambda s: s.mark != 0,
    "flag": lambda s: s.flag,
    "reseed number": lambda s: s.number != 0,
}


@kept
def clauses(state):
    return tuple(name for name, holds in CLAUSES.items() if holds(state))


class Keyed:
    """Wrong versions override a part of it. Each call's numbers stand in 02's order, with whether they apply."""

    # ---- the scheduler

    def block(self, t):
        return t.to_bytes(16, "little")

    def input_pool(self, key, t):
        """The pool that the event at step t goes to."""
        return encrypt(key, self.block(t))[0] % POOLS

    def picked(self, state):
        return self.input_pool(state.scheduler_key, state.step)

    def output_pool(self, t):
        """The pool that step t empties; None where it empties none."""
        if t == 0 or t % PERIOD != 0:
            return None
        return max(i for i in range(POOLS) if t % (PERIOD * 2**i) == 0)

    # ---- what is turned away

    def malformed(self, state):
        return len(clauses(state)) > 0

    def full(self, pool, data):
        return length(pool) + HEADER + len(data) > MAX_POOL

    def steps_spent(self, t):
        return t == LAST_STEP

    def counter_spent(self, state, growth):
        return state.count + growth > generator.MAX_COUNT

    def bad_list(self, quotas):
        repeats = len({quota.source for quota in quotas}) < len(quotas)
        return len(quotas) > MAX_QUOTAS or repeats or any(q.spent > q.allowance for q in quotas)

    def unlisted(self, quotas, source):
        return all(quota.source != source for quota in quotas)

    def cost(self, data):
        return HEADER + len(data)

    def over_allowance(self, quotas, source, data):
        return any(q.source == source and q.spent + self.cost(data) > q.allowance for q in quotas)

    def blank(self, seed):
        return len(set(seed)) == 1

    def event_numbers(self, state, quotas, source, data):
        t = state.step
        return {
            11: source > MAX_SOURCE,
            13: not 1 <= len(data) <= MAX_DATA,
            37: quotas is not None and self.bad_list(quotas),
            38: quotas is not None and self.unlisted(quotas, source),
            39: quotas is not None and self.over_allowance(quotas, source, data),
            21: self.malformed(state),
            22: self.full(state.pools[self.picked(state)], data),
            45: self.steps_spent(t),
            24: self.output_pool(t) is not None and self.counter_spent(state, 1),
        }

    def request_numbers(self, state, quotas, buffer):
        return {
            14: len(buffer) > generator.MAX_REQUEST,
            37: quotas is not None and self.bad_list(quotas),
            21: self.malformed(state),
            23: state.count == 0,
            24: self.counter_spent(state, generator.block_count(len(buffer)) + 2),
        }

    def update_numbers(self, state, quotas, seed):
        return {
            15: len(seed) != SEED,
            36: self.blank(seed),
            37: quotas is not None and self.bad_list(quotas),
            21: self.malformed(state),
            24: self.counter_spent(state, 7),
        }

    def write_numbers(self, state, quotas, seed):
        return {
            15: len(seed) != SEED,
            37: quotas is not None and self.bad_list(quotas),
            21: self.malformed(state),
            23: state.count == 0,
            24: self.counter_spent(state, 6),
        }

    def numbers(self, name, *arguments):
        return getattr(self, f"{name}_numbers")(*arguments)

    # ---- what an accepted call does

    def fresh(self, scheduler_key):
        return fresh(scheduler_key)

    def gained(self, state, source, data):
        """The state with the event in the pool that its step picks."""
        i = self.picked(state)
        start, string = state.pools[i]
        string += source.to_bytes(2, "little") + bytes([len(data)]) + data
        return state._replace(pools=with_pool(state.pools, i, Pool(start, string)))

    def reseeded(self, state, seed):
        number, after = generator.reseed(generator.State(state.key, state.count), seed)
        assert number == 0
        return state._replace(key=after.key, count=after.count)

    def emptied(self, state, i):
        """The state with pool i emptied into the key."""
        after = self.reseeded(state, digest(state.pools[i]))
        return after._replace(pools=with_pool(state.pools, i, EMPTY), key_requests=0)

    def charged(self, quotas, source, data):
        return tuple(q._replace(spent=q.spent + self.cost(data)) if q.source == source else q for q in quotas)

    def cleared(self, quotas):
        return tuple(quota._replace(spent=0) for quota in quotas)

    def made_event(self, state, quotas, source, data):
        after, left = self.gained(state, source, data), quotas
        if quotas is not None:
            left = self.charged(quotas, source, data)
        out = self.output_pool(state.step)
        if out is not None:
            after = self.emptied(after, out)
            left = left if left is None else self.cleared(left)
        return Answer(0, 0 if out is None else 1, data, after._replace(step=state.step + 1), left)

    def counted(self, requests):
        return min(requests + 1, MAX_REQUESTS)

    def made_request(self, state, quotas, buffer):
        filled = bytearray(len(buffer))
        number, after = generator.request(generator.State(state.key, state.count), filled)
        assert number == 0
        left = state._replace(key=after.key, count=after.count, key_requests=self.counted(state.key_requests))
        return Answer(0, 0, bytes(filled), left, quotas)

    def made_update(self, state, quotas, seed):
        return self.made_request(self.reseeded(state, seed), quotas, seed)

    def made_write(self, state, quotas, seed):
        return self.made_request(state, quotas, seed)

    # ---- the calls

    def call(self, name, state, quotas, *arguments):
        """name is event, request, update or write; last of the arguments are the bytes lent."""
        number = first(self.numbers(name, state, quotas, *arguments))
        if number:
            return self.refused(number, state, quotas, arguments[-1])
        return getattr(self, f"made_{name}")(state, quotas, *arguments)

    def refused(self, number, state, quotas, lent):
        return Answer(number, 0, lent, state, quotas)


def first(numbers):
    return next((number for number, applies in numbers.items() if applies), 0)


# ---- when a pool is emptied


def next_emptying(pool, start):
    """The first step from start on that empties the pool; None where no such step is made. Of the multiples of its
    period only those are tried, so that a far step is found too."""
    period = PERIOD * 2**pool
    step = -(-start // period) * period
    while Keyed().output_pool(step) != pool:
        step += period
    return step if step < LAST_STEP else None


# ---- rows worked out by hand

OUTPUTS = {
    **{0: None, 1: None, 31: None, 32: 0, 33: None, 63: None, 64: 1, 65: None, 96: 0, 128: 2, 160: 0, 192: 1, 256: 3},
    **{2**35 - 32: 0, 2**35 - 1: None, 2**35: 30, 2**35 + 1: None, 2**35 + 32: 0, 2**36 - 32: 0, 3 * 2**35: 30},
    **{2**36 - 1: None, 2**36: 31, 2**36 + 1: None, 2**36 + 32: 0, 2**36 + 2**35: 30, 2**37: 31, 3 * 2**36: 31},
    **{2**63: 31, 2**64 - 2**36: 31, 2**64 - 64: 1, 2**64 - 32: 0, 2**64 - 2: None, LAST_STEP: None},
}
EMPTYINGS = {
    **{(0, 0): 32, (0, 32): 32, (0, 33): 96, (0, 64): 96, (1, 0): 64, (1, 65): 192, (30, 0): 2**35, (31, 0): 2**36},
    **{(30, 2**35 + 1): 3 * 2**35, (31, 2**36): 2**36, (31, 2**36 + 1): 2**37, (31, 2**37 + 1): 3 * 2**36},
    **{(0, 2**64 - 32): 2**64 - 32, (0, 2**64 - 31): None, (31, 2**64 - 2**36): 2**64 - 2**36, (30, 2**64 - 1): None},
}

for step, pool in OUTPUTS.items():
    assert Keyed().output_pool(step) == pool, step
for (pool, start), step in EMPTYINGS.items():
    assert next_emptying(pool, start) == step, (pool, start)
