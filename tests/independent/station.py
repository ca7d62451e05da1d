"""The station of 01 and 02 on an explicit state: event, request, seed update, seed write, draw and shuffle, from any
state whatever.

A call gives its number (0 or the refusal), the pools emptied, what the buffer, the event's data or the list then hold,
for a draw its value, and the next state. A pool is its running hash, tail and length, so that a state whose earlier
bytes nobody knows will do. It goes on from the block of zeros that D has in front (02, v), which its length does not
count. A call may also take records of quotas (02, x), and then gives the records left as well."""
import hashlib
import struct
from collections import namedtuple

import generator
from sha256 import INITIAL, compress, finish

Pool = namedtuple("Pool", "chain tail length")
State = namedtuple("State", "key count pools last_reseed reseed_count reseeded key_requests")
Outcome = namedtuple("Outcome", "number emptied buffer next")

POOLS = 32
SEED_SIZE = 64
MAX_POOL = 2**61 - 65
DRAW_TRIES = 64
MAX_KEY_REQUESTS = 65535
MAX_RECORDS = 64
INPUT_NUMBERS = (11, 12, 13, 14, 15, 31, 32, 36)  # those that stand before a list's
EMPTY = Pool(tuple(compress(INITIAL, bytes(64))), bytes(64), 0)
FRESH = State(bytes(32), 0, (EMPTY,) * POOLS, 0, 0, False, 0)

assert finish(INITIAL, b"abc", 3) == hashlib.sha256(b"abc").digest()


# ---- pools


def absorb(pool, data):
    waiting = pool.tail[: pool.length % 64] + data
    chain = pool.chain
    while len(waiting) >= 64:
        chain = compress(chain, waiting[:64])
        waiting = waiting[64:]
    return Pool(tuple(chain), waiting.ljust(64, b"\0"), pool.length + len(data))


def pool_digest(pool):
    """D of all that the pool gained."""
    first = finish(pool.chain, pool.tail[: pool.length % 64], 64 + pool.length)
    return hashlib.sha256(first).digest()


assert pool_digest(absorb(EMPTY, b"abc")) == generator.sha_d256(b"abc")


# ---- 21, clause by clause

CLAUSES = {
    "pool length": lambda s: any(p.length > MAX_POOL for p in s.pools),
    "bytes after a tail": lambda s: any(any(p.tail[p.length % 64 :]) for p in s.pools),
    "running hash": lambda s: any(p.length < 64 and p.chain != EMPTY.chain for p in s.pools),
    "K without C": lambda s: s.count == 0 and any(s.key),
    "flag without C": lambda s: s.count == 0 and s.reseeded,
    "mark or number without flag": lambda s: not s.reseeded and (s.last_reseed, s.reseed_count) != (0, 0),
    "requests without C": lambda s: s.count == 0 and s.key_requests > 0,
}


def clauses(state):
    return [name for name, holds in CLAUSES.items() if holds(state)]


# ---- the timer and the generator below


def due(state, clock):
    elapsed = (clock - state.last_reseed) % 2**32
    return state.pools[0].length >= 64 and (not state.reseeded or elapsed > 100)


def done(answer):
    """The generator's next state; the refusals of 01 are looked at before, so it refuses nothing here."""
    number, after = answer
    assert number == 0
    return after


def reseed(state, seed):
    after = done(generator.reseed(generator.State(state.key, state.count), seed))
    return state._replace(key=after.key, count=after.count)


def pool_reseed(state, clock):
    number = (state.reseed_count + 1) % 2**32
    used = [i for i in range(POOLS) if number % 2**i == 0]
    reseeded = reseed(state, b"".join(pool_digest(state.pools[i]) for i in used))
    pools = tuple(EMPTY if i in used else p for i, p in enumerate(state.pools))
    timer = {"last_reseed": clock, "reseed_count": number, "reseeded": True, "key_requests": 0}
    return len(used), reseeded._replace(pools=pools, **timer)


def one_more(key_requests):
    """The number of requests on the key (02, iv) with one counted, up to where it stops."""
    return key_requests if key_requests == MAX_KEY_REQUESTS else key_requests + 1


def random_data(state, clock, size):
    emptied = 0
    if due(state, clock):
        emptied, state = pool_reseed(state, clock)
    buffer = bytearray(size)
    after = done(generator.request(generator.State(state.key, state.count), buffer))
    left = state._replace(key=after.key, count=after.count, key_requests=one_more(state.key_requests))
    return Outcome(0, emptied, bytes(buffer), left)


def output_refusal(state, clock, blocks):
    """21, 23 or 24 of a request that makes so many blocks."""
    if clauses(state):
        return 21
    if state.count == 0 and not due(state, clock):
        return 23
    return counter_refusal(state, clock, blocks)


def counter_refusal(state, clock, growth):
    return 24 if state.count + due(state, clock) + growth > generator.MAX_COUNT else 0


# ---- the calls


def event_refusal(state, source, pool, data):
    if source >= 2**16:
        return 11
    if pool >= POOLS:
        return 12
    if not 1 <= len(data) <= 32:
        return 13
    if clauses(state):
        return 21
    return 22 if state.pools[pool].length + 3 + len(data) > MAX_POOL else 0


def event(state, source, pool, data):
    refusal = event_refusal(state, source, pool, data)
    if refusal:
        return Outcome(refusal, 0, data, state)
    pools = list(state.pools)
    pools[pool] = absorb(pools[pool], struct.pack("<HB", source, len(data)) + data)
    return Outcome(0, 0, data, state._replace(pools=tuple(pools)))


def request(state, clock, buffer):
    size = len(buffer)
    refusal = 14 if size > generator.MAX_REQUEST else output_refusal(state, clock, generator.block_count(size) + 2)
    return Outcome(refusal, 0, buffer, state) if refusal else random_data(state, clock, size)


def update_refusal(state, clock, seed):
    if len(seed) != SEED_SIZE:
        return 15
    if len(set(seed)) == 1:
        return 36  # a page that was never written (02, vii)
    return 21 if clauses(state) else counter_refusal(state, clock, 7)


def update(state, clock, seed):
    refusal = update_refusal(state, clock, seed)
    return Outcome(refusal, 0, seed, state) if refusal else random_data(reseed(state, seed), clock, SEED_SIZE)


def write(state, clock, seed):
    refusal = 15 if len(seed) != SEED_SIZE else output_refusal(state, clock, 6)
    return Outcome(refusal, 0, seed, state) if refusal else random_data(state, clock, SEED_SIZE)


# ---- draws and shuffles


def low_bits(n):
    """k, the smallest with n <= 2^k."""
    return next(k for k in range(33) if n <= 1 << k)


def one_try(state, clock, n):
    """An outcome whose buffer is the number of the low bits."""
    given = random_data(state, clock, 4)
    first, second, third, fourth = given.buffer
    word = first | second << 8 | third << 16 | fourth << 24
    return given._replace(buffer=word & ((1 << low_bits(n)) - 1))


def pick(state, clock, n, tries):
    """A draw once nothing refuses it."""
    if tries == 0:
        return Outcome(33, 0, 0, state)
    first = one_try(state, clock, n)
    if first.buffer < n:
        return first
    later = pick(first.next, clock, n, tries - 1)
    return later._replace(emptied=first.emptied + later.emptied)


def draw(state, clock, n, tries):
    bad = 31 if n < 1 or n > 2**32 else 32 if tries < 1 or tries > DRAW_TRIES else 0
    refusal = bad or output_refusal(state, clock, 3 * tries)
    return Outcome(refusal, 0, 0, state) if refusal else pick(state, clock, n, tries)


def shuffle_refusal(state, clock, numbers, tries):
    if len(numbers) > 256 or any(number in numbers[:i] for i, number in enumerate(numbers)):
        return 31
    if len(numbers) <= 1:
        return 21 if clauses(state) else 0
    return output_refusal(state, clock, 3 * tries * (len(numbers) - 1))


def exchanged(numbers, a, b):
    there = {a: numbers[b], b: numbers[a]}
    return tuple(there.get(place, number) for place, number in enumerate(numbers))


def shuffle(state, clock, numbers, tries=DRAW_TRIES):
    """The tries of a draw are 64, of which nobody has seen 33; fewer serve to see what a shuffle does then."""
    refusal = shuffle_refusal(state, clock, numbers, tries)
    if refusal:
        return Outcome(refusal, 0, numbers, state)
    left, emptied = numbers, 0
    for place in reversed(range(1, len(numbers))):
        picked = pick(state, clock, place + 1, tries)
        state, emptied = picked.next, emptied + picked.emptied
        if picked.number == 33:
            return Outcome(33, emptied, numbers, state)
        left = exchanged(left, place, picked.buffer)
    return Outcome(0, emptied, left, state)


# ---- quotas: records of source, allowance and bytes spent, walked from the first on


def place_of(records, wanted):
    """Where the first record of a source stands; None where it has none."""
    for place, (source, _, _) in enumerate(records):
        if source == wanted:
            return place
    return None


def well_formed(records):
    for place, (source, allowance, spent) in enumerate(records):
        if place == MAX_RECORDS or place_of(records, source) < place or allowance < spent:
            return False
    return True


def records_refusal(records, call, arguments):
    """37, 38 or 39, of a call that its input does not turn back."""
    if not well_formed(records):
        return 37
    if call is not event:
        return 0
    source, _, data = arguments
    place = place_of(records, source)
    if place is None:
        return 38
    _, allowance, spent = records[place]
    return 39 if spent + 3 + len(data) > allowance else 0


def charged(records, source, size):
    place = place_of(records, source)
    _, allowance, spent = records[place]
    return (*records[:place], (source, allowance, spent + 3 + size), *records[place + 1 :])


def cleared(records):
    return tuple((source, allowance, 0) for source, allowance, _ in records)


def metered(call, state, records, *arguments):
    """The outcome of a call of this module with records, and the records left. A state is a value, so the call without
    them is made first: what it gives stands where its input turned it back, or where the records have nothing against
    it."""
    outcome = call(state, *arguments)
    if outcome.number in INPUT_NUMBERS:
        return outcome, records
    if refusal := records_refusal(records, call, arguments):
        lent = arguments[2] if call is event else 0 if call is draw else arguments[1]
        return Outcome(refusal, 0, lent, state), records
    if outcome.emptied > 0:
        return outcome, cleared(records)
    if call is event and outcome.number == 0:
        source, _, data = arguments
        return outcome, charged(records, source, len(data))
    return outcome, records
