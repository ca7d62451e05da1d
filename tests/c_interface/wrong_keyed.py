"""Wrong versions of tests/independent/keyed.py. keyed_runs.py, beside this, shows that its stored scripts tell each of
these from the right one."""
import hashlib
from functools import lru_cache
from itertools import combinations

import aes256
from generator import MAX_COUNT, block_count, sha_d256
from keyed import (
    CLAUSES,
    EMPTY,
    HEADER,
    LAST_STEP,
    MAX_POOL,
    PERIOD,
    POOLS,
    Answer,
    Keyed,
    Pool,
    clauses,
    digest,
    encrypt,
    fresh,
    length,
    with_pool,
)

RIGHT = Keyed()

# Most of what a wrong version enciphers others have enciphered too.
encrypt_blocks = lru_cache(maxsize=None)(aes256.encrypt_blocks)

NUMBERS = {
    "event": (11, 13, 37, 38, 39, 21, 22, 45, 24),
    "request": (14, 37, 21, 23, 24),
    "update": (15, 36, 37, 21, 24),
    "write": (15, 37, 21, 23, 24),
}
APART = {(38, 39), (45, 24), (23, 24)}  # never both: 2^64 - 1 is odd, and at C = 0 nothing is spent


class Parts(Keyed):
    """The right one, which goes on where a wrong version takes what should have been refused."""

    def gained(self, state, source, data):
        i = self.picked(state)
        start, string = state.pools[i]
        string += (source % 2**16).to_bytes(2, "little") + bytes([len(data) % 256]) + data
        return state._replace(pools=with_pool(state.pools, i, Pool(start, string)))

    def reseeded(self, state, seed):
        return state._replace(key=sha_d256(state.key + seed), count=(state.count + 1) % 2**128)

    def emptied(self, state, i):
        """A pool that is too long for D is taken for an empty one."""
        if length(state.pools[i]) > MAX_POOL:
            state = state._replace(pools=with_pool(state.pools, i, EMPTY))
        return super().emptied(state, i)

    def made_request(self, state, quotas, buffer):
        blocks = block_count(len(buffer))
        counters = [(state.count + i) % 2**128 for i in range(blocks + 2)]
        made = encrypt_blocks(state.key, b"".join(count.to_bytes(16, "little") for count in counters))
        after = {"key": made[16 * blocks :], "count": (state.count + blocks + 2) % 2**128}
        left = state._replace(**after, key_requests=self.counted(state.key_requests))
        return Answer(0, 0, made[: len(buffer)], left, quotas)


def wrong(text, **parts):
    """A version with these parts in place of the right ones."""
    return type("Wrong", (Parts,), {"__doc__": text, **parts})


# ---- the pool that a step picks


def block_of(text, block):
    return wrong(text, block=lambda k, t: block(t))


def picking(text, pick):
    """Another pool of the sixteen bytes."""
    return wrong(text, input_pool=lambda k, key, t: pick(encrypt(key, k.block(t))))


WRONG_PICKS = (
    picking("picks by the second byte of the block", lambda out: out[1] % 32),
    picking("picks by the last byte of the block", lambda out: out[15] % 32),
    picking("picks by the fourth byte of the block", lambda out: out[3] % 32),
    picking("picks by all bytes of the block", lambda out: sum(out) % 32),
    picking("picks modulo 31", lambda out: out[0] % 31),
    picking("picks modulo 16", lambda out: out[0] % 16),
    picking("picks modulo 30 and adds 1", lambda out: out[0] % 30 + 1),
    picking("picks by the first byte's high bits", lambda out: out[0] // 8),
    block_of("has block t with its most significant byte first", lambda t: t.to_bytes(16, "big")),
    block_of("has t most significant byte first in the block's first half", lambda t: t.to_bytes(8, "big") + bytes(8)),
    block_of("has t in the block's second half", lambda t: bytes(8) + t.to_bytes(8, "little")),
    block_of("has t in both halves of the block", lambda t: t.to_bytes(8, "little") * 2),
    block_of("has t + 1 in the block", lambda t: (t + 1).to_bytes(16, "little")),
    block_of("has t - 1 in the block", lambda t: (t - 1).to_bytes(16, "little", signed=True)),
    block_of("has eight bits of t in the block", lambda t: (t % 2**8).to_bytes(16, "little")),
    block_of("has sixteen bits of t in the block", lambda t: (t % 2**16).to_bytes(16, "little")),
    block_of("has 32 bits of t in the block", lambda t: (t % 2**32).to_bytes(16, "little")),
    block_of("has 63 bits of t in the block", lambda t: (t % 2**63).to_bytes(16, "little")),
    wrong("takes the key's bytes in reverse", input_pool=lambda k, key, t: RIGHT.input_pool(key[::-1], t)),
    wrong("takes the key's first half twice", input_pool=lambda k, key, t: RIGHT.input_pool(key[:16] * 2, t)),
    wrong("picks pools in turn", input_pool=lambda k, key, t: t % POOLS),
    wrong("picks pool 0 always", input_pool=lambda k, key, t: 0),
    wrong("picks under the generator's key", picked=lambda k, s: RIGHT.input_pool(s.key, s.step)),
    wrong("picks by C in place of t", picked=lambda k, s: RIGHT.input_pool(s.scheduler_key, s.count % 2**64)),
    wrong("picks by the next step", picked=lambda k, s: RIGHT.input_pool(s.scheduler_key, min(s.step + 1, LAST_STEP))),
)


# ---- the pool that a step empties


def emptying(text, output):
    return wrong(text, output_pool=lambda k, t: output(t))


def right_but(text, steps, pool):
    """Another pool, or none, at some steps."""
    return emptying(text, lambda t: pool(t) if steps(t) else RIGHT.output_pool(t))


def largest(t, most):
    return max((i for i in range(most + 1) if t % (PERIOD * 2**i) == 0), default=None)


def at_period(period):
    def output(t):
        return None if t == 0 or t % period else max(i for i in range(POOLS) if t % (period * 2**i) == 0)

    return output


def is_multiple(t):
    return t > 0 and t % 2**36 == 0


WRONG_OUTPUTS = (
    right_but("empties pool 31 at step 0", lambda t: t == 0, lambda t: 31),
    right_but("empties pool 0 at step 0", lambda t: t == 0, lambda t: 0),
    right_but("empties pool 31 at odd multiples alone", lambda t: t % 2**37 == 0, lambda t: None),
    right_but("empties pool 0 where the largest would be above 31", lambda t: t % 2**37 == 0, lambda t: 0),
    right_but("empties pool 30 at even multiples of pool 31's period", lambda t: t and t % 2**37 == 0, lambda t: 30),
    right_but("empties none at pool 31's steps", is_multiple, lambda t: None),
    emptying("has pools up to 30 alone", lambda t: largest(t, 30) if t else None),
    emptying("has pools up to 15 alone", lambda t: largest(t, 15) if t else None),
    emptying("empties the smallest pool whose period divides t", lambda t: 0 if t and t % PERIOD == 0 else None),
    emptying("counts periods from 64", at_period(64)),
    emptying("counts periods from 31", at_period(31)),
    emptying("counts periods from 16", at_period(16)),
    emptying("counts periods from 33", at_period(33)),
    emptying("empties a step early", lambda t: RIGHT.output_pool(t + 1)),
    emptying("empties a step late", lambda t: RIGHT.output_pool(t - 1) if t else None),
    emptying("empties by the last 32 bits of t", lambda t: RIGHT.output_pool(t % 2**32)),
    emptying("empties by the last 36 bits of t", lambda t: RIGHT.output_pool(t % 2**36)),
    emptying("empties by the last 63 bits of t", lambda t: RIGHT.output_pool(t % 2**63)),
    emptying("never empties", lambda t: None),
    emptying("empties pool 0 at each step from 32 on", lambda t: RIGHT.output_pool(t) or (0 if t >= 32 else None)),
    right_but("empties none from 2^63 on", lambda t: t >= 2**63, lambda t: None),
    right_but("empties none at the last multiple of 32", lambda t: t == 2**64 - 32, lambda t: None),
)


# ---- what an emptying does


def own_after(k, state, quotas, source, data):
    """The event is booked after its own step: its pool gains it once the step has emptied."""
    found = Parts.made_event(k, state, quotas, source, data)
    out = k.output_pool(state.step)
    if out is None or out != k.picked(state):
        return found
    emptied = k.emptied(state, out)
    after = k.gained(emptied._replace(step=state.step), source, data)._replace(step=state.step + 1)
    return found._replace(next=after)


def own_lost(k, state, quotas, source, data):
    """The event is in neither pool nor key where its step empties its pool."""
    found = Parts.made_event(k, state, quotas, source, data)
    out = k.output_pool(state.step)
    if out is None or out != k.picked(state):
        return found
    return found._replace(next=k.emptied(state, out)._replace(step=state.step + 1))


def empty_passed_over(k, state, quotas, source, data):
    """A step whose pool holds nothing empties none."""
    out = k.output_pool(state.step)
    if out is None or length(k.gained(state, source, data).pools[out]) > 0:
        return Parts.made_event(k, state, quotas, source, data)
    left = quotas if quotas is None else k.charged(quotas, source, data)
    return Answer(0, 0, data, k.gained(state, source, data)._replace(step=state.step + 1), left)


def reseeding(text, seed):
    """Another seed than the digest; it takes the state and the pool's place."""

    def emptied(k, state, i):
        after = k.reseeded(state, seed(state, i))
        return after._replace(pools=with_pool(state.pools, i, EMPTY), key_requests=0)

    return wrong(text, emptied=emptied)


def leaving_by_emptying(text, change):
    """The state after an emptying is another; change takes the state before it, the pool's place and the right one."""
    return wrong(text, emptied=lambda k, s, i: change(s, i, Parts.emptied(k, s, i)))


def all_up_to(state, i):
    return b"".join(digest(pool) for pool in state.pools[: i + 1])


def keyed_by(key):
    """K is worked out in another way, from the old K and the pool's digest."""
    return lambda s, i, after: after._replace(key=key(s.key, digest(s.pools[i])))


def pools_up_to(state, i, after):
    return after._replace(pools=(*[EMPTY] * (i + 1), *state.pools[i + 1 :]))


def string_of(state, i):
    """The pool's string, as far as it is known."""
    return state.pools[i].string


def hashed(message):
    """D without doubling."""
    return hashlib.sha256(bytes(64) + message).digest()


WRONG_EMPTYINGS = (
    wrong("books an event after its own step", made_event=own_after),
    wrong("leaves the emptying event out of the emptied pool", made_event=own_lost),
    wrong("does not empty an empty pool", made_event=empty_passed_over),
    reseeding("takes the digests of all pools up to i", all_up_to),
    reseeding("takes all 32 digests", lambda s, i: all_up_to(s, 31)),
    reseeding("takes the pool's string in place of its digest", string_of),
    reseeding("takes the digest without doubling", lambda s, i: hashed(string_of(s, i))),
    reseeding("takes the digest without the block of zeros", lambda s, i: sha_d256(string_of(s, i), b"")),
    reseeding("takes the digest of the pool below", lambda s, i: digest(s.pools[i - 1])),
    reseeding("takes the digest of an empty pool", lambda s, i: digest(EMPTY)),
    reseeding("takes sixteen bytes of the digest", lambda s, i: digest(s.pools[i])[:16]),
    leaving_by_emptying("empties all pools up to i", pools_up_to),
    leaving_by_emptying("empties all pools", lambda s, i, after: after._replace(pools=(EMPTY,) * POOLS)),
    leaving_by_emptying("keeps the emptied pool", lambda s, i, after: after._replace(pools=s.pools)),
    leaving_by_emptying("keeps the requests on the key", lambda s, i, a: a._replace(key_requests=s.key_requests)),
    leaving_by_emptying("counts the emptying as a request", lambda s, i, after: after._replace(key_requests=1)),
    leaving_by_emptying("counts one request less", lambda s, i, a: a._replace(key_requests=max(s.key_requests - 1, 0))),
    leaving_by_emptying("does not step C", lambda s, i, after: after._replace(count=s.count)),
    leaving_by_emptying("steps C twice", lambda s, i, after: after._replace(count=(s.count + 2) % 2**128)),
    leaving_by_emptying("steps C by the pools up to i", lambda s, i, a: a._replace(count=(s.count + i + 1) % 2**128)),
    leaving_by_emptying("makes K of the digest alone", keyed_by(lambda key, found: sha_d256(found))),
    leaving_by_emptying("takes the digest for K", keyed_by(lambda key, found: found)),
    leaving_by_emptying("has the digest before K", keyed_by(lambda key, found: sha_d256(found + key))),
    leaving_by_emptying("makes K by one hash", keyed_by(lambda key, found: hashed(key + found))),
    leaving_by_emptying("keeps K", keyed_by(lambda key, found: key)),
    leaving_by_emptying("counts reseeds", lambda s, i, after: after._replace(number=s.number + 1)),
    leaving_by_emptying("sets the flag", lambda s, i, after: after._replace(flag=True)),
    leaving_by_emptying("sets the mark to the step", lambda s, i, after: after._replace(mark=s.step % 2**32)),
    leaving_by_emptying("changes the scheduler key", lambda s, i, after: after._replace(scheduler_key=after.key)),
)


# ---- t, and what an event answers


def after_event(text, change):
    """An accepted event gives something else; change takes the model, the state before and the right answer."""

    def made_event(k, state, quotas, source, data):
        return change(k, state, Parts.made_event(k, state, quotas, source, data))

    return wrong(text, made_event=made_event)


def stepping(text, step):
    """Another t after an accepted event; it takes t, and whether a pool was emptied."""
    return after_event(text, lambda k, s, a: a._replace(next=a.next._replace(step=step(s.step, a.emptied) % 2**64)))


def telling(text, emptied):
    """Another number of pools emptied; it takes the pool, or None."""
    return after_event(text, lambda k, s, a: a._replace(emptied=emptied(k.output_pool(s.step))))


def by_answer(text, change):
    return after_event(text, lambda k, state, answer: answer._replace(next=change(answer.next)))


WRONG_EVENTS = (
    stepping("leaves t where a pool was emptied", lambda t, emptied: t + 1 - emptied),
    stepping("moves t by two where a pool was emptied", lambda t, emptied: t + 1 + emptied),
    stepping("moves t by two", lambda t, emptied: t + 2),
    stepping("leaves t", lambda t, emptied: t),
    stepping("begins anew at an emptying", lambda t, emptied: 0 if emptied else t + 1),
    stepping("counts t in eight bits", lambda t, emptied: (t + 1) % 2**8),
    stepping("counts t in 32 bits", lambda t, emptied: (t + 1) % 2**32),
    stepping("wraps t at 2^36", lambda t, emptied: (t + 1) % 2**36),
    telling("answers 1 for every event", lambda out: 1),
    telling("answers 0 for every event", lambda out: 0),
    telling("answers the pool", lambda out: out or 0),
    telling("answers the pool and 1", lambda out: 0 if out is None else out + 1),
    telling("answers 32 where none is emptied", lambda out: 32 if out is None else 1),
    by_answer("counts an event as a request", lambda s: s._replace(key_requests=min(s.key_requests + 1, 65535))),
    by_answer("leaves the step in the mark", lambda s: s._replace(mark=s.step % 2**32)),
)


# ---- what is turned away, number by number


def judged(call, refusal, text, applies):
    """In one call another condition of a number; it takes the model and the call's arguments."""

    def numbers(k, *arguments):
        found = getattr(Parts, f"{call}_numbers")(k, *arguments)
        return found | {refusal: applies(k, *arguments)}

    return wrong(text, **{f"{call}_numbers": numbers})


def spent_by(growth, always=False):
    """24 of an event with another growth, at every step where `always`."""

    def applies(k, state, quotas, source, data):
        return (always or k.output_pool(state.step) is not None) and state.count + growth > MAX_COUNT

    return applies


def step_is(applies):
    return lambda k, state, quotas, source, data: applies(state.step)


def pool_is_full(which):
    """22 of other pools; it takes the model and the state."""
    return lambda k, state, quotas, source, data: any(k.full(state.pools[i], data) for i in which(k, state))


def emptied_or_picked(k, state):
    out = k.output_pool(state.step)
    return [k.picked(state)] if out is None else [out]


def not_emptied(k, state):
    return {k.picked(state)} - {k.output_pool(state.step)}


def limited(limit, header=HEADER):
    def applies(k, state, quotas, source, data):
        return length(state.pools[k.picked(state)]) + header + len(data) > limit

    return applies


def unseeded_before(step):
    return lambda k, state, *rest: state.count == 0 and state.step < step


WRONG_NUMBERS = (
    judged("event", 24, "looks at C for every event", spent_by(1, always=True)),
    judged("event", 24, "looks at C for no event", lambda *rest: False),
    judged("event", 24, "has u = 0", spent_by(0)),
    judged("event", 24, "has u = 2", spent_by(2)),
    judged("event", 24, "has b = 2", spent_by(3)),
    judged("event", 24, "looks at C a step early", lambda k, s, *rest: s.count == MAX_COUNT and s.step % 32 == 31),
    judged("event", 45, "takes an event at 2^64 - 1", lambda *rest: False),
    judged("event", 45, "takes none at 2^64 - 2", step_is(lambda t: t >= LAST_STEP - 1)),
    judged("event", 45, "takes none from 2^64 - 32 on", step_is(lambda t: t >= 2**64 - 32)),
    judged("event", 45, "takes none from 2^63 on", step_is(lambda t: t >= 2**63)),
    judged("event", 45, "takes none at 2^63 - 1", step_is(lambda t: t in (2**63 - 1, LAST_STEP))),
    judged("event", 45, "takes none at 2^32 - 1", step_is(lambda t: t % 2**32 == 2**32 - 1)),
    judged("event", 45, "takes none from 2^36 on", step_is(lambda t: t >= 2**36)),
    judged("event", 22, "looks at no pool's length", lambda *rest: False),
    judged("event", 22, "looks at all pools' lengths", pool_is_full(lambda k, state: range(POOLS))),
    judged("event", 22, "looks at the emptied pool's length", pool_is_full(emptied_or_picked)),
    judged("event", 22, "looks at pool 0's length", pool_is_full(lambda k, state: [0])),
    judged("event", 22, "takes a full pool that the step empties", pool_is_full(not_emptied)),
    judged("event", 22, "takes one byte too many", limited(MAX_POOL + 1)),
    judged("event", 22, "takes one byte too few", limited(MAX_POOL - 1)),
    judged("event", 22, "does not count the header", limited(MAX_POOL, 0)),
    judged("event", 22, "counts two bytes of header", limited(MAX_POOL, 2)),
    judged("event", 22, "counts the block of zeros", limited(MAX_POOL - 64)),
    judged("event", 11, "takes no source above 255", lambda k, s, q, source, data: source > 255),
    judged("event", 13, "takes no data of 32 bytes", lambda k, s, q, source, data: not 1 <= len(data) < 32),
    judged("request", 23, "serves a request at C = 0 from step 32 on", unseeded_before(32)),
    judged("write", 23, "serves a write at C = 0 from step 32 on", unseeded_before(32)),
    judged("update", 24, "wants 8 blocks for an update", lambda k, s, q, seed: s.count + 8 > MAX_COUNT),
    judged("update", 24, "wants 6 blocks for an update", lambda k, s, q, seed: s.count + 6 > MAX_COUNT),
    judged("write", 24, "wants 7 blocks for a write", lambda k, s, q, seed: s.count + 7 > MAX_COUNT),
    judged("update", 36, "takes a blank seed", lambda *rest: False),
    judged("update", 36, "refuses an update's seed that is nearly blank", lambda k, s, q, seed: len(set(seed)) <= 2),
    judged("write", 36, "refuses a write over a blank page", lambda k, s, q, seed: k.blank(seed)),
    judged("request", 45, "serves no request at 2^64 - 1", lambda k, s, *rest: k.steps_spent(s.step)),
    judged("update", 45, "takes no update at 2^64 - 1", lambda k, s, *rest: k.steps_spent(s.step)),
    judged("write", 45, "makes no write at 2^64 - 1", lambda k, s, *rest: k.steps_spent(s.step)),
)


# ---- 21


def formed(text, malformed):
    return wrong(text, malformed=lambda k, state: malformed(state))


def without(name):
    return formed(f"does not look at 21's clause '{name}'", lambda s: any(clause != name for clause in clauses(s)))


def with_more(text, more):
    return formed(text, lambda state: len(clauses(state)) > 0 or more(state))


def of_the_present_one(state):
    """The clauses on flag, mark and number that the present station has."""
    rest = [clause for clause in clauses(state) if clause not in ("mark", "flag", "reseed number")]
    return bool(rest) or state.count == 0 and state.flag or not state.flag and (state.mark, state.number) != (0, 0)


def timer_if(condition):
    """The three fields are looked at under a condition alone."""
    timer = ("mark", "flag", "reseed number")
    return lambda s: any(clause not in timer or condition(s) for clause in clauses(s))


def passed_over(call):
    return judged(call, 21, f"looks for no 21 in the call {call}", lambda *rest: False)


WRONG_CLAUSES = (
    *map(without, CLAUSES),
    formed("has the present station's clauses on mark, flag and number", of_the_present_one),
    formed("looks at mark, flag and number where C is 0 alone", timer_if(lambda s: s.count == 0)),
    formed("looks at mark, flag and number where C is above 0 alone", timer_if(lambda s: s.count > 0)),
    formed("looks at mark and number where the flag is set alone", timer_if(lambda s: s.flag)),
    formed("takes mark and number where the flag is set", timer_if(lambda s: not s.flag)),
    with_more("refuses a step above 0 where C is 0", lambda s: s.count == 0 and s.step > 0),
    with_more("refuses a step above 32 where C is 0", lambda s: s.count == 0 and s.step > 32),
    with_more("refuses step 2^64 - 1", lambda s: s.step == LAST_STEP),
    with_more("refuses a scheduler key of zeros", lambda s: not any(s.scheduler_key)),
    with_more("refuses a step before 32 where C is above 0", lambda s: s.count > 0 and s.step < 32),
    with_more("refuses requests on the key above C", lambda s: s.key_requests > s.count),
    with_more("refuses 65,535 requests on the key", lambda s: s.key_requests == 65535),
    *map(passed_over, NUMBERS),
)


# ---- the order of the numbers, and what a refused call leaves


def swapped(call, a, b):
    """Two numbers change places."""

    def numbers(k, *arguments):
        found = getattr(Parts, f"{call}_numbers")(k, *arguments)
        return {number: found[number] for number in ({a: b, b: a}.get(n, n) for n in found)}

    return wrong(f"has {a} and {b} swapped at {call}", **{f"{call}_numbers": numbers})


def leaving(text, call, refusal, change):
    """A call that is refused with this number, or with any, gives something else; change takes model, answer and
    arguments."""

    def refusing(k, name, *arguments):
        found = Parts.call(k, name, *arguments)
        refused = found.number == refusal if refusal else found.number > 0
        return change(k, found, *arguments) if name == call and refused else found

    return wrong(text, call=refusing)


def moved(k, found, state, *rest):
    return found._replace(next=state._replace(step=(state.step + 1) % 2**64))


def charged_all(k, found, state, quotas, source, data):
    return found if quotas is None else found._replace(quotas=k.charged(quotas, source, data))


def cleared_all(k, found, state, quotas, *rest):
    return found if quotas is None else found._replace(quotas=k.cleared(quotas))


def gained_all(k, found, state, quotas, source, data):
    return found._replace(next=k.gained(state, source % 2**16, data[:255]))


def renumbered(call, refusal, other):
    def change(k, found, *rest):
        return found._replace(number=other)

    return leaving(f"gives {other} for {refusal} at {call}", call, refusal, change)


def emptied_one(k, found, state, *rest):
    """The step's emptying is made though its event is refused."""
    out = k.output_pool(state.step)
    return found if out is None else found._replace(next=k.emptied(state, out))


WRONG_ORDERS = tuple(
    swapped(call, a, b) for call, numbers in NUMBERS.items() for a, b in combinations(numbers, 2) if (a, b) not in APART
)
SOME_NUMBERS = (13, 39, 21, 22, 45, 24)
WRONG_REFUSED = (
    *(leaving(f"moves t where {n} turns an event away", "event", n, moved) for n in NUMBERS["event"]),
    *(leaving(f"charges an event that {n} turns away", "event", n, charged_all) for n in SOME_NUMBERS),
    *(leaving(f"clears the list where {n} turns an event away", "event", n, cleared_all) for n in SOME_NUMBERS),
    *(leaving(f"books an event that {n} turns away", "event", n, gained_all) for n in (11, 13, 38, 39, 45, 24)),
    *(leaving(f"empties a pool where {n} turns an event away", "event", n, emptied_one) for n in (13, 38, 39, 22)),
    *(leaving(f"clears the list where a {name} is refused", name, 0, cleared_all) for name in ("request", "write")),
    *(renumbered("event", n, other) for n, other in ((22, 12), (45, 24), (45, 46), (45, 0), (24, 45), (21, 22))),
    *(renumbered("event", n, other) for n, other in ((11, 12), (13, 12), (38, 37), (39, 38))),
)


# ---- requests and seed calls


def served(text, change, names=("request", "update", "write")):
    """An accepted call of these gives something else; change takes the model, the state before and the right answer."""

    def made(name):
        def serve(k, state, quotas, lent):
            return change(k, state, getattr(Parts, f"made_{name}")(k, state, quotas, lent))

        return serve

    return wrong(text, **{f"made_{name}": made(name) for name in names})


def counting(text, counted, names=("request", "update", "write")):
    """Another number of requests after a call."""
    return served(text, lambda k, s, a: a._replace(next=a.next._replace(key_requests=counted(s.key_requests))), names)


def also_empties(k, state, found):
    """A request at a step that empties makes the emptying too."""
    out = k.output_pool(state.step)
    if out is None or found.next.count == MAX_COUNT:
        return found
    return found._replace(emptied=1, next=k.emptied(found.next, out))


def update_without_seed(k, state, quotas, seed):
    return k.made_request(state._replace(count=max(state.count, 1)), quotas, seed)


def write_with_seed(k, state, quotas, seed):
    if state.count + 7 > MAX_COUNT:
        return k.made_request(state, quotas, seed)
    return k.made_request(k.reseeded(state, seed), quotas, seed)


def quotas_by(change):
    return lambda k, s, a: a if a.quotas is None else a._replace(quotas=change(k, a.quotas))


def next_by(**changes):
    """Fields of the next state, each worked out from what it is."""
    return lambda k, s, a: a._replace(next=a.next._replace(**{f: c(getattr(a.next, f)) for f, c in changes.items()}))


WRONG_SERVED = (
    served("moves t at a request", next_by(step=lambda t: (t + 1) % 2**64), ("request",)),
    served("moves t at seed calls", next_by(step=lambda t: (t + 1) % 2**64), ("update", "write")),
    served("empties a pool at a request", also_empties, ("request",)),
    served("empties a pool at an update", also_empties, ("update",)),
    served("empties a pool at a write", also_empties, ("write",)),
    served("answers 1 for a request", lambda k, s, a: a._replace(emptied=1), ("request",)),
    served("answers 1 for seed calls", lambda k, s, a: a._replace(emptied=1), ("update", "write")),
    served("clears the list at a request", quotas_by(lambda k, quotas: k.cleared(quotas)), ("request",)),
    served("clears the list at seed calls", quotas_by(lambda k, quotas: k.cleared(quotas)), ("update", "write")),
    served("sets the flag at a request", next_by(flag=lambda flag: True), ("request",)),
    counting("does not count requests", lambda n: n, ("request",)),
    counting("does not count updates", lambda n: n, ("update",)),
    counting("does not count writes", lambda n: n, ("write",)),
    counting("counts an update as the first request", lambda n: 1, ("update",)),
    counting("counts an update twice", lambda n: min(n + 2, 65535), ("update",)),
    counting("counts past 65,535 to 0", lambda n: (n + 1) % 2**16),
    counting("stops counting at 65,534", lambda n: min(n + 1, 65534)),
    counting("counts in eight bits", lambda n: (n + 1) % 2**8),
    counting("stops counting at 255", lambda n: max(n, min(n + 1, 255))),
    wrong("makes no reseed at an update", made_update=update_without_seed),
    wrong("makes a reseed at a write", made_write=write_with_seed),
)


# ---- lists of quotas


def listed(text, left):
    """Another list after an accepted event; it takes the list before, the source, what the event spends and the pools
    emptied."""

    def made_event(k, state, quotas, source, data):
        found = Parts.made_event(k, state, quotas, source, data)
        return found if quotas is None else found._replace(quotas=left(quotas, source, k.cost(data), found.emptied))

    return wrong(text, made_event=made_event)


def spent_of(quotas, spent):
    return tuple(quota._replace(spent=spent(quota)) for quota in quotas)


def after(source, cost):
    return lambda quota: quota.spent + cost if quota.source == source else quota.spent


def own_kept(quotas, source, cost, emptied):
    """The emptying event's own spending stays."""
    kept = spent_of(quotas, lambda q: cost if q.source == source else 0)
    return kept if emptied else spent_of(quotas, after(source, cost))


def own_cleared(quotas, source, cost, emptied):
    """No record is cleared but the event's own."""
    cleared = spent_of(quotas, lambda q: 0 if q.source == source else q.spent)
    return cleared if emptied else spent_of(quotas, after(source, cost))


def never_cleared(quotas, source, cost, emptied):
    return spent_of(quotas, after(source, cost))


def cleared_first(quotas, source, cost, emptied):
    left = own_cleared(quotas, source, cost, 0)
    return (left[0]._replace(spent=0), *left[1:]) if emptied else left


def always_cleared(quotas, source, cost, emptied):
    return spent_of(quotas, lambda quota: 0)


def not_charged(quotas, source, cost, emptied):
    return spent_of(quotas, lambda quota: 0) if emptied else quotas


def charges_all(quotas, source, cost, emptied):
    return spent_of(quotas, lambda q: 0 if emptied else min(q.spent + cost, 2**32 - 1))


def charges(price):
    """Another price of an event; it takes the length of the data."""
    def left(quotas, source, cost, emptied):
        spent = after(source, price(cost - HEADER))
        return spent_of(quotas, lambda quota: 0 if emptied else spent(quota))

    return left


def allowed(text, applies):
    """39 goes by another condition; it takes the model, the state, the own record and the data."""

    def over(k, state, quotas, source, data):
        return quotas is not None and any(applies(k, state, q, data) for q in quotas if q.source == source)

    return judged("event", 39, text, over)


def free_at_emptying(k, state, quota, data):
    """A step that empties a pool clears the list, so nothing is looked at there."""
    return k.output_pool(state.step) is None and quota.spent + k.cost(data) > quota.allowance


def cleared_before(k, state, quota, data):
    """A step that empties a pool clears the list first."""
    spent = quota.spent if k.output_pool(state.step) is None else 0
    return spent + k.cost(data) > quota.allowance


def no_list(call):
    return judged(call, 37, f"takes a bad list at {call}", lambda *rest: False)


WRONG_LISTS = (
    listed("keeps what the emptying event itself has spent", own_kept),
    listed("keeps what the others have spent at an emptying", own_cleared),
    listed("keeps what all have spent at an emptying", never_cleared),
    listed("clears the first record alone", cleared_first),
    listed("clears the list at every event", always_cleared),
    listed("charges no event", not_charged),
    listed("charges all sources", charges_all),
    listed("charges the data alone", charges(lambda size: size)),
    listed("charges two bytes of header", charges(lambda size: size + 2)),
    listed("charges 35 bytes for each event", charges(lambda size: 35)),
    allowed("looks at no allowance where a pool is emptied", free_at_emptying),
    allowed("clears the list before it looks at the allowance", cleared_before),
    allowed("turns an event back that reaches its allowance", lambda k, s, q, d: q.spent + k.cost(d) >= q.allowance),
    allowed("does not look at what is spent", lambda k, s, q, data: k.cost(data) > q.allowance),
    allowed("wraps what is spent", lambda k, s, q, data: (q.spent + k.cost(data)) % 2**32 > q.allowance),
    wrong("takes a list of 65", bad_list=lambda k, quotas: len(quotas) > 65 or RIGHT.bad_list(quotas[:64])),
    wrong("takes no list of 64", bad_list=lambda k, quotas: len(quotas) > 63 or RIGHT.bad_list(quotas)),
    wrong("takes no empty list", bad_list=lambda k, quotas: not quotas or RIGHT.bad_list(quotas)),
    wrong("takes spent above allowance", bad_list=lambda k, quotas: RIGHT.bad_list(spent_of(quotas, lambda q: 0))),
    *map(no_list, NUMBERS),
)


# ---- the fresh start


def starting(text, **fields):
    """Fields of a fresh state, each worked out from the scheduler key."""
    return wrong(text, fresh=lambda k, key: fresh(key)._replace(**{name: make(key) for name, make in fields.items()}))


WRONG_STARTS = (
    starting("starts at step 1", step=lambda key: 1),
    starting("starts with C = 1", count=lambda key: 1),
    starting("starts with the scheduler key as K", key=lambda key: key, count=lambda key: 1),
    starting("forgets the scheduler key", scheduler_key=lambda key: bytes(32)),
    starting("keeps the scheduler key in reverse", scheduler_key=lambda key: key[::-1]),
    starting("keeps the digest of the scheduler key", scheduler_key=sha_d256),
    starting("starts with the flag set", flag=lambda key: True),
)

WRONG = (
    *(*WRONG_PICKS, *WRONG_OUTPUTS, *WRONG_EMPTYINGS, *WRONG_EVENTS, *WRONG_NUMBERS, *WRONG_CLAUSES),
    *(*WRONG_ORDERS, *WRONG_REFUSED, *WRONG_SERVED, *WRONG_LISTS, *WRONG_STARTS),
)
