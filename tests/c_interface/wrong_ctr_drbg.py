"""CTR_DRBG in parts, and wrong versions of it. ctr_drbg_runs.py, beside this, shows that its stored scripts tell each
of these from the right one."""
from functools import lru_cache
from itertools import combinations

import aes256
from aes256 import xor
from ctr_drbg import BLOCK, INTERVAL, KEY, MOST_BYTES, NEW, SEED, Answer, CtrDrbg, State

SEEDINGS = ("instantiate", "reseed")
CALLS = (*SEEDINGS, "generate")
CARRYING = ("reseed", "first update", "output", "second update")  # where V can be any: an instantiate starts at 0
NUMBERS = {"instantiate": (40, 41), "reseed": (40, 41, 42), "generate": (41, 14, 42)}
RIGHT = CtrDrbg()

# Most of what a wrong version enciphers others have enciphered too.
encrypt_blocks = lru_cache(maxsize=None)(aes256.encrypt_blocks)


def joined(key, blocks):
    return encrypt_blocks(key, b"".join(blocks))


def padded(data):
    """Also of too long an input, which wrong versions take."""
    return (data + bytes(SEED))[:SEED]


class Parts(CtrDrbg):
    """The right one, in parts that a wrong version replaces. A place is a seeding, or in a request the first update,
    the output or the second update."""

    def stepped(self, place, v):
        return self.step(v)

    def enciphered(self, key, before, after):
        """The blocks of a loop; V before each step, and after it."""
        return joined(key, after)

    def looped(self, place, key, v, length):
        before, after = [], []
        while BLOCK * len(after) < length:
            before.append(v)
            v = self.stepped(place, v)
            after.append(v)
        return self.enciphered(key, before, after), v

    def combined(self, temp, provided):
        return xor(temp, provided)

    def divided(self, temp, key, v):
        """Key and V; those before are there for wrong versions."""
        return temp[:KEY], temp[KEY:]

    def updated(self, place, provided, key, v):
        return self.divided(self.combined(self.looped(place, key, v, SEED)[0], provided), key, v)

    def filled(self, place, data):
        return padded(data)

    def mixed(self, place, entropy, other):
        return xor(entropy, self.filled(place, other))

    def start(self, place, state):
        return (bytes(KEY), bytes(BLOCK)) if place == "instantiate" else (state.key, state.v)

    def set_to(self, place, state):
        """The reseed counter after a seeding."""
        return 1

    def seeded(self, place, state, entropy, other):
        provided = self.mixed(place, entropy, other)
        return State(*self.updated(place, provided, *self.start(place, state)), self.set_to(place, state))

    def instantiate_algorithm(self, *arguments):
        return self.seeded("instantiate", *arguments)

    def reseed_algorithm(self, *arguments):
        return self.seeded("reseed", *arguments)

    def is_given(self, additional):
        return len(additional) > 0

    def prepared(self, additional, key, v):
        provided = self.filled("first update", additional)
        return self.updated("first update", provided, key, v) if self.is_given(additional) else (key, v)

    def output(self, state, key, v, length):
        """The bytes, and V after them; the state before the call is there for wrong versions."""
        made, v = self.looped("output", key, v, length)
        return made[:length], v

    def provided_last(self, additional):
        return self.filled("second update", additional)

    def finished(self, state, provided, key, v, length):
        return self.updated("second update", provided, key, v)

    def grown(self, counter, length):
        return counter + 1

    def generate_algorithm(self, state, length, additional):
        key, v = self.prepared(additional, state.key, state.v)
        out, v = self.output(state, key, v, length)
        left = self.finished(state, self.provided_last(additional), key, v, length)
        return out, State(*left, self.grown(state.reseed_counter, length))


def wrong(text, **parts):
    """A version with these parts in place of the right ones."""
    return type("Wrong", (Parts,), {"__doc__": text, **parts})


# ---- V's step


def number(v):
    return int.from_bytes(v, "big")


def as_v(n):
    return (n % 2**128).to_bytes(BLOCK, "big")


def least_first(v):
    return ((int.from_bytes(v, "little") + 1) % 2**128).to_bytes(BLOCK, "little")


def of_bits(bits):
    """A carry that leaves the last bits is lost."""
    return lambda v: as_v(number(v) >> bits << bits | (number(v) + 1) % 2**bits)


def passing(place):
    """A carry that comes to the byte at this place goes to the one before it."""

    def step(v):
        rest = (number(v[:place] + v[place + 1 :]) + 1) % 2**120
        after = rest.to_bytes(BLOCK - 1, "big")
        return after[:place] + v[place : place + 1] + after[place:]

    return step


def early(v):
    """The last byte carries where it becomes FF."""
    return as_v(number(v) + (257 if v[-1] == 0xFE else 1))


def kept_full(v):
    """The last byte stays FF where it carries."""
    return as_v(number(v) + (256 if v[-1] == 0xFF else 1))


def words_turned(v):
    """Words of 4 bytes, the last word least significant, with their bytes least significant first."""
    turned = b"".join(v[i : i + 4][::-1] for i in range(0, BLOCK, 4))
    after = as_v(number(turned) + 1)
    return b"".join(after[i : i + 4][::-1] for i in range(0, BLOCK, 4))


def stepping(step, places):
    """Another step at these places alone."""
    return {"stepped": lambda drbg, place, v: step(v) if place in places else drbg.step(v)}


STEPS = {
    "steps V least significant byte first": least_first,
    "steps V by words with their bytes least significant first": words_turned,
    "has V stay at 2^128 - 1": lambda v: as_v(min(number(v) + 1, 2**128 - 1)),
    "has V wrap to 1": lambda v: as_v(number(v) + 1 if number(v) < 2**128 - 1 else 1),
    "has V wrap at 2^128 - 2": lambda v: as_v(number(v) + 1 if number(v) < 2**128 - 2 else 0),
    "carries where the last byte becomes FF": early,
    "keeps the last byte FF where it carries": kept_full,
    "steps V by 2": lambda v: as_v(number(v) + 2),
    "steps V down": lambda v: as_v(number(v) - 1),
    "does not step V": lambda v: v,
}


def wrong_steps():
    for text, step in STEPS.items():
        yield wrong(text, step=lambda drbg, v, step=step: step(v))
    yield wrong("steps after the block", enciphered=lambda drbg, key, before, after: joined(key, before))


def wrong_carries():
    for bits in range(8, 128, 8):
        yield wrong(f"steps the last {bits} bits alone", step=lambda drbg, v, bits=bits: of_bits(bits)(v))
    for place in range(1, BLOCK - 1):
        yield wrong(f"has the carry pass byte {place}", step=lambda drbg, v, place=place: passing(place)(v))


def wrong_carries_at_places():
    for place in CARRYING:
        for bits in range(8, 128, 8):
            yield wrong(f"steps the last {bits} bits alone in {place}", **stepping(of_bits(bits), [place]))
        for text in ("has V stay at 2^128 - 1", "has V wrap to 1"):
            yield wrong(f"{text} in {place}", **stepping(STEPS[text], [place]))


def carry_lost_at(position, bits):
    """A step of so many bits at the first or at the second of each two blocks, as where blocks are made by twos."""

    def looped(drbg, place, key, v, length):
        after = []
        while BLOCK * len(after) < length:
            v = of_bits(bits)(v) if len(after) % 2 == position else drbg.step(v)
            after.append(v)
        return joined(key, after), v

    return wrong(f"steps the last {bits} bits alone at block {position} of each two", looped=looped)


def wrong_carries_by_twos():
    yield from (carry_lost_at(position, bits) for position in (0, 1) for bits in range(8, 128, 8))


# ---- the update


UPDATES = {
    "has Key and V swapped in the update": lambda drbg, temp, key, v: (temp[BLOCK:], temp[:BLOCK]),
    "keeps V in the update": lambda drbg, temp, key, v: (temp[:KEY], v),
    "keeps Key in the update": lambda drbg, temp, key, v: (key, temp[KEY:]),
    "has the Key's halves swapped": lambda drbg, temp, key, v: (temp[BLOCK:KEY] + temp[:BLOCK], temp[KEY:]),
    "takes the first block for V too": lambda drbg, temp, key, v: (temp[:KEY], temp[:BLOCK]),
    "leaves V as it was stepped in the update": lambda drbg, temp, key, v: (temp[:KEY], as_v(number(v) + 3)),
}
COMBINED = {
    "leaves out the xor with the provided data": lambda drbg, temp, provided: temp,
    "xors the Key alone": lambda drbg, temp, provided: xor(temp[:KEY], provided[:KEY]) + temp[KEY:],
    "xors V alone": lambda drbg, temp, provided: temp[:KEY] + xor(temp[KEY:], provided[KEY:]),
    "takes the provided data in place of the xor": lambda drbg, temp, provided: provided,
    "has an or in place of the xor": lambda drbg, temp, provided: bytes(a | b for a, b in zip(temp, provided)),
    "does not xor the last byte": lambda drbg, temp, provided: xor(temp[:-1], provided[:-1]) + temp[-1:],
}


def left_out(left_at):
    """No update at one place."""

    def updated(drbg, place, provided, key, v):
        return (key, v) if place == left_at else Parts.updated(drbg, place, provided, key, v)

    return wrong(f"makes no update at {left_at}", updated=updated)


def unmixed(left_at):
    """No xor at one place."""

    def updated(drbg, place, provided, key, v):
        return Parts.updated(drbg, place, bytes(SEED) if place == left_at else provided, key, v)

    return wrong(f"leaves out the provided data at {left_at}", updated=updated)


def wrong_updates():
    yield from (wrong(text, divided=divided) for text, divided in UPDATES.items())
    yield from (wrong(text, combined=combined) for text, combined in COMBINED.items())
    for place in ("instantiate", "reseed", "first update", "second update"):
        yield from (left_out(place), unmixed(place))


# ---- the inputs


FILLED = {
    "in front": lambda data: bytes(SEED - len(data)) + data if len(data) <= SEED else data[:SEED],
    "by FF": lambda data: (data + b"\xff" * SEED)[:SEED],
    "by 80 and zeros": lambda data: (data + b"\x80" + bytes(SEED))[:SEED] if data else bytes(SEED),
    "by its own bytes again": lambda data: (data * SEED)[:SEED] if data else bytes(SEED),
    "by its last byte": lambda data: (data + data[-1:] * SEED)[:SEED] if data else bytes(SEED),
}
FILLED_AT = ("instantiate", "reseed", "first update", "second update")


def filling(text, fill, where):
    """Inputs are filled up in another way at one place."""

    def filled(drbg, place, data):
        return fill(data) if place == where else padded(data)

    return wrong(f"fills an input up {text} at {where}", filled=filled)


def wrong_filling():
    for text, fill in FILLED.items():
        yield from (filling(text, fill, where) for where in FILLED_AT)
    yield wrong("fills inputs up in front", filled=lambda drbg, place, data: FILLED["in front"](data))


def mixing(where, text, mix):
    """Another seed material at one seeding."""

    def mixed(drbg, place, entropy, other):
        return mix(entropy, other) if place == where else Parts.mixed(drbg, place, entropy, other)

    return wrong(f"{text} at {where}", mixed=mixed)


def in_two_updates(where):
    """The other input has an update of its own after that of the entropy input."""

    def seeded(drbg, place, state, entropy, other):
        left = Parts.seeded(drbg, place, state, entropy, b"" if place == where else other)
        return left._replace(**keyed(drbg, place, other, left)) if place == where and other else left

    return wrong(f"gives the other input an update of its own at {where}", seeded=seeded)


def keyed(drbg, place, other, left):
    key, v = drbg.updated(place, drbg.filled(place, other), left.key, left.v)
    return {"key": key, "v": v}


def wrong_mixing():
    for where in SEEDINGS:
        yield mixing(where, "ignores the other input", lambda entropy, other: entropy)
        yield mixing(where, "ignores the entropy input", lambda entropy, other: padded(other))
        yield mixing(where, "takes the other input in place of the entropy", lambda e, o: padded(o) if o else e)
        yield mixing(where, "xors the first 32 bytes of the other input", lambda e, o: xor(e, padded(o[:KEY])))
        yield mixing(where, "has an or of the inputs", lambda e, o: bytes(a | b for a, b in zip(e, padded(o))))
        yield in_two_updates(where)


GIVEN = {
    "makes no first update for one byte": lambda drbg, additional: len(additional) > 1,
    "makes no first update for 15 bytes or fewer": lambda drbg, additional: len(additional) > 15,
    "makes the first update for 48 bytes alone": lambda drbg, additional: len(additional) == SEED,
    "makes no first update for 48 bytes": lambda drbg, additional: 0 < len(additional) < SEED,
    "takes zeros for no additional input": lambda drbg, additional: any(additional),
    "takes one zero byte for no additional input": lambda drbg, additional: additional not in (b"", b"\0"),
    "takes 48 zeros for no additional input": lambda drbg, additional: additional not in (b"", bytes(SEED)),
    "makes a first update with zeros for an empty additional input": lambda drbg, additional: True,
    "makes no first update": lambda drbg, additional: False,
}
LAST = {
    "has zeros in the second update where additional input was given": lambda drbg, additional: bytes(SEED),
    "has zeros in the second update for one byte": lambda drbg, a: bytes(SEED) if len(a) == 1 else padded(a),
    "has zeros in the second update for 47 bytes or fewer": lambda drbg, a: a if len(a) == SEED else bytes(SEED),
    "has zeros in the second update for 48 bytes": lambda drbg, a: bytes(SEED) if len(a) == SEED else padded(a),
}


def wrong_additional():
    yield from (wrong(text, is_given=given) for text, given in GIVEN.items())
    yield from (wrong(text, provided_last=last) for text, last in LAST.items())


# ---- what a seeding starts from and leaves


def starting(where, text, start):
    def started(drbg, place, state):
        return start(state) if place == where else Parts.start(drbg, place, state)

    return wrong(f"starts {where} from {text}", start=started)


def setting(where, text, counter):
    def set_to(drbg, place, state):
        return counter(state) % 2**64 if place == where else 1

    return wrong(f"{text} at {where}", set_to=set_to)


def wrong_seedings():
    yield starting("instantiate", "the old Key", lambda state: (state.key, bytes(BLOCK)))
    yield starting("instantiate", "the old V", lambda state: (bytes(KEY), state.v))
    yield starting("instantiate", "the old Key and V", lambda state: (state.key, state.v))
    yield starting("reseed", "a Key of zeros", lambda state: (bytes(KEY), state.v))
    yield starting("reseed", "a V of zeros", lambda state: (state.key, bytes(BLOCK)))
    yield starting("reseed", "zeros", lambda state: (bytes(KEY), bytes(BLOCK)))
    for where in SEEDINGS:
        yield setting(where, "keeps the reseed counter", lambda state: state.reseed_counter)
        yield setting(where, "adds 1 to the reseed counter", lambda state: state.reseed_counter + 1)
        yield setting(where, "sets the reseed counter to 0", lambda state: 0)
        yield setting(where, "sets the reseed counter to 2", lambda state: 2)


# ---- the output


def under(text, choose):
    """Output under another Key or from another V; choose takes the state before the call, Key and V."""

    def output(drbg, state, key, v, length):
        return Parts.output(drbg, state, *choose(state, key, v), length)

    return wrong(text, output=output)


def before_first_update(drbg, state, length, additional):
    out, v = drbg.output(state, state.key, state.v, length)
    key, v = drbg.prepared(additional, state.key, v)
    left = drbg.finished(state, drbg.provided_last(additional), key, v, length)
    return out, State(*left, state.reseed_counter + 1)


def after_second_update(drbg, state, length, additional):
    key, v = drbg.prepared(additional, state.key, state.v)
    key, v = drbg.finished(state, drbg.provided_last(additional), key, v, length)
    out, v = drbg.output(state, key, v, length)
    return out, State(key, v, state.reseed_counter + 1)


def v_after(text, choose):
    """Another V after the output; choose takes V before and after it, and the length."""

    def output(drbg, state, key, v, length):
        out, after = Parts.output(drbg, state, key, v, length)
        return out, choose(v, after, length)

    return wrong(text, output=output)


def one_block(drbg, place, key, v, length):
    """V steps once for all blocks of a loop."""
    after = drbg.step(v)
    return encrypt_blocks(key, after * -(-length // BLOCK)), after


def uncut(drbg, state, key, v, length):
    return drbg.looped("output", key, v, length)


def no_update_for_none(drbg, state, provided, key, v, length):
    return drbg.updated("second update", provided, key, v) if length else (key, v)


def under_old_key(drbg, state, provided, key, v, length):
    return drbg.updated("second update", provided, state.key, v)


def one_more(v):
    return as_v(number(v) + 1)


def one_less(v):
    return as_v(number(v) - 1)


V_AFTER = {
    "has the second update go on from V before the output": lambda v, after, length: v,
    "steps V once more after the output": lambda v, after, length: one_more(after),
    "steps V once less in the output": lambda v, after, length: one_less(after) if length else after,
    "steps V once more after whole blocks": lambda v, after, length: one_more(after) if length % BLOCK == 0 else after,
    "does not step V for the rest of a block": lambda v, after, length: one_less(after) if length % BLOCK else after,
    "steps V for 0 bytes": lambda v, after, length: after if length else one_more(after),
}


def wrong_output():
    yield under("makes the output under the old Key", lambda state, key, v: (state.key, v))
    yield under("makes the output from the old V", lambda state, key, v: (key, state.v))
    yield wrong("makes the output before the first update", generate_algorithm=before_first_update)
    yield wrong("makes the output after the second update", generate_algorithm=after_second_update)
    yield from (v_after(text, choose) for text, choose in V_AFTER.items())
    yield wrong("steps V once for all blocks", looped=one_block)
    yield wrong("does not cut the rest of the last block", output=uncut)
    yield wrong("makes no update for 0 bytes", finished=no_update_for_none)
    yield wrong("makes the second update under the old Key", finished=under_old_key)


# ---- the reseed counter of a request


GROWN = {
    "does not count requests": lambda drbg, counter, length: counter,
    "counts requests by 2": lambda drbg, counter, length: counter + 2,
    "counts blocks": lambda drbg, counter, length: counter + -(-length // BLOCK),
    "does not count a request of 0 bytes": lambda drbg, counter, length: counter + (length > 0),
    "counts from 1 at every request": lambda drbg, counter, length: 2,
    "counts in 16 bits": lambda drbg, counter, length: (counter + 1) % 2**16,
    "counts in 32 bits": lambda drbg, counter, length: (counter + 1) % 2**32,
    "counts in 48 bits": lambda drbg, counter, length: (counter + 1) % 2**48,
    "stops counting at 2^48": lambda drbg, counter, length: min(counter + 1, 2**48),
}


def wrong_counting():
    yield from (wrong(text, grown=grown) for text, grown in GROWN.items())


# ---- what is turned away


def right_refusals(call, drbg, *arguments):
    return getattr(CtrDrbg, f"{call}_refusals")(drbg, *arguments)


def judged(call, refusal, text, applies):
    """In one call another condition of a number; it takes the call's arguments."""

    def refusals(drbg, *arguments):
        found = right_refusals(call, drbg, *arguments)
        return [(n, applies(*arguments) if n == refusal else holds) for n, holds in found]

    return wrong(f"{text} at {call}", **{f"{call}_refusals": refusals})


ENTROPY = {
    "takes 47 bytes of entropy": lambda size: size not in (47, 48),
    "takes 49 bytes of entropy": lambda size: size not in (48, 49),
    "takes 32 bytes of entropy": lambda size: size not in (32, 48),
    "takes 0 bytes of entropy": lambda size: size not in (0, 48),
    "takes up to 48 bytes of entropy": lambda size: size > 48,
    "takes 48 bytes of entropy and more": lambda size: size < 48,
    "takes any entropy": lambda size: False,
    "refuses 48 bytes of entropy": lambda size: True,
    "sees the length of the entropy in one byte": lambda size: size % 2**8 != 48,
    "sees the length of the entropy in two bytes": lambda size: size % 2**16 != 48,
}
OTHER = {
    "takes 49 bytes of other input": lambda size: size > 49,
    "takes 64 bytes of other input": lambda size: size > 64,
    "takes any other input": lambda size: False,
    "refuses 48 bytes of other input": lambda size: size > 47,
    "refuses any other input": lambda size: size > 0,
    "refuses an empty other input": lambda size: not 0 < size <= 48,
    "sees the length of the other input in one byte": lambda size: size % 2**8 > 48,
    "sees the length of the other input in two bytes": lambda size: size % 2**16 > 48,
}


def wrong_lengths():
    for call in SEEDINGS:
        for text, bad in ENTROPY.items():
            yield judged(call, 40, text, lambda state, entropy, other, bad=bad: bad(len(entropy)))
    for call in CALLS:
        for text, bad in OTHER.items():
            yield judged(call, 41, text, lambda state, first, other, bad=bad: bad(len(other)))


LENGTHS = {
    "takes 65,537 bytes": lambda length: length > MOST_BYTES + 1,
    "takes a block above 65,536 bytes": lambda length: length > MOST_BYTES + BLOCK,
    "refuses 65,536 bytes": lambda length: length >= MOST_BYTES,
    "takes up to 4,096 bytes alone": lambda length: length > 4096,
    "takes 1,048,576 bytes": lambda length: length > 2**20,
    "takes any length": lambda length: False,
    "refuses 0 bytes": lambda length: not 0 < length <= MOST_BYTES,
    "sees the length in two bytes": lambda length: length % 2**16 > MOST_BYTES,
}
UNSEEDED = {
    "takes a state never seeded": lambda state: False,
    "takes a state never seeded with a Key that is not 0": lambda s: s.reseed_counter == 0 and not any(s.key),
    "takes a state never seeded with a V that is not 0": lambda s: s.reseed_counter == 0 and not any(s.v),
    "refuses a Key of zeros": lambda s: s.reseed_counter == 0 or not any(s.key),
    "refuses a V of zeros": lambda s: s.reseed_counter == 0 or not any(s.v),
    "refuses a Key and a V of zeros": lambda s: s.reseed_counter == 0 or not any(s.key + s.v),
    "sees the last 16 bits of the counter": lambda state: state.reseed_counter % 2**16 == 0,
    "sees the last 32 bits of the counter": lambda state: state.reseed_counter % 2**32 == 0,
    "refuses a reseed counter of 1": lambda state: state.reseed_counter <= 1,
}
SPENT = {
    "takes 2^48 + 1 requests": lambda counter: counter > INTERVAL + 1,
    "takes 2^48 - 1 requests alone": lambda counter: counter >= INTERVAL,
    "takes 2^32 requests alone": lambda counter: counter > 2**32,
    "takes any number of requests": lambda counter: False,
    "takes the counter for signed": lambda counter: counter - 2**64 * (counter >= 2**63) > INTERVAL,
    "sees the last 49 bits of the counter": lambda counter: counter % 2**49 > INTERVAL,
    "takes a counter of 2^64 - 1": lambda counter: INTERVAL < counter < 2**64 - 1,
}


def wrong_needs():
    for text, bad in LENGTHS.items():
        yield judged("generate", 14, text, lambda state, length, other, bad=bad: bad(length))
    for text, bad in UNSEEDED.items():
        yield judged("reseed", 42, text, lambda state, entropy, other, bad=bad: bad(state))
        yield judged("generate", 42, text, lambda state, length, other, bad=bad: bad(state) or RIGHT.spent(state))
    for text, bad in SPENT.items():
        yield judged("generate", 42, text, lambda s, n, other, bad=bad: s.reseed_counter == 0 or bad(s.reseed_counter))
    yield judged("reseed", 42, "looks for 2^48 requests", lambda s, e, o: RIGHT.never_seeded(s) or RIGHT.spent(s))


def also_refused(text, applies):
    """An instantiate that has a 42."""

    def refusals(drbg, state, *rest):
        return *right_refusals("instantiate", drbg, state, *rest), (42, applies(state))

    return wrong(text, instantiate_refusals=refusals)


def wrong_instantiates():
    yield also_refused("refuses to instantiate a seeded state", lambda state: state.reseed_counter > 0)
    yield also_refused("refuses to instantiate a state never seeded", lambda state: state.reseed_counter == 0)
    yield also_refused("refuses to instantiate a state of 2^48 requests", lambda state: state.reseed_counter > INTERVAL)
    yield also_refused("refuses to instantiate where Key or V is not 0", lambda state: any(state.key + state.v))


def swapped(call, a, b):
    """Two numbers change places in the order."""

    def refusals(drbg, *arguments):
        found = dict(right_refusals(call, drbg, *arguments))
        order = [{a: b, b: a}.get(n, n) for n in NUMBERS[call]]
        return [(n, found[n]) for n in order]

    return wrong(f"has {a} and {b} swapped at {call}", **{f"{call}_refusals": refusals})


def wrong_orders():
    for call, numbers in NUMBERS.items():
        yield from (swapped(call, a, b) for a, b in combinations(numbers, 2))


# ---- what a refused call leaves


LEAVES = {
    "counts": lambda state: state._replace(reseed_counter=(state.reseed_counter + 1) % 2**64),
    "empties the state": lambda state: NEW,
    "steps V": lambda state: state._replace(v=one_more(state.v)),
    "sets the reseed counter to 1": lambda state: state._replace(reseed_counter=1),
}


def leaving(call, refusal, text, leave):
    def refusing(drbg, state, *arguments):
        found = getattr(CtrDrbg, call)(drbg, state, *arguments)
        return found._replace(next=leave(state)) if found.number == refusal else found

    return wrong(f"{text} where {refusal} turns {call} away", **{call: refusing})


def renumbered(call, refusal, other):
    def refusing(drbg, state, *arguments):
        found = getattr(CtrDrbg, call)(drbg, state, *arguments)
        return found._replace(number=other) if found.number == refusal else found

    return wrong(f"gives {other} for {refusal} at {call}", **{call: refusing})


def zeroed(drbg, state, length, additional):
    found = CtrDrbg.generate(drbg, state, length, additional)
    return Answer(found.number, bytes(length), found.next) if found.number else found


def wrong_refused():
    for call, numbers in NUMBERS.items():
        for refusal in numbers:
            yield from (leaving(call, refusal, text, leave) for text, leave in LEAVES.items())
            yield from (renumbered(call, refusal, n) for n in (0, 14, 40, 41, 42) if n != refusal)
    yield wrong("gives zeros where a request is refused", generate=zeroed)


FAMILIES = {
    "step V wrong": wrong_steps,
    "lose a carry of V, or let one pass a byte": wrong_carries,
    "lose a carry, or do not wrap, at one place alone": wrong_carries_at_places,
    "lose a carry at every second block": wrong_carries_by_twos,
    "update wrong": wrong_updates,
    "fill inputs up wrong": wrong_filling,
    "mix the inputs of a seeding wrong": wrong_mixing,
    "take additional input of a request wrong": wrong_additional,
    "seed from something else, or leave another counter": wrong_seedings,
    "make the output wrong": wrong_output,
    "count requests wrong": wrong_counting,
    "have a wrong length of an input": wrong_lengths,
    "have a wrong length of a request, or a wrong 42": wrong_needs,
    "refuse to instantiate": wrong_instantiates,
    "have the numbers in another order": wrong_orders,
    "leave or give something else where a call is refused": wrong_refused,
}
WRONG = {text: list(make()) for text, make in FAMILIES.items()}
