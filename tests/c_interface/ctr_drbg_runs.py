#!/usr/bin/env python3
"""Scripts of calls of CTR_DRBG (ctr_drbg_script.py, beside this), their answers by tests/independent/ctr_drbg.py, and
vectors of NIST.

    ctr_drbg_runs.py --write DIRECTORY     writes the stored scripts and their answers; the vectors it leaves
    ctr_drbg_runs.py --check DIRECTORY     makes them again, works the vectors out, and exits 1 at a difference
    ctr_drbg_runs.py --against PROGRAM [--seconds S] [--seed N]
                                           the vectors and the stored scripts to ctr_drbg.c, beside this, then random
                                           ones for S seconds, and on until all that must occur has come
    ctr_drbg_runs.py --libcrypto [--seconds S] [--seed N]
                                           the calls of the stored scripts that are not refused, then random ones, to
                                           libcrypto's CTR_DRBG, where there is a libcrypto 3
    ctr_drbg_runs.py --self-test           wrong versions (wrong_ctr_drbg.py, beside this), each of which a stored
                                           script must tell from the right one

Nothing in the stored scripts comes from chance. In the vectors V never carries past its last two bytes, so that a
counter of 16 bits gives them all. The scripts have states with V before each carry, in the output's blocks and in the
updates'."""
import argparse
import random
import sys
import time
from collections import Counter, namedtuple
from functools import partial
from pathlib import Path

sys.path += [str(Path(__file__).resolve().parents[1] / folder) for folder in ("independent", "bench")]

import ctr_drbg_script as script
import evp_rand
import fuzz
from aes256 import xor
from ctr_drbg import BLOCK, INTERVAL, KEY, MOST_BYTES, NEW, SEED, CtrDrbg, State, entropy_for
from frames import Noise, log_of
from logs import check_files, write_files
from program import Failure, compare, run
from wrong_ctr_drbg import WRONG, Parts

VECTORS = Path(__file__).parent / "ctr_drbg" / "vectors.rsp"
CARRIES = range(8, 129, 8)  # a carry leaves so many bits of V; that of all 128 is the wrap to 0
BESIDE = (0, 1, 15, 16, 17, 31, 32, 33, 47, 48)  # lengths about blocks, and about Key, V and both
TOO_LONG = (49, 64, 96, 256, 304, 65536, 65584)  # 48 and less where a length is seen in one or two bytes
STRIDE = 40  # the self-test goes through the scripts' parts so, and comes to each kind soon
COUNTERS = (
    *(0, 1, 2, 255, 256, 2**16 - 1, 2**16, 2**31 - 1, 2**31, 2**32 - 2, 2**32 - 1, 2**32, 2**32 + 1),
    *(INTERVAL - 1, INTERVAL, INTERVAL + 1, INTERVAL + 2, 2**49, 2**63 - 1, 2**63, 2**64 - 2, 2**64 - 1),
)


def answers_to(lines):
    return b"".join(script.answers(lines))


# ---- the stored scripts


def seeded(noise, counter=5):
    """Any state."""
    return State(noise.take(KEY), noise.take(BLOCK), counter)


def first_calls(noise):
    """On a state never seeded, a seeding, and calls after it."""
    entropy = noise.take(SEED)
    yield from (script.new(), script.generate(16), script.generate(0), script.reseed(entropy))
    yield from (script.generate(16, noise.take(SEED)), script.reseed(entropy, noise.take(9)))
    yield from (script.instantiate(entropy), script.generate(16), script.generate(16), script.reseed(entropy))
    yield from (script.generate(16), script.generate(0), script.generate(0, b"\0"), script.generate(16, b"\0"))
    yield from (script.instantiate(entropy), script.generate(16))


def entropies(noise):
    """Lengths of the entropy input at both seedings, each on a state of its own."""
    kept = seeded(noise)
    for make in (script.instantiate, script.reseed):
        for size in (0, 1, 16, 32, 47, 49, 64, 96, 304, 65584):
            yield from (script.state(kept), make(b"\x5c" * size), make(b"\x5c" * size, noise.take(7)))
        for entropy in (bytes(SEED), b"\xff" * SEED, noise.take(SEED)):
            yield from (script.state(kept), make(entropy))


def others(noise):
    """Lengths of personalization and additional input at all calls."""
    kept = seeded(noise)
    for data in map(noise.take, BESIDE):
        yield from (script.new(), script.instantiate(noise.take(SEED), data))
        yield from (script.state(kept), script.reseed(noise.take(SEED), data))
        yield from (script.state(kept), script.generate(20, data))
    for data in (bytes(1), bytes(SEED), b"\xff" * SEED):
        yield from (script.instantiate(noise.take(SEED), data), script.reseed(noise.take(SEED), data))
        yield from (script.generate(0, data), script.generate(20, data))
    for data in (b"\x3a" * size for size in TOO_LONG):
        yield from (script.instantiate(b"\x5c" * SEED, data), script.reseed(b"\x5c" * SEED, data))
        yield script.generate(20, data)


def any_old_state(noise):
    """An instantiate reads nothing of the state."""
    entropy, personalization = noise.take(SEED), noise.take(20)
    ones = State(b"\xff" * KEY, b"\xff" * BLOCK, 2**64 - 1)
    for kept in (NEW, ones, seeded(noise), seeded(noise, 0), seeded(noise, INTERVAL + 1)):
        yield from (script.state(kept), script.instantiate(entropy, personalization))


def lengths(noise):
    """Lengths of requests, without additional input, with one byte of it and with 48."""
    kept = seeded(noise)
    for size in (*BESIDE, 49, 63, 64, 65, 127, 128, 129, 255, 256, 257, 4096, 4097):
        for additional in (b"", b"\x71", noise.take(SEED)):
            yield from (script.state(kept), script.generate(size, additional))
    for size in (MOST_BYTES - 1, MOST_BYTES):
        yield from (script.state(kept), script.generate(size), script.generate(size, noise.take(5)))
    for size in (MOST_BYTES + 1, MOST_BYTES + BLOCK, MOST_BYTES + BLOCK + 1, 2 * MOST_BYTES, 2**20, 2**20 + 1):
        yield from (script.generate(size), script.generate(size, b"\0"))


def counters(noise):
    """Each call at the bounds of the reseed counter; a Key or a V of zeros says nothing of seeding."""
    for counter in COUNTERS:
        yield from (script.state(seeded(noise, counter)), script.generate(5), script.generate(0))
        yield from (script.generate(5, b"\x71"), script.state(seeded(noise, counter)), script.reseed(noise.take(SEED)))
    kept = seeded(noise)
    for odd in (kept._replace(key=NEW.key), kept._replace(v=NEW.v), NEW):
        for counter in (0, 1, INTERVAL + 1):
            yield from (script.state(odd._replace(reseed_counter=counter)), script.generate(5))
            yield script.reseed(noise.take(SEED))


def orders(noise):
    """Each two numbers of a call at once, and all."""
    good, long = b"\x5c" * SEED, b"\x3a" * 49
    never, full = seeded(noise, 0), seeded(noise, INTERVAL + 1)
    yield from (script.state(never), script.instantiate(good[1:], long), script.instantiate(good + b"\0", long))
    yield from (script.reseed(good[1:], long), script.reseed(good[1:]), script.reseed(good, long), script.reseed(good))
    for kept in (never, full):
        yield script.state(kept)
        yield from (script.generate(size, data) for size in (MOST_BYTES, MOST_BYTES + 1) for data in (b"", long))
    yield from (script.state(seeded(noise)), script.reseed(good[1:], long), script.generate(MOST_BYTES + 1, long))


def before_carry(bits, steps):
    """A V of which just the last so many bits carry at this step."""
    front = b"\x61" * (BLOCK - bits // 8)
    return front + (2**bits - steps).to_bytes(bits // 8, "big")


def carries(noise):
    """V before each carry, at each block of an output of three and of an update's three."""
    key = noise.take(1) * KEY
    for bits in CARRIES:
        for steps in range(1, 7):  # three in the output, three in the update behind it
            yield from (script.state(State(key, before_carry(bits, steps), 1)), script.generate(48))
        for steps in range(1, 4):
            kept = State(key, before_carry(bits, steps), 1)
            yield from (script.state(kept), script.reseed(b"\x5c" * SEED))
            yield from (script.state(kept), script.generate(1, b"\x71"))


def brought_to(kept, v):
    """The additional input whose first update leaves this V."""
    _, old = CtrDrbg().update(bytes(SEED), kept.key, kept.v)
    return bytes(KEY) + xor(old, v)


def carries_by_calls(noise):
    """V before a carry by an instantiate, a reseed and a first update, so that no state is set by hand."""
    drbg = CtrDrbg()
    for bits in (8, 16, 32, 64, 96, 128):
        entropy = entropy_for(noise.take(KEY), before_carry(bits, 2))
        yield from (script.new(), script.instantiate(entropy), script.generate(48))
        kept = drbg.generate(drbg.instantiate(NEW, entropy, b"").next, 48, b"").next
        additional = brought_to(kept, before_carry(bits, 1))
        yield from (script.reseed(bytes(SEED), additional), script.generate(48))
        kept = drbg.generate(drbg.reseed(kept, bytes(SEED), additional).next, 48, b"").next
        for steps in (2, 5):
            additional = brought_to(kept, before_carry(bits, steps))
            yield script.generate(48, additional)
            kept = drbg.generate(kept, 48, additional).next


def long_requests(noise):
    """V before a carry late in the longest request, and in the update behind it; the bytes are told by a digest."""
    for bits in (16, 32, 64, 96, 128):
        for steps in (MOST_BYTES // BLOCK, MOST_BYTES // BLOCK + 2):
            kept = State(noise.take(KEY), before_carry(bits, steps), INTERVAL)
            yield from (script.state(kept), script.generate(MOST_BYTES))


def runs(noise):
    """Calls of all kinds one after another, refused ones among them, as a station might make them."""
    for _ in range(4):
        yield script.instantiate(noise.take(SEED), noise.take(noise.below(SEED + 1)))
        for _ in range(14):
            other = noise.take(noise.below(50)) if noise.below(2) else b""
            if noise.below(4) == 0:
                yield script.reseed(noise.take(SEED - (noise.below(4) == 0)), other)
            else:
                yield script.generate(noise.below(70) if noise.below(9) else MOST_BYTES + 1, other)


MADE = (
    *(first_calls, orders, counters, entropies, others, any_old_state, carries, carries_by_calls, runs),
    *(lengths, long_requests),
)
SCRIPTS = {make.__name__: make for make in MADE}


def stored():
    """Names and scripts."""
    return {name: log_of(make(Noise(f"CTR_DRBG {name}"))) for name, make in SCRIPTS.items()}


def files():
    """File names and contents; the vectors as they are."""
    made = {VECTORS.name: VECTORS.read_bytes()}
    for name, lines in stored().items():
        made |= {f"{name}.script": lines, f"{name}.answers": answers_to(lines)}
    return made


# ---- the vectors

Vector = namedtuple("Vector", "line script given")  # its line in the file, its calls, and the bytes of the last one


def calls_of(kind, words):
    """The calls of a vector. With prediction resistance a request reseeds first, with its additional input, and has
    none afterwards (SP 800-90A, 9.3.1, step 7)."""
    yield script.instantiate(*words[:2])
    if kind == "prediction resistance":
        for entropy, additional in (words[2:4], words[4:6]):
            yield from (script.reseed(entropy, additional), script.generate(64))
    else:
        if kind == "reseed":
            yield script.reseed(*words[2:4])
        yield from (script.generate(64, additional) for additional in words[-2:])


def vectors():
    kind = None
    for n, line in enumerate(VECTORS.read_text().splitlines(), 1):
        if line.startswith("["):
            kind = line.strip("[]")
        elif line and not line.startswith("#"):
            *words, given = map(script.bytes_of, line.encode().split(b" "))
            yield Vector(n, list(calls_of(kind, words)), given)


def check_vectors(ask):
    """Holds the answers to the vectors; ask gives the answers to a script."""
    known = list(vectors())
    answers = ask(log_of(line for vector in known for line in vector.script)).splitlines()
    if len(answers) != sum(len(vector.script) for vector in known):
        raise Failure(f"{len(answers)} answers came to the calls of {VECTORS.name}")
    done = 0
    for vector in known:
        done += len(vector.script)
        number, given = answers[done - 1].split(b" ")[:2]
        if (number, given) != (b"0", script.digits(vector.given)):
            raise Failure(f"{VECTORS.name}, line {vector.line}: not the vector's bytes")
    print(f"pass  {len(known)} vectors of NIST's CAVP, in {len(answers)} calls")


# ---- random scripts


class Noting(CtrDrbg):
    """Notes in `occurred` which carries V comes to, and where."""

    occurred = Counter()
    place = "the output"

    def update(self, *arguments):
        self.place = "an update"
        left = super().update(*arguments)
        self.place = "the output"
        return left

    def blocks(self, key, v, length):
        start, steps = int.from_bytes(v, "big"), -(-length // BLOCK)
        carried = [bits for bits in CARRIES if start % 2**bits + steps >= 2**bits]
        if carried:
            self.occurred[f"{carried[-1]} bits carried in {self.place}"] += 1
        return super().blocks(key, v, length)


def any_other(r):
    """A personalization or additional input, seldom too long."""
    size = r.choices((0, 1, 47, SEED, r.randrange(SEED), 49, r.randrange(49, 400)), (9, 3, 2, 4, 6, 1, 1))[0]
    return r.choices((r.randbytes(size), bytes(size)), (4, 1))[0]


def any_entropy(r):
    size = r.choices((SEED, 47, 49, r.randrange(SEED), r.randrange(SEED, 400)), (24, 1, 1, 1, 1))[0]
    return r.choices((r.randbytes(size), bytes(size)), (9, 1))[0]


def any_length(r):
    near = r.choice((MOST_BYTES - 1, MOST_BYTES, MOST_BYTES, MOST_BYTES + 1, MOST_BYTES + BLOCK))
    return r.choices((0, r.randrange(1, 100), r.randrange(2000), near, 2**20), (3, 30, 5, 1, 0.1))[0]


def any_state(r):
    """Usually with V some steps before a carry, sometimes with a reseed counter at a bound."""
    bits = r.choice(CARRIES)
    near = ((r.getrandbits(128) >> bits << bits) + 2**bits - r.randrange(1, 8)) % 2**128
    v = r.choices((near, r.getrandbits(128), 0), (8, 1, 1))[0]
    counter = r.choices((1, r.choice(COUNTERS), r.getrandbits(64)), (8, 2, 1))[0]
    return State(r.randbytes(KEY), v.to_bytes(BLOCK, "big"), counter)


def any_call(r):
    """A line."""
    kind = r.random()
    if kind < 0.15:
        return script.instantiate(any_entropy(r), any_other(r))
    return script.reseed(any_entropy(r), any_other(r)) if kind < 0.3 else script.generate(any_length(r), any_other(r))


class Writer:
    """Writes one script, and counts in `occurred` what its answers are."""

    occurred = Noting.occurred

    def __init__(self, chance):
        self.chance = chance
        self.drbg, self.kept = Noting(), NEW

    def note(self, name, first, found):
        why = ""
        if name == "generate" and found.number == 42:
            why = ", " + ("2^48 requests made" if self.kept.reseed_counter else "never seeded")
        elif name == "generate" and found.number == 0 and first in (0, MOST_BYTES):
            why = f", {first} bytes"
        self.occurred[f"{name} {found.number}{why}"] += 1

    def line(self):
        kind = self.chance.random()
        if kind < 0.3:
            self.kept = NEW if kind < 0.01 else any_state(self.chance)
            return script.state(self.kept)
        line = any_call(self.chance)
        name, *arguments = script.call_of(line)
        found = getattr(self.drbg, name)(self.kept, *arguments)
        self.note(name, arguments[0], found)
        self.kept = found.next
        return line

    def log(self):
        return log_of(self.line() for _ in range(60))


MUST_OCCUR = {
    *("instantiate 0", "instantiate 40", "instantiate 41", "reseed 0", "reseed 40", "reseed 41", "reseed 42"),
    *("generate 0", "generate 0, 0 bytes", f"generate 0, {MOST_BYTES} bytes", "generate 14", "generate 41"),
    *("generate 42, never seeded", "generate 42, 2^48 requests made"),
    *(f"{bits} bits carried in {place}" for bits in CARRIES for place in ("the output", "an update")),
}


def against(program, seconds, seed):
    ask = partial(run, program)
    check_vectors(ask)
    for lines in stored().values():
        compare(lines, answers_to(lines), ask(lines))
    return fuzz.fuzz(program, seconds, seed, Writer, answers_to, MUST_OCCUR)


# ---- libcrypto


class Beside:
    """libcrypto beside tests/independent/ctr_drbg.py. It can be set to no state. But the entropy input of an
    instantiate decides which Key and V it leaves, and can be chosen for any, so that it is brought to a script's."""

    def __init__(self, library):
        self.library, self.drbg = library, CtrDrbg()
        self.tally = Counter()

    def bring(self, kept):
        self.library.instantiate(entropy_for(kept.key, kept.v), b"")

    def made(self, name, first, found):
        """Whether libcrypto can make the call too: it was not refused, and is no request of 0 bytes."""
        return found.number == 0 and (name, first) != ("generate", 0)

    def call(self, kept, name, first, other):
        """Makes a call that is not refused, compares its bytes, and gives the next state."""
        found = getattr(self.drbg, name)(kept, first, other)
        given = getattr(self.library, name)(first, other)
        if name == "generate" and given != found.out:
            raise Failure(f"{kept}, {first} bytes, additional input {other.hex() or 'none'}: libcrypto's are others")
        return found.next

    def script(self, lines):
        """Each call by itself, from its state; behind it a request of 48 bytes shows what Key and V it left."""
        kept = NEW
        for line in lines.splitlines():
            set_to = script.state_of(line)
            if set_to is not None:
                kept = set_to
                continue
            name, first, other = script.call_of(line)
            found = getattr(self.drbg, name)(kept, first, other)
            if self.made(name, first, found):
                self.bring(kept)
                left = self.call(kept, name, first, other)
                self.call(left._replace(reseed_counter=1), "generate", SEED, b"")
                self.tally["stored"] += 1
            kept = found.next

    def run(self, chance):
        """Random calls on one state, each on what the last one left, with a request behind them."""
        kept = any_state(chance)._replace(reseed_counter=1)
        self.bring(kept)
        for _ in range(chance.choice((3, 10, 100))):
            name, first, other = script.call_of(any_call(chance))
            if self.made(name, first, getattr(self.drbg, name)(kept, first, other)):
                kept = self.call(kept, name, first, other)
                self.tally[name] += 1
        self.call(kept, "generate", SEED, b"")


def beside_libcrypto(seconds, seed):
    try:
        library = evp_rand.EvpRand()
    except evp_rand.Missing as why:
        print(f"left out: CTR_DRBG beside libcrypto 3 ({why})")
        return 0
    beside, chance = Beside(library), random.Random(seed)
    for lines in stored().values():
        beside.script(lines)
    end = time.monotonic() + seconds
    while time.monotonic() < end or len(beside.tally) < 4:
        beside.run(chance)
    stored_calls = beside.tally.pop("stored")
    random_calls = ", ".join(f"{name} {times}" for name, times in sorted(beside.tally.items()))
    print(f"pass  the same by {library.version()}: {stored_calls} stored calls; at random {random_calls}")
    return 0


# ---- wrong versions


def cases():
    """The stored scripts in parts that each begin where the state is set, with where that is and the right answers."""
    for name, lines in stored().items():
        part, begin = [], 1
        for n, line in enumerate(lines.splitlines(), 1):
            if part and script.state_of(line) is not None:
                yield f"{name}.script, line {begin}", log_of(part)
                part, begin = [], n
            part.append(line)
        yield f"{name}.script, line {begin}", log_of(part)


def place_told(version, known):
    """The first part of a stored script that tells a version; None where there is none."""
    for place, lines, right in known:
        if any(a != b for a, b in zip(right, script.answers(lines, version))):
            return place
    return None


def told(versions, known):
    """Whether all are told, with how many are and which are not."""
    places = [place_told(version, known) for version in versions]
    untold = "".join(f"; not one that {v.__doc__}" for v, place in zip(versions, places) if place is None)
    return not untold, f"{len(places) - places.count(None)} of {len(places)} told{untold}"


def self_test():
    known = [(place, lines, list(script.answers(lines))) for place, lines in cases()]
    known = [case for start in range(STRIDE) for case in known[start::STRIDE]]
    place = place_told(Parts, known)
    failed = place is not None
    print(f"{'FAIL' if failed else 'pass'}  the right one, in parts: {place or 'not told'}")
    for text, versions in WRONG.items():
        holds, found = told(versions, known)
        failed |= not holds
        print(f"{'pass' if holds else 'FAIL'}  those that {text}: {found}")
    return 1 if failed else 0


# ---- modes


def parsed():
    parser = argparse.ArgumentParser(description=__doc__, formatter_class=argparse.RawDescriptionHelpFormatter)
    modes = parser.add_mutually_exclusive_group(required=True)
    modes.add_argument("--write", type=Path, metavar="DIRECTORY")
    modes.add_argument("--check", type=Path, metavar="DIRECTORY")
    modes.add_argument("--against", metavar="PROGRAM")
    modes.add_argument("--libcrypto", action="store_true")
    modes.add_argument("--self-test", action="store_true")
    parser.add_argument("--seconds", type=float, default=15)
    parser.add_argument("--seed", type=int, default=random.randrange(2**32))
    return parser.parse_args()


def compared(chosen):
    print(f"seed {chosen.seed}", flush=True)
    if chosen.against:
        return against(chosen.against, chosen.seconds, chosen.seed)
    return beside_libcrypto(chosen.seconds, chosen.seed)


def main():
    chosen = parsed()
    try:
        if chosen.against or chosen.libcrypto:
            return compared(chosen)
        if chosen.self_test:
            return self_test()
        if chosen.check:
            check_vectors(answers_to)
            return check_files(chosen.check, files(), "tests/c_interface/ctr_drbg_runs.py")
    except Failure as why:
        print(f"FAIL  {why}")
        return 1
    write_files(chosen.write, files())
    return 0


if __name__ == "__main__":
    sys.exit(main())
