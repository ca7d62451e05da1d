#!/usr/bin/env python3
"""SHA-256 and D of the library, held to tests/independent/sha256.py and to Python's hashlib.

    hashes.py --against PROGRAM [--seconds S] [--seed N]
                                           chosen cases to hashes.c, beside this, then random ones for S seconds, and
                                           some however slow the machine is
    hashes.py --self-test                  wrong versions of the hash (wrong_hashes.py, beside this), each of which a
                                           chosen case must tell from the right one

A case is a message, of which SHA-256 and D must come, or an event that comes to a pool of any running hash. The tail of
such a pool and the event's source can make any block together, so that an event shows the compression of any block from
any hash value. Nothing in the chosen cases comes from chance. They bring the sum of a round's constant and its word to
each side of where it wraps and of where a sign would change, in each round; the self-test sees to it."""
import argparse
import hashlib
import random
import sys
import time
from collections import Counter, namedtuple
from functools import partial
from itertools import product
from pathlib import Path

sys.path += [str(Path(__file__).resolve().parents[1] / folder) for folder in ("independent", "bench")]

from frames import MOST_DATA, Noise, log_of
from program import Failure, run, shortened
from sha256 import INITIAL, K, MASK, compress, compress_prepared, finish, prepared, sigma0, sigma1
from wrong_hashes import RIGHT, SUMS, WRONG, ZEROS, at_sum

BLOCK = 64
POOLS = 32
MOST_BLOCKS = 2**55 - 3  # whole blocks of a pool that has room for any event
LONGEST = 1024  # of the messages about whole blocks
TWO_BYTES = 2**16 // 8  # from so many bytes on a length in bits takes more than two
FEWEST = 10  # logs of random cases
CASES = 100  # of a random log
STRIDE = 500  # the self-test goes through the chosen cases so, and comes to each kind soon

Message = namedtuple("Message", "data")
Event = namedtuple("Event", "pool chain tail blocks source data")  # tail: the bytes after so many whole blocks


def chain_of(data):
    return [int.from_bytes(data[i : i + 4], "big") for i in range(0, 32, 4)]


def gained(event):
    """What the pool gains."""
    return event.source.to_bytes(2, "little") + bytes([len(event.data)]) + event.data


def pool_hex(chain, tail, length):
    parts = b"".join(x.to_bytes(4, "big") for x in chain), tail.ljust(BLOCK, b"\0"), length.to_bytes(8, "big")
    return " ".join(part.hex() for part in parts)


def line(case):
    if isinstance(case, Message):
        return f"message {case.data.hex()}".encode()
    pool = pool_hex(case.chain, case.tail, BLOCK * case.blocks + len(case.tail))
    return f"event {case.pool:02x} {pool} {case.source:04x} {case.data.hex()}".encode()


def answer(by, case):
    """What must come, by a version of the hash."""
    if isinstance(case, Message):
        return f"{by.sha256(case.data).hex()} {by.sha_d256(case.data).hex()}".encode()
    chain, waiting = case.chain, case.tail + gained(case)
    length = BLOCK * case.blocks + len(waiting)
    if len(waiting) >= BLOCK:  # and never twice as many
        chain, waiting = by.compress(chain, waiting[:BLOCK]), waiting[BLOCK:]
    return pool_hex(chain, waiting, length).encode()


class Standard:
    """By sha256.py in the standard's form. What hashlib can work out it must give too."""

    compress = staticmethod(compress)

    @staticmethod
    def sha256(message):
        digest = finish(INITIAL, message, len(message))
        if digest != hashlib.sha256(message).digest():
            raise Failure(f"hashlib and sha256.py differ on {shortened(message.hex().encode())}")
        return digest

    @staticmethod
    def sha_d256(message):
        return Standard.sha256(Standard.sha256(ZEROS + message))


# ---- blocks


def block_with(words, start):
    """The block whose schedule has these 16 words from this place on: its recurrence, run backwards."""
    w = list(words)
    for _ in range(start):
        w.insert(0, (w[15] - sigma1(w[13]) - w[8] - sigma0(w[0])) & MASK)
    return b"".join(x.to_bytes(4, "big") for x in w[:16])


def block_of_sums(sums, start):
    """The block for which constant and word have these 16 sums, modulo 2^32, from this round on."""
    return block_with([(total - K[start + i]) & MASK for i, total in enumerate(sums)], start)


def alike():
    """Each byte over and over, 00 and FF among them."""
    return [bytes([byte]) * BLOCK for byte in range(256)]


def single_bits(size):
    return [(1 << bit).to_bytes(size, "little") for bit in range(8 * size)]


def one_sum(noise):
    """Each sum in each round, among others that are usual."""
    for t in range(64):
        start = max(t - 15, 0)
        for total in SUMS:
            sums = [noise.below(2**32) for _ in range(16)]
            sums[t - start] = total
            yield block_of_sums(sums, start)


def equal_sums():
    """Each sum in 16 rounds, one after the other."""
    return [block_of_sums([total] * 16, start) for start in (0, 16, 32, 48) for total in SUMS]


def compression(chain, block, noise):
    """An event that has a pool compress this block. The source begins at the last byte but one, or at the last."""
    tail = block[: 62 + noise.below(2)]
    source = (block[len(tail) :] + noise.take(1))[:2]
    data = noise.take(1 + noise.below(MOST_DATA))
    blocks = (1, 2, MOST_BLOCKS)[noise.below(3)]
    return Event(noise.below(POOLS), chain, tail, blocks, int.from_bytes(source, "little"), data)


# ---- the chosen cases


def hard_blocks(noise):
    """Each from a usual hash value, and as a message: from the initial one and from the one after D's zeros."""
    for block in (*one_sum(noise), *equal_sums(), *alike(), *single_bits(BLOCK)):
        yield compression(chain_of(noise.take(32)), block, noise)
        yield Message(block)


def hard_chains(noise):
    equal = [[word] * 8 for word in (0, 1, 2**31 - 1, 2**31, MASK)]
    for chain in (*equal, INITIAL, *map(chain_of, single_bits(32))):
        for block in (ZEROS, b"\xff" * BLOCK, noise.take(BLOCK)):
            yield compression(chain, block, noise)


def hard_lengths(noise):
    """The longest first, so that the self-test comes to them soon."""
    near = [whole + more for whole in range(BLOCK, LONGEST + 1, BLOCK) for more in range(-10, 3)]
    for length in (TWO_BYTES - 1, TWO_BYTES, *range(131), *near):
        yield Message(noise.take(length))


def hard_tails(noise):
    """Each tail with the least and the most data: events that just don't complete a block, and that just do, too."""
    for size in range(BLOCK):
        for length in sorted({1, MOST_DATA, *range(max(59 - size, 1), min(63 - size, MOST_DATA) + 1)}):
            pool = noise.below(POOLS), chain_of(noise.take(32)), noise.take(size), 1 + noise.below(3)
            yield Event(*pool, noise.source(), noise.take(length))


def chosen():
    """Lists of cases."""
    return [list(make(Noise(make.__name__))) for make in (hard_blocks, hard_chains, hard_lengths, hard_tails)]


# ---- random cases


def any_block(chance):
    """Any, or one with 16 hard sums in a row, from any round on."""
    sums = [chance.choice((*SUMS, chance.getrandbits(32))) for _ in range(16)]
    return chance.choice((chance.randbytes(BLOCK), block_of_sums(sums, chance.randrange(49))))


def any_message(chance):
    blocks = b"".join(any_block(chance) for _ in range(chance.choice((1, 2, 3, 20))))
    return Message(blocks[: len(blocks) - chance.choice((0, 8, 9, chance.randrange(BLOCK)))])


def any_event(chance):
    """One that has a pool compress a block, or one that comes to any tail."""
    noise = Noise(f"event {chance.getrandbits(64)}")
    event = compression(chain_of(chance.randbytes(32)), any_block(chance), noise)
    return chance.choice((event, event._replace(tail=event.tail[: chance.randrange(BLOCK)])))


def any_case(chance):
    return chance.choice((any_message, any_event))(chance)


# ---- comparing


def difference(case, expected, found):
    """What of an answer first differs; None where nothing does."""
    if expected == found:
        return None
    names = ("SHA-256", "D") if isinstance(case, Message) else ("hash value", "tail", "length")
    for name, a, b in zip(names, expected.split(b" "), found.split(b" ")):
        if a != b:
            return f"{name}: expected {a.decode()}, found {b.decode(errors='replace')}"
    return f"expected {shortened(expected)}, found {shortened(found)}"


def compare(ask, cases, tally):
    """ask gives the answers to lines."""
    found = ask(log_of(map(line, cases))).split(b"\n")[:-1]
    if len(found) != len(cases):
        raise Failure(f"{len(cases)} lines, and {len(found)} answers came")
    for case, given in zip(cases, found):
        if why := difference(case, answer(Standard, case), given):
            raise Failure(f"{shortened(line(case))}, {why}")
        tally[type(case)] += 1


def against(program, seconds, seed):
    print(f"seed {seed}", flush=True)
    ask = partial(run, program)
    chance = random.Random(seed)
    tally = Counter()
    end = time.monotonic() + seconds
    logs = 0
    try:
        for cases in chosen():
            compare(ask, cases, tally)
        while logs < FEWEST or time.monotonic() < end:
            compare(ask, [any_case(chance) for _ in range(CASES)], tally)
            logs += 1
    except Failure as why:
        print(f"FAIL  {why}")
        return 1
    came = f"{tally[Message]} messages and {tally[Event]} events"
    print(f"pass  {came}: by the library and sha256.py the same, the messages by hashlib too")
    return 0


# ---- wrong versions

# What a comparison must name first: a version, the cases, the part of the answer.
NAMED = (
    ("rotate left", hard_lengths, "SHA-256"),
    ("have D wrong", hard_lengths, "D"),
    ("rotate left", hard_chains, "hash value"),
)


def place_told(version, cases):
    """The first case that tells a version; None where there is none."""
    return next((n for n, (case, expected) in enumerate(cases, 1) if answer(version, case) != expected), None)


def blocks_of(cases):
    """The blocks that events complete, each with the hash value before."""
    waiting = [(case.chain, case.tail + gained(case)) for case in cases if isinstance(case, Event)]
    return [(chain, data[:BLOCK]) for chain, data in waiting if len(data) >= BLOCK]


def untold_sums(blocks):
    """The rounds and sums for which no block tells a version that is wrong at this sum in this round alone."""
    come = {(t, x): given for given in blocks for t, x in enumerate(prepared(given[1]))}
    for t, total in product(range(64), SUMS):
        given = come.get((t, total & MASK))
        if given is None or at_sum(total, [t]).compress(*given) == compress(*given):
            yield f"round {t}, {total:x}"


def named(title, make, what):
    """Whether a comparison with a wrong version fails, and says what of the answer is wrong."""
    cases = list(make(Noise(title)))
    try:
        compare(lambda lines: log_of(answer(WRONG[title][0], case) for case in cases), cases, Counter())
    except Failure as why:
        return f", {what}: expected" in str(why)
    return False


def told(versions, cases):
    """Whether all are told, with how many are and which are not."""
    places = [place_told(version, cases) for version in versions]
    last = max((place for place in places if place), default="none")
    untold = "".join(f"; not one that {v.text}" for v, place in zip(versions, places) if place is None)
    return not untold, f"{len(places) - places.count(None)} of {len(places)} told, the last by case {last}{untold}"


def findings():
    """What must hold, with what was found."""
    cases = [case for group in chosen() for case in group]
    blocks = blocks_of(cases)
    untold = ", ".join(untold_sums(blocks))
    yield not untold, f"each sum in each round by itself, in {len(blocks)} blocks, told but for {untold or 'none'}"
    same = all(compress(*given) == compress_prepared(*given) for given in blocks)
    yield same, "sha256.py on these blocks, by prepared words and as the standard has it: the same"
    cases = [(case, answer(Standard, case)) for start in range(STRIDE) for case in cases[start::STRIDE]]
    place = place_told(RIGHT, cases)
    yield place is None, f"the right one, in {len(cases)} cases: {f'told by case {place}' if place else 'not told'}"
    for title, make, what in NAMED:
        yield named(title, make, what), f"of those that {title} one: its {what} named"
    for title, versions in WRONG.items():
        holds, found = told(versions, cases)
        yield holds, f"those that {title}: {found}"


def self_test():
    failed = False
    try:
        for holds, what in findings():
            failed |= not holds
            print(f"{'pass' if holds else 'FAIL'}  {what}")
    except Failure as why:
        print(f"FAIL  {why}")
        return 1
    return 1 if failed else 0


def main():
    parser = argparse.ArgumentParser(description=__doc__, formatter_class=argparse.RawDescriptionHelpFormatter)
    modes = parser.add_mutually_exclusive_group(required=True)
    modes.add_argument("--against", metavar="PROGRAM")
    modes.add_argument("--self-test", action="store_true")
    parser.add_argument("--seconds", type=float, default=15)
    parser.add_argument("--seed", type=int, default=random.randrange(2**32))
    options = parser.parse_args()
    return self_test() if options.self_test else against(options.against, options.seconds, options.seed)


if __name__ == "__main__":
    sys.exit(main())
