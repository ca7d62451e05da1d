#!/usr/bin/env python3
"""Both AES-256 ciphers of the library, by tables and byte by byte, held to tests/independent/aes256.py.

    ciphers.py --against PROGRAM [--seconds S] [--seed N]
                                           chosen cases to ciphers.c, beside this, then random ones for S seconds, and
                                           some however slow the machine is
    ciphers.py --self-test                 wrong versions of a cipher (wrong_ciphers.py, beside this), each of which a
                                           chosen case must tell from the right one

A case is a key, or any 240 bytes in place of an expanded key, and blocks. Both ciphers must give the words that the key
expands to and the blocks that come of them. Nothing in the chosen cases comes from chance. They bring each byte to each
place of each round, and of each word that the key expansion substitutes; the self-test sees to it."""
import argparse
import random
import sys
import time
from collections import Counter, namedtuple
from functools import partial
from pathlib import Path

sys.path += [str(Path(__file__).resolve().parents[1] / folder) for folder in ("independent", "bench")]

from aes256 import cipher_blocks, expand_key, split, xor
from frames import Noise, log_of
from program import Failure, run, shortened
from wrong_ciphers import WRONG, ByTables, Noting

CIPHERS = (b"tables", b"bytewise")
KEY, WORDS, BLOCK = 32, 240, 16
FEWEST = 10  # logs of random cases
CASES = 20  # of a random log
STRIDE = 500  # the self-test goes through the chosen cases so, and comes to each kind soon

Case = namedtuple("Case", "under blocks")  # under: a key, or the 240 bytes of 60 words


def line(cipher, case):
    return b" ".join((cipher, case.under.hex().encode(), case.blocks.hex().encode()))


def answer(case):
    """What either cipher must answer: the key, the words, the blocks."""
    key = case.under if len(case.under) == KEY else b""
    words = b"".join(expand_key(key)) if key else case.under
    return " ".join(part.hex() for part in (key, words, cipher_blocks(split(words), case.blocks))).encode()


# ---- the chosen cases


def alike(size):
    """Each byte over and over, 00 and FF among them."""
    return [bytes([byte]) * size for byte in range(256)]


def single_bits(size):
    return [(1 << bit).to_bytes(size, "little") for bit in range(8 * size)]


def each_byte(given):
    """Each byte at each place, so that each bit is the other way once."""
    places = range(len(given))
    return [given[:place] + bytes([byte]) + given[place + 1 :] for place in places for byte in range(256)]


def each_bit(given):
    """Each bit the other way."""
    return [xor(given, bit) for bit in single_bits(len(given))]


def hard_blocks(noise):
    """Under the key of zeros, a usual one, and words that no key has."""
    blocks = [*alike(BLOCK), *single_bits(BLOCK), *each_byte(noise.take(BLOCK))]
    for under in (bytes(KEY), noise.take(KEY), noise.take(WORDS)):
        yield Case(under, b"".join(blocks))


def hard_keys(noise):
    for key in (*alike(KEY), *single_bits(KEY), *each_byte(noise.take(KEY))):
        yield Case(key, noise.take(BLOCK))


def hard_words(noise):
    """No key has such words, but for chance."""
    for words in (*alike(WORDS), *single_bits(WORDS), *each_bit(noise.take(WORDS))):
        yield Case(words, noise.take(BLOCK))


def chosen():
    """Lists of cases."""
    return [list(make(Noise(make.__name__))) for make in (hard_keys, hard_words, hard_blocks)]


# ---- random cases


def counters(chance, count):
    """Blocks as the generator enciphers them."""
    start = chance.getrandbits(8 * BLOCK)
    return b"".join(((start + i) % 2 ** (8 * BLOCK)).to_bytes(BLOCK, "little") for i in range(count))


def any_case(chance):
    under = chance.randbytes(chance.choice((KEY, KEY, WORDS)))
    count = chance.choice((1, 2, 16, 300, 2000))
    return Case(under, chance.choice((chance.randbytes(BLOCK * count), counters(chance, count))))


# ---- comparing


def difference(expected, found):
    """Where an answer first differs; None where it doesn't."""
    if expected == found:
        return None
    parts = zip(("key", "word", "block"), (KEY, 4, BLOCK), expected.split(b" "), found.split(b" "))
    for what, size, a, b in parts:
        place = next((i for i in range(0, len(a), 2 * size) if a[i : i + 2 * size] != b[i : i + 2 * size]), None)
        if place is not None:
            words = f"expected {a[place:][: 2 * size].decode()}, found {b[place:][: 2 * size].decode()}"
            return f"{what} {place // (2 * size)}: {words}"
    return f"expected {shortened(expected)}, found {shortened(found)}"


def compare(ask, cases, tally):
    """Asks both ciphers for each case. ask gives the answers to lines."""
    found = ask(log_of(line(cipher, case) for case in cases for cipher in CIPHERS)).split(b"\n")[:-1]
    if len(found) != len(CIPHERS) * len(cases):
        raise Failure(f"{len(CIPHERS) * len(cases)} lines, and {len(found)} answers came")
    for n, case in enumerate(cases):
        expected = answer(case)
        for cipher, given in zip(CIPHERS, found[len(CIPHERS) * n :]):
            if why := difference(expected, given):
                raise Failure(f"{cipher.decode()}, under {case.under.hex()}, {why}")
        tally["keys" if len(case.under) == KEY else "words"] += 1
        tally["blocks"] += len(case.blocks) // BLOCK


def against(program, seconds, seed):
    print(f"seed {seed}", flush=True)
    ask = partial(run, program)
    chance = random.Random(seed)
    tally = Counter()
    end = time.monotonic() + seconds
    logs = 0
    try:
        for cases in chosen():
            compare(ask, cases, tally)
        while logs < FEWEST or time.monotonic() < end:
            compare(ask, [any_case(chance) for _ in range(CASES)], tally)
            logs += 1
    except Failure as why:
        print(f"FAIL  {why}")
        return 1
    under = f"{tally['keys']} keys and {tally['words']} schedules of no key"
    print(f"pass  {tally['blocks']} blocks under {under}: by tables, byte by byte and by aes256.py the same")
    return 0


# ---- wrong versions


def place_told(version, cases):
    """The first case that tells a version, and where; None where there is none."""
    for n, (case, expected) in enumerate(cases, 1):
        if why := difference(expected, version.answer(case.under, case.blocks)):
            return f"case {n}, {why.partition(':')[0]}"
    return None


def named(wrong):
    """Whether a comparison names the cipher that is wrong, where the other one is right."""
    versions = {cipher: WRONG[0]() if cipher == wrong else ByTables() for cipher in CIPHERS}

    def ask(lines):
        words = [line.decode().split(" ") for line in lines.splitlines()]
        return log_of(versions[name.encode()].answer(*map(bytes.fromhex, data)) for name, *data in words)

    try:
        compare(ask, chosen()[0][:300], Counter())
    except Failure as why:
        return str(why).startswith(f"{wrong.decode()}, ")
    return False


def findings():
    """What must hold, with what was found."""
    cases = [(case, answer(case)) for group in chosen() for case in group]
    cases = [case for start in range(STRIDE) for case in cases[start::STRIDE]]
    right = Noting()
    place, missing = place_told(right, cases), list(right.missing())
    yield place is None, f"the right one: {place or 'not told'}"
    yield not missing, f"each byte at each place of each round and word, but for {missing or 'none'}"
    for cipher in CIPHERS:
        yield named(cipher), f"a library whose one wrong cipher is {cipher.decode()}: named"
    for version in WRONG:
        place = place_told(version(), cases)
        yield place is not None, f"one that {version.__doc__}: {place or 'not told'}"


def self_test():
    failed = False
    for holds, what in findings():
        failed |= not holds
        print(f"{'pass' if holds else 'FAIL'}  {what}")
    return 1 if failed else 0


def main():
    parser = argparse.ArgumentParser(description=__doc__, formatter_class=argparse.RawDescriptionHelpFormatter)
    modes = parser.add_mutually_exclusive_group(required=True)
    modes.add_argument("--against", metavar="PROGRAM")
    modes.add_argument("--self-test", action="store_true")
    parser.add_argument("--seconds", type=float, default=15)
    parser.add_argument("--seed", type=int, default=random.randrange(2**32))
    options = parser.parse_args()
    return self_test() if options.self_test else against(options.against, options.seconds, options.seed)


if __name__ == "__main__":
    sys.exit(main())
