"""The Fortuna generator alone, by the rules of 01 and of 004, 9.4. C is an integer.

An operation takes a state and gives (number, next state), a number other than 0 being a refusal. The lent buffer is
a bytearray, written in place. Refused: state and buffer as before."""
import hashlib
from collections import namedtuple

from aes256 import encrypt_blocks

State = namedtuple("State", "key count")
FRESH = State(bytes(32), 0)
MAX_REQUEST = 1048576
MAX_SEED = 2**61 - 97
MAX_COUNT = 2**128 - 1
ZERO_BLOCK = bytes(64)


def sha_d256(m, front=ZERO_BLOCK):
    """D, the book's SHA_d-256: SHA-256 of the SHA-256 of one string, 64 zero bytes and then m. The book's 2003 edition
    had no bytes in front."""
    return hashlib.sha256(hashlib.sha256(front + m).digest()).digest()


def counter_bytes(count):
    return count.to_bytes(16, "little")


def malformed(state):
    return state.count == 0 and any(state.key)


def make_blocks(state, k):
    """k Block steps: their bytes, and the state after them."""
    counters = b"".join(counter_bytes(state.count + i) for i in range(k))
    return encrypt_blocks(state.key, counters), State(state.key, state.count + k)


def reseed(state, seed, d=sha_d256):
    if len(seed) > MAX_SEED:
        return 17, state
    if malformed(state):
        return 21, state
    if state.count + 1 > MAX_COUNT:
        return 24, state
    return 0, State(d(state.key + seed), state.count + 1)


def output_refusal(state, n, k):
    if n > MAX_REQUEST:
        return 14
    if malformed(state):
        return 21
    if state.count == 0:
        return 23
    if state.count + k > MAX_COUNT:
        return 24
    return 0


def block_count(n):
    return -(-n // 16)


def blocks(state, buffer):
    """The block operation."""
    k = block_count(len(buffer))
    refusal = output_refusal(state, len(buffer), k)
    if refusal:
        return refusal, state
    made, after = make_blocks(state, k)
    buffer[:] = made[: len(buffer)]
    return 0, after


def request(state, buffer):
    k = block_count(len(buffer))
    refusal = output_refusal(state, len(buffer), k + 2)
    if refusal:
        return refusal, state
    made, after = make_blocks(state, k)
    key, last = make_blocks(after, 2)
    buffer[:] = made[: len(buffer)]
    return 0, State(key, last.count)
