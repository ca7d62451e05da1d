"""CTR_DRBG (02, xi; SP 800-90A Rev. 1, 10.2.1) with AES-256 and no derivation function, by the standard's steps.

Where the standard counts bits, bytes are counted here. V is 16 bytes, and a number only where it steps. The algorithms
have the standard's names and sections, and are given only what no number turned away. A call gives its number, the
bytes of a request, and the next state, which after a refusal is the one before."""
from collections import namedtuple

from aes256 import encrypt_blocks, xor

# Of table 3 in 10.2.1: keylen, blocklen, seedlen, the most of one request, reseed_interval.
KEY, BLOCK, SEED = 32, 16, 48
MOST_BYTES = 2**19 // 8
INTERVAL = 2**48

State = namedtuple("State", "key v reseed_counter")
Answer = namedtuple("Answer", "number out next")
NEW = State(bytes(KEY), bytes(BLOCK), 0)


class CtrDrbg:
    """Wrong versions override a part of it."""

    # ---- the algorithms

    def step(self, v):
        """V = (V + 1) mod 2^blocklen, the most significant byte first."""
        return ((int.from_bytes(v, "big") + 1) % 2 ** (8 * BLOCK)).to_bytes(BLOCK, "big")

    def blocks(self, key, v, length):
        """The loop of both 10.2.1.2 (2, 3) and 10.2.1.5.1 (3 to 5): so many bytes, and V after them."""
        stepped = []
        while BLOCK * len(stepped) < length:
            v = self.step(v)
            stepped.append(v)
        return encrypt_blocks(key, b"".join(stepped))[:length], v

    def update(self, provided, key, v):
        """10.2.1.2, CTR_DRBG_Update: Key and V."""
        temp = xor(self.blocks(key, v, SEED)[0], provided)
        return temp[:KEY], temp[-BLOCK:]

    def padded(self, data):
        """10.2.1.3.1 (2), 10.2.1.4.1 (2), 10.2.1.5.1 (2.2)."""
        return data + bytes(SEED - len(data))

    def instantiate_algorithm(self, state, entropy, personalization):
        """10.2.1.3.1. It reads nothing of the state; wrong versions do."""
        seed_material = xor(entropy, self.padded(personalization))
        return State(*self.update(seed_material, bytes(KEY), bytes(BLOCK)), 1)

    def reseed_algorithm(self, state, entropy, additional):
        """10.2.1.4.1."""
        seed_material = xor(entropy, self.padded(additional))
        return State(*self.update(seed_material, state.key, state.v), 1)

    def generate_algorithm(self, state, length, additional):
        """10.2.1.5.1 from step 2 on: the bytes and the next state. Null is the empty additional input, and no other."""
        key, v, counter = state
        if additional:
            additional = self.padded(additional)
            key, v = self.update(additional, key, v)
        else:
            additional = bytes(SEED)
        out, v = self.blocks(key, v, length)
        return out, State(*self.update(additional, key, v), counter + 1)

    # ---- what is turned away: for each call the numbers in 02's order, with whether they apply

    def bad_entropy(self, entropy):
        return len(entropy) != SEED

    def too_long(self, data):
        return len(data) > SEED

    def request_too_long(self, length):
        return length > MOST_BYTES

    def never_seeded(self, state):
        return state.reseed_counter == 0

    def spent(self, state):
        """10.2.1.5.1, step 1. A seeding sets the counter to 1, so that 2^48 requests pass."""
        return state.reseed_counter > INTERVAL

    def instantiate_refusals(self, state, entropy, personalization):
        return (40, self.bad_entropy(entropy)), (41, self.too_long(personalization))

    def reseed_refusals(self, state, entropy, additional):
        return (40, self.bad_entropy(entropy)), (41, self.too_long(additional)), (42, self.never_seeded(state))

    def generate_refusals(self, state, length, additional):
        needed = self.never_seeded(state) or self.spent(state)
        return (41, self.too_long(additional)), (14, self.request_too_long(length)), (42, needed)

    def refused(self, state, number):
        return Answer(number, b"", state)

    # ---- the calls

    def instantiate(self, state, entropy, personalization):
        if number := first(self.instantiate_refusals(state, entropy, personalization)):
            return self.refused(state, number)
        return Answer(0, b"", self.instantiate_algorithm(state, entropy, personalization))

    def reseed(self, state, entropy, additional):
        if number := first(self.reseed_refusals(state, entropy, additional)):
            return self.refused(state, number)
        return Answer(0, b"", self.reseed_algorithm(state, entropy, additional))

    def generate(self, state, length, additional):
        if number := first(self.generate_refusals(state, length, additional)):
            return self.refused(state, number)
        return Answer(0, *self.generate_algorithm(state, length, additional))


def first(refusals):
    return next((number for number, applies in refusals if applies), 0)


def entropy_for(key, v):
    """The entropy input by which, with no personalization, an instantiate leaves this Key and this V. There is one for
    each: the update's xor is the last thing done to them."""
    temp, _ = CtrDrbg().blocks(bytes(KEY), bytes(BLOCK), SEED)
    return xor(temp, key + v)
