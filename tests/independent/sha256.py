"""SHA-256 from any hash value on, which hashlib does not offer. Written from FIPS 180-4."""

MASK = 0xFFFFFFFF
MAX_MESSAGE = 2**61 - 1


def primes(count):
    found = []
    n = 2
    while len(found) < count:
        if all(n % p for p in found):
            found.append(n)
        n += 1
    return found


def root_fraction(n, root):
    """The first 32 bits of the fraction of a root of n (4.2.2, 5.3.3)."""
    scaled = n << (32 * root)
    r = int(round(scaled ** (1 / root)))
    while r**root > scaled:
        r -= 1
    while (r + 1) ** root <= scaled:
        r += 1
    return r & MASK


K = [root_fraction(p, 3) for p in primes(64)]
INITIAL = [root_fraction(p, 2) for p in primes(8)]


def rotr(x, n):
    return (x >> n | x << (32 - n)) & MASK


def sigma0(x):
    """σ0 of 4.1.2."""
    return rotr(x, 7) ^ rotr(x, 18) ^ x >> 3


def sigma1(x):
    """σ1 of 4.1.2."""
    return rotr(x, 17) ^ rotr(x, 19) ^ x >> 10


def schedule(block):
    """The 64 words of a block's message schedule (6.2.2, 1)."""
    w = [int.from_bytes(block[i : i + 4], "big") for i in range(0, 64, 4)]
    for t in range(16, 64):
        w.append((sigma1(w[t - 2]) + w[t - 7] + sigma0(w[t - 15]) + w[t - 16]) & MASK)
    return w


def prepared(block):
    """The words of the schedule, each with its round's constant in it (02, ix)."""
    return [(k + w) & MASK for k, w in zip(K, schedule(block))]


def rounds(chain, taken):
    """The working variables after a round for each constant and word taken (6.2.2, 3)."""
    a, b, c, d, e, f, g, h = chain
    for k, w in taken:
        ch = e & f ^ ~e & g
        maj = a & b ^ a & c ^ b & c
        t1 = h + (rotr(e, 6) ^ rotr(e, 11) ^ rotr(e, 25)) + ch + k + w
        t2 = (rotr(a, 2) ^ rotr(a, 13) ^ rotr(a, 22)) + maj
        a, b, c, d, e, f, g, h = (t1 + t2) & MASK, a, b, c, (d + t1) & MASK, e, f, g
    return a, b, c, d, e, f, g, h


def added(chain, working):
    return [(x + y) & MASK for x, y in zip(chain, working)]


def compress(chain, block):
    """6.2.2. Each round adds its constant and its word, one after the other."""
    return added(chain, rounds(chain, zip(K, schedule(block))))


def compress_prepared(chain, block):
    """The same by prepared words: a round has no constant left to add."""
    return added(chain, rounds(chain, ((0, x) for x in prepared(block))))


def finish(chain, unhashed, length):
    """The digest from a hash value, the bytes after its blocks and the length of the whole message."""
    zeros = -(len(unhashed) + 9) % 64
    rest = unhashed + b"\x80" + bytes(zeros) + (8 * length).to_bytes(8, "big")
    for i in range(0, len(rest), 64):
        chain = compress(chain, rest[i : i + 64])
    return b"".join(x.to_bytes(4, "big") for x in chain)
