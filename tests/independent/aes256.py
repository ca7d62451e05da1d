"""AES-256 encryption, written from FIPS 197.

`cipher` is the standard's text, a block at a time, under any 15 round keys. `cipher_blocks` gives the same for many
blocks and is some hundred times as fast. `encrypt` and `encrypt_blocks` take the round keys of a key."""
import operator
from functools import lru_cache


def xtime(b):
    return b << 1 ^ (0x11B if b & 0x80 else 0)


def product(a, b):
    r = 0
    while a:
        if a & 1:
            r ^= b
        a >>= 1
        b = xtime(b)
    return r


def sub_byte(b):
    """5.1.1: the inverse, then the affine map."""
    inverse = next((c for c in range(256) if product(b, c) == 1), 0)
    bits = inverse * 0x0101
    return (inverse ^ bits >> 4 ^ bits >> 5 ^ bits >> 6 ^ bits >> 7 ^ 0x63) & 0xFF


S_BOX = bytes(sub_byte(b) for b in range(256))


def xor(a, b):
    return bytes(map(operator.xor, a, b))


def expand_key(key):
    """5.2: the 60 words."""
    words = [key[i : i + 4] for i in range(0, 32, 4)]
    constant = 1
    for i in range(8, 60):
        temp = words[-1]
        if i % 8 == 0:
            temp = bytes(S_BOX[b] for b in temp[1:] + temp[:1])
            temp = bytes([temp[0] ^ constant]) + temp[1:]
            constant = xtime(constant)
        elif i % 8 == 4:
            temp = bytes(S_BOX[b] for b in temp)
        words.append(xor(words[i - 8], temp))
    return words


def split(schedule):
    """The 15 round keys of a schedule's 240 bytes, which need not be those of a key."""
    return [schedule[i : i + 16] for i in range(0, 240, 16)]


@lru_cache(maxsize=4)
def round_keys(key):
    return split(b"".join(expand_key(key)))


DOUBLE = bytes(product(2, b) for b in range(256))
TRIPLE = bytes(product(3, b) for b in range(256))


def mix_column(c):
    return bytes(DOUBLE[c[r]] ^ TRIPLE[c[(r + 1) % 4]] ^ c[(r + 2) % 4] ^ c[(r + 3) % 4] for r in range(4))


def cipher(keys, block):
    """5.1."""
    state = xor(block, keys[0])
    for n in range(1, 15):
        state = bytes(S_BOX[b] for b in state)
        state = bytes(state[(i + 4 * (i % 4)) % 16] for i in range(16))
        if n < 14:
            state = b"".join(mix_column(state[i : i + 4]) for i in range(0, 16, 4))
        state = xor(state, keys[n])
    return state


def encrypt(key, block):
    return cipher(round_keys(key), block)


# ---- many blocks at once: byte i of every block stands in plane i, and a step works on whole planes

FEW = 4  # up to here `cipher` is as fast


def number(plane):
    return int.from_bytes(plane, "little")


def mix_planes(planes):
    """MixColumns: 2a + 3b + c + d is 2(a + b) + b + c + d."""
    mixed = []
    for i in range(16):
        a, b, c, d = (planes[i // 4 * 4 + (i + j) % 4] for j in range(4))
        doubled = (number(a) ^ number(b)).to_bytes(len(a), "little").translate(DOUBLE)
        mixed.append(number(doubled) ^ number(b) ^ number(c) ^ number(d))
    return mixed


def cipher_blocks(keys, blocks):
    """The joined blocks, enciphered and joined; the first and the last are held to `cipher`."""
    count = len(blocks) // 16
    if count <= FEW:
        return b"".join(cipher(keys, blocks[i : i + 16]) for i in range(0, len(blocks), 16))
    ones = number(b"\x01" * count)
    planes = [number(blocks[i::16]) ^ keys[0][i] * ones for i in range(16)]
    for n in range(1, 15):
        state = [p.to_bytes(count, "little").translate(S_BOX) for p in planes]
        state = [state[(i + 4 * (i % 4)) % 16] for i in range(16)]
        mixed = mix_planes(state) if n < 14 else [number(p) for p in state]
        planes = [p ^ keys[n][i] * ones for i, p in enumerate(mixed)]
    out = bytearray(16 * count)
    for i, p in enumerate(planes):
        out[i::16] = p.to_bytes(count, "little")
    assert out[:16] == cipher(keys, blocks[:16])
    assert out[-16:] == cipher(keys, blocks[-16:])
    return bytes(out)


def encrypt_blocks(key, blocks):
    return cipher_blocks(round_keys(key), blocks)
