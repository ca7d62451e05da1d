#!/usr/bin/env python3
"""The cases of the program `vectors`, and the lines that it must print, worked out without it.

    tests/independent/vectors.py FOLDER             writes FOLDER/stdin and FOLDER/stdout
    tests/independent/vectors.py --check FOLDER     exits 1 where one of them differs, and says where

SHA-256 is Python's hashlib, and for states that hashlib cannot start from sha256.py beside it, written from
FIPS 180-4; AES-256 is aes256.py, written from FIPS 197, and the generator generator.py. Published values
are literals, and each is asserted. Nothing but Python's standard library is needed."""
import hashlib
import sys
from pathlib import Path

import generator_lines
from aes256 import encrypt, encrypt_blocks, expand_key, xor
from sha256 import INITIAL, MASK, MAX_MESSAGE, finish


# ---- SHA-256


def sha256(m):
    digest = hashlib.sha256(m).digest()
    if len(m) < 1000:
        assert finish(INITIAL, m, len(m)) == digest
    return digest


def sha_d256(m):
    """D: of one string, 64 zero bytes and then m."""
    return sha256(sha256(bytes(64) + m))


# ---- the cases

ONCE = (1).to_bytes(2, "big")  # how often a part is absorbed
PATTERN = bytes((7 * i + 3) % 251 for i in range(129))
MESSAGES = [
    ("empty", b"", "e3b0c44298fc1c149afbf4c8996fb92427ae41e4649b934ca495991b7852b855"),
    ("abc", b"abc", "ba7816bf8f01cfea414140de5dae2223b00361a396177a9cb410ff61f20015ad"),
    (
        "448 bits",
        b"abcdbcdecdefdefgefghfghighijhijkijkljklmklmnlmnomnopnopq",
        "248d6a61d20638b8e5c026930c3e6039a33ce45964ff2167f6ecedd419db06c1",
    ),
    (
        "896 bits",
        b"abcdefghbcdefghicdefghijdefghijkefghijklfghijklmghijklmn"
        b"hijklmnoijklmnopjklmnopqklmnopqrlmnopqrsmnopqrstnopqrstu",
        "cf5b16a778af8380036ce59e7b0492370b249b11e8f07a51afac45037afee9d1",
    ),
    (
        "million a",
        b"a" * 1000000,
        "cdc76e5c9914fb9281a1c7e284d73e67f1809a48a497200e046d39ccc7112cd0",
    ),
]


class Cases:
    """Lines for the program, and the lines that it must print. crates/vectors/src/main.rt says what a line has."""

    def __init__(self):
        self.stdin = []
        self.stdout = []

    def set(self, letters, data):
        """A line that sets a state for later ones, and prints nothing."""
        self.stdin.append(f"{letters} {data.hex()}")

    def case(self, letters, data, title, answer):
        self.stdin.append(f"{letters} {data.hex()} {title}")
        self.stdout.append(f"{title}: {answer}")


def add_messages(cases):
    for title, m, published in MESSAGES:
        assert sha256(m).hex() == published
        if len(m) < 1000:
            cases.case("hs", m, f"sha256 {title}", published)
    add_million(cases)


def add_million(cases):
    """The last message, in parts of 1, 63, 129 and 807 bytes, each a thousand times."""
    title, m, published = MESSAGES[-1]
    for n in (1, 63, 129, 807):
        cases.set("Hn" if n == 1 else "Ha", (1000).to_bytes(2, "big") + m[:n])
    cases.case("hf", b"", f"sha256 {title}", published)


# Lengths about those where the padding takes a block more, and where a pool has whole blocks.
POOL_LENGTHS = (0, 1, 54, 55, 56, 57, 63, 64, 65, 118, 119, 120, 121, 127, 128, 129)


def add_d(cases):
    """D of a message, and of what an empty pool gains, here in two parts."""
    for title, m in (("empty", b""), ("abc", b"abc"), ("zeros", bytes(64))):
        cases.case("hd", m, f"sha_d256 {title}", sha_d256(m).hex())
    for n in POOL_LENGTHS:
        cases.set("He", ONCE + PATTERN[: n // 3])
        cases.set("Ha", ONCE + PATTERN[n // 3 : n])
        cases.case("hp", b"", f"sha_d256 pool {n}", sha_d256(PATTERN[:n]).hex())


def add_patterns(cases):
    """Every front of the pattern: SHA-256 at once and cut at a third, D, and D of a key joined with it."""
    key = bytes(range(32))
    for n in range(len(PATTERN) + 1):
        m = PATTERN[:n]
        cases.case("hs", m, f"sha256 pattern {n}", sha256(m).hex())
        cases.set("Hn", ONCE + m[: n // 3])
        cases.set("Ha", ONCE + m[n // 3 :])
        cases.case("hf", b"", f"sha256 in two parts {n}", sha256(m).hex())
        cases.case("hd", m, f"sha_d256 pattern {n}", sha_d256(m).hex())
        cases.case("hj", key + m, f"sha_d256 joined {n}", sha_d256(key + m).hex())


# A state that no message is known for: another hash value, and a tail that has no zeros after its bytes.
CHAIN = [0x01234567 + 0x11111111 * i & MASK for i in range(8)]
TAIL = b"\xa5" * 64
MAX_POOL = MAX_MESSAGE - 64


def state_digest(count):
    return finish(CHAIN, TAIL[: count % 64], count)


def state_pool_digest(count):
    """As a pool's: the zero block stands before what the length counts."""
    return sha256(finish(CHAIN, TAIL[: count % 64], 64 + count))


def set_state(cases, count):
    """The program holds that state, with a length."""
    cases.set("Hg", count.to_bytes(8, "big"))


def add_states(cases):
    for count in (192, 202, 247, 248, 255, MAX_MESSAGE):
        set_state(cases, count)
        cases.case("hf", b"", f"state finish {count}", state_digest(count).hex())
    for count in (192, 202, 247, 248, 255, MAX_POOL):
        set_state(cases, count)
        cases.case("hp", b"", f"state pool {count}", state_pool_digest(count).hex())
    set_state(cases, 202)
    cases.set("Ha", ONCE + PATTERN)
    joined = TAIL[: 202 % 64] + PATTERN
    cases.case("hf", b"", "state absorb 202", finish(CHAIN, joined, 202 + len(PATTERN)).hex())


def add_limits(cases):
    """Answers at the limits, 2^61 - 1 bytes for SHA-256 and 2^61 - 65 for D, and what a refusal hands out."""
    for count, m in ((MAX_MESSAGE, b""), (MAX_MESSAGE, b"a"), (MAX_MESSAGE + 1, b""), (2**64 - 1, b"abc")):
        refused = count + len(m) > MAX_MESSAGE
        set_state(cases, count)
        cases.case("hA", m, f"absorb answer {count} and {len(m)}", 17 if refused else 0)
    for count in (MAX_POOL, MAX_POOL + 1, MAX_MESSAGE, MAX_MESSAGE + 1, 2**64 - 64, 2**64 - 1):
        set_state(cases, count)
        cases.case("hF", b"", f"finish answer {count}", 17 if count > MAX_MESSAGE else 0)
        cases.case("hP", b"", f"pool answer {count}", 17 if count > MAX_POOL else 0)
    set_state(cases, MAX_MESSAGE + 1)
    cases.case("hf", b"", "refused digest", bytes(32).hex())
    set_state(cases, MAX_POOL + 1)
    cases.case("hp", b"", "refused pool digest", bytes(32).hex())
    set_state(cases, MAX_MESSAGE)
    cases.set("Ha", ONCE + b"a")
    cases.case("hf", b"", "refused state", state_digest(MAX_MESSAGE).hex())


# FIPS 197, C.3
C3_KEY = bytes(range(32))
C3_TEXT = bytes.fromhex("00112233445566778899aabbccddeeff")
C3_CIPHER = "8ea2b7ca516745bfeafc49904b496089"

# FIPS 197, A.3, and SP 800-38A, F.1.5 and F.5.5
KEY = bytes.fromhex("603deb1015ca71be2b73aef0857d77811f352c073b6108d72d9810a30914dff4")
TEXT = [
    bytes.fromhex("6bc1bee22e409f96e93d7e117393172a"),
    bytes.fromhex("ae2d8a571e03ac9c9eb76fac45af8e51"),
    bytes.fromhex("30c81c46a35ce411e5fbc1191a0a52ef"),
    bytes.fromhex("f69f2445df4f9b17ad2b417be66c3710"),
]
COUNTER = 0xF0F1F2F3F4F5F6F7F8F9FAFBFCFDFEFF
ECB = [
    "f3eed1bdb5d2a03c064b5a7e3db181f8",
    "591ccb10d410ed26dc5ba74a31362870",
    "b6ed21b99ca6f4f9f153e7b1beafed1d",
    "23304b7a39f9f3ff067d8d8f9e24ecc7",
]
CTR = [
    "601ec313775789a5b7a7f504bbf3d228",
    "f443e3ca4d62b59aca84e990cacaf5c5",
    "2b0930daa23de94ce87017ba2d84988d",
    "dfc9c58db67aada613c2dd08457941a6",
]
# FIPS 197, A.3: the words that the standard lists after the key's own
A3_WORDS = """
9ba35411 8e6925af a51a8b5f 2067fcde a8b09c1a 93d194cd be49846e b75d5b9a
d59aecb8 5bf3c917 fee94248 de8ebe96 b5a9328a 2678a647 98312229 2f6c79b3
812c81ad dadf48ba 24360af2 fab8b464 98c5bfc9 bebd198e 268c3ba7 09e04214
68007bac b2df3316 96e939e4 6c518d80 c814e204 76a9fb8a 5025c02d 59c58239
de136967 6ccc5a71 fa256395 9674ee15 5886ca5d 2e2f31d7 7e0af1fa 27cf73c3
749c47ab 18501dda e2757e4f 7401905a cafaaae3 e4d59b34 9adf6ace bd10190d
fe4890d1 e6188d0b 046df344 706c631e
""".split()


# The two ciphers: the letter that their lines begin with, the title, and how far apart words are named
CIPHERS = [("c", "aes256", 4), ("w", "aes256 by tables", 1)]


def add_blocks(cases, letter, name):
    assert encrypt(C3_KEY, C3_TEXT).hex() == C3_CIPHER
    assert encrypt_blocks(KEY, b"".join(TEXT)).hex() == "".join(ECB)
    cases.case(letter + "e", C3_KEY + C3_TEXT, f"{name} C.3", C3_CIPHER)
    for n, (block, published) in enumerate(zip(TEXT, ECB), 1):
        assert encrypt(KEY, block).hex() == published
        cases.case(letter + "x", KEY + block, f"{name} ECB {n}", published)
    for n, (block, published) in enumerate(zip(TEXT, CTR), 1):
        counter = (COUNTER + n - 1).to_bytes(16, "big")
        assert xor(encrypt(KEY, counter), block).hex() == published
        cases.case(letter + "x", KEY + counter + block, f"{name} CTR {n}", published)


def add_schedule(cases, letter, name, step):
    """Byte by byte a word is named by the place of its first byte, by tables by its number."""
    words = [w.hex() for w in expand_key(KEY)]
    assert words[8:] == A3_WORDS
    for i, word in enumerate(words):
        cases.case(letter + "w", KEY + bytes([step * i]), f"{name} word {i}", word)


def add_parts(cases):
    """The block writer by tables, into parts of 0 to 18 bytes; what it leaves keeps 0xee."""
    block = encrypt(KEY, TEXT[0])
    for n in range(19):
        part = block[:n].ljust(18, b"\xee")
        cases.case("wp", KEY + TEXT[0] + bytes([n]), f"aes256 by tables part {n}", part.hex())


def add_ciphers(cases):
    for letter, name, step in CIPHERS:
        add_blocks(cases, letter, name)
        add_schedule(cases, letter, name, step)
    add_parts(cases)


def all_cases():
    cases = Cases()
    add_messages(cases)
    add_d(cases)
    add_patterns(cases)
    add_states(cases)
    add_limits(cases)
    add_ciphers(cases)
    generator_lines.add(cases, PATTERN)
    return cases


def files():
    """What the program reads, and what it must print, by the file's name."""
    cases = all_cases()
    return {"stdin": cases.stdin, "stdout": cases.stdout}


def check(path, lines):
    """Where a file's lines differ from these; None where they do not."""
    found = path.read_text(encoding="ascii").split("\n")
    expected = lines + [""]
    for n, (a, b) in enumerate(zip(expected, found), 1):
        if a != b:
            return f"{path}:{n}: expected '{a}', found '{b}'"
    if len(expected) != len(found):
        return f"{path}: expected {len(expected) - 1} lines, found {len(found) - 1}"
    return None


def main(args):
    if len(args) == 1 and not args[0].startswith("-"):
        for name, lines in files().items():
            (Path(args[0]) / name).write_text("\n".join(lines) + "\n", encoding="ascii")
        return 0
    if len(args) != 2 or args[0] != "--check":
        print(__doc__, file=sys.stderr)
        return 2
    differences = [check(Path(args[1]) / name, lines) for name, lines in files().items()]
    for difference in filter(None, differences):
        print(difference, file=sys.stderr)
    return 1 if any(differences) else 0


if __name__ == "__main__":
    sys.exit(main(sys.argv[1:]))
