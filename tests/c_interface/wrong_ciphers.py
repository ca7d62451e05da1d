"""A cipher by tables in Python, and wrong versions of it. ciphers.py, beside this, shows that its chosen cases tell
each of these from the right one."""
import struct
from collections import defaultdict

from aes256 import S_BOX
from tables import TABLES


def words_of(data):
    """Its words, the first byte of each the least significant."""
    return list(struct.unpack(f"<{len(data) // 4}I", data))


def bytes_of(words):
    return struct.pack(f"<{len(words)}I", *words)


def byte(word, place):
    return word >> 8 * place & 0xFF


def rotated(word):
    """RotWord: the first byte becomes the last."""
    return word >> 8 | word << 24 & 0xFFFFFFFF


def sub_word(word):
    return int.from_bytes(word.to_bytes(4, "little").translate(S_BOX), "little")


class ByTables:
    """The right one, in parts that a wrong version replaces."""

    tables = TABLES
    rotated = staticmethod(rotated)
    sub_word = staticmethod(sub_word)
    second = staticmethod(sub_word)  # of words i with i mod 8 = 4
    last = 59  # of the words that are worked out

    def note(self, what, words):
        """Words that tables are read for, at a round or for a word of the schedule."""

    def constant(self, i):
        return 1 << i // 8 - 1

    def expanded(self, key):
        words = words_of(key)
        for i in range(8, 60):
            temp = words[-1]
            if i % 4 == 0:
                self.note(f"word {i}", [temp])
            if i % 8 == 0:
                temp = self.sub_word(self.rotated(temp)) ^ self.constant(i)
            elif i % 8 == 4:
                temp = self.second(temp)
            words.append(words[i - 8] ^ temp if i <= self.last else 0)
        return words

    def used(self, words):
        """The words that blocks are enciphered under."""
        return words

    def round_key(self, words, n):
        return words[4 * n : 4 * n + 4]

    def row(self, r):
        """How far row r is shifted."""
        return r

    def from_rows(self, u, j):
        """The bytes that become column j."""
        return [byte(u[(j + self.row(r)) % 4], r) for r in range(4)]

    def mixed(self, u):
        for j in range(4):
            a, b, c, d = self.from_rows(u, j)
            yield self.tables[0][a] ^ self.tables[1][b] ^ self.tables[2][c] ^ self.tables[3][d]

    def substituted(self, x):
        """By the first table, whose entries have the substitution as their second byte."""
        return byte(self.tables[0][x], 1)

    def unmixed(self, u):
        for j in range(4):
            yield int.from_bytes(bytes(map(self.substituted, self.from_rows(u, j))), "little")

    def rounds(self):
        return [*[self.mixed] * 13, self.unmixed]

    def encrypted(self, words, block):
        u = [a ^ b for a, b in zip(words_of(block), self.round_key(words, 0))]
        for n, columns in enumerate(self.rounds(), 1):
            self.note(f"round {n}", u)
            u = [a ^ b for a, b in zip(columns(u), self.round_key(words, n))]
        return bytes_of(u)

    def left(self, key):
        """The key after the calls."""
        return key

    def words_left(self, words):
        return words

    def answer(self, under, blocks):
        """What ciphers.c prints."""
        key = under if len(under) == 32 else b""
        words = self.expanded(key) if key else words_of(under)
        used = self.used(words)
        parts = [self.encrypted(used, blocks[i : i + 16]) for i in range(0, len(blocks), 16)]
        answer = self.left(key), bytes_of(self.words_left(words)), b"".join(parts)
        return " ".join(part.hex() for part in answer).encode()


class Noting(ByTables):
    """Notes for each place of each round, and of each word that the key expansion substitutes, the bytes that come."""

    def __init__(self):
        self.noted = defaultdict(bytearray)

    def note(self, what, words):
        self.noted[what] += bytes_of(words)

    def missing(self):
        """The places where a byte never comes."""
        sizes = {**{f"round {n}": 16 for n in range(1, 15)}, **{f"word {i}": 4 for i in range(8, 60, 4)}}
        for what, size in sizes.items():
            for place in range(size):
                if len(set(self.noted[what][place::size])) < 256:
                    yield f"{what}, place {place}"


# ---- wrong versions


def wrong(text, **parts):
    """A version with these parts in place of the right ones."""
    return type("Wrong", (ByTables,), {"__doc__": text, **parts})


def wrong_entry(row, x, bit):
    tables = [list(table) for table in TABLES]
    tables[row][x] ^= 1 << bit
    return wrong(f"has bit {bit} wrong of entry {x:02x} in the table of row {row}", tables=tables)


def swapped(words):
    """The words with their bytes in the other order."""
    return [int.from_bytes(word.to_bytes(4, "little"), "big") for word in words]


def one_late(cipher, words, n):
    return ByTables.round_key(cipher, words, max(n - 1, 0))


def one_early(cipher, words, n):
    return ByTables.round_key(cipher, words, min(n + 1, 14))


def expanded_again(cipher, words):
    """Right under the words of a key."""
    return cipher.expanded(bytes_of(words[:8]))


def cut_off(cipher, words, block):
    """The last byte is not written."""
    return ByTables.encrypted(cipher, words, block)[:15] + block[15:]


WRONG_TABLES = (
    wrong_entry(0, 0x00, 0),
    wrong_entry(0, 0x52, 8),
    wrong_entry(1, 0xFF, 31),
    wrong_entry(2, 0x53, 16),
    wrong_entry(3, 0x01, 9),
    wrong("has the tables of rows 1 and 3 exchanged", tables=[TABLES[0], TABLES[3], TABLES[2], TABLES[1]]),
    wrong("has the first table for all rows", tables=[TABLES[0]] * 4),
)
WRONG_ROUNDS = (
    wrong("mixes in the last round", rounds=lambda cipher: [cipher.mixed] * 14),
    wrong("does not mix in the last round but one", rounds=lambda c: [*[c.mixed] * 12, c.unmixed, c.unmixed]),
    wrong("makes 13 rounds", rounds=lambda cipher: [*[cipher.mixed] * 12, cipher.unmixed]),
    wrong("reads the last round's bytes doubled", substituted=lambda cipher, x: byte(TABLES[0][x], 0)),
    wrong("shifts the rows the other way", row=lambda cipher, r: -r),
    wrong("does not shift row 3", row=lambda cipher, r: r % 3),
    wrong("has its round keys one late", round_key=one_late),
    wrong("has its round keys one early", round_key=one_early),
    wrong("does not write the last byte", encrypted=cut_off),
)
WRONG_SCHEDULES = (
    wrong("has its words most significant byte first", words_left=lambda cipher, words: swapped(words)),
    wrong("enciphers under words most significant byte first", used=lambda cipher, words: swapped(words)),
    wrong("has the round constant one late", constant=lambda cipher, i: 1 << i // 8),
    wrong("has no round constant at the last turn", constant=lambda cipher, i: 1 << i // 8 - 1 if i < 56 else 0),
    wrong("has the round constant in the last byte", constant=lambda cipher, i: 1 << i // 8 - 1 << 24),
    wrong("turns no word", rotated=lambda cipher, word: word),
    wrong("turns words the other way", rotated=lambda cipher, word: rotated(rotated(rotated(word)))),
    wrong("leaves out the second substitution", second=lambda cipher, word: word),
    wrong("ends with word 58", last=58),
    wrong("expands the first words again, whatever comes after them", used=expanded_again),
)
WRONG_LEFT = (
    wrong("changes the key", left=lambda cipher, key: key[:-1] + bytes([key[-1] ^ 1]) if key else key),
    wrong("changes the last word", words_left=lambda cipher, words: [*words[:-1], words[-1] ^ 1 << 31]),
)
WRONG = (*WRONG_TABLES, *WRONG_ROUNDS, *WRONG_SCHEDULES, *WRONG_LEFT)
