"""SHA-256 and D as the library works them out, by prepared words and nested rotations, and wrong versions of that.
hashes.py, beside this, shows that its chosen cases tell each of these from the right one."""
from itertools import permutations

from sha256 import INITIAL, K, MASK, rotr

ZEROS = bytes(64)  # that D has in front of a message
SUMS = (2**32 - 1, 2**32, 2**32 + 1, 2**31 - 1, 2**31)  # of a constant and a word, about what wraps and what has a sign


# ---- the functions on words


def plain(counts, shift):
    """x rotated by each count, and x shifted: their exclusive or. A shift by 32 leaves nothing."""

    def function(x):
        found = x >> shift
        for count in counts:
            found ^= rotr(x, count)
        return found

    return function


def nested(counts, shift):
    """The same with each count on top of those before it, so that a rotation turns all that is inside it."""

    def function(x):
        inner = x
        for count in counts[:0:-1]:
            inner = x ^ rotr(inner, count)
        return rotr(inner, counts[0]) ^ x >> shift

    return function


PLAIN = {
    "big0": ((2, 13, 22), 32),
    "big1": ((6, 11, 25), 32),
    "small0": ((7, 18), 3),
    "small1": ((17, 19), 10),
}
NESTED = {
    "big0": ((2, 11, 9), 32),
    "big1": ((6, 5, 14), 32),
    "small0": ((7, 11), 3),
    "small1": ((17, 2), 10),
}
SHIFTING = ("small0", "small1")


def choice(x, y, z):
    return z ^ x & (y ^ z)


def majority(x, y, z):
    return y ^ (x ^ y) & (y ^ z)


# ---- the right one


def right_word(w, t):
    return K[t] + w[t]


def prepared_by(word, places=range(64)):
    """Prepared words: those of these rounds by a rule of their own, the others right."""
    rules = [word if t in places else right_word for t in range(64)]
    return lambda w: [rule(w, t) & MASK for t, rule in enumerate(rules)]


PARTS = {
    **{name: nested(*counts) for name, counts in NESTED.items()},
    "choice": choice,
    "majority": majority,
    "order": "big",  # of a word's bytes in a block
    "kept": lambda t, x: x,  # for word t of the schedule
    "earlier": lambda w, t, back: w[t - back],
    "prepared": prepared_by(right_word),
    "rounds": 64,
    "temp1": lambda h, sigma, chosen, x: h + sigma + chosen + x,
    "temp2": lambda sigma, most: sigma + most,
    "added": lambda i, x, y: x + y & MASK,  # to word i of the hash value
    "mark": b"\x80",
    "limit": 56,  # from so many bytes on the length takes a block of its own
    "length": lambda length: (8 * length).to_bytes(8, "big"),
    "digest": lambda words: b"".join(x.to_bytes(4, "big") for x in words),
    "front": ZEROS,
    "outer": lambda version, digest: version.sha256(digest),
}


class Version:
    """SHA-256 and D in parts, some of which a wrong version replaces."""

    def __init__(self, text, **parts):
        self.text = text
        vars(self).update({**PARTS, **parts})

    def schedule(self, block):
        words = [self.kept(t, int.from_bytes(block[4 * t : 4 * t + 4], self.order)) for t in range(16)]
        for t in range(16, 64):
            w2, w7, w15, w16 = (self.earlier(words, t, back) for back in (2, 7, 15, 16))
            words.append(self.kept(t, self.small1(w2) + w7 + self.small0(w15) + w16 & MASK))
        return words

    def compress(self, chain, block):
        a, b, c, d, e, f, g, h = chain
        for x in self.prepared(self.schedule(block))[: self.rounds]:
            t1 = self.temp1(h, self.big1(e), self.choice(e, f, g), x)
            t2 = self.temp2(self.big0(a), self.majority(a, b, c))
            a, b, c, d, e, f, g, h = t1 + t2 & MASK, a, b, c, d + t1 & MASK, e, f, g
        return [self.added(i, x, y) for i, (x, y) in enumerate(zip(chain, (a, b, c, d, e, f, g, h)))]

    def last_blocks(self, left, length):
        marked = (left + self.mark).ljust(64, b"\0")
        if len(left) >= self.limit:
            return marked + bytes(56) + self.length(length)
        return marked[:56] + self.length(length)

    def sha256(self, message):
        whole = len(message) // 64 * 64
        blocks = message[:whole] + self.last_blocks(message[whole:], len(message))
        chain = INITIAL
        for i in range(0, len(blocks), 64):
            chain = self.compress(chain, blocks[i : i + 64])
        return self.digest(chain)

    def sha_d256(self, message):
        return self.outer(self, self.sha256(self.front + message))


RIGHT = Version("has nothing wrong")


# ---- prepared words that are wrong in every round, or in one

LOW = 0xFFFF

WRONG_WORDS = {
    "add the constant twice": lambda w, t: 2 * K[t] + w[t],
    "add the word twice": lambda w, t: K[t] + 2 * w[t],
    "leave the constant out": lambda w, t: w[t],
    "leave the word out": lambda w, t: K[t],
    "take the constant off": lambda w, t: w[t] - K[t],
    "have the constant's lowest bit wrong": lambda w, t: (K[t] ^ 1) + w[t],
    "have the constant's highest bit wrong": lambda w, t: (K[t] ^ 1 << 31) + w[t],
    "have the constant of the next round": lambda w, t: K[(t + 1) % 64] + w[t],
    "have the word of the round before": lambda w, t: K[t] + w[t - 1],
    "have the prepared word of the round before": lambda w, t: K[t - 1] + w[t - 1],
    "saturate at 2^32 - 1": lambda w, t: min(K[t] + w[t], MASK),
    "cut the sum to 31 bits": lambda w, t: K[t] + w[t] & MASK >> 1,
    "cut what they add to 31 bits": lambda w, t: (K[t] & MASK >> 1) + (w[t] & MASK >> 1),
    "add modulo 2^32 - 1": lambda w, t: (K[t] + w[t]) % MASK,
    "add the carry out of bit 31 at bit 0": lambda w, t: K[t] + w[t] + (K[t] + w[t] >> 32),
    "have or for plus": lambda w, t: K[t] | w[t],
    "have exclusive or for plus": lambda w, t: K[t] ^ w[t],
    "lose the carry into bit 16": lambda w, t: (K[t] & ~LOW) + (w[t] & ~LOW) + (K[t] + w[t] & LOW),
}


def in_rounds(word):
    """Wrong in every round, and in each by itself."""
    yield Version("does so in every round", prepared=prepared_by(word))
    for t in range(64):
        yield Version(f"does so in round {t}", prepared=prepared_by(word, [t]))


def at_sum(total, places):
    """Wrong in these rounds at one sum alone, which chance would hardly ever come to."""

    def word(w, t):
        return K[t] + w[t] + ((K[t] + w[t] - total) % 2**32 == 0)

    return Version(f"is one too high where the sum is {total:x}", prepared=prepared_by(word, places))


def at_one_sum():
    return [at_sum(total, range(64)) for total in SUMS]


# ---- which words are prepared, and when

RESTS = {
    "words without constants": lambda w, t: w[t],
    "constants without words": lambda w, t: K[t],
    "zeros": lambda w, t: 0,
}


def cut_short():
    for count in (16, 48, 60, 63):
        for text, rest in RESTS.items():
            words = prepared_by(rest, range(count, 64))
            yield Version(f"prepares {count} words, and takes {text} for the others", prepared=words)


def prepared_early(places):
    """The constants of these rounds enter the words that the schedule grows from them."""
    text = f"adds the constants of rounds {places[0]} to {places[-1]} before the schedule is grown"
    others = prepared_by(lambda w, t: w[t], places)
    return Version(text, kept=lambda t, x: x + K[t] & MASK if t in places else x, prepared=others)


def too_early():
    """Nothing grows from words 62 and 63, so that with them alone it would be right."""
    yield from (prepared_early(places) for places in (range(64), range(16), range(16, 64)))
    yield from (prepared_early([t]) for t in range(62))


def wrong_place(back, other):
    """At the start of the schedule there may be no word so far back; then it is the first."""
    text = f"grows the schedule by the word {other} back, for {back}"
    return Version(text, earlier=lambda w, t, asked: w[max(t - (other if asked == back else asked), 0)])


def unstored(w, t, back):
    """Four words at a time, none of them stored before the last is made."""
    return 0 if t - back >= t // 4 * 4 else w[t - back]


def grown_wrong():
    yield from (wrong_place(back, other) for back in (2, 7, 15, 16) for other in (back - 1, back + 1))
    yield Version("grows the schedule in fours by words not stored yet", earlier=unstored)
    yield Version("has a block's bytes least significant first", order="little")


# ---- wrong functions on words


def nearby(counts, shift):
    """One count or the shift off by one. Where there is no shift, a shift by 31 would be no slip of a count."""
    for i, count in enumerate(counts):
        for other in (count - 1, count + 1):
            yield (*counts[:i], other, *counts[i + 1 :]), shift
    if shift < 32:
        yield from ((counts, other) for other in (shift - 1, shift + 1))


def off_by_one():
    for form, table in ((plain, PLAIN), (nested, NESTED)):
        for name, given in table.items():
            for counts, shift in nearby(*given):
                text = f"has {form.__name__} counts {counts} and shift {shift} in {name}"
                yield Version(text, **{name: form(counts, shift)})


def reordered():
    """Each order of the counts of nested rotations but the right one."""
    for name, (counts, shift) in NESTED.items():
        for other in permutations(counts):
            if other != counts:
                yield Version(f"nests {name} as {other}", **{name: nested(other, shift)})


def left_out():
    """A rotation by 0 is none."""
    for name, (counts, shift) in NESTED.items():
        for i in range(len(counts)):
            fewer = (*counts[:i], 0, *counts[i + 1 :])
            yield Version(f"nests {name} as {fewer}", **{name: nested(fewer, shift)})


def unnested():
    """The counts of one form in the other."""
    for name, (_, shift) in PLAIN.items():
        yield Version(f"has nested counts in plain {name}", **{name: plain(NESTED[name][0], shift)})
        yield Version(f"has plain counts in nested {name}", **{name: nested(PLAIN[name][0], shift)})


def turned_left():
    for name, (counts, shift) in PLAIN.items():
        yield Version(f"rotates left in {name}", **{name: plain([32 - count for count in counts], shift)})


def shift_inside(name):
    """The shift is rotated with the rest, by the outermost count."""
    (outer, inner), shift = NESTED[name]
    return lambda x: rotr(x ^ rotr(x, inner) ^ x >> shift, outer)


def wrong_shifts():
    for name in SHIFTING:
        counts, shift = PLAIN[name]
        yield Version(f"rotates in place of the shift in {name}", **{name: plain((*counts, shift), 32)})
        yield Version(f"has no shift in {name}", **{name: plain(counts, 32)})
        yield Version(f"shifts left in {name}", **{name: lambda x, c=counts, s=shift: plain(c, 32)(x) ^ x << s & MASK})
        yield Version(f"shifts inside the rotation in {name}", **{name: shift_inside(name)})


def exchanged():
    for one, other in (("big0", "big1"), ("small0", "small1"), ("choice", "majority")):
        yield Version(f"has {one} and {other} exchanged", **{one: PARTS[other], other: PARTS[one]})
        yield Version(f"has {one} for {other} too", **{other: PARTS[one]})
        yield Version(f"has {other} for {one} too", **{one: PARTS[other]})


def reordered_choice(order):
    """Majority is the same in every order."""
    return Version(f"has choice of operands {order}", choice=lambda *given: choice(*(given[i] for i in order)))


WRONG_MAJORITIES = {
    "x ^ (x ^ y) & (y ^ z)": lambda x, y, z: x ^ (x ^ y) & (y ^ z),
    "z ^ (x ^ y) & (y ^ z)": lambda x, y, z: z ^ (x ^ y) & (y ^ z),
    "y ^ (x ^ y | y ^ z)": lambda x, y, z: y ^ (x ^ y | y ^ z),
    "y | (x ^ y) & (y ^ z)": lambda x, y, z: y | (x ^ y) & (y ^ z),
    "x & y ^ x & z": lambda x, y, z: x & y ^ x & z,
    "x & y ^ y & z": lambda x, y, z: x & y ^ y & z,
    "x & z ^ y & z": lambda x, y, z: x & z ^ y & z,
    "x ^ y ^ z": lambda x, y, z: x ^ y ^ z,
}


def wrong_bits():
    yield from (reordered_choice(order) for order in permutations(range(3)) if order != (0, 1, 2))
    for text, function in WRONG_MAJORITIES.items():
        yield Version(f"has as majority {text}", majority=function)


# ---- wrong rounds, hash values, ends of a message, and D


def sum_without(i):
    return lambda *given: sum(given[:i] + given[i + 1 :])


def wrong_rounds():
    for name, count in (("temp1", 4), ("temp2", 2)):
        for i in range(count):
            yield Version(f"leaves operand {i} out of {name}", **{name: sum_without(i)})
    for count in (0, 48, 56, 63):
        yield Version(f"makes {count} rounds", rounds=count)


def not_added(places):
    text = f"leaves words {places[0]} to {places[-1]} of the hash value out at the end"
    return Version(text, added=lambda i, x, y: y if i in places else x + y & MASK)


def little(words):
    return b"".join(x.to_bytes(4, "little") for x in words)


def wrong_values():
    yield from map(not_added, (range(8), *([place] for place in range(8))))
    yield Version("has the hash value saturate", added=lambda i, x, y: min(x + y, MASK))
    yield Version("has a digest's bytes least significant first", digest=little)


WRONG_LENGTHS = {
    "in bytes": lambda length: length.to_bytes(8, "big"),
    "least significant byte first": lambda length: (8 * length).to_bytes(8, "little"),
    "of the last block alone": lambda length: (8 * (length % 64)).to_bytes(8, "big"),
    "in one byte": lambda length: (8 * length % 2**8).to_bytes(8, "big"),
    "in two bytes": lambda length: (8 * length % 2**16).to_bytes(8, "big"),
}


def wrong_ends():
    for text, length in WRONG_LENGTHS.items():
        yield Version(f"has the length {text}", length=length)
    for limit in (55, 57):
        yield Version(f"gives the length a block of its own from {limit} bytes on", limit=limit)
    for mark in (b"", b"\x01"):
        yield Version(f"has {mark.hex() or 'nothing'} for 80 after the message", mark=mark)


def zeros_outside(version, digest):
    return version.sha256(ZEROS + digest)


def wrong_d():
    yield Version("has D without the block of zeros", front=b"")
    yield Version("has D with 63 zero bytes", front=ZEROS[1:])
    yield Version("has D with two blocks of zeros", front=2 * ZEROS)
    yield Version("has D with the block of zeros in the outer hash too", outer=zeros_outside)
    yield Version("has D with the block of zeros in the outer hash alone", front=b"", outer=zeros_outside)
    yield Version("has D without the outer hash", outer=lambda version, digest: digest)


FAMILIES = {
    "are one too high at one sum": at_one_sum,
    "prepare too few words": cut_short,
    "prepare words before the schedule is grown": too_early,
    "grow the schedule wrong": grown_wrong,
    "have a count or a shift off by one": off_by_one,
    "nest the rotations in another order": reordered,
    "leave a rotation out": left_out,
    "have the counts of the other form": unnested,
    "rotate left": turned_left,
    "have something else for a shift": wrong_shifts,
    "have one function for another": exchanged,
    "have choice or majority wrong": wrong_bits,
    "have the rounds wrong": wrong_rounds,
    "have the hash value wrong": wrong_values,
    "end messages wrong": wrong_ends,
    "have D wrong": wrong_d,
}
WRONG = {
    **{f"{text}, in every round or in one": list(in_rounds(word)) for text, word in WRONG_WORDS.items()},
    **{text: list(make()) for text, make in FAMILIES.items()},
}
