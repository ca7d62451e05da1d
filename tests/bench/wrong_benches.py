#!/usr/bin/env python3
"""Shows that October's made log (tests/bench/checklist.py) tells wrong benches from the right one; those with a wrong
block of zeros (02, v) are told by a stored log too. What no bench can show, the readings tell. April tells wrong health
tests (02, vi) and wrong quotas (02, x) from the right ones. Benches that go wrong at a blank seed (02, vii) are told by
May or October, and by the stored log of blank flash.

    tests/bench/wrong_benches.py      a line for each wrong one; exits 1 where one gives the right answers

Each wrong bench is tests/independent/logbook.py with one thing wrong, which no refused line's own answer shows."""
import contextlib
import hashlib
import io
import sys
import tempfile
from functools import partial
from pathlib import Path
from unittest import mock

sys.path += [str(Path(__file__).resolve().parents[1] / folder) for folder in ("independent", "c_interface")]

import generator
import health_script
import logbook
import readings
import station
from bench_runs import stored
from checklist import SOURCES, Bench, april, april_flood, april_health, april_lines, may, october, october_lines
from editions import BlankLogbook
from frames import log_of
from generator import State, sha_d256
from health import Health
from logbook import Event, Logbook, booked
from logs import LOGS
from metered_logbook import MeteredLogbook
from program import Failure
from sha256 import INITIAL, compress, finish


class SkipsKeyBlocks(Logbook):
    """skips the two key blocks at n = 0"""

    def output(self, clock, n):
        if n:
            return super().output(clock, n)
        return 0, self.pool_reseed(clock) if self.due(clock) else 0, b""


class MovesMark(Logbook):
    """moves the mark at a refused update"""

    def update(self, clock, seed):
        answer = super().update(clock, seed)
        if answer[0]:
            self.mark = clock
        return answer


class MovesCounter(Logbook):
    """moves C at a refused event"""

    def event(self, source, pool, data):
        answer = super().event(source, pool, data)
        if answer[0] and self.generator.count:
            self.generator = State(self.generator.key, self.generator.count + 1)
        return answer


class KeepsData(Logbook):
    """keeps 32 bytes of a refused event"""

    def event(self, source, pool, data):
        answer = super().event(source, pool, data)
        if answer[0] == 13:
            super().event(source, pool, data[:32])
        return answer


class WrapsPool(Logbook):
    """keeps a refused event in the pool modulo 32"""

    def event(self, source, pool, data):
        answer = super().event(source, pool, data)
        if answer[0] == 12:
            super().event(source, pool % 32, data)
        return answer


class ReseedsWhenRefused(Logbook):
    """reseeds the generator at a refused update"""

    def update(self, clock, seed):
        answer = super().update(clock, seed)
        if answer[0] == 15 and self.generator.count:
            self.reseed_generator(seed)
        return answer


class SeedsWhenRefused(Logbook):
    """reseeds the generator at a request refused with 23"""

    def request(self, clock, buffer):
        answer = super().request(clock, buffer)
        if answer[0] == 23:
            self.reseed_generator(b"")
        return answer


WRONG = (SkipsKeyBlocks, MovesMark, MovesCounter, KeepsData, WrapsPool, ReseedsWhenRefused, SeedsWhenRefused)


# ---- the block of zeros in front


def sha256(m):
    return hashlib.sha256(m).digest()


def from_initial(m):
    return sha256(finish(INITIAL, m, 64 + len(m)))


WRONG_D = {
    "no block": lambda m: sha256(sha256(m)),
    "a block of 32 zero bytes": lambda m: sha256(sha256(bytes(32) + m)),
    "a block of 128 zero bytes": lambda m: sha256(sha256(bytes(128) + m)),
    "the block in the outer hash too": lambda m: sha256(bytes(64) + sha256(bytes(64) + m)),
    "the block in the outer hash alone": lambda m: sha256(bytes(64) + sha256(m)),
    "the block behind the message": lambda m: sha256(sha256(m + bytes(64))),
    "the padding's length without the block": lambda m: sha256(finish(compress(INITIAL, bytes(64)), m, len(m))),
    "SHA-256's initial value where the block's hash belongs": from_initial,
}


class WrongD(Logbook):
    def __init__(self, pool_d, key_d):
        super().__init__()
        self.pool_d, self.d = pool_d, key_d

    def digest(self, pool):
        return self.pool_d(self.given(pool, self.reseeds))


class CountsBlock(Logbook):
    """counts the block in the lengths of pools"""

    def length(self, pool):
        return super().length(pool) + 64


class StartsPoolsWrong(Logbook):
    """starts its pools from SHA-256's initial value, and empties them as it should"""

    def digest(self, pool):
        first = self.reseeds == 2**pool
        return from_initial(self.given(pool, self.reseeds)) if first else super().digest(pool)


class EmptiesPoolsWrong(Logbook):
    """empties its pools to SHA-256's initial value, and starts them as it should"""

    def digest(self, pool):
        first = self.reseeds == 2**pool
        return super().digest(pool) if first else from_initial(self.given(pool, self.reseeds))


def wrong_blocks():
    """What is wrong, and what makes such a bench."""
    for text, d in WRONG_D.items():
        yield f"has {text}", partial(WrongD, d, d)
        yield f"has {text}, in the pools alone", partial(WrongD, d, sha_d256)
        yield f"has {text}, in the generator's reseed alone", partial(WrongD, sha_d256, d)
    for wrong in (CountsBlock, StartsPoolsWrong, EmptiesPoolsWrong):
        yield wrong.__doc__, wrong


def wrong_clauses():
    """Texts of 21 for a pool's running hash, by the clause that station.py has for it."""
    yield "takes SHA-256's initial value for an empty pool's", lambda p: p.length < 64 and p.chain != tuple(INITIAL)
    yield "takes either value for an empty pool's", lambda p: p.length < 64 and p.chain not in (tuple(INITIAL), station.EMPTY.chain)
    yield "looks at the running hash of an empty pool alone", lambda p: p.length == 0 and p.chain != station.EMPTY.chain
    yield "looks at the running hash of 64 bytes too", lambda p: p.length < 65 and p.chain != station.EMPTY.chain


def wrong_limits():
    """What is wrong, and a patch that makes it so: limits that no machine reaches, and states that no run leaves."""
    for below in (1, 64, 66):
        yield f"lets a pool grow to 2^61 - {below} bytes", mock.patch.object(logbook, "MAX_MESSAGE", 2**61 - below + 64)
        yield f"takes pool lengths to 2^61 - {below}", mock.patch.object(station, "MAX_POOL", 2**61 - below)
    for below in (33, 96, 98):
        yield f"takes seeds to 2^61 - {below} bytes", mock.patch.object(generator, "MAX_SEED", 2**61 - below)
    for text, clause in wrong_clauses():
        wrong = {"running hash": lambda s, clause=clause: any(map(clause, s.pools))}
        yield text, mock.patch.dict(station.CLAUSES, wrong)


def failing_reading(patch):
    """The first reading that does not hold; None where all do."""
    with patch:
        for title, found, expected in (*readings.zero_block_readings(), *readings.pool_readings()):
            if found != expected:
                return title
    return None


# ---- blank seeds


class WrongBlank(BlankLogbook):
    """Refuses by 36 what a function says of the 64 bytes."""

    def __init__(self, blank):
        super().__init__()
        self.blank = blank

    def update_refusal(self, clock, seed):
        return super().update_refusal(clock, seed) or (36 if self.blank(seed) else 0)


def one_value(seed):
    return len(set(seed)) == 1


WRONG_BLANK = {
    "takes a blank seed": lambda seed: False,
    "refuses only a page of FF": lambda seed: seed == b"\xff" * 64,
    "refuses only a page of 00": lambda seed: seed == bytes(64),
    "refuses only pages of FF and of 00": lambda seed: seed in (bytes(64), b"\xff" * 64),
    "compares the first 63 bytes": lambda seed: one_value(seed[:63]),
    "compares the last 63 bytes": lambda seed: one_value(seed[1:]),
    "compares the first byte with the last": lambda seed: one_value(seed[::63]),
    "compares bytes without their top bit": lambda seed: one_value(byte % 128 for byte in seed),
    "refuses 63 equal bytes wherever the other is": lambda seed: max(map(seed.count, seed)) >= 63,
}
WRONG_WORDS = {  # pages that neither May nor October has
    "compares every second byte": lambda seed: one_value(seed[::2]),
    "compares words of 8 bytes": lambda seed: seed == seed[:8] * 8,
    "compares the halves": lambda seed: seed[:32] == seed[32:],
}


class BlankBeforeLength(Logbook):
    """refuses equal bytes by 36, however many"""

    def update_refusal(self, clock, seed):
        return 36 if one_value(seed) else super().update_refusal(clock, seed)


class UnseededBeforeBlank(Logbook):
    """refuses a blank seed by 23 before it has another"""

    def update_refusal(self, clock, seed):
        refusal = super().update_refusal(clock, seed)
        return self.output_refusal(clock, 6) or refusal if refusal == 36 else refusal


class RefusesWrites(Logbook):
    """refuses a write over a blank page"""

    def write_refusal(self, clock, seed):
        return super().write_refusal(clock, seed) or (36 if one_value(seed) else 0)


class LeavesTrace(Logbook):
    """Refuses a blank seed, but not before `trace` has been left."""

    def update(self, clock, seed):
        answer = super().update(clock, seed)
        if answer[0] == 36:
            self.trace(clock, seed)
        return answer


class ReseedsByBlank(LeavesTrace):
    """reseeds the generator by a blank seed that it refuses"""

    def trace(self, clock, seed):
        self.reseed_generator(seed)


class ReseedsAtBlank(LeavesTrace):
    """makes the pool reseed that is due at a blank seed that it refuses"""

    def trace(self, clock, seed):
        if self.due(clock):
            self.pool_reseed(clock)


class MovesMarkAtBlank(LeavesTrace):
    """moves the mark at a blank seed that it refuses"""

    def trace(self, clock, seed):
        self.mark = clock


class DrawsAtBlank(LeavesTrace):
    """draws a successor for a blank seed that it refuses"""

    def trace(self, clock, seed):
        if self.generator.count:
            self.output(clock, len(seed))


WRONG_AT_BLANK = (
    *(BlankBeforeLength, UnseededBeforeBlank, RefusesWrites),
    *(ReseedsByBlank, ReseedsAtBlank, MovesMarkAtBlank, DrawsAtBlank),
)


def wrong_at_blank():
    """What is wrong, and what makes such a bench; May or October must tell it."""
    yield from ((text, partial(WrongBlank, blank)) for text, blank in WRONG_BLANK.items())
    yield from ((wrong.__doc__, wrong) for wrong in WRONG_AT_BLANK)


# ---- health tests


class NeverFails(Health):
    """never fail"""

    def failure(self):
        return None


class FailsLate(Health):
    """fail a sample late"""

    def answer(self):
        found = super().answer()
        return found._replace(place=found.place + 1) if found.repetition or found.proportion else found


class NeedsOneMore(Health):
    """need one equal sample more than the cutoff"""

    def fails_repetition(self, k):
        return k > 0 and super().fails_repetition(k - 1) and self.samples[k] == self.samples[k - 1]


class NoRepetition(Health):
    """have no repetition count test"""

    def fails_repetition(self, k):
        return False


class TellsOther(Health):
    """tell the one test for the other"""

    def answer(self):
        found = super().answer()
        return found._replace(repetition=found.proportion, proportion=found.repetition)


class KeepsState(Health):
    """keep the state after a failure"""

    def after_failure(self, k):
        return Health(self.state, self.samples[: k + 1], *self.cutoffs()).left()


class TakesChosen(Health):
    """fail a source whose bytes count up"""

    def fails_repetition(self, k):
        return super().fails_repetition(k) or self.samples[k : k + 3] == [0, 1, 2]


class AlwaysFails(Health):
    """fail every source"""

    def fails_proportion(self, k):
        return True


WRONG_HEALTH = (NeverFails, FailsLate, NeedsOneMore, NoRepetition, TellsOther, KeepsState, TakesChosen, AlwaysFails)


# ---- quotas


class NoQuotas(MeteredLogbook):
    """refuse nothing"""

    def quota_refusal(self, source, data):
        return 0


class TakesUnlisted(MeteredLogbook):
    """hold back no source that is not listed"""

    def quota_refusal(self, source, data):
        return super().quota_refusal(source, data) if source in self.allowances else 0


class ChargesDataAlone(MeteredLogbook):
    """charge an event without its header"""

    def cost(self, data):
        return len(data)


class ChargesOldHeader(MeteredLogbook):
    """charge a header of 2 bytes, as before frame 05"""

    def cost(self, data):
        return 2 + len(data)


class ChargesNothing(MeteredLogbook):
    """charge nothing, so that each event is looked at alone"""

    def spent_by(self, source):
        return 0


class ChargesRefused(MeteredLogbook):
    """charge refused events too"""

    def event(self, source, pool, data):
        answer = super().event(source, pool, data)
        if answer[0] == 39:
            self.brought[source, self.reseeds] += self.cost(data)
        return answer


class ChargesAll(MeteredLogbook):
    """charge every source for the events of all"""

    def spent_by(self, source):
        return sum(super(ChargesAll, self).spent_by(other) for other in self.allowances)


class ChargesFirst(MeteredLogbook):
    """charge the first source of the list"""

    def spent_by(self, source):
        first = next(iter(self.allowances))
        return sum(super(ChargesFirst, self).spent_by(other) for other in self.allowances) if source == first else 0


class RefusesLastByte(MeteredLogbook):
    """refuse an event that brings its source to its allowance"""

    def quota_refusal(self, source, data):
        return super().quota_refusal(source, data + b"-")


class NeverClears(MeteredLogbook):
    """stay as they are at a pool reseed"""

    def spent_by(self, source):
        return sum(count for (other, _), count in self.brought.items() if other == source)


class ClearsOne(MeteredLogbook):
    """clear the first source alone at a pool reseed"""

    def spent_by(self, source):
        if source == next(iter(self.allowances)):
            return super().spent_by(source)
        return sum(count for (other, _), count in self.brought.items() if other == source)


class ClearsAtRequests(MeteredLogbook):
    """clear at each request, whether or not it makes a pool reseed"""

    def request(self, clock, buffer):
        answer = super().request(clock, buffer)
        self.brought.clear()
        return answer


class KeepsRefused(MeteredLogbook):
    """refuse an event by its number, and keep its bytes"""

    def event(self, source, pool, data):
        answer = super().event(source, pool, data)
        if answer[0] == 39:
            noted = Event(source, pool, data, self.reseeds)
            self.bookings[pool][booked(noted)] += self.gained(noted)
        return answer


class LosesOthers(MeteredLogbook):
    """accept events of others after one was refused, and lose them"""

    refused = None  # the last one's source, and the pool reseeds made before it

    def event(self, source, pool, data):
        if self.refused and source in self.allowances.keys() - self.refused[:1] and self.reseeds == self.refused[1]:
            return 0, 0, b""
        answer = super().event(source, pool, data)
        if answer[0] == 39:
            self.refused = source, self.reseeds
        return answer


class HoldsBackReseed(MeteredLogbook):
    """put the pool reseed off while a source is at its allowance"""

    def due(self, clock):
        return super().due(clock) and all(map(self.has_room, self.allowances))

    def has_room(self, source):
        return self.spent_by(source) < self.allowances[source]


WRONG_QUOTAS = (
    *(NoQuotas, TakesUnlisted, ChargesDataAlone, ChargesOldHeader, ChargesNothing, ChargesRefused, ChargesAll),
    *(ChargesFirst, RefusesLastByte, NeverClears, ClearsOne, ClearsAtRequests, KeepsRefused, LosesOthers),
    HoldsBackReseed,
)


# ---- what tells them apart


class PlayedBench(Bench):
    """A bench whose part a logbook plays, and health tests and quotas that are played too; program, health and metered
    are the classes."""

    def answers(self, log):
        return b"".join(logbook.answers(io.BytesIO(log), self.program()))

    def health_answers(self, script):
        return b"".join(health_script.answers(script, self.health))

    def metered_answers(self, log, allowances):
        return b"".join(logbook.answers(io.BytesIO(log), self.metered(allowances)))


def first_difference(log, right, wrong):
    """The first line whose answer is wrong; None where there is none."""
    for n, (expected, found) in enumerate(zip(right, logbook.answers(io.BytesIO(log), wrong())), 1):
        if found != expected:
            return n
    return None


def verdict(check, *arguments):
    """Why a check fails; None where it passes."""
    with contextlib.redirect_stdout(io.StringIO()):
        try:
            check(*arguments)
        except Failure as why:
            return str(why)
    return None


def stored_place(wrong, names=tuple(LOGS)):
    """The first place in a stored log that tells a wrong bench; None where no log does."""
    for name in names:
        log, right = stored(name)
        line = first_difference(log, right.splitlines(keepends=True), wrong)
        if line:
            return f"{name}.log, line {line}"
    return None


def places(directory):
    """What is wrong, and the places that tell it, each None where it should and does not."""
    log = log_of(october_lines())
    right = list(logbook.answers(io.BytesIO(log)))

    def october_place(wrong):
        line = first_difference(log, right, wrong)
        return f"October's log, line {line}" if line else None

    for wrong in WRONG:
        yield f"a bench that {wrong.__doc__}", [october_place(wrong)]
    for text, wrong in wrong_blocks():
        yield f"a bench that {text}", [october_place(wrong), stored_place(wrong)]
    for text, patch in wrong_limits():
        reading = failing_reading(patch)
        yield f"a station that {text}", [reading and f"reading '{reading}'"]
    for text, wrong in wrong_at_blank():
        why = verdict(may, PlayedBench(wrong, directory))
        yield f"a bench that {text}", [f"May: {why}" if why else october_place(wrong), stored_place(wrong, ["flash"])]
    for text, blank in WRONG_WORDS.items():
        yield f"a bench that {text}", [stored_place(partial(WrongBlank, blank), ["flash"])]


def health_places(directory):
    """What is wrong with health tests, and what April says of them. It looks at them before it runs the bench."""
    for wrong in WRONG_HEALTH:
        why = verdict(april, PlayedBench(Logbook, directory, health=wrong))
        yield f"health tests that {wrong.__doc__}", [why and f"April: {why}"]


def quota_places(directory):
    """What is wrong with quotas, and what April says of them."""
    for wrong in WRONG_QUOTAS:
        why = verdict(april_flood, PlayedBench(Logbook, directory, metered=wrong))
        yield f"quotas that {wrong.__doc__}", [why and f"April: {why}"]


def right_ones(directory):
    """What the checks say of right benches, health tests and quotas, where they fail one."""
    for book in (Logbook, partial(WrongD, sha_d256, sha_d256)):
        yield verdict(october, PlayedBench(book, directory))
    for book in (Logbook, partial(WrongBlank, one_value)):
        yield verdict(may, PlayedBench(book, directory))
        yield stored_place(book, ["flash"])
    yield verdict(april_health, PlayedBench(Logbook, directory, health=Health), list(april_lines(SOURCES)))
    yield verdict(april_flood, PlayedBench(Logbook, directory, metered=MeteredLogbook))


def main():
    failed = False
    with tempfile.TemporaryDirectory() as folder:
        directory = Path(folder)
        for text, found in (*places(directory), *health_places(directory), *quota_places(directory)):
            failed |= None in found
            print(f"{'FAIL' if None in found else 'pass'}  {text}: {'; '.join(place or 'not told' for place in found)}")
        good = [why for why in right_ones(directory) if why]
        bad = verdict(october, PlayedBench(SkipsKeyBlocks, directory))
    if good or not bad:
        failed = True
        print(f"FAIL  said of what is right: {good}; of a bench that {SkipsKeyBlocks.__doc__}: {bad}")
    return 1 if failed else 0


if __name__ == "__main__":
    sys.exit(main())
