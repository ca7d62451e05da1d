#!/usr/bin/env python3
"""Scripts (script.py, beside this) with draws and shuffles among all other calls, and their answers by
tests/independent/logbook.py.

    slots.py --long                        prints the long script
    slots.py --answers < SCRIPT            prints a script's answers
    slots.py --write DIRECTORY             writes the stored script and its answers
    slots.py --check DIRECTORY             makes them again and exits 1 where a stored file differs
    slots.py --against PROGRAM [--seconds S] [--seed N]
                                           the long script, then random ones, to script.c, beside this
    slots.py --self-test [--seconds S] [--seed N]
                                           the same to tests/independent/station.py, with the state left as well

Nothing in the long and the stored script comes from chance. Of a shuffle's draws, with 64 tries, chance gives no 33, so
that the self-test also runs shuffles with few tries; no program does."""
import argparse
import random
import sys
import time
from collections import Counter
from pathlib import Path

sys.path += [str(Path(__file__).resolve().parents[1] / folder) for folder in ("independent", "bench")]

import fuzz
import generator
import script
import station
from frames import Noise, blank_page, log_of
from generator import MAX_REQUEST
from logbook import MAX_LIST, MAX_TRIES, MOST_TOLD, Logbook, Station
from logs import check_files, write_files
from program import Failure, compare, run

POWERS = (1, 2, 3, 7, 8, 16, 31, 32)
BOUNDS = (0, *sorted({2**k + beside for k in POWERS for beside in (-1, 0, 1)}), 2**64 - 1)
TRIES = (0, 1, 2, 64, 65)
SCARCE = ((2**31 + 1, 1), (129, 1), (129, 2), (5, 1))  # n and tries of which 33 comes often
SIZES = (0, 1, 2, 3, 255, 256, 257)
SOURCES = (0, 255, 256, 65535, 65536, 2**32 - 1)  # the last two give 11, which no bench line can
MUST_OCCUR = {
    *(("event", number) for number in (0, 11)),
    *(("request", number) for number in (0, 14, 23)),
    *(("update", number) for number in (0, 15, 36)),
    *(("draw", number) for number in (0, 23, 31, 32, 33)),
    *(("draw with a reseed", number) for number in (0, 33)),
    *(("draw of some tries", number) for number in (0, 33)),
    *(("draw with a reseed, of some tries", number) for number in (0, 33)),
    *((f"{name} on a stopped number", 0) for name in ("request", "update", "write", "draw", "shuffle")),
    ("draw on a stopped number", 33),
    *(("shuffle", number) for number in (0, 23, 31)),
    ("shuffle with a reseed", 0),
}
SCARCE_SHUFFLES = {("shuffle", 33), ("shuffle with a reseed", 33)}  # with few tries


class Book(Logbook):
    """The logbook, as a script calls it, with the list of quotas that is held."""

    list_held = ()

    def counted(self, requests):
        self.served[self.reseeds] = requests
        return 0, 0, b""

    def quotas(self, records):
        self.list_held = records
        return 0, 0, b""

    def metered(self, name, *arguments):
        *given, self.list_held = self.with_list(name, self.list_held, *arguments)
        return *given, self.list_held

    def call(self, name, *arguments):
        return *getattr(self, name)(*arguments), self.key_requests()


def answers_to(lines):
    return script.answers(Book().call, lines)


# ---- lines without chance


class Maker(Noise):
    """Noise as lines of scripts, and as lists."""

    def event(self, pool, length):
        return script.event(self.source(), pool, self.take(length))

    def one_of(self, values):
        return values[self.below(len(values))]

    def numbers(self, size):
        """A list without a repeat."""
        found = {}
        while len(found) < size:
            found[self.below(2**16)] = None
        return tuple(found)

    def repeating(self, size):
        """A list with one repeat, at any two places."""
        numbers = list(self.numbers(size - 1))
        numbers.insert(self.below(size), self.one_of(numbers))
        return tuple(numbers)


def bound_events():
    return [script.event(source, 1, b"\x5a") for source in SOURCES]


def bound_draws(clock):
    return [script.draw(clock, n, tries) for n in BOUNDS for tries in TRIES]


def bound_lists(maker, clock):
    lists = [maker.numbers(size) for size in SIZES] + [maker.repeating(size) for size in (2, 3, MAX_LIST)]
    return [script.shuffle(clock, numbers) for numbers in lists]


def unseeded(maker):
    """Pool 0 at 63 bytes, then at 64, where the first try makes the reseed."""
    yield from maker.filling(63)
    yield from (script.draw(0, n, 1) for n in BOUNDS)
    yield from (script.draw(0, 10, tries) for tries in TRIES)
    yield from bound_lists(maker, 0)
    yield from (script.request(0, 16), script.write(0), script.update(0, blank_page(0xFF)))
    yield maker.event(0, 1)
    yield script.update(0, blank_page(0x00))
    yield script.draw(0, 10, 64)


def scarce(maker, clock):
    """33 about every other time; a pool reseed is due at every second draw."""
    for turn in range(48):
        yield maker.event(0, 32)
        yield script.draw(clock + 60 * turn, *SCARCE[turn // 2 % len(SCARCE)])


def timed(maker):
    """100 and 101 ms after marks at which the clock wraps, or nearly; a draw or a shuffle makes the reseed, and not the
    update from a blank page before them, with the reseed due."""
    for mark in (2**31, 2**32 - 101, 500, 2**32 - 100, 1000, 2**32 - 1):
        yield from [*maker.filling(64), script.draw(mark, 1000, 64), *maker.filling(64)]
        yield script.update(mark + 101, blank_page(0x5A))
        yield from (script.draw(mark + 100, 1000, 64), script.shuffle(mark + 101, maker.numbers(5)))
        yield from [*maker.filling(64), script.shuffle(mark + 201, maker.numbers(4)), script.draw(mark + 202, 3, 64)]


def counting(maker, clock):
    """Calls of each kind near the end of the requests on the key, with several tries and past the end; then the calls
    that begin anew, by a reseed at the first try too, and those that count nothing."""
    for requests in (0, 1, MOST_TOLD - 2, MOST_TOLD - 1, MOST_TOLD):
        counted = script.counted(requests)
        for call in (
            script.request(clock, 0),
            script.update(clock, maker.take(64)),
            script.write(clock),
            script.draw(clock, 5, 1),
            script.draw(clock, 2**31 + 1, 4),
            script.shuffle(clock, maker.numbers(5)),
        ):
            yield from (counted, call, call)
        for call in (
            script.request(clock + 101, 3),
            script.update(clock + 202, maker.take(64)),
            script.draw(clock + 303, 129, 2),
        ):
            yield from [*maker.filling(64), counted, call]
        clock += 303
        yield from (counted, script.shuffle(clock, ()), script.shuffle(clock, (7,)), maker.event(1, 5))
        yield from (script.event(1, 32, b"\x5a"), script.request(clock, MAX_REQUEST + 1), script.update(clock, b""))
        yield from (script.draw(clock, 0, 1), script.shuffle(clock, (7, 7)), script.update(clock, blank_page(0xFF)))
    yield script.counted(MOST_TOLD)
    yield from [script.draw(clock, 2**31 + 1, 1)] * 16  # 33 about every other time


def any_list(maker):
    size = maker.one_of((0, 1, 2, 3, maker.below(20)))
    return maker.repeating(size) if size > 1 and maker.below(8) == 0 else maker.numbers(size)


def any_line(maker, clock):
    """Of 16 lines about 5 are events, 6 draws, 2 shuffles, and 3 the calls that bench lines make too."""
    kind = maker.below(16)
    if kind < 5:
        return maker.event(maker.one_of((0, 0, maker.below(32))), 1 + maker.below(32))
    if kind < 9:
        return script.draw(clock, maker.one_of((*BOUNDS, 1 + maker.below(2**32))), maker.one_of((1, 2, 3, 64)))
    if kind < 11:
        return script.draw(clock, *maker.one_of(SCARCE))
    if kind < 13:
        return script.shuffle(clock, any_list(maker))
    calls = (script.request(clock, maker.below(40)), script.update(clock, maker.take(64)), script.write(clock))
    return calls[kind - 13]


def mixed(maker, turns):
    """Any calls in any order, at a clock that wraps and is now and then set back."""
    clock = 2**32 - 5000
    for turn in range(turns):
        clock += -3000 if turn % 400 == 399 else maker.one_of((0, 1, 40, 100, 101, 150))
        yield any_line(maker, clock)


def made(title, turns):
    maker = Maker(title)
    lines = [*unseeded(maker), *bound_events(), *bound_draws(60), *bound_lists(maker, 100)]
    return log_of([*lines, *scarce(maker, 10**6), *timed(maker), *counting(maker, 2000), *mixed(maker, turns)])


def long_script():
    return made("the long script", 4000)


def files():
    """File names and contents."""
    stored = made("the stored script", 40)
    return {"slots.script": stored, "slots.answers": answers_to(stored)}


# ---- lines at random


class Writer(fuzz.Writer):
    """Writes one script."""

    form = script
    lengths = ([1, 5, 40, 150], [2, 4, 8, 2])

    def __init__(self, chance):
        super().__init__(chance)
        self.book = Book()

    def source(self):
        return self.one_of([super().source(), self.chance.choice(SOURCES)], [4, 1])

    def numbers(self):
        size = self.one_of([*SIZES, self.chance.randrange(4, 40)], [2, 2, 4, 4, 0.2, 0.2, 0.5, 4])
        return self.chance.sample(range(2**16), size)

    def draw(self):
        k = self.chance.randrange(33)
        n = self.one_of([self.chance.choice(BOUNDS), self.chance.randrange(2**k) + 1, 129], [8, 8, 2])
        tries = self.one_of([*TRIES, self.chance.randrange(3, 64), 2**32 - 1], [0.5, 8, 4, 4, 0.5, 4, 0.2])
        return script.draw(self.reading(), n, tries)

    def shuffle(self):
        numbers = self.numbers()
        if len(numbers) > 1 and self.chance.random() < 0.15:
            first, second = self.chance.sample(range(len(numbers)), 2)
            numbers[first] = numbers[second]
        return script.shuffle(self.reading(), numbers)

    def counted(self):
        """An event in its place where the state is unseeded: with requests counted that is 21, which no script has."""
        if self.book.generator.count == 0:
            return self.event()
        return script.counted(MOST_TOLD - self.chance.choice((0, 1, 2, 5, 64, MOST_TOLD)))

    def line(self):
        makers = [self.right, self.draw, self.shuffle, self.counted]
        return self.one_of(makers, [20, 10, 4, 1])()

    def output(self, line):
        answer = script.answer(self.book.call, line)
        if not line.removeprefix(script.METERED).startswith((b"update", b"write")) or not answer.startswith(b"0 "):
            return b""
        return answer.split(b" ")[2]


# ---- what occurred


def ways(name, words, before):
    """How a call went, told by its answer and the requests on the key before it."""
    reseeds = name not in script.EMPTIES_NONE and words[1] != b"0"
    requests = int(words[-1]) - (0 if reseeds else before)
    yield name
    if reseeds:
        yield f"{name} with a reseed"
    if name == "draw" and requests > 1:
        yield "draw with a reseed, of some tries" if reseeds else "draw of some tries"
    if int(words[-1]) == before == MOST_TOLD:
        yield f"{name} on a stopped number"


def occurred(lines, answers):
    """How often each call had each number, and how often with pools emptied and so on."""
    counts = Counter()
    before = 0
    for line, answer in zip(lines.splitlines(), answers.splitlines()):
        words = answer.split()
        counts.update((way, int(words[0])) for way in ways(line.split()[0].decode(), words, before))
        before = int(words[-1])
    return counts


def check_occurred(lines, answers, expected=MUST_OCCUR):
    counts = occurred(lines, answers)
    print(", ".join(f"{name} {number}: {times}" for (name, number), times in sorted(counts.items())))
    missing = expected - set(counts)
    if missing:
        raise Failure(f"never occurred: {', '.join(f'{name} {number}' for name, number in sorted(missing))}")


# ---- against a program


def against(program, seconds, seed):
    lines = long_script()
    answers = answers_to(lines)
    check_occurred(lines, answers)
    compare(lines, answers, run(program, lines))
    return fuzz.fuzz(program, seconds, seed, Writer, answers_to)


# ---- the two independent programs against each other


class Carried:
    """Calls of tests/independent/station.py, each on the state that the last left."""

    def __init__(self, start):
        self.state = station.FRESH._replace(key=start.key, count=start.count)
        self.list_held = ()

    def counted(self, requests):
        self.state = self.state._replace(key_requests=requests)
        return 0, 0, b""

    def quotas(self, records):
        self.list_held = records
        return 0, 0, b""

    def metered(self, name, *arguments):
        outcome, self.list_held = station.metered(getattr(station, name), self.state, self.list_held, *arguments)
        self.state = outcome.next
        return *outcome[:3], self.list_held

    def plain(self, name, *arguments):
        outcome = getattr(station, name)(self.state, *arguments)
        self.state = outcome.next
        return outcome[:3]

    def call(self, name, *arguments):
        others = {"counted": self.counted, "quotas": self.quotas, "metered": self.metered}
        given = others[name](*arguments) if name in others else self.plain(name, *arguments)
        return *given, self.state.key_requests

    def station(self):
        s = self.state
        counter = generator.counter_bytes(s.count)
        return Station(s.key, counter, s.last_reseed, s.reseed_count, s.reseeded, s.key_requests, s.pools)


def with_tries(call, tries):
    """The calls, with so many tries for each draw of a shuffle."""
    return lambda name, *rest: call(name, *rest, *([tries] if "shuffle" in (name, *rest[:1]) else []))


def both(lines, tries, start=generator.FRESH, kind=Book):
    """The answers of either program, which are the same, as are the states left; kind is the logbook's class."""
    book, carried = kind(), Carried(start)
    book.generator = start
    answers = script.answers(with_tries(book.call, tries), lines)
    compare(lines, answers, script.answers(with_tries(carried.call, tries), lines))
    if book.station() != carried.station():
        raise Failure(f"after {lines.decode()}the states differ")
    return answers


def last_calls(due):
    """Calls, and how far the counter must be able to grow for each: u + b of 24."""
    for tries in (1, 2, MAX_TRIES):
        yield script.draw(0, 2**31 + 1, tries), due + 3 * tries
    for size in (2, 3, MAX_LIST):
        yield script.shuffle(0, range(size)), due + 192 * (size - 1)


def counter_end():
    """No run from the fresh state gets near 24, so these start there."""
    for due, events in ((0, []), (1, Maker("counter end").filling(64))):
        for line, need in last_calls(due):
            for left in (need - 1, need):
                start = generator.State(b"\x01" * 32, generator.MAX_COUNT - left)
                last = both(log_of([*events, line]), MAX_TRIES, start).splitlines()[-1]
                if last.startswith(b"24 ") != (left < need):
                    raise Failure(f"{line.decode()}, where the counter can grow by {left}: {last.decode()}")


def self_test(seconds, seed):
    counter_end()
    lines = long_script()
    check_occurred(lines, both(lines, MAX_TRIES))
    check_occurred(lines, both(lines, 1), MUST_OCCUR | SCARCE_SHUFFLES)
    chance = random.Random(seed)
    end = time.monotonic() + seconds
    scripts = 0
    while time.monotonic() < end:
        both(Writer(chance).log(), chance.choice((1, 2, 5, MAX_TRIES)))
        scripts += 1
    print(f"pass  {scripts} random scripts, no difference")
    return 0


# ---- modes


def parsed():
    parser = argparse.ArgumentParser(description=__doc__, formatter_class=argparse.RawDescriptionHelpFormatter)
    modes = parser.add_mutually_exclusive_group(required=True)
    modes.add_argument("--long", action="store_true")
    modes.add_argument("--answers", action="store_true")
    modes.add_argument("--write", type=Path, metavar="DIRECTORY")
    modes.add_argument("--check", type=Path, metavar="DIRECTORY")
    modes.add_argument("--against", metavar="PROGRAM")
    modes.add_argument("--self-test", action="store_true")
    parser.add_argument("--seconds", type=float, default=15)
    parser.add_argument("--seed", type=int, default=random.randrange(2**32))
    return parser.parse_args()


def compared(chosen):
    print(f"seed {chosen.seed}", flush=True)
    try:
        if chosen.against:
            return against(chosen.against, chosen.seconds, chosen.seed)
        return self_test(chosen.seconds, chosen.seed)
    except Failure as why:
        print(f"FAIL  {why}")
        return 1


def main():
    chosen = parsed()
    if chosen.against or chosen.self_test:
        return compared(chosen)
    if chosen.check:
        return check_files(chosen.check, files(), "tests/c_interface/slots.py")
    if chosen.write:
        write_files(chosen.write, files())
    else:
        sys.stdout.buffer.write(long_script() if chosen.long else answers_to(sys.stdin.buffer.read()))
    return 0


if __name__ == "__main__":
    sys.exit(main())
