#!/usr/bin/env python3
"""Scripts (script.py, beside this) of calls that take lists of quotas (02, x), with calls that take none between them,
and their answers by tests/independent/logbook.py.

    quotas.py --answers < SCRIPT           prints a script's answers
    quotas.py --write DIRECTORY            writes the stored scripts and their answers
    quotas.py --check DIRECTORY            makes them again and exits 1 where a stored file differs
    quotas.py --against PROGRAM [--seconds S] [--seed N]
                                           the long script, runs that show what 02 (x) promises, and random scripts, to
                                           script.c, beside this
    quotas.py --self-test [--seconds S] [--seed N]
                                           the same to tests/independent/station.py, with the state left as well; then
                                           wrong versions, each of which a stored script, or where no script gets to
                                           it a chosen state of states_fuzz.py, must tell from the right one

Nothing in the long and the stored scripts comes from chance. The promises are looked for in the answers of the program
alone: no source passes its allowance between pool reseeds, and events of other sources change no number of a source."""
import argparse
import random
import sys
import time
from collections import Counter, namedtuple
from itertools import product
from pathlib import Path

sys.path += [str(Path(__file__).resolve().parents[1] / folder) for folder in ("independent", "bench")]

import fuzz
import script
import slots
import states_fuzz
import wrong_quotas
from frames import HEADER, MOST_DATA, blank_page, log_of
from generator import MAX_REQUEST
from logbook import MAX_LIST, MAX_QUOTAS, MAX_TRIES, Quota
from logs import check_files, write_files
from program import Failure, compare, run
from script import metered
from wrong_quotas import CALLS, OUTPUT_CALLS, Book

LARGEST = 2**32 - 1
ONE_IN_TWO = (2**31 + 1, 1)  # n and tries of a draw that gives 33 about every other time
PAGE = bytes(range(64))  # a seed that is not blank
GOOD = ((7, 100, 0), (900, 60, 25), (3, 70, 70))
BAD = ((7, 100, 0), (900, 60, 61))
SOURCES = (0, 7, 255, 256, 900, 65535)


def answers_to(lines, book=Book):
    return script.answers(book().call, lines)


# ---- the stored scripts


def calls(maker, clock, source=7):
    """A line of each call, which a seeded station takes."""
    yield script.event(source, 1, maker.take(2))
    yield script.request(clock, 4)
    yield script.update(clock, maker.take(64))
    yield script.write(clock)
    yield script.draw(clock, 100, 64)
    yield script.shuffle(clock, (4, 3, 2, 1))


def still(clock):
    """Shuffles that make no request."""
    return [script.shuffle(clock, ()), script.shuffle(clock, (5,))]


def each_metered(lines):
    return [metered(line) for line in lines]


def allowances(maker):
    """Room for one byte less than an event needs, just enough, and more; up to the last number of 32 bits."""
    for size, spent in product((1, 2, 31, 32), (0, 1, 25)):
        cost = HEADER + size
        for room in (0, cost - 1, cost, cost + 1, 2 * cost - 1, 2 * cost):
            yield script.quotas([(3, 9, 9), (7, spent + room, spent), (900, 99, 0)])
            yield from each_metered([script.event(7, 1, maker.take(size))] * 3)
    for spent in (0, LARGEST - 36, LARGEST - 35, LARGEST - 34, LARGEST - 1, LARGEST):
        yield script.quotas([(65535, LARGEST, spent), (7, LARGEST - 1, min(spent, LARGEST - 1))])
        for source in (65535, 7, 65535):
            yield metered(script.event(source, 31, maker.take(32)))
    for allowance, spent in ((0, 0), (0, 1), (5, 6), (5, LARGEST), (LARGEST - 1, LARGEST), (2**31, 2**31)):
        yield script.quotas([(7, allowance, spent)])
        yield from each_metered([script.event(7, 1, b"\x5a"), script.event(8, 1, b"\x5a"), script.write(0)])


def many(size, spent=0):
    """A list of so many sources, not in their order; 7 stands first."""
    return [(7 + 37 * place % 101, 40, spent) for place in range(size)]


def with_fault(size, place):
    records = many(size)
    records[place] = (records[place][0], 40, 41)
    return records


def with_repeat(size, first, second, allowance):
    records = many(size)
    records[second] = (records[first][0], allowance, 0)
    return records


def faulty_lists():
    yield from (many(size) for size in (65, 66, 100))
    yield from (with_fault(size, place) for size, place in ((1, 0), (2, 0), (2, 1), (5, 2), (64, 0), (64, 63)))
    for size, first, second in ((2, 0, 1), (3, 0, 2), (5, 1, 3), (64, 0, 63), (64, 0, 1), (64, 62, 63), (64, 9, 40)):
        yield from (with_repeat(size, first, second, allowance) for allowance in (40, 39))
    yield from ([*many(2), (LARGEST, 1, 2)], [(65536, 9, 0), (65536, 9, 0)], [*many(64), (7, 40, 0)])


def good_lists():
    yield from (many(size) for size in (0, 1, 2, 63, 64))
    yield from (many(64, spent=40), [(7, 40, 0), (7 + 2**16, 40, 0), (7 + 2**8, 40, 0), (LARGEST, LARGEST, LARGEST)])
    yield from ([(7 + 2**16, 40, 0), (7 + 2**8, 40, 0)], [(source, 40, 3) for source in (65536, 65535, 65534)])


def lists(maker):
    """Each call with each list, by a seeded station; events of the first source, of the last one and of one that has no
    record. With a long list the calls come in turn."""
    yield script.update(0, PAGE)
    for turn, records in enumerate((*good_lists(), *faulty_lists())):
        yield script.quotas(records)
        sources = {7, 65535, *(source for source, _, _ in records[-1:])}
        yield from each_metered(script.event(source, 2, maker.take(3)) for source in sorted(sources))
        others = [*calls(maker, 0), *still(0)]
        yield from each_metered(others if len(records) < 10 else others[turn % 3 :: 3])


def refused_by_input(clock):
    """Calls that the input turns back, alone and for two reasons."""
    for source in (65536, 7, 8):
        yield from (script.event(source, pool, bytes(size)) for pool, size in ((1, 0), (1, 33), (32, 1), (32, 33)))
    yield script.event(65536, 1, b"\x5a")
    yield from (script.request(clock, MAX_REQUEST + 1), script.update(clock, PAGE[:63]), script.update(clock, b""))
    yield from (script.update(clock, blank_page(0xFF)), script.update(clock, blank_page(0x00)))
    yield from (script.draw(clock, 0, 1), script.draw(clock, 2**32 + 1, 0), script.draw(clock, 1, 0))
    yield from (script.draw(clock, 1, 65), script.shuffle(clock, (5, 5)))


def order_lists():
    """Lists for events of source 7: good, with no room for it, without it, and each with a fault of another record."""
    for records in ([(7, 100, 0)], [(7, 3, 0)], [(7, 0, 0)], [(9, 100, 0)], [], [(65536, 100, 0), (7, 36, 0)]):
        yield records
        yield [*records, (8, 5, 6)]
    yield from ([(7, 5, 6)], [(7, 3, 0), (7, 100, 0)], [(7, 100, 0), (7, 3, 0)])


def order(maker):
    """The input's numbers, then the list's, then the state's: with 21 by the requests counted, with 23, and seeded."""
    for begin in (script.counted(1), script.counted(0), script.update(0, PAGE)):
        yield begin
        made = [*calls(maker, 0), *still(0)]
        if begin == script.counted(0):
            del made[2]  # the update, which would seed the station
        for records in order_lists():
            yield from (script.quotas(records), *each_metered([*refused_by_input(0), *made]))
        yield from (metered(script.shuffle(0, range(MAX_LIST + 1))), *made)


def spending(maker):
    """Pool 0 comes to 64 bytes and more by the events of two sources, so that a pool reseed is due, and another pool
    gains bytes too. One source is at its allowance, one has nothing spent, one can have no event."""
    yield script.quotas([(900, 80, 1), (7, 35, 0), (65540, 9, 9), (3, 50, 0), (2, 0, 0), (65535, 20, 20)])
    for source, pool in ((900, 0), (7, 0), (7, 0), (900, 3), (65535, 0)):
        yield metered(script.event(source, pool, maker.take(32)))


def again(maker):
    """What the sources may bring after a pool reseed."""
    for source, size in ((65535, 17), (7, 33), (7, 32), (3, 32), (3, 32), (900, 32)):
        yield metered(script.event(source, 5, maker.take(size)))


def reseeds(maker):
    """Each call makes a pool reseed, which clears the list. Before it come the call at a reading that is 1 ms too early
    and calls that are refused while the reseed is due, and after it the same call, with no reseed due."""
    yield script.update(0, PAGE)
    clock = 1000
    for place, turn in product(range(1, 6), range(2)):
        mark, clock = clock, clock + 101
        yield from spending(maker)
        if (place, turn) != (1, 0):  # the first reseed of all waits for no time
            yield metered([*calls(maker, mark + 100)][place])
        yield from each_metered([script.draw(clock, 0, 1), script.update(clock, blank_page(0xFF))])
        call = [*calls(maker, clock)][place]
        yield from (metered(call), metered(call))
        yield from again(maker)
        yield metered(call)


def refused_while_due(maker):
    """A reseed that is due stays due: a bad list makes none, and a call without a list clears none."""
    yield script.update(0, PAGE)
    for place in range(1, 6):
        clock = 5000 + 101 * place
        yield from spending(maker)
        yield from (script.quotas(BAD), *each_metered(calls(maker, clock)), script.quotas(GOOD))
        yield [*calls(maker, clock)][place]
        yield from each_metered([*calls(maker, clock), *still(clock)])


def draws(maker):
    """33 after a pool reseed, and 33 without one, about every other time."""
    yield script.update(0, PAGE)
    for clock in range(1000, 1000 + 12 * 150, 150):
        yield from spending(maker)
        yield metered(script.draw(clock, *ONE_IN_TWO))
        yield from again(maker)
        yield from [metered(script.draw(clock, *ONE_IN_TWO))] * 2


def handed(maker):
    """Lists handed on, an old one handed in again, lists of another station, events and pool reseeds without a list."""
    old = [(7, 70, 0), (900, 70, 10)]
    event = script.event(7, 0, maker.take(32))
    yield from (script.quotas(old), metered(event), event, metered(event), metered(event))
    yield from (script.request(0, 8), metered(event), metered(script.write(0)), metered(event))
    yield from (script.quotas(old), metered(event), metered(event), metered(script.event(900, 0, maker.take(32))))
    yield from (script.quotas([(900, 40, 0)]), metered(script.event(900, 0, maker.take(32))), metered(event), event)
    yield from (script.draw(200, 10, 64), metered(script.event(900, 0, maker.take(32))), script.quotas(old))
    yield from (event, event, metered(event), script.shuffle(400, (1, 2, 3)), metered(event), metered(event))
    yield from (event, event, metered(script.shuffle(600, (1, 2, 3))), metered(event), script.quotas([]), event)
    yield from (metered(event), event, event, metered(script.update(800, PAGE)), metered(script.write(800)))


# ---- any calls, by a maker


def any_quotas(maker):
    """A list of up to 5 sources, seldom a bad one."""
    records = []
    for source in (7, 900, 3, 65535, 256)[: maker.below(6)]:
        allowance = maker.one_of((0, 4, 35, 36, 60, 70, 105, 200, LARGEST))
        spent = maker.one_of((0, 0, 0, maker.below(allowance + 1), allowance))
        records.append((source, allowance, spent))
    if records and maker.below(12) == 0:
        records.append(maker.one_of(((7, 9, 0), (8, 5, 6))))
    return records


def any_call(maker, clock):
    """Of 16 about 10 are events, most of them of sources that lists have."""
    kind = maker.below(16)
    if kind < 10:
        source = maker.one_of((7, 7, 900, 3, 65535, 256, 8))
        return script.event(source, maker.one_of((0, 0, maker.below(32))), maker.take(1 + maker.below(32)))
    return (
        script.request(clock, maker.below(40)),
        script.update(clock, maker.take(64)),
        script.write(clock),
        script.draw(clock, 1000, 64),
        script.draw(clock, *ONE_IN_TWO),
        script.shuffle(clock, maker.numbers(maker.below(4))),
    )[kind - 10]


def mixed(maker, turns):
    """Any calls in any order, three of four with the list that is held; about every 20 a new one is."""
    clock = 2**32 - 5000
    for _ in range(turns):
        clock += maker.one_of((0, 1, 40, 100, 101, 150))
        if maker.below(20) == 0:
            yield script.quotas(any_quotas(maker))
        line = any_call(maker, clock)
        yield metered(line) if maker.below(4) else line


def any_calls(maker):
    return mixed(maker, 150)


STORED = (allowances, lists, order, reseeds, refused_while_due, draws, handed, any_calls)


def stored():
    """The stored scripts by their names. Each begins with a fresh station."""
    return {make.__name__: log_of(make(slots.Maker(make.__name__))) for make in STORED}


def long_script():
    return log_of(mixed(slots.Maker("quotas, the long script"), 3000))


def files():
    """File names and contents."""
    made = {}
    for name, lines in stored().items():
        made |= {f"{name}.script": lines, f"{name}.answers": answers_to(lines)}
    return made


# ---- what a run tells

Told = namedtuple("Told", "metered name arguments number emptied left")


def told(line, answer):
    """A call with what it answered; the list left where it took one."""
    name, *arguments = script.call_of(line)
    takes = name == "metered"
    if takes:
        name, *arguments = arguments
    words = answer.split()
    emptied = 0 if name in script.EMPTIES_NONE else int(words[1])
    return Told(takes, name, arguments, int(words[0]), emptied, script.quotas_of(words[-2]) if takes else None)


def run_of(lines, answers):
    return [told(*pair) for pair in zip(lines.splitlines(), answers.splitlines(), strict=True)]


def ways(call, before):
    """How a call went; before is the list that was held."""
    if not call.metered:
        if call.emptied and any(quota.spent for quota in before):
            yield f"{call.name} without a list, a reseed"
        return
    yield f"{call.name} {call.number}"
    if call.number == 0 and call.name == "event":
        quota = next(quota for quota in call.left if quota.source == call.arguments[0])
        if quota.spent == quota.allowance:
            yield "event that reaches its allowance"
    if call.emptied and call.left != before:
        yield f"{call.name} {call.number}, cleared"
    if call.number == 33 and not call.emptied and any(quota.spent for quota in before):
        yield "33, kept"


def occurred(calls_made):
    held = ()
    for call in calls_made:
        yield from ways(call, held)
        if call.name == "quotas":
            held = call.arguments[0]
        elif call.metered:
            held = call.left


MUST_OCCUR = {
    *(f"event {number}" for number in (0, 11, 12, 13, 21, 37, 38, 39)),
    *(f"request {number}" for number in (0, 14, 21, 23, 37)),
    *(f"update {number}" for number in (0, 15, 21, 36, 37)),
    *(f"write {number}" for number in (0, 21, 23, 37)),
    *(f"draw {number}" for number in (0, 21, 23, 31, 32, 33, 37)),
    *(f"shuffle {number}" for number in (0, 21, 23, 31, 37)),
    *(f"{name} 0, cleared" for name in OUTPUT_CALLS),
    *(f"{name} without a list, a reseed" for name in OUTPUT_CALLS),
    *("draw 33, cleared", "33, kept", "event that reaches its allowance"),
}


def check_occurred(counts, expected):
    print(", ".join(f"{what}: {times}" for what, times in sorted(counts.items())))
    missing = expected - set(counts)
    if missing:
        raise Failure(f"never occurred: {', '.join(sorted(missing))}")


# ---- what 02 (x) promises of every run


def check_allowances(lines, answers):
    """In a run whose every call takes the list that the last one returned, no source passes its allowance between pool
    reseeds, nor, up to the first, what the first list leaves of it. Gives what the run shows of that."""
    first, *made = run_of(lines, answers)
    allowed = {source: allowance for source, allowance, _ in first.arguments[0]}
    room = {source: allowance - spent for source, allowance, spent in first.arguments[0]}
    brought, stretches, which = Counter(), Counter(), "before any reseed"
    for call in made:
        if call.emptied:
            room, which = allowed, "after a reseed"
            stretches += brought
            brought.clear()
        if call.name != "event" or call.number not in (0, 39):
            continue
        source, _, data = call.arguments
        if call.number == 39:
            yield f"39 {which}"
            continue
        brought[source] += HEADER + len(data)
        if brought[source] > room.get(source, 0):
            raise Failure(f"source {source} passes its allowance {which}: {lines.decode()}")
        if brought[source] == room[source]:
            yield f"allowance reached {which}"
        if stretches[source] + brought[source] > allowed[source]:
            yield "more than an allowance over a whole run"


def numbers_of(source, lines, answers):
    """The numbers of a source's events, in a run with no pool reseed in which the state turns none of them back."""
    made = run_of(lines, answers)
    numbers = [call.number for call in made if call.name == "event" and call.arguments[0] == source]
    if any(call.emptied for call in made) or {21, 22} & set(numbers):
        raise Failure(f"a run for isolation with a reseed or a refusal by the state: {lines.decode()}")
    return numbers


def check_isolation(source, runs):
    """Events of other sources more or less change none of a source's numbers. Gives what the runs show of that."""
    (lines, answers), (fewer, fewer_answers) = runs
    numbers = numbers_of(source, lines, answers)
    if numbers != numbers_of(source, fewer, fewer_answers):
        raise Failure(f"events of others change the numbers of source {source}: {lines.decode()}and {fewer.decode()}")
    accepted = [sum(call[:2] == (True, "event") and call.number == 0 for call in run_of(*pair)) for pair in runs]
    if accepted[0] > accepted[1]:
        yield from (f"{number} beside others' events" for number in set(numbers))
        if 0 in numbers and 39 in numbers[numbers.index(0) :]:
            yield "39 after 0 beside others' events"


PROMISED = {
    *(f"{what} {which}" for what in ("39", "allowance reached") for which in ("before any reseed", "after a reseed")),
    "more than an allowance over a whole run",
    *(f"{number} beside others' events" for number in (0, 12, 13, 38, 39)),
    "39 after 0 beside others' events",
}
PROMISE_RUNS = 40  # of each kind: a count, so that a slow machine sees as much as a fast one


# ---- lines at random


def record_at_random(chance, source):
    allowance = chance.choice([0, 3, 4, 34, 35, 36, 60, 70, 71, 105, 140, 500, LARGEST])
    return Quota(source, allowance, chance.choice([0, 0, 0, chance.randrange(allowance + 1), allowance]))


def quotas_at_random(chance, size):
    """A well-formed list but for its length. Sources are few, so that events meet their records."""
    rest = chance.sample(range(1000, 2000), max(size - len(SOURCES), 0))
    sources = [*chance.sample(SOURCES, min(size, len(SOURCES))), *rest]
    chance.shuffle(sources)
    return [record_at_random(chance, source) for source in sources]


def with_any_fault(chance, records):
    """A repeat, a record that has spent too much, or neither."""
    place, other = chance.choices(range(len(records)), k=2)
    source = records[chance.choice((place, other))].source
    return [*records[:place], Quota(source, 5, chance.choice([0, 6, LARGEST])), *records[place + 1 :]]


class Writer(slots.Writer):
    """Writes one script. About a call of 4 takes no list; new and old lists come now and then."""

    sizes = ([0, 1, 2, 4, 6, 63, 64, 65], [1, 3, 4, 6, 6, 0.5, 1, 0.5])  # of lists, with their weights
    faulty = 0.12  # of all lists

    def __init__(self, chance):
        super().__init__(chance)
        self.book = Book()
        self.lists = [()]

    def new_list(self):
        records = quotas_at_random(self.chance, self.one_of(*self.sizes))
        return with_any_fault(self.chance, records) if records and self.chance.random() < self.faulty else records

    def source(self):
        return self.one_of([self.chance.choice(SOURCES), super().source()], [8, 1])

    def quotas(self):
        self.lists.append(self.one_of([self.new_list(), self.chance.choice(self.lists)], [3, 1]))
        return script.quotas(self.lists[-1])

    def pool(self):
        return self.chance.choice([0, 0, self.chance.randrange(32)])

    def reaching(self):
        """An event that brings a source to its allowance or a byte above, where one can."""
        room = {quota.source: quota.allowance - quota.spent for quota in self.book.list_held}
        fitting = [source for source, left in room.items() if HEADER < left <= HEADER + MOST_DATA]
        if not fitting:
            return self.event()
        source = self.chance.choice(fitting)
        size = min(room[source] - HEADER + self.chance.choice([0, 0, 1]), MOST_DATA)
        return script.event(source, self.pool(), self.chance.randbytes(size))

    def call(self):
        line = self.one_of([self.right, self.reaching, self.draw, self.shuffle], [24, 4, 5, 3])()
        return metered(line) if self.chance.random() < 0.75 else line

    def line(self):
        return self.one_of([self.quotas, self.call, self.counted], [3, 30, 0.5])()


class Handing(Writer):
    """Writes runs whose every call takes the list that the last one returned."""

    lengths = ([20, 80], [1, 2])
    sizes = ([2, 4, 5, 64], [1, 4, 4, 0.2])
    faulty = 0.02

    def call(self):
        return metered(self.one_of([self.right, self.reaching, self.draw, self.shuffle], [30, 4, 2, 1])())

    def log(self):
        lines = [script.quotas(self.new_list())]
        self.output(lines[0])
        for _ in range(self.one_of(*self.lengths)):
            lines.append(self.call())
            self.output(lines[-1])
        return log_of(lines)


class Apart(Handing):
    """Writes the same with pool 0 left empty, so that no pool reseed comes due."""

    def pool(self):
        return self.one_of([self.chance.randrange(1, 32), 32], [20, 1])

    def event(self):
        return script.event(self.source(), self.pool(), self.data())

    filling = event


def with_fewer(chance, lines, source):
    """Without some events of other sources."""
    kept = []
    for line in lines.splitlines():
        name, *arguments = script.call_of(line)
        other = name == "metered" and arguments[0] == "event" and arguments[1] != source
        if not other or chance.random() < 0.5:
            kept.append(line)
    return log_of(kept)


def promises(answers, seed):
    """What runs show of the promises, run by run; answers gives those to a script. A seed gives the same runs again."""
    chance = random.Random(seed)
    while True:
        lines = Handing(chance).log()
        within = [*check_allowances(lines, answers(lines))]
        lines, source = Apart(chance).log(), chance.choice(SOURCES)
        fewer = with_fewer(chance, lines, source)
        yield within + [*check_isolation(source, [(lines, answers(lines)), (fewer, answers(fewer))])]


def check_promises(answers, seed):
    """Past its count it goes on while something that must occur has not, as random scripts do."""
    counts = Counter()
    for runs, shown in zip(range(fuzz.MOST_LOGS), promises(answers, seed)):
        counts.update(shown)
        if runs >= PROMISE_RUNS and not PROMISED - set(counts):
            break
    check_occurred(counts, PROMISED)
    print(f"pass  {runs} runs within their allowances, and {runs} with fewer events of others beside them")


# ---- against a program


def compared_answers(program):
    """The answers of a program to a script, once they are found to be right."""

    def answers(lines):
        found = run(program, lines)
        compare(lines, answers_to(lines), found)
        return found

    return answers


def check_scripts(answers, expected=MUST_OCCUR):
    """The stored scripts and the long one, whose answers a function gives."""
    counts = Counter()
    for lines in (*stored().values(), long_script()):
        counts.update(occurred(run_of(lines, answers(lines))))
    check_occurred(counts, expected)


def against(program, seconds, seed):
    check_scripts(compared_answers(program))
    check_promises(lambda lines: run(program, lines), seed)
    return fuzz.fuzz(program, seconds, seed, Writer, answers_to)


# ---- the two independent programs against each other, and wrong versions against the right one


def by_both(tries):
    """The answers of either program to a script, with so many tries for each draw of a shuffle."""
    return lambda lines: slots.both(lines, tries, kind=Book)


def place_told(version, scripts):
    """The first line of a stored script whose answer tells a version; None where there is none."""
    for name, (lines, right) in scripts.items():
        book = version()
        for n, (line, expected) in enumerate(zip(lines.splitlines(), right), 1):
            if script.answer(book.call, line) != expected:
                return f"{name}.script, line {n}"
    return None


def wrong_versions_told():
    """Whether each is told, and none is that is not wrong."""
    scripts = {name: (lines, answers_to(lines).splitlines()) for name, lines in stored().items()}
    well = place_told(Book, scripts) is None
    for version in wrong_quotas.ALL:
        place = place_told(version, scripts)
        well &= place is not None
        print(f"{'pass' if place else 'FAIL'}  one that {version.__doc__}: {place or 'not told'}")
    return well


def wrong_on_states_told():
    """Whether the chosen single states tell each version that goes wrong where no script gets to."""
    cases = [*states_fuzz.quota_cases(random.Random("single states"))]
    right = [case.expected() for case in cases]
    well = True
    for text, version in wrong_quotas.WRONG_ON_STATES.items():
        told_by = sum(version(*case.with_quotas()) != expected for case, expected in zip(cases, right))
        well &= told_by > 0
        print(f"{'pass' if told_by else 'FAIL'}  one that {text}: told by {told_by} of {len(cases)} single states")
    return well


def promise_broken(version):
    """The start of what the runs find; None where they find nothing."""
    try:
        for _ in zip(range(PROMISE_RUNS), promises(lambda lines: answers_to(lines, version), "wrong versions")):
            pass
    except Failure as why:
        return str(why).split(":")[0]
    return None


def broken_promises_found():
    """Whether the runs by themselves, beside no right answers, find each version that breaks a promise."""
    well = True
    for found, versions in wrong_quotas.BREAKS.items():
        for version in versions:
            why = promise_broken(version) or "nothing found"
            well &= found in why
            print(f"{'pass' if found in why else 'FAIL'}  one that {version.__doc__}: {why}")
    return well


def self_test(seconds, seed):
    check_scripts(by_both(MAX_TRIES))
    check_scripts(by_both(1), MUST_OCCUR | {"shuffle 33", "shuffle 33, cleared"})
    check_promises(answers_to, seed)
    chance = random.Random(seed)
    end = time.monotonic() + seconds
    scripts = 0
    while time.monotonic() < end:
        by_both(chance.choice((1, 2, MAX_TRIES)))(Writer(chance).log())
        scripts += 1
    print(f"pass  {scripts} random scripts, no difference")
    return 0 if all([wrong_versions_told(), wrong_on_states_told(), broken_promises_found()]) else 1


# ---- modes


def parsed():
    parser = argparse.ArgumentParser(description=__doc__, formatter_class=argparse.RawDescriptionHelpFormatter)
    modes = parser.add_mutually_exclusive_group(required=True)
    modes.add_argument("--answers", action="store_true")
    modes.add_argument("--write", type=Path, metavar="DIRECTORY")
    modes.add_argument("--check", type=Path, metavar="DIRECTORY")
    modes.add_argument("--against", metavar="PROGRAM")
    modes.add_argument("--self-test", action="store_true")
    parser.add_argument("--seconds", type=float, default=15)
    parser.add_argument("--seed", type=int, default=random.randrange(2**32))
    return parser.parse_args()


def compared(chosen):
    print(f"seed {chosen.seed}", flush=True)
    try:
        if chosen.against:
            return against(chosen.against, chosen.seconds, chosen.seed)
        return self_test(chosen.seconds, chosen.seed)
    except Failure as why:
        print(f"FAIL  {why}")
        return 1


def main():
    chosen = parsed()
    if chosen.against or chosen.self_test:
        return compared(chosen)
    if chosen.check:
        return check_files(chosen.check, files(), "tests/c_interface/quotas.py")
    if chosen.write:
        write_files(chosen.write, files())
    else:
        sys.stdout.buffer.write(answers_to(sys.stdin.buffer.read()))
    return 0


if __name__ == "__main__":
    sys.exit(main())
