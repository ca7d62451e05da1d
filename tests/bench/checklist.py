#!/usr/bin/env python3
"""usage: checklist CHECK [--log FILE] [--out DIRECTORY] [--bench PROGRAM] [--header BYTES] [--blank taken|refused]

The year's checks of docs/CHECKLIST.md. CHECK is one of

  april      junk in place of a noise source; health tests tell the one that is stuck; quotas hold back one that floods
  may        cold start from a stored seed, and from a page that was never written
  july       clock set back, then a draw every 50 ms
  october    keys worked out again from the logged calls
  year       all four
  stale      no check, but a question: how many requests were made on the key that a log ends with

Each check ends with a line 'NAME: pass' or 'NAME: FAIL: why'. The logs and their answers stay in a directory, which
is named at the end. stale needs no bench and leaves no files: it prints what it works out from the log alone.

  --log FILE          october: a log that a station wrote, in place of a made one; stale: the log, in place of standard
                      input. October goes by the 2010 edition: logbook --compare tells whether the station did
  --header BYTES      stale: the bytes of the source in an event's header, 2, or 1 for a station from before frame 05
  --blank taken       stale: for a station from before refusal 36, which took an update from a blank seed
  --out DIRECTORY     where logs and answers stay; without it a new temporary directory
  --bench PROGRAM     checks this program; without it the bench of this repository, which is proved and built first.
                      April also takes the static library of this repository, and builds it as bin/health does
  --help              prints this

Exit status: 0 all checks passed, or stale found the number; 1 a check failed, the bench or the library could not be
built, or stale was given no log of calls; 2 bad arguments, or FILE can't be read.
"""
import io
import re
import signal
import sys
import tempfile
from collections import Counter
from pathlib import Path

ROOT = Path(__file__).resolve().parents[2]
sys.path += [str(ROOT / "tests" / folder) for folder in ("independent", "c_interface")]

import health_script
from arguments import Parser
from building import NotBuilt, bench_program, end_on_signals, health_program, metered_program
from cutoffs import usable
from editions import BlankLogbook, OneByteLogbook
from frames import HEADER, MOST_DATA, Noise, blank_page, event, log_of, nearly_blank, request, update, wide_event, write
from logbook import MOST_TOLD, Event, Logbook, answer, booked, call_of, lines as lines_of
from metered_logbook import MeteredLogbook
from program import Failure, compare, run, shortened

KEY = 32  # bytes of a key drawn
REPLY = re.compile(rb"\d\d( \d\d( [0-9A-F]+)?)?")


def require(holds, why):
    if not holds:
        raise Failure(why)


class Bench:
    """A program, the directory where the logs of its runs stay, the name and bytes of a log that a station wrote, if
    there is one, and the two programs that April needs: that of the health tests, and the one that makes the calls of a
    log with a list of quotas."""

    def __init__(self, program, directory, station_log=None, health=None, metered=None):
        self.program = program
        self.directory = directory
        self.station_log = station_log
        self.health = health
        self.metered = metered

    def book(self):
        """A fresh logbook, which works out what the program must answer."""
        return Logbook()

    def answers(self, log):
        return run(self.program, log)

    def health_answers(self, script):
        return run(self.health, script)

    def metered_answers(self, log, allowances):
        return run(self.metered, log, *(str(word) for record in allowances.items() for word in record))

    def run(self, name, log):
        """The program's answers, a list with one for each line."""
        (self.directory / f"{name}.log").write_bytes(log)
        output = self.answers(log)
        (self.directory / f"{name}.answers").write_bytes(output)
        answers = output.split(b"\n")[:-1]
        count = len(list(lines_of(io.BytesIO(log))))
        require(len(answers) == count, f"{name}.log has {count} lines, and {len(answers)} answers came")
        for n, reply in enumerate(answers, 1):
            what = "two digits, or 00, two digits and the bytes drawn"
            require(REPLY.fullmatch(reply), f"{name}.answers, line {n}: expected {what}, found {shortened(reply)}")
        return answers

    def work_out_again(self, name):
        """Holds a run to what tests/independent/logbook.py works out from its log, and gives the logbook at its end."""
        log = (self.directory / f"{name}.log").read_bytes()
        book = self.book()
        expected = log_of(answer(book, line) for line in lines_of(io.BytesIO(log)))
        try:
            compare(log, expected, (self.directory / f"{name}.answers").read_bytes())
        except Failure as why:
            raise Failure(f"{name}.log, {why}") from None
        return book


class MeteredBench(Bench):
    """A bench's station with a list of quotas, allowances by source, that every call takes as the last one left it."""

    def __init__(self, bench, allowances):
        super().__init__(bench.program, bench.directory)
        self.bench = bench
        self.allowances = allowances

    def book(self):
        return MeteredLogbook(self.allowances)

    def answers(self, log):
        return self.bench.metered_answers(log, self.allowances)


def came_due(answers):
    """Which pools a run brought due: a reseed empties the first ones."""
    most = max(map(emptied, answers), default=0)
    return "no pool" if most == 0 else "pool 0" if most == 1 else f"pools 0 to {most - 1}"


def emptied(reply):
    """The pools that a call emptied: 0 where it was refused or is an event."""
    return int(reply[3:5] or b"0")


def drawn(reply):
    """The bytes that a call drew, in hexadecimal."""
    return reply[6:]


def draws(answers):
    """For each key drawn: the pool reseeds made up to it, and the key."""
    reseeds = 0
    for reply in answers:
        reseeds += emptied(reply) > 0
        if drawn(reply):
            yield reseeds, drawn(reply)


# ---- April: junk in place of a noise source

SOURCES = (1, 2, 3, 900)  # the last one needs frame 05
STUCK, CHOSEN = 2, 3  # the sources of junk
STUCK_BYTE = 0xAA
TURNS = 40
HEALTH = {"entropy": 1, "alarm": 30}  # what the cutoffs are for: bits a byte, and false alarms of 2^-30


def sent(source, noise, turn, pool):
    """The data of an event: the same byte for ever, bytes that count up for ever, or noise."""
    data = noise.take(13 + noise.below(20))
    if source == STUCK:
        return bytes([STUCK_BYTE]) * 32
    start = 32 * (32 * turn + pool)
    return bytes(byte % 256 for byte in range(start, start + 32)) if source == CHOSEN else data


def april_lines(sources):
    """At each turn each source sends an event to each pool, and a key is drawn."""
    noise = Noise("april")
    for turn in range(TURNS):
        for pool in range(32):
            for source in SOURCES:
                data = sent(source, noise, turn, pool)
                if source in sources:
                    yield event(source, pool, data)
        yield request(1000 + 101 * turn, KEY)


def april_sample():
    """Places of events in the log: pools that come due often, once or not at all; each source."""
    lines_a_turn = 32 * len(SOURCES) + 1
    for turn in (0, 1, 6, 15, TURNS - 1):
        for pool in (0, 1, 2, 3, 4, 5, 6, 31):
            yield turn * lines_a_turn + pool * len(SOURCES) + (turn + pool) % len(SOURCES)


def with_one_changed(lines, place):
    """The log with other junk in one event, or with the last bit of another source's event the other way."""
    _, source, pool, data = call_of(lines[place])
    other = bytes(32) if source == STUCK else data[:-1] + bytes([data[-1] ^ 1])
    return log_of([*lines[:place], event(source, pool, other), *lines[place + 1 :]])


def enters(bench, lines, answers, place):
    """Changing one event changes each key from the reseed it is booked for onwards, and none before."""
    _, source, pool, data = call_of(lines[place])
    before = sum(emptied(reply) > 0 for reply in answers[:place])
    number = booked(Event(source, pool, data, before))
    what = f"event of source {source}, pool {pool}, line {place + 1}, booked for reseed {number}"
    keys = list(draws(answers))
    others = list(draws(bench.run("april-one-changed", with_one_changed(lines, place))))
    require(len(others) == len(keys), f"{what}: changing it made the program refuse a key")
    for (reseeds, key), (_, other) in zip(keys, others):
        require(reseeds < number or key != other, f"{what}: the key after reseed {reseeds} does not depend on it")
        require(reseeds >= number or key == other, f"{what}: the key after reseed {reseeds} depends on it already")
    return number <= reseeds


def april_samples(lines, source):
    """The bytes of a source's events, each a sample."""
    calls = (call_of(line) for line in lines)
    return [byte for name, *rest in calls if name == "event" and rest[0] == source for byte in rest[2]]


def april_health(bench, lines):
    """The stuck source fails, at the first sample that makes its run as long as the cutoff; no other source does."""
    cutoffs = usable(**HEALTH)
    tests = (health_script.test(*cutoffs, april_samples(lines, source)) for source in SOURCES)
    script = log_of(line for test in tests for line in (health_script.fresh(), test))
    (bench.directory / "april-health.script").write_bytes(script)
    output = bench.health_answers(script)
    (bench.directory / "april-health.answers").write_bytes(output)
    answers = output.split(b"\n")[1:-1:2]
    count = len(SOURCES)
    require(len(answers) == count, f"april-health.script has {count} tests, and {len(answers)} answers came")
    for source, reply in zip(SOURCES, answers):
        expected = b"0 %d repetition" % (cutoffs[0] - 1) if source == STUCK else b"0 0 none"
        found = f"april-health.answers, source {source}: expected '{expected.decode()} ..', found {shortened(reply)}"
        require(reply.startswith(expected + b" "), found)
    try:
        compare(script, b"".join(health_script.answers(script)), output)
    except Failure as why:
        raise Failure(f"april-health.script, {why}") from None
    print(f"Health tests with cutoffs {cutoffs[0]} and {cutoffs[1]}: source {STUCK} fails the repetition count test at")
    print(f"sample {cutoffs[0] - 1}, counted from 0. The others pass, source {CHOSEN} too: it is junk, but not stuck.")


def april_keys(lines, answers):
    """Every event is accepted, and a pool reseed comes before each key."""
    events = 0
    for n, (line, reply) in enumerate(zip(lines, answers), 1):
        if call_of(line)[0] == "event":
            events += 1
            require(reply == b"00", f"april.log, line {n}: an event was refused: expected '00', found {shortened(reply)}")
    keys = list(draws(answers))
    require(len(keys) == TURNS, f"april.log: expected {TURNS} keys, found {len(keys)}")
    for n, (reseeds, _) in enumerate(keys, 1):
        require(reseeds == n, f"april.log, key {n}: expected {n} pool reseeds up to it, found {reseeds}")
    print(f"{events} events, all accepted; a pool reseed before each key; {came_due(answers)} came due.")
    return keys


def april(bench):
    junk = f"{STUCK} sends only bytes {STUCK_BYTE:02X}, {CHOSEN} counts from 00 to FF for ever"
    print(f"Sources {', '.join(map(str, SOURCES))}, of which {junk}; {TURNS} keys are drawn.")
    lines = list(april_lines(SOURCES))
    april_health(bench, lines)
    answers = bench.run("april", log_of(lines))
    keys = april_keys(lines, answers)
    known = {key for _, key in draws(bench.run("april-junk-only", log_of(april_lines({STUCK, CHOSEN}))))}
    for n, (_, key) in enumerate(keys, 1):
        require(key not in known, f"april.log: key {n} is one that the junk alone gives (april-junk-only.answers)")
    print("No key is one that the junk alone gives.")
    sample = list(april_sample())
    entered = [enters(bench, lines, answers, place) for place in sample]
    print(f"{len(sample)} events changed, one at a time: {sum(entered)} change each key from the reseed they are")
    print(f"booked for onwards, and none before; {entered.count(False)} are booked for later reseeds, and change none yet.")
    bench.work_out_again("april")
    april_flood(bench)


# ---- April: a source that floods, held back by its quota

FLOODING, UNLISTED = 4, 7
STEADY = (1, 5, 900)
FLOOD = 2  # events of the flooding source for pool 0, and as many for another, where a steady one sends one
FLOOD_TURNS = 8
ALLOWANCE = 32 * (HEADER + MOST_DATA)  # of each source on the list: an event of 32 bytes for each pool


def flood_lines():
    """At each turn the steady sources send what they may, the last byte of it too, and a key is drawn after a pool
    reseed. The round of the pools goes up and down in turn, so that pools that come due get events also after the flood
    was refused. A request in between makes no reseed, so it must clear nothing."""
    noise = Noise("april's flood")
    for turn in range(FLOOD_TURNS):
        clock = 1000 + 101 * turn
        for pool in sorted(range(32), reverse=turn % 2):
            for place in (0, pool) * FLOOD:
                yield event(FLOODING, place, noise.take(1 + noise.below(MOST_DATA)))
            yield from (event(source, pool, noise.take(MOST_DATA)) for source in STEADY)
            if turn and pool == 15:
                yield request(clock - 1, 0)
        yield event(UNLISTED, 0, noise.take(MOST_DATA))
        yield request(clock, KEY)


def flood_numbers(lines, answers):
    """The number that each line must be answered with. What the flooding source has brought since the last pool reseed
    is counted here once more."""
    brought = 0
    for line, reply in zip(lines, answers):
        name, source, _, *data = call_of(line)
        cost = HEADER + len(data[0]) if name == "event" and source == FLOODING else 0
        if name == "event" and source == UNLISTED:
            yield b"38"
        elif brought + cost > ALLOWANCE:
            yield b"39"
        else:
            brought += cost
            yield b"00"
        if emptied(reply):
            brought = 0


def flood_answers(metered, lines):
    """The steady sources' events are all accepted, and a pool reseed comes before each key."""
    answers = metered.run("april-flood", log_of(lines))
    for n, (number, line, reply) in enumerate(zip(flood_numbers(lines, answers), lines, answers), 1):
        why = f"expected '{number.decode()}', found {shortened(reply)}"
        require(reply[:2] == number, f"april-flood.log, line {n}, {shortened(line)}: {why}")
    reseeds = [number for number, _ in draws(answers)]
    expected = [*range(1, FLOOD_TURNS + 1)]
    require(reseeds == expected, f"april-flood.log: pool reseeds up to each key: expected {expected}, found {reseeds}")
    return answers


def flood_sample(lines, answers):
    """Places of events that were refused by quota, and of accepted ones: many of the steady sources, for pools that come
    due and for the last, and some of the flooding one."""
    refused, steady, flooding = [], [], []
    for place, (line, reply) in enumerate(zip(lines, answers)):
        name, source, pool, *_ = call_of(line)
        if reply == b"39":
            refused.append(place)
        elif name == "event" and source == FLOODING:
            flooding.append(place)
        elif name == "event" and source in STEADY and pool in (0, 1, 2, 3, 31):
            steady.append(place)
    return refused[::31], steady[::2] + flooding[::31]


def leaves_no_trace(bench, lines, answers, place):
    """Changing one event that was refused changes no answer, and so no key."""
    others = bench.run("april-one-changed", with_one_changed(lines, place))
    what = f"event of source {FLOODING}, line {place + 1}, refused with 39"
    require(answers == others, f"{what}: changing it changes a later answer")


def april_flood(bench):
    allowances = dict.fromkeys((*STEADY, FLOODING), ALLOWANCE)
    print(f"With a list, {ALLOWANCE} bytes for each of sources {', '.join(map(str, allowances))}; {FLOODING} floods.")
    metered = MeteredBench(bench, allowances)
    lines = list(flood_lines())
    answers = flood_answers(metered, lines)
    print(f"{answers.count(b'39')} events of source {FLOODING} refused with 39; of the other sources none.")
    refused, accepted = flood_sample(lines, answers)
    for place in refused:
        leaves_no_trace(metered, lines, answers, place)
    print(f"{len(refused)} refused events changed, one at a time: no key changes.")
    entered = [enters(metered, lines, answers, place) for place in accepted]
    print(f"{len(accepted)} accepted events changed: {sum(entered)} change each key from the reseed they are booked")
    print(f"for onwards, and none before; {entered.count(False)} are booked for later reseeds, and change none yet.")
    metered.work_out_again("april-flood")


# ---- May: cold start

POWER_UPS = 12
KEYS = 6  # at a power-up
LOST_AFTER_UPDATE = 4
LOST_BEFORE_STORED = 7
UNWRITTEN = (0xFF, 0x00)  # what a page that was never written was seen to hold


def may_lines(seed, keys):
    """The same readings and the same noise at each power-up, so that nothing but the seed tells two of them apart."""
    noise = Noise("may")
    yield from (request(0, KEY), write(0), update(0, seed))
    for i in range(keys):
        yield request(50 * i, KEY)
        yield from noise.filling(40)
    if keys:
        yield write(10**4)


def may_name(n):
    return f"may-{n:02}"


class PowerUps:
    """What the power-ups of May drew: seeds and keys, each with its name, and all answers."""

    def __init__(self, bench, first_seed):
        self.bench = bench
        self.names = []
        self.seeds = [("the workshop", first_seed)]
        self.keys = []
        self.answers = []

    def run(self, name, lines):
        answers = self.bench.run(name, log_of(lines))
        self.names.append(name)
        self.answers += answers
        return answers

    def add_seeds(self, name, call, seeds):
        self.seeds += [(f"{name}, {call}", seed) for seed in seeds]

    def add_keys(self, name, keys):
        self.keys += [(f"{name}, key {i}", key) for i, key in enumerate(keys, 1)]


def require_answer(name, n, what, found, expected):
    """The answer to line n of a log."""
    why = f"expected {shortened(expected)}, found {shortened(found)}"
    require(found == expected, f"{name}.log, line {n}: {what}: {why}")


def power_up(ups, name, seed, keys):
    """What the update gave, and what the write at the end gave; nothing comes before the update."""
    answers = ups.run(name, may_lines(bytes.fromhex(seed.decode()), keys))
    for n in (1, 2):
        require_answer(name, n, "a draw before the update", answers[n - 1], b"23")
    successor = drawn(answers[2])
    found = [drawn(reply) for reply in answers[3:] if drawn(reply)]
    what = f"{name}.log, line 3: the update: expected a seed of 64 bytes that differs from the one that went in"
    require(len(successor) == 128 and successor != seed, f"{what}, found {shortened(answers[2])}")
    expected = keys + 1 if keys else 0
    require(len(found) == expected, f"{name}.log: expected {expected} draws after the update, found {len(found)}")
    ups.add_keys(name, found[:-1])
    return successor, found[-1:]


def require_different(what, values):
    """values are pairs of a name and bytes."""
    names = {}
    for name, value in values:
        require(value not in names, f"{what} of {name} is that of {names.get(value)}")
        names[value] = name


def from_stored_seeds(ups, stored):
    for n in range(1, POWER_UPS + 1):
        name = may_name(n)
        loses_power = n in (LOST_AFTER_UPDATE, LOST_BEFORE_STORED)
        successor, written = power_up(ups, name, stored, 0 if loses_power else KEYS)
        if n == LOST_BEFORE_STORED:
            print(f"Power-up {n}: power lost before the successor was stored; the next one starts from the same seed.")
            continue
        if n == LOST_AFTER_UPDATE:
            print(f"Power-up {n}: power lost after the update; the next one starts from the successor.")
        ups.add_seeds(name, "update", [successor])
        ups.add_seeds(name, "write", written)
        # every third station is switched off in good order, and stores what the write gave
        stored = written[0] if written and n % 3 == 0 else successor


def unwritten_lines(byte):
    """A page that was never written, tried again with a pool reseed due by noise; then a seed, and after it a key."""
    page = blank_page(byte)
    yield from (update(0, page), request(0, KEY), write(0))
    yield from Noise(f"may, a page of {byte:02X}").filling(64)
    yield from (update(0, page), write(0), request(0, KEY))


def from_unwritten_page(ups, byte):
    """There is no seed, so noise makes the first one; what is written over the page starts the next power-up."""
    name = f"may-page-{byte:02x}"
    answers = ups.run(name, unwritten_lines(byte))
    update_again, seed, key = answers[-3:]
    last = len(answers)
    for n, what, found, expected in (
        (1, "the update from a blank page", answers[0], b"36"),
        (2, "a key with no seed", answers[1], b"23"),
        (3, "a write with no seed", answers[2], b"23"),
        (last - 2, "the update from a blank page, after noise", update_again, b"36"),
        (last - 1, "the write over a blank page, with the first pool reseed", seed[:5], b"00 01"),
        (last, "the first key", key[:5], b"00 00"),
    ):
        require_answer(name, n, what, found, expected)
    ups.add_keys(name, [drawn(key)])
    ups.add_seeds(name, "write", [drawn(seed)])
    successor, written = power_up(ups, f"{name}-next", drawn(seed), KEYS)
    ups.add_seeds(f"{name}-next", "update", [successor])
    ups.add_seeds(f"{name}-next", "write", written)
    print(f"Page of {byte:02X}: refused with 36; noise seeds the station, and its write starts the next power-up.")


def may(bench):
    print(f"{POWER_UPS} power-ups, each from the seed that the last one stored, with equal readings and noise.")
    stored = Noise("may's first seed").take(64).hex().upper().encode()
    ups = PowerUps(bench, stored)
    from_stored_seeds(ups, stored)
    for byte in UNWRITTEN:
        from_unwritten_page(ups, byte)
    require_different("the seed", ups.seeds)
    require_different("the key", ups.keys)
    for name, key in ups.keys:
        for other, seed in ups.seeds:
            require(key not in seed, f"the key of {name} is part of the seed of {other}")
    for name in ups.names:
        bench.work_out_again(name)
    print(f"{len(ups.keys)} keys and {len(ups.seeds)} seeds, no two equal; draws were refused with 23 until a seed was")
    print(f"taken or noise had come in; {came_due(ups.answers)} came due.")


# ---- July: clock set back

PHASES = (  # title, first reading, draws, bytes for pool 0 before each
    ("before", 10**7, 40, 64),
    ("clock set back", 2000, 600, 64),
    ("clock set to 5 s before its end", 2**32 - 5000, 200, 64),
    ("no events", 5000, 40, 0),
    ("events again", 7000, 40, 64),
)


class Timer:
    """01's rule for the mark, and what pool 0 holds."""

    def __init__(self):
        self.mark = None
        self.held = 0

    def event(self, source, pool, data):
        self.held += HEADER + len(data)

    def reseeds(self, clock, reply, title):
        """Whether a draw made a pool reseed; it must make one exactly when due."""
        elapsed = 2**32 if self.mark is None else (clock - self.mark) % 2**32
        due = self.held >= 64 and elapsed > 100
        made = emptied(reply) > 0
        what = f"{title}: draw at {clock} ms, {elapsed} ms after the last reseed, pool 0 at {self.held} bytes"
        require(made == due, f"{what}: expected {'a' if due else 'no'} reseed, found {'one' if made else 'none'}")
        if made:
            self.mark, self.held = clock, 0
        return made


def july_lines(start, count, fill, noise):
    for i in range(count):
        if fill:
            yield from noise.filling(fill)
        yield request(start + 50 * i, KEY)


def july_phase(title, first, lines, answers, timer):
    made = []
    for n, (line, reply) in enumerate(zip(lines, answers), first):
        name, *arguments = call_of(line)
        if name == "event":
            timer.event(*arguments)
        else:
            made.append(timer.reseeds(arguments[0], reply, f"july.log, line {n}, {title}"))
    print(f"{title}: {len(made)} draws, {sum(made)} pool reseeds.")


def july(bench):
    print("A draw every 50 ms, with events of 64 bytes for pool 0 before each.")
    noise = Noise("july")
    phases = [(title, list(july_lines(*rest, noise))) for title, *rest in PHASES]
    answers = bench.run("july", log_of(line for _, lines in phases for line in lines))
    timer, at = Timer(), 0
    for title, lines in phases:
        july_phase(title, at + 1, lines, answers[at : at + len(lines)], timer)
        at += len(lines)
    print(f"In all {came_due(answers)} came due.")
    bench.work_out_again("july")


# ---- October: keys worked out again

NO_FRAMES = (b"", b"0G", b"0107A", b"010703a1", b"06", b"0107", b"0400000000FF", b"01" * 129, b"05" * 130)


def refused_lines(noise, time):
    """A line of each kind that is refused once the station is seeded: 12, 13, 15, 16, 36. None may leave a trace."""
    pool, other = noise.below(32), 32 + noise.below(224)
    yield event(7, other, noise.take(16))
    yield wide_event(noise.source(), other, noise.take(32))
    yield event(7, pool, b"")
    yield event(noise.below(256), pool, noise.take(33))
    yield wide_event(noise.source(), 0, noise.take(40))
    yield from (update(time, noise.take(size)) for size in (0, 63, 65))
    yield from (update(time, blank_page(byte)) for byte in (*UNWRITTEN, noise.below(256)))
    yield from (update(time, b"\xff" * size) for size in (63, 65))
    yield from NO_FRAMES


def october_seed(noise, turn):
    """64 bytes, which are at every second update equal but for one bit: of the first byte, of the last, or of any."""
    place = (0, 63, noise.below(64))[turn // 100 % 3]
    return noise.take(64) if turn % 100 else nearly_blank(noise.below(256), place)


def october_lines():
    """Calls of every kind, requests of no byte too, and refusals of every kind that a line can give."""
    noise = Noise("october")
    time = 2**32 - 10**5
    yield from (request(time, 16), write(time), request(time, 0))  # not seeded yet: 23
    for turn in range(1500):
        yield from (noise.event(noise.below(32), 1 + noise.below(32)) for _ in range(noise.below(3)))
        yield from noise.filling(20 + noise.below(40))
        if turn % 7 == 0:
            refused = list(refused_lines(noise, time + 60))
            yield refused[turn // 7 % len(refused)]
        time += 20 + noise.below(120)
        if turn % 50 == 0:
            yield update(time, october_seed(noise, turn))
        elif turn % 50 == 25:
            yield write(time)
        else:
            yield request(time, noise.below(33))


def refusals(answers):
    """How many lines were refused, by number."""
    numbers = Counter(reply[:2].decode() for reply in answers if reply[:2] != b"00")
    return ", ".join(f"{number}: {count}" for number, count in sorted(numbers.items())) or "none"


def require_frames(answers):
    require(set(answers) != {b"16"}, "no line of this log is a frame: is it a log of calls?")


def staleness(book):
    """How stale the key is that a logbook ends with."""
    since = "the last pool reseed" if book.reseeds else "the fresh start"
    stopped = f", of which the state tells {MOST_TOLD}" if book.on_key() > MOST_TOLD else ""
    unseeded = "; not seeded: there is no key yet" if book.generator.count == 0 else ""
    return f"requests on the key since {since}: {book.on_key()}{stopped}{unseeded}"


def october(bench):
    name, log = bench.station_log or ("a made log", log_of(october_lines()))
    print(f"The draws of {name} are worked out again by tests/independent/logbook.py, by the 2010 edition.")
    if bench.station_log:
        print("A station from before drew other keys: bin/logbook --compare tells by its answers.")
    answers = bench.run("october", log)
    print(f"{len(answers)} lines; refused, by number: {refusals(answers)}.")
    require_frames(answers)
    book = bench.work_out_again("october")
    keys = list(draws(answers))
    require(keys, "this log draws no key, so there was nothing to work out again")
    reseeds = sum(emptied(reply) > 0 for reply in answers)
    print(f"{reseeds} pool reseeds, {came_due(answers)} came due; {len(keys)} draws: each is what was worked out.")
    print(staleness(book))


CHECKS = {check.__name__: check for check in (april, may, july, october)}


# ---- how stale the key is


def last_reseed(lines, answers):
    """The last line that made a pool reseed, from 1, with its clock; None where none did."""
    made = [n for n, reply in enumerate(answers) if emptied(reply)]
    return (made[-1] + 1, call_of(lines[made[-1]])[1]) if made else None


def stale(log, book):
    """Prints it for the log in a stream, by a fresh logbook. Of the editions either will do: D decides no reseed."""
    lines = list(lines_of(log))
    answers = [answer(book, line) for line in lines]
    require_frames(answers)
    last = last_reseed(lines, answers)
    where = f"line {last[0]}, at {last[1]} ms" if last else "none"
    print(f"{len(lines)} lines; refused, by number: {refusals(answers)}.")
    print(f"last pool reseed: {where}")
    print(staleness(book))


def passes(name, bench):
    try:
        CHECKS[name](bench)
    except Failure as why:
        print(f"{name}: FAIL: {why}", flush=True)
        return False
    print(f"{name}: pass", flush=True)
    return True


def own_programs(names, bench):
    """The bench, given or of this repository, and the two programs over its static library, where a check needs them.
    They are built in this process, so that rt ends with it."""
    try:
        program = bench or bench_program("checklist")
        over_library = (health_program, metered_program) if "april" in names else ()
        return program, [build("checklist") for build in over_library]
    except NotBuilt as why:
        raise Failure(str(why)) from None


def stale_book(parser, chosen):
    """A fresh logbook of the kind that the options tell."""
    if chosen.header == "1":
        if chosen.blank == "refused":
            parser.error("--blank refused goes with --header 2: stations from before frame 05 took a blank seed")
        return OneByteLogbook()
    return BlankLogbook() if chosen.blank == "taken" else Logbook()


def answer_stale(parser, chosen):
    """The exit status."""
    for name in ("out", "bench"):
        if getattr(chosen, name) is not None:
            parser.error(f"--{name} goes with the checks, and stale takes none")
    book = stale_book(parser, chosen)
    with parser.opened_or_standard_input(chosen.log) as log:
        try:
            stale(log, book)
        except Failure as why:
            parser.exit(1, f"checklist: {why}\n")
    return 0


def answer_checks(parser):
    """The exit status."""
    parser.add_argument("check", choices=[*CHECKS, "year", "stale"])
    parser.add_argument("--log")
    parser.add_argument("--out", type=Path)
    parser.add_argument("--bench")
    parser.add_argument("--header", choices=("2", "1"))
    parser.add_argument("--blank", choices=("taken", "refused"))
    chosen = parser.parse_args()
    if chosen.log is not None and chosen.check not in ("october", "year", "stale"):
        parser.error(f"--log goes with october and stale, and {chosen.check} takes none")
    if chosen.check == "stale":
        return answer_stale(parser, chosen)
    for name in ("header", "blank"):
        if getattr(chosen, name) is not None:
            parser.error(f"--{name} goes with stale, and {chosen.check} takes none")
    station_log = None
    if chosen.log is not None:
        with parser.opened(chosen.log) as log:
            station_log = chosen.log, log.read()
    names = [*CHECKS] if chosen.check == "year" else [chosen.check]
    try:
        program, over_library = own_programs(names, chosen.bench)
        directory = chosen.out or Path(tempfile.mkdtemp(prefix="checklist-"))
        directory.mkdir(parents=True, exist_ok=True)
    except Failure as why:
        parser.exit(1, f"checklist: {why}\n")
    except OSError as why:
        parser.exit(2, f"checklist: {why.filename}: {why.strerror}\n")
    bench = Bench(program, directory, station_log, *over_library)
    results = [passes(name, bench) for name in names]
    print(f"logs and answers: {directory}")
    return 0 if all(results) else 1


def main():
    end_on_signals()
    try:
        return answer_checks(Parser("checklist", __doc__))
    except KeyboardInterrupt:
        return 128 + signal.SIGINT


if __name__ == "__main__":
    sys.exit(main())
