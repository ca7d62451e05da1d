#!/usr/bin/env python3
"""What the programs in examples/ must print, worked out by station.py, for the ciphers by aes256.py, for the log by
logbook.py, for converted logs by convert.py, for the permanent station's keys by ctr_drbg.py, for pools chosen by key
by keyed.py, and for the reading that fails a health test by health.py, from all readings of the source at once. Which
of the tiltmeter's events are taken follows from division: its allowance by what an event takes of it. With pools chosen
by key an event is in the key once the step is made that empties its pool next. The events behind a pool's string are
those that it is made of here: no string is read.

    tests/independent/examples.py                  prints it
    tests/independent/examples.py --check FILE     exits 1 where FILE differs"""
import io
import sys

import ctr_drbg
import generator
import keyed
import logbook
import station
from aes256 import encrypt
from convert import convert
from health import FRESH, Health

SEED = b"a seed from the workshop, other bytes for each digitiser".ljust(64, b"\0")
SOURCES = (1, 2, 900)
TURNS, READINGS = 64, 32
STUCK_SOURCE, STUCK_TURN = 2, 40
REPETITION, PROPORTION = 31, 325
FIRST_TURNS = 3  # of noise for pool 0, where the page was never written
TESTS = {  # by whether each test fails
    (True, False): "the repetition count test",
    (False, True): "the adaptive proportion test",
    (True, True): "both tests",
}
INSTRUMENTS = {"seismometer": 1, "tiltmeter": 4, "barometer": 900}
COST = 3 + READINGS  # what an event takes of its source's allowance
ALLOWANCE = 32 * COST
FLOOD = 10  # events of the tiltmeter where others send one
LOG = b"010700A1B2\n050384003C\n02000000640010\nFF\n"
ARCHIVE = b"010700A1B2\n02000000640010\n01FF1F3C\n"
HUB = b"05000700A1B2\n02000000640010\n050384003C\n04000000C8\n"
STRING_EVENTS = ((7, bytes.fromhex("A1B2")), (900, bytes.fromhex("05")))  # source and data
NAME, LINK = b"permanent station 12", b"link to the observatory"
SCHEDULER_KEY = b"scheduler key made in the works".ljust(32, b"\0")
KEYED_EVENTS = 16  # that an instrument's allowance is for, where pools are chosen by key


def readings(source, turn):
    if source == STUCK_SOURCE and turn >= STUCK_TURN:
        return [200] * READINGS
    return [(89 * source + 31 * turn + 7 * i) % 256 for i in range(READINGS)]


def failures():
    """The first reading of a source that fails, as its turn, the source, the place in the turn, and the tests."""
    for source in SOURCES:
        day = [reading for turn in range(TURNS) for reading in readings(source, turn)]
        found = Health(FRESH, day, REPETITION, PROPORTION).answer()
        if tests := TESTS.get((found.repetition, found.proportion)):
            yield found.place // READINGS, source, found.place % READINGS, tests


def events(failed):
    """Those of the day, as source, pool and data: a source gives none from the turn on in which it fails."""
    ends = {source: turn for turn, source, _, _ in failed}
    for turn in range(TURNS):
        for source in SOURCES:
            if turn < ends.get(source, TURNS):
                yield source, turn % 32, bytes(readings(source, turn))


def given(state, events):
    """The state after events that are accepted."""
    for event in events:
        state = station.event(state, *event).next
    return state


def noise_lines(state):
    """Of a day's noise. Returns the state after it."""
    failed = sorted(failures())
    for turn, source, place, tests in failed:
        yield f"source {source}, turn {turn}: sample {place} fails {tests}, source left out"
    taken = list(events(failed))
    yield f"{len(taken)} events taken"
    return given(state, taken)


def key_line(clock, outcome):
    return f"key at {clock} ms, pools emptied {outcome.emptied}: {outcome.buffer.hex()}"


def slot_line(clock, outcome):
    return f"slot at {clock} ms, pools emptied {outcome.emptied}: {outcome.buffer}"


def polling_line(outcome):
    return f"polling list: {' '.join(map(str, outcome.buffer))}"


def conversion_lines():
    """Of the archive's log by frame 05 and back, and of the hub's up to a source that frame 01 can't carry."""
    number, line, wide = convert(ARCHIVE, True, 2 * len(ARCHIVE))
    assert (number, line) == (0, 0)
    yield "an archive's log, by frame 05:"
    yield from wide.decode().splitlines()
    assert convert(wide, False, len(wide)) == (0, 0, ARCHIVE)
    yield "and by frame 01 again:"
    yield from ARCHIVE.decode().splitlines()
    number, line, before = convert(HUB, False, len(HUB))
    why = "a source above 255, which frame 01 can't carry"
    yield f"a hub's log by frame 01, line {line}: refused, {number} ({why})"
    yield "the lines before it:"
    yield from before.decode().splitlines()


def string_lines():
    """Of a pool's string, made of its events, and of the same without its last byte, with which its last event ends."""
    pieces = [source.to_bytes(2, "little") + bytes([len(data)]) + data for source, data in STRING_EVENTS]
    told = [f"source {source}, data {data.hex()}" for source, data in STRING_EVENTS]
    string = b"".join(pieces)
    yield f"a pool's string: {string.hex()}"
    yield from told
    yield f"a pool's string: {string[:-1].hex()}"
    yield from told[:-1]
    place = sum(map(len, pieces[:-1]))
    yield f"place {place}: refused, 44 (no whole event starts there, or it is past the end)"


def works_lines():
    """Of the digitiser fresh from the works: a power-up with a page of FF, and one with the seed written over it."""
    yield "fresh from the works, power-up 1"
    blank = station.update(station.FRESH, 10, b"\xff" * 64)
    yield f"seed update: refused, {blank.number} (a blank seed: 64 equal bytes)"
    early = station.request(blank.next, 10, bytes(32))
    yield f"key at 10 ms: refused, {early.number} (no seed and too little noise)"
    noise = [(source, 0, bytes(readings(source, turn))) for turn in range(FIRST_TURNS) for source in SOURCES]
    yield f"{len(noise)} events taken"
    written = station.write(given(early.next, noise), 510, blank.buffer)
    yield f"seed for the next start: {written.buffer.hex()}"
    yield key_line(1000, station.request(written.next, 1000, bytes(32)))
    yield "fresh from the works, power-up 2"
    updated = station.update(station.FRESH, 10, written.buffer)
    yield f"seed updated: {updated.buffer.hex()}"
    yield key_line(1000, station.request(updated.next, 1000, bytes(32)))


def tally_lines(sent, taken, spent, allowance=ALLOWANCE):
    """Of the instruments, each with the events that it sent, those taken and the bytes that these took of its quota."""
    for name in INSTRUMENTS:
        refused = f"{sent[name] - taken[name]} refused"
        yield f"{name}: {taken[name]} events taken, {refused}, {spent[name]} of {allowance} bytes spent"


def flood_lines(seed):
    """Of the power-up at which a tiltmeter floods. Each instrument's allowance is for one event to each pool. In each
    pool the tiltmeter's is the first, as it is ahead of the others by then. Returns the seed of the next power-up."""
    yield "a tiltmeter floods"
    updated = station.update(station.FRESH, 10, seed)
    yield f"seed updated: {updated.buffer.hex()}"
    order = [INSTRUMENTS[name] for name in ("tiltmeter", "seismometer", "barometer")]
    noise = [(source, pool, bytes(readings(source, pool))) for pool in range(ALLOWANCE // COST) for source in order]
    sent = {name: 32 * (FLOOD if name == "tiltmeter" else 1) for name in INSTRUMENTS}
    taken = dict.fromkeys(INSTRUMENTS, ALLOWANCE // COST)
    yield f"tiltmeter, event {taken['tiltmeter'] + 1}: refused, 39 (more than the source's allowance)"
    yield "event of source 7: refused, 38 (a source with no quota)"
    yield from tally_lines(sent, taken, {name: COST * taken[name] for name in INSTRUMENTS})
    key = station.request(given(updated.next, noise), 1000, bytes(32))
    yield key_line(1000, key)
    slot = station.draw(key.next, 1000, 100, 64)
    yield slot_line(1000, slot)
    shuffled = station.shuffle(slot.next, 1000, tuple(range(1, 9)))
    yield polling_line(shuffled)
    again = range(sent["tiltmeter"], sent["tiltmeter"] + FLOOD)  # taken, as the reseed before the key set spent to 0
    tilt = INSTRUMENTS["tiltmeter"]
    left = given(shuffled.next, [(tilt, pool, bytes(readings(tilt, turn))) for pool, turn in enumerate(again)])
    yield from tally_lines(
        {**sent, "tiltmeter": again.stop},
        {**taken, "tiltmeter": taken["tiltmeter"] + FLOOD},
        {**dict.fromkeys(INSTRUMENTS, 0), "tiltmeter": COST * FLOOD},
    )
    written = station.write(left, 2000, updated.buffer)
    yield f"seed for the next start: {written.buffer.hex()}"
    return written.buffer


def network_key_line(request, answer):
    return f"key of CTR_DRBG, request {request} since its seeding: {answer.out.hex()}"


def permanent_lines(seed):
    """Of the power-up of a permanent station: entropy input from Fortuna, keys from CTR_DRBG. Returns the seed of the
    next power-up."""
    drbg = ctr_drbg.CtrDrbg()
    yield "a permanent station"
    updated = station.update(station.FRESH, 10, seed)
    yield f"seed updated: {updated.buffer.hex()}"
    noisy = yield from noise_lines(updated.next)
    entropy = station.request(noisy, 1000, bytes(48))
    cut = drbg.instantiate(ctr_drbg.NEW, entropy.buffer[:47], b"")
    yield f"instantiate with 47 bytes: refused, {cut.number} (entropy input that is not 48 bytes)"
    first = drbg.generate(drbg.instantiate(cut.next, entropy.buffer, NAME).next, 32, b"")
    yield network_key_line(1, first)
    second = drbg.generate(first.next, 32, LINK)
    yield network_key_line(2, second)
    reseeded = drbg.reseed(second.next, station.request(entropy.next, 2000, bytes(48)).buffer, b"")
    yield network_key_line(1, drbg.generate(reseeded.next, 32, b""))
    return updated.buffer


class KeyedRun:
    """Calls with pools chosen by key, each on the state and the quotas, or none, that the last one left."""

    def __init__(self, quotas=None):
        self.scheduler = keyed.Keyed()
        self.state = keyed.fresh(SCHEDULER_KEY)
        self.quotas = quotas
        self.emptied = 0

    def call(self, name, *arguments):
        """The number, and the bytes lent as they are left."""
        answer = self.scheduler.call(name, self.state, self.quotas, *arguments)
        self.state, self.quotas = answer.next, answer.quotas
        self.emptied += answer.emptied
        return answer.number, answer.lent

    def done(self, name, *arguments):
        number, lent = self.call(name, *arguments)
        assert number == 0, (name, number)
        return lent

    def event(self, name, turn):
        source = INSTRUMENTS[name]
        return self.call("event", source, bytes(readings(source, turn)))[0]

    def key_line(self):
        return f"key after {self.state.step} events: {self.done('request', bytes(32)).hex()}"


def keyed_lines(seed):
    """Of the power-up with pools chosen by key. Returns the seed of the next."""
    run = KeyedRun()
    yield "pools chosen by key"
    yield f"key after 0 events: refused, {run.call('request', bytes(32))[0]} (no seed and too little noise)"
    page = run.done("update", seed)
    yield f"seed updated: {page.hex()}"
    assert not any(run.event(name, turn) for turn in range(TURNS) for name in INSTRUMENTS)
    steps = run.state.step
    picked = [run.scheduler.input_pool(SCHEDULER_KEY, step) for step in range(steps + 1)]
    entered = sum(keyed.next_emptying(picked[step], step) < steps for step in range(steps))
    yield f"{steps} events taken, pools emptied {run.emptied}, events in the key {entered}"
    assert steps == 192  # 32 * 2 divides it, and 32 * 4 does not
    yield f"step {steps}: event to pool {picked[steps]}, empties pool 1"
    yield run.key_line()
    page = run.done("write", page)
    yield f"seed for the next start: {page.hex()}"
    return page


def keyed_flood_lines(seed):
    """Of the power-up at which a tiltmeter floods with pools chosen by key: in each turn it sends the first events."""
    allowance = KEYED_EVENTS * COST
    run = KeyedRun(tuple(logbook.Quota(source, allowance, 0) for source in INSTRUMENTS.values()))
    yield "a tiltmeter floods, pools chosen by key"
    page = run.done("update", seed)
    yield f"seed updated: {page.hex()}"
    sent = dict.fromkeys(INSTRUMENTS, 0)
    taken = dict.fromkeys(INSTRUMENTS, 0)
    for name in 32 * (["tiltmeter"] * FLOOD + ["seismometer", "barometer"]):
        number = run.event(name, sent[name])
        if number == 39 and sent[name] == taken[name]:
            yield f"{name}, event {sent[name] + 1}: refused, 39 (more than the source's allowance)"
        sent[name] += 1
        taken[name] += number == 0
    yield from tally_lines(sent, taken, {n: q.spent for n, q in zip(INSTRUMENTS, run.quotas)}, allowance)
    yield run.key_line()
    yield f"seed for the next start: {run.done('write', page).hex()}"


def lines():
    yield f"D of abc: {generator.sha_d256(b'abc').hex()}"
    known = encrypt(bytes(range(32)), bytes(range(0, 256, 17))).hex()
    yield f"AES-256 by tables: {known}"
    yield f"AES-256 byte by byte: {known}"
    early = station.request(station.FRESH, 0, bytes(32))
    yield f"key at 0 ms: refused, {early.number} (no seed and too little noise)"
    updated = station.update(early.next, 10, SEED)
    yield f"seed updated: {updated.buffer.hex()}"
    noisy = yield from noise_lines(updated.next)
    first = station.request(noisy, 1000, bytes(32))
    yield key_line(1000, first)
    second = station.request(first.next, 1050, bytes(32))
    yield key_line(1050, second)
    refused = station.event(second.next, SOURCES[0], 32, bytes(READINGS))
    yield f"event for pool 32: refused, {refused.number} (no such pool)"
    yield "cutoff 1: refused, 34 (a cutoff outside 2 to 512)"
    slot = station.draw(refused.next, 1200, 100, 64)
    yield slot_line(1200, slot)
    shuffled = station.shuffle(slot.next, 1250, tuple(range(1, 9)))
    yield polling_line(shuffled)
    yield f"requests on the key since the last pool reseed: {shuffled.next.key_requests}"
    written = station.write(shuffled.next, 2000, updated.buffer)
    yield f"seed for the next start: {written.buffer.hex()}"
    yield "a log's answers:"
    yield from (line.decode().rstrip() for line in logbook.answers(io.BytesIO(LOG)))
    yield from conversion_lines()
    yield from string_lines()
    yield from works_lines()
    page = yield from flood_lines(written.buffer)
    page = yield from permanent_lines(page)
    page = yield from keyed_lines(page)
    yield from keyed_flood_lines(page)


def main(args):
    text = "".join(f"{line}\n" for line in lines())
    if args[:1] != ["--check"]:
        print(text, end="")
        return 0
    with open(args[1], encoding="ascii") as stored:
        if stored.read() == text:
            return 0
    print(f"{args[1]}: not what the programs in tests/independent work out", file=sys.stderr)
    return 1


if __name__ == "__main__":
    sys.exit(main(sys.argv[1:]))
