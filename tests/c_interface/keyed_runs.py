#!/usr/bin/env python3
"""Scripts of calls of the keyed scheduler (keyed_script.py, beside this), and their answers by
tests/independent/keyed.py.

    keyed_runs.py --write DIRECTORY        writes the stored scripts and their answers
    keyed_runs.py --check DIRECTORY        makes them again and exits 1 where a stored file differs
    keyed_runs.py --against PROGRAM [--seconds S] [--seed N]
                                           the stored scripts and a long run to keyed.c, beside this, then random states
                                           and calls for S seconds, and on until all that must occur has come
    keyed_runs.py --self-test              wrong versions (wrong_keyed.py, beside this), each of which a stored script
                                           must tell from the right one; and long runs, in which each event must enter
                                           the key once, at the step that 02 gives

The stored scripts are made by keyed_stored.py, the random ones by keyed_fuzz.py, both beside this. Nothing in the
stored ones comes from chance."""
import argparse
import random
import sys
from pathlib import Path

sys.path += [str(Path(__file__).resolve().parents[1] / folder) for folder in ("independent", "bench")]

import fuzz
import keyed_script as script
from frames import Noise, log_of
from keyed import LAST_STEP, PERIOD, POOLS, Keyed, fresh, next_emptying
from keyed_fuzz import MUST_OCCUR, Writer
from keyed_stored import KEYS, Maker, any_call, made
from logs import check_files, write_files
from program import Failure, compare, run
from wrong_keyed import WRONG, Parts

STRIDE = 40  # the self-test goes through the scripts' lines so, and comes to each kind soon


def answers_to(lines):
    return b"".join(script.answers(lines))


def files():
    """File names and contents."""
    found = {}
    for name, maker in made().items():
        found |= {f"{name}.script": log_of(maker.lines), f"{name}.answers": log_of(maker.answers)}
    return found


def long_run():
    """Too long to be stored: pools up to 6 are emptied."""
    m = Maker("long run")
    m.add(script.new(m.noise.take(32)))
    while m.state.step < 2200:
        m.add(m.event(m.noise.source(), 1 + m.noise.below(9)))
        if m.noise.below(12) == 0:
            m.add(any_call(m))
    return m


def against(program, seconds, seed):
    for maker in (*made().values(), long_run()):
        lines = log_of(maker.lines)
        compare(lines, log_of(maker.answers), run(program, lines))
    print(f"pass  the stored scripts and a long run; seed {seed}", flush=True)
    return fuzz.fuzz(program, seconds, seed, Writer, answers_to, MUST_OCCUR)


# ---- long runs: when an event enters the key


class Noting(Keyed):
    """Notes which string each step takes into the key."""

    def __init__(self):
        self.taken = []

    def emptied(self, state, i):
        self.taken.append((state.step, i, state.pools[i].string))
        return super().emptied(state, i)


def booked(key, start, count):
    """Holds a run of events from a step on to the closed form: an event of pool i enters the key at the step that next
    empties i, its own among them, fewer than 32 * 2^(i + 1) steps after its own. Gives how many have entered."""
    keyed, noise = Noting(), Noise(f"bookings from {start}")
    state = fresh(key)._replace(step=start)
    entering, entered = {}, 0
    for t in range(start, start + count):
        source, data, pool = noise.source(), noise.take(1 + t % 32), keyed.input_pool(key, t)
        due = next_emptying(pool, t)
        if not (due is None or t <= due < t + PERIOD * 2 ** (pool + 1)):
            raise Failure(f"the event at step {t} in pool {pool} would enter at {due}")
        string = source.to_bytes(2, "little") + bytes([len(data)]) + data
        entering[pool, due] = entering.get((pool, due), b"") + string
        state = keyed.call("event", state, None, source, data).next
    for step, pool, string in keyed.taken:
        entered += len(string) > 0
        if entering.pop((pool, step), b"") != string:
            raise Failure(f"step {step} takes another string of pool {pool} than that of the events booked for it")
    left = {pool: string for (pool, due), string in entering.items()}
    if state.step != start + count or any(state.pools[i].string != left.get(i, b"") for i in range(POOLS)):
        raise Failure(f"from {start} on, pools hold other events than those that are booked for later")
    return entered


def check_bookings():
    starts = {0: 1500, 2**35 - 40: 120, 2**36 - 40: 120, 2**37 - 40: 120, 2**63 - 40: 120, LAST_STEP - 100: 100}
    entered = [booked(KEYS[2], start, count) for start, count in starts.items()]
    print(f"pass  long runs: {sum(entered)} strings entered the key at the step that their events are booked for")


# ---- wrong versions


def asked():
    """Each line of the stored scripts that asks something, with its place, the state and the list before it, and the
    right answer. The answers before it have told both, so that a version is told at the first line where it differs."""
    for name, maker in made().items():
        for n, row in enumerate(zip(maker.lines, maker.before, maker.answers), 1):
            if not row[0].startswith((b"set ", b"quotas ")):
                yield f"{name}.script, line {n}", *row


def place_told(version, rows):
    """The first of these lines at which a version differs; None where there is none."""
    found = script.Run(version)
    for place, line, before, right in rows:
        found.state, found.held = before
        if found.answer(line) != right:
            return place
    return None


def self_test():
    check_bookings()
    rows = list(asked())
    rows = [row for start in range(STRIDE) for row in rows[start::STRIDE]]
    place = place_told(Parts, rows)
    failed = place is not None
    print(f"{'FAIL' if failed else 'pass'}  the right one: {place or 'not told'}")
    for version in WRONG:
        place = place_told(version, rows)
        failed |= place is None
        print(f"{'pass' if place else 'FAIL'}  one that {version.__doc__}: {place or 'not told'}")
    return 1 if failed else 0


def main():
    parser = argparse.ArgumentParser(description=__doc__, formatter_class=argparse.RawDescriptionHelpFormatter)
    modes = parser.add_mutually_exclusive_group(required=True)
    modes.add_argument("--write", type=Path, metavar="DIRECTORY")
    modes.add_argument("--check", type=Path, metavar="DIRECTORY")
    modes.add_argument("--against", metavar="PROGRAM")
    modes.add_argument("--self-test", action="store_true")
    parser.add_argument("--seconds", type=float, default=15)
    parser.add_argument("--seed", type=int, default=random.randrange(2**32))
    chosen = parser.parse_args()
    try:
        if chosen.against:
            return against(chosen.against, chosen.seconds, chosen.seed)
        if chosen.self_test:
            return self_test()
    except Failure as why:
        print(f"FAIL  {why}")
        return 1
    if chosen.check:
        return check_files(chosen.check, files(), "tests/c_interface/keyed_runs.py")
    write_files(chosen.write, files())
    return 0


if __name__ == "__main__":
    sys.exit(main())
