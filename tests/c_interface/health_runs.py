#!/usr/bin/env python3
"""Scripts of health tests (health_script.py, beside this) and their answers by tests/independent/health.py.

    health_runs.py --write DIRECTORY       writes the stored scripts and their answers
    health_runs.py --check DIRECTORY       makes them again and exits 1 where a stored file differs
    health_runs.py --against PROGRAM [--seconds S] [--seed N]
                                           random scripts to health.c, beside this, for S seconds, and on until
                                           all that must occur has come
    health_runs.py --self-test             wrong versions of tests/independent/health.py, each of which a stored script
                                           must tell from the right one

Nothing in the stored scripts comes from chance. A random script tests the same samples cut and uncut: nothing is read
after a failing sample, and the same sample must fail and the same state be left."""
import argparse
import random
import sys
from collections import Counter
from itertools import cycle, product
from pathlib import Path

sys.path += [str(Path(__file__).resolve().parents[1] / folder) for folder in ("independent", "bench")]

import fuzz
import health_script as script
from frames import Noise, log_of
from health import FRESH, FULL, Health, State
from health_script import TOLD
from logs import check_files, write_files
from program import Failure

LARGEST = 2**32 - 1
BOUNDS = (0, 1, 2, 3, 511, 512, 513, LARGEST)  # of cutoffs


def answers_to(lines):
    return b"".join(script.answers(lines))


# ---- the stored scripts


def cutoffs():
    """Each pair at the bounds: no sample, equal samples up to 513, and on a malformed state, which 34 comes before."""
    for repetition in BOUNDS:
        for proportion in BOUNDS:
            yield script.fresh()
            yield script.test(repetition, proportion, [])
            yield script.test(repetition, proportion, [7])
            yield script.test(repetition, proportion, [7] * 510)
            yield script.test(repetition, proportion, [7])
            yield script.test(repetition, proportion, [7])
            yield script.state(State(9, 1, 4, 3, 2))
            yield from (script.test(repetition, proportion, samples) for samples in ([], [4]))


# Good states with a run up to 4 and a count up to 5, as cutoffs of 5 and 6 let them be, and bad ones beside them: each
# clause of 35 by itself, in 02's order.
NEIGHBOURS = (
    (State(9, 4, 4, 3, 10), State(9, 5, 4, 3, 10), State(9, 6, 4, 3, 10), State(9, LARGEST, 4, 3, 10)),
    (State(9, 2, 4, 5, 10), State(9, 2, 4, 6, 10), State(9, 2, 4, 7, 10), State(9, 2, 4, 6, 6)),
    (State(9, 2, 4, 3, 3), State(9, 2, 4, 3, 2), State(9, 2, 4, 3, 1)),
    (State(9, 2, 0, 0, 0), State(9, 2, 0, 1, 0), State(0, 0, 0, 1, 0)),
    (State(9, 2, 4, 3, 511), State(9, 2, 4, 3, 512), State(9, 2, 4, 3, 513), State(9, 2, 4, 3, LARGEST)),
    (State(9, 2, 4, 1, 1), State(9, 2, 4, 0, 1), State(9, 2, 4, 0, 2), State(9, 2, 0, 0, 511)),
    (State(9, 1, 4, 1, 1), State(0, 0, 4, 1, 1), State(0, 0, 0, 2, 2), State(0, 0, 4, 5, 511)),
    (State(9, 1, 0, 0, 0), State(9, 1, 1, 0, 0), State(0, 0, 1, 0, 0), State(9, 2, LARGEST, 0, 0)),
    (State(1, 1, 0, 0, 0), State(1, 0, 0, 0, 0), State(9, 0, 0, 0, 0), State(LARGEST, 0, 0, 0, 0)),
    (FRESH, State(9, 0, 9, 0, 0), State(9, 0, 4, 6, 512), State(*[LARGEST] * 5)),
)


def states():
    """No sample, each sample that the state knows, and another one."""
    for kept in (kept for group in NEIGHBOURS for kept in group):
        for samples in ([], [kept.last], [kept.first], [5, 5]):
            yield script.state(kept)
            yield script.test(5, 6, samples)
    for cutoff in (2, 512):  # the least and the most
        for run in (cutoff - 1, cutoff):
            for count in (cutoff - 1, cutoff):
                yield script.state(State(9, run, 4, count, 511))
                yield script.test(cutoff, cutoff, [])
                yield script.test(cutoff, cutoff, [4, 9])


def full_windows():
    """511, 512 and 513 samples and so on; the last one fails, or is the first of its window."""
    others = [*range(1000, 1000 + 3 * FULL)]
    for size in (510, 511, 512, 513, 1023, 1024, 1025):
        for first in (0, 5):
            yield script.fresh()
            yield script.test(2, 2, [first, *others[: size - 1]])
            yield script.test(2, 2, [first, first])
            yield script.test(2, 2, [first, *others[: size - 2], first])
            yield script.fresh()
            yield script.test(2, 3, [first, *others[: size - 2], others[size - 3]])
    for size in (511, 512, 513):
        yield script.fresh()
        yield from (script.test(512, 512, [8] * size) for _ in range(3))


def across():
    """Runs across a window's end, and what a window must not take over from the one before."""
    others = [*range(1000, 1000 + FULL)]
    for before in range(4):
        yield script.fresh()
        yield script.test(4, 512, [*others[: FULL - before], 9, 9, 9, 9, 9])
        yield script.test(4, 512, [*others[: FULL - before], *[9] * before])
        yield script.test(4, 512, [9, 9, 9, 9])
    for again in ([6, 6], [5, 5, 6], [6, 5, 5, 6]):
        samples = [5, 7, 5, *others[:509], *again]
        yield script.fresh()
        yield script.test(3, 3, samples)
        yield from (script.fresh(), script.test(3, 3, samples[:FULL]), script.test(3, 3, samples[FULL:]))
    for seen in (0, 1, 510, 511):
        yield script.state(State(9, 2, 4 if seen else 0, min(seen, 1), seen))
        yield script.test(4, 3, [4, 9, 4, 8, 8, 8])


def zeros():
    """A first sample 0 counts 1, in a row and in its window."""
    for samples in ([0], [0, 0], [0, 0, 0], [0, 1, 0], [1, 0, 0], [0, LARGEST] * 3):
        for cutoffs_of in ((2, 2), (3, 3), (2, 3), (3, 2), (512, 512)):
            yield script.fresh()
            yield script.test(*cutoffs_of, samples)
    yield from (script.state(State(7, 1, 0, 0, 0)), script.test(2, 3, [0, 0]), script.test(2, 3, [0, 1, 0, 1, 0]))
    yield from (script.fresh(), script.test(512, 512, [0] * 511), script.test(512, 512, [0]))


def both():
    """One test or both at a sample; a state behind it; samples after it, which are not read."""
    for repetition, proportion in ((2, 2), (3, 3), (3, 4), (4, 3), (31, 325), (325, 31), (512, 511), (511, 512)):
        size = max(repetition, proportion)
        for sample in (7, LARGEST):
            yield script.fresh()
            yield script.test(repetition, proportion, [sample] * size)
            yield from (script.fresh(), script.test(repetition, proportion, [1, *[sample] * size, 1, 1]))
    yield from (script.state(State(4, 2, 4, 3, 100)), script.test(3, 4, [4, 4, 4]))
    yield from (script.state(State(9, 2, 4, 3, 100)), script.test(3, 4, [9, 4]), script.test(3, 4, [9, 4]))
    yield from (script.state(State(9, 2, 4, 3, 511)), script.test(3, 4, [4, 4, 4, 4]))


def cut(kept, parts, repetition, proportion):
    """A call for each part up to the one that fails, then one for all samples at once."""
    yield script.state(kept)
    now = kept
    for part in parts:
        yield script.test(repetition, proportion, part)
        found = Health(now, part, repetition, proportion).answer()
        now = found.next
        if found.number or found.repetition or found.proportion:
            break
    yield script.state(kept)
    yield script.test(repetition, proportion, [sample for part in parts for sample in part])


def parts_of(samples, places):
    """The samples cut at places, in any order; equal places give a part with none."""
    ends = [0, *sorted(places), len(samples)]
    return [samples[start:end] for start, end in zip(ends, ends[1:])]


def cuts():
    """Samples of a few values over several windows, cut at windows' ends and elsewhere, with parts of no sample."""
    noise = Noise("health tests")
    for values, repetition, proportion in ((2, 9, 280), (2, 30, 270), (3, 6, 200), (5, 20, 512), (2, 512, 262)):
        for size in (40, 513, 1300):
            samples = [(0, 3, 9, 1, LARGEST)[byte % values] for byte in noise.take(size)]
            places = [511, 512, 512, 513, *(noise.below(size) for _ in range(3))]
            parts = parts_of(samples, [place for place in places if place <= size])
            yield from cut(FRESH, parts, repetition, proportion)
            yield from cut(State(3, 3, 9, 90, 300), parts, repetition, proportion)


SCRIPTS = {make.__name__: make for make in (zeros, both, states, across, cutoffs, full_windows, cuts)}


def stored():
    """Names and scripts."""
    return {name: log_of(make()) for name, make in SCRIPTS.items()}


def files():
    """File names and contents."""
    made = {}
    for name, lines in stored().items():
        made |= {f"{name}.script": lines, f"{name}.answers": answers_to(lines)}
    return made


# ---- scripts at random


def at_bounds(r, repetition, proportion):
    """For each clause of 35 good states at its bound, and states that break it. With cutoffs in range they break it
    alone, but for a count from 512 on, which no window that is not full has."""
    last, first = r.choices((0, 1, 9, LARGEST), k=2)
    run, seen = r.randrange(1, max(repetition, 2)), r.randrange(1, FULL)
    good = State(last, run, first, 1, seen)
    unseen = good._replace(first=0, count=0, seen=0)
    few = r.randrange(max(min(proportion - 1, FULL), 1))  # seen, and one more is still no count at its cutoff
    counted = good._replace(first=first if few else 0, count=few, seen=few)
    late = good._replace(seen=FULL - 1)
    return {
        "run at its cutoff": (
            [good._replace(run=repetition - 1)],
            [good._replace(run=repetition), good._replace(run=repetition + 1)],
        ),
        "count at its cutoff": (
            [late._replace(count=proportion - 1)],
            [late._replace(count=proportion), late._replace(count=proportion + 1)],
        ),
        "count above seen": ([counted], [counted._replace(count=few + 1)]),
        "window full": ([late], [good._replace(seen=FULL), good._replace(seen=FULL + 1)]),
        "seen without count": (
            [good._replace(seen=1), unseen],
            [good._replace(count=0), good._replace(count=0, seen=1)],
        ),
        "seen without run": ([good._replace(run=1), FRESH], [good._replace(last=0, run=0)]),
        "first without seen": (
            [good._replace(first=1, seen=1), unseen],
            [unseen._replace(first=1), unseen._replace(first=9)],
        ),
        "last without run": ([unseen._replace(last=1, run=1), FRESH], [FRESH._replace(last=1), FRESH._replace(last=9)]),
    }


def near_clause(r, clause, repetition, proportion):
    """A state at the bound of a clause of 35, a good one as often as one that breaks it."""
    found = r.choice(r.choice(at_bounds(r, repetition, proportion)[clause]))
    return State(*(min(max(number, 0), LARGEST) for number in found))


def any_state(r, clauses, repetition, proportion):
    """Fresh, at a clause's bound, any numbers, or one that is taken with cutoffs in range. The clauses take turns."""
    kind = r.random()
    if kind < 0.3:
        return FRESH
    if kind < 0.57:
        return near_clause(r, next(clauses), repetition, proportion)
    if kind < 0.6:
        return State(*(r.getrandbits(32) for _ in range(5)))
    seen = r.choice((0, 1, 510, 511, r.randrange(FULL)))
    count = r.randrange(1, max(min(seen, proportion - 1), 1) + 1) if seen else 0
    run = r.randrange(1, max(repetition, 2))
    return State(r.choice((0, 7, LARGEST)), run, r.choice((0, 7, LARGEST)) if seen else 0, count, seen)


def any_cutoffs(r):
    """A pair that samples of some values come to now and then, equal ones among them; seldom one out of range."""
    repetition = r.choice((2, 3, 6, 12, 31, 512, r.randrange(2, 513)))
    proportion = r.choice((2, 3, 90, 140, 260, 275, 325, 512, r.randrange(2, 513), repetition, repetition))
    if r.random() < 0.1:
        return r.choice(((r.choice(BOUNDS), proportion), (repetition, r.choice(BOUNDS))))
    return repetition, proportion


def any_samples(r):
    """Of a few values, 0 and the largest among them, sometimes stuck; or all different."""
    size = r.choice((0, 1, 2, 5, 40, 200, 511, 512, 513, 1100, r.randrange(1700)))
    if r.random() < 0.15:
        start = r.randrange(2**32 - size)
        return [*range(start, start + size)]
    values = r.sample((0, 1, 7, 9, 2**31, LARGEST, r.getrandbits(32)), r.randrange(1, 6))
    samples = r.choices(values, k=size)
    if r.random() < 0.3:
        samples[r.randrange(size + 1) :] = [r.choice(values)] * r.randrange(60)
    return samples


def late(r):
    """Cutoffs, and samples over several windows that come to them after the first one, in about half of all cases."""
    values = r.sample((0, 7, LARGEST), 2)
    return (r.choice((12, 512)), r.randrange(268, 285)), r.choices(values, k=1700)


class Writer:
    """Writes one script, and counts in `occurred` what its answers are."""

    occurred = Counter()
    clauses = cycle(Health.clauses)

    def __init__(self, chance):
        self.chance = chance

    def group(self):
        r = self.chance
        if r.random() < 0.08:
            (repetition, proportion), samples, kept = *late(r), FRESH
        else:
            (repetition, proportion), samples = any_cutoffs(r), any_samples(r)
            kept = any_state(r, self.clauses, repetition, proportion)
        parts = parts_of(samples, [r.randrange(len(samples) + 1) for _ in range(r.choice((0, 1, 2, 5)))])
        self.compare(Health(kept, samples, repetition, proportion), parts)
        return cut(kept, parts, repetition, proportion)

    def compare(self, call, parts):
        """The answer and the state left are the same however the samples are cut."""
        now, before = call.state, 0
        for part in parts:
            found = Health(now, part, *call.cutoffs()).answer()
            failed = found.repetition or found.proportion
            now = found.next
            if found.number or failed:
                break
            before += len(part)
        whole = call.answer()
        if whole != found._replace(place=before + found.place if failed else 0):
            raise Failure(f"{call.state} {call.cutoffs()} {parts}: {found}, and uncut {whole}")
        self.note(call, whole)

    def note(self, call, found):
        told = TOLD[found.repetition, found.proportion].decode()
        self.occurred[f"{found.number} {told}"] += 1
        if found.place >= FULL:
            self.occurred[f"{told} after a window's end"] += 1
        if found.number == 35 and len(call.broken()) == 1:
            self.occurred[f"35 by '{call.broken()[0]}' alone"] += 1

    def log(self):
        return log_of(line for _ in range(10) for line in self.group())


MUST_OCCUR = {
    *("34 none", "35 none", *(f"0 {told.decode()}" for told in TOLD.values())),
    *(f"{told} after a window's end" for told in ("repetition", "proportion")),
    *(f"35 by '{name}' alone" for name in Health.clauses),
}


def against(program, seconds, seed):
    print(f"seed {seed}", flush=True)
    try:
        return fuzz.fuzz(program, seconds, seed, Writer, answers_to, MUST_OCCUR)
    except Failure as why:
        print(f"FAIL  {why}")
        return 1


# ---- wrong versions


def wrong(text, **parts):
    """A version with these parts in place of the right ones."""
    return type("Wrong", (Health,), {"__doc__": text, **parts})


def upto(call, size):
    """The call with its first samples alone."""
    return Health(call.state, call.samples[:size], *call.cutoffs())


def retold(change):
    """What is told is not what was found."""
    return lambda call: change(Health.answer(call))


def fills(call, k):
    """Sample k is its window's last."""
    return (call.state.seen + k + 1) % call.window == 0


def above_repetition(call, k):
    return Health(call.state, call.samples, call.repetition + 1, call.proportion).fails_repetition(k)


def second_failure(call):
    places = range(len(call.samples))
    found = [k for k in places if call.fails_repetition(k) or call.fails_proportion(k)]
    return found[1] if len(found) > 1 else None


def no_zero_in_line(call, *arguments):
    Health.__init__(call, *arguments)
    if call.state.run == 0 and call.samples[:1] == [0]:
        call.line = [None, *call.samples[1:]]


def no_state_in_line(call, *arguments):
    Health.__init__(call, *arguments)
    call.line = call.samples


def run_of_window(call):
    """Right as long as the state's window is open."""
    whole = Health.run_left(call)
    return whole if call.begin(len(call.samples) - 1) < 0 else min(whole, call.window_left()[2])


def kept_at_full(*names):
    """A full window keeps these of its fields."""

    def window_left(call):
        end = len(call.samples) - 1
        kept = State(0, 0, call.first(end), call.count(end), FULL)._asdict()
        full = tuple(kept[name] if name in names else 0 for name in ("first", "count", "seen"))
        return full if fills(call, end) else Health.window_left(call)

    return window_left


def count_goes_on(call, k):
    begin = call.begin(k)
    return Health.count(call, k) + (call.count(begin - 1) if begin > 0 else 0)


WRONG_REFUSALS = (
    wrong("takes a cutoff of 513", most=513),
    wrong("takes a cutoff of 1", least=1),
    wrong("takes no cutoff of 2", least=3),
    wrong("takes no cutoff of 512", most=511),
    wrong("does not look at the repetition count test's cutoff", cutoffs=lambda call: (call.proportion,)),
    wrong("does not look at the proportion test's cutoff", cutoffs=lambda call: (call.repetition,)),
    wrong("looks for 35 before 34", refusal=lambda call: 35 if call.broken() else 34 if call.bad_cutoff() else 0),
    wrong("gives no 34 where no samples come", bad_cutoff=lambda call: call.samples and Health.bad_cutoff(call)),
    wrong("gives no 35 where no samples come", broken=lambda call: call.samples and Health.broken(call)),
)
WRONG_TESTS = (
    wrong("has a window of 511", window=511),
    wrong("has a window of 513", window=513),
    wrong("fails above the repetition count test's cutoff", fails_repetition=above_repetition),
    wrong("fails above the proportion test's cutoff", fails_proportion=lambda call, k: call.count(k) > call.proportion),
    wrong("makes no repetition count test", fails_repetition=lambda call, k: False),
    wrong("makes no proportion test", fails_proportion=lambda call, k: False),
    wrong("swaps the cutoffs", __init__=lambda call, s, x, r, p: Health.__init__(call, s, x, p, r)),
    wrong(
        "cuts the run at the window",
        fails_repetition=lambda call, k: Health.fails_repetition(call, k) and k + 1 - call.repetition >= call.begin(k),
    ),
    wrong("leaves a run that is cut at the window", run_left=run_of_window),
    wrong(
        "does not count a first sample 0 in a row",
        __init__=no_zero_in_line,
        run_left=lambda call: Health.run_left(call) - (call.state.run == 0 and not any(call.samples)),
    ),
    wrong(
        "does not count a window's first sample 0",
        count=lambda call, k: Health.count(call, k) - (call.begin(k) >= 0 and call.first(k) == 0),
    ),
    wrong(
        "closes the window before a failing 512th sample is told",
        fails_proportion=lambda call, k: not fills(call, k) and Health.fails_proportion(call, k),
    ),
    wrong(
        "looks at the proportion only where the window is full",
        fails_proportion=lambda call, k: fills(call, k) and Health.fails_proportion(call, k),
    ),
    wrong("goes on with the count in the next window", count=count_goes_on),
    wrong(
        "keeps the window's first over its end",
        first=lambda call, k: call.state.first if call.state.seen else call.samples[0],
    ),
    wrong("begins the run anew with each call", __init__=no_state_in_line),
    wrong("begins the window anew with each call", begin=lambda call, k: k // FULL * FULL),
    wrong("passes over the first failing sample", failure=second_failure),
)
WRONG_ANSWERS = (
    wrong(
        "does not tell the proportion test where both fail",
        answer=retold(lambda found: found._replace(proportion=found.proportion and not found.repetition)),
    ),
    wrong(
        "does not tell the repetition count test where both fail",
        answer=retold(lambda found: found._replace(repetition=found.repetition and not found.proportion)),
    ),
    wrong("never tells the proportion test", answer=retold(lambda found: found._replace(proportion=False))),
    wrong("never tells the repetition count test", answer=retold(lambda found: found._replace(repetition=False))),
    wrong(
        "counts places from 1",
        answer=retold(lambda found: found._replace(place=found.place + (found.repetition or found.proportion))),
    ),
    wrong("keeps the state after a failure", after_failure=lambda call, k: upto(call, k + 1).left()),
    wrong("keeps the state from before the failing sample", after_failure=lambda call, k: upto(call, k).left()),
    wrong("keeps the state from before a call that fails", after_failure=lambda call, k: call.state),
    wrong("keeps the count of a full window", window_left=kept_at_full("count")),
    wrong("keeps the first sample of a full window", window_left=kept_at_full("first")),
    wrong("keeps the 512 seen of a full window", window_left=kept_at_full("seen")),
    wrong("keeps a full window", window_left=kept_at_full("first", "count", "seen")),
)
# Each clause of 35 off by one: the first text takes a state that is malformed, the second refuses one that is not.
OFF_BY_ONE = {
    "run at its cutoff": (lambda c: c.state.run > c.repetition, lambda c: c.state.run >= c.repetition - 1),
    "count at its cutoff": (lambda c: c.state.count > c.proportion, lambda c: c.state.count >= c.proportion - 1),
    "count above seen": (lambda c: c.state.count > c.state.seen + 1, lambda c: c.state.count >= max(c.state.seen, 1)),
    "window full": (lambda c: c.state.seen > FULL, lambda c: c.state.seen >= FULL - 1),
    "seen without count": (
        lambda c: c.state.seen > 1 and c.state.count == 0,
        lambda c: c.state.seen > 0 and c.state.count <= 1,
    ),
    "seen without run": (
        lambda c: c.state.seen > 1 and c.state.run == 0,
        lambda c: c.state.seen > 0 and c.state.run <= 1,
    ),
    "first without seen": (
        lambda c: c.state.seen == 0 and c.state.first > 1,
        lambda c: c.state.seen <= 1 and c.state.first != 0,
    ),
    "last without run": (
        lambda c: c.state.run == 0 and c.state.last > 1,
        lambda c: c.state.run <= 1 and c.state.last != 0,
    ),
}


def wrong_clauses():
    for name, (takes_more, takes_less) in OFF_BY_ONE.items():
        rest = {other: clause for other, clause in Health.clauses.items() if other != name}
        yield wrong(f"does not look for '{name}'", clauses=rest)
        yield wrong(f"takes one more at '{name}'", clauses={**rest, name: takes_more})
        yield wrong(f"takes one less at '{name}'", clauses={**rest, name: takes_less})


def place_told(version, scripts):
    """The first line of a stored script whose answer tells a version; None where there is none."""
    for name, (lines, right) in scripts.items():
        for n, (expected, found) in enumerate(zip(right, script.answers(lines, version)), 1):
            if expected != found:
                return f"{name}.script, line {n}"
    return None


def bounds_hold():
    """Whether the states at the clauses' bounds, by which random scripts come to them, are what they are called."""
    r = random.Random("bounds")
    for cutoffs_of in product((2, 3, 90, 510, 511, 512), repeat=2):
        for clause, (good, bad) in (item for _ in range(30) for item in at_bounds(r, *cutoffs_of).items()):
            if any(Health(kept, [], *cutoffs_of).broken() for kept in good):
                return False
            if any(Health(kept, [], *cutoffs_of).broken() != [clause] for kept in bad if kept.count < FULL):
                return False
    return True


def self_test():
    scripts = {name: (lines, list(script.answers(lines))) for name, lines in stored().items()}
    at_clauses = bounds_hold()
    print(f"{'pass' if at_clauses else 'FAIL'}  states at the bounds of the clauses of 35")
    failed = not at_clauses or place_told(wrong("is right"), scripts) is not None  # what is not wrong is not told
    for version in (*WRONG_REFUSALS, *WRONG_TESTS, *WRONG_ANSWERS, *wrong_clauses()):
        place = place_told(version, scripts)
        failed |= place is None
        print(f"{'pass' if place else 'FAIL'}  one that {version.__doc__}: {place or 'not told'}")
    return 1 if failed else 0


def main():
    parser = argparse.ArgumentParser(description=__doc__, formatter_class=argparse.RawDescriptionHelpFormatter)
    modes = parser.add_mutually_exclusive_group(required=True)
    modes.add_argument("--write", type=Path, metavar="DIRECTORY")
    modes.add_argument("--check", type=Path, metavar="DIRECTORY")
    modes.add_argument("--against", metavar="PROGRAM")
    modes.add_argument("--self-test", action="store_true")
    parser.add_argument("--seconds", type=float, default=15)
    parser.add_argument("--seed", type=int, default=random.randrange(2**32))
    chosen = parser.parse_args()
    if chosen.against:
        return against(chosen.against, chosen.seconds, chosen.seed)
    if chosen.self_test:
        return self_test()
    if chosen.check:
        return check_files(chosen.check, files(), "tests/c_interface/health_runs.py")
    write_files(chosen.write, files())
    return 0


if __name__ == "__main__":
    sys.exit(main())
