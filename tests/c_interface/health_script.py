"""Scripts of health tests: words on a line, all on one test state that is kept.

    fresh
    state LAST RUN FIRST COUNT SEEN
    test REPETITION PROPORTION SAMPLES

`fresh` and `state` set the state, to the fresh one or to any; their answer is the state's five fields. `test` is a call
with these cutoffs. Its answer is the number, the place, the test or tests that failed (`none`, `repetition`,
`proportion`, `both`) and the state's five fields after the call. SAMPLES are parts with commas between them, or `-` for
no sample. A part is a sample, `SAMPLE*TIMES` for a sample so many times, or `FROM..TO` for all from one up to another.
Numbers are decimal and below 2^32. Lines are bytes without their LF; tests/c_interface/health.c reads them too."""
from itertools import groupby

from health import FRESH, Health, State

TOLD = {(False, False): b"none", (True, False): b"repetition", (False, True): b"proportion", (True, True): b"both"}

# ---- lines


def fresh():
    return b"fresh"


def fields(state):
    return b" ".join(b"%d" % field for field in state)


def state(kept):
    return b"state " + fields(kept)


def counted_up(samples):
    """The samples in parts that each count up by 1."""
    for _, part in groupby(enumerate(samples), lambda pair: pair[1] - pair[0]):
        yield [sample for _, sample in part]


def words(samples):
    """Equal samples and those that count up are shortened, from three on."""
    for part in counted_up(samples):
        if len(part) > 2:
            yield b"%d..%d" % (part[0], part[-1])
        else:
            yield from (b"%d" % sample for sample in part)


def repeats(samples):
    """The samples with parts of three and more equal ones apart from the others."""
    rest = []
    for sample, part in groupby(samples):
        size = len(list(part))
        if size < 3:
            rest += [sample] * size
            continue
        yield from words(rest)
        yield b"%d*%d" % (sample, size)
        rest = []
    yield from words(rest)


def test(repetition, proportion, samples):
    return b"test %d %d " % (repetition, proportion) + (b",".join(repeats(samples)) or b"-")


def plain_test(repetition, proportion, samples):
    """The same call with nothing shortened, which is made in less time."""
    return b"test %d %d " % (repetition, proportion) + (",".join(map(str, samples)).encode() or b"-")


# ---- reading and answering them


def part_of(word):
    if b"*" in word:
        sample, times = map(int, word.split(b"*"))
        return [sample] * times
    if b".." in word:
        start, end = map(int, word.split(b".."))
        return range(start, end + 1)
    return [int(word)]


def samples_of(word):
    return [] if word == b"-" else [sample for part in word.split(b",") for sample in part_of(part)]


def answers(script, version=Health):
    """The answers to a script, a line each, by tests/independent/health.py or a wrong version of it."""
    kept = FRESH
    for line in script.splitlines():
        name, *rest = line.split(b" ")
        said = b""
        if name == b"test":
            found = version(kept, samples_of(rest[2]), int(rest[0]), int(rest[1])).answer()
            kept = found.next
            said = b"%d %d %s " % (found.number, found.place, TOLD[found.repetition, found.proportion])
        else:
            kept = State(*map(int, rest)) if name == b"state" else FRESH
        yield said + fields(kept) + b"\n"
