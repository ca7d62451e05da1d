"""The health tests of a noise source (02, vi; SP 800-90B, 4.4.1 and 4.4.2) by their closed forms, from any test state
whatever.

Nothing here is carried from sample to sample. Whether a sample fails a test is told by its place: by slices and counts
of the list of all samples up to it. The state left is told in the same way, by the samples at the list's end. The
proved program goes by steps, so that the two have no step in common.

An answer is the number (0, 34 or 35), the place of the first sample that fails (from 0, and 0 where none does), whether
it fails the repetition count test and the adaptive proportion test, and the next state."""
from collections import namedtuple

State = namedtuple("State", "last run first count seen")
Answer = namedtuple("Answer", "number place repetition proportion next")

FRESH = State(0, 0, 0, 0, 0)
FULL = 512  # samples of a window


class Health:
    """One call: a state, all samples and the two cutoffs. Wrong versions override a part of it."""

    window = FULL
    least, most = 2, 512  # cutoffs
    clauses = {  # of 35, in 02's order
        "run at its cutoff": lambda call: call.state.run >= call.repetition,
        "count at its cutoff": lambda call: call.state.count >= call.proportion,
        "count above seen": lambda call: call.state.count > call.state.seen,
        "window full": lambda call: call.state.seen >= FULL,
        "seen without count": lambda call: call.state.seen > 0 and call.state.count == 0,
        "seen without run": lambda call: call.state.seen > 0 and call.state.run == 0,
        "first without seen": lambda call: call.state.seen == 0 and call.state.first != 0,
        "last without run": lambda call: call.state.run == 0 and call.state.last != 0,
    }

    def __init__(self, state, samples, repetition, proportion):
        self.state = state
        self.samples = list(samples)
        self.repetition = repetition
        self.proportion = proportion
        # No cutoff is larger than `most`, so that no more are looked at: a run of 2^32 - 1 takes no room.
        self.line = [state.last] * min(state.run, self.most) + self.samples

    # ---- what is turned away

    def cutoffs(self):
        return self.repetition, self.proportion

    def bad_cutoff(self):
        return any(not self.least <= cutoff <= self.most for cutoff in self.cutoffs())

    def broken(self):
        """The clauses that the state breaks."""
        return [name for name, breaks in self.clauses.items() if breaks(self)]

    def refusal(self):
        if self.bad_cutoff():
            return 34
        return 35 if self.broken() else 0

    # ---- which sample fails

    def fails_repetition(self, k):
        """The last samples up to k, as many as the cutoff, are equal; behind the state stand `run` times `last`."""
        upto = len(self.line) - len(self.samples) + k + 1
        return self.line[max(upto - self.repetition, 0) : upto].count(self.samples[k]) == self.repetition

    def begin(self, k):
        """The place where the window of sample k begins; below 0 where the state has begun it."""
        return (self.state.seen + k) // self.window * self.window - self.state.seen

    def first(self, k):
        """The first sample of that window."""
        return self.state.first if self.begin(k) < 0 else self.samples[self.begin(k)]

    def count(self, k):
        """How often that comes in the window up to k."""
        begin = self.begin(k)
        behind = self.state.count if begin < 0 else 0
        return behind + self.samples[max(begin, 0) : k + 1].count(self.first(k))

    def fails_proportion(self, k):
        return self.count(k) >= self.proportion

    def failure(self):
        """The first place where a sample fails; None where there is none."""
        places = range(len(self.samples))
        return next((k for k in places if self.fails_repetition(k) or self.fails_proportion(k)), None)

    # ---- the state left

    def run_left(self):
        """How many samples at the end are equal, with those behind the state where all are."""
        last, size = self.samples[-1], len(self.samples)
        other = [k for k, sample in enumerate(self.samples) if sample != last]
        if other:
            return size - 1 - other[-1]
        return size + (self.state.run if self.state.last == last else 0)

    def window_left(self):
        """First, count and seen of a window that is not full."""
        end = len(self.samples) - 1
        seen = (self.state.seen + end + 1) % self.window
        return (self.first(end), self.count(end), seen) if seen else (0, 0, 0)

    def left(self):
        """The state after all samples, where none fails."""
        return State(self.samples[-1], self.run_left(), *self.window_left()) if self.samples else self.state

    def after_failure(self, k):
        return FRESH

    def answer(self):
        number = self.refusal()
        if number:
            return Answer(number, 0, False, False, self.state)
        k = self.failure()
        if k is None:
            return Answer(0, 0, False, False, self.left())
        return Answer(0, k, self.fails_repetition(k), self.fails_proportion(k), self.after_failure(k))


# ---- rows worked out by hand: state, samples, cutoffs, answer

ROWS = (
    (FRESH, [], 2, 2, Answer(0, 0, False, False, FRESH)),
    (FRESH, [0], 2, 2, Answer(0, 0, False, False, State(0, 1, 0, 1, 1))),
    (FRESH, [0, 0], 2, 3, Answer(0, 1, True, False, FRESH)),
    (FRESH, [7, 7], 2, 2, Answer(0, 1, True, True, FRESH)),
    (FRESH, [7, 8, 7], 2, 2, Answer(0, 2, False, True, FRESH)),
    (FRESH, [*range(511)], 2, 2, Answer(0, 0, False, False, State(510, 1, 0, 1, 511))),
    (FRESH, [*range(512)], 2, 2, Answer(0, 0, False, False, State(511, 1, 0, 0, 0))),
    (FRESH, [*range(513)], 2, 2, Answer(0, 0, False, False, State(512, 1, 512, 1, 1))),
    (FRESH, [5] * 512, 512, 512, Answer(0, 511, True, True, FRESH)),
    (FRESH, [*range(511), 4, 4, 4], 3, 512, Answer(0, 513, True, False, FRESH)),
    (State(9, 2, 5, 3, 100), [9], 3, 9, Answer(0, 0, True, False, FRESH)),
    (State(9, 2, 5, 3, 511), [5], 3, 4, Answer(0, 0, False, True, FRESH)),
    (State(9, 2, 5, 3, 511), [8, 5, 5], 3, 4, Answer(0, 0, False, False, State(5, 2, 5, 2, 2))),
    (State(9, 3, 5, 3, 100), [9], 3, 9, Answer(35, 0, False, False, State(9, 3, 5, 3, 100))),
    (State(9, 3, 5, 3, 100), [], 513, 9, Answer(34, 0, False, False, State(9, 3, 5, 3, 100))),
)

for row in ROWS:
    assert Health(*row[:4]).answer() == row[4], row
