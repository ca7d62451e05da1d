"""The plain logbook where every call takes the list of quotas that the last one left (02, x), as tests/bench/metered.c
makes the calls of a log. What a source has spent follows from the events noted: the bytes of its own since the last
pool reseed."""
from collections import Counter

from frames import HEADER
from logbook import Logbook

INPUT_NUMBERS = (11, 12, 13)  # of an event; they stand before those of the list


class MeteredLogbook(Logbook):
    def __init__(self, allowances):
        """allowances: by source. The list is well formed: a source has one record, and none has spent anything."""
        super().__init__()
        self.allowances = allowances
        self.brought = Counter()  # bytes, by source and by the pool reseeds made before

    def cost(self, data):
        return HEADER + len(data)

    def spent_by(self, source):
        return self.brought[source, self.reseeds]

    def quota_refusal(self, source, data):
        if source not in self.allowances:
            return 38
        return 39 if self.spent_by(source) + self.cost(data) > self.allowances[source] else 0

    def event_refusal(self, source, pool, data):
        refusal = super().event_refusal(source, pool, data)
        return refusal if refusal in INPUT_NUMBERS else self.quota_refusal(source, data) or refusal

    def event(self, source, pool, data):
        answer = super().event(source, pool, data)
        if answer[0] == 0:
            self.brought[source, self.reseeds] += self.cost(data)
        return answer
