"""The logbook as scripts with quotas call it, and wrong versions of it. quotas.py, beside this, shows that its stored
scripts tell each of these from the right one. Where no script gets to, there are wrong versions of the station, which
the chosen single states must tell."""
import slots
import station
from logbook import MAX_QUOTAS, MAX_TRIES, Quota, as_lent

OUTPUT_CALLS = ("request", "update", "write", "draw", "shuffle")
CALLS = ("event", *OUTPUT_CALLS)


class Book(slots.Book):
    """The right one. In these scripts `counted` also comes before any seed, and then makes a state that no run leaves:
    21, which the logbook itself never meets."""

    def malformed(self):
        return self.generator.count == 0 and self.on_key() > 0

    def plain(self, name, *arguments):
        if self.malformed() and not self.input_refusal(name, *arguments):
            return 21, 0, as_lent(name, arguments)
        return super().plain(name, *arguments)

    def call(self, name, *arguments):
        given = self.plain(name, *arguments) if name in CALLS else getattr(self, name)(*arguments)
        return *given, self.key_requests()


def wrong(text, **parts):
    """A version with these parts in place of the right ones."""
    return type("Wrong", (Book,), {"__doc__": text, **parts})


# ---- 37: the faults of a list


def repeats(quotas):
    return len({quota.source for quota in quotas}) < len(quotas)


def repeats_beside(quotas):
    return any(a.source == b.source for a, b in zip(quotas, quotas[1:]))


def repeats_first(quotas):
    return any(quota.source == quotas[0].source for quota in quotas[1:])


def repeats_last(quotas):
    return any(quota.source == quotas[-1].source for quota in quotas[:-1])


def repeats_whole(quotas):
    return len(set(quotas)) < len(quotas)


def overspent(quotas):
    return any(quota.spent > quota.allowance for quota in quotas)


def signed(word):
    return word - 2**32 if word >= 2**31 else word


def overspent_signed(quotas):
    return any(signed(quota.spent) > signed(quota.allowance) for quota in quotas)


def never(quotas):
    return False


def faults(most=MAX_QUOTAS, repeat=repeats, over=overspent, other=never):
    return {"bad_list": lambda book, quotas: len(quotas) > most or repeat(quotas) or over(quotas) or other(quotas)}


def own_record_only(book, quotas, name, *arguments):
    looked_at = [quota for quota in quotas if name != "event" or quota.source == arguments[0]]
    if len(quotas) > MAX_QUOTAS or repeats(quotas) or overspent(looked_at):
        return 37
    return book.allowance_refusal(quotas, *arguments) if name == "event" else 0


def own_repeat_only(book, quotas, name, *arguments):
    looked_at = [quota for quota in quotas if name != "event" or quota.source == arguments[0]]
    if len(quotas) > MAX_QUOTAS or repeats(looked_at) or overspent(quotas):
        return 37
    return book.allowance_refusal(quotas, *arguments) if name == "event" else 0


def passing_over(passed):
    """No 37 where a call is passed over."""

    def list_refusal(book, quotas, name, *arguments):
        found = Book.list_refusal(book, quotas, name, *arguments)
        return 0 if found == 37 and passed(name, arguments) else found

    return {"list_refusal": list_refusal}


def moves_nothing(name, arguments):
    return name == "shuffle" and len(arguments[1]) < 2


WRONG_LISTS = (
    wrong("takes a list of 65", **faults(most=MAX_QUOTAS + 1)),
    wrong("takes a list of any length", **faults(most=2**32)),
    wrong("takes no list of 64", **faults(most=MAX_QUOTAS - 1)),
    wrong("takes no empty list", **faults(other=lambda quotas: not quotas)),
    wrong("takes a repeated source", **faults(repeat=never)),
    wrong("finds a repeat only between neighbours", **faults(repeat=repeats_beside)),
    wrong("finds a repeat only of the first record", **faults(repeat=repeats_first)),
    wrong("finds a repeat only of the last record", **faults(repeat=repeats_last)),
    wrong("finds a repeat only of a whole record", **faults(repeat=repeats_whole)),
    wrong("finds a repeat only of the event's own source", list_refusal=own_repeat_only),
    wrong("takes spent above allowance", **faults(over=never)),
    wrong("takes no spent at its allowance", **faults(over=lambda quotas: any(q.spent >= q.allowance for q in quotas))),
    wrong("looks at spent of the first record only", **faults(over=lambda quotas: overspent(quotas[:1]))),
    wrong("looks at spent of the last record only", **faults(over=lambda quotas: overspent(quotas[-1:]))),
    wrong("looks at spent of the event's own record only", list_refusal=own_record_only),
    wrong("takes allowance and spent for signed numbers", **faults(over=overspent_signed)),
    wrong("takes no source above 65,535", **faults(other=lambda quotas: any(q.source > 65535 for q in quotas))),
    wrong("looks for 37 only at events", **passing_over(lambda name, arguments: name != "event")),
    wrong("looks for no 37 at a shuffle of 0 or 1 numbers", **passing_over(moves_nothing)),
    *(wrong(f"looks for no 37 at {name}", **passing_over(lambda n, _, name=name: n == name)) for name in CALLS),
)


# ---- 38 and 39


def judged(passes):
    """Another test of the allowance."""

    def allowance_refusal(book, quotas, source, pool, data):
        own = [quota for quota in quotas if quota.source == source]
        return 38 if not own else 39 if passes(own[0], book.cost(source, pool, data)) else 0

    return {"allowance_refusal": allowance_refusal}


def costing(cost):
    return {"cost": lambda book, source, pool, data: cost(len(data))}


def renumbered(numbers):
    """Other numbers in place of these."""

    def allowance_refusal(book, *arguments):
        found = Book.allowance_refusal(book, *arguments)
        return numbers.get(found, found)

    return {"allowance_refusal": allowance_refusal}


def masked(mask):
    """Sources whose low bits are the same are one."""

    def as_seen(quotas):
        return tuple(quota._replace(source=quota.source & mask) for quota in quotas)

    def allowance_refusal(book, quotas, source, pool, data):
        return Book.allowance_refusal(book, as_seen(quotas), source & mask, pool, data)

    def list_left(book, quotas, number, emptied, name, *arguments):
        if name == "event":
            arguments = arguments[0] & mask, *arguments[1:]
        left = Book.list_left(book, as_seen(quotas), number, emptied, name, *arguments)
        return tuple(quota._replace(spent=after.spent) for quota, after in zip(quotas, left))

    return {"allowance_refusal": allowance_refusal, "list_left": list_left}


def charges_listed(book, quotas, number, emptied, name, *arguments):
    """What is left by a version that takes other sources too."""
    if name == "event" and arguments[0] not in {quota.source for quota in quotas}:
        return quotas
    return Book.list_left(book, quotas, number, emptied, name, *arguments)


def none_for_empty(book, name, quotas, *arguments):
    """The call of a version that takes an empty list for none."""
    return Book.with_list(book, name, quotas, *arguments) if quotas else (*book.plain(name, *arguments), quotas)


WRONG_ALLOWANCES = (
    wrong("turns an event back that reaches its allowance", **judged(lambda q, cost: q.spent + cost >= q.allowance)),
    wrong("takes one byte above the allowance", **judged(lambda q, cost: q.spent + cost > q.allowance + 1)),
    wrong("takes an event as long as there is room", **judged(lambda q, cost: q.spent >= q.allowance)),
    wrong("does not look at what is spent", **judged(lambda q, cost: cost > q.allowance)),
    wrong("wraps what is spent", **judged(lambda q, cost: (q.spent + cost) % 2**32 > q.allowance)),
    wrong("takes an allowance for signed", **judged(lambda q, cost: q.spent + cost > signed(q.allowance))),
    wrong("takes an allowance of 0 for none", **judged(lambda q, cost: 0 < q.allowance < q.spent + cost)),
    wrong("never looks at the allowance", **judged(lambda q, cost: False)),
    wrong("does not count the header", **costing(lambda size: size)),
    wrong("counts a header of 2", **costing(lambda size: 2 + size)),
    wrong("counts a header of 4", **costing(lambda size: 4 + size)),
    wrong("counts the header alone", **costing(lambda size: 3)),
    wrong("counts 35 for each event", **costing(lambda size: 35)),
    wrong("gives 39 for a source that is not listed", **renumbered({38: 39})),
    wrong("gives 38 for a source over its allowance", **renumbered({39: 38})),
    wrong("takes a source that is not listed", **renumbered({38: 0}), list_left=charges_listed),
    wrong("takes an empty list for none", with_list=none_for_empty),
    wrong("sees a source by its low 16 bits", **masked(0xFFFF)),
    wrong("sees a source by its low 8 bits", **masked(0xFF)),
)


# ---- the order of the numbers


def state_refusal(book, name, *arguments):
    if book.malformed():
        return 21
    return getattr(book, f"{name}_refusal")(*arguments, *([MAX_TRIES] if name == "shuffle" else []))


STAGES = {
    "input": lambda book, quotas, name, *arguments: book.input_refusal(name, *arguments),
    "37": lambda book, quotas, name, *arguments: 37 if book.bad_list(quotas) else 0,
    "38, 39": lambda book, quotas, name, *rest: book.allowance_refusal(quotas, *rest) if name == "event" else 0,
    "state": lambda book, quotas, name, *arguments: state_refusal(book, name, *arguments),
}


def ordered(*stages):
    """The numbers are looked for in another order."""

    def with_list(book, name, quotas, *arguments):
        found = (STAGES[stage](book, quotas, name, *arguments) for stage in stages)
        refusal = next(filter(None, found), 0)
        given = (refusal, 0, as_lent(name, arguments)) if refusal else book.plain(name, *arguments)
        return *given, book.list_left(quotas, *given[:2], name, *arguments)

    return {"with_list": with_list, **costing(lambda size: 3 + size)}


WRONG_ORDERS = (
    wrong("looks for 37 before the input", **ordered("37", "input", "38, 39", "state")),
    wrong("looks at the whole list before the input", **ordered("37", "38, 39", "input", "state")),
    wrong("looks for 38 and 39 before 37", **ordered("input", "38, 39", "37", "state")),
    wrong("looks for 37 after the state", **ordered("input", "38, 39", "state", "37")),
    wrong("looks for 38 and 39 after the state", **ordered("input", "37", "state", "38, 39")),
    wrong("looks at the list last", **ordered("input", "state", "37", "38, 39")),
)


# ---- what is charged


def taken_for(changed):
    """The list is left as after an answer with another number or another count of pools emptied."""

    def list_left(book, quotas, number, emptied, name, *arguments):
        return Book.list_left(book, quotas, *changed(name, number, emptied), name, *arguments)

    return {"list_left": list_left}


def charged_at(places):
    """The event's bytes go to the records at other places; places takes the right one and the list's length."""

    def list_left(book, quotas, number, emptied, name, *arguments):
        left = list(Book.list_left(book, quotas, number, emptied, name, *arguments))
        if number or name != "event":
            return tuple(left)
        own = [quota.source for quota in quotas].index(arguments[0])
        left[own] = quotas[own]
        for place in places(own, len(left)):
            left[place] = left[place]._replace(spent=left[place].spent + book.cost(*arguments))
        return tuple(left)

    return {"list_left": list_left}


def charging(cost):
    """The refusal goes by the right cost, and the charge by another."""

    def list_left(book, quotas, number, emptied, name, *arguments):
        left = Book.list_left(book, quotas, number, emptied, name, *arguments)
        if number or name != "event":
            return left
        less = book.cost(*arguments) - cost(*arguments)
        return tuple(q._replace(spent=q.spent - less) if q.source == arguments[0] else q for q in left)

    return {"list_left": list_left}


def listed(quotas, name, arguments):
    return name == "event" and arguments[0] in {quota.source for quota in quotas}


def charged_though(refusal):
    """An event that a number turns back is charged all the same, where it has a record."""

    def list_left(book, quotas, number, emptied, name, *arguments):
        if number == refusal and listed(quotas, name, arguments):
            number = 0
        return Book.list_left(book, quotas, number, emptied, name, *arguments)

    return {"list_left": list_left}


def made_though(refusal):
    """A call that the list turns back with a number is made all the same."""

    def with_list(book, name, quotas, *arguments):
        given = Book.with_list(book, name, quotas, *arguments)
        if given[0] == refusal:
            book.plain(name, *arguments)
        return given

    return {"with_list": with_list}


def charges_tries(book, quotas, number, emptied, name, *arguments):
    """What is left by a version that charges a draw without a value to the first record, as an event of 4 bytes."""
    left = Book.list_left(book, quotas, number, emptied, name, *arguments)
    if number != 33 or not quotas:
        return left
    return (left[0]._replace(spent=left[0].spent + 7), *left[1:])


def charges_without_list(book, name, *arguments):
    """A call of a version whose events without a list are charged to the list that is held."""
    given = Book.call(book, name, *arguments)
    if given[0] == 0 and listed(book.list_held, name, arguments):
        book.list_held = book.list_left(book.list_held, 0, 0, name, *arguments)
    return given


WRONG_CHARGES = (
    wrong("charges nothing", **charging(lambda source, pool, data: 0)),
    wrong("charges without the header", **charging(lambda source, pool, data: len(data))),
    wrong("charges only events of pool 0", **charging(lambda source, pool, data: 0 if pool else 3 + len(data))),
    wrong("charges only events of other pools", **charging(lambda source, pool, data: 3 + len(data) if pool else 0)),
    wrong("charges the first record", **charged_at(lambda own, size: [0])),
    wrong("charges the last record", **charged_at(lambda own, size: [size - 1])),
    wrong("charges the next record", **charged_at(lambda own, size: [(own + 1) % size])),
    wrong("charges all records", **charged_at(lambda own, size: range(size))),
    *(wrong(f"charges an event that {number} turns back", **charged_though(number)) for number in (12, 13, 21, 37, 39)),
    wrong("charges a draw that gives 33", list_left=charges_tries),
    wrong("charges events without a list", call=charges_without_list),
    wrong("makes a call that 37 turns back", **made_though(37)),
    *(wrong(f"takes an event that {number} turns back into the pool", **made_though(number)) for number in (38, 39)),
)


# ---- what a pool reseed clears


def clearing(clear):
    """After a pool reseed another list is left; clear takes the list before."""

    def list_left(book, quotas, number, emptied, *rest):
        return tuple(clear(quotas)) if emptied else Book.list_left(book, quotas, number, emptied, *rest)

    return {"list_left": list_left}


def unspent(quotas):
    return tuple(quota._replace(spent=0) for quota in quotas)


def clearing_where(holds):
    """Only some records are cleared."""
    return clearing(lambda quotas: [quota._replace(spent=0) if holds(quota) else quota for quota in quotas])


def clearing_at(*names):
    """The list is cleared by each such call that is accepted, also without a pool reseed."""
    return taken_for(lambda name, number, emptied: (number, emptied or number == 0 and name in names))


def keeping_at(kept):
    """The list is not cleared by one of the calls."""
    return taken_for(lambda name, number, emptied: (number, 0 if name == kept else emptied))


def clears_without_list(book, name, *arguments):
    """A call of a version in which a pool reseed by a call without a list clears the list that is held."""
    given = Book.call(book, name, *arguments)
    if name in OUTPUT_CALLS and given[1]:
        book.list_held = unspent(book.list_held)
    return given


def clears_when_due(book, quotas, number, emptied, name, *arguments):
    due = name != "event" and book.due(arguments[0])
    return unspent(quotas) if due else Book.list_left(book, quotas, number, emptied, name, *arguments)


def keeps_list(book, name, quotas, *arguments):
    """The call of a version that goes by the list that the last call left, and not by the one lent."""
    *given, book.kept = Book.with_list(book, name, getattr(book, "kept", quotas), *arguments)
    return *given, book.kept


def keeps_spent(book, name, quotas, *arguments):
    """The call of a version that remembers what each source has spent, whatever the list says."""
    seen = tuple(quota._replace(spent=book.known.get(quota.source, quota.spent)) for quota in quotas)
    *given, left = Book.with_list(book, name, seen, *arguments)
    book.known = {**book.known, **{quota.source: quota.spent for quota in left}}
    return *given, left


def sorts_list(book, *arguments):
    return tuple(sorted(Book.list_left(book, *arguments)))


WRONG_CLEARINGS = (
    wrong("clears nothing", **clearing(lambda quotas: quotas)),
    wrong("clears only where the number is 0", **taken_for(lambda name, n, emptied: (n, 0 if n else emptied))),
    wrong("clears only where one pool was emptied", **taken_for(lambda name, n, emptied: (n, emptied == 1))),
    wrong("clears at every accepted call that draws", **clearing_at(*OUTPUT_CALLS)),
    wrong("clears at every accepted request", **clearing_at("request")),
    wrong("clears at every accepted update", **clearing_at("update")),
    wrong("clears at every 33", **taken_for(lambda name, n, emptied: (n, emptied or n == 33))),
    *(wrong(f"does not clear at {name}", **keeping_at(name)) for name in OUTPUT_CALLS),
    wrong("clears the first record only", **clearing(lambda quotas: unspent(quotas[:1]) + quotas[1:])),
    wrong("clears all but the last record", **clearing(lambda quotas: unspent(quotas[:-1]) + quotas[-1:])),
    wrong("clears only what has reached its allowance", **clearing_where(lambda q: q.spent == q.allowance)),
    wrong("clears only what has not reached its allowance", **clearing_where(lambda q: q.spent < q.allowance)),
    wrong("clears only sources up to 65,535", **clearing_where(lambda q: q.source < 2**16)),
    wrong("clears the allowance too", **clearing(lambda quotas: [Quota(q.source, 0, 0) for q in quotas])),
    wrong("fills spent up", **clearing(lambda quotas: [Quota(q.source, q.allowance, q.allowance) for q in quotas])),
    wrong("clears where a reseed is due, refused or not", list_left=clears_when_due),
    wrong("clears by calls without a list", call=clears_without_list),
    wrong("goes by the list that the last call left", with_list=keeps_list),
    wrong("remembers what each source has spent", with_list=keeps_spent, known={}),
    wrong("sorts the list", list_left=sorts_list),
)

ALL = (*WRONG_LISTS, *WRONG_ALLOWANCES, *WRONG_ORDERS, *WRONG_CHARGES, *WRONG_CLEARINGS)

# ---- wrong versions of the station, for numbers of the state that no script gets


def after_state(*numbers):
    """The list is looked at after these numbers."""

    def metered(call, state, records, *arguments):
        outcome = call(state, *arguments)
        return (outcome, records) if outcome.number in numbers else station.metered(call, state, records, *arguments)

    return metered


def left_after(number, left):
    """A call that the state turns back with a number leaves another list."""

    def metered(call, state, records, *arguments):
        outcome, right = station.metered(call, state, records, *arguments)
        return outcome, left(records, *arguments) if outcome.number == number else right

    return metered


def after_charge(records, source, pool, data):
    return station.charged(records, source, len(data))


def after_clearing(records, *arguments):
    return station.cleared(records)


WRONG_ON_STATES = {
    **{f"looks for {number} before the list": after_state(number) for number in (21, 22, 23, 24)},
    **{f"clears the list where {number} turns back": left_after(number, after_clearing) for number in (21, 23, 24)},
    "charges an event that 22 turns back": left_after(22, after_charge),
}


# ---- versions that break what 02 (x) promises of every run, by what is found


def spent_together(book, quotas, source, pool, data):
    """38 and 39 of a version that counts what all sources have spent for each of them."""
    spent = sum(quota.spent for quota in quotas)
    return Book.allowance_refusal(book, [q._replace(spent=spent) for q in quotas], source, pool, data)


BREAKS = {
    "passes its allowance": (
        wrong("takes one byte above the allowance", **judged(lambda q, cost: q.spent + cost > q.allowance + 1)),
        wrong("takes an event as long as there is room", **judged(lambda q, cost: q.spent >= q.allowance)),
        wrong("charges nothing", **charging(lambda source, pool, data: 0)),
        wrong("charges without the header", **charging(lambda source, pool, data: len(data))),
        wrong("clears at every accepted request", **clearing_at("request")),
    ),
    "change the numbers": (
        wrong("charges all records", **charged_at(lambda own, size: range(size))),
        wrong("counts what all sources have spent for each", allowance_refusal=spent_together),
    ),
}
