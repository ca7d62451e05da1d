"""Scripts of calls of the keyed scheduler (02, xiv): words on a line, all on one state and one list of quotas.

    new KEY
    set FIELD=VALUE..
    quotas SOURCE:ALLOWANCE:SPENT,..
    event SOURCE DATA
    request N
    update SEED
    write SEED
    metered CALL..
    input KEY STEP
    output STEP

`new` is a fresh start with that scheduler key. `set` is no call and sets fields of the state, `quotas` the list that is
held; before it that is the empty list. `metered` stands before one of the four calls, which then takes the list that is
held, and the list that it leaves is held on. `input` and `output` ask which pool the event at a step goes to, and which
one the step empties, 32 for none.

The fields are `key`, `counter`, `pool0` to `pool31`, `mark`, `number` and `flag` (last_reseed, reseed_count and
reseeded in C), `requests`, `scheduler` and `step`. A pool is CHAIN:TAIL:LENGTH, with `-` for the empty pool's chain;
zeros at the end of a tail are left out. Numbers are decimal. Bytes are hexadecimal, or `-` for none; in a script also
`BYTE*TIMES` for a byte so many times. Where a call gives more than 128 bytes, their SHA-256 stands for them.

The answer to a call is its number, the pools emptied, for all but events the bytes where it is not refused, and for a
metered call the list left; to `input` and `output` it is the pool. Then, for every line, come all fields that are not
as they were before it, as `set` takes them, or `=` where all are; after `new` all that are not 0. So the answers tell
the whole state after each line. Lines are bytes without their LF; tests/c_interface/keyed.c reads them too."""
from ctr_drbg_script import bytes_of, digits, shown, word
from keyed import FRONT, POOLS, Keyed, Pool, Running, State, fresh, pool_of, running
from script import METERED, as_quotas, metered, quotas, quotas_of

NO_POOL = Pool(Running((0,) * 8, bytes(64), 0), b"")
ZEROS = State(bytes(32), 0, (NO_POOL,) * POOLS, 0, 0, False, 0, bytes(32), 0)  # what a new state is held to
COUNTER = 16  # bytes

# ---- fields: as bytes of a word, and back


def pool_word(pool):
    chain, tail, length = running(pool)
    front = b"-" if chain == FRONT.chain else b"".join(b"%08x" % part for part in chain)
    return b"%s:%s:%d" % (front, digits(tail.rstrip(b"\0")), length)


def pool_in(text):
    chain, tail, length = text.split(b":")
    found = bytes.fromhex(chain.decode()) if chain != b"-" else b""
    words = tuple(int.from_bytes(found[i : i + 4], "big") for i in range(0, 32, 4)) if found else FRONT.chain
    return pool_of(Running(words, bytes_of(tail).ljust(64, b"\0"), int(length)))


def counter_word(count):
    return digits(count.to_bytes(COUNTER, "little"))


def counter_in(text):
    return int.from_bytes(bytes_of(text), "little")


FIELDS = {  # the state's field, how its value is told, and how it is read
    b"key": ("key", digits, bytes_of),
    b"counter": ("count", counter_word, counter_in),
    b"mark": ("mark", b"%d".__mod__, int),
    b"number": ("number", b"%d".__mod__, int),
    b"flag": ("flag", b"%d".__mod__, lambda text: text == b"1"),
    b"requests": ("key_requests", b"%d".__mod__, int),
    b"scheduler": ("scheduler_key", digits, bytes_of),
    b"step": ("step", b"%d".__mod__, int),
}


def changes(before, after):
    """The words of all fields that differ."""
    words = []
    for name, (field, told, _) in FIELDS.items():
        if getattr(before, field) != getattr(after, field):
            words.append(name + b"=" + told(getattr(after, field)))
    for i, (old, new) in enumerate(zip(before.pools, after.pools)):
        if old != new and running(old) != running(new):
            words.append(b"pool%d=" % i + pool_word(new))
    return b" ".join(words) or b"="


def with_words(state, words):
    """The state with fields set."""
    pools, fields = list(state.pools), {}
    for text in words:
        name, _, value = text.partition(b"=")
        if name.startswith(b"pool"):
            pools[int(name.removeprefix(b"pool"))] = pool_in(value)
        else:
            field, _, read = FIELDS[name]
            fields[field] = read(value)
    return state._replace(pools=tuple(pools), **fields)


# ---- lines


def new(key):
    return b"new " + word(key)


def setting(before, after):
    """The line that brings one state to another."""
    return b"set " + changes(before, after)


def event(source, data):
    return b"event %d %s" % (source, word(data))


def request(n):
    return b"request %d" % n


def update(seed):
    return b"update " + word(seed)


def write(seed):
    return b"write " + word(seed)


def input_pool(key, step):
    return b"input %s %d" % (word(key), step)


def output_pool(step):
    return b"output %d" % step


# ---- reading and answering them

READERS = {
    "event": (int, bytes_of),
    "request": (lambda n: bytes(int(n)),),
    "update": (bytes_of,),
    "write": (bytes_of,),
}


def call_of(line):
    """The name and the arguments of a call, as tests/independent/keyed.py takes them after state and list, and whether
    it takes the list."""
    takes = line.startswith(METERED)
    name, *words = line.removeprefix(METERED).split(b" ")
    name = name.decode()
    return takes, name, [read(text) for read, text in zip(READERS[name], words, strict=True)]


class Run:
    """The state and the list of a script, by tests/independent/keyed.py or a wrong version of it."""

    def __init__(self, version=Keyed):
        self.keyed = version()
        self.state, self.held = fresh(bytes(32)), ()

    def call(self, line):
        """What a call gives; the state and the list go on."""
        takes, name, arguments = call_of(line)
        found = self.keyed.call(name, self.state, self.held if takes else None, *arguments)
        self.state = found.next
        self.held = found.quotas if takes else self.held
        return takes, name, found

    def told(self, line):
        """The words of the answer before the changes."""
        kind, *words = line.split(b" ")
        if kind == b"input":
            return [b"%d" % self.keyed.input_pool(bytes_of(words[0]), int(words[1]))]
        if kind == b"output":
            emptied = self.keyed.output_pool(int(words[0]))
            return [b"%d" % (POOLS if emptied is None else emptied)]
        takes, name, found = self.call(line)
        given = [] if name == "event" or found.number else [shown(found.lent)]
        return [b"%d" % found.number, b"%d" % found.emptied, *given, *([as_quotas(self.held)] if takes else [])]

    def answer(self, line):
        kind, *words = line.split(b" ")
        before = self.state
        if kind == b"new":
            before, self.state = ZEROS, self.keyed.fresh(bytes_of(words[0]))
        elif kind == b"set":
            self.state = with_words(before, words)
        elif kind == b"quotas":
            self.held = quotas_of(words[0])
        else:
            return b" ".join([*self.told(line), changes(before, self.state)])
        return changes(before, self.state)


def answers(script, version=Keyed):
    """The answers to a script, a line each."""
    run = Run(version)
    return (run.answer(line) + b"\n" for line in script.splitlines())
