"""Scripts: calls as words on a line, draws, shuffles and calls with a list of quotas too, which no bench line makes.

    event SOURCE POOL DATA
    request CLOCK N
    update CLOCK SEED
    write CLOCK
    draw CLOCK N TRIES
    shuffle CLOCK NUMBER,NUMBER,..
    counted REQUESTS
    quotas SOURCE:ALLOWANCE:SPENT,..
    metered CALL..

`counted` is no call. It sets the requests on the key to a number up to 65,535 in a seeded state, as that many requests
would have done: no script makes so many. Nor is `quotas`, which sets the list that is held; before it that is the empty
list. `metered` stands before one of the six calls, which then takes the list that is held, and the list that it leaves
is held on. Numbers are decimal, bytes lower-case hexadecimal; `-` stands for no bytes and for an empty list. An answer
is the number, for all but events, `counted` and `quotas` then the pools emptied, and then the bytes of a request or
seed call that was not refused, a draw's value, or the list that a shuffle left; for a metered call then the quotas
left; last, for every line, the state's number of requests on the key. Lines are bytes without their LF, and made by the
names of the calls, as in tests/independent/frames.py; tests/c_interface/script.c reads them too."""
from logbook import SEED_SIZE, Quota

# ---- lines of calls


def reading(clock):
    """The clock wraps at 2^32."""
    return b"%d" % (clock % 2**32)


def in_hexadecimal(data):
    return data.hex().encode() or b"-"


def as_list(numbers):
    return b",".join(b"%d" % number for number in numbers) or b"-"


def event(source, pool, data):
    return b"event %d %d " % (source, pool) + in_hexadecimal(data)


EVENTS = (event,)  # all ways to write an event; frames have two


def request(clock, n):
    return b"request " + reading(clock) + b" %d" % n


def update(clock, seed):
    return b"update " + reading(clock) + b" " + in_hexadecimal(seed)


def write(clock):
    return b"write " + reading(clock)


def draw(clock, n, tries):
    return b"draw " + reading(clock) + b" %d %d" % (n, tries)


def shuffle(clock, numbers):
    return b"shuffle " + reading(clock) + b" " + as_list(numbers)


def counted(requests):
    return b"counted %d" % requests


def as_quotas(records):
    return b",".join(b"%d:%d:%d" % tuple(record) for record in records) or b"-"


def quotas(records):
    return b"quotas " + as_quotas(records)


METERED = b"metered "


def metered(line):
    return METERED + line


# ---- reading and answering them


def data_of(word):
    return b"" if word == b"-" else bytes.fromhex(word.decode())


def list_of(word):
    return () if word == b"-" else tuple(map(int, word.split(b",")))


def quotas_of(word):
    return () if word == b"-" else tuple(Quota(*map(int, record.split(b":"))) for record in word.split(b","))


READERS = {
    "event": (int, int, data_of),
    "request": (int, lambda n: bytes(int(n))),
    "update": (int, data_of),
    "write": (int,),
    "draw": (int, int, int),
    "shuffle": (int, list_of),
    "counted": (int,),
    "quotas": (quotas_of,),
}
EMPTIES_NONE = ("event", "counted", "quotas")  # their answers have no pools emptied, and no result


def call_of(line):
    """The name and the arguments of the call that a line asks for, as the logbook's method takes them; before those of
    one that takes a list `metered`."""
    if line.startswith(METERED):
        return "metered", *call_of(line.removeprefix(METERED))
    name, *words = line.split(b" ")
    name = name.decode()
    arguments = [read(word) for read, word in zip(READERS[name], words, strict=True)]
    return name, *arguments, *([bytes(SEED_SIZE)] if name == "write" else [])


def result_words(name, number, result):
    if name == "draw":
        return [b"%d" % result]
    if name == "shuffle":
        return [as_list(result)]
    return [] if number else [in_hexadecimal(result)]


def answer(call, line):
    """The answer to a line; call takes a call's name and arguments and gives number, pools emptied, result, for a
    metered call the quotas left, and the state's number of requests on the key."""
    name, *arguments = call_of(line)
    number, emptied, result, *left, requests = call(name, *arguments)
    if name == "metered":
        name = arguments[0]
    words = [b"%d" % number]
    if name not in EMPTIES_NONE:
        words += [b"%d" % emptied, *result_words(name, number, result)]
    return b" ".join([*words, *map(as_quotas, left), b"%d" % requests])


def answers(call, script):
    """The answers to a whole script, a line each."""
    return b"".join(answer(call, line) + b"\n" for line in script.splitlines())
