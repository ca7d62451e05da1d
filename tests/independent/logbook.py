"""An implementation made elsewhere: the whole station, by the rules of 01's plain logbook, and the bench's answers.
bin/logbook (editions.py) runs it.

It holds no pools. It notes each accepted event with its r, the pool reseeds made before it, and works out from r which
reseed the event is booked for; what a pool holds or gives follows from the bookings. Nothing is taken from the station.
Draws and shuffles (02, i) are calls of it too, though no frame makes one; tests/c_interface/slots.py runs them. So are
calls that take a list of quotas (02, x), which tests/c_interface/quotas.py runs. It holds no list: each such call takes
one, and gives the one left.
SHA-256 is Python's hashlib, AES-256 is tests/independent/aes256.py."""
from collections import Counter, defaultdict, namedtuple

import generator
from generator import MAX_COUNT, MAX_REQUEST, ZERO_BLOCK, block_count, sha_d256
from sha256 import INITIAL, MAX_MESSAGE, compress

POOLS = 32
SEED_SIZE = 64
CLOCK = 2**32
MAX_BELOW = 2**32
MAX_TRIES = 64
MAX_LIST = 256
TRY_SIZE = 4
TRY_BLOCKS = 3  # of a request of 4 bytes
MOST_TOLD = 65535  # where the state's number of requests on the key stops
MAX_QUOTAS = 64  # records of a list

Event = namedtuple("Event", "source pool data r")
Pool = namedtuple("Pool", "chain tail length")
Quota = namedtuple("Quota", "source allowance spent")
Station = namedtuple("Station", "key counter mark reseed_number reseeded key_requests pools")


def booked(event):
    """The pool reseed that an event is booked for."""
    return 2**event.pool * (event.r // 2**event.pool + 1)


def blank(page):
    """Whether a page is as flash memory that was never written (02, vii): no byte differs from the one before it."""
    return all(before == byte for before, byte in zip(page, page[1:]))


def running(front, content):
    """The running hash, tail and length that a pool's bytes leave. The hash goes on from D's front, which the length does
    not count."""
    whole = len(content) // 64 * 64
    hashed = front + content[:whole]
    chain = INITIAL
    for i in range(0, len(hashed), 64):
        chain = compress(chain, hashed[i : i + 64])
    return Pool(tuple(chain), content[whole:].ljust(64, b"\0"), len(content))


def as_lent(name, arguments):
    """What a refused call gives in its result's place."""
    return {"event": b"", "draw": 0}.get(name, arguments[1])


class Logbook:
    """A call gives its number (0: accepted), the count of pools emptied, and the lent buffer or list afterwards; a draw
    in its place the value, 0 where none was drawn."""

    front = ZERO_BLOCK  # what D hashes before its message: whole blocks
    source_bytes = 2  # of an event's header
    takes_blank = False  # whether an update takes a blank seed

    def __init__(self):
        self.generator = generator.FRESH
        self.mark = 0
        self.reseeds = 0  # R, never wrapped
        self.events = []
        # their bytes in arrival order, by pool and by the reseed booked for, so that a long run needs no search
        self.bookings = [defaultdict(bytearray) for _ in range(POOLS)]
        self.served = Counter()  # requests, by the pool reseeds made up to each, its own included

    def d(self, m):
        return sha_d256(m, self.front)

    def gained(self, event):
        """What the event's pool gains: the source, least significant byte first, length byte, data."""
        return event.source.to_bytes(self.source_bytes, "little") + bytes([len(event.data)]) + event.data

    # ---- what follows from the bookings

    def held(self, pool):
        """The strings of the pool's events booked above R, in arrival order."""
        strings = []
        for number in reversed(self.bookings[pool]):
            if number <= self.reseeds:
                break  # R never falls, so within a pool no earlier booking is for a later reseed
            strings.insert(0, self.bookings[pool][number])
        return strings

    def contents(self, pool):
        return b"".join(self.held(pool))

    def length(self, pool):
        return sum(map(len, self.held(pool)))

    def given(self, pool, number):
        """The string whose D the pool gives to a reseed."""
        return self.bookings[pool].get(number, b"")

    def digest(self, pool):
        """What the pool gives to reseed R."""
        return self.d(self.given(pool, self.reseeds))

    def due(self, clock):
        return self.length(0) >= 64 and (self.reseeds == 0 or (clock - self.mark) % CLOCK > 100)

    def on_key(self):
        """The requests since the last pool reseed, however many (02, iv)."""
        return self.served[self.reseeds]

    def key_requests(self):
        """The number that the state has of them."""
        return min(self.on_key(), MOST_TOLD)

    def station(self):
        """The state that the station must have."""
        pools = tuple(running(self.front, self.contents(i)) for i in range(POOLS))
        counter = generator.counter_bytes(self.generator.count)
        timer = self.mark, self.reseeds % 2**32, self.reseeds > 0
        return Station(self.generator.key, counter, *timer, self.key_requests(), pools)

    # ---- refusals by the input, the first that applies

    def event_input(self, source, pool, data):
        if source >= 256**self.source_bytes:
            return 11
        if pool >= POOLS:
            return 12
        return 0 if 1 <= len(data) <= 32 else 13

    def request_input(self, clock, buffer):
        return 14 if len(buffer) > MAX_REQUEST else 0

    def update_input(self, clock, seed):
        if len(seed) != SEED_SIZE:
            return 15
        return 36 if blank(seed) and not self.takes_blank else 0

    def write_input(self, clock, seed):
        return 15 if len(seed) != SEED_SIZE else 0

    def draw_input(self, clock, n, tries):
        if not 1 <= n <= MAX_BELOW:
            return 31
        return 0 if 1 <= tries <= MAX_TRIES else 32

    def shuffle_input(self, clock, numbers, tries=MAX_TRIES):
        return 31 if len(numbers) > MAX_LIST or len(set(numbers)) < len(numbers) else 0

    def input_refusal(self, name, *arguments):
        return getattr(self, f"{name}_input")(*arguments)

    # ---- refusals: input numbers before state numbers, the lower first; 21 never arises

    def event_refusal(self, source, pool, data):
        return self.event_input(source, pool, data) or self.room_refusal(pool, data)

    def room_refusal(self, pool, data):
        gain = self.source_bytes + 1 + len(data)
        return 22 if self.length(pool) + gain > MAX_MESSAGE - len(self.front) else 0

    def spent(self, clock, blocks):
        """24: the counter would run out."""
        return self.generator.count + (1 if self.due(clock) else 0) + blocks > MAX_COUNT

    def output_refusal(self, clock, blocks):
        if self.generator.count == 0 and not self.due(clock):
            return 23
        return 24 if self.spent(clock, blocks) else 0

    def request_refusal(self, clock, buffer):
        return self.request_input(clock, buffer) or self.output_refusal(clock, block_count(len(buffer)) + 2)

    def update_refusal(self, clock, seed):
        return self.update_input(clock, seed) or (24 if self.spent(clock, 7) else 0)

    def write_refusal(self, clock, seed):
        return self.write_input(clock, seed) or self.output_refusal(clock, block_count(SEED_SIZE) + 2)

    def draw_refusal(self, clock, n, tries):
        return self.draw_input(clock, n, tries) or self.output_refusal(clock, TRY_BLOCKS * tries)

    def shuffle_refusal(self, clock, numbers, tries):
        bad = self.shuffle_input(clock, numbers)
        if bad or len(numbers) < 2:
            return bad  # a list of 0 or 1 makes no request
        return self.output_refusal(clock, TRY_BLOCKS * tries * (len(numbers) - 1))

    # ---- the calls

    def event(self, source, pool, data):
        refusal = self.event_refusal(source, pool, data)
        if not refusal:
            event = Event(source, pool, data, self.reseeds)
            self.events.append(event)
            self.bookings[pool][booked(event)] += self.gained(event)
        return refusal, 0, b""

    def request(self, clock, buffer):
        refusal = self.request_refusal(clock, buffer)
        return (refusal, 0, buffer) if refusal else self.output(clock, len(buffer))

    def update(self, clock, seed):
        refusal = self.update_refusal(clock, seed)
        if refusal:
            return refusal, 0, seed
        self.reseed_generator(seed)
        return self.output(clock, SEED_SIZE)

    def write(self, clock, seed):
        refusal = self.write_refusal(clock, seed)
        return (refusal, 0, seed) if refusal else self.output(clock, SEED_SIZE)

    def draw(self, clock, n, tries):
        refusal = self.draw_refusal(clock, n, tries)
        return (refusal, 0, 0) if refusal else self.drawn(clock, n, tries)

    def shuffle(self, clock, numbers, tries=MAX_TRIES):
        """Of a draw with 64 tries nobody has seen 33; fewer serve to see what a shuffle does then."""
        refusal = self.shuffle_refusal(clock, numbers, tries)
        return (refusal, 0, numbers) if refusal else self.shuffled(clock, numbers, tries)

    # ---- calls that take a list of quotas

    def with_list(self, name, quotas, *arguments):
        """What the call gives, and the list left. The list's numbers stand between those of the input and of the state,
        which the call looks at by itself."""
        refusal = self.input_refusal(name, *arguments) or self.list_refusal(quotas, name, *arguments)
        given = (refusal, 0, as_lent(name, arguments)) if refusal else self.plain(name, *arguments)
        return *given, self.list_left(quotas, *given[:2], name, *arguments)

    def plain(self, name, *arguments):
        """The call without a list."""
        return getattr(self, name)(*arguments)

    def list_refusal(self, quotas, name, *arguments):
        if self.bad_list(quotas):
            return 37
        return self.allowance_refusal(quotas, *arguments) if name == "event" else 0

    def bad_list(self, quotas):
        one_each = {quota.source: quota for quota in quotas}
        return len(quotas) > MAX_QUOTAS or len(one_each) < len(quotas) or any(q.spent > q.allowance for q in quotas)

    def allowance_refusal(self, quotas, source, pool, data):
        rooms = {quota.source: quota.allowance - quota.spent for quota in quotas}
        if source not in rooms:
            return 38
        return 39 if self.cost(source, pool, data) > rooms[source] else 0

    def cost(self, source, pool, data):
        """An event spends as many bytes as its pool gains."""
        return len(self.gained(Event(source, pool, data, self.reseeds)))

    def list_left(self, quotas, number, emptied, name, *arguments):
        """A pool reseed, which always empties pool 0, clears the list, 33 or not; only accepted events spend."""
        if emptied:
            return tuple(quota._replace(spent=0) for quota in quotas)
        if number or name != "event":
            return quotas
        spent = {quota.source: quota.spent for quota in quotas}
        spent[arguments[0]] += self.cost(*arguments)
        return tuple(quota._replace(spent=spent[quota.source]) for quota in quotas)

    # ---- what an accepted call does

    def reseed_generator(self, seed):
        number, self.generator = generator.reseed(self.generator, seed, self.d)
        assert number == 0

    def pool_reseed(self, clock):
        """The count of pools emptied."""
        self.reseeds += 1
        self.mark = clock
        used = [i for i in range(POOLS) if self.reseeds % 2**i == 0]
        self.reseed_generator(b"".join(map(self.digest, used)))
        return len(used)

    def output(self, clock, n):
        """The pool reseed if due, then the generator's request."""
        emptied = self.pool_reseed(clock) if self.due(clock) else 0
        buffer = bytearray(n)
        number, self.generator = generator.request(self.generator, buffer)
        assert number == 0
        self.served[self.reseeds] += 1
        return 0, emptied, bytes(buffer)

    def drawn(self, clock, n, tries):
        """Tries, each a request, up to the first below n; 33 where none is."""
        bits = (n - 1).bit_length()
        emptied = 0
        for _ in range(tries):
            _, more, given = self.output(clock, TRY_SIZE)
            emptied += more
            value = int.from_bytes(given, "little") % 2**bits
            if value < n:
                return 0, emptied, value
        return 33, emptied, 0

    def shuffled(self, clock, numbers, tries):
        """From the last place down to 1, its entry changes with that of the place drawn."""
        entries = list(numbers)
        emptied = 0
        for last in range(len(numbers) - 1, 0, -1):
            number, more, place = self.drawn(clock, last + 1, tries)
            emptied += more
            if number:
                return number, emptied, numbers
            entries[last], entries[place] = entries[place], entries[last]
        return 0, emptied, tuple(entries)


# ---- bench lines

MAX_LINE = 256
MAX_WIDE_LINE = 258  # of a line that starts with 05
DIGITS = frozenset(b"0123456789ABCDEF")


def lines(stream):
    """The lines of a stream without their LF. Of a line too long for any frame it gives a start too long as well."""
    while line := stream.readline(MAX_WIDE_LINE + 2):
        part = line
        while part and not part.endswith(b"\n"):
            part = stream.readline(65536)
        yield line.removesuffix(b"\n")


def limit(line):
    """How long a line with this start may be."""
    return MAX_WIDE_LINE if line.startswith(b"05") else MAX_LINE


def call_of(line, source_bytes=2):
    """The name and the arguments of the call that a line asks for; None where it is no frame. Where sources have one byte,
    there is no frame 05."""
    if not 0 < len(line) <= limit(line) or len(line) % 2 or not DIGITS.issuperset(line):
        return None
    frame = bytes.fromhex(line.decode("ascii"))
    first, rest = frame[0], frame[1:]
    clock, after = int.from_bytes(rest[:4], "big"), rest[4:]
    if first == 1 and len(rest) >= 2:
        return "event", rest[0], rest[1], rest[2:]
    if first == 2 and len(rest) == 6:
        return "request", clock, bytes(int.from_bytes(after, "big"))
    if first == 3 and len(rest) >= 4:
        return "update", clock, after
    if first == 4 and len(rest) == 4:
        return "write", clock, bytes(SEED_SIZE)
    if first == 5 and len(rest) >= 3 and source_bytes == 2:
        return "event", int.from_bytes(rest[:2], "big"), rest[2], rest[3:]
    return None


def answer(book, line):
    """What the bench prints for a line, without the LF."""
    call = call_of(line, book.source_bytes)
    if call is None:
        return b"16"
    name, *arguments = call
    number, emptied, buffer = getattr(book, name)(*arguments)
    if number or name == "event":
        return b"%02d" % number
    return b" ".join([b"00", b"%02d" % emptied] + ([buffer.hex().upper().encode()] if buffer else []))


def answers(stream, book=None):
    """The bench's answer to each line of a stream, with its LF, from a fresh logbook or the one given."""
    book = book or Logbook()
    for line in lines(stream):
        yield answer(book, line) + b"\n"
