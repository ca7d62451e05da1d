"""The generator's lines of the program `vectors`, from tests/independent/generator.py."""
import hashlib

import generator
from generator import FRESH, State, counter_bytes

SIZES = (0, 1, 15, 16, 17, 64)
LIMIT = generator.MAX_REQUEST
KEY = bytes.fromhex("603deb1015ca71be2b73aef0857d77811f352c073b6108d72d9810a30914dff4")


def blank(n):
    return bytearray(b"\xee" * n)


def length_bytes(buffer):
    return len(buffer).to_bytes(3, "big")


def buffer_text(buffer):
    if len(buffer) == 0:
        return ""
    if len(buffer) <= 64:
        return f" buffer {buffer.hex()}"
    return f" buffer sha256 {hashlib.sha256(buffer).hexdigest()}"


class Run:
    """Calls under one title, each on the state that the last left. What the program holds, its state and its lent buffer, is
    what its last line left: a line sets the state only where the run starts from another one."""

    held = None

    def __init__(self, cases, title, state):
        self.cases = cases
        self.title = f"generator {title}"
        self.state = state
        if state == FRESH:
            cases.set("Gn", b"\x00")
        elif state != Run.held:
            cases.set("Gk", state.key + counter_bytes(state.count))

    def call(self, letters, operation, data, argument):
        number, self.state = getattr(generator, operation)(self.state, argument)
        key, count = Run.held = self.state
        answer = f"{number} key {key.hex()} counter {counter_bytes(count).hex()}"
        if operation != "reseed":
            answer += buffer_text(argument)
        self.cases.case(letters, data, f"{self.title} {operation} {len(argument)}", answer)

    def reseed(self, seed):
        self.call("gs", "reseed", seed, seed)

    def blocks(self, buffer, given=True):
        """With a buffer whose bytes the line gives, or that is as the last call left it."""
        self.call("gb", "blocks", length_bytes(buffer) + (bytes(buffer) if given else b""), buffer)

    def request(self, buffer, given=True):
        self.call("gr", "request", length_bytes(buffer) + (bytes(buffer) if given else b""), buffer)


def add_seeded(cases):
    for length in (0, 1, 32, 64, 100):
        run = Run(cases, f"seed {length}", FRESH)
        run.reseed(b"\xa5" * length)
        for operation in (run.blocks, run.request, run.blocks):
            for n in SIZES:
                operation(blank(n))


def add_chain(cases, pattern):
    state = FRESH
    for i in range(34):
        run = Run(cases, f"chain {i}", state)
        buffer = blank(i)
        run.reseed(pattern[:i])
        run.request(buffer)
        run.blocks(buffer, given=False)
        state = run.state


def add_thousand(cases):
    """A thousand turns: a reseed by what the buffer holds, then a request that fills it."""
    state = FRESH
    buffer = blank(61)
    cases.set("Gn", b"\x00")
    cases.set("Gt", length_bytes(buffer) + (1000).to_bytes(2, "big") + buffer)
    for _ in range(1000):
        _, state = generator.reseed(state, bytes(buffer))
        _, state = generator.request(state, buffer)
    Run.held = state
    Run(cases, "turns 1000", state).blocks(buffer, given=False)


def add_carries(cases):
    for n in range(1, 16):
        state = State(KEY, 2 ** (8 * n) - 1)
        Run(cases, f"carry {n}", state).reseed(b"abc")
        Run(cases, f"carry {n}", state).blocks(blank(33))
        Run(cases, f"carry {n}", state).request(blank(33))


def refusing_states():
    """States that refuse calls (21, 23, 24), each beside a neighbour that takes them."""
    for place, value in ((0, 0x01), (15, 0x80), (31, 0xFF)):
        key = bytearray(32)
        key[place] = value
        yield f"malformed {place}", State(bytes(key), 0)
    yield "counter 0", FRESH
    yield "counter 1", State(KEY, 1)
    for below in (5, 4, 3, 2, 1):
        yield f"2^128 - {below}", State(KEY, 2**128 - below)


def add_refused(cases):
    """17 takes a seed above 2^61 - 97 bytes, which no machine can lend: it is proved and not run."""
    for title, state in refusing_states():
        Run(cases, title, state).reseed(b"abc")
        Run(cases, title, state).blocks(blank(0))
        Run(cases, title, state).blocks(blank(1))
        Run(cases, title, state).request(blank(0))
        Run(cases, title, state).request(blank(17))


def add_large(cases):
    """Buffers about the most bytes of one call, each as the last call left it. The program's buffer starts with 0xee."""
    buffer = memoryview(blank(LIMIT + 1))
    run = Run(cases, "seed 3", FRESH)
    run.reseed(b"abc")
    for operation in (run.request, run.blocks):
        operation(buffer[:65535], given=False)
        operation(buffer[:LIMIT], given=False)
    run.blocks(buffer, given=False)
    run.request(buffer, given=False)
    for below, operation in ((65539, "request"), (65538, "request"), (65537, "blocks"), (65536, "blocks")):
        run = Run(cases, f"2^128 - {below}", State(KEY, 2**128 - below))
        getattr(run, operation)(buffer[:LIMIT], given=False)
    malformed = State(b"\x01" + bytes(31), 0)
    for title, state in (("malformed 0", malformed), ("counter 0", FRESH), ("2^128 - 1", State(KEY, 2**128 - 1))):
        run = Run(cases, title, state)
        run.blocks(buffer, given=False)
        run.request(buffer, given=False)


def add(cases, pattern):
    add_seeded(cases)
    add_chain(cases, pattern)
    add_thousand(cases)
    add_carries(cases)
    add_refused(cases)
    add_large(cases)
