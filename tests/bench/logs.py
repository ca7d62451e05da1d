#!/usr/bin/env python3
"""The stored logs for the bench, and their answers, which tests/independent/logbook.py works out.

    tests/bench/logs.py --write DIRECTORY      writes NAME.log and NAME.answers
    tests/bench/logs.py --check DIRECTORY      makes them again and exits 1 where a stored file differs, and says where

Nothing in a log comes from chance or from the clock, so the logs are the same wherever they are made. One isn't made:
tests/bench/logs/archive.log is from before frame 05 (02, iii), and old logs must run unchanged."""
import hashlib
import io
import sys
from itertools import zip_longest
from pathlib import Path

sys.path.append(str(Path(__file__).resolve().parents[1] / "independent"))

import logbook
from frames import Noise, blank_page, event, log_of, nearly_blank, request, update, wide_event, write

LAST = 2**32 - 1  # the clock's last reading
ARCHIVE = Path(__file__).parent / "logs" / "archive.log"
ARCHIVE_SHA256 = "338f5699ead995c09163a6ca17bee4b8412452e96967bfb8b0b09afe6bcb7ea3"


def answers_to(log):
    return b"".join(logbook.answers(io.BytesIO(log)))


# ---- 01's own example, and logs that end in their own way

EXAMPLE = b"010703A1B2\n0107200A\n010703\n02000000000010\n0400000000\n0300000000\n0G\n"
EXAMPLE_ANSWERS = b"00\n12\n13\n23\n23\n15\n16\n"


def example():
    assert answers_to(EXAMPLE) == EXAMPLE_ANSWERS
    return EXAMPLE


def empty():
    return b""


def no_final_newline():
    noise = Noise("no final newline")
    return log_of([*noise.filling(64), update(0, noise.take(64)), request(0, 16)]) + request(0, 32)


# ---- frames and near-frames

RIGHT = [
    event(7, 3, b"\xa1\xb2"),
    request(0, 16),
    update(0, bytes(range(64))),
    write(0),
    wide_event(900, 3, b"\xa1\xb2"),
]


def cut_and_lengthened():
    """Missing fields, left-over bytes and odd digits: each right line, by a digit and by a byte shorter and longer."""
    for line in RIGHT:
        yield from (line[:-1], line[:-2], line + b"0", line + b"00", line[1:], b"0" + line, line)
    for first in (b"01", b"02", b"03", b"04", b"05"):
        for size in range(0, 17):
            yield first + b"0" * size


def other_first_bytes():
    for first in (0x00, 0x06, 0x07, 0x0F, 0x10, 0x11, 0x20, 0x40, 0x7F, 0x80, 0x81, 0x84, 0xFF):
        for line in RIGHT:
            yield b"%02X" % first + line[2:]


def other_characters():
    """The neighbours of the digits, lower case, and what a terminal, a spreadsheet or a bad line may leave."""
    for character in b"/:@G`abcdefg xX-+_.,;#\"'\t\v\f\r\b\0\x1b\x7f\x80\xb0\xc1\xff":
        for line in RIGHT:
            strange = bytes([character])
            yield from (strange + line[1:], line[:-1] + strange, line + strange, strange + line)
    for line in RIGHT:
        yield from (line.lower(), b"0x" + line, line[:2] + b" " + line[2:], line + b"\r", line[:6] + b"\0" * 2)
    yield from (b"\xef\xbb\xbf" + RIGHT[0], "٠١".encode(), "０１０７０３".encode("utf-8"), b"\r", b" ", b"\0")


def line_lengths():
    """A line's first two characters set its limit: 258 characters after 05, 256 after any other."""
    for size in (63, 64, 65, 127, 128, 129, *range(254, 263), 511, 512, 513, 1023, 1024, 1025, 4096):
        for start in (b"010703", b"010720", b"0300000000", b"05038403", b"05000720"):
            yield (start + b"A5" * size)[:size]
        yield from ((b"05038403" + b"A5" * size)[: size - 2] + strange for strange in (b"0g", b"g0"))
        yield (b"02" * size)[:size]
        yield b"g" * size


def data_lengths():
    """125 bytes are the most that a frame has room for, 01 in its 256 characters and 05 in its 258."""
    for size in (0, 1, 2, 31, 32, 33, 34, 124, 125, 126):
        for pool in (1, 31, 32):
            data = bytes([0x30 + size]) * size
            yield from (event(9, pool, data), wide_event(9, pool, data), wide_event(900, pool, data))


def numbers():
    """Pools and sources at their bounds; 12 comes before 13."""
    narrow, wide = (0, 1, 127, 128, 255), (256, 900, 65534, 65535)
    senders = [(event, source) for source in narrow] + [(wide_event, source) for source in (*narrow, *wide)]
    for pool in (1, 30, 31, 32, 33, 127, 128, 254, 255):
        for make, source in senders:
            yield from (make(source, pool, b"\x5a"), make(source, pool, b""), make(source, pool, bytes(33)))


def seed_lengths():
    for size in (0, 1, 32, 62, 63, 65, 66, 96, 122, 123):
        yield update(10**6, b"\x77" * size)


def sizes():
    yield from (request(200, n) for n in (0, 1, 2, 15, 16, 17, 31, 32, 33, 48, 255, 256, 257, 1023, 4096))


def near_frames():
    yield from cut_and_lengthened()
    yield from other_first_bytes()
    yield from other_characters()
    yield from line_lengths()
    yield from (b"", b"")


def frames():
    """Refusals before the first reseed, with pool 0 at 63 bytes and then past 64, and after it."""
    noise = Noise("frames")
    lines = [*seed_lengths(), *data_lengths(), *numbers()]
    lines += [request(5, 0), request(5, 65535), write(5), *noise.filling(63)]
    lines += [request(5, 0), request(LAST, 65535), write(5), *seed_lengths()]
    lines += [noise.event(0, 1), *seed_lengths(), request(5, 0), *sizes()]
    lines += [*near_frames(), request(6, 20), *noise.filling(64), *seed_lengths(), *data_lengths(), *numbers()]
    lines += [request(300, 65535), write(300), update(300, bytes(64)), update(300, bytes(range(64)))]
    return log_of([*lines, request(300, 65535), request(300, 7), b""])


# ---- the timer

def elapsed_bounds(noise):
    """From marks all round the clock: how long ago a reading is, up to the longest wait that there is."""
    yield from noise.filling(64)
    mark = 7
    yield request(mark, 4)
    for wait in (0, 1, 50, 99, 100, 101, 102, 150, 2**31 - 1, 2**31, 2**31 + 1, 2**32 - 102, 2**32 - 101, 2**32 - 1):
        for start in (0, 10, 2**31 - 50, 2**31, 2**32 - 101, 2**32 - 100, 2**32 - 6, 2**32 - 1):
            if (start - mark) % 2**32 <= 100:
                mark = mark + 2**31
                yield from [*noise.filling(64), request(mark, 4)]
            mark = start
            yield from [*noise.filling(64), request(mark, 4), *noise.filling(64), request(mark + wait, 4)]
            if wait > 100:
                mark = mark + wait


def workbench():
    """01's readings: mark 4,294,967,290, 100 and 101 ms later; mark 10, reading 5."""
    noise = Noise("workbench")
    yield from noise.filling(64)
    yield write(4294967290)
    yield from noise.filling(64)
    yield from (request(94, 8), request(95, 8))
    yield from noise.filling(64)
    yield from (request(95 + 101, 8), request(10, 8))
    yield from noise.filling(64)
    yield from (request(10, 8), request(5, 8))


def draws(noise, start, count, fill):
    """A draw every 50 ms, with events for pool 0 before each."""
    for i in range(count):
        yield from noise.filling(fill)
        yield request(start + 50 * i, 16)


def seed_calls(noise):
    """Seed calls at 100 and at 101 ms, refused ones between: only a pool reseed moves the mark."""
    mark = 10**6
    yield from [*noise.filling(64), request(mark, 4), *noise.filling(64)]
    yield from (update(mark + 60, noise.take(64)), write(mark + 70), update(mark + 90, bytes(63)))
    yield from (request(mark + 100, 4), update(mark + 500, bytes(65)), request(mark + 99, 4))
    yield update(mark + 101, noise.take(64))
    yield from [*noise.filling(64), write(mark + 201), write(mark + 202), *noise.filling(64)]
    yield from (write(mark + 302), request(mark + 302, 4), request(mark + 303, 4), request(mark + 404, 4))


def clock():
    noise = Noise("clock")
    lines = [*workbench(), *elapsed_bounds(noise), *seed_calls(noise)]
    lines += draws(noise, 5 * 10**6, 30, 40)
    lines += draws(noise, 1000, 30, 64)  # set back
    lines += draws(noise, 2**32 - 700, 30, 64)  # wraps
    for _ in range(5):
        lines += [*noise.filling(64), request(4000, 1)]  # stands still
    lines.append(request(4101, 1))
    lines += [*noise.filling(63), request(9000, 1), write(9000), noise.event(0, 1), request(9000, 1)]
    return log_of(lines)


# ---- long runs

def reseeds():
    """600 reseeds, so that pools 0 to 9 come due; events in all pools, and draws before a reseed is due."""
    noise = Noise("reseeds")
    lines = []
    time = 2**32 - 30000
    for turn in range(600):
        lines += noise.filling(64 + noise.below(8))
        lines += [noise.event(turn % 32, 1 + noise.below(32)), noise.event(1 + noise.below(9), 1 + noise.below(12))]
        if turn % 5 == 0:
            lines.append(request(time + noise.below(101), noise.below(8)))
        time += 101 + noise.below(3)
        call = request(time, noise.below(24))
        if turn % 40 == 16:
            call = update(time, noise.take(64))
        if turn % 40 == 31:
            call = write(time)
        lines.append(call)
    return log_of(lines)


def archive():
    """600 reseeds as before frame 05, when a pool's header had 2 bytes: the lines stay, what is drawn is new. What was drawn
    then is in tests/bench/editions."""
    log = ARCHIVE.read_bytes()
    assert hashlib.sha256(log).hexdigest() == ARCHIVE_SHA256, f"{ARCHIVE} is not the log that was kept"
    return log


class Calls:
    """The lines of a log, and the logbook after them."""

    def __init__(self):
        self.lines = []
        self.book = logbook.Logbook()

    def add(self, *lines):
        """The bytes that the last line draws."""
        for line in lines:
            self.lines.append(line)
            answer = logbook.answer(self.book, line)
        return bytes.fromhex(answer[6:].decode())


def seeds():
    """Each update's 64 bytes are the next update's seed; writes, requests and pool reseeds come between. Blank pages,
    before the first and after the last, are no seed."""
    noise = Noise("seeds")
    calls = Calls()
    calls.add(update(0, bytes(64)))
    seed = bytes(range(64))
    for turn in range(120):
        if turn % 3 == 1:
            calls.add(*noise.filling(64))
        seed = calls.add(update(turn * 60, seed))
        if turn % 4 == 2:
            seed = calls.add(write(turn * 60 + 20))
        calls.add(request(turn * 60 + 30, 16))
    calls.add(update(10**5, b"\xff" * 64))
    return log_of(calls.lines)


# ---- blank flash (02, vii)

SEEN = (0xFF, 0x00, 0x5A)  # what pages were seen to hold, and one byte more


def no_seed(clock, blank=SEEN):
    """Blank pages of these bytes; equal bytes that are too few or too many."""
    yield from (update(clock, blank_page(byte)) for byte in blank)
    yield from (update(clock, bytes([byte]) * size) for byte in SEEN for size in (63, 65))


def nearly_blank_pages():
    """One byte other, at each place; then words that are equal though their bytes are not."""
    yield from (nearly_blank(byte, place) for place in range(64) for byte in SEEN)
    yield from (bytes(range(size)) * (64 // size) for size in (2, 4, 8, 16, 32))


def flash():
    """Power-up with blank pages, then seeding by noise. A blank page leaves no trace: not where a reseed is due, nor
    between keys. What a write gives is the next update's seed."""
    noise = Noise("flash")
    calls = Calls()
    for byte in SEEN:
        calls.add(update(0, blank_page(byte)), request(0, 16), write(0))
    calls.add(*no_seed(0, range(256)), *noise.filling(63), *no_seed(0), request(0, 16), write(0), noise.event(0, 1))
    for mark in (0, 500, 2**32 - 50, 51):  # a reseed is due at each blank page, and the next reading is before it
        calls.add(update(mark + 300, blank_page(0xFF)), request(mark, 16), *no_seed(mark), request(mark, 16))
        calls.add(*noise.filling(64), update(mark + 101, bytes(64)), request(mark + 100, 16), write(mark + 100))
    for page in nearly_blank_pages():
        calls.add(update(100, page), update(100, blank_page(page[0])), request(100, 16))
    seed = calls.add(write(100))
    calls.add(update(100, seed), request(100, 16), *no_seed(200, range(256)), request(152, 16))
    return log_of(calls.lines)


MADE = (example, empty, no_final_newline, frames, clock, reseeds, archive, seeds, flash)
LOGS = {make.__name__: make for make in MADE}


def files():
    """File names and contents."""
    for name, make in LOGS.items():
        log = make()
        yield f"{name}.log", log
        yield f"{name}.answers", answers_to(log)


# ---- writing and checking

def first_difference(expected, found):
    """The first line, from 1, at which two texts differ."""
    pairs = zip_longest(expected.split(b"\n"), found.split(b"\n"))
    return next(n for n, (a, b) in enumerate(pairs, 1) if a != b)


def differences(directory, made, maker):
    for name, expected in made.items():
        path = directory / name
        if not path.is_file():
            yield f"{path}: missing"
        elif path.read_bytes() != expected:
            yield f"{path}:{first_difference(expected, path.read_bytes())}: not what {maker} makes"
    for path in sorted(directory.iterdir()):
        if path.name not in made:
            yield f"{path}: {maker} makes no such file"


def write_files(directory, made):
    directory.mkdir(parents=True, exist_ok=True)
    for name, content in made.items():
        (directory / name).write_bytes(content)


def check_files(directory, made, maker):
    """The exit status: 1 where a stored file is not the one made."""
    found = list(differences(directory, made, maker))
    print("\n".join(found) if found else f"{len(made)} files in {directory} are what {maker} makes")
    return 1 if found else 0


def main(args):
    if len(args) != 2 or args[0] not in ("--write", "--check"):
        print(__doc__, file=sys.stderr)
        return 2
    if args[0] == "--write":
        write_files(Path(args[1]), dict(files()))
        return 0
    return check_files(Path(args[1]), dict(files()), "tests/bench/logs.py")


if __name__ == "__main__":
    sys.exit(main(sys.argv[1:]))
