#!/usr/bin/env python3
"""Runs a bench program on the stored logs and on streams that are hard to read or to write.

    tests/bench/bench_runs.py PROGRAM      a line for each check; exits 1 where one failed

It needs gcc for reads and writes that are interrupted (tests/bench/interrupted.c)."""
import os
import subprocess
import sys
import tempfile
from functools import partial
from itertools import chain
from pathlib import Path

sys.path.append(str(Path(__file__).resolve().parents[1] / "independent"))

from frames import Noise, event, log_of, request, update, wide_event
from logs import LOGS, answers_to
from program import Failure, compare, run, run_file, run_in_pieces, run_on

STORED = Path(__file__).parent / "logs"
LONG = 5 * 10**6  # characters
START = 20000  # characters that come a byte at a time: more take long and show nothing new

# A check is a title, a log, its answers, and a way to run a program on the log.


def stored(name):
    return (STORED / f"{name}.log").read_bytes(), (STORED / f"{name}.answers").read_bytes()


def start(log, answers):
    """Its first lines, some START characters, and their answers; the whole of a short log."""
    if len(log) <= START:
        return log, answers
    lines = log[:START].count(b"\n")
    return (log_of(text.split(b"\n")[:lines]) for text in (log, answers))


def stored_checks():
    for name in LOGS:
        log, answers = stored(name)
        yield f"{name}, from a file", log, answers, partial(run_file, path=STORED / f"{name}.log")
        yield f"{name}, through a pipe", log, answers, partial(run, log=log)
        yield f"{name}, 7 bytes at a time", log, answers, partial(run_in_pieces, log=log, size=7)
        log, answers = start(log, answers)
        yield f"start of {name}, a byte at a time", log, answers, partial(run_in_pieces, log=log, size=1)


def paused_checks():
    log, answers = stored("example")
    for size in (1, 2, 3, 11):
        title = f"example, {size} bytes at a time, a pause after each"
        yield title, log, answers, partial(run_in_pieces, log=log, size=size, pause=0.005)


def interrupting(directory):
    """An environment in which a program's reads and writes are interrupted."""
    library = Path(directory) / "interrupted.so"
    words = ["gcc", "-O2", "-Wall", "-Wextra", "-Werror", "-shared", "-fPIC", "-o", library]
    subprocess.run([*words, Path(__file__).with_name("interrupted.c")], check=True)
    return os.environ | {"LD_PRELOAD": str(library)}


def interrupted_checks(directory):
    """EINTR, EAGAIN and short counts at each read and write; then pipes that do not wait."""
    environment = interrupting(directory)
    for name in ("example", "no_final_newline", "seeds"):
        log, answers = stored(name)
        way = partial(run_on, input=log, env=environment)
        yield f"{name}, interrupted", log, answers, way
    log, answers = stored("seeds")
    way = partial(run_in_pieces, log=log, size=500, pause=0.005, reading_pause=0.005, waits=False)
    yield "seeds, pipes that do not wait", log, answers, way
    log = log_of([*Noise("slow reader").filling(64), *(request(0, 65535) for _ in range(10))])
    way = partial(run_in_pieces, log=log, size=4096, reading_pause=0.005, waits=False)
    yield "answers read slowly, pipes that do not wait", log, answers_to(log), way


def long_lines():
    """A line of megabytes answers 16 once, whatever it is made of and however it ends."""
    before = log_of([event(7, 3, b"\xa1"), b""])
    after = log_of([event(7, 32, b"\xa1")])
    yield "digits, then LF", before + b"A5" * (LONG // 2) + b"\n" + after, b"00\n16\n16\n12\n"
    yield "digits, end of input", before + b"A5" * (LONG // 2), b"00\n16\n16\n"
    yield "starts like an event", before + b"010703" + b"00" * (LONG // 2) + b"\n" + after, b"00\n16\n16\n12\n"
    yield "starts like frame 05", before + b"05000703" + b"00" * (LONG // 2) + b"\n" + after, b"00\n16\n16\n12\n"
    yield "starts like an update", update(0, bytes(64)) + b"0" * LONG + b"\n" + after, b"16\n12\n"
    yield "no digits", b"\0\xff\r " * (LONG // 4) + b"\n" + after, b"16\n12\n"
    yield "odd", b"0" * (LONG + 1) + b"\n", b"16\n"


def longest_lines():
    """258 characters, which only frame 05 may have, and 260; the data are too many bytes either way."""
    for line, answer in (
        (wide_event(900, 3, bytes(125)), b"13\n"),
        (event(7, 3, bytes(126)), b"16\n"),
        (wide_event(900, 3, bytes(126)), b"16\n"),
    ):
        title = f"{len(line)} characters, {line[:2].decode()}"
        yield f"{title}, then LF", log_of([line, b"01"]), answer + b"16\n"
        yield f"{title}, end of input", line, answer


def stream_checks():
    for title, log, answers in chain(long_lines(), longest_lines()):
        yield f"long line, {title}", log, answers, partial(run, log=log)
    yield "20000 empty lines", b"\n" * 20000, b"16\n" * 20000, partial(run, log=b"\n" * 20000)
    log = b"".join(stored(name)[0] for name in LOGS)
    answers = answers_to(log)
    yield f"all logs as one, {len(answers.splitlines())} lines", log, answers, partial(run, log=log)
    log = log_of([*Noise("slow reader").filling(64), *(request(0, 65535) for _ in range(10))])
    yield "answers read slowly", log, answers_to(log), partial(run_in_pieces, log=log, size=4096, reading_pause=0.005)


def passes(program, title, log, answers, way):
    try:
        compare(log, answers, way(program))
    except Failure as why:
        print(f"FAIL  {title}: {why}", flush=True)
        return False
    print(f"pass  {title}", flush=True)
    return True


def main(args):
    if len(args) != 1:
        print(__doc__, file=sys.stderr)
        return 2
    with tempfile.TemporaryDirectory() as directory:
        checks = chain(stored_checks(), paused_checks(), stream_checks(), interrupted_checks(directory))
        results = [passes(args[0], *check) for check in checks]
    failed = results.count(False)
    print(f"{failed} of {len(results)} checks FAILED" if failed else f"{len(results)} checks passed")
    return 1 if failed else 0


if __name__ == "__main__":
    sys.exit(main(sys.argv[1:]))
