#!/usr/bin/env python3
"""Runs bin/convert as a user does, and holds what it prints to tests/independent/convert.py. It takes the static
library as it stands, with LIBRARY_BUILT=1; what builds the library is tried with an rt that is played.

    tests/bench/convert_commands.py      a line for each check; exits 1 where one failed"""
import os
import pty
import re
import select
import subprocess
import sys
import time

from building import convert_program
from commands import LOGS, ROOT, check_all, expect, run, tell
from health_commands import LONG, PLAYED_RT, TAKEN, copied, same, with_rt

sys.path.append(str(ROOT / "tests" / "independent"))

from bench_runs import interrupting
from convert import converted
from frames import Noise, event, log_of, request, update, wide_event, write
from program import Failure, compare, run_in_pieces, run_on

CONVERT = str(ROOT / "bin" / "convert")
KINDS = {"05": True, "01": False}
REASONS = {16: "not a frame", 43: "a source above 255, which frame 01 can't carry"}
PIECE = 65536  # bytes of a log that the program holds at once
QUIET = 5  # seconds after which it tells a terminal how far it is
LINE = event(7, 3, b"\xa1")


def told(log, kind):
    """The bytes that must be printed, the status, and what must be said."""
    found, text = converted(log, KINDS[kind])
    if not found.number:
        return text, 0, None
    return text, 1, f"convert: line {found.line}: {found.number}, {REASONS[found.number]}\n"


def converts(folder, log, kind, words=("some.log",), **rest):
    """A log by its name, or by other words and in another way."""
    (folder / "some.log").write_bytes(log)
    text, status, said = told(log, kind)
    compare(log, text, tell([CONVERT, "--to", kind, *words], folder, status, said, env=TAKEN, **rest).encode())


# ---- logs


def stored_logs(folder):
    for path in sorted(LOGS.glob("*.log")):
        for kind in KINDS:
            converts(folder, path.read_bytes(), kind)


def ways_to_name_it(folder):
    """By a file's name before or after the options, on standard input, through a link; an empty log too."""
    (folder / "convert").symlink_to(CONVERT)
    for log in (log_of([LINE, write(0)]), LINE, b""):
        (folder / "some.log").write_bytes(log)
        expected = told(log, "05")[0].decode()
        for words in (
            ["--to", "05", "some.log"],
            ["some.log", "--to", "05"],
            ["--to=05", "--verbose", "some.log"],
            ["--to", "05"],
        ):
            with open(folder / "some.log", "rb") as here:
                found = tell(["./convert", *words], folder, 0, None, env=TAKEN, stdin=here)
            same(words, found, expected)


def archive_there_and_back(folder):
    """The archive's log, as new hubs write it, gives the answers that are stored; back again it is the same file."""
    commands = [CONVERT, str(ROOT / "bin" / "logbook"), str(LOGS / "archive.log")]
    for line, expected in (
        ('"$0" --to 05 "$2" | "$1"', "archive.answers"),
        ('"$0" --to 05 "$2" | "$0" --to 01', "archive.log"),
    ):
        found = tell(["sh", "-c", line, *commands], folder, 0, None, env=TAKEN)
        compare(b"", (LOGS / expected).read_bytes(), found.encode())


def lines_over_pieces(folder):
    """Lines of some lengths, so that pieces end in their middle, and just behind an LF; what is refused comes in a
    later piece, in the first line of one or in a last line without LF."""
    large = wide_event(256, 3, b"")
    for size in (0, 32, 125):
        for make in (event, wide_event):
            lines = [make(source % 256, 3, bytes(size)) for source in range(3 * PIECE // (2 * size + 7))]
            for log in (log_of(lines), b"\n".join(lines), log_of([*lines, large, LINE]), log_of([*lines, b"0G", LINE])):
                for kind in KINDS:
                    converts(folder, log, kind)
    for size in (0, 1, 2):  # 2 bytes less than a piece, a piece, and 2 bytes more
        first = [write(0)] * 5957 + [event(7, 3, bytes(size))]
        for rest in ([], [LINE], [b""], [large, LINE]):
            for kind in KINDS:
                converts(folder, log_of([*first, *rest]), kind)
                converts(folder, b"\n".join([*first, *rest]), kind)


def megabytes(folder):
    """Some 4 MB of all frames, by name and through a pipe, and as many of the events that grow most."""
    noise = Noise("bin/convert")
    seed = noise.take(64)
    lines = [line for n in range(20000) for line in (noise.event(n % 32, 1 + n % 32), LINE, request(n, 9), write(n))]
    for log in (log_of([*lines, update(0, seed)]), log_of([event(7, 3, b"")] * 600000)):
        (folder / "piped.log").write_bytes(log)
        for kind in KINDS:
            converts(folder, log, kind)
            with subprocess.Popen(["cat", "piped.log"], cwd=folder, stdout=subprocess.PIPE) as cat:
                converts(folder, log, kind, words=(), stdin=cat.stdout)


def endless_lines(folder):
    """A line that has no end is refused as soon as it is too long for a piece."""
    tell([CONVERT, "--to", "05", "/dev/zero"], folder, 1, "convert: line 1: 16, not a frame\n", env=TAKEN)
    for size in (PIECE - 1, PIECE, PIECE + 1, 5 * 10**6):
        for kind in KINDS:
            converts(folder, log_of([LINE, write(0)]) + b"A" * size, kind)
            converts(folder, b"05000703" + b"A5" * (size // 2) + b"\n" + LINE, kind)


def slow_and_interrupted(folder):
    """A log that comes in small pieces, is read and written with interruptions, or over pipes that do not wait."""
    program = convert_program("convert")
    log = (LOGS / "archive.log").read_bytes()
    short = log_of(log.split(b"\n")[:200])
    compare(short, told(short, "05")[0], run_on(program, "05", input=short, env=interrupting(folder)))
    (folder / "to05").write_text(f'#!/bin/sh\nexec "{program}" 05\n')
    (folder / "to05").chmod(0o755)
    for text, way in (
        (short, {"size": 1}),
        (log, {"size": 4096, "reading_pause": 0.005, "waits": False}),
        (short, {"size": 11, "pause": 0.001, "waits": False}),
    ):
        compare(text, told(text, "05")[0], run_in_pieces(folder / "to05", text, **way))


# ---- what goes wrong


def refuses(folder):
    (folder / "a.log").write_bytes(log_of([LINE]))
    for words, said in (
        ([], "the following arguments are required: --to"),
        (["a.log"], "the following arguments are required: --to"),
        (["--to"], "argument --to: expected one argument"),
        (["--to", "02", "a.log"], "argument --to: invalid choice: '02'"),
        (["--to", "5", "a.log"], "argument --to: invalid choice: '5'"),
        (["--to", "05", "a.log", "b.log"], "unrecognized arguments: b.log"),
        (["--to", "05", "--no-such-word"], "unrecognized arguments: --no-such-word"),
        (["--to", "05", "missing.log"], "convert: missing.log: No such file or directory"),
        (["--to", "05", "."], "convert: .: Is a directory"),
    ):
        same(words, tell([CONVERT, *words], folder, 2, said, env=TAKEN), "")


def failing_streams(folder):
    words = [CONVERT, "--to", "05"]
    with open("/dev/full", "wb") as full:
        said = "convert: standard output could not be written: No space left on device"
        tell([*words, str(LOGS / "archive.log")], folder, 2, said, env=TAKEN, stdout=full)
    tell(["sh", "-c", '"$@" <&-', "sh", *words], folder, 2, "standard input could not be read: Bad file", env=TAKEN)
    tell(["sh", "-c", '"$@" >&-', "sh", *words], folder, 2, "convert: there is no standard output", env=TAKEN)


def closed_pipe(folder):
    """Where nobody reads on, the command ends and says nothing."""
    pipes = {"stdout": subprocess.PIPE, "stderr": subprocess.PIPE, "env": TAKEN}
    words = [CONVERT, "--to", "05"]
    with subprocess.Popen(["yes", LINE.decode()], stdout=subprocess.PIPE) as endless:
        with subprocess.Popen(words, stdin=endless.stdout, **pipes) as started:
            endless.stdout.close()
            first = started.stdout.readline()
            started.stdout.close()
            expect(words, (started.wait(LONG), "", started.stderr.read().decode()), 128 + 13, None)
    same(words, first, told(LINE + b"\n", "05")[0])


def tells_a_terminal(folder):
    """How far it is, after some seconds; what is no terminal is told nothing."""
    words = [convert_program("convert"), "05"]
    ends = [pty.openpty(), os.pipe()]
    pipes = {"stdin": subprocess.PIPE, "stdout": subprocess.DEVNULL}
    started = [subprocess.Popen(words, **pipes, stderr=theirs) for _, theirs in ends]
    for pause in (QUIET + 0.5, 0.5):
        for program in started:
            program.stdin.write(LINE + b"\n")
            program.stdin.flush()
        time.sleep(pause)
    said = [select.select([ours], [], [], 0)[0] and os.read(ours, 1000) for ours, _ in ends]
    for program in started:
        program.communicate(timeout=LONG)
    for end in (end for pair in ends for end in pair):
        os.close(end)
    if not re.fullmatch(rb"convert: \d+ s, 2 lines converted\r\n", said[0] or b"") or said[1]:
        raise Failure(f"a terminal was told {said[0]}, a pipe {said[1]}")


def builds(folder):
    """The library is built once; with LIBRARY_BUILT=1 it is taken as it stands, and where there is none it is said."""
    copy = copied(folder)
    played, given = with_rt(folder, PLAYED_RT)
    (folder / "some.log").write_bytes(log_of([LINE]))
    words = [str(copy / "bin" / "convert"), "--to", "05", "some.log"]
    for _ in range(2):
        same(words, tell(words, folder, 0, None, env=given), told(LINE + b"\n", "05")[0].decode())
        same("rt was asked", (played / "asked").read_text(), "fortuna_c: lib\n")
    (copy / "crates" / "fortuna_c" / "out" / "libfortuna_c.a").unlink()
    taken = {**given, "LIBRARY_BUILT": "1"}
    tell(words, folder, 2, "convert: LIBRARY_BUILT is set, and there is no crates/fortuna_c/out/libfortuna_c.a", env=taken)
    (played / "failing").touch()
    status, printed, said = run(words, folder, env=given)
    if status != 2 or printed or "rt: it fails\nconvert: fortuna_c could not be proved and built" not in said:
        raise Failure(f"where rt fails: status {status}, {said}")


CHECKS = (
    *(stored_logs, ways_to_name_it, archive_there_and_back, lines_over_pieces, megabytes, endless_lines),
    *(slow_and_interrupted, refuses, failing_streams, closed_pipe, tells_a_terminal, builds),
)

if __name__ == "__main__":
    os.environ["LIBRARY_BUILT"] = "1"  # for what is built here
    sys.exit(check_all(CHECKS))
