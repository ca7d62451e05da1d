#!/usr/bin/env python3
"""Runs bin/steps as a user does, and holds what it prints to tests/independent/keyed.py. It takes the static library as
it stands, with LIBRARY_BUILT=1; what builds the library is tried with an rt that is played.

    tests/bench/steps_commands.py      a line for each check; exits 1 where one failed"""
import os
import pty
import re
import select
import subprocess
import sys
import time

from building import steps_program
from commands import ROOT, check_all, expect, run, tell
from health_commands import LONG, PLAYED_RT, TAKEN, copied, same, with_rt

sys.path.append(str(ROOT / "tests" / "independent"))

from bench_runs import interrupting
from frames import Noise
from keyed import LAST_STEP, POOLS, Keyed, next_emptying
from program import Failure, compare, run_in_pieces, run_on

STEPS = str(ROOT / "bin" / "steps")
KEYED = Keyed()
KEYS = (bytes(32), bytes(range(32)), Noise("bin/steps").take(32), b"\xff" * 32, b" " * 32, b"\n" * 32)
KEY = KEYS[2]
RANGES = (
    *((0, 0), (0, 130), (1, 1), (31, 33), (32, 32), (33, 33), (64, 96), (1000, 1100), (2**16 - 40, 2**16 + 40)),
    *((2**32 - 2, 2**32 + 1), (2**35 - 2, 2**35 + 2), (2**36 - 40, 2**36 + 40), (2**37 - 1, 2**37 + 1)),
    *((2**63 - 1, 2**63 + 1), (2**64 - 2**36, 2**64 - 2**36 + 1), (2**64 - 2**35 + 1, 2**64 - 2**35 + 1)),
    *((2**64 - 70, LAST_STEP), (LAST_STEP - 1, LAST_STEP - 1), (LAST_STEP, LAST_STEP)),
)
QUIET = 5  # seconds after which it tells a terminal how far it is


# ---- what must be printed


def step_told(key, step):
    if step == LAST_STEP:
        return f"step {step}: no event is taken, 45\n"
    emptied = KEYED.output_pool(step)
    then = "" if emptied is None else f", empties pool {emptied}"
    return f"step {step}: event to pool {KEYED.input_pool(key, step)}{then}\n"


def next_told(pool, start):
    step = next_emptying(pool, start)
    return f"{'never before step 2^64 - 1' if step is None else f'at step {step}'} from step {start} on"


def told(key, first, last):
    steps = [step_told(key, step) for step in range(first, last + 1)]
    pools = [f"pool {i}: emptied next {next_told(i, first)}, {next_told(i, last)}\n" for i in range(POOLS)]
    return "".join([*steps, *pools])


def tells(folder, key, first, last, *words):
    """By a file of bytes and by other words."""
    (folder / "key").write_bytes(key)
    words = [STEPS, "key", str(first), *(words or [str(last)])]
    same(words, tell(words, folder, 0, None, env=TAKEN), told(key, first, last))


def ranges(folder):
    for n, (first, last) in enumerate(RANGES):
        count = ["--count", str(last - first + 1)] if n % 3 == 0 else []
        tells(folder, KEYS[n % len(KEYS)], first, last, *count)


def searched(folder):
    """The next emptying, by a look at each step."""
    (folder / "key").write_bytes(KEY)
    for start in (*range(0, 66, 5), *range(90, 2100, 257)):
        words = [STEPS, "key", str(start), str(start + 3)]
        pools = tell(words, folder, 0, None, env=TAKEN).splitlines()[4:]
        for pool in range(6):
            expected = ", ".join(next_by_search(pool, begin) for begin in (start, start + 3))
            same(words, pools[pool], f"pool {pool}: emptied next {expected}")


def next_by_search(pool, start):
    step = next(step for step in range(start, start + 64 * 2**pool) if KEYED.output_pool(step) == pool)
    return f"at step {step} from step {start} on"


def many_steps(folder):
    """More than is written at once; the first ones and the last are compared."""
    (folder / "key").write_bytes(KEY)
    found = tell([STEPS, "key", "0", "199999"], folder, 0, None, env=TAKEN).splitlines(keepends=True)
    same("lines", len(found), 200000 + POOLS)
    for step in (*range(500), *range(199500, 200000)):
        same(f"step {step}", found[step], step_told(KEY, step))


# ---- how it is called


def forms_of(key):
    """A key's bytes, and its digits in many ways."""
    digits = key.hex()
    pairs = [digits[i : i + 2] for i in range(0, 64, 2)]
    yield from (key, digits.encode(), digits.upper().encode(), f"{digits}\n".encode(), f"{digits}\r\n".encode())
    yield f"{digits[:60]}\n{digits[60:]}\n".encode()
    yield from (f" {' '.join(pairs)}\n".encode(), "\t\n".join(pairs).encode())


WAYS = (
    ["a key", "30", "34"],
    ["a key", "30", "--count", "5"],
    ["--count=5", "--verbose", "a key", "030"],
    ["-", "30", "34"],
    ["-", "--count", "5", "30"],
)


def ways_to_name_it(folder):
    """By a file's name, on standard input, through a link, with the options anywhere."""
    (folder / "steps").symlink_to(STEPS)
    expected = told(KEY, 30, 34)
    forms = list(forms_of(KEY))
    for n in range(len(forms) + len(WAYS)):
        (folder / "a key").write_bytes(forms[n % len(forms)])
        words = ["./steps", *WAYS[n % len(WAYS)]]
        with open(folder / "a key", "rb") as here:
            same(words, tell(words, folder, 0, None, env=TAKEN, stdin=here), expected)
    (folder / KEY.hex()).write_bytes(KEY)  # a file whose name looks like a key
    same(KEY.hex(), tell([STEPS, KEY.hex(), "30", "34"], folder, 0, None, env=TAKEN), expected)


def helps(folder):
    """The help's example is what a key of zeros gives."""
    text = tell([STEPS, "--help"], folder, 0, None)
    for line in [line for line in told(KEYS[0], 31, 32).splitlines() if line.startswith(("step", "pool 0:"))]:
        if line not in text:
            raise Failure(f"steps --help does not have '{line}'")


# ---- what goes wrong


def refuses(folder):
    (folder / "key").write_bytes(KEY)
    between = f"from 0 to {LAST_STEP}"
    wrong = ("x", "", "-1", "+1", "1.5", "0x10", "1e3", "\u0663", " 1", "1\n", str(2**64))
    for words, said in (
        ([], "the following arguments are required: KEY, FIRST"),
        (["key"], "the following arguments are required: FIRST"),
        (["key", "0"], "after KEY and FIRST comes LAST, or --count N"),
        (["key", "0", "1", "--count", "2"], "after KEY and FIRST comes LAST, or --count N"),
        (["key", "5", "4"], "LAST, 4, is before FIRST, 5"),
        (["key", str(LAST_STEP), "0"], f"LAST, 0, is before FIRST, {LAST_STEP}"),
        (["key", "1", "--count", str(LAST_STEP + 1)], f"argument --count: '{LAST_STEP + 1}' is no number from 1 to"),
        (["key", "2", "--count", str(LAST_STEP)], f"{LAST_STEP} steps from 2 on go past the last step, {LAST_STEP}"),
        (["key", str(LAST_STEP), "--count", "2"], f"2 steps from {LAST_STEP} on go past the last step"),
        (["key", "0", "--count", "0"], "argument --count: '0' is no number from 1 to"),
        (["key", "0", "--count"], "argument --count: expected one argument"),
        (["key", "0", "1", "2"], "unrecognized arguments: 2"),
        (["key", "0", "1", "--no-such-word"], "unrecognized arguments: --no-such-word"),
        *((["key", text, "9"], f"argument FIRST: {ascii(text)} is no number {between}") for text in wrong),
        *((["key", "0", text], f"argument LAST: {ascii(text)} is no number {between}") for text in wrong[:3]),
        (["key", "0", "9" * 5000], "argument LAST: '9999"),
        (["missing", "0", "1"], "steps: missing: No such file or directory"),
        ([".", "0", "1"], "steps: .: Is a directory"),
    ):
        same(words, tell([STEPS, *words], folder, 2, said, env=TAKEN), "")


def no_keys(folder):
    """What stands for no key. The bytes of a key are never told, where one is given as a word either."""
    digits = KEY.hex().encode()
    way_out = "and a key is 32 bytes or 64 hexadecimal digits"
    for content, said in (
        (b"", f"0 bytes, {way_out}"),
        (b"\1", f"1 byte, {way_out}"),
        (KEY[:31], f"31 bytes, {way_out}"),
        (KEY + b"\n", f"33 bytes, {way_out}"),
        (KEY * 2, f"64 bytes, {way_out}"),
        (digits[:-1], f"63 bytes, {way_out}"),
        (digits + b"0", f"65 bytes, {way_out}"),
        (b"0x" + digits, f"66 bytes, {way_out}"),
        (digits[:-1] + b"g", f"64 bytes, {way_out}"),
        (digits[:32], f"32 characters that are all hexadecimal digits, so that they stand for 16 bytes, {way_out}"),
        (b" " * 4097, f"more than 4096 bytes, {way_out}"),
    ):
        (folder / "key").write_bytes(content)
        same(content, tell([STEPS, "key", "0", "1"], folder, 2, f"steps: key: {said}\n", env=TAKEN), "")
        with open(folder / "key", "rb") as here:
            tell([STEPS, "-", "0", "1"], folder, 2, f"steps: standard input: {said}\n", env=TAKEN, stdin=here)
    tell([STEPS, "/dev/zero", "0", "1"], folder, 2, f"steps: /dev/zero: more than 4096 bytes, {way_out}", env=TAKEN)
    for words in ([KEY.hex(), "0", "1"], ["key", KEY.hex().upper(), "1"], ["key", "0", "1", KEY.hex()]):
        status, printed, said = run([STEPS, *words], folder, env=TAKEN)
        if KEY.hex() in said.lower():
            raise Failure("a key that is a word of the command line is told")
        expect([STEPS], (status, printed, said), 2, "steps: KEY names a file; a key as a word of the command line")


def failing_streams(folder):
    (folder / "key").write_bytes(KEY)
    words = [STEPS, "key", "0", "9"]
    with open("/dev/full", "wb") as full:
        said = "steps: standard output could not be written: No space left on device"
        tell(words, folder, 2, said, env=TAKEN, stdout=full)
    tell(["sh", "-c", '"$@" >&-', "sh", *words], folder, 2, "steps: there is no standard output", env=TAKEN)
    closed = ["sh", "-c", '"$0" - 0 9 <&-', STEPS]
    tell(closed, folder, 2, "steps: there is no standard input", env=TAKEN)
    same(words, tell(["sh", "-c", '"$@" <&-', "sh", *words], folder, 0, None, env=TAKEN), told(KEY, 0, 9))


def closed_pipe(folder):
    """Where nobody reads on, the command ends and says nothing, however many steps are left."""
    (folder / "key").write_bytes(KEY)
    words = [STEPS, "key", "0", str(LAST_STEP)]
    pipes = {"stdout": subprocess.PIPE, "stderr": subprocess.PIPE, "env": TAKEN}
    with subprocess.Popen(words, cwd=folder, **pipes) as started:
        first = started.stdout.readline()
        started.stdout.close()
        expect(words, (started.wait(LONG), "", started.stderr.read().decode()), 128 + 13, None)
    same(words, first, step_told(KEY, 0).encode())


def slow_and_interrupted(folder):
    """A key that comes in small pieces, is read and written with interruptions, or over pipes that do not wait."""
    program = steps_program("steps")
    expected = told(KEY, 5, 700).encode()
    compare(b"", expected, run_on(program, "5", "700", input=KEY, env=interrupting(folder)))
    (folder / "some").write_text(f'#!/bin/sh\nexec "{program}" 5 700\n')
    (folder / "some").chmod(0o755)
    for way in ({"size": 1, "pause": 0.001}, {"size": 7, "pause": 0.001, "waits": False}, {"size": 32, "waits": False}):
        compare(b"", expected, run_in_pieces(folder / "some", KEY, **way))
    for key in (KEY[:31], KEY + b"\0", b""):
        found = subprocess.run([program, "0", "1"], input=key, capture_output=True)
        expect(["steps"], (found.returncode, "", found.stderr.decode()), 2, "usage: steps FIRST LAST <KEY\n")


def tells_a_terminal(folder):
    """How far it is, after some seconds; what is no terminal is told nothing. A pipe that nobody reads holds it up till
    then."""
    words = [steps_program("steps"), "0", "1000000"]
    ends = [pty.openpty(), os.pipe()]
    pipes = {"stdin": subprocess.PIPE, "stdout": subprocess.PIPE}
    started = [subprocess.Popen(words, **pipes, stderr=theirs) for _, theirs in ends]
    for program in started:
        program.stdin.write(KEY)
        program.stdin.close()
    time.sleep(QUIET + 0.5)
    for program in started:
        while program.stdout.read(65536):
            pass
        program.stdout.close()
        program.wait(LONG)
    said = [select.select([ours], [], [], 0)[0] and os.read(ours, 1000) for ours, _ in ends]
    for end in (end for pair in ends for end in pair):
        os.close(end)
    if not re.fullmatch(rb"steps: \d+ s, \d+ steps written\r\n", said[0] or b"") or said[1]:
        raise Failure(f"a terminal was told {said[0]}, a pipe {said[1]}")


def builds(folder):
    """The library is built once; with LIBRARY_BUILT=1 it is taken as it stands, and where there is none it is said."""
    copy = copied(folder)
    played, given = with_rt(folder, PLAYED_RT)
    (folder / "key").write_bytes(KEY)
    words = [str(copy / "bin" / "steps"), "key", "0", "40"]
    for _ in range(2):
        same(words, tell(words, folder, 0, None, env=given), told(KEY, 0, 40))
        same("rt was asked", (played / "asked").read_text(), "fortuna_c: lib\n")
    (copy / "crates" / "fortuna_c" / "out" / "libfortuna_c.a").unlink()
    taken = {**given, "LIBRARY_BUILT": "1"}
    tell(words, folder, 2, "steps: LIBRARY_BUILT is set, and there is no crates/fortuna_c/out/libfortuna_c.a", env=taken)
    (played / "failing").touch()
    status, printed, said = run(words, folder, env=given)
    if status != 2 or printed or "rt: it fails\nsteps: fortuna_c could not be proved and built" not in said:
        raise Failure(f"where rt fails: status {status}, {said}")


CHECKS = (
    *(ranges, searched, many_steps, ways_to_name_it, helps, refuses, no_keys, failing_streams, closed_pipe),
    *(slow_and_interrupted, tells_a_terminal, builds),
)

if __name__ == "__main__":
    os.environ["LIBRARY_BUILT"] = "1"  # for what is built here
    sys.exit(check_all(CHECKS))
