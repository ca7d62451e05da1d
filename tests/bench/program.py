"""Runs of a bench program: a path to an executable that reads a log on standard input and prints its answers."""
import os
import subprocess
import threading
import time
from itertools import zip_longest
from pathlib import Path

LIMIT = 120  # seconds after which a run counts as hung


class Failure(Exception):
    """A check did not hold; the text says why."""


def command(program):
    path = Path(program).resolve()
    if not path.is_file() or not os.access(path, os.X_OK):
        raise Failure(f"{program} is no program")
    return [str(path)]


def finished(status, output, said=b""):
    """The output of a run that went well. What a program says on standard error is a failure, whatever its status."""
    if said:
        raise Failure(f"the program said: {said.decode(errors='replace').strip()}")
    if status != 0:
        raise Failure(f"the program ended with status {status}")
    return output


def run_on(program, *words, **rest):
    """The answers of a run with these words; rest is for subprocess: where the log comes from, and the environment."""
    pipes = {"stdout": subprocess.PIPE, "stderr": subprocess.PIPE}
    try:
        done = subprocess.run([*command(program), *words], timeout=LIMIT, **pipes, **rest)
    except subprocess.TimeoutExpired:
        raise Failure(f"no end after {LIMIT} seconds") from None
    return finished(done.returncode, done.stdout, done.stderr)


def run(program, log, *words):
    """The answers to a log; words are arguments of the program."""
    return run_on(program, *words, input=log)


def run_file(program, path):
    """The answers to a log that is a file on standard input."""
    with open(path, "rb") as log:
        return run_on(program, stdin=log)


def feed(pipe, log, size, pause):
    try:
        for i in range(0, len(log), size):
            pipe.write(log[i : i + size])
            time.sleep(pause)
        pipe.close()
    except BrokenPipeError:
        pass  # the program ended early, and its answers show it


def run_in_pieces(program, log, size, pause=0.0, reading_pause=0.0, waits=True):
    """The answers to a log that comes in pieces, with a pause after each, or after each part of the answers read. Where
    waits is false, the program's own ends of the pipes do not wait for bytes or room."""
    (log_out, log_in), (answers_out, answers_in) = os.pipe(), os.pipe()
    for end in (log_out, answers_in):
        os.set_blocking(end, waits)
    process = subprocess.Popen(command(program), stdin=log_out, stdout=answers_in)
    os.close(log_out)
    os.close(answers_in)
    watch = threading.Timer(LIMIT, process.kill)
    writer = threading.Thread(target=feed, args=(open(log_in, "wb", buffering=0), log, size, pause))
    watch.start()
    writer.start()
    output = []
    while part := os.read(answers_out, 65536):
        output.append(part)
        time.sleep(reading_pause)
    writer.join()
    os.close(answers_out)
    status = process.wait()
    watch.cancel()
    return finished(status, b"".join(output))


def shortened(line):
    if line is None:
        return "no line"
    text = line.decode("ascii", "backslashreplace")
    return f"'{text}'" if len(text) <= 80 else f"'{text[:60]}..' ({len(text)} characters)"


def compare(log, expected, found):
    """Fails at the first answer that differs, with its line of the log."""
    if expected == found:
        return
    rows = zip_longest(log.split(b"\n"), expected.split(b"\n"), found.split(b"\n"))
    for n, (line, a, b) in enumerate(rows, 1):
        if a != b:
            raise Failure(f"line {n}, {shortened(line)}: expected {shortened(a)}, found {shortened(b)}")
