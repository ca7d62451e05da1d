#!/usr/bin/env python3
"""Runs rt ci, and says how far it is.

    tests/gate/progress.py [--brief] rt ci [CRATE...]

rt says of a crate that it is proved once it is, minutes later, and of its edits what they came to at the very end. What rt
prints is passed on; between it stand lines 'progress: 3 min, 4 of 22 crates left, on A, B; edits of C, D', where something
has changed, and every few minutes. A and B are those whose libraries are proved: rt takes as many at a time as there are
processors. With --brief these lines alone are printed, and what rt said where it fails. The exit status is rt's."""
import re
import subprocess
import sys
import threading
import time

from crates import ROOT, crates, with_below

PAUSE = 0.5  # seconds between two looks at what rt has said
SOON = 2.0  # seconds in which a crate that has not changed is done: nothing is said of it
EVERY = 300  # seconds after which the same is said again
ENDED = re.compile(r"rt: (\w+) (proved|NOT PROVED|is kept: )")
EDITS = re.compile(r"rt: (\w+): trying its must-fail edits")


class Progress:
    """What rt ci has said of the crates that it proves: those named, with those below them, or all."""

    def __init__(self, names):
        self.table = crates()
        self.left = with_below(names or self.table)
        self.count = len(self.left)
        self.tried = []
        self.began = self.told_at = self.changed_at = time.monotonic()
        self.told = None

    def take(self, line):
        ended, edits = ENDED.match(line), EDITS.match(line)
        if ended and ended[1] in self.left:
            self.left.remove(ended[1])
        elif edits:
            self.tried.append(edits[1])
        else:
            return
        self.changed_at = time.monotonic()

    def line(self):
        """What to say, if anything."""
        now = time.monotonic()
        on = [name for name in self.left if not set(self.table[name]) & set(self.left)]
        said = f"{len(self.left)} of {self.count} crates left" + (f", on {', '.join(on)}" if on else "")
        said += f"; edits of {', '.join(self.tried)}" if self.tried else ""
        if now - self.changed_at < SOON or said == self.told and now - self.told_at < EVERY:
            return None
        self.told, self.told_at = said, now
        return f"progress: {(now - self.began) / 60:.0f} min, {said}"


def pass_on(stream, progress, lines, brief, lock):
    """Takes what rt prints, line by line."""
    for line in stream:
        with lock:
            lines.append(line)
            progress.take(line)
            if not brief:
                print(line, end="", flush=True)


def watched(command, brief):
    """Runs rt and tells of its progress; its exit status."""
    progress = Progress(command[2:])
    lock = threading.Lock()
    lines = []
    pipes = {"stdin": subprocess.DEVNULL, "stdout": subprocess.PIPE, "stderr": subprocess.STDOUT}
    rt = subprocess.Popen(command, cwd=ROOT, text=True, errors="replace", **pipes)
    reader = threading.Thread(target=pass_on, args=(rt.stdout, progress, lines, brief, lock), daemon=True)
    reader.start()
    while reader.is_alive():
        reader.join(PAUSE)
        with lock:
            said = progress.line() if reader.is_alive() else None
            if said:
                print(said, flush=True)
    status = rt.wait()
    if brief and status != 0:
        print("".join(lines), end="", flush=True)
    return status


def main(args):
    brief = args[:1] == ["--brief"]
    command = args[1:] if brief else args
    if command[:2] != ["rt", "ci"]:
        print("progress: expected [--brief] rt ci [CRATE...]; --help says more", file=sys.stderr)
        return 2
    return watched(command, brief)


if __name__ == "__main__":
    if sys.argv[1:] in (["--help"], ["-h"]):
        print(__doc__)
        sys.exit(0)
    try:
        sys.exit(main(sys.argv[1:]))
    except FileNotFoundError as why:
        print(f"progress: {why}", file=sys.stderr)
        sys.exit(2)
    except KeyboardInterrupt:
        sys.exit(130)
