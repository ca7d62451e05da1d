"""What the commands in bin/ build before they run: the bench program, and over the static library the health tests'
program, one that makes calls with a list of quotas, one that converts call logs, one that reads pools' strings and one
that tells the keyed scheduler's pools. rt proves whatever has changed; that takes minutes, and standard error says how
far it is."""
import contextlib
import fcntl
import hashlib
import os
import re
import shutil
import signal
import subprocess
import sys
import time
from pathlib import Path

ROOT = Path(__file__).resolve().parents[2]
TARGET = ROOT / "target"
BENCH = "bench_main"
LIBRARY = "fortuna_c"
ARCHIVE = ROOT / "crates" / LIBRARY / "out" / f"lib{LIBRARY}.a"
HEALTH = ROOT / "tests" / "c_interface" / "health.c"
METERED = ROOT / "tests" / "bench" / "metered.c"
CONVERT = ROOT / "examples" / "c" / "convert.c"
EVENTS = ROOT / "examples" / "c" / "events.c"
STEPS = ROOT / "examples" / "c" / "steps.c"
# The headers that the drivers include.
HEADERS = [
    ROOT / "include" / "fortuna.h",
    ROOT / "tests" / "c_interface" / "lent.h",
    ROOT / "examples" / "c" / "streams.h",
]
QUIET = 5  # seconds after which a proof, or the wait for another command's, says how far it is
EVERY = 10  # seconds from then on


class NotBuilt(Exception):
    """Why there is no program to run."""


def end_on_signals():
    """A signal that ends a command ends it by an exception, so that what it started ends too. One that nohup has set
    aside stays so."""
    for number in (signal.SIGTERM, signal.SIGHUP):
        if signal.getsignal(number) is not signal.SIG_IGN:
            signal.signal(number, lambda number, _: sys.exit(128 + number))


def say(name, text):
    """name is the command that speaks."""
    print(f"{name}: {text}", file=sys.stderr, flush=True)


# ---- rt


def built_on(crate):
    """The crates that one is built on, itself too, each with those right below it."""
    below = {}
    for line in (ROOT / "crates.txt").read_text().splitlines():
        name, colon, rest = line.partition("#")[0].partition(":")
        if colon:
            below[name.split()[0]] = rest.split()  # a static library has a word more before the colon
    needed, waiting = set(), [crate]
    while waiting:
        name = waiting.pop()
        if name in below and name not in needed:  # else it is a library of the kit
            needed.add(name)
            waiting += below[name]
    return {name: [other for other in below[name] if other in needed] for name in below if name in needed}


def stands(crate):
    """Whether what rt built of a library is newer than its files. rt says nothing of one that has not changed, and one that
    another checkout built it takes over, with its times of writing."""
    folder = ROOT / "crates" / crate
    stamp = folder / "out" / "rlib" / "stamp"
    files = [file for part in ("src", "specs", "proofs") for file in (folder / part).rglob("*")]
    return stamp.is_file() and all(file.stat().st_mtime <= stamp.stat().st_ctime for file in files)


def progress(crates, said):
    """What rt is proving. It goes from the lowest crate up, and names each function that it proves, and each crate at its
    end."""
    done = set()
    for ended, begun in re.findall(r"^(?:crate (\w+): modules|fn (\w+)::)", said, re.MULTILINE):
        done |= {ended} & crates.keys()
        done.update(*(built_on(name).keys() - {name} for name in {ended, begun} & crates.keys()))
    for name, below in crates.items():
        if done.issuperset(below) and stands(name):
            done.add(name)
    now = [name for name, below in crates.items() if name not in done and done.issuperset(below)][:1]
    return f"proving {', '.join(now) or 'no more'}; {len(crates.keys() - done)} of {len(crates)} crates left"


def ask_rt(name, verbose, verb, crate):
    """rt proves and builds what has changed since it last did, in the crate's folder."""
    if shutil.which("rt") is None:
        raise NotBuilt("the Rattle toolchain (rt) is not on the path")
    log = TARGET / f"{name}.out"
    crates, start, told = built_on(crate), time.monotonic(), 0
    with open(log, "wb") as out:
        # a group of its own, so that what rt started can be ended with it
        where = {"cwd": ROOT / "crates" / crate, "stdin": subprocess.DEVNULL}
        rt = subprocess.Popen(["rt", verb], **where, stdout=out, stderr=out, start_new_session=True)
    try:
        while rt.poll() is None:
            spent = time.monotonic() - start
            if spent >= told + (EVERY if told else QUIET):
                told = spent
                say(name, f"{spent:.0f} s, {progress(crates, log.read_text(errors='replace'))}")
            time.sleep(0.02 if spent < QUIET else 0.5)
    except BaseException:
        os.killpg(rt.pid, signal.SIGTERM)
        raise
    if verbose or rt.returncode:
        sys.stderr.write(log.read_text(errors="replace"))
    if rt.returncode:
        raise NotBuilt(f"{crate} could not be proved and built (rt's status {rt.returncode}); rt's words stand above")


@contextlib.contextmanager
def alone(name):
    """One command at a time builds: rt has a second one wait too, but the user would not be told, and what is compiled
    over the library has the same files."""
    TARGET.mkdir(exist_ok=True)
    with open(TARGET / "building.lock", "w") as lock:
        start, told = time.monotonic(), False
        while True:
            try:
                fcntl.flock(lock, fcntl.LOCK_EX | fcntl.LOCK_NB)
                break
            except BlockingIOError:
                if not told and time.monotonic() - start > QUIET:
                    told = True
                    say(name, "another command is proving; waiting for it")
                time.sleep(0.05)
        yield


# ---- the bench program


def bench_program(name, verbose=False):
    """rt runs what it has built, here on a log with no line, to which there is no answer."""
    with alone(name):
        ask_rt(name, verbose, "run", BENCH)
    return ROOT / "crates" / BENCH / "out" / BENCH


# ---- the programs over the static library


def digest(paths):
    """The SHA-256 of the names and contents of files."""
    whole = hashlib.sha256()
    for path in paths:
        whole.update(f"{path.relative_to(ROOT)}\0".encode() + hashlib.sha256(path.read_bytes()).digest())
    return whole.hexdigest()


def make(made, sources, maker):
    """Has a file made, unless it and its sources are as they were when it was made last."""
    stamp = TARGET / "drivers" / f"{made.name}.stamp"
    before = digest(sources)
    if made.is_file() and stamp.is_file() and stamp.read_text() == before + digest([made]):
        return
    maker()
    stamp.write_text(before + digest([made]))


def sources_of_library():
    folders = [path for path in (ROOT / "crates").glob("*/*") if path.name != "out"]  # out/ has what rt makes
    files = {file for path in folders for file in [path, *path.rglob("*")] if file.is_file()}
    return [ROOT / "crates.txt", *sorted(files)]


def compile_driver(driver, program):
    """By way of another name, so that a run of the old program is not disturbed."""
    new = program.with_suffix(".new")
    words = ["gcc", "-std=c11", "-O2", "-Wall", "-Wextra", f"-I{ROOT / 'include'}", "-o", new, driver, ARCHIVE]
    if shutil.which("gcc") is None:
        raise NotBuilt("gcc is not on the path")
    done = subprocess.run(words, stderr=subprocess.PIPE)
    if done.returncode:
        sys.stderr.write(done.stderr.decode(errors="replace"))
        raise NotBuilt(f"{driver.relative_to(ROOT)} could not be compiled; gcc's words stand above")
    new.replace(program)


def library_program(driver, name, verbose):
    """A driver over the static library, which is built where a file under crates/ has changed; with LIBRARY_BUILT in
    the environment it is taken as it stands."""
    program = TARGET / "drivers" / driver.stem
    with alone(name):
        program.parent.mkdir(exist_ok=True)
        if not os.environ.get("LIBRARY_BUILT"):
            make(ARCHIVE, sources_of_library(), lambda: ask_rt(name, verbose, "lib", LIBRARY))
        elif not ARCHIVE.is_file():
            raise NotBuilt(f"LIBRARY_BUILT is set, and there is no {ARCHIVE.relative_to(ROOT)}")
        make(program, [ARCHIVE, driver, *HEADERS], lambda: compile_driver(driver, program))
    return program


def health_program(name, verbose=False):
    return library_program(HEALTH, name, verbose)


def metered_program(name, verbose=False):
    return library_program(METERED, name, verbose)


def convert_program(name, verbose=False):
    return library_program(CONVERT, name, verbose)


def events_program(name, verbose=False):
    return library_program(EVENTS, name, verbose)


def steps_program(name, verbose=False):
    return library_program(STEPS, name, verbose)
