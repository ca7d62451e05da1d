#!/usr/bin/env python3
"""Runs bin/health as a user does. It takes the static library as it stands, with LIBRARY_BUILT=1; what builds the
library, and what ends a command that builds, is tried with an rt that is played.

    tests/bench/health_commands.py      a line for each check; exits 1 where one failed"""
import os
import shutil
import signal
import subprocess
import sys
import time

from commands import ROOT, check_all, expect, run, tell

sys.path.append(str(ROOT / "tests" / "independent"))

from frames import Noise
from health import FRESH, Health
from program import Failure

HEALTH = str(ROOT / "bin" / "health")
PAGE = ROOT / "docs" / "HEALTH.md"
ARCHIVE = ROOT / "crates" / "fortuna_c" / "out" / "libfortuna_c.a"
TAKEN = {**os.environ, "LIBRARY_BUILT": "1"}
FRESH_AGAIN = "The test state is fresh again. Nothing after this reading was looked at.\n"
PLAYED_RT = """#!/bin/sh
echo "${PWD##*/}: $*" >>"{0}/asked"
[ ! -e "{0}/failing" ] || { echo 'rt: it fails'; exit 1; }
mkdir -p out
cp "{1}" out/libfortuna_c.a
"""


LONG = 60  # seconds, by far more than a command takes to start rt or to end it
LONG_RT = """#!/bin/sh
trap 'touch "{0}/ended"; exit 1' TERM
touch "{0}/asked"
sleep 100 &
wait
"""


def same(what, found, expected):
    if found != expected:
        raise Failure(f"{what}: expected '{expected}', found '{found}'")


def cutoffs(folder):
    """31 and 325, 61 and 422 are those of jitterentropy."""
    for entropy, alarm, first, second in (
        ("1", 30, 31, 325),
        ("0.5", 30, 61, 422),
        ("1.00", 20, 21, 311),
        ("0.0625", 31, 497, 512),
        ("32", 20, 2, 2),
    ):
        words = [HEALTH, "cutoffs", "--entropy", entropy, "--alarm", str(alarm)]
        found = tell(words, folder, 0, None).splitlines()
        same(words, found[:2], [f"repetition {first}", f"proportion {second}"])
    for entropy, alarm, given in (
        ("0.0625", 32, "513 and 512"),
        ("0.05", 30, "601 and 513"),
        ("0.000000000001", 1, "and 513"),
    ):
        words = ["--entropy", entropy, "--alarm", str(alarm)]
        tell([HEALTH, "cutoffs", *words], folder, 1, given)
        tell([HEALTH, "test", *words], folder, 2, given, env=TAKEN)


def table(folder):
    """The page's table is the command's."""
    found = tell([HEALTH, "table"], folder, 0, None)
    if found.count("\n") != 7 or found not in PAGE.read_text():
        raise Failure(f"{PAGE.name} does not have the table that bin/health prints: {found}")


def refuses(folder):
    both = ["--repetition", "31", "--proportion", "325"]
    for words, said in (
        ([], "the following arguments are required: what"),
        (["tests"], "argument what: invalid choice: 'tests'"),
        (["cutoffs"], "cutoffs takes --entropy and --alarm"),
        (["cutoffs", "--entropy", "1"], "cutoffs takes --entropy and --alarm"),
        (["cutoffs", *both], "cutoffs takes --entropy and --alarm"),
        (["table", "--entropy", "1"], "table takes no numbers"),
        (["table", "a.txt"], "FILE go with test, and table takes none"),
        (["test"], "test takes --entropy and --alarm, or --repetition and --proportion"),
        (["test", "--repetition", "31"], "test takes --entropy and --alarm, or --repetition and --proportion"),
        (["test", *both, "--entropy", "1", "--alarm", "30"], "test takes --entropy and --alarm, or"),
        (["test", *both, "missing.txt"], "health: missing.txt: No such file or directory"),
        (["test", *both, "."], "health: .: Is a directory"),
        (["test", *both, "a.txt", "b.txt"], "unrecognized arguments: b.txt"),
        *((["cutoffs", "--alarm", "30", "--entropy", bad], "--entropy") for bad in ("0", "33", "-1", "1/2", "1e3", "")),
        *((["cutoffs", "--entropy", "1", "--alarm", bad], "--alarm") for bad in ("0", "129", "1.5", "x")),
        *((["test", "--repetition", bad, "--proportion", "9"], "--repetition") for bad in ("4294967296", "-1", "x")),
    ):
        tell([HEALTH, *words], folder, 2, said, env=TAKEN)


def readings(folder):
    """What is no reading, and what no library takes."""
    both = ["--repetition", "31", "--proportion", "325"]
    for text, said in (
        (b"", "no reading came, so nothing was tested"),
        (b" \n\t", "no reading came, so nothing was tested"),
        (b"1 2 x3 4", "reading 2, counted from 0, is 'x3': no whole number up to 4294967295"),
        (b"1 4294967296", "reading 1, counted from 0, is '4294967296'"),
        (b"1 -2", "reading 1, counted from 0, is '-2'"),
        (b"1 +2", "reading 1, counted from 0, is '+2'"),
        (b"1,2", "reading 0, counted from 0, is '1,2'"),
        (b"1.5", "reading 0, counted from 0, is '1.5'"),
        ("٣".encode(), "reading 0, counted from 0, is "),
        (b"\0" * 200000, "reading 0, counted from 0, is "),
        (b"7 " * 5 + b"9" * 200000, "reading 5, counted from 0, is '99999999999999999999'.."),
        (b"7 00x", "reading 1, counted from 0, is '00x'"),
        (b"004294967296", "reading 0, counted from 0, is '004294967296'"),
        (b"0" * 200000 + b"4294967296", "reading 0, counted from 0, is '00000000000000000000'.."),
        (b"0" * 200000 + b"x", "reading 0, counted from 0, is '00000000000000000000'.."),
    ):
        (folder / "some.txt").write_bytes(text)
        tell([HEALTH, "test", *both, "some.txt"], folder, 2, said, env=TAKEN)
    for first, second in ((1, 2), (2, 1), (513, 2), (2, 513), (0, 0), (2**32 - 1, 2)):
        words = [HEALTH, "test", "--repetition", str(first), "--proportion", str(second), "--bytes"]
        for name in ("/dev/null", "/dev/zero"):
            tell([*words, name], folder, 2, "refused with 34", env=TAKEN)


def told(samples, repetition, proportion):
    """What must be printed, and the status, by tests/independent/health.py."""
    found = Health(FRESH, samples, repetition, proportion).answer()
    if not (found.repetition or found.proportion):
        last, run, first, count, seen = found.next
        left = f"state left: last {last}, run {run}, first {first}, count {count}, seen {seen}\n"
        return 0, f"passed: {len(samples)} readings, cutoffs {repetition} and {proportion}\n{left}"
    text = f"FAILED at reading {found.place}, counted from 0, which is {samples[found.place]}\n"
    if found.repetition:
        text += f"repetition count test: the last {repetition} readings are equal\n"
    if found.proportion:
        text += f"adaptive proportion test: the first reading of its window has come {proportion} times there\n"
    return 1, text + FRESH_AGAIN


def runs():
    """Readings and cutoffs; long ones go over the ends of the parts that are read at once."""
    noise = Noise("bin/health")
    yield [0], 2, 2
    yield [4294967295, 0, 4294967295], 2, 3
    yield [7, 7], 2, 2
    yield [7, 8, 7], 2, 2
    yield [5] * 40, 31, 325
    yield [*noise.take(3000)], 31, 325
    yield [byte % 2 for byte in noise.take(3000)], 31, 325
    yield [byte % 2 for byte in noise.take(3000)], 40, 262
    counting = [4294000000 + n for n in range(30000)]  # 11 characters each: words go over the ends of parts
    yield counting, 2, 2
    yield [*counting, *[counting[-1]] * 30, 1, 2], 31, 325


def tests(folder):
    """By a file's name before or after the options, on standard input, through a link; words on one line or many."""
    (folder / "health").symlink_to(HEALTH)
    for samples, *cutoffs_of in runs():
        status, expected = told(samples, *cutoffs_of)
        options = ["--repetition", str(cutoffs_of[0]), "--proportion", str(cutoffs_of[1])]
        (folder / "lines.txt").write_text("".join(f"{sample}\n" for sample in samples))
        (folder / "words.txt").write_text(" ".join(map(str, samples)))
        for words in (["test", *options, "lines.txt"], ["test", "words.txt", *options]):
            same(words, tell([HEALTH, *words], folder, status, None, env=TAKEN), expected)
        with open(folder / "words.txt", "rb") as stream:
            found = tell(["./health", "test", *options], folder, status, None, env=TAKEN, stdin=stream)
        same("through a link", found, expected)
        if max(samples) < 256:
            (folder / "some.bin").write_bytes(bytes(samples))
            words = ["test", "--bytes", *options, "some.bin"]
            same(words, tell([HEALTH, *words], folder, status, None, env=TAKEN), expected)
    (folder / "zeros.txt").write_bytes(b"00000000001 0 000 " + b"0" * 200000 + b"4294967295 " + b"0" * 200000)
    words = ["test", "--repetition", "0000000000002", "--proportion", "000000000000512", "zeros.txt"]
    same("zeros in front", tell([HEALTH, *words], folder, 1, None, env=TAKEN), told([1, 0, 0], 2, 512)[1])
    words[2] = "00000000000031"
    expected = told([1, 0, 0, 4294967295, 0], 31, 512)[1]
    same("zeros in front", tell([HEALTH, *words], folder, 0, None, env=TAKEN), expected)
    (folder / "stuck.bin").write_bytes(b"\xaa" * 100)
    words = ["test", "--entropy", "1", "--alarm", "30", "--bytes", "stuck.bin"]
    same(words, tell([HEALTH, *words], folder, 1, None, env=TAKEN), told([170] * 100, 31, 325)[1])


def copied(folder):
    """A copy of what the commands need, with two crates that have nothing in them."""
    copy = folder / "copy"
    for name in ("bin", "include", "examples/c", "tests/independent", "tests/bench", "tests/c_interface"):
        shutil.copytree(ROOT / name, copy / name, ignore=shutil.ignore_patterns("__pycache__"))
    for name in ("bench_main", "fortuna_c"):
        (copy / "crates" / name).mkdir(parents=True)
    (copy / "crates.txt").write_text("fortuna_c staticlib:\n")
    return copy


def with_rt(folder, text):
    """The folder of an rt that is played, and an environment in which it is found."""
    played = folder / "played"
    played.mkdir()
    (played / "rt").write_text(text.replace("{0}", str(played)).replace("{1}", str(ARCHIVE)))
    (played / "rt").chmod(0o755)
    given = {name: value for name, value in os.environ.items() if name != "LIBRARY_BUILT"}
    return played, {**given, "PATH": f"{played}:{given['PATH']}"}


def one_reading(copy, folder):
    """The words that test one reading, which passes, with the copy's command."""
    (folder / "one.txt").write_text("1")
    return [str(copy / "bin" / "health"), "test", "--repetition", "2", "--proportion", "2", "one.txt"]


def says_where_it_was_cut_off(folder):
    with open("/dev/full", "wb") as full:
        tell([HEALTH, "table"], folder, 2, "health: reading or writing failed: No space left", stdout=full)
    words = one_reading(copied(folder), folder)
    (folder / "copy" / "target").write_text("no folder")
    tell(words, folder, 2, "/copy/target: File exists", env=TAKEN)


def gives_no_verdict(folder):
    """Where standard output or standard error is closed, and where a thing goes wrong that nobody has thought of."""
    words = one_reading(ROOT, folder)
    tell(["sh", "-c", '"$@" >&-', "sh", *words], folder, 2, "health: there is no standard output", env=TAKEN)
    tell(["sh", "-c", '"$@" >/dev/full 2>&-', "sh", *words], folder, 2, None, env=TAKEN)
    copy = copied(folder)
    (copy / "crates.txt").write_bytes(b"\xff")
    status, printed, said = run(one_reading(copy, folder), folder, env=with_rt(folder, PLAYED_RT)[1])
    if status != 2 or printed or "UnicodeDecodeError" not in said:
        raise Failure(f"an exception: expected status 2, found {status}; it printed '{printed}' and said: {said}")


def builds(folder):
    """The library is built once, and again where a file under crates/ or the library itself has changed."""
    copy = copied(folder)
    played, given = with_rt(folder, PLAYED_RT)
    archive = copy / "crates" / "fortuna_c" / "out" / ARCHIVE.name
    words = one_reading(copy, folder)

    def asked(times, env=given):
        tell(words, folder, 0, None, env=env)
        same("rt was asked", (played / "asked").read_text(), "fortuna_c: lib\n" * times)

    asked(1)
    asked(1)
    (copy / "crates" / "fortuna_c" / "lib.rt").write_text("// changed")
    asked(2)
    asked(2)
    archive.write_bytes(archive.read_bytes() + b"\n")
    asked(3)
    archive.write_bytes(archive.read_bytes() + b"\n")
    asked(3, {**given, "LIBRARY_BUILT": "1"})
    fails_to_build(folder, words, archive, given, played)


def ends_with_rt(folder):
    """A signal that ends a command while rt runs ends rt too, and nothing is said."""
    copy = copied(folder)
    names = ("bench", "checklist", "convert", "events", "steps")
    bench, checklist, convert, events, steps = (str(copy / "bin" / name) for name in names)
    (folder / "key").write_bytes(bytes(32))
    played, given = with_rt(folder, LONG_RT)
    for words in (
        one_reading(copy, folder),
        [bench, "one.txt"],
        [convert, "--to", "05", "one.txt"],
        [events, "one.txt"],
        [steps, "key", "0", "9"],
        [checklist, "may"],
        [checklist, "april", "--bench", "/bin/false"],
    ):
        for number in (signal.SIGTERM, signal.SIGHUP, signal.SIGINT):
            ended_by(words, number, folder, played, given)


def ended_by(words, number, folder, played, given):
    """Gives a command a signal as soon as rt runs."""
    for name in ("asked", "ended"):
        (played / name).unlink(missing_ok=True)
    started = subprocess.Popen(
        words,
        cwd=folder,
        env=given,
        stdout=subprocess.PIPE,
        stderr=subprocess.PIPE,
        # a shell has its background commands ignore SIGINT, nohup has them ignore SIGHUP, and they hand that on
        preexec_fn=lambda: signal.signal(number, signal.SIG_DFL),
    )
    wait_for(played / "asked", words)
    started.send_signal(number)
    wait_for(played / "ended", words)
    output, said = started.communicate(timeout=LONG)
    expect(words, (started.returncode, output, said.decode()), 128 + number, None)


def wait_for(path, words):
    end = time.monotonic() + LONG
    while not path.exists():
        if time.monotonic() > end:
            raise Failure(f"{' '.join(words)}: rt was not {path.name} after {LONG} s")
        time.sleep(0.02)


def fails_to_build(folder, words, archive, given, played):
    archive.unlink()
    tell(words, folder, 2, "LIBRARY_BUILT is set, and there is no", env={**given, "LIBRARY_BUILT": "1"})
    (played / "failing").touch()
    status, _, said = run(words, folder, env=given)
    if status != 2 or "rt: it fails\nhealth: fortuna_c could not be proved and built" not in said:
        raise Failure(f"where rt fails: status {status}, {said}")
    if shutil.which("rt", path="/usr/bin:/bin") is None:
        tell(words, folder, 2, "the Rattle toolchain (rt) is not on the path", env={**given, "PATH": "/usr/bin:/bin"})


CHECKS = (
    *(cutoffs, table, refuses, readings, tests, says_where_it_was_cut_off, gives_no_verdict),
    *(builds, ends_with_rt),
)

if __name__ == "__main__":
    sys.exit(check_all(CHECKS))
