#!/usr/bin/env python3
"""Runs the commands in bin/ as a user does: from another folder, through a link, with wrong words and missing files.
health_commands.py, convert_commands.py, behind_commands.py and steps_commands.py, beside this, have what needs the
static library.

    tests/bench/commands.py      a line for each check; exits 1 where one failed"""
import hashlib
import os
import subprocess
import sys
import tempfile
from pathlib import Path

ROOT = Path(__file__).resolve().parents[2]
sys.path.append(str(ROOT / "tests" / "independent"))

from frames import event, log_of, request, update, wide_event, write
from program import Failure

LOGS = ROOT / "tests" / "bench" / "logs"
COMMANDS = ("bench", "logbook", "checklist", "health", "convert", "events", "steps")
ARCHIVE = LOGS / "archive.log"
KINDS = {  # of logbook
    "2010": [],
    "2010, blank taken": ["--blank", "taken"],
    "2003": ["--edition", "2003"],
    "2003, header 1": ["--edition", "2003", "--header", "1"],
}
EDITIONS = ROOT / "tests" / "bench" / "editions"
# What stations of each kind answered to the archive's log, which has no blank seed.
ANSWERED = {
    "2010": LOGS / "archive.answers",
    "2010, blank taken": LOGS / "archive.answers",
    "2003": EDITIONS / "2003.answers",
    "2003, header 1": EDITIONS / "2003-header-1.answers",
}
BLANK_LOG = EDITIONS / "2010-blank-taken.log"  # its first seed and its last are blank
# What is kept, by its SHA-256: the versions that ran then worked the answers out, and no program here makes them again.
KEPT = {
    "2003.answers": "857b1d17e2ef3f0153a237ac20d729b80990ae29249ef9bbe02da56b56d17032",
    "2003-header-1.answers": "3f5e1dde009a5650d321e39d88fc86289639a39dc9f3f200fee96bd567483349",
    "2010-blank-taken.log": "f44daaf1b7bfbdb7b99eadaa6a2a1a4727d7b20cfeaf3986ec522b89cfe637a5",
    "2010-blank-taken.answers": "4c124ede067870f7f36cf11769ad1c5e3b42fe174c44515052c6b32938f8a382",
}


def run(words, folder, **rest):
    """Status, standard output and standard error."""
    rest = {"stdin": subprocess.DEVNULL, "stdout": subprocess.PIPE} | rest
    done = subprocess.run(words, cwd=folder, stderr=subprocess.PIPE, timeout=300, **rest)
    return done.returncode, (done.stdout or b"").decode(), done.stderr.decode()


def expect(words, found, status, said):
    """said: what must be in standard error, all of it on one line; None where nothing may be said."""
    if found[0] != status:
        raise Failure(f"{' '.join(words)}: expected status {status}, found {found[0]}; it said: {found[2]}")
    if said is None and found[2]:
        raise Failure(f"{' '.join(words)}: expected nothing on standard error, found: {found[2]}")
    if said is not None and (said not in found[2] or found[2].count("\n") != 1):
        raise Failure(f"{' '.join(words)}: expected one line with '{said}' on standard error, found: {found[2]}")


def tell(words, folder, status, said, **rest):
    found = run(words, folder, **rest)
    expect(words, found, status, said)
    return found[1]


def helps(folder):
    for name in COMMANDS:
        text = tell([ROOT / "bin" / name, "--help"], folder, 0, None)
        if not text.startswith(f"usage: {name} "):
            raise Failure(f"{name} --help prints: {text}")


def refuses(folder):
    for name in COMMANDS:
        tell([str(ROOT / "bin" / name), "--no-such-word"], folder, 2, f"{name}: ")
    for name in ("bench", "logbook"):
        tell([str(ROOT / "bin" / name), "a.log", "b.log"], folder, 2, "unrecognized arguments: b.log")
        tell([str(ROOT / "bin" / name), "missing.log"], folder, 2, f"{name}: missing.log: No such file or directory")
        tell([str(ROOT / "bin" / name), "."], folder, 2, f"{name}: .: Is a directory")
    checklist = str(ROOT / "bin" / "checklist")
    for check in ("october", "stale"):
        tell([checklist, check, "--log", "missing.log"], folder, 2, "checklist: missing.log: No such file or directory")
    tell([checklist, "stale", "--log", "."], folder, 2, "checklist: .: Is a directory")
    tell([checklist, "stale", "--out", "checked"], folder, 2, "--out goes with the checks, and stale takes none")
    tell([checklist, "may", "--log", "a.log"], folder, 2, "--log goes with october and stale, and may takes none")


def answers(folder):
    """A file by its name in the user's folder, or standard input; through a link; nothing on standard error."""
    log, expected = ((LOGS / f"example.{kind}").read_bytes() for kind in ("log", "answers"))
    (folder / "here.log").write_bytes(log)
    for name in ("bench", "logbook"):
        (folder / name).symlink_to(ROOT / "bin" / name)
        for words in ([ROOT / "bin" / name, "here.log"], [f"./{name}", "here.log"], [f"./{name}"]):
            with open(folder / "here.log", "rb") as here:
                found = tell([str(word) for word in words], folder, 0, None, stdin=here)
            if found != expected.decode():
                raise Failure(f"{words}: expected example.answers, found: {found}")


def failing_streams(folder):
    bench = str(ROOT / "bin" / "bench")
    with open("/dev/full", "wb") as full:
        said = "standard output could not be written: No space left on device"
        tell([bench, str(LOGS / "example.log")], folder, 1, said, stdout=full)
    words = ["sh", "-c", '"$0" <&-', bench]
    tell(words, folder, 1, "standard input could not be read: Bad file descriptor")
    nothing = {**os.environ, "PATH": "/usr/bin:/bin"}
    if subprocess.run(["sh", "-c", "command -v rt"], env=nothing, stdout=subprocess.DEVNULL).returncode:
        tell([bench, "/dev/null"], folder, 1, "the Rattle toolchain (rt) is not on the path", env=nothing)


def at_once(folder):
    """Several benches that start together."""
    words = [ROOT / "bin" / "bench", LOGS / "example.log"]
    pipes = {"stdout": subprocess.PIPE, "stderr": subprocess.PIPE}
    runs = [subprocess.Popen(words, cwd=folder, **pipes) for _ in range(4)]
    for started in runs:
        output, said = started.communicate(timeout=300)
        # on a busy machine one may have to wait for the others, and says so
        said = said.decode().replace("bench: another command is proving; waiting for it\n", "")
        expect(["bench", "example.log"], (started.returncode, output, said), 0, None)


def no_pass(folder):
    """Logs that show nothing are no pass of October's."""
    (folder / "letter.log").write_bytes(b"Dear colleague,\nhere is the log.\n")
    (folder / "empty.log").write_bytes(b"")
    for name, why in (
        (folder / "letter.log", "no line of this log is a frame"),
        (folder / "empty.log", "this log draws no key"),
        (LOGS / "example.log", "this log draws no key"),
    ):
        words = [str(ROOT / "bin" / "checklist"), "october", "--log", str(name), "--out", "checked"]
        found = tell(words, folder, 1, None)
        if f"october: FAIL: {why}" not in found:
            raise Failure(f"{' '.join(words)}: expected a failure with '{why}', found: {found}")


def stale_logs():
    """Lines of a log, and what is said of the key at its end, told by hand."""
    page = bytes(range(64))
    seed, filling = update(0, page), [event(7, 0, bytes(29)), event(900, 0, bytes(29))]
    start, reseed = "requests on the key since the fresh start", "requests on the key since the last pool reseed"
    yield [], f"{start}: 0; not seeded: there is no key yet"
    yield filling, f"{start}: 0; not seeded: there is no key yet"
    yield [seed, request(0, 16)], f"{start}: 2"
    yield [*filling, request(5, 0)], f"{reseed}: 1"
    refused = update(5, b""), b"0G", event(7, 32, page)
    yield [request(5, 0), seed, *filling, write(5), *refused, update(5, page), write(6)], f"{reseed}: 3"
    yield [seed] * 3 + [*filling, request(5, 0), *filling, request(105, 0), request(106, 0)], f"{reseed}: 1"


def tells_staleness(folder):
    """By a file's name or on standard input; October says the same of a log that draws a key."""
    checklist = str(ROOT / "bin" / "checklist")
    for n, (lines, expected) in enumerate(stale_logs()):
        path = folder / f"stale-{n}.log"
        path.write_bytes(log_of(lines))
        with open(path, "rb") as log:
            found = [tell([checklist, "stale", "--log", path.name], folder, 0, None)]
            found.append(tell([checklist, "stale"], folder, 0, None, stdin=log))
        if any(text.splitlines()[-1] != expected for text in found):
            raise Failure(f"stale, {path.read_bytes()}: expected '{expected}', found: {found}")
    october = tell([checklist, "october", "--log", path.name, "--out", "checked"], folder, 0, None)
    if f"\n{expected}\noctober: pass\n" not in october:
        raise Failure(f"october, {path.read_bytes()}: expected '{expected}' and a pass, found: {october}")
    (folder / "letter.log").write_bytes(b"Dear colleague,\nhere is the log.\n")
    tell([checklist, "stale", "--log", "letter.log"], folder, 1, "no line of this log is a frame")
    tell([checklist, "may", "--header", "1"], folder, 2, "--header goes with stale, and may takes none")
    tell([checklist, "may", "--blank", "taken"], folder, 2, "--blank goes with stale, and may takes none")
    words = [checklist, "stale", "--log", "letter.log", "--header", "1", "--blank", "refused"]
    tell(words, folder, 2, "--blank refused goes with --header 2")


def tells_staleness_by_kind(folder):
    """64 bytes of pool 0 with a source of two bytes are 62 with one: then no pool reseed is due. A blank seed that is
    refused is no request, and no seed."""
    page = bytes(range(64))
    by_header = [update(0, page), event(7, 0, bytes(29)), event(8, 0, bytes(29)), request(5, 0), request(6, 0)]
    blank = [update(0, b"\xff" * 64), request(5, 0)]
    since, start = "requests on the key since the last pool reseed", "requests on the key since the fresh start"
    for lines, words, expected in (
        (by_header, [], f"{since}: 2"),
        (by_header, ["--header", "2"], f"{since}: 2"),
        (by_header, ["--header", "1"], f"{start}: 3"),
        (blank, [], f"{start}: 0; not seeded: there is no key yet"),
        (blank, ["--blank", "refused"], f"{start}: 0; not seeded: there is no key yet"),
        (blank, ["--blank", "taken"], f"{start}: 2"),
        (blank, ["--header", "1"], f"{start}: 2"),
        (blank, ["--header", "1", "--blank", "taken"], f"{start}: 2"),
    ):
        (folder / "some.log").write_bytes(log_of(lines))
        found = tell([str(ROOT / "bin" / "checklist"), "stale", "--log", "some.log", *words], folder, 0, None)
        if found.splitlines()[-1] != expected:
            raise Failure(f"stale {words}: expected '{expected}', found: {found}")


# ---- stations from before: bin/logbook --edition, --header and --compare


def refuses_editions(folder):
    logbook = str(ROOT / "bin" / "logbook")
    for words, said in (
        (["--edition", "1999"], "argument --edition: invalid choice: '1999'"),
        (["--edition", "2003", "--header", "3"], "argument --header: invalid choice: '3'"),
        (["--header", "1"], "--header 1 goes with --edition 2003"),
        (["--edition", "2010", "--header", "1"], "--header 1 goes with --edition 2003"),
        (["--blank", "kept"], "argument --blank: invalid choice: 'kept'"),
        (["--edition", "2003", "--blank", "refused"], "--blank refused goes with --edition 2010"),
        (["--edition", "2003", "--header", "1", "--blank", "refused"], "--blank refused goes with --edition 2010"),
        (["--compare", "a.answers", "--edition", "2003"], "--compare tries every kind of station"),
        (["--compare", "a.answers", "--header", "2"], "--compare tries every kind of station"),
        (["--compare", "a.answers", "--blank", "taken"], "--compare tries every kind of station"),
        (["--compare", "a.answers"], "logbook: a.answers: No such file or directory"),
        (["--compare", ".", str(ARCHIVE)], "logbook: .: Is a directory"),
        (["--compare", str(ANSWERED["2003"]), "a.log"], "logbook: a.log: No such file or directory"),
        (["--compare"], "argument --compare: expected one argument"),
    ):
        tell([logbook, *words], folder, 2, said)


def by_header(two_bytes, one_byte):
    """The answers of each kind, where nothing but the bytes of a header tells kinds apart."""
    return dict.fromkeys(KINDS, two_bytes) | {"2003, header 1": one_byte}


def told_by_hand():
    """Lines of a log, and the answers of each kind: by the bytes of a header, and whether there is a frame 05. D shows
    nowhere, since no byte is drawn."""
    yield [event(7, 0, bytes(30)), event(8, 0, bytes(30)), request(0, 0)], dict.fromkeys(KINDS, b"00\n00\n00 01\n")
    short = by_header(b"00\n00\n00 01\n", b"00\n00\n23\n")
    yield [event(7, 0, bytes(30)), event(8, 0, bytes(29)), request(0, 0)], short
    wide = [wide_event(7, 3, b"\xa1"), wide_event(900, 32, b"\xa1"), wide_event(7, 3, bytes(125)), event(7, 3, bytes(126))]
    yield wide, by_header(b"00\n12\n13\n16\n", b"16\n16\n16\n16\n")


def works_out_editions(folder):
    """Each kind answers as its stations did."""
    for name, digest in KEPT.items():
        if hashlib.sha256((EDITIONS / name).read_bytes()).hexdigest() != digest:
            raise Failure(f"{EDITIONS / name} is not what was kept")
    cases = [(ARCHIVE.read_bytes(), {kind: path.read_bytes() for kind, path in ANSWERED.items()})]
    cases += [(BLANK_LOG.read_bytes(), {"2010, blank taken": BLANK_LOG.with_suffix(".answers").read_bytes()})]
    cases += [(log_of(lines), expected) for lines, expected in told_by_hand()]
    for log, expected in cases:
        (folder / "old.log").write_bytes(log)
        for kind, answered in expected.items():
            found = tell([str(ROOT / "bin" / "logbook"), *KINDS[kind], "old.log"], folder, 0, None)
            if found != answered.decode():
                raise Failure(f"edition {kind}: other answers than its stations gave, to {log[:80]}: {found[:200]}")


NONE = "no edition gives these answers\n"
BOTH = "both editions give these answers: no byte was drawn that tells them apart\n"
EITHER = "edition 2003, with either header: no event has entered a key that was drawn from\n"
NO_BLANK = "edition 2010, blank seeds refused or taken: the log has no update of 64 equal bytes\n"


def shown(reply):
    return ascii(reply[:16].decode()) + (".." if len(reply) > 16 else "")


def verdict(worked_out, given):
    """What --compare says of a kind with answers of its own, where others were given."""
    ours, theirs = (text.removesuffix(b"\n").split(b"\n") if text else [] for text in (worked_out, given))
    for place, (one, other) in enumerate(zip(ours, theirs), 1):
        if one != other:
            return f"first difference at line {place}: {shown(one)} was worked out, {shown(other)} found"
    if len(ours) == len(theirs):
        return f"all {len(ours)} lines agree"
    lacking = "ANSWERS" if len(theirs) < len(ours) else "the log"
    return f"first difference at line {min(len(ours), len(theirs)) + 1}, which {lacking} does not have"


def archive_comparisons():
    """Answers to the archive's log, and the status of --compare with its last line, if that is no kind's."""
    old = ANSWERED["2003"].read_bytes()
    yield ANSWERED["2010"].read_bytes(), 0, NO_BLANK
    yield from ((ANSWERED[kind].read_bytes(), 0, "") for kind in ("2003", "2003, header 1"))
    yield old.removesuffix(b"\n"), 0, ""
    yield b"".join(old.splitlines(keepends=True)[:100]), 1, NONE
    yield old + b"00\n", 1, NONE
    yield old.replace(b"\n", b"\r\n"), 1, NONE
    yield old.lower(), 1, NONE
    yield b"00\n00\n" + b"A" * 10**6, 1, NONE
    yield b"", 1, NONE


def comparisons(worked_out):
    """A log, the answers of each kind to it, some answers, and the status of --compare with its last line, if that is no
    kind's. worked_out gives a kind's answers by bin/logbook."""
    kinds = {kind: path.read_bytes() for kind, path in ANSWERED.items()}
    yield from ((ARCHIVE.read_bytes(), kinds, *rest) for rest in archive_comparisons())
    example, answered = ((LOGS / f"example.{kind}").read_bytes() for kind in ("log", "answers"))
    for log, all_give in ((example, answered), (b"", b"")):
        yield log, dict.fromkeys(KINDS, all_give), all_give, 1, BOTH
    wide = log_of([event(7, 3, b"\xa1"), wide_event(7, 3, b"\xa1")])
    kinds = by_header(b"00\n00\n", b"00\n16\n")
    yield wide, kinds, b"00\n00\n", 1, BOTH
    yield wide, kinds, b"00\n16\n", 0, ""
    seeded = log_of([update(0, bytes(range(64))), event(7, 0, bytes(30)), request(0, 16)])
    kinds = {kind: worked_out(kind, seeded) for kind in KINDS}
    yield seeded, kinds, kinds["2010"], 0, NO_BLANK
    yield seeded, kinds, kinds["2003"], 0, EITHER
    yield from blank_comparisons(worked_out)


def blank_comparisons(worked_out):
    """The same of logs with a blank seed, which tells the kinds of edition 2010 apart."""
    blank = log_of([update(0, b"\xff" * 64), request(0, 16)])
    for log, old in ((blank, EITHER), (BLANK_LOG.read_bytes(), "")):
        kinds = {kind: worked_out(kind, log) for kind in KINDS}
        if not kinds["2010"].startswith(b"36\n23\n"):
            raise Failure(f"a station of now took a blank seed: {kinds['2010'][:80]}")
        for kind, last in (("2010", ""), ("2010, blank taken", ""), ("2003", old)):
            yield log, kinds, kinds[kind], 0, last


def tells_editions(folder):
    """By the log's name or on standard input."""
    logbook = str(ROOT / "bin" / "logbook")

    def worked_out(kind, log):
        (folder / "some.log").write_bytes(log)
        return tell([logbook, *KINDS[kind], "some.log"], folder, 0, None).encode()

    words = [logbook, "--compare", "some.answers"]
    for log, kinds, answered, status, last in comparisons(worked_out):
        expected = "".join(f"edition {kind}: {verdict(kinds[kind], answered)}\n" for kind in KINDS) + last
        (folder / "some.log").write_bytes(log)
        (folder / "some.answers").write_bytes(answered)
        with open(folder / "some.log", "rb") as stream:
            found = [tell([*words, "some.log"], folder, status, None), tell(words, folder, status, None, stdin=stream)]
        if found != [expected] * 2:
            raise Failure(f"--compare, {log[:40]}, {answered[:40]}: expected '{expected}', found: {found}")


def written_command(start):
    """The command of docs/CHECKLIST.md that begins like this."""
    lines = (ROOT / "docs" / "CHECKLIST.md").read_text().splitlines()
    found = [line.strip() for line in lines if line.startswith(f"    {start}")]
    if len(found) != 1:
        raise Failure(f"docs/CHECKLIST.md has {len(found)} commands that begin with '{start}'")
    return found[0]


def finds_blank_seeds(folder):
    """The commands of docs/CHECKLIST.md that find blank seeds in a log, and the first pool reseed."""
    pages = [update(0, bytes([byte]) * 64) for byte in (0x00, 0xFF, 0x5A)]
    others = [b"\xff\0", update(0, b"\xff" * 63), update(0, b"\xff" * 65), update(0, b"\xff" * 63 + b"\xfe")]
    others += [update(0, b"\x12\x34" * 32), update(0, bytes(range(64))), write(0), event(7, 3, b"\xff" * 32)]
    filling = [event(7, 0, bytes(29)), event(900, 0, bytes(29))]
    lines = [*others, *pages, request(0, 16), *filling, request(0, 0), pages[0]]
    (folder / "LOG").write_bytes(log_of(lines))
    (folder / "bin").symlink_to(ROOT / "bin")
    blank = [n for n, line in enumerate(lines, 1) if line in pages]
    for start, numbers in (("grep -anE '^03", blank), ("bin/logbook --blank taken LOG |", [len(lines) - 1])):
        found = tell(["sh", "-c", written_command(start)], folder, 0, None)
        if [int(line.split(":")[0]) for line in found.splitlines()] != numbers:
            raise Failure(f"{start}: expected lines {numbers}, found: {found}")


def says_where_it_was_cut_off(folder):
    """A full disk is no verdict, and no standard output is none."""
    logbook = str(ROOT / "bin" / "logbook")
    for words in ([], ["--compare", str(ANSWERED["2003"])]):
        with open("/dev/full", "wb") as full:
            tell([logbook, *words, str(ARCHIVE)], folder, 2, "logbook: reading or writing failed: No space left", stdout=full)
        closed = ["sh", "-c", '"$@" >&-', "sh", logbook, *words, str(ARCHIVE)]
        tell(closed, folder, 2, "logbook: there is no standard output")


CHECKS = (
    *(helps, refuses, answers, failing_streams, at_once, no_pass, tells_staleness, tells_staleness_by_kind),
    *(refuses_editions, works_out_editions, tells_editions, finds_blank_seeds, says_where_it_was_cut_off),
)


def check_all(checks):
    """The exit status. Each check has a folder of its own."""
    failed = False
    for check in checks:
        with tempfile.TemporaryDirectory() as folder:
            try:
                check(Path(folder))
                print(f"pass  {check.__name__}")
            except Failure as why:
                failed = True
                print(f"FAIL  {check.__name__}: {why}")
    return 1 if failed else 0


if __name__ == "__main__":
    sys.exit(check_all(CHECKS))
