#!/usr/bin/env python3
"""Runs bin/logbook --behind, --behind-key and --strings, and bin/events, as a user does. What is behind a key is told
here once more, by the lines of a log and the answers to them alone. bin/events takes the static library as it stands,
with LIBRARY_BUILT=1; what builds the library is tried with an rt that is played.

    tests/bench/behind_commands.py [--seed N]      a line for each check; exits 1 where one failed"""
import argparse
import os
import random
import shutil
import subprocess
import sys
from collections import Counter, defaultdict, namedtuple
from functools import partial

from building import events_program
from commands import ANSWERED, ARCHIVE, BLANK_LOG, KINDS, LOGS, ROOT, check_all, expect, run, tell
from health_commands import LONG, PLAYED_RT, TAKEN, copied, same, with_rt

sys.path.append(str(ROOT / "tests" / "independent"))

import fuzz
from bench_runs import interrupting
from frames import Noise, event, log_of, request, update, wide_event, write
from history import TWO, Event, bytes_of, read, string_of
from logs import answers_to
from program import Failure, compare, run_in_pieces, run_on

LOGBOOK = str(ROOT / "bin" / "logbook")
EVENTS = str(ROOT / "bin" / "events")
POOLS = range(32)
RANDOM_LOGS = 8

Noted = namedtuple("Noted", "line reseed pool source data")  # data in hexadecimal
Logged = namedtuple("Logged", "log answers words header")  # a log, its answers, the words of its kind, its source bytes


# ---- what is behind a key, by a log and the answers to it


def fields(line):
    """Source, pool and data of an event's line."""
    end = {b"01": 4, b"05": 6}[line[:2]]
    return int(line[2:end], 16), int(line[end : end + 2], 16), line[end + 2 :].decode()


def reseeds_by(given):
    """The pool reseeds that an answer tells of: one where it emptied pools."""
    return int(given[2:3] == b" " and given[3:5] != b"00")


def reseeds_of(answers):
    return sum(map(reseeds_by, answers.splitlines()))


def noted(logged):
    """The events, which are what was answered by 00 alone, each with the reseed that its pool is used for next: of pool
    i after r reseeds 2^i (floor(r / 2^i) + 1)."""
    r = 0
    for number, (line, given) in enumerate(zip(logged.log.split(b"\n"), logged.answers.splitlines()), 1):
        if given == b"00":
            source, pool, data = fields(line)
            yield Noted(number, 2**pool * (r // 2**pool + 1), pool, source, data)
        r += reseeds_by(given)


def listed(events, last):
    """The lines that --behind must print: each event once, and none that is due later."""
    orders, lines = Counter(), []
    for one in sorted((one for one in events if one.reseed <= last), key=lambda one: (one.reseed, one.pool, one.line)):
        orders[one.reseed, one.pool] += 1
        where = f"line {one.line}: reseed {one.reseed}, pool {one.pool}, order {orders[one.reseed, one.pool]}"
        lines.append(f"{where}, source {one.source}, data {one.data}\n")
    return "".join(lines)


def strings_of(events, last, header):
    """The lines that --strings must print."""
    strings = defaultdict(str)
    for one in events:
        source = one.source.to_bytes(header, "little").hex().upper()
        strings[one.reseed, one.pool] += f"{source}{len(one.data) // 2:02X}{one.data}"
    used = [(reseed, pool) for reseed in range(1, last + 1) for pool in POOLS if reseed % 2**pool == 0]
    kind = {1: ", header 1", 2: ""}[header]
    return "".join(f"reseed {r}, pool {i}{kind}:{' ' * bool(strings[r, i])}{strings[r, i]}\n" for r, i in used)


def without_lines(text):
    return "".join(line.partition(": ")[2] for line in text.splitlines(keepends=True))


# ---- logs


def stored_logs():
    for path in sorted(LOGS.glob("*.log")):
        yield Logged(path.read_bytes(), path.with_suffix(".answers").read_bytes(), [], 2)


def old_logs():
    """Of stations from before."""
    for kind in ("2003", "2003, header 1"):
        yield Logged(ARCHIVE.read_bytes(), ANSWERED[kind].read_bytes(), KINDS[kind], 1 if "header" in kind else 2)
    kind = "2010, blank taken"
    yield Logged(BLANK_LOG.read_bytes(), BLANK_LOG.with_suffix(".answers").read_bytes(), KINDS[kind], 2)


class Writer(fuzz.Writer):
    lengths = ([150, 400], [1, 1])


def random_logs(seed):
    """Each with more than four pool reseeds."""
    chance, found = random.Random(seed), 0
    while found < RANDOM_LOGS:
        log = Writer(chance).log()
        answers = answers_to(log)
        if reseeds_of(answers) > 4:
            found += 1
            yield Logged(log, answers, [], 2)


def logbook(folder, logged, *words, status=0, said=None):
    (folder / "some.log").write_bytes(logged.log)
    return tell([LOGBOOK, *words, *logged.words, "some.log"], folder, status, said)


def read_back(folder, strings, status=0, said=None):
    """What bin/events makes of what --strings prints."""
    (folder / "strings").write_text(strings)
    return tell([EVENTS, "strings"], folder, status, said, env=TAKEN)


def check_log(folder, logged):
    """Pool reseeds 0 to 4, the last one, and one that is not made."""
    events, made = list(noted(logged)), reseeds_of(logged.answers)
    for last in sorted({0, 1, 2, 3, 4, made}):
        if last > made:
            said = f"logbook: this log makes {made} pool reseed{'s' * (made != 1)}, fewer than {last}\n"
            for word in ("--behind", "--strings"):
                same(word, logbook(folder, logged, word, str(last), status=1, said=said), "")
            continue
        found = logbook(folder, logged, "--behind", str(last))
        same(f"--behind {last}", found, listed(events, last))
        strings = logbook(folder, logged, "--strings", str(last))
        same(f"--strings {last}", strings, strings_of(events, last, logged.header))
        if logged.header == 2:
            same(f"--strings {last}, read back", read_back(folder, strings), without_lines(found))
        elif strings:
            said = "events: line 1: not of the form 'reseed R, pool I: HEX'\n"
            same(f"--strings {last}, of header 1", read_back(folder, strings, 2, said), "")


def behind_stored_logs(folder):
    for logged in (*stored_logs(), *old_logs()):
        check_log(folder, logged)


def behind_random_logs(seed, folder):
    try:
        for logged in random_logs(seed):
            check_log(folder, logged)
    except Failure as why:
        raise Failure(f"seed {seed}: {why}") from None


def told_by_hand(folder):
    """Events of the pools that reseeds 1 and 2 use, by both frames, with refused lines between them."""
    first = [event(7, 0, b"\xa1\xb2"), event(7, 32, b"\xa1"), wide_event(900, 0, bytes(32)), event(9, 1, b"\x05")]
    lines = [*first, event(8, 0, bytes(29)), request(0, 0), event(6, 2, b"\1"), event(5, 0, bytes(61)), b"0G"]
    lines += [event(255, 0, b"\xff" * 32), event(254, 0, b"\xfe" * 32), request(101, 4), event(3, 1, b"\2")]
    (folder / "some.log").write_bytes(log_of(lines))
    expected = "line 1: reseed 1, pool 0, order 1, source 7, data A1B2\n"
    expected += f"line 3: reseed 1, pool 0, order 2, source 900, data {'00' * 32}\n"
    expected += f"line 5: reseed 1, pool 0, order 3, source 8, data {'00' * 29}\n"
    same("--behind 1", tell([LOGBOOK, "--behind", "1", "some.log"], folder, 0, None), expected)
    expected += f"line 10: reseed 2, pool 0, order 1, source 255, data {'FF' * 32}\n"
    expected += f"line 11: reseed 2, pool 0, order 2, source 254, data {'FE' * 32}\n"
    expected += "line 4: reseed 2, pool 1, order 1, source 9, data 05\n"
    with open(folder / "some.log", "rb") as log:
        same("--behind 2", tell([LOGBOOK, "--behind", "2"], folder, 0, None, stdin=log), expected)
    piped = ["sh", "-c", '"$0" --strings 2 some.log | "$1"', LOGBOOK, EVENTS]
    same("--strings 2 | events", tell(piped, folder, 0, None, env=TAKEN), without_lines(expected))
    expected = f"reseed 1, pool 0: 070002A1B2840320{'00' * 32}08001D{'00' * 29}\n"
    same("--strings 1", tell([LOGBOOK, "--strings=1", "some.log"], folder, 0, None), expected)


def reads_no_further(folder):
    """Behind the reseed, or the answer, that is asked for a log may have no end."""
    lines = [event(7, 0, bytes(32)), event(8, 0, bytes(32)), request(0, 8)]
    (folder / "some.log").write_bytes(log_of(lines))
    key = answers_to(log_of(lines)).split()[-1].decode()
    rest = log_of([event(9, 0, bytes(32)), request(0, 8)]).decode().strip()
    endless = '{ cat some.log; yes "$REST"; } | "$@"'
    expected = [f"line {n}: reseed 1, pool 0, order {n}, source {n + 6}, data {'00' * 32}\n" for n in (1, 2)]
    for words, count in ((["--behind", "1"], 2), (["--behind-key", key], 3), (["--strings", "1"], 1)):
        words = ["sh", "-c", endless, "sh", LOGBOOK, *words]
        found = tell(words, folder, 0, None, env={**os.environ, "REST": rest})
        same(words, len(found.splitlines()), count)
        if count > 1:
            same(words, found.splitlines(keepends=True)[-2:], expected)


def empty_log(folder):
    (folder / "empty").write_bytes(b"")
    for word in ("--behind", "--strings"):
        same(word, tell([LOGBOOK, word, "0", "empty"], folder, 0, None), "")
        tell([LOGBOOK, word, "1", "empty"], folder, 1, "logbook: this log makes 0 pool reseeds, fewer than 1\n")
    tell([LOGBOOK, "--behind-key", "00", "empty"], folder, 1, "logbook: no answer to this log holds these bytes\n")
    same("events", tell([EVENTS, "empty"], folder, 0, None, env=TAKEN), "")


# ---- the search for a key


def drawn(logged):
    """Each line that draws bytes, with them in hexadecimal, and the pool reseeds made by then."""
    r = 0
    for number, given in enumerate(logged.answers.decode().splitlines(), 1):
        r += reseeds_by(given.encode())
        if given[6:]:
            yield number, given[6:], r


def first_with(logged, wanted):
    """The first line whose bytes hold these digits at a byte's start."""
    for number, digits, r in drawn(logged):
        if any(digits.startswith(wanted, place) for place in range(0, len(digits), 2)):
            return number, r
    return None


def check_search(folder, logged, events, wanted):
    found = first_with(logged, wanted.upper())
    if found is None:
        said = "logbook: no answer to this log holds these bytes\n"
        same(wanted, logbook(folder, logged, "--behind-key", wanted, status=1, said=said), "")
        return
    number, r = found
    when = f"after pool reseed {r}" if r else "before any pool reseed"
    expected = f"line {number} draws it, {when}\n{listed(events, r)}"
    same(f"--behind-key {wanted}", logbook(folder, logged, "--behind-key", wanted), expected)


def key_search(folder):
    """Whole answers and parts of them, by small letters too; one byte; digits that stand across bytes, or across two
    answers, are not found. In the log of seeds bytes are drawn before any pool reseed."""
    for name in ("reseeds", "seeds"):
        logged = Logged(*((LOGS / f"{name}.{kind}").read_bytes() for kind in ("log", "answers")), [], 2)
        events = list(noted(logged))
        keys = [digits for _, digits, _ in drawn(logged) if len(digits) >= 32]
        for digits in (keys[0], keys[1].lower(), keys[5][4:20], keys[len(keys) // 2][-10:].lower(), keys[2][:2]):
            check_search(folder, logged, events, digits)
        for digits in (keys[3][1:-1], keys[3] + keys[4], "00" * 20, "A5" * 5000):
            check_search(folder, logged, events, digits)
    for logged in old_logs():
        keys = [digits for _, digits, _ in drawn(logged) if len(digits) >= 16]
        check_search(folder, logged, list(noted(logged)), keys[3])


# ---- strings that are read back


def in_words(first, string):
    """What bin/events must print for a string, and the place that comes to 44, if one does. first is what stands before
    the colon."""
    events, number, place = read(string)
    lines = [f"{first}, order {k}, source {e.source}, data {e.data.hex().upper()}\n" for k, e in enumerate(events, 1)]
    return "".join(lines), place if number else None


def reads(folder, strings, ending="\n"):
    """These strings, of reseeds 1, 2, and so on, as a file."""
    lines, printed, said = [], "", None
    for place, string in enumerate(strings, 1):
        first = f"reseed {place}, pool {place % 32}"
        lines.append(f"{first}: {string.hex().upper()}" if string else f"{first}:")
        if said is None:
            more, refused = in_words(first, string)
            printed += more
            said = None if refused is None else f"events: line {place}: 44, no whole event at place {refused}\n"
    (folder / "strings").write_text("\n".join(lines) + ending)
    found = tell([EVENTS, "strings"], folder, 0 if said is None else 1, said, env=TAKEN)
    same(f"{len(lines)} strings", found, printed)


def broken_strings(folder):
    """A string cut at each place, or with another byte, alone and between whole ones; a last line without LF."""
    for end in range(len(TWO) + 1):
        reads(folder, [TWO[:end]])
        reads(folder, [TWO, b"", TWO[:end], TWO], ending="")
    for byte in (0, 2, 32, 33, 255):
        reads(folder, [TWO + bytes([7, 0, byte]) + bytes(40), TWO])
    reads(folder, [bytes_of(Event(source, bytes(size))) for source in (0, 255, 256, 65535) for size in (1, 31, 32)])


def megabytes(folder):
    """Strings longer than a piece that is read at once, up to some megabytes, whole and cut."""
    noise = Noise("bin/events")
    for size in (1000, 1900, 130000):
        events = [Event(noise.below(65536), noise.take(1 + noise.below(32))) for _ in range(size)]
        string = string_of(events)
        reads(folder, [TWO, string, b"", TWO])
        reads(folder, [string[:-1], TWO])
    reads(folder, [TWO] * 5000)


OTHER_FORMS = (
    *("", " ", "reseed", "reseed 1", "reseed 1, pool 0", "reseed 1, pool 0 : 00", "reseed 1, pool 0:00", "07000105"),
    *("reseed 1, pool 0: ", "reseed 1, pool 0:  07000105", "reseed 1, pool 0: 07000105 ", "reseed 1, pool 0: 0700010"),
    *("reseed 1, pool 0: 0700010G", "reseed 1, pool 0: 07 00 01 05", "Reseed 1, pool 0: 07000105"),
    *("reseed 1, pool 32:", "reseed 1, pool 256:", "reseed 1, pool 4294967296:", "reseed 1, pool -1:"),
    *("reseed 0, pool 0:", "reseed 01, pool 0:", "reseed 1, pool 00:", "reseed -1, pool 0:", "reseed , pool 0:"),
    *("reseed 1, pool :", "reseed 1; pool 0:", "reseed 18446744073709551616, pool 0:", "reseed 1, pool 0: 07000105\r"),
    *("reseed 1, pool 0: 0700\x000105", "line 1: reseed 1, pool 0: 07000105", "reseed 1, pool 0: 0x07000105"),
)


def other_forms(folder):
    """The lines before it are read."""
    right = "reseed 18446744073709551615, pool 31: 070001ab\n"
    printed = "reseed 18446744073709551615, pool 31, order 1, source 7, data AB\n"
    for line in OTHER_FORMS:
        for before in (0, 2):
            (folder / "strings").write_bytes((right * before + f"{line}\n{right}").encode())
            said = f"events: line {before + 1}: not of the form 'reseed R, pool I: HEX'\n"
            same(repr(line), tell([EVENTS, "strings"], folder, 2, said, env=TAKEN), printed * before)


def slow_and_interrupted(folder):
    """Strings that come in small pieces, are read and written with interruptions, or over pipes that do not wait."""
    program = events_program("events")
    logged = Logged(*((LOGS / f"reseeds.{kind}").read_bytes() for kind in ("log", "answers")), [], 2)
    events = list(noted(logged))
    for last, way in (
        (30, partial(run_on, env=interrupting(folder))),
        (30, {"size": 1}),
        (600, {"size": 4096, "reading_pause": 0.005, "waits": False}),
        (30, {"size": 11, "pause": 0.001, "waits": False}),
    ):
        text, expected = strings_of(events, last, 2).encode(), without_lines(listed(events, last)).encode()
        found = run_in_pieces(program, text, **way) if isinstance(way, dict) else way(program, input=text)
        compare(text, expected, found)


# ---- how the commands are called, and what goes wrong


def ways_to_name_it(folder):
    """By a file's name, on standard input, through a link, with small letters."""
    (folder / "events").symlink_to(EVENTS)
    expected = "reseed 3, pool 0, order 1, source 7, data A1B2\nreseed 3, pool 0, order 2, source 900, data 05\n"
    for digits in (TWO.hex(), TWO.hex().upper()):
        (folder / "strings").write_text(f"reseed 3, pool 0: {digits}\n")
        for words in (["strings"], ["--verbose", "strings"], ["strings", "--verbose"], []):
            with open(folder / "strings", "rb") as here:
                same(words, tell(["./events", *words], folder, 0, None, env=TAKEN, stdin=here), expected)


NO_BYTES = ("", "A", "ABC", "0G", "A1 B2", " A1", "0xA1", "é")


def refuses(folder):
    for words, said in (
        (["--behind"], "argument --behind: expected one argument"),
        *((["--behind", text], f"argument --behind: '{text}' is no number") for text in ("x", "-1", "1.5", "", "٣")),
        *((["--strings", text], f"argument --strings: '{text}' is no number") for text in ("x", "1 2", "9" * 40)),
        *((["--behind-key", text], f"argument --behind-key: '{text}' is no row of bytes") for text in NO_BYTES),
        (["--behind", "1", "--strings", "1"], "argument --strings: not allowed with argument --behind"),
        (["--behind-key", "00", "--behind", "1"], "argument --behind: not allowed with argument --behind-key"),
        (["--compare", "a.answers", "--behind", "1"], "argument --behind: not allowed with argument --compare"),
        (["--strings", "1", "--compare", "a.answers"], "argument --compare: not allowed with argument --strings"),
        (["--behind", "1", "--header", "1"], "--header 1 goes with --edition 2003"),
        (["--behind", "0", "missing.log"], "logbook: missing.log: No such file or directory"),
        (["--behind", "1", "."], "logbook: .: Is a directory"),
    ):
        same(words, tell([LOGBOOK, *words], folder, 2, said), "")
    for words, said in (
        (["a", "b"], "unrecognized arguments: b"),
        (["--no-such-word"], "unrecognized arguments: --no-such-word"),
        (["missing"], "events: missing: No such file or directory"),
        (["."], "events: .: Is a directory"),
    ):
        same(words, tell([EVENTS, *words], folder, 2, said, env=TAKEN), "")


def helps(folder):
    """The help texts name what there is, and their example is what is printed."""
    text = tell([LOGBOOK, "--help"], folder, 0, None)
    for words in ("--behind N ", "--behind-key HEX ", "--strings N ", "`line 3: reseed 1, pool 0, order 1, source 7, "):
        if words not in text:
            raise Failure(f"logbook --help does not have '{words}'")
    text = tell([EVENTS, "--help"], folder, 0, None)
    strings = "reseed 1, pool 0: 070002A1B284030105\n"
    for line in (strings + read_back(folder, strings)).splitlines():
        if line not in text:
            raise Failure(f"events --help does not have '{line}'")


def failing_streams(folder):
    reads(folder, [TWO])
    with open("/dev/full", "wb") as full:
        said = "events: standard output could not be written: No space left on device"
        tell([EVENTS, "strings"], folder, 2, said, env=TAKEN, stdout=full)
        for words in (["--behind", "9"], ["--strings", "9"], ["--behind-key", "00"]):
            said = "logbook: reading or writing failed: No space left on device"
            tell([LOGBOOK, *words, str(LOGS / "reseeds.log")], folder, 2, said, stdout=full)
    tell(["sh", "-c", '"$0" <&-', EVENTS], folder, 2, "standard input could not be read: Bad file", env=TAKEN)
    tell(["sh", "-c", '"$0" >&-', EVENTS], folder, 2, "events: there is no standard output", env=TAKEN)
    closed = ["sh", "-c", '"$0" --behind 1 "$1" >&-', LOGBOOK, str(ARCHIVE)]
    tell(closed, folder, 2, "logbook: there is no standard output")


def closed_pipe(folder):
    """Where nobody reads on, the command ends and says nothing."""
    pipes = {"stdout": subprocess.PIPE, "stderr": subprocess.PIPE, "env": TAKEN}
    with subprocess.Popen(["yes", "reseed 1, pool 0: 07000105"], stdout=subprocess.PIPE) as endless:
        with subprocess.Popen([EVENTS], stdin=endless.stdout, **pipes) as started:
            endless.stdout.close()
            first = started.stdout.readline()
            started.stdout.close()
            expect([EVENTS], (started.wait(LONG), "", started.stderr.read().decode()), 128 + 13, None)
    same(EVENTS, first, b"reseed 1, pool 0, order 1, source 7, data 05\n")


def builds(folder):
    """The library is built once; with LIBRARY_BUILT=1 it is taken as it stands, and where there is none it is said."""
    copy = copied(folder)
    played, given = with_rt(folder, PLAYED_RT)
    (folder / "strings").write_text("reseed 1, pool 0: 07000105\n")
    words = [str(copy / "bin" / "events"), "strings"]
    for _ in range(2):
        same(words, tell(words, folder, 0, None, env=given), "reseed 1, pool 0, order 1, source 7, data 05\n")
        same("rt was asked", (played / "asked").read_text(), "fortuna_c: lib\n")
    (copy / "crates" / "fortuna_c" / "out" / "libfortuna_c.a").unlink()
    taken = {**given, "LIBRARY_BUILT": "1"}
    tell(words, folder, 2, "events: LIBRARY_BUILT is set, and there is no crates/fortuna_c/out/libfortuna_c.a", env=taken)
    (played / "failing").touch()
    status, printed, said = run(words, folder, env=given)
    if status != 2 or printed or "rt: it fails\nevents: fortuna_c could not be proved and built" not in said:
        raise Failure(f"where rt fails: status {status}, {said}")


def logbook_alone(folder):
    """The logbook needs neither the library nor what there is of the station, nor anything outside its own folder."""
    shutil.copytree(ROOT / "tests" / "independent", folder / "alone", ignore=shutil.ignore_patterns("station.py"))
    lines = [update(0, bytes(range(64))), event(7, 0, bytes(32)), event(8, 0, bytes(32)), write(0)]
    (folder / "some.log").write_bytes(log_of(lines))
    words = [sys.executable, str(folder / "alone" / "editions.py"), "--behind", "1", "some.log"]
    expected = [f"line {n + 1}: reseed 1, pool 0, order {n}, source {n + 6}, data {'00' * 32}\n" for n in (1, 2)]
    same(words, tell(words, folder, 0, None, env={"PATH": "/usr/bin:/bin"}), "".join(expected))


def checks(seed):
    any_logs = partial(behind_random_logs, seed)
    any_logs.__name__ = behind_random_logs.__name__
    return (
        *(behind_stored_logs, any_logs, told_by_hand, reads_no_further, empty_log, key_search),
        *(broken_strings, megabytes, other_forms, slow_and_interrupted, ways_to_name_it, refuses, helps),
        *(failing_streams, closed_pipe, builds, logbook_alone),
    )


def main():
    parser = argparse.ArgumentParser(description=__doc__, formatter_class=argparse.RawDescriptionHelpFormatter)
    parser.add_argument("--seed", type=int, default=random.randrange(2**32))
    os.environ["LIBRARY_BUILT"] = "1"  # for what is built here
    return check_all(checks(parser.parse_args().seed))


if __name__ == "__main__":
    sys.exit(main())
