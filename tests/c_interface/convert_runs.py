#!/usr/bin/env python3
"""Scripts of conversions of call logs (convert_script.py, beside this), their answers by tests/independent/convert.py,
and runs of logs and their conversions.

    convert_runs.py --write DIRECTORY      writes the stored scripts and their answers
    convert_runs.py --check DIRECTORY      makes them again and exits 1 where a stored file differs
    convert_runs.py --logs [--bench PROGRAM]
                                           converts the stored logs of tests/bench: tests/independent/logbook.py, and
                                           the bench program where one is given, must answer to them as is stored
    convert_runs.py --against PROGRAM [--seconds S] [--seed N]
                                           the stored logs and scripts to convert.c, beside this, then random scripts
                                           for S seconds, and on until all that must occur has come
    convert_runs.py --self-test            wrong versions (wrong_convert.py, beside this), each of which a stored
                                           script must tell from the right one

Nothing in the stored scripts comes from chance. A random script converts a log, what it has become, and the log cut
into pieces after line feeds: there and back again it is the log, and the pieces become what the whole becomes."""
import argparse
import io
import random
import sys
from collections import Counter, namedtuple
from pathlib import Path

sys.path += [str(Path(__file__).resolve().parents[1] / folder) for folder in ("independent", "bench")]

import convert_script as script
import fuzz
import logbook
import logs
from convert import Answer, Converter, converted, most_room
from editions import BlankLogbook, Logbook2003
from frames import Noise, event, log_of, request, update, wide_event, write
from logs import check_files, write_files
from program import Failure, compare, run
from wrong_convert import WRONG

BENCH = Path(__file__).resolve().parents[1] / "bench"
BOTH = (True, False)  # is 05 wanted
SOURCES = (0, 1, 127, 128, 254, 255, 256, 257, 511, 512, 4096, 61440, 65280, 65534, 65535)
OTHERS = (request(0, 16), update(0, bytes(range(64))), write(0))  # the frames that never change


def name_of(wide):
    """The event frame that is wanted."""
    return script.KINDS[not wide].decode()


def answers_to(lines):
    return b"".join(script.answers(lines))


# ---- the stored scripts


def all_room(log):
    """Both ways, with room for all."""
    return [script.convert(wide, most_room(log), log) for wide in BOTH]


def frames():
    """Each frame by itself, with an LF and without. Whatever follows the source looks like another frame, or like its
    own kind's start."""
    lines = [*OTHERS, event(7, 3, b"\xa1\xb2"), wide_event(7, 3, b"\xa1\xb2"), wide_event(900, 3, b"\xa1\xb2")]
    lines += [event(source, 3, b"\x01\x05") for source in (0, 1, 5)]
    lines += [wide_event(source, 3, b"\x05\x01") for source in (0, 1, 5)]
    lines += [event(1, 5, b"\x05" * 4), wide_event(5, 1, b"\x01" * 4), event(5, 0, b"\0"), wide_event(0x0005, 0, b"\0")]
    lines += [update(clock, b"\x05" * 64) for clock in (0x05000703, 0x01070301, 0)]
    lines += [request(clock, n) for clock, n in ((0x05000701, 0x0501), (0x01070301, 0x0105), (2**32 - 1, 65535))]
    lines += [write(clock) for clock in (0x05000701, 0x01070301)]
    for line in lines:
        yield from (*all_room(line + b"\n"), *all_room(line))
    yield from (*all_room(log_of(lines)), *all_room(b"\n".join(lines)))


def sources():
    """By either frame where both can carry the source; alone, and between others."""
    lines = [wide_event(source, 3, b"\xa1\xb2") for source in SOURCES]
    lines += [event(source, 3, b"\xa1\xb2") for source in SOURCES if source < 256]
    for line in lines:
        yield from (*all_room(line), *all_room(log_of([write(0), line, write(1)])))


def ends():
    """Logs of no line, of ends alone, and lines that end in their own way."""
    line, wide = event(7, 3, b"\xa1"), wide_event(7, 3, b"\xa1")
    for log in (b"", b"\n", b"\n\n", b"\n\n\n", b"\r", b"\r\n", b"0", b"01", b"05", b" ", b"\0"):
        yield from (*all_room(log), *(script.convert(kind, 0, log) for kind in BOTH))
    for one, other in ((line, wide), (wide, line), (line, write(0)), (write(0), wide)):
        for end in (b"\n", b"\r\n", b"\r", b"\n\r", b"\n\n", b"\n\n\n", b"\v", b"\f", b"\x85", b"\0", b"\n "):
            yield from (*all_room(one + end + other), *all_room(one + b"\n" + other + end), *all_room(end + one))


def near_frames():
    """What is nearly a frame, with a frame before it and one behind it, which is not converted. Other first bytes and
    characters take turns with the kinds."""
    for line in logs.cut_and_lengthened():
        yield from all_room(log_of([event(9, 0, b"\x01"), line, wide_event(9, 0, b"\x01")]))
    for n, line in enumerate((*logs.other_first_bytes(), *logs.other_characters())):
        yield all_room(log_of([event(9, 0, b"\x01"), line, wide_event(9, 0, b"\x01")]))[n % 2]
    for line in logs.RIGHT:
        for strange in (b"g", b"a", b"\r", b" ", b"\0", b"\xb1"):
            yield from (*all_room(line[:-1] + strange), *all_room(strange + line[1:]), *all_room(line + strange))


def lengths():
    """A frame 05 may have 258 characters, any other frame 256: what a frame 01 of 256 becomes is one of 258."""
    for size in (*range(254, 262), 512):
        for start in (b"010703", b"0300000000", b"05000703", b"05038403", b"05050501", b"0205", b"0405"):
            line = (start + b"A5" * size)[:size]
            yield from (*all_room(line), *all_room(line + b"\n"))


def fields():
    """Pools and data that a station refuses are not looked at."""
    for pool in (0, 31, 32, 127, 255):
        for size in (0, 1, 31, 32, 33, 64, 124, 125):
            for line in (event(9, pool, bytes(size)), wide_event(9, pool, bytes(size))):
                yield from all_room(line + b"\n")
    for size in (0, 1, 63, 65, 123):  # of a seed
        yield from all_room(update(0, bytes(size)))


# What a line is refused by where there is room and where there is none, for either kind.
REFUSED = {
    "no frame": b"0501000",  # odd, and a source above 255
    "small letters": b"050100a1",
    "no frame, none of an event": b"0G",
    "empty": b"",
    "large": wide_event(256, 3, b"\xa1"),
    "larger": wide_event(65535, 3, b""),
}


def orders():
    """Each two numbers at once, on one line and on two. Of two lines the first one counts."""
    good = event(7, 3, b"\xa1")
    for line in REFUSED.values():
        for other in (*REFUSED.values(), good):
            for room in (0, 1, 8, 9, 10, 11, 12, 40):
                for wide in BOTH:
                    yield script.convert(wide, room, log_of([good, line, other]))
        yield from (script.convert(wide, room, log_of([line])) for wide in BOTH for room in (0, 3, 9, 10, 11))


def places():
    """A refused line in each place among others, with an LF behind the last one and without."""
    good = [event(7, 3, b"\xa1"), wide_event(7, 3, b"\xa1"), write(5), request(5, 9)]
    for line in REFUSED.values():
        for place in range(len(good) + 1):
            for log in (log_of([*good[:place], line, *good[place:]]), b"\n".join([*good[:place], line, *good[place:]])):
                yield from all_room(log)


def rooms():
    """Every room, from none to more than enough."""
    lines = [event(7, 3, b"\xa1"), wide_event(8, 3, b""), write(5), event(255, 3, b""), wide_event(255, 32, b"\xa1")]
    for log in (log_of(lines), b"\n".join(lines), lines[0], lines[0] + b"\n", lines[1], lines[1] + b"\n"):
        for wide in BOTH:
            size = converted(log, wide)[0].written
            yield from (script.convert(wide, room, log) for room in range(size + 3))
    log = log_of(lines[:2])
    yield from (script.convert(wide, room, log) for wide in BOTH for room in (255, 256, 257, 65535, 65536, 70000))


def many():
    """Long logs, whole and with too little room for the last line or for one in the middle."""
    noise = Noise("convert")
    for size in (30, 90):
        lines = [noise.event(noise.below(32), 1 + noise.below(32)) for _ in range(size)]
        narrow = [event(noise.below(256), noise.below(32), noise.take(noise.below(9))) for _ in range(size)]
        for log in (log_of(lines), log_of(narrow), b"\n".join(narrow)):
            for wide in BOTH:
                written = converted(log, wide)[0].written
                yield from (script.convert(wide, room, log) for room in (written, max(written - 1, 0), written // 2))
    yield from (*all_room(log_of([write(0)] * 300)), *all_room(log_of([write(0)] * 299 + [b"0G"])))


MADE = (frames, sources, ends, near_frames, lengths, fields, orders, places, rooms, many)
SCRIPTS = {make.__name__: make for make in MADE}


def stored():
    """Names and scripts."""
    return {name: log_of(make()) for name, make in SCRIPTS.items()}


def files():
    """File names and contents."""
    made = {}
    for name, lines in stored().items():
        made |= {f"{name}.script": lines, f"{name}.answers": answers_to(lines)}
    return made


# ---- runs of logs and their conversions

Run = namedtuple("Run", "name log answers book")  # a call log, what was answered to it, and the logbook of that station


def runs():
    """The stored logs of tests/bench; the last two are of stations from before."""
    for name in logs.LOGS:
        path = BENCH / "logs" / f"{name}.log"
        yield Run(path.name, path.read_bytes(), path.with_suffix(".answers").read_bytes(), logbook.Logbook)
    path = BENCH / "editions" / "2010-blank-taken.log"
    yield Run(path.name, path.read_bytes(), path.with_suffix(".answers").read_bytes(), BlankLogbook)
    answers = (BENCH / "editions" / "2003.answers").read_bytes()
    yield Run(f"{logs.ARCHIVE.name}, edition 2003", logs.ARCHIVE.read_bytes(), answers, Logbook2003)


def line_by_line(log, wide):
    """The log with each line converted by itself; one that is refused stays as it is."""
    for line, end in Converter(log, wide, b"").lines():
        found, text = converted(line + end, wide)
        yield line + end if found.number else text


def conversions(run_of):
    """Titles and what the log becomes, with how many of its lines: up to a refused one, and line by line."""
    for wide in BOTH:
        found, text = converted(run_of.log, wide)
        count = found.line - 1 if found.number else len(Converter(run_of.log, wide, b"").lines())
        upto = f"up to line {found.line}, which gives {found.number}" if found.number else "whole"
        title = f"{run_of.name} to {name_of(wide)}"
        yield f"{title}, {upto}", text, count
        if found.number:
            yield f"{title}, line by line", b"".join(line_by_line(run_of.log, wide)), len(run_of.answers.splitlines())


def has(log, kind):
    return any(line.startswith(kind) for line in log.split(b"\n"))


def told(log, wide):
    """Number, line and bytes written, with all room."""
    found, text = converted(log, wide)
    return found.number, found.line, text


def check_trip(log, wide):
    """A log that is converted whole, and then back again. It becomes what it becomes straight away, and one that had no
    event of the wanted kind becomes itself. Gives whether it is such a log, with an event that changed."""
    number, _, there = told(log, wide)
    if number:
        return False
    back, one_kind = told(there, not wide), not has(log, script.KINDS[not wide])
    if back != told(log, not wide) or one_kind and back != (0, 0, log):
        raise Failure(f"to {name_of(wide)} and back again another log: {log[:200]}")
    return one_kind and there != log


def answered(run_of, text, bench):
    """What the station's logbook answers, and the bench program where it is such a station."""
    yield b"".join(logbook.answers(io.BytesIO(text), run_of.book()))
    if bench and run_of.book is logbook.Logbook:
        yield run(bench, text)


def check_run(run_of, bench):
    for title, text, count in conversions(run_of):
        expected = b"".join(run_of.answers.splitlines(keepends=True)[:count])
        for found in answered(run_of, text, bench):
            try:
                compare(text, expected, found)
            except Failure as why:
                raise Failure(f"{title}: {why}") from None
        print(f"pass  {title}: {count} answers as stored")
    for wide in BOTH:
        if check_trip(run_of.log, wide) and check_trip(told(run_of.log, wide)[2], not wide):
            print(f"pass  {run_of.name} to {name_of(wide)}, back, and there again: the same bytes")


def check_logs(bench):
    for run_of in runs():
        check_run(run_of, bench)
    return 0


# ---- random scripts


def in_pieces(pieces, wide, lent):
    """The calls of the pieces, each with the room that is left, up to a refused one; and the answer that they make
    together."""
    calls, lines, front = [], 0, b""
    for piece in pieces:
        calls.append(script.convert(wide, len(lent) - len(front), piece))
        found = Converter(piece, wide, lent[len(front) :]).answer()
        front += found.buffer[: found.written]
        if found.number:
            return calls, Answer(found.number, lines + found.line, len(front), front + lent[len(front) :])
        lines += piece.count(b"\n")
    return calls, Answer(0, 0, len(front), front + lent[len(front) :])


def line_feeds(text):
    """The places behind them."""
    return [place + 1 for place, byte in enumerate(text) if byte == 10]


def pieces_of(r, log):
    """The log cut after some of its line feeds; the last piece may be empty."""
    ends = line_feeds(log)
    places = sorted(r.sample(ends, r.randrange(len(ends) + 1)))
    return [log[start:end] for start, end in zip([0, *places], [*places, len(log)])]


def any_room(r, log, wide):
    """About what the whole log needs, or so many of its lines; seldom none."""
    text = converted(log, wide)[1]
    an_end = r.choice(line_feeds(text) or [0])
    size = r.choices((most_room(log), len(text), an_end, r.randrange(len(text) + 1), 0), (4, 4, 4, 2, 1))[0]
    return max(size + r.choice((-1, 0, 0, 1)), 0)


class Writer:
    """Writes one script, and counts in `occurred` what its answers are."""

    occurred = Counter()

    def __init__(self, chance):
        self.chance = chance
        self.maker = fuzz.Writer(chance)

    # ---- logs

    def small_event(self, form):
        """Of a source that either frame can carry."""
        r = self.chance
        source, pool = r.choice((0, 1, 5, 254, 255, r.randrange(256))), r.choice((0, 31, 32, 255))
        return form(source, pool, self.maker.data()[:125])

    def line(self, forms):
        """A right one; its event's form is one of these, where there are any."""
        if forms and self.chance.random() < 0.7:
            return self.small_event(self.chance.choice(forms))
        other = self.maker.right()
        return other if not forms or other[:2] in (b"02", b"03", b"04") else self.small_event(forms[0])

    def refused(self):
        """A line that is refused, or may be."""
        large = wide_event(self.chance.choice((256, 257, 512, 65535, self.chance.randrange(256, 65536))), 3, b"\xa1")
        return self.chance.choice((self.maker.bent(self.maker.right()), self.maker.stretched(), large, large, b""))

    def any_log(self):
        r = self.chance
        forms = r.choice(((), (event,), (event,), (wide_event,), (event, wide_event)))
        lines = [self.line(forms) for _ in range(r.choice((0, 1, 2, 5, 12, 40)))]
        for _ in range(r.choice((0, 0, 0, 1, 2))):
            lines.insert(r.randrange(len(lines) + 1), self.refused())
        return b"\n".join(lines) + r.choice((b"\n", b"\n", b""))

    # ---- what holds of them

    def trip(self, log, wide):
        """There and back again."""
        if check_trip(log, wide):
            self.occurred[f"a log of one kind to {name_of(wide)} and back again"] += 1
        there = converted(log, wide)[1]
        return [*all_room(log), script.convert(not wide, most_room(there), there)]

    def run_both(self, log, wide):
        """A log and its whole conversion give equal answers. Few are run, since the logbook takes its time."""
        number, _, text = told(log, wide)
        if number == 0 and text != log and log.count(b"\n") < 9 and self.chance.random() < 0.2:
            compare(text, logs.answers_to(log), logs.answers_to(text))
            self.occurred["a log and its conversion run"] += 1

    def note(self, call, found):
        name, room = f"to {name_of(call.wide)}: {found.number}", len(call.lent)
        self.occurred[name] += 1
        if found.line > 1:
            self.occurred[f"{name} after the first line"] += 1
        if found.number == 0 and found.written == room > 0:
            self.occurred["room to the last byte"] += 1
        if found.number == 0 and call.log and not call.log.endswith(b"\n"):
            self.occurred["a last line without LF"] += 1
        if found.number == 46 and Converter(call.log, call.wide, bytes(room + 1)).answer().line != found.line:
            self.occurred["a byte too little room"] += 1

    def group(self):
        r = self.chance
        log, wide = self.any_log(), r.choice(BOTH)
        lent = script.lent(any_room(r, log, wide))
        call = Converter(log, wide, lent)
        found = call.answer()
        calls, together = in_pieces(pieces_of(r, log), wide, lent)
        if together != found:
            raise Failure(f"in pieces {together[:3]} and whole {found[:3]}: {log[:200]}")
        if found.number and len(calls) > 1:
            self.occurred["refused after the first piece"] += 1
        self.note(call, found)
        self.run_both(log, wide)
        return [script.convert(wide, len(lent), log), *calls, *self.trip(log, wide)]

    def log(self):
        return log_of(line for _ in range(10) for line in self.group())


MUST_OCCUR = {
    *("to 05: 0", "to 05: 16", "to 05: 46", "to 01: 0", "to 01: 16", "to 01: 43", "to 01: 46"),
    *("to 05: 16 after the first line", "to 05: 46 after the first line"),
    *(f"to 01: {number} after the first line" for number in (16, 43, 46)),
    *("room to the last byte", "a byte too little room", "a last line without LF", "refused after the first piece"),
    *(f"a log of one kind to {kind} and back again" for kind in ("05", "01")),
    "a log and its conversion run",
}


def long_logs():
    """Too long to be stored: with more lines, and more bytes written, than two bytes can count."""
    lines = [event(7, 3, b"")] * 70000
    yield log_of(lines)
    yield log_of([*lines, wide_event(256, 3, b""), b"0G"])


def against(program, seconds, seed):
    for lines in stored().values():
        compare(lines, answers_to(lines), run(program, lines))
    for log in (*(run_of.log for run_of in runs()), *long_logs()):
        lines = log_of(all_room(log))
        compare(lines, answers_to(lines), run(program, lines))
    print(f"pass  the stored scripts, the stored logs and long ones; seed {seed}", flush=True)
    return fuzz.fuzz(program, seconds, seed, Writer, answers_to, MUST_OCCUR)


# ---- wrong versions


def place_told(version, scripts):
    """The first line of a stored script whose answer tells a version; None where there is none."""
    for name, (lines, right) in scripts.items():
        for n, (expected, found) in enumerate(zip(right, script.answers(lines, version)), 1):
            if expected != found:
                return f"{name}.script, line {n}"
    return None


def self_test():
    scripts = {name: (lines, list(script.answers(lines))) for name, lines in stored().items()}
    failed = place_told(type("Right", (Converter,), {}), scripts) is not None  # what is not wrong is not told
    for version in WRONG:
        place = place_told(version, scripts)
        failed |= place is None
        print(f"{'pass' if place else 'FAIL'}  one that {version.__doc__}: {place or 'not told'}")
    return 1 if failed else 0


def main():
    parser = argparse.ArgumentParser(description=__doc__, formatter_class=argparse.RawDescriptionHelpFormatter)
    modes = parser.add_mutually_exclusive_group(required=True)
    modes.add_argument("--write", type=Path, metavar="DIRECTORY")
    modes.add_argument("--check", type=Path, metavar="DIRECTORY")
    modes.add_argument("--logs", action="store_true")
    modes.add_argument("--against", metavar="PROGRAM")
    modes.add_argument("--self-test", action="store_true")
    parser.add_argument("--bench", metavar="PROGRAM")
    parser.add_argument("--seconds", type=float, default=15)
    parser.add_argument("--seed", type=int, default=random.randrange(2**32))
    chosen = parser.parse_args()
    if chosen.bench and not chosen.logs:
        parser.error("--bench goes with --logs")
    try:
        if chosen.logs:
            return check_logs(chosen.bench)
        if chosen.against:
            return against(chosen.against, chosen.seconds, chosen.seed)
    except Failure as why:
        print(f"FAIL  {why}")
        return 1
    if chosen.self_test:
        return self_test()
    if chosen.check:
        return check_files(chosen.check, files(), "tests/c_interface/convert_runs.py")
    write_files(chosen.write, files())
    return 0


if __name__ == "__main__":
    sys.exit(main())
