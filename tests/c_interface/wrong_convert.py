"""Wrong versions of tests/independent/convert.py. convert_runs.py, beside this, shows that its stored scripts tell each
of these from the right one."""
from convert import FOLLOWING, LF, Answer, Converter, pattern


def wrong(text, **parts):
    """A version with these parts in place of the right ones."""
    return type("Wrong", (Converter,), {"__doc__": text, **parts})


def shaped(text, following=(), digits=b"0-9A-F"):
    """One that takes other lines for frames."""
    return wrong(text, frame=pattern({**FOLLOWING, **dict(following)}, digits))


# ---- what a line becomes


def updates_too(call, line):
    """An update is narrowed like a frame 05 where its clock's first byte is 0."""
    return call.narrowed(line) if not call.wide and line.startswith(b"0300") else Converter.converted(call, line)


def anywhere(call, line):
    """Wherever 0500 stands it is narrowed."""
    return Converter.converted(call, line) if call.wide else line.replace(b"0500", b"01")


WRONG_LINES = (
    wrong("widens without 00", widened=lambda call, line: b"05" + line[2:]),
    wrong("puts 00 after the source", widened=lambda call, line: b"05" + line[2:4] + b"00" + line[4:]),
    wrong("puts 01 in front of the source", widened=lambda call, line: b"0501" + line[2:]),
    wrong("puts one 0 in front of the source", widened=lambda call, line: b"050" + line[2:]),
    wrong("keeps 01 where it widens", widened=lambda call, line: b"0100" + line[2:]),
    wrong("drops the pool where it widens", widened=lambda call, line: b"0500" + line[2:4] + line[6:]),
    wrong("drops the last byte where it widens", widened=lambda call, line: b"0500" + line[2:-2]),
    wrong("cuts what it widens at 256 characters", widened=lambda call, line: (b"0500" + line[2:])[:256]),
    wrong("keeps the high byte where it narrows", narrowed=lambda call, line: b"01" + line[2:]),
    wrong("drops the low byte where it narrows", narrowed=lambda call, line: b"01" + line[2:4] + line[6:]),
    wrong("drops the high byte's first digit alone", narrowed=lambda call, line: b"01" + line[3:]),
    wrong("keeps 05 where it narrows", narrowed=lambda call, line: b"05" + line[4:]),
    wrong("drops the pool where it narrows", narrowed=lambda call, line: b"01" + line[4:6] + line[8:]),
    wrong("leaves frames 05 where 01 is wanted", narrowed=lambda call, line: line),
    wrong("leaves frames 01 where 05 is wanted", widened=lambda call, line: line),
    wrong("has the kinds swapped", __init__=lambda call, log, wide, out: Converter.__init__(call, log, not wide, out)),
    wrong("always widens", __init__=lambda call, log, wide, out: Converter.__init__(call, log, True, out)),
    wrong("always narrows", __init__=lambda call, log, wide, out: Converter.__init__(call, log, False, out)),
    wrong(
        "converts either kind into the other",
        converted=lambda call, line: {b"01": call.widened, b"05": call.narrowed}.get(line[:2], bytes)(line),
    ),
    wrong("narrows an update whose clock begins with 0", converted=updates_too),
    wrong("takes 0500 inside a line for a frame's start", converted=anywhere),
    wrong("writes small letters", converted=lambda call, line: Converter.converted(call, line).lower()),
)


# ---- what a frame is


def small_pool(line):
    """Whether the pool of an event, if it is one, is below 32."""
    place = {b"01": 4, b"05": 6}.get(line[:2])
    return place is None or int(line[place : place + 2], 16) < 32


def without(first):
    return {other: sizes for other, sizes in FOLLOWING.items() if other != first}


WRONG_FRAMES = (
    shaped("takes small letters", digits=b"0-9A-Fa-f"),
    shaped("takes G for a digit", digits=b"0-9A-G"),
    shaped("takes a colon for a digit", digits=b"0-:A-F"),
    shaped("takes no F for a digit", digits=b"0-9A-E"),
    shaped("takes no 9 for a digit", digits=b"0-8A-F"),
    shaped("takes 258 characters of an 01", {b"01": (2, 128)}),
    shaped("takes 258 characters of an 03", {b"03": (4, 128)}),
    shaped("takes 260 characters of an 05", {b"05": (3, 129)}),
    shaped("refuses 258 characters of an 05", {b"05": (3, 127)}),
    shaped("refuses 256 characters of an 01", {b"01": (2, 126)}),
    shaped("refuses 256 characters of an 03", {b"03": (4, 126)}),
    shaped("takes an 01 of any length", {b"01": (2, 4000)}),
    shaped("takes an 01 without a pool", {b"01": (1, 127)}),
    shaped("takes an 05 without a pool", {b"05": (2, 128)}),
    shaped("refuses an 01 without data", {b"01": (3, 127)}),
    shaped("refuses an 05 without data", {b"05": (4, 128)}),
    shaped("refuses an 01 with more than 32 bytes of data", {b"01": (2, 34)}),
    shaped("refuses an 05 with more than 32 bytes of data", {b"05": (3, 35)}),
    shaped("takes an 02 with a byte more", {b"02": (6, 7)}),
    shaped("takes an 02 with a byte less", {b"02": (5, 6)}),
    shaped("takes an 04 with a byte more", {b"04": (4, 5)}),
    shaped("takes an 04 with a byte less", {b"04": (3, 4)}),
    shaped("takes an 03 without a whole clock", {b"03": (3, 127)}),
    shaped("refuses an 03 without a seed", {b"03": (5, 127)}),
    shaped("refuses an 03 whose seed is not 64 bytes", {b"03": (68, 68)}),
    shaped("takes a frame 06", {b"06": (3, 127)}),
    shaped("takes a frame 00", {b"00": (3, 127)}),
    *(wrong(f"has no frame {first.decode()}", frame=pattern(without(first))) for first in FOLLOWING),
    wrong(
        "takes odd digits",
        is_frame=lambda call, line: Converter.is_frame(call, line) or Converter.is_frame(call, line[:-1] + b"00"),
    ),
    wrong("looks at the start of a line alone", is_frame=lambda call, line: bool(call.frame.match(line))),
    wrong("refuses a pool above 31", is_frame=lambda call, line: Converter.is_frame(call, line) and small_pool(line)),
    wrong(
        "takes what is no event as it is",
        is_frame=lambda call, line: line[:2] not in FOLLOWING or Converter.is_frame(call, line),
    ),
    wrong("passes empty lines", is_frame=lambda call, line: not line or Converter.is_frame(call, line)),
    wrong("passes lines that are no frames", is_frame=lambda call, line: True),
)


# ---- lines and their ends


def lines_with_cr(call):
    """CR LF ends a line as LF does."""
    return [(line.removesuffix(b"\r"), b"\r" * line.endswith(b"\r") + end) for line, end in Converter.lines(call)]


def lines_without_cr(call):
    return [(line.removesuffix(b"\r"), end) for line, end in Converter.lines(call)]


def lines_at_any_end(call):
    """A CR alone ends a line too."""
    lines = [(line.rstrip(b"\r\n"), line) for line in call.log.splitlines(keepends=True)]
    return [(line, whole.removeprefix(line)) for line, whole in lines]


def lines_without_last_end(call):
    lines = Converter.lines(call)
    return [*lines[:-1], *((line, b"") for line, _ in lines[-1:])]


WRONG_ENDS = (
    wrong("takes CR LF for an end", lines=lines_with_cr),
    wrong("drops a CR before an end", lines=lines_without_cr),
    wrong("takes a CR for an end", lines=lines_at_any_end),
    wrong("leaves empty lines out", lines=lambda call: [pair for pair in Converter.lines(call) if pair[0]]),
    wrong("leaves out a last line without LF", lines=lambda call: [pair for pair in Converter.lines(call) if pair[1]]),
    wrong("adds an LF to a last line", lines=lambda call: [(line, LF) for line, _ in Converter.lines(call)]),
    wrong("drops LFs", lines=lambda call: [(line, b"") for line, _ in Converter.lines(call)]),
    wrong("drops the last LF", lines=lines_without_last_end),
    wrong("ends lines with CR LF", lines=lambda call: [(line, end and b"\r\n") for line, end in Converter.lines(call)]),
    wrong(
        "sees an empty line behind the last LF",
        lines=lambda call: Converter.lines(call) + [(b"", b"")] * call.log.endswith(LF),
    ),
    wrong("sees an empty line in an empty log", lines=lambda call: Converter.lines(call) or [(b"", b"")]),
    wrong("converts the first line alone", lines=lambda call: Converter.lines(call)[:1]),
    wrong("stops after 255 lines", lines=lambda call: Converter.lines(call)[:255]),
)


# ---- what is turned away


def ordered(text, *order):
    """The numbers of a line looked for in another order, or without one of them."""

    def refusal(call, line, end, used):
        frame = call.is_frame(line)
        holds = {16: not frame, 43: large_by_text(call, line), 46: used + call.needed(line, end) > len(call.lent)}
        return next((number for number in order if holds[number]), 0)

    return wrong(text, refusal=refusal)


def large_by_text(call, line):
    """43 also of a line that is no frame, and has no number for a source."""
    return not call.wide and line[:2] == b"05" and line[2:4] not in (b"00", b"")


def above(limit):
    return lambda call, line: not call.wide and line.startswith(b"05") and int(line[2:6], 16) > limit


WRONG_REFUSALS = (
    wrong("has 43 from source 255 on", large=above(254)),
    wrong("has 43 from source 257 on", large=above(256)),
    wrong("has 43 from source 128 on", large=above(127)),
    wrong("has 43 from source 512 on", large=above(511)),
    wrong("has 43 for source 65,535 alone", large=above(65534)),
    wrong("has no 43", large=lambda call, line: False),
    wrong("has 43 for every frame 05", large=above(-1)),
    wrong("looks at the source's first digit alone", large=above(4095)),
    wrong(
        "looks at the source's second digit alone",
        large=lambda call, line: above(255)(call, line[:2] + b"0" + line[3:]),
    ),
    wrong("takes 256 and its multiples", large=lambda call, line: above(255)(call, line) and line[4:6] != b"00"),
    wrong(
        "has 43 where 05 is wanted too",
        large=lambda call, line: line.startswith(b"05") and int(line[2:6], 16) > 255,
    ),
    wrong(
        "takes an update's clock for a source",
        large=lambda call, line: not call.wide and line[:2] in (b"03", b"05") and line[2:4] != b"00",
    ),
    ordered("looks for 43 before 16", 43, 16, 46),
    ordered("looks for 46 before 43", 16, 46, 43),
    ordered("looks for 46 before 16", 46, 16, 43),
    ordered("looks for 46 first and 16 last", 46, 43, 16),
    ordered("has no 46", 16, 43),
)


# ---- room

WRONG_ROOM = (
    wrong("counts no end", needed=lambda call, line, end: len(call.converted(line))),
    wrong("counts an end of a last line without LF", needed=lambda call, line, end: len(call.converted(line)) + 1),
    wrong("counts the line as it was", needed=lambda call, line, end: len(line + end)),
    wrong("counts two bytes more for any line", needed=lambda call, line, end: len(line + end) + 2),
    wrong("leaves a byte of room", needed=lambda call, line, end: Converter.needed(call, line, end) + 1),
    wrong("asks for room for the longest line", needed=lambda call, line, end: 259),
    wrong("counts the room anew for each line", refusal=lambda call, *line: Converter.refusal(call, *line[:2], 0)),
)


# ---- the answer


def retold(change):
    """What is told is not what was found; change gets the right answer and the call."""
    return lambda call: change(Converter.answer(call), call)


def put(buffer, place, text):
    """The buffer with as much of a text at a place as there is room for."""
    text = text[: max(len(buffer) - place, 0)]
    return buffer[:place] + text + buffer[place + len(text) :]


def refused_line(found, call):
    """The refused line and its end as it would be written; nothing where none was refused."""
    return b"".join(call.lines()[found.line - 1]) if found.number else b""


def partial_line(counted):
    """At 46 as much of the line as there is room for is written."""

    def change(found, call):
        if found.number != 46:
            return found
        line, end = call.lines()[found.line - 1]
        buffer = put(found.buffer, found.written, call.converted(line) + end)
        return found._replace(buffer=buffer, written=len(buffer) if counted else found.written)

    return retold(change)


def with_refused(*numbers):
    """The refused line is written as it is."""

    def change(found, call):
        text = refused_line(found, call) if found.number in numbers else b""
        buffer = put(found.buffer, found.written, text)
        return found._replace(buffer=buffer, written=min(found.written + len(text), len(buffer)))

    return retold(change)


def goes_on(call):
    """Refused lines are left out, and the others behind them are converted; the first number is told."""
    first, front = Converter.answer(call), b""
    for line, end in call.lines():
        if not call.refusal(line, end, len(front)):
            front += call.converted(line) + end
    return first._replace(written=len(front), buffer=front + call.lent[len(front) :])


def passes_over(call):
    """As goes_on, and nothing is told."""
    return goes_on(call)._replace(number=0, line=0)


def last_refused(call):
    """All lines are looked at before any is written, and the last refused one is told."""
    found = Converter.answer(call)
    numbers = [(call.refusal(line, end, 0), place) for place, (line, end) in enumerate(call.lines(), 1)]
    told = [pair for pair in numbers if pair[0]]
    return found._replace(number=told[-1][0], line=told[-1][1]) if found.number and told else found


def nothing_written(found, call):
    return Answer(found.number, found.line, 0, call.lent) if found.number else found


def written_told(change):
    return retold(lambda found, call: found._replace(written=min(change(found, call), len(found.buffer))))


def filled(byte):
    """The rest of the buffer is filled."""
    return retold(lambda found, call: found._replace(buffer=found.buffer[: found.written].ljust(len(call.lent), byte)))


def zero_behind(found):
    return put(found.buffer, found.written, b"\0")


def size(call):
    return len(call.lines())


def line_told(change):
    return retold(lambda found, call: found._replace(line=change(found, call)))


def taken(found, call):
    """How many bytes of the log were converted."""
    lines = call.lines()[: found.line - 1] if found.number else call.lines()
    return sum(len(line + end) for line, end in lines)


def renumbered(number, other):
    return wrong(
        f"gives {other} for {number}",
        answer=retold(lambda found, call: found._replace(number=other) if found.number == number else found),
    )


WRONG_ANSWERS = (
    wrong("counts lines from 0", answer=line_told(lambda found, call: max(found.line - 1, 0))),
    wrong("counts lines from 2", answer=line_told(lambda found, call: found.line + (found.number > 0))),
    wrong("tells line 0 always", answer=line_told(lambda found, call: 0)),
    wrong("tells line 1 always", answer=line_told(lambda found, call: int(found.number > 0))),
    wrong("tells how many lines there are where none is refused", answer=line_told(lambda f, c: f.line or size(c))),
    wrong("tells how many lines there are where one is refused", answer=line_told(lambda f, c: f.number and size(c))),
    wrong("tells a place in the log for a line", answer=line_told(lambda f, c: f.number and taken(f, c))),
    wrong("writes a part of the line at 46, and does not count it", answer=partial_line(False)),
    wrong("writes a part of the line at 46", answer=partial_line(True)),
    wrong("writes the line that 16 refuses", answer=with_refused(16)),
    wrong("writes the line that 43 refuses", answer=with_refused(43)),
    wrong("writes lines before a refused one nowhere", answer=retold(nothing_written)),
    wrong("counts nothing where a line is refused", answer=written_told(lambda f, c: 0 if f.number else f.written)),
    wrong("goes on after a refused line", answer=goes_on),
    wrong("passes over refused lines", answer=passes_over),
    wrong("tells the last refused line", answer=last_refused),
    wrong("counts the log's bytes for those written", answer=written_told(taken)),
    wrong("counts the whole log for what was written", answer=written_told(lambda found, call: len(call.log))),
    wrong("counts the whole buffer for what was written", answer=written_told(lambda found, call: len(call.lent))),
    wrong("counts no ends", answer=written_told(lambda f, c: f.written - f.buffer[: f.written].count(LF))),
    wrong("counts in one byte", answer=written_told(lambda found, call: found.written % 256)),
    wrong("empties the rest of the buffer", answer=filled(b"\0")),
    wrong("fills the rest of the buffer with LFs", answer=filled(LF)),
    wrong("writes a 0 behind the last line", answer=retold(lambda f, c: f._replace(buffer=zero_behind(f)))),
    *(renumbered(number, other) for number in (16, 43, 46) for other in (0, 16, 43, 46) if number != other),
)

WRONG = (*WRONG_LINES, *WRONG_FRAMES, *WRONG_ENDS, *WRONG_REFUSALS, *WRONG_ROOM, *WRONG_ANSWERS)
