"""Scripts of conversions of call logs, a call on each line, with nothing kept from one to the next.

    convert KIND ROOM LOG

KIND is 05 or 01, the event frame that is wanted, and ROOM the bytes of the lent buffer. In LOG each line feed is `/`,
each byte that is neither a letter nor a digit is `%` with two digits, and `-` is an empty log. An answer is the number,
the refused line, how many bytes were written, those bytes as in LOG, and `kept` where the rest of the buffer is as it
was, else `changed`. Lines are bytes without their LF; tests/c_interface/convert.c reads them too."""
import re

from convert import Converter

KINDS = (b"05", b"01")
PLAIN = re.compile(rb"[^0-9A-Za-z\n]")
CODED = re.compile(rb"%(..)")


def coded(text):
    return PLAIN.sub(lambda found: b"%%%02x" % found[0][0], text).replace(b"\n", b"/") or b"-"


def plain(word):
    if word == b"-":
        return b""
    return CODED.sub(lambda found: bytes([int(found[1], 16)]), word.replace(b"/", b"\n"))


def convert(wide, room, log):
    """A line."""
    return b"convert %s %d %s" % (KINDS[not wide], room, coded(log))


def lent(room):
    """The buffer before a call: no byte of it comes in a frame, and the next one is another."""
    return bytes(128 + place % 101 for place in range(room))


def call_of(line):
    """The log, whether 05 is wanted, and the lent buffer."""
    _, kind, room, log = line.split(b" ")
    return plain(log), kind == KINDS[0], lent(int(room))


def answer(line, version=Converter):
    """The answer to a line by tests/independent/convert.py or a wrong version of it."""
    log, wide, before = call_of(line)
    found = version(log, wide, before).answer()
    front, rest = found.buffer[: found.written], found.buffer[found.written :]
    kept = b"kept" if rest == before[found.written :] else b"changed"
    return b"%d %d %d %s %s\n" % (found.number, found.line, found.written, coded(front), kept)


def answers(script, version=Converter):
    """The answers to a script, a line each."""
    return (answer(line, version) for line in script.splitlines())
