#!/usr/bin/env python3
"""usage: logbook [--edition YEAR] [--header BYTES] [--blank taken|refused] [FILE]
       logbook --behind N | --behind-key HEX | --strings N [--edition ..] [--header ..] [--blank ..] [FILE]
       logbook --compare ANSWERS [FILE]

Works the answers to a log out again, keys included, from the calls in the log alone, and prints them as bin/bench does.
It shares no code with the bench: it is the plain logbook, written in Python. The log is FILE, or standard input where
no FILE is given.

  --edition YEAR       the edition of the Fortuna book that the station went by: 2010, which is taken without this
                       option, or 2003, for stations from before: their D had no 64 zero bytes in front
  --header BYTES       the bytes of the source in an event's header: 2, or with --edition 2003 also 1, for stations from
                       before frame 05
  --blank taken        for stations of edition 2010 from before refusal 36, which took an update from a blank seed: 64
                       equal bytes, as a page of flash memory that was never written. Without this option it is refused,
                       and taken with --edition 2003, whose stations all took it
  --compare ANSWERS    tells which of the four kinds a station was: 2010, 2010 with blank seeds taken, 2003, 2003 with
                       header 1. ANSWERS is the file of what it answered to the log. Prints for each kind the first line
                       that differs, if any
  --help               prints this

With one of these it prints, in place of the answers, what has entered a key: events, or the pools' strings. Seeds,
which updates bring, are not among them.

  --behind N           the events that pool reseeds 1 to N have used, in the order of reseed, pool, and order in the
                       pool, each as `line 3: reseed 1, pool 0, order 1, source 7, data A1B2`: line 3 of the log
  --behind-key HEX     the first line whose answer holds these bytes, and the events that had entered the key by then:
                       `line 12 draws it, after pool reseed 3` and what --behind 3 prints
  --strings N          the pools' byte strings that pool reseeds 1 to N have used, each as
                       `reseed 1, pool 0: 070002A1B2`, with nothing behind the colon where a pool was empty. bin/events
                       reads them back into events, by the proved library. Those of --header 1 are marked `header 1`
                       behind the pool, and bin/events refuses them

Exit status: 0 every line was answered, what is behind a key was found, or exactly one edition gives ANSWERS; 1 none
does, or both, as for a log that draws no byte; 1 also where the log makes fewer than N pool reseeds, or no answer holds
the bytes; 2 bad arguments, a file can't be read, or the answers can't be written.
"""
import re
import signal
import sys
from argparse import ArgumentTypeError
from collections import namedtuple
from functools import partial
from itertools import zip_longest

import behind
from arguments import Parser
from logbook import Logbook, answer, answers, lines

MOST_ANSWER = 2**18  # characters, more than an answer has: one of 65,535 bytes takes 131,076
MOST_SHOWN = 16


class BlankLogbook(Logbook):
    """From before 02 (vii): an update takes a blank seed."""

    takes_blank = True


class Logbook2003(BlankLogbook):
    """From before 02 (v): D is SHA-256 twice, with nothing in front."""

    front = b""


class OneByteLogbook(Logbook2003):
    """From before 02 (iii): a source has one byte, in the header too, and there is no frame 05."""

    source_bytes = 1


Kind = namedtuple("Kind", "edition header blank")
# All that ever ran.
KINDS = {
    Kind("2010", "2", "refused"): Logbook,
    Kind("2010", "2", "taken"): BlankLogbook,
    Kind("2003", "2", "taken"): Logbook2003,
    Kind("2003", "1", "taken"): OneByteLogbook,
}
SEEDS = {"2010": "refused", "2003": "taken"}  # what became of blank ones, where nothing else is said


def title(kind):
    header = "" if kind.header == "2" else f", header {kind.header}"
    seeds = "" if kind.blank == SEEDS[kind.edition] else f", blank {kind.blank}"
    return f"edition {kind.edition}{header}{seeds}"


def shown(reply):
    """The start of an answer. A character that can't be seen, as a carriage return, is seen by its escape."""
    return ascii(reply[:MOST_SHOWN].decode("latin-1")) + (".." if len(reply) > MOST_SHOWN else "")


def difference(book, line, expected):
    """What a kind's answer to a line has against the stored one; nothing where they are equal."""
    if line is None:
        return ", which the log does not have"
    if expected is None:
        return ", which ANSWERS does not have"
    worked_out, expected = answer(book, line), expected.removesuffix(b"\n")
    return "" if worked_out == expected else f": {shown(worked_out)} was worked out, {shown(expected)} found"


def differences(log, stored):
    """For each kind the first line, from 1, whose answer is not the stored one, with the difference; and the number of lines
    that were compared. A kind that never differs is left out."""
    books = {kind: make() for kind, make in KINDS.items()}
    found, count = {}, 0
    for count, (line, expected) in enumerate(zip_longest(lines(log), stored), 1):
        for kind in [kind for kind in books if kind not in found]:
            if text := difference(books[kind], line, expected):
                found[kind] = f"first difference at line {count}{text}"
        if len(found) == len(books):
            break
    return found, count


def conclusion(agreeing):
    """What is said last of the kinds that give the answers; nothing where that is one."""
    editions = {kind.edition for kind in agreeing}
    if not editions:
        return "no edition gives these answers"
    if len(editions) > 1:
        return "both editions give these answers: no byte was drawn that tells them apart"
    if len(agreeing) == 1:
        return ""
    if editions == {"2003"}:
        return "edition 2003, with either header: no event has entered a key that was drawn from"
    return "edition 2010, blank seeds refused or taken: the log has no update of 64 equal bytes"


def compare(log, stored):
    """Prints what --compare tells, and gives the exit status."""
    found, count = differences(log, iter(partial(stored.readline, MOST_ANSWER), b""))
    for kind in KINDS:
        print(f"{title(kind)}: {found.get(kind, f'all {count} lines agree')}")
    agreeing = [kind for kind in KINDS if kind not in found]
    if last := conclusion(agreeing):
        print(last)
    return 0 if len({kind.edition for kind in agreeing}) == 1 else 1


def reseed_number(text):
    if not re.fullmatch("[0-9]{1,18}", text):
        raise ArgumentTypeError(f"'{text}' is no number of pool reseeds")
    return int(text)


def whole_bytes(text):
    if not re.fullmatch("([0-9A-Fa-f]{2})+", text):
        raise ArgumentTypeError(f"'{text}' is no row of bytes, with two hexadecimal digits each")
    return bytes.fromhex(text)


# What is printed in place of the answers, by the option that asks for it, whose argument it takes.
BEHIND = {"behind": behind.behind, "behind_key": behind.behind_key, "strings": behind.strings}


def parsed(parser):
    parser.add_argument("--edition", choices=("2010", "2003"))
    parser.add_argument("--header", choices=("2", "1"))
    parser.add_argument("--blank", choices=("taken", "refused"))
    instead = parser.add_mutually_exclusive_group()
    instead.add_argument("--compare", metavar="ANSWERS")
    instead.add_argument("--behind", metavar="N", type=reseed_number)
    instead.add_argument("--behind-key", metavar="HEX", type=whole_bytes)
    instead.add_argument("--strings", metavar="N", type=reseed_number)
    parser.add_argument("file", nargs="?")
    chosen = parser.parse_args()
    if chosen.compare is not None and (chosen.edition or chosen.header or chosen.blank):
        parser.error("--compare tries every kind of station, and goes with none of --edition, --header and --blank")
    if chosen.header == "1" and chosen.edition != "2003":
        parser.error("--header 1 goes with --edition 2003: no station had it with another edition")
    if chosen.blank == "refused" and chosen.edition == "2003":
        parser.error("--blank refused goes with --edition 2010: stations of edition 2003 took a blank seed")
    return chosen


def chosen_kind(chosen):
    edition = chosen.edition or "2010"
    return Kind(edition, chosen.header or "2", chosen.blank or SEEDS[edition])


def texts(log, book, chosen):
    """What the chosen option prints, a line each."""
    for option, tell in BEHIND.items():
        if (asked := getattr(chosen, option)) is not None:
            return (text.encode() + b"\n" for text in tell(log, book, asked))
    return answers(log, book)


def work(parser, chosen):
    """The exit status."""
    with parser.opened_or_standard_input(chosen.file) as log:
        if chosen.compare is not None:
            with parser.opened(chosen.compare) as stored:
                return compare(log, stored)
        try:
            sys.stdout.buffer.writelines(texts(log, KINDS[chosen_kind(chosen)](), chosen))
        except behind.NotThere as why:
            parser.say(why)
            return 1
    return 0


def main():
    signal.signal(signal.SIGPIPE, signal.SIG_DFL)  # ends without a word where nobody reads on, as in logbook LOG | head
    parser = Parser("logbook", __doc__)
    return parser.status_of(lambda: work(parser, parsed(parser)))


if __name__ == "__main__":
    sys.exit(main())
