"""Scripts of readings of pools' byte strings, a line each, with nothing kept from one to the next.

    entry PLACE STRING     one call
    places STRING          a call at every place from 0 to two past the end
    read STRING            a call at place 0, and then at each next place, up to the end or 44

STRING is in small hexadecimal, and `-` where it is empty. The answer to a call is the number, the source, 1 where an
event was found and else 0, the place, where the data start, and the next place. `places` gives them in turn, with `/`
between them. `read` gives each event, as its source, a colon and its data, and then the number and the place at which
it stopped. Lines are bytes without their LF; tests/c_interface/history.c reads them too."""
from history import Reader, read

PAST = 2  # places past the end that `places` tries


def coded(string):
    return string.hex().encode() or b"-"


def plain(word):
    return b"" if word == b"-" else bytes.fromhex(word.decode())


# ---- lines


def entry(place, string):
    return b"entry %d %s" % (place, coded(string))


def places(string):
    return b"places " + coded(string)


def whole(string):
    return b"read " + coded(string)


# ---- answers by tests/independent/history.py or a wrong version of it


def told(string, place, version):
    return b"%d %d %d %d %d %d" % version(string, place).answer()


def told_whole(string, version):
    events, number, place = read(string, version)
    return b" ".join([*(b"%d:%s" % (source, coded(data)) for source, data in events), b"%d %d" % (number, place)])


def answer(line, version=Reader):
    kind, *at, word = line.split(b" ")
    string = plain(word)
    if kind == b"read":
        return told_whole(string, version) + b"\n"
    asked = map(int, at) if at else range(len(string) + PAST + 1)
    return b"/".join(told(string, place, version) for place in asked) + b"\n"


def answers(script, version=Reader):
    """The answers to a script, a line each."""
    return (answer(line, version) for line in script.splitlines())
