"""Scripts of calls of CTR_DRBG (02, xi): words on a line, all on one state that is kept.

    new
    state KEY V COUNTER
    instantiate ENTROPY PERSONALIZATION
    reseed ENTROPY ADDITIONAL
    generate LENGTH ADDITIONAL

`new` and `state` set the state, to the one that is all 0 or to any; their answer is the state: Key, V and reseed
counter. The answer to a call is its number, for `generate` the bytes, and the state after the call. Bytes are
hexadecimal, or `-` for none; in a script also `BYTE*TIMES` for a byte so many times. Where a call gives more than 128
bytes, their SHA-256 stands for them. LENGTH and COUNTER are decimal. Lines are bytes without their LF;
tests/c_interface/ctr_drbg.c reads them too."""
import hashlib

from ctr_drbg import NEW, CtrDrbg, State

MOST_SHOWN = 128

# ---- lines


def digits(data):
    return data.hex().encode() or b"-"


def word(data):
    """The bytes; from three equal ones on, and none besides, the short form."""
    return b"%02x*%d" % (data[0], len(data)) if len(data) > 2 and len(set(data)) == 1 else digits(data)


def new():
    return b"new"


def state(kept):
    return b"state %s %s %d" % (word(kept.key), word(kept.v), kept.reseed_counter)


def instantiate(entropy, personalization=b""):
    return b"instantiate %s %s" % (word(entropy), word(personalization))


def reseed(entropy, additional=b""):
    return b"reseed %s %s" % (word(entropy), word(additional))


def generate(length, additional=b""):
    return b"generate %d %s" % (length, word(additional))


# ---- reading and answering them


def bytes_of(text):
    if text == b"-":
        return b""
    byte, star, times = text.partition(b"*")
    return bytes.fromhex(byte.decode()) * (int(times) if star else 1)


def call_of(line):
    """The name and the arguments of a call, as tests/independent/ctr_drbg.py takes them after the state."""
    name, first, second = line.split(b" ")
    return name.decode(), (int(first) if name == b"generate" else bytes_of(first)), bytes_of(second)


def state_of(line):
    """The state that a line sets; None where it is a call."""
    name, *rest = line.split(b" ")
    if name == b"new":
        return NEW
    return State(bytes_of(rest[0]), bytes_of(rest[1]), int(rest[2])) if name == b"state" else None


def shown(data):
    return digits(data) if len(data) <= MOST_SHOWN else b"sha256:" + hashlib.sha256(data).hexdigest().encode()


def fields(kept):
    return b"%s %s %d" % (digits(kept.key), digits(kept.v), kept.reseed_counter)


def told(name, found):
    """The answer to a call."""
    given = [shown(found.out)] if name == "generate" else []
    return b" ".join([b"%d" % found.number, *given, fields(found.next)])


def answers(script, version=CtrDrbg):
    """The answers to a script, a line each, by tests/independent/ctr_drbg.py or a wrong version of it."""
    drbg, kept = version(), NEW
    for line in script.splitlines():
        set_to = state_of(line)
        if set_to is None:
            name, *arguments = call_of(line)
            found = getattr(drbg, name)(kept, *arguments)
            kept = found.next
            yield told(name, found) + b"\n"
        else:
            kept = set_to
            yield fields(kept) + b"\n"
