"""Lines for the bench (01, Bench lines; 02, iii), without their LF, blank pages, and bytes that are the same on every
run."""
import hashlib

HEADER = 3  # bytes that a pool gains before an event's data: two of the source, one of the length
MOST_DATA = 32
PAGE_SIZE = 64  # of flash memory, for a seed


def line(frame):
    return frame.hex().upper().encode()


def reading(clock):
    """The clock's four bytes; it wraps at 2^32."""
    return (clock % 2**32).to_bytes(4, "big")


def event(source, pool, data):
    """Frame 01; it has one byte for the source, so above 255 frame 05."""
    return line(bytes([1, source, pool]) + data) if source < 256 else wide_event(source, pool, data)


def wide_event(source, pool, data):
    """Frame 05, which takes any source."""
    return line(b"\x05" + source.to_bytes(2, "big") + bytes([pool]) + data)


EVENTS = (event, wide_event)  # all ways to write an event


def request(clock, n):
    return line(b"\x02" + reading(clock) + n.to_bytes(2, "big"))


def update(clock, seed):
    return line(b"\x03" + reading(clock) + seed)


def write(clock):
    return line(b"\x04" + reading(clock))


def log_of(lines):
    """A log whose lines all end with LF."""
    return b"".join(line + b"\n" for line in lines)


def blank_page(byte):
    """A page that was never written (02, vii): FF or 00 was seen, and any byte counts."""
    return bytes([byte]) * PAGE_SIZE


def nearly_blank(byte, place):
    """The same but for one bit of the byte at this place."""
    page = bytearray(blank_page(byte))
    page[place] ^= 1 << place % 8
    return bytes(page)


class Noise:
    """SHA-256 of a title and a count: unlike the module `random`, the same under every version of Python."""

    def __init__(self, title):
        self.title = title.encode()
        self.count = 0

    def take(self, n):
        taken = b""
        while len(taken) < n:
            taken += hashlib.sha256(b"%s %d" % (self.title, self.count)).digest()
            self.count += 1
        return taken[:n]

    def below(self, n):
        return int.from_bytes(self.take(8), "big") % n

    def source(self):
        """Any source; two of three times one that frame 01 can carry."""
        return self.below(256 if self.below(3) else 65536)

    def event(self, pool, length):
        """An event of any source, by either frame where both can carry it."""
        return EVENTS[self.below(2)](self.source(), pool, self.take(length))

    def filling(self, size):
        """Events that bring an empty pool 0 to just this many bytes."""
        lines = []
        while size > HEADER + MOST_DATA:
            part = min(HEADER + MOST_DATA, size - HEADER - 1)  # what is left must be an event too, with a byte of data
            lines.append(self.event(0, part - HEADER))
            size -= part
        return lines + [self.event(0, size - HEADER)]
