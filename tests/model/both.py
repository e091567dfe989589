"""The reader of two streams on one page number: one record of the open page, and for each stream an index and a running block."""

from typing import NamedTuple

from . import need
from .guide import HEAD, LAST_Y, MOST_ROWS, PACKET, Heard, Rows, Setting, head_in, size_of
from .octet import UNDECODABLE, decode

ROOM = 2176                     # what it must be lent
BOTH = (0, 1)                   # whose: the first stream's or the second's, by the setting's order


class Pair(NamedTuple):
    magazine: int
    page: int
    first: int
    second: int
    application: int = 0

    def streams(self):
        return self.first, self.second

    def of(self, whose):
        """The setting of one stream."""
        return Setting(self.magazine, self.page, self.streams()[whose], self.application)

    def in_range(self):
        return all(self.of(whose).in_range() for whose in BOTH) and self.first != self.second


class Page(NamedTuple):
    """The open page: whose it is, the count of packets that follow, the last Y, and its number among those that were met."""
    whose: int
    n: int
    last: int
    met: int


class ReaderOfTwo(Rows):
    """The state, fresh at first: no page, no running block."""

    def __init__(self, setting):
        self.setting, self.page, self.met = setting, None, 0
        self.indices, self.blocks = [15, 15], [None, None]

    @property
    def running(self):
        """The block of the stream whose page is open: a packet Y is read for that one, and can drop no other."""
        return self.blocks[self.page.whose]

    @running.setter
    def running(self, block):
        self.blocks[self.page.whose] = block

    def outgoing(self, record):
        """Each record stands behind its stream's number."""
        return bytes([self.setting.streams()[self.page.whose]]) + record

    def feed(self, packet, room=ROOM):
        need(self.setting.in_range() and len(packet) == PACKET, 16)
        need(room >= ROOM, 1)
        self.finished, self.dropped = [], False
        self.packet(packet[:2], packet[2:])
        return Heard(b"".join(self.finished), len(self.finished), self.dropped)

    def drop_of(self, whose):
        if self.blocks[whose]:
            self.blocks[whose], self.dropped = None, True

    def unreadable(self):
        """It may have been either's: both blocks are dropped, and the page is shut."""
        for whose in BOTH:
            self.drop_of(whose)
        self.page = None

    def packet(self, address, data):
        one, two = (decode(byte) for byte in address)
        if UNDECODABLE in (one, two):
            self.unreadable()
            return
        magazine, y = one % 8 or 8, one // 8 + 2 * two
        if magazine != self.setting.magazine or y > LAST_Y:
            return
        if y == 0:
            self.packet_0([decode(byte) for byte in data[:6]])
        elif self.page:
            self.row(y, data)

    def packet_0(self, six):
        """A packet 0 of our magazine, its six nibbles from the page's units to S4."""
        if UNDECODABLE in six:
            self.unreadable()
            return
        units, tens, index, s2, stream, s4 = six
        # A short page drops its own stream's block, whatever page this packet begins.
        if self.page and self.page.last < self.page.n:
            self.drop_of(self.page.whose)
        self.page = None
        if units + 16 * tens != self.setting.page or stream not in self.setting.streams():
            return
        # From here on it is one of the two, and nothing of the other changes.
        whose = self.setting.streams().index(stream)
        n = s2 % 8 + 8 * (s4 % 4)
        if n > MOST_ROWS or index != (self.indices[whose] + 1) % 16:
            self.drop_of(whose)
        self.indices[whose] = index
        if n <= MOST_ROWS:
            self.met += 1
            self.page = Page(whose, n, 0, self.met)


def records_of_two(data):
    """What a reader of two hands out, as streams and records."""
    came, at = [], 0
    while at < len(data):
        end = at + 1 + HEAD + size_of(head_in(data[at + 1:]))
        came.append((data[at], data[at + 1:end]))
        at = end
    return came
