"""Packets of the guide page: SCOPE 7 to 11."""

from typing import NamedTuple

from . import need
from .octet import UNDECODABLE, decode, images, mended

PACKET, DATA = 42, 40           # an address, then 40 bytes
CELL, CELLS = 3, 13             # starts stand at bytes 1 + 3p, p up to 12 (SCOPE 9.2)
NONE = 13                       # the pointer where no block starts
FILLER, START = 0x3, 0xC
MOST_ROWS = 25
USUAL_ROWS = 20                 # where no number is named (SCOPE 7.6)
LAST_Y = 25                     # Y above it are no concern of ours (SCOPE 8.4)
ROOM = 2112                     # what the reader must be lent (SCOPE 3.5)


class Setting(NamedTuple):
    magazine: int
    page: int
    stream: int
    application: int = 0        # only block reading uses it

    def streams(self):
        """As of a setting of two (both.Pair)."""
        return self.stream,

    def in_range(self):
        """Each number may be what SCOPE 8.1 says; none is ever below 0."""
        return (1 <= self.magazine <= 8 and self.page <= 255
                and self.stream <= 15 and self.application <= 31)


# --- records: 16 bits, low byte first, the part, whether it is joined, the block's raw bytes ---

HEAD = 4                        # the bytes before the raw ones
MOST_PART = 5                   # the part counts start and header bytes


def head_of(application, size):
    """The size stands above five bits of application (SCOPE 9.7)."""
    return application + 32 * size


def size_of(head):
    return head >> 5


def record_of(head, raw, part=0, joined=0):
    return head.to_bytes(2, "little") + bytes([part, joined]) + bytes(raw)


def head_in(record):
    return int.from_bytes(record[:2], "little")


def bare(record):
    """A record without what the reader says of its way."""
    return record_of(head_in(record), record[HEAD:])


def records_in(data):
    """The whole records of a list; 13 where it isn't one."""
    records, at = [], 0
    while at < len(data):
        need(len(data) - at >= HEAD, 13)
        end = at + HEAD + size_of(head_in(data[at:]))
        need(end <= len(data), 13)
        records.append(data[at:end])
        at = end
    return records


def nibbles_of(head):
    """Lowest nibble first."""
    return [head >> 4 * i & 15 for i in range(4)]


# --- the writer ----------------------------------------------------------------

def address(magazine, y):
    """The two bytes in front: magazine and Y (SCOPE 7.1)."""
    return images([magazine % 8 + 8 * (y % 2), y // 2])


def packet_0(setting, index, n):
    """A page's first packet, its control bits 0 and its characters blank (SCOPE 7.3 to 7.5)."""
    six = [setting.page % 16, setting.page // 16, index, n % 8, setting.stream, n // 8]
    return address(setting.magazine, 0) + images(six + [0, 0]) + b"\x20" * 32


def cells_of(record):
    """A block's bytes, filled up to whole cells, where the next may start (SCOPE 11.1). The part and the byte behind it aren't sent."""
    block = images([START] + nibbles_of(head_in(record))) + record[HEAD:]
    block += images([FILLER]) * (-len(block) % CELL)
    return [block[i:i + CELL] for i in range(0, len(block), CELL)]


def row(setting, y, cells):
    """A packet; its pointer is the cell of its first start, or 13 (SCOPE 11.5)."""
    pointer = next((p for p, (_, starts) in enumerate(cells) if starts), NONE)
    data = b"".join(cell for cell, _ in cells)
    return address(setting.magazine, y) + images([pointer]) + data


def cut(setting, first_index, k, records, room=2 ** 32):
    """The packets of a list of records, in pages of k packets (0: none named)."""
    k = k or USUAL_ROWS
    need(setting.in_range() and first_index <= 15 and 1 <= k <= MOST_ROWS, 16)
    cells = []                  # each with whether a block starts in it
    for record in records_in(records):
        cells += [(cell, i == 0) for i, cell in enumerate(cells_of(record))]
    cells += [(images([FILLER]) * CELL, False)] * (-len(cells) % (CELLS * k))
    rows = [cells[i:i + CELLS] for i in range(0, len(cells), CELLS)]
    packets = b""
    for i, cells_of_row in enumerate(rows):
        if i % k == 0:          # a new page, the index one up (SCOPE 11.4)
            packets += packet_0(setting, (first_index + i // k) % 16, k)
        packets += row(setting, 1 + i % k, cells_of_row)
    need(len(packets) <= room, 1)
    return packets


def spanning(records, packets):
    """Of each block that was cut into these packets whether its bytes, start and header among them, stand in more than one page."""
    page, pages = 0, []         # the page of each byte behind a pointer
    for at in range(0, len(packets), PACKET):
        if packets[at + 1:at + 2] == images([0]) and decode(packets[at]) < 8:
            page += 1
        else:
            pages += [page] * (DATA - 1)
    at = 0
    for record in records_in(records):
        yield pages[at] != pages[at + len(record)]      # start and header are a byte more than the record's head
        at += CELL * len(cells_of(record))


# --- the reader ----------------------------------------------------------------

class Block:
    """A block that has started: its header's nibbles, then its raw bytes; the part is how many of start and header were mended, the pages
    are those in which its bytes stand."""

    def __init__(self, start, page):
        self.nibbles, self.raw, self.part, self.pages = [], bytearray(), int(mended(start)), {page}

    def head(self):
        return sum(n << 4 * i for i, n in enumerate(self.nibbles))

    def finished(self):
        return len(self.nibbles) == 4 and len(self.raw) == size_of(self.head())

    def joined(self):
        return len(self.pages) > 1

    def take(self, byte, page):
        """False where the byte is of the header and can't be decoded (SCOPE 9.11)."""
        self.pages.add(page)
        if len(self.nibbles) == 4:
            self.raw.append(byte)
            return True
        self.nibbles.append(decode(byte))
        self.part += mended(byte)
        return self.nibbles[-1] != UNDECODABLE


class Page(NamedTuple):
    """Our open page: the count of packets that follow, the last Y, and its number among those that were met."""
    n: int
    last: int
    met: int


class Heard(NamedTuple):
    records: bytes
    blocks: int
    dropped: bool


class Rows:
    """What a packet Y of the open page does, `page`, to the block that runs there, `running` (SCOPE 8.11 to 9.11)."""

    def drop(self):
        if self.running:
            self.running, self.dropped = None, True

    def hand_out(self):
        """The running block goes out as a record (SCOPE 10.3)."""
        block, self.running = self.running, None
        self.finished.append(self.outgoing(record_of(block.head(), block.raw, block.part, block.joined())))

    def outgoing(self, record):
        return record

    def row(self, y, data):
        n, last = self.page.n, self.page.last
        if y != last + 1 or y > n:      # the wrong Y (SCOPE 8.11, 8.12)
            self.drop()
        if y <= n:                      # read all the same (SCOPE 8.12, 8.13)
            self.page = self.page._replace(last=y)
            self.data(data)

    def data(self, data):
        pointer = decode(data[0])
        if pointer > NONE:              # no pointer at all (SCOPE 9.4)
            self.drop()
            return
        pointed = 1 + CELL * pointer    # for 13 the packet's end
        if self.running:
            self.go_on(data, pointed, pointer == NONE)
        if pointer != NONE:
            self.starts(data, pointed)

    def go_on(self, data, pointed, none):
        """The running block, from byte 1 up to the pointed byte (SCOPE 9.5)."""
        at = self.fill(data, 1, pointed)
        if self.running is None:        # its header was broken (SCOPE 9.11)
            return
        # complete by the pointed byte, and only filler behind it
        filler = all(decode(byte) == FILLER for byte in data[at:pointed])
        if self.running.finished() and (filler or none):
            self.hand_out()             # under 13 nothing behind it is read (SCOPE 9.3)
        elif not none:
            self.drop()

    def starts(self, data, at):
        while True:
            # Filler is passed over (SCOPE 9.9).
            while at < DATA and decode(data[at]) == FILLER:
                at += 1
            # The packet ends, or something else than a start comes (SCOPE 9.10).
            if at == DATA or decode(data[at]) != START:
                return
            self.running = Block(data[at], self.page.met)
            at = self.fill(data, at + 1, DATA)
            # Its header is broken (SCOPE 9.11), or it goes on in the next packet.
            if self.running is None or not self.running.finished():
                return
            self.hand_out()

    def fill(self, data, at, end):
        """The running block takes what it needs; the place after it."""
        while at < end and not self.running.finished():
            if not self.running.take(data[at], self.page.met):
                self.drop()
                return at
            at += 1
        return at


class Reader(Rows):
    """The state, fresh at first: no page, no running block."""

    def __init__(self, setting):
        self.setting, self.page, self.index, self.running, self.met = setting, None, 15, None, 0

    def feed(self, packet, room=ROOM):
        need(self.setting.in_range() and len(packet) == PACKET, 16)
        need(room >= ROOM, 1)
        self.finished, self.dropped = [], False
        self.packet(packet[:2], packet[2:])
        return Heard(b"".join(self.finished), len(self.finished), self.dropped)

    def open(self, n):
        """A page of ours begins."""
        self.met += 1
        self.page = Page(n, 0, self.met)

    def packet(self, address, data):
        one, two = (decode(byte) for byte in address)
        if UNDECODABLE in (one, two):
            self.unreadable()
            return
        magazine, y = one % 8 or 8, one // 8 + 2 * two
        if magazine != self.setting.magazine or y > LAST_Y:
            return                      # it isn't for us (SCOPE 8.3, 8.4)
        if y == 0:
            self.packet_0(data)
        elif self.page:                 # where it is shut, SCOPE 8.10
            self.row(y, data)

    def unreadable(self):
        """A packet whose address says nothing (SCOPE 8.2)."""
        self.drop()
        self.page = None

    def packet_0(self, data):
        # Packets of our page are missing (SCOPE 8.5).
        if self.page and self.page.last < self.page.n:
            self.drop()
        self.page = None
        # A header that can't be read (SCOPE 8.6).
        six = [decode(byte) for byte in data[:6]]
        if UNDECODABLE in six:
            self.drop()
            return
        units, tens, s1, s2, s3, s4 = six
        if (units + 16 * tens, s3) != (self.setting.page, self.setting.stream):
            return
        # A page too long, or pages missing (SCOPE 8.7, 8.8).
        n = s2 % 8 + 8 * (s4 % 4)       # C4, C5 and C6 are left out (SCOPE 7.4)
        if n > MOST_ROWS or s1 != (self.index + 1) % 16:
            self.drop()
        self.index = s1                 # whatever n is (SCOPE 8.8)
        if n <= MOST_ROWS:
            self.open(n)


def read_all(setting, packets):
    """Every record that a fresh reader hands out for packets in a row."""
    reader = Reader(setting)
    whole = len(packets) - len(packets) % PACKET
    return [record for at in range(0, whole, PACKET)
            for record in records_in(reader.feed(packets[at:at + PACKET]).records)]
