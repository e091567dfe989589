"""What the desk sees of a capture besides its tables: SCOPE 13.9 and 13.10."""

from .both import Pair, ReaderOfTwo
from .guide import PACKET, Reader
from .octet import UNDECODABLE, decode, turned
from .streams import whole_packets

PIECE = 1560 * PACKET   # a capture is looked at in pieces of so many bytes
MOST_PAGES = 10


def address_of(packet):
    """Magazine and Y; nothing where a byte of the two can't be decoded."""
    one, two = decode(packet[0]), decode(packet[1])
    if UNDECODABLE in (one, two):
        return None
    return one % 8 or 8, one // 8 + 2 * two


# --- the counts -----------------------------------------------------------------

class Watcher(Reader):
    """A reader that counts what is fed to it."""

    def __init__(self, setting):
        super().__init__(setting)
        self.ours = self.lost = 0

    def unreadable(self):
        self.lost += 1
        super().unreadable()

    def packet_0(self, data):
        six = [decode(byte) for byte in data[:6]]
        if UNDECODABLE in six:
            self.lost += 1
        elif (six[0] + 16 * six[1], six[4]) == (self.setting.page, self.setting.stream):
            self.ours += 1
        super().packet_0(data)

    def row(self, y, data):
        self.ours += y <= self.page.n
        super().row(y, data)


class WatcherOfTwo(ReaderOfTwo):
    """The same of two streams: the packets of either are ours."""

    def __init__(self, setting):
        super().__init__(setting)
        self.ours = self.lost = 0

    def unreadable(self):               # address or one of the six
        self.lost += 1
        super().unreadable()

    def packet_0(self, six):
        self.ours += is_named(six, self.setting)
        super().packet_0(six)

    def row(self, y, data):
        self.ours += y <= self.page.n
        super().row(y, data)


def counts(data, setting):
    """The line that -v adds. A packet with which blocks of both streams were dropped counts once."""
    watcher, packets = (WatcherOfTwo if isinstance(setting, Pair) else Watcher)(setting), whole_packets(data)
    dropped = sum(watcher.feed(packet).dropped for packet in packets)
    return f"packets={len(packets)} ours={watcher.ours} unreadable={watcher.lost} dropped={dropped}\n"


# --- what a capture that gave nothing may be ----------------------------------------

def is_named(six, setting):
    """The six nibbles of a packet 0 of our magazine name our page, and our stream or one of our two."""
    return UNDECODABLE not in six and six[0] + 16 * six[1] == setting.page and six[4] in setting.streams()


def is_ours(packet, setting):
    """A packet 0 of our page and of a stream of ours, all of it."""
    if len(packet) < PACKET or address_of(packet) != (setting.magazine, 0):
        return False
    return is_named([decode(byte) for byte in packet[2:8]], setting)


def told(magazine, page, stream):
    return f"{magazine}{page:02x}/{stream}"


def page_of(packet):
    """Magazine, page and stream of a packet 0, of any page, as they are told."""
    address = address_of(packet)
    units, tens, stream = decode(packet[2]), decode(packet[3]), decode(packet[6])
    if address is None or address[1] != 0 or UNDECODABLE in (units, tens, stream):
        return None
    return told(address[0], 16 * tens + units, stream)


def place(data, setting):
    """From which byte of 42 on packets of ours would stand; nothing where none would."""
    for start in range(0, len(data), PIECE):
        piece = data[start:start + PIECE]
        for at in range(len(piece)):
            if is_ours(piece[at:at + PACKET], setting):
                return at % PACKET
    return None


def lack(data, setting):
    """What follows the name on the line that no packet 0 of our page came; nothing where there is no such line."""
    packets = whole_packets(data)
    if not data or any(is_ours(packet, setting) for packet in packets):
        return ""
    streams = " or ".join(map(str, setting.streams()))      # in the order of the words
    return (f": no packet 0 of magazine {setting.magazine}, page {setting.page:02x}, stream {streams} came"
            + "".join("; " + guess for guess in guesses(data, packets, setting)))


def guesses(data, packets, setting):
    if data[:4] == b"\x00\x00\x01\xBD":
        return ["it begins with 00 00 01 BD and may be a PES file: unpes reads those"]
    plain = place(data, setting)
    if plain is not None:
        return [f"its packets may be out of step: they fit from byte {plain} on"]
    about = place(turned(data), setting)
    if about is not None:
        return ["its bits may be turned about: turned bytes fit" + (f" from byte {about} on" if about else "")]
    own = [told(setting.magazine, setting.page, stream) for stream in setting.streams()]
    seen = list(dict.fromkeys(page for page in map(page_of, packets) if page not in (None, *own)))[:MOST_PAGES]
    found = ["it may be another magazine, page or stream: seen " + " ".join(seen) if seen else "nor did one of another page"]
    return found + (["its packets may be out of step: its length isn't a multiple of 42"] if len(data) % PACKET else [])
