"""try_guide: the reader's cases, those of the reader of two streams, the writer's, and those of two aerials."""

from model import both, guide, need
from model.both import Pair
from model.guide import Setting
from model.listing import DESK

from . import aerials
from . import both as hearing_both
from . import reader as hearing
from . import writer
from .form import Script, line


class Readers:
    """Ops 20 and 24: a fresh reader, kept for the ops 21 that follow, and one of two streams for the ops 25. Before the first, those are 16."""

    def __init__(self):
        self.one = self.two = None

    def fresh(self, payload, room):
        self.one = guide.Reader(Setting(*payload[:4]))
        return line(lambda: b"")

    def fresh_of_two(self, payload, room):
        self.two = both.ReaderOfTwo(Pair(*payload[:5]))
        return line(lambda: b"")

    def feed(self, payload, room):
        return heard_line(self.one, payload, room)

    def feed_of_two(self, payload, room):
        return heard_line(self.two, payload, room)


def heard_line(reader, payload, room):
    heard = guide.Heard(b"", 0, False)

    def call():
        nonlocal heard
        need(reader, 16)
        heard = reader.feed(payload, room)
        return heard.records
    answer = line(call)
    return answer + f" blocks={heard.blocks} dropped={'yes' if heard.dropped else 'no'}"


def apart_cases(script, dice):
    """The two readers are kept apart, and neither is there before its first fresh one."""
    duet = hearing_both.Duet(dice)
    first, second = duet.airs
    blocks = [air.block(44) for air in duet.airs]

    def feed(op, *packets, room=both.ROOM):
        for packet in packets:
            script.case(op, room, packet)

    for op in (21, 25):
        feed(op, first.header(0, 1)), feed(op, b"", room=0)
    script.case(24, 0, bytes(duet.pair))
    feed(21, first.header(0, 1)), feed(25, first.header(0, 1), first.row(1, 0, blocks[0]), second.header(0, 1), second.row(1, 0, blocks[1]))
    script.case(20, 0, bytes(second.setting))
    feed(21, second.header(0, 1), second.row(1, 0, blocks[1]), second.header(1, 1), room=guide.ROOM)
    feed(25, first.header(1, 1), first.row(1, 13, blocks[0][39:]))
    feed(21, second.row(1, 13, blocks[1][39:]), room=guide.ROOM)
    script.case(24, 0, bytes(duet.pair))                # a fresh one holds nothing
    feed(25, second.header(1, 1), second.row(1, 13, blocks[1][39:]))


def script_of(dice, size):
    readers = Readers()
    script = Script({
        20: (4, readers.fresh),
        21: (0, readers.feed),
        24: (5, readers.fresh_of_two),
        25: (0, readers.feed_of_two),
        22: (5, lambda payload, room: line(writer.cut_call, payload, room)),
        aerials.OP: (0, aerials.call),
    })
    apart_cases(script, dice)
    hearing.all_cases(script, dice, size)
    hearing_both.all_cases(script, dice, size)
    writer.all_cases(script, dice, size)
    aerials.all_cases(script, dice, size)
    for op in (0, 19, 26, 30, 255):
        script.case(op, 3000, bytes(42))
    for payload in (b"", b"\x01", b"\x01\x00\x00"):
        script.case(20, 0, payload)
    for payload in (b"", b"\x01\x00\x00\x01", b"\x01\x00\x00\x01\x00\x00"):
        script.case(24, 0, payload)
    for payload in (b"", b"\x01\xdf\x01\x00"):
        script.case(22, 3000, payload)
    script.case(20, 0, bytes(DESK) + b"\xff")           # a byte more than the setting's four
    packets = guide.cut(DESK, 0, 1, guide.record_of(guide.head_of(1, 3), b"\x01\x02\x03"))
    for at in range(0, len(packets), guide.PACKET):
        script.case(21, guide.ROOM, packets[at:at + guide.PACKET])
    script.cut_short(b"\x15\x40\x08\x00\x00\x2a\x00\x00\x00" + bytes(41))
    return script
