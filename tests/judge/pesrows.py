"""A PES packet for each rule that libzvbi has otherwise than SCOPE 6."""

from typing import NamedTuple

from cases.form import with_bytes
from field import line_number
from model import Refused, pes

FIRST, SECOND = pes.HEADER + 1, pes.HEADER + 1 + pes.UNIT    # the units' places
CHAIN = "what is left out here the reader behind it can't see; refused whole, it is told to the reader as one unreadable packet"


class Row(NamedTuple):
    rule: str           # of field.PES_RULES
    befalls: str        # what arrives
    why: str            # why our side is the safe one
    packet: bytes


def packet_of(*lines):
    records = b"".join(bytes([0x02, line]) + bytes([i] * 42) for i, line in enumerate(lines))
    return stamped(pes.write(0x10, records))


def stamped(packet):
    """With a time stamp of 0 in the optional fields, the shape that libzvbi waits for."""
    return packet[:7] + b"\x80" + packet[8:9] + b"\x21\x00\x01\x00\x01" + packet[14:]


GOOD = packet_of(0xE7, 0xE8, 0xE9)
PLAIN = with_bytes(GOOD, (7, 0x00))

ROWS = [
    Row("stamp", "no time stamp, as our writer writes it",
        "the optional fields aren't read, so nothing is lost for want of them", PLAIN),
    Row("scrambled", "scrambling bits 01",
        "a scrambled packet is refused by its units, which don't fit then; one that fits is read", with_bytes(GOOD, (6, 0x94))),
    Row("identifier", "data_identifier 0x99",
        "it stands for other data (EN 301 775), which is none of ours", with_bytes(GOOD, (45, 0x99))),
    Row("order", "lines 9, 8, 7",
        "line order isn't judged; no line is lost without a word", packet_of(0xE9, 0xE8, 0xE7)),
    Row("overrun", "the last unit runs past the end", CHAIN, with_bytes(GOOD, (SECOND + pes.UNIT + 1, 0x2D))),
    Row("unknown", "the second unit has id 0x04", "the same", with_bytes(GOOD, (SECOND, 0x04))),
    Row("short", "the second unit's length is 0x2B", "the same", with_bytes(GOOD, (SECOND + 1, 0x2B))),
    Row("offset", "the second unit's line offset is 6", "the same", with_bytes(GOOD, (SECOND + 2, 0xE6))),
    Row("framing", "the second unit's framing byte is 27", "the same", with_bytes(GOOD, (SECOND + 3, 0x27))),
    Row("long", "the second unit's length is 0x5A: it swallows the third", "the same", with_bytes(GOOD, (SECOND + 1, 0x5A))),
]


def lines_in(records):
    """(line number, 42 bytes) of each 44-byte record."""
    return [(line_number(records[i + 1]), records[i + 2:i + pes.RECORD]) for i in range(0, len(records), pes.RECORD)]


def named(lines):
    return "lines " + ", ".join(str(line) for line, _ in lines) if lines else "nothing"


def ours_named(packet):
    try:
        return named(lines_in(pes.read(packet)))
    except Refused as refused:
        return f"refused, {refused.no}"
