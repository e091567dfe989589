"""A row of PES packets for unpes: each refusal, and bytes where no packet begins, between clean ones, and an end that is cut short."""

from model import pes

from .form import with_bytes
from .pes import packet_of, some_records, text_units


def stream_of(dice, size):
    clean = lambda: packet_of(dice, text_units(dice, dice.below(6)))
    one = pes.write(0x10, some_records(dice, 2))
    front = lambda length: pes.FRONT + length.to_bytes(2, "big")
    flipped = lambda at: with_bytes(one, (at, one[at] ^ 1 << dice.below(8)))
    hit = [
        with_bytes(one, (6, 0x80)), with_bytes(one, (8, 0x25)),                 # refused with 4
        with_bytes(one, (45, 0x20)),                                            # 5
        with_bytes(one, (93, 0xFF)), with_bytes(one, (138, 0xFF), (139, 43)),   # 6: overrun, one byte left
        with_bytes(one, (92, 0x04)),                                            # 7
        with_bytes(one, (47, 0x2B)),                                            # 8
        with_bytes(one, (48, 0x06)), with_bytes(one, (95, 0x27)),               # 9
        front(0), front(10) + dice.bytes(10),                                   # no packet begins: its length
        front(100) + one[6:106], front(65535) + dice.bytes(65535),
        flipped(0), flipped(1), flipped(2), flipped(3), flipped(4), flipped(5), # one bit of its first six bytes
        one[1:], pes.FRONT, pes.FRONT[:3], b"\x00" * 5, b"\x00" + pes.FRONT,   # bytes lost, and bytes too many
        with_bytes(one, (4, 0x01), (5, 0x6A)),                                  # a length that reaches into the next
    ]
    stream = b""
    for _ in range(size):
        for bytes_ in hit:
            stream += clean() + bytes_ + b"".join(clean() for _ in range(dice.below(3)))
    stream += pes.write(0x1F, some_records(dice, 1423)) + clean()
    return stream + clean()[:-1]
