"""PES packets both ways: every refusal with several offsets, and their order."""

from model import pes

from .form import Script, line, room_tried, with_bytes


def some_records(dice, count):
    return b"".join(bytes([dice.pick(pes.TEXT), some_line(dice)]) + dice.bytes(42) for _ in range(count))


def some_line(dice):
    return dice.below(8) << 5 | dice.pick([0] + list(range(0x07, 0x17)))


def packet_of(dice, units, n=None):
    """A PES packet of any units, its optional fields anything, stuffed to its end."""
    body = b"".join(units)
    if n is None:
        n = (46 + len(body) + 183) // 184
        n += (46 + len(body)) % 184 == 183      # a single byte can't be stuffed
    left = n * 184 - 46 - len(body)
    while left >= 2:
        length = min(left - 2, dice.pick([0, 1, 2, 7, 43, 44, 45, 46, 91, 255]))
        if left - 2 - length == 1:              # no byte is to be left over
            length += 1 if length < 255 else -1
        body += bytes([0xFF, length]) + dice.bytes(length)
        left -= 2 + length
    flags = 0x84 | dice.below(256) & 0x3B
    header = pes.FRONT + (n * 184 - 6).to_bytes(2, "big") + bytes([flags, dice.below(256), 0x24])
    return header + dice.bytes(36) + bytes([dice.between(0x10, 0x1F)]) + body


def text_units(dice, count):
    records = some_records(dice, count)
    return [pes.text_unit(records[i:i + 44]) for i in range(0, len(records), 44)]


def script_of(dice, size):
    script = Script({
        10: (0, lambda payload, room: line(pes.read, payload, room)),
        11: (1, lambda payload, room: line(pes.write, payload[0], payload[1:], room)),
    })
    read = lambda packet, room=65536: script.case(10, room, packet)
    write = lambda identifier, records, room=65536: script.case(11, room, bytes([identifier]) + records)

    # 2: too short, or another front
    one = pes.write(0x10, some_records(dice, 2))
    for length in (0, 1, 3, 4, 5, 6, 43, 44, 45, 46):
        read(one[:length])
    for at in range(4):
        read(with_bytes(one, (at, one[at] ^ 1 << dice.below(8))))
    read(with_bytes(one, (0, 1), (4, 9), (6, 0), (45, 0), (46, 0)))
    # 3: the length field, the lent length, both
    for length in (0, 1, 45, 171, 177, 178, 179, 184, 362, 65498, 65535):
        read(with_bytes(one, (4, length >> 8), (5, length & 255)))
    read(one[:-1]), read(one + b"\xff"), read(one * 2), read(one[:45])
    for lent in (45, 100, 183, 185, 230):       # 6 more than the length, but no N
        read(with_bytes((one * 2)[:lent], (4, 0), (5, lent - 6)))
    read(with_bytes(one[:-1], (6, 0), (8, 0), (45, 0)))
    # 4: byte 6, byte 8, both
    for top in range(8):
        read(with_bytes(one, (6, (top >> 1) << 6 | (top & 1) << 2 | dice.below(256) & 0x3B)))
    for value in (0x00, 0x23, 0x25, 0xFF):
        read(with_bytes(one, (8, value)))
        read(with_bytes(one, (6, 0x04), (8, value)))
        read(with_bytes(one, (8, value), (45, 0x20), (46, 0)))
    read(with_bytes(one, (7, 0xFF), (9, 0), (44, 0)))
    # 5: data_identifier
    for identifier in (0x00, 0x0F, *range(0x10, 0x20), 0x20, 0x7F, 0x80, 0xFF):
        read(with_bytes(one, (45, identifier)))
    read(with_bytes(one, (45, 0x20), (46, 0)))
    # units, in the order of SCOPE 3.4
    unit, = text_units(dice, 1)
    room_in_one = 184 - 46
    for before in (0, 1, 2):
        units = [unit] * before
        left = room_in_one - 46 * before
        at = 46 + 46 * before
        fill = lambda u: packet_of(dice, units + u)
        tail = bytes([0xFF, left - 3]) + dice.bytes(left - 3)
        for last in (0xFF, 0x02, 0x00):
            read(fill([tail + bytes([last])]))                       # one byte left over
        for id in (0x00, 0x01, 0x04, 0x7F, 0x80, 0xFE):
            read(with_bytes(fill([unit]), (at, id)))                  # 7
            read(with_bytes(fill([unit]), (at, id), (at + 1, 255)))   # 7, then 6
        for id in (0x02, 0x03, 0xFF):
            for length in (left - 2, left - 1, left, 255):            # fits, or runs past
                read(with_bytes(fill([unit]), (at, id), (at + 1, length)))
        for length in (0, 1, 0x2B, 0x2D):                             # 8
            read(with_bytes(fill([unit]), (at + 1, length)))
            read(with_bytes(fill([unit]), (at + 1, length), (at + 2, 6), (at + 3, 0)))
        for framing in (0x27, 0x00, 0xFF, 0xE5, 0x64, 0xEC):          # 9
            read(with_bytes(fill([unit]), (at + 3, framing)))
            read(with_bytes(fill([unit]), (at + 2, 0x06), (at + 3, framing)))
        read(with_bytes(fill([unit]), (at + 3, 0x27)), room=0)        # 9 before 1
    for id in pes.TEXT:                                               # every line offset
        for offset in range(32):
            read(with_bytes(one, (46, id), (48, dice.below(8) << 5 | offset)), room=88)
    two = packet_of(dice, text_units(dice, 5))
    read(with_bytes(two, (48, 0x06), (92, 0x00))), read(with_bytes(two, (92, 0x00), (48 + 92, 0x17)))
    # clean packets, stuffing of any length, rooms
    for count in range(0, 9):
        for _ in range(2):
            units = text_units(dice, count)
            for _ in range(dice.below(4)):
                length = dice.pick([0, 1, 3, 5, 43, 44, 45])
                units.insert(dice.below(len(units) + 1), bytes([0xFF, length]) + dice.bytes(length))
            room_tried(script, 10, packet_of(dice, units), pes.read)
    read(packet_of(dice, [b"\xff\x00"] * 69, 1)), read(packet_of(dice, [b"\xff\x01\x02"] * 46, 1))
    for _ in range(60 * size):                                        # damaged anywhere
        packet = packet_of(dice, text_units(dice, dice.below(5)))
        places = [dice.between(40, len(packet) - 1) for _ in range(dice.between(1, 3))]
        read(with_bytes(packet, *((at, dice.below(256)) for at in places)))
    # writing
    for count in range(0, 13):
        records = some_records(dice, count)
        room_tried(script, 11, b"\x1f" + records, lambda p: pes.write(p[0], p[1:]))
    for identifier in range(0x0E, 0x22):
        write(identifier, some_records(dice, 1))
    for length in (1, 43, 45, 87, 89):
        write(0x10, some_records(dice, 3)[:length])
    three = some_records(dice, 3)
    for at in range(3):
        for id in (0x00, 0x01, 0x04, 0x2C, 0xFF):
            write(0x10, with_bytes(three, (44 * at, id)))
        for offset in range(32):
            write(0x12, with_bytes(three, (44 * at + 1, dice.below(8) << 5 | offset)), room=184)
    bad = with_bytes(three, (44, 0xFF))
    write(0x20, bad[:-1], 0), write(0x20, bad, 0), write(0x10, bad[:-1], 0), write(0x10, bad, 0)
    write(0x00, b"", 0), write(0x10, b"", 183), write(0x10, b"", 184), write(0xFF, b"", 184)
    # N = 356: full, one unit more, the last unit damaged, one byte short
    most = some_records(dice, 4 * 356 - 1)
    full = pes.write(0x15, most)
    write(0x15, most, len(full)), write(0x15, most + most[:44])
    read(full, len(most)), read(full, len(most) - 1)
    read(with_bytes(full, (len(full) - 43, 0x27)))
    for op in (0, 9, 12, 20):
        script.case(op, 9, b"\x10")
    script.case(11, 184, b"")
    script.cut_short(b"\x0a\xff\xff\x00\x00\xb8\x00\x00\x00" + one[:100])
    return script
