"""TI and LI blocks both ways, and what is wrong with them."""

from model import guide, octet, table
from model.guide import HEAD
from model.table import Table

from .form import LOST, Script, line, room_tried, with_bytes


CASE_G = Table(table.TI, 0, 0, 2, [(5, [0x647574, 0x000888])])


def some_table(dice, kind=None, descriptors=None, most=6):
    kind = kind or dice.pick([table.TI, table.LI])
    count = dice.below(5) if descriptors is None else descriptors
    loop = [(dice.below(64), [some_word(dice) for _ in range(table.WORDS[kind] * dice.below(most + 1))]) for _ in range(count)]
    return Table(kind, dice.below(2), dice.pick(table.NUMBERS), dice.below(256), loop)


def some_word(dice):
    letters = bytes(dice.between(0x61, 0x7A) for _ in range(3))
    return int.from_bytes(letters if dice.chance(2) else dice.bytes(3), "big")


def shaped(kind, counts, word=0x616263):
    """A table of descriptors with so many entries each."""
    return Table(kind, 0, 0, 0, [(i % 64, [word] * (table.WORDS[kind] * c)) for i, c in enumerate(counts)])


def spread(entries, descriptors):
    """So many entries over so many descriptors, at most 15 each."""
    counts = []
    for _ in range(descriptors):
        counts.append(min(entries, 15))
        entries -= counts[-1]
    return counts


def nibbles_in(record):
    return [octet.decode(b) for b in record[HEAD:]]


def with_field(nibbles, name, value):
    """The control data with another value in one of the fields before the loop."""
    at = 0
    for field, width in table.FRONT:
        if field == name:
            break
        at += width
    number = sum(n << 4 * i for i, n in enumerate(nibbles))
    number += (value - (number >> at) % (1 << width)) << at
    return [number >> 4 * i & 15 for i in range(len(nibbles))]


def extreme_tables():
    """Every field at its least and most; tables at the limit of 8,184 bits."""
    for kind in (table.TI, table.LI):
        for copyright, block_no, network in ((0, 0, 0), (1, 0x8000, 255), (0, 0x8000, 1), (1, 0, 0x80), (1, 0x8000, 127)):
            yield Table(kind, copyright, block_no, network, [])
            for id, word in ((0, 0), (63, 0xFFFFFF), (5, 0x000001), (32, 0x800000), (1, 0x123456)):
                yield Table(kind, copyright, block_no, network, [(id, [word] * table.WORDS[kind])])
        for counts in ([0], [15], [0] * 63, [1] * 8, [0, 15, 0, 7], [2, 3]):
            yield shaped(kind, counts)


def limits():
    """Tables just within and just over 8,184 bits."""
    yield shaped(table.TI, [15] * 11), shaped(table.TI, [15] * 12)                     # case I
    yield shaped(table.TI, spread(162, 35)), shaped(table.TI, spread(162, 36))
    yield shaped(table.LI, spread(324, 35)), shaped(table.LI, spread(324, 36))
    yield shaped(table.LI, spread(329, 23)), shaped(table.LI, spread(330, 23))
    yield shaped(table.TI, spread(165, 16)), shaped(table.TI, spread(166, 16))          # 8,186
    yield shaped(table.LI, spread(326, 28)), shaped(table.LI, spread(327, 28))


def unwritable():
    """Tables that can't be written: an id, the copyright bit, entries, descriptors or, by the least that there is, bits over their limit."""
    yield CASE_G._replace(descriptors=[(64, [0x647574, 0x000888])])
    yield CASE_G._replace(copyright=2)
    for kind in (table.TI, table.LI):
        yield shaped(kind, [16])
        yield shaped(kind, [0] * 64)
    for _, over in list(limits())[4:]:
        assert table.width(over) == table.MOST_BITS + 2
        yield over


# Annex L.1's block as printed: header, then control data without its checksum, then strings.
L1_PRINTED = bytes.fromhex(
    "02FDC715 1564D0151549021515026415 9B151515C7155EC78C73155EC7151564 8C15B664D0154915EA64B6A1"
    "2F1515151515731515158C15151515151515 54E9F4ECE5D368EFF2F42049 6EE6EF".replace(" ", ""))
L1_SUM = 0x2E


def l1_records():
    """As printed; with its checksum put in; with its sizes mended."""
    head = sum(octet.decode(b) << 4 * i for i, b in enumerate(L1_PRINTED[:4]))
    printed = guide.record_of(head, L1_PRINTED[4:])
    whole = octet.images([L1_SUM % 16, L1_SUM // 16]) + L1_PRINTED[4:]
    mended = guide.record_of(guide.head_of(1, len(whole)), whole)
    control = nibbles_in(mended[:HEAD + 60])        # control_block_size 0x1E: 60 nibbles
    sizes = with_field(control, "control_block_size", 0x1E)
    return printed, guide.record_of(head, whole), mended, mended[:HEAD] + octet.images(sizes) + mended[HEAD + 60:]


def block_line(call, payload, room):
    """The line of a call that reads a record: its form, and behind it what was mended and whether it is joined, 0 and 0 where it is refused."""
    read = table.Read(b"", 0, 0)

    def form():
        nonlocal read
        read = call(payload[0], payload[1:], room)
        return read.form
    return line(form) + f" mended={read.mended} joined={read.joined}"


def hit(dice, record, count):
    """A record with one flipped bit in so many of its raw bytes."""
    places = list(range(HEAD, len(record)))
    for _ in range(count):
        at = places.pop(dice.below(len(places)))
        record = with_bytes(record, (at, record[at] ^ 1 << dice.below(8)))
    return record


def script_of(dice, size):
    script = Script({
        30: (1, lambda payload, room: block_line(table.read_block, payload, room)),
        31: (1, lambda payload, room: line(table.write_block, payload[0], payload[1:], room)),
    })
    read = lambda record, application=1, room=4096: script.case(30, room, bytes([application]) + record)
    write = lambda form, application=1, room=4096: script.case(31, room, bytes([application]) + form)
    read_call = lambda payload: table.read_block(payload[0], payload[1:]).form
    write_call = lambda payload: table.write_block(payload[0], payload[1:])

    def both(t, application):
        form = table.form_of(t)
        room_tried(script, 31, bytes([application]) + form, write_call)
        room_tried(script, 30, bytes([application]) + table.write_block(application, form), read_call)

    for t in (CASE_G, shaped(table.TI, []), shaped(table.LI, []), *(some_table(dice) for _ in range(20 * size))):
        both(t, dice.below(32))
    for t in extreme_tables():
        write(table.form_of(t), 31), read(table.write_block(0, table.form_of(t)), 0)
    for within, over in limits():
        form = table.form_of(within)
        record = table.write_block(1, form)
        write(form, room=len(record)), read(record, room=len(form)), write(table.form_of(over)), write(form, room=len(record) - 1)
    # reading: 16, 13, 16, 12, 13, 10, 12, 13, 10, 11, 22, 14, 1
    good = table.write_block(1, table.form_of(CASE_G))
    for application in (0, 1, 2, 30, 31, 32, 33, 255):
        read(good, application)
        read(good[:-1], application)
    for length in range(len(good)):
        read(good[:length])
    read(good + b"\x15"), read(b""), read(b"\x01"), read(b"\x01\x00"), read(b"\x01\x00\x00"), read(b"\x01\x00\x06\x01")
    read(b"\x01\x00\x00\x00"), read(b"\x02\x00\x00\x00"), read(b"\x00\x00\x00\x00", 0), read(b"\xe1\xff\x00\x00" + bytes(2047))
    mended_cases(read, dice, good, size)
    for length in range(21):                            # sizes 0 to 20
        head = guide.head_of(1, length)
        for raw in (bytes([LOST]) * length, bytes([0x15]) * length, dice.bytes(length),
                    (good[HEAD:] + good[HEAD:])[:length], table.write_block(1, table.form_of(shaped(table.LI, [])))[HEAD:][:length]):
            read(guide.record_of(head, raw))
            read(guide.record_of(head, raw), 2)
        if length >= 8:
            blank = with_field([0] * length, "datatype_id", dice.pick([7, 8]))
            read(table.summed(1, with_field(blank, "control_block_size", length // 2)))
            read(with_bytes(table.summed(1, blank), (HEAD + length - 1, LOST)))
    for t in (CASE_G, some_table(dice, descriptors=2, most=2)):
        record = table.write_block(1, table.form_of(t))
        nibbles = nibbles_in(record)
        for at in range(HEAD, len(record)):             # damaged bytes at each place
            read(with_bytes(record, (at, record[at] ^ 1 << dice.below(8))))
            bits = dice.below(8)
            read(with_bytes(record, (at, record[at] ^ 1 << bits ^ 1 << (bits + dice.between(1, 7)) % 8)))
            read(with_bytes(record, (at, octet.image(octet.decode(record[at]) ^ 1 << dice.below(4)))))
        for first in (5, 11, 12, len(record) - 1):      # the first such byte
            read(with_bytes(record, (first, LOST), (len(record) - 1, LOST)))
        for kind in (0, 1, 2, 3, 4, 5, 6, 7, 8, 9, 10, 0x3E, 0x3F):
            for access in (0, 1, 2, 3):
                other = with_field(with_field(nibbles, "datatype_id", kind), "CA_mode", access)
                read(table.summed(1, other))
                if kind in (2, 8) and access < 2:       # 10 in front, 12, odd size, 10 behind, 11
                    odd = table.summed(1, other + [0])
                    read(odd), read(with_bytes(odd, (6, LOST))), read(with_bytes(odd, (14, LOST)))
                    read(with_bytes(odd, (HEAD, odd[HEAD] ^ 0xFF)))
                    read(with_bytes(table.summed(1, other), (14, LOST)))
        half = len(nibbles) // 2
        for control in (0, 1, half - 1, half + 1, 2 * half, half ^ 512, 1023):      # control size off
            read(table.summed(1, with_field(nibbles, "control_block_size", control)))
        for more in (2, 4, 6, 8):                       # too much fill
            grown = with_field(nibbles + [dice.below(16)] * more, "control_block_size", half + more // 2)
            read(table.summed(1, grown)), read(table.summed(1, nibbles + [0] * more))
        for less in (2, 4):                             # loops run past the end
            shrunk = with_field(nibbles[:-less], "control_block_size", half - less // 2)
            read(table.summed(1, shrunk))
        for count in (0, 1, 2, 3, 62, 63):
            read(table.summed(1, with_field(nibbles, "descr_no", count)))
        for off in (1, 15, 16, 128, 255):               # the sum off, and off where lengths don't fit either
            for control in (half, half + 1):
                record = table.summed(1, with_field(nibbles, "control_block_size", control))
                sum_ = (octet.decode(record[HEAD]) + 16 * octet.decode(record[HEAD + 1]) + off) % 256
                read(with_bytes(record, (HEAD, octet.image(sum_ % 16)), (HEAD + 1, octet.image(sum_ // 16))), room=0)
        read(table.summed(1, with_field(nibbles, "control_block_size", half + 1)), room=0)
    for descriptors in range(9):                        # reserved and fill bits set
        t = some_table(dice, descriptors=descriptors, most=2)
        record = table.write_block(1, table.form_of(t))
        fill = 4 * (len(record) - HEAD) - table.width(t)
        half = (len(record) - HEAD) // 2
        grown = with_field(nibbles_in(record) + [0, 0], "control_block_size", half + 1)
        read(table.summed(1, grown))                    # fill of eight more
        for filled in sorted({0, 1, (1 << fill) - 1, dice.below(1 << fill)}):
            nibbles = with_field(nibbles_in(record), "reserved", dice.below(2))
            nibbles[-2] |= (filled << (8 - fill)) % 16 if fill else 0
            nibbles[-1] |= (filled << (8 - fill)) >> 4 if fill else 0
            read(table.summed(1, nibbles))
    most = table.write_block(1, table.form_of(shaped(table.TI, spread(162, 35))))
    for at in (11, 12, 1000, len(most) - 1):
        read(with_bytes(most, (at, LOST)))
    for record in l1_records():
        read(record)
    number_cases(read, write, dice), pair_cases(read)
    # writing: 16, 22, 13, 15, 1
    form = table.form_of(some_table(dice, table.TI, 2, 2)._replace(descriptors=[(9, [1, 2]), (3, [4, 5, 6, 7])]))
    for application in (0, 31, 32, 255):
        write(form, application), write(form[:-1], application, 0), write(b"", application)
    for length in range(len(form)):
        write(form[:length]), write(with_bytes(form, (0, 7))[:length])
    write(form + b"\x00"), write(form + form[6:]), write(b"\x08\x00\x00\x00\x00\x01"), write(b"\x08\x00\x00\x00\x00\x00")
    for kind in (0, 6, 9, 0x47, 0x48, 255):
        write(with_bytes(form, (0, kind))), write(with_bytes(form, (0, kind))[:6]), write(with_bytes(form, (0, kind))[:5])
    for copyright in (2, 3, 128, 255):
        write(with_bytes(form, (1, copyright))), write(with_bytes(form, (1, copyright))[:-1])
        write(with_bytes(form, (1, copyright)) + b"\x00")
    for at in (6, 14):
        for id in (63, 64, 128, 255):
            write(with_bytes(form, (at, id))), write(with_bytes(form, (at, id)) + b"\x00", room=0)
    for kind in (table.TI, table.LI):
        for count in (15, 16, 17, 255):
            long = shaped(kind, [count, 1])
            write(table.form_of(long)), write(table.form_of(long)[:-1])
        for descriptors in (63, 64, 255):
            long = shaped(kind, [0] * descriptors)
            write(table.form_of(long)), write(table.form_of(long)[:-1])
    write(with_bytes(form, (1, 2)), room=0), write(form, room=0)
    for t in unwritable():                              # 22 before 15
        write(table.form_of(t._replace(block_no=3)))
    for _ in range(60 * size):                          # forms and records with anything changed
        t = some_table(dice, most=3)
        form = table.form_of(t)
        write(with_bytes(form, (dice.below(len(form)), dice.pick([0, 1, 7, 8, 63, 64, 255, dice.below(256)]))))
        nibbles = nibbles_in(table.write_block(1, form))
        nibbles[dice.between(2, len(nibbles) - 1)] = dice.below(16)
        read(table.summed(1, nibbles))
    for op in (0, 29, 32, 40):
        script.case(op, 99, good)
    script.case(30, 99, b""), script.case(31, 99, b"")
    script.cut_short(b"\x1e\x40\x00\x00")
    return script


LATER = (0x0001, 0x0003, 0x0010, 0x007F, 0x0080, 0x00FF, 0x0100, 0x7FFF, 0x8001, 0x8080, 0x80FF, 0xC000, 0xFF00, 0xFFFF)


def later(t, block_no):
    """A table's record with another number, its sum right."""
    return table.summed(1, with_field(nibbles_in(table.write_block(1, table.form_of(t))), "block_no", block_no))


def number_cases(read, write, dice):
    """Numbers of a later edition: 22 after 11 and before 14, by the block's size; in writing right after 16."""
    for t in (CASE_G, shaped(table.LI, []), some_table(dice, table.LI, 2, 3)):
        for block_no in (*table.NUMBERS, *LATER):
            record = later(t, block_no)
            half = (len(record) - HEAD) // 2
            read(record), read(record, room=0), read(hit(dice, record, 4))
            if block_no in (0, 3, 0x8000, 0x8001):
                nibbles = nibbles_in(record)
                off = with_field(nibbles, "control_block_size", half + 1)           # .. where lengths don't fit either
                read(table.summed(1, off)), read(table.summed(1, with_field(nibbles, "descr_no", 63))), read(table.summed(1, nibbles + [0, 0]))
                read(table.summed(1, nibbles + [0])), read(table.summed(1, with_field(nibbles, "datatype_id", 3)))
                read(with_bytes(record, (HEAD, octet.image(octet.decode(record[HEAD]) ^ 1))))       # 11 before it
                read(with_bytes(record, (len(record) - 1, LOST))), read(record, 2), read(with_bytes(record, (2, 6))), read(record[:-1])
            form = with_bytes(table.form_of(t), (2, block_no % 256), (3, block_no // 256))
            write(form), write(form, 32), write(form, room=0), write(form[:-1]), write(form + b"\x00")
            for length in range(7):
                write(form[:length]), write(form[:length], 255)
            write(with_bytes(form, (0, 3))), write(with_bytes(form, (1, 2))), write(with_bytes(form, (5, 64))), write(with_bytes(form, (5, 255))[:6])
    for size in range(8, 15):                           # sizes with and without a number
        for block_no in (0, 3, 0x8000, 0xFFFF):
            blank = with_field([0] * max(size, 12), "block_no", block_no)[:size]
            blank = with_field(blank, "datatype_id", dice.pick([7, 8]))
            read(table.summed(1, blank)), read(table.summed(1, with_field(blank, "control_block_size", size // 2)))


def pair_cases(read):
    """10, 12, the odd size's 13 and 22, each with an application, a part and a second byte out of range before it and no room behind it."""
    good = table.write_block(1, table.form_of(CASE_G))
    nibbles = nibbles_in(good)
    lost = [with_bytes(good, (at, LOST)) for at in (HEAD, HEAD + 7, HEAD + 8, len(good) - 1)]
    kinds = [table.summed(1, with_field(nibbles, name, 3)) for name in ("datatype_id", "CA_mode")]
    for record in (*lost, *kinds, table.summed(1, nibbles + [0]), later(CASE_G, 3), guide.record_of(guide.head_of(1, 7), bytes(7))):
        read(record, 32), read(record, 255), read(with_bytes(record, (2, 6))), read(with_bytes(record, (3, 2))), read(record, room=0)
        read(with_bytes(record, (3, 1))), read(with_bytes(record, (3, 1)), room=0)      # 1 is in range: as with 0


def mended_cases(read, dice, good, size):
    """What was mended: the part and, 0 or 1, the byte behind it, and the count that an accepted block carries."""
    for part in (0, 1, 4, 5, 6, 7, 128, 255):
        for second in (0, 1, 2, 255):
            record = with_bytes(good, (2, part), (3, second))
            read(record), read(hit(dice, record, 3))
            if part in (5, 6) or second == 2:           # each other fault with it, in front and behind
                read(record, 32), read(record, 2), read(record[:-1]), read(record + b"\x15"), read(record, room=0)
                read(record[:3]), read(guide.record_of(guide.head_of(1, 7), bytes(7), part, second))
                read(with_bytes(record, (HEAD, LOST))), read(with_bytes(record, (len(record) - 1, LOST)))
                read(with_bytes(record, (HEAD, record[HEAD] ^ 0xFF))), read(table.summed(1, nibbles_in(good) + [0])[:2] + record[2:HEAD] + good[HEAD:] + b"\x15")
    for count in range(len(good) - HEAD + 1):           # every number of mended bytes
        read(with_bytes(hit(dice, good, count), (2, dice.below(6)), (3, count % 2)))
    for at in range(HEAD, len(good)):                   # each byte, by each of its bits
        for bit in range(8):
            read(with_bytes(good, (at, good[at] ^ 1 << bit)))
    most = table.write_block(1, table.form_of(shaped(table.LI, spread(329, 23))))
    read(with_bytes(hit(dice, most, len(most) - HEAD), (2, guide.MOST_PART)))      # 2,051, the most there can be
    for _ in range(20 * size):
        record = table.write_block(1, table.form_of(some_table(dice)))
        record = with_bytes(hit(dice, record, dice.below(len(record) - HEAD)), (2, dice.below(7)), (3, dice.pick([0, 0, 1, 1, 1, 2])))
        read(record), read(record, room=dice.below(40))
