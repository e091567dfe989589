"""Menus both ways, and their listing: every kind of attribute, escapes, the largest blocks, each refusal alone and in pairs, links."""

from model import guide, menu, octet, table
from model.guide import HEAD
from model.menu import Escape, Event, Menu, String, with_parity

from .form import LOST, Script, line, room_tried, with_bytes
from .table import CASE_G, block_line, hit

KINDS = (0x00, 0x02, 0x10, 0x18, 0x20, 0x27, 0x30, 0x40, 0x41, 0x7E, 0x7F, 0x80, 0x81, 0xBE, 0xBF, 0xC0, 0xC8, 0xC9, 0xDE, 0xDF, 0xE0, 0xE1, 0xFE, 0xFF)
DATATYPES = (0, 1, 2, 3, 4, 5, 6, 7, 8, 0x0B, 0x13, 0x23, 0x33, 0x3B, 0x3E, 0x3F)     # a menu's, and others that share bits with it or don't


# --- menus ------------------------------------------------------------------------

def plain(text, escapes=()):
    return String(list(escapes), text)


def some_string(dice, most=20, escapes=3):
    text = bytes(dice.between(0x20, 0x7E) if dice.below(8) else dice.below(0x80) for _ in range(dice.below(most + 1)))
    return String([Escape(dice.below(1024), dice.below(64), dice.below(256)) for _ in range(dice.below(escapes + 1) if dice.chance(3) else 0)], text)


def some_attribute(dice, kind=None):
    kind = dice.pick(KINDS) if kind is None else kind
    return kind, dice.below(1 << 8 * menu.info_bytes(kind)) if menu.info_bytes(kind) < 4 else dice.word()


def some_event(dice, link=None):
    return Event(dice.below(65536) if link is None else link, dice.below(4) if link is None else menu.TO_MENU,
                 [some_attribute(dice) for _ in range(dice.below(4))], some_string(dice))


def some_menu(dice, number=None, events=None, descriptors=None):
    loop = [(dice.below(64), dice.below(64), dice.below(256)) for _ in range(dice.below(4) if descriptors is None else descriptors)]
    return Menu(dice.below(2), dice.below(65536) if number is None else number, dice.below(3), dice.below(8), dice.below(256), loop,
                some_string(dice), [some_event(dice) for _ in range(dice.below(4) if events is None else events)])


EMPTY = Menu(0, 0, 0, 0, 0, [], plain(b""), [])
SAMPLE = Menu(0, 0, 1, 2, 3, [(7, 1, 0)], plain(b"TV Guide"), [
    Event(5, 1, [(0x20, 0x43)], plain(b"Themes")), Event(9, 1, [(0x80, 0xFFFF), (0xC8, 0x656E67)], plain(b"More", [Escape(2, 0x12, 0x61)]))])


def filled(control, strings):
    """A menu of so many bytes of control data, made up of escapes, and so many codes."""
    base, events = menu.width(EMPTY) // 8, []
    left = control - base
    header = min(255, left // 3)
    left -= 3 * header
    while left:
        for attributes in range(15):
            escapes = (left - 5 - 2 * attributes) // 3
            if left - 5 - 2 * attributes >= 0 and (left - 5 - 2 * attributes) % 3 == 0 and escapes <= 255:
                break
        else:
            attributes, escapes = 0, 200
        events.append(Event(0, 0, [(0x7F, 0)] * attributes, plain(b"", [Escape(1023, 63, 255)] * escapes)))
        left -= 5 + 2 * attributes + 3 * escapes
    made = EMPTY._replace(header=plain(b"h" * min(strings, 255), [Escape(0, 1, 2)] * header), events=events)
    strings -= min(strings, 255)
    for at, event in enumerate(events):
        some = min(strings, 255)
        events[at] = event._replace(string=event.string._replace(codes=b"e" * some))
        strings -= some
    assert strings == 0 and menu.width(made) == 8 * control
    return made


def worded(length, events=7):
    """A menu with a block of so many bytes, most of them codes."""
    made = EMPTY._replace(events=[Event(0, 0, [], plain(b"w" * 255)) for _ in range(events)])
    made = made._replace(header=plain(b"w" * (length - menu.block_size(made))))
    assert menu.block_size(made) == length
    return made


def fullest():
    """Every value, count and length at its most: a block of over 30,000 bytes."""
    string = plain(b"\x7f" * 255, [Escape(1023, 63, 255)] * 255)
    made = Menu(1, 65535, 2, 7, 255, [(63, 63, 255)] * 63, string, [Event(65535, 15, [(0xFF, 0xFFFFFFFF)] * 15, string)] * 15)
    assert menu.block_size(made) > 30000
    return made


def inner(**change):
    """A menu of three events with two escapes and two attributes each; something else in the one in the middle."""
    event = Event(1, 2, [(0x20, 1), (0xC8, 2)], plain(b"ab", [Escape(1, 2, 3), Escape(4, 5, 6)]))
    return EMPTY._replace(header=event.string, events=[event, event._replace(**change), event])


# --- blocks that aren't as they should be -------------------------------------------

class Strung:
    """A block of control data and codes with other values in some fields; sums agree unless they are told not to."""

    def __init__(self, nibbles, codes):
        self.nibbles, self.strings = nibbles, bytearray(map(with_parity, codes))
        self.application, self.part, self.second, self.off, self.changes, self.cut, self.room = 1, 0, 0, 0, [], 0, 4096

    def field(self, at, width, value):
        number = sum(n << 4 * i for i, n in enumerate(self.nibbles))
        number += (value - (number >> at) % (1 << width)) << at
        self.nibbles = [number >> 4 * i & 15 for i in range(len(self.nibbles))]

    def record(self):
        made = menu.summed(1, self.nibbles, bytes(self.strings))
        if self.off:
            sum_ = (octet.decode(made[HEAD]) + 16 * octet.decode(made[HEAD + 1]) + self.off) % 256
            made = with_bytes(made, (HEAD, octet.image(sum_ % 16)), (HEAD + 1, octet.image(sum_ // 16)))
        made = with_bytes(made, *self.changes, (2, self.part), (3, self.second))
        if self.cut < 0:
            made = guide.record_of(guide.head_of(1, 7), made[HEAD:HEAD + 7], self.part, self.second)
        return made[:len(made) - max(self.cut, 0)]


class Block(Strung):
    """A menu's."""

    def __init__(self, made):
        super().__init__(menu.control_nibbles(made), menu.codes_of(made))


CONTROL, KIND, ACCESS, HEADER_SIZE, EVENTS, DESCRIPTORS = (8, 10), (18, 6), (24, 2), (44, 2), (46, 4), (54, 6)


def spare_fields(count):
    """reserved, fill_up_1 and, where the number of descriptors is even, fill_up_2, as (place, width)."""
    return ((27, 1), (53, 1), (60 + 20 * count, 4))[:3 - count % 2]


def changed(made, place, width, value):
    """A menu's record with another value in a field."""
    block = Block(made)
    block.field(place, width, value)
    return block.record()


FAULTS = {
    "setting": lambda b: setattr(b, "application", 32),
    "length": lambda b: setattr(b, "cut", 1),
    "part": lambda b: setattr(b, "part", 6),
    "second": lambda b: setattr(b, "second", 2),
    "application": lambda b: setattr(b, "application", max(b.application, 2)),
    "size": lambda b: setattr(b, "cut", -1),
    "first": lambda b: b.changes.append((HEAD + 7, LOST)),
    "kind": lambda b: b.field(*KIND, 8),
    "access": lambda b: b.field(*ACCESS, 1),
    "rest": lambda b: b.changes.append((HEAD + len(b.nibbles) - 1, LOST)),
    "parity": lambda b: b.strings.__setitem__(len(b.strings) - 1, b.strings[-1] ^ 4),
    "sum": lambda b: setattr(b, "off", 1),
    "header": lambda b: b.field(*HEADER_SIZE, 3),
    "lengths": lambda b: b.field(*EVENTS, 1),
    "room": lambda b: setattr(b, "room", 0),
}


def fault_cases(read, faults=FAULTS, fresh=lambda: Block(SAMPLE)):
    """Each refusal alone, and each two of them."""
    for one in faults:
        for two in faults:
            block = fresh()
            faults[one](block)
            if two != one:
                faults[two](block)
            read(block.record(), block.application, block.room)


def control_sizes(read, fresh, right):
    """A block that says another control size than its own."""
    for control in (0, 1, 2, 3, 4, 5, right - 1, right + 1, right + 3, right + 4, 500, 1023):
        block = fresh()
        block.field(*CONTROL, control)
        whole = block.record()
        read(whole)
        count = max(8, min(2 * control, len(whole) - HEAD))         # its control bytes, each decoded, and the sum over just those
        nibbles = [octet.decode(b) for b in whole[HEAD:HEAD + count]]
        if octet.UNDECODABLE not in nibbles:
            again = menu.summed(1, nibbles, whole[HEAD + count:])
            strings = bytes(with_parity(b & 0x7F) for b in again[HEAD + count:])
            read(again), read(again[:HEAD + count] + strings), read(with_bytes(again, (HEAD + count - 1, LOST)))
            read(with_bytes(again, (HEAD, octet.image(octet.decode(again[HEAD]) ^ 1))))            # 11 before 14
            if strings:
                read(again[:HEAD + count] + strings[:-1] + bytes([strings[-1] ^ 0x80]))


def first_eight(read, fresh):
    """A control size of up to 4. Whatever it says, the first eight bytes are control bytes: a mended one among them is no string byte of even parity."""
    for control in range(5):
        block = fresh()
        block.field(*CONTROL, control)
        record = block.record()
        again = menu.summed(1, [octet.decode(byte) for byte in record[HEAD:HEAD + 8]], record[HEAD + 8:])
        for made in (record, again):
            for at in range(HEAD, HEAD + 9):
                read(with_bytes(made, (at, made[at] ^ 1 << at % 8))) if control in (0, 3) or at > HEAD + 6 else None


def size_cases(read, dice):
    """Control sizes that don't fit: under 4, past the block, one off; then what is a control byte and what a string byte goes by them."""
    for made in (SAMPLE, EMPTY, some_menu(dice, descriptors=2)):
        right = menu.width(made) // 8
        control_sizes(read, lambda: Block(made), right)
        for descriptors in (0, 1, 2, 3, 63):
            block = Block(made)
            block.field(*DESCRIPTORS, descriptors)
            read(block.record())
        for events in (0, 1, 2, 3, 15):
            block = Block(made)
            block.field(*EVENTS, events)
            read(block.record())
        block = Block(made)                                          # bytes behind the strings, and one fewer
        block.strings += b"\x20"
        read(block.record())
        del block.strings[-2:]
        read(block.record())
        block = Block(made)                                          # control data behind the last field
        block.nibbles += [0, 0]
        read(block.record())
        block.field(*CONTROL, right + 1)
        read(block.record())
    for made in (EMPTY, SAMPLE):
        first_eight(read, lambda: Block(made))
    for bit in range(4):                                             # reserved, fill and fill_up_2 are anything, and in the sum
        block = Block(SAMPLE._replace(descriptors=[]))
        block.field(27, 1, 1), block.field(53, 1, bit % 2), block.field(60, 4, 1 << bit)
        read(block.record())
    for count in range(5):                                           # each of them alone
        for place, width in spare_fields(count):
            for value in range(1, 1 << width):
                read(changed(SAMPLE._replace(descriptors=[(7, 1, 0)] * count), place, width, value))


def odd_cases(read, fresh=lambda: Block(SAMPLE)):
    """An odd size. Where twice the control size is one above it the last byte is a control byte, where it is one below a string byte."""
    for size in (9, 11, 29, 301):
        for control in (size + 1) // 2, (size - 1) // 2:
            block = fresh()
            block.nibbles, block.strings = (block.nibbles + [7] * size)[:size - 1] + [0], b""
            block.field(*CONTROL, control)
            for block.off in 0, 1:
                record = block.record()
                read(record), read(with_bytes(record, (-1, LOST))), read(with_bytes(record, (-1, record[-1] ^ 8)))


def far_cases(read):
    """A byte that can't be decoded and one of wrong parity, early and late in a large block; the first counts."""
    control, words = listed(1, filled(1023, 1)), listed(1, worded(2047))
    for at in (255, 256, 1501, 2049):
        read(with_bytes(control, (at, LOST), (2049, LOST))), read(with_bytes(words, (at, 0), (-1, 0)))
    read(with_bytes(control, (-1, 0)))


def head_cases(read, good):
    """What stands before the raw bytes: a record longer than its size says, one that hasn't got a head, part and second byte."""
    for more in (1, 2, 3, 4, 100, 256, 2048):
        read((good * 30)[:len(good) + more])
    for application in (1, 31, 32, 33, 255):
        for length in (0, 1, 2, 3, len(good)):
            read(good[:length], application)
    for part, second in ((0, 2), (0, 255), (128, 0), (255, 0), (255, 255), (0, 1), (1, 1), (2, 1), (3, 1), (4, 1), (5, 1), (6, 1),
                         (5, 2), (6, 2), (1, 3), (0, 128), (0, 129)):
        read(with_bytes(good, (2, part), (3, second)))
        read(with_bytes(good, (2, part), (3, second), (HEAD, LOST))), read(with_bytes(good, (2, part), (3, second)), room=0)


def parity_cases(read, dice):
    for code in range(0x80):                                         # every code, right and wrong
        made = EMPTY._replace(header=plain(bytes([code, 0x41])))
        record = menu.write_menu(1, menu.form_of(made))
        read(record) if code % 5 == 0 else None
        if code % 9 == 0:
            read(with_bytes(record, (len(record) - 2, record[-2] ^ 1 << dice.below(8))))
    record = menu.write_menu(1, menu.form_of(SAMPLE))
    for at in range(HEAD, len(record)):                              # one flip and two at each place: mended, wrong parity, another letter
        bit = dice.below(8)
        read(with_bytes(record, (at, record[at] ^ 1 << bit)))
        read(with_bytes(record, (at, record[at] ^ 1 << bit ^ 1 << (bit + dice.between(1, 7)) % 8)))
    read(with_bytes(record, (len(record) - 1, 0x00), (len(record) - 3, 0x00)))
    read(with_bytes(record, (len(record) - 1, 0x00), (HEAD + 20, LOST)))
    for part in range(8):
        read(with_bytes(hit_control(dice, record, part), (2, part)))


def hit_control(dice, record, count):
    """One flipped bit in so many of its control bytes."""
    control = HEAD + menu.width(SAMPLE) // 4
    return hit(dice, record[:control], count) + record[control:]


# --- writing ------------------------------------------------------------------------

def write_faults(write, dice):
    form = menu.form_of(SAMPLE)
    for application in (0, 31, 32, 255):
        write(form, application), write(form[:-1], application), write(b"", application)
    for length in range(len(form)):
        write(form[:length])
    write(form + b"\x00"), write(form + form)
    for kind in (0, 1, 2, 4, 7, 8, 0x43, 0x83, 255):
        for length in (8, 9, 10, len(form)):
            write(with_bytes(form, (0, kind))[:length])
        write(with_bytes(form, (0, kind)), 32), write(with_bytes(form, (0, kind)), room=0)
    write(form, 32, 0), write(form[:-1], room=0), write(form[:8], room=0)
    for at in range(len(form)):                                      # each byte at the ends of its range and past them
        for value in (0, 1, 2, 3, 7, 8, 15, 16, 63, 64, 0x7F, 0x80, 255) if at < 12 else (3, 4, 16, 64, 0x80, 255):
            write(with_bytes(form, (at, value)))
    second = [plain(b"", [Escape(0, 0, 0), wrong]) for wrong in (Escape(1024, 0, 0), Escape(0, 64, 0))]
    too_many = (
        EMPTY._replace(descriptors=[(0, 0, 0)] * 64), EMPTY._replace(descriptors=[(0, 0, 0)] * 255), EMPTY._replace(events=[Event(0, 0, [], plain(b""))] * 16),
        EMPTY._replace(events=[Event(0, 0, [(0, 0)] * 16, plain(b""))]), EMPTY._replace(header=plain(b"", [Escape(1024, 0, 0)])),
        EMPTY._replace(header=plain(b"", [Escape(0xFFFF, 0, 0)])), EMPTY._replace(header=plain(b"", [Escape(0, 64, 0)])), EMPTY._replace(header=plain(b"\x80")),
        EMPTY._replace(events=[Event(0, 16, [], plain(b""))]), EMPTY._replace(header_size=3), EMPTY._replace(header_size=4), EMPTY._replace(message_size=8),
        EMPTY._replace(copyright=2), EMPTY._replace(descriptors=[(64, 0, 0)]), EMPTY._replace(descriptors=[(0, 64, 0)]),
        EMPTY._replace(events=[Event(0, 0, [], plain(b"a\xff"))]),
        *(inner()._replace(header=string) for string in second), *(inner(string=string) for string in second), inner(string=plain(b"ab\x80c")),
        inner(link_type=16), inner(attributes=[(0x80, 0)] * 16), inner()._replace(descriptors=[(1, 1, 1), (64, 1, 1), (1, 1, 1)]))
    for made in too_many:
        form = menu.form_of(made)
        write(form), write(form, room=0), write(form[:-1]), write(form, 32)
    for count in (16, 17, 32, 255):
        for made in (EMPTY._replace(events=[Event(0, 0, [], plain(b""))] * count), inner(attributes=[(0x20, 1)] * count)):
            write(menu.form_of(made)), write(menu.form_of(made)[:-1])
    form = menu.form_of(inner())
    for at, byte in enumerate(form):                                 # an attribute of another width than its counts make room for
        if byte in (0x20, 0xC8):
            write(with_bytes(form, (at, byte ^ 0xE8)))


# --- listings -----------------------------------------------------------------------

def linked(number, *links, header=b"H", type_=menu.TO_MENU):
    return EMPTY._replace(block_no=number, header=plain(header), events=[Event(to, type_, [], plain(b"E%d" % to)) for to in links])


def listed(application, *menus):
    return b"".join(menu.write_menu(application, menu.form_of(made)) for made in menus)


def list_cases(script, dice, size):
    def show(number, records, application=1, room=4096):
        script.case(41, room, bytes([application]) + number.to_bytes(2, "little") + records)

    sample = listed(1, SAMPLE, linked(5, header=b"Themes")._replace(events=[Event(0, 2, [], plain(b"Golf"))]))
    room_tried(script, 41, b"\x01\x00\x00" + sample, list_call)
    for number in (0, 5, 9, 256, 65535):
        show(number, sample), show(number, sample, 2), show(number, b""), show(number, sample, 32), show(number, sample[:-1]), show(number, sample, room=0)
    show(0, sample[:-1], 32), show(0, b"\x01"), show(0, sample + b"\x01\x00\x00"), show(0, sample[:-1], room=0), show(9, b"", room=9), show(9, b"", room=10)
    for application in (0, 31, 32, 33, 255):
        show(0, listed(min(application, 31), SAMPLE), application), show(0, sample, application, 0)
    # levels: a row of menus each linking to the next, of seven, eight, nine and ten; the last links on
    for levels in (7, 8, 9, 10):
        show(1, listed(1, *(linked(n, n + 1) for n in range(1, levels + 1))))
        show(1, listed(1, *(linked(n, n + 1) for n in range(levels, 0, -1)), linked(levels + 1)))
    # to itself, round in a ring, to many that link on: the text is bounded by the room
    show(3, listed(1, linked(3, 3))), show(3, listed(1, linked(3, 3)), room=50), show(3, listed(1, linked(3, 4), linked(4, 3)))
    show(3, listed(1, linked(3, 3, 3)), room=65536 if size > 1 else 8000)
    for room in (0, 100, 65536):
        show(7, listed(1, linked(7, *[7] * 15)), room=room)
    show(7, listed(1, linked(7, *[8] * 15), linked(8)), room=2000), show(7, listed(1, linked(7, *[8] * 15), linked(8)), room=65536)
    # other types aren't followed; what is missing is told
    for type_ in range(16):
        show(1, listed(1, linked(1, 1, 2, 3, type_=type_)) + listed(1, linked(2)))
    # doubled numbers: the first that is accepted
    one, two = linked(4, header=b"one"), linked(4, header=b"two")
    show(4, listed(1, one, two)), show(4, listed(1, two, one)), show(4, listed(2, one) + listed(1, two)), show(4, listed(2, one) + listed(1, two), 2)
    for at, value in ((2, 6), (3, 1), (HEAD, LOST), (-1, 0x00), (HEAD + 1, 0x15)):
        first = listed(1, one)
        show(4, with_bytes(first, (at, value)) + listed(1, two)), show(4, with_bytes(first, (at, value)))
    show(4, table.write_block(1, table.form_of(CASE_G)) + listed(1, two)), show(0, table.write_block(1, table.form_of(CASE_G)))
    bad = Block(one)
    bad.field(*HEADER_SIZE, 3)
    show(4, bad.record() + listed(1, two)), show(4, guide.record_of(guide.head_of(1, 0), b"") + listed(1, two))
    passed_over(show), long_cases(show)
    # what is printed for each code
    show(1, listed(1, EMPTY._replace(block_no=1, header=plain(bytes(range(0x80))), events=[Event(65535, 0, [], plain(bytes(range(0x7F, -1, -1))))])))
    for number in (0, 9, 10, 99, 100, 9999, 10000, 65535):
        show(number, listed(1, linked(number, number + 1 & 0xFFFF, 65535 - number)))
    for _ in range(8 * size):                                        # some menus at random, some damaged
        numbers, records = dice.between(1, 9), b""
        for _ in range(dice.between(1, 12)):
            made = some_menu(dice, dice.below(numbers))._replace(descriptors=[])
            made = made._replace(events=[some_event(dice, dice.below(numbers) if dice.below(3) else None) for _ in range(dice.below(3))])
            record = menu.write_menu(1, menu.form_of(made))
            records += with_bytes(record, (dice.between(2, len(record) - 1), dice.below(256))) if dice.chance(5) else record
        show(dice.below(numbers), records, room=dice.pick([65536, 4096, 500]))
    for payload in (b"", b"\x01", b"\x01\x00"):
        script.case(41, 99, payload)


def passed_over(show):
    """A record of the number that is asked for, before another: refused for each cause, or taken with what isn't as it is written."""
    one, two = linked(4, 8, 9, header=b"one"), listed(1, linked(4, header=b"two"))
    for fault in ("part", "second", "size", "first", "kind", "access", "rest", "parity", "sum", "header", "lengths"):
        block = Block(one)
        FAULTS[fault](block)
        show(4, block.record() + two), show(4, block.record())
    whole = listed(1, one)
    for at in range(HEAD + 11, HEAD + menu.width(one) // 4, 7):      # bytes behind its number
        show(4, with_bytes(whole, (at, LOST)) + two)
    for kind in DATATYPES:
        show(4, changed(one, *KIND, kind) + two)
    show(4, b"".join(table.write_block(1, table.form_of(CASE_G._replace(kind=kind, descriptors=[]))) for kind in (table.LI, table.TI)) + two)
    for part in range(6):
        show(4, with_bytes(whole, (2, part)) + two), show(4, with_bytes(whole, (2, part), (3, 1)) + two)
    for bit in range(8):                                             # a third of its control bytes mended
        show(4, with_bytes(whole, *((at, whole[at] ^ 1 << bit) for at in range(HEAD + bit % 3, HEAD + menu.width(one) // 4, 3))) + two)
    for place, width in spare_fields(0):
        show(4, changed(one, place, width, (1 << width) - 1) + two)


def long_listing(length):
    """Menus of which 1 has a listing of so many bytes: it links twice to 2, that fifteen times to 3; its own strings make up the rest."""
    deep = [linked(2, *[3] * 15), worded(2047)._replace(block_no=3)]
    first = linked(1, 2, 2, header=b"")
    left = length - len(menu.list_menu(1, 1, listed(1, first, *deep)))
    for at, event in enumerate(first.events):
        some = min(left, 253)
        first.events[at] = event._replace(string=plain(event.string.codes + b"." * some))
        left -= some
    assert left == 0
    return listed(1, first, *deep)


def long_cases(show):
    """A large record, a hundred records, the longest listing that the room can hold and one byte more, bytes behind the last record."""
    large, small = worded(2047), linked(1, 2)
    show(0, listed(1, large)), show(1, listed(1, large, small, large)), show(0, listed(1, small, large), room=2000)
    hundred = [linked(n, 99 - n) for n in range(100)]
    for number in (0, 57, 99, 100):
        show(number, listed(1, *hundred))
    show(3, listed(1, *[linked(3, header=b"%d" % n) for n in range(100)]))
    show(1, long_listing(65536), room=65536), show(1, long_listing(65536), room=65535)
    for room in (65536, 65537, 2 ** 32 - 1):                         # no more than 65,536 is ever lent
        show(1, long_listing(65537), room=room), show(0, listed(1, SAMPLE), room=room)
    for length in (1, 2, 3):
        show(1, listed(1, small) + listed(1, small)[:length]), show(1, listed(1, small)[:length])
        show(1, listed(1, small) + listed(1, small)[:length], room=0)


def list_call(payload, room=65536):
    return menu.list_menu(payload[0], int.from_bytes(payload[1:3], "little"), payload[3:], room)


def script_of(dice, size):
    script = Script({
        32: (1, lambda payload, room: block_line(menu.read_menu, payload, room)),
        33: (1, lambda payload, room: line(menu.write_menu, payload[0], payload[1:], room)),
        41: (3, lambda payload, room: line(list_call, payload, room)),
    })
    read = lambda record, application=1, room=4096: script.case(32, room, bytes([application]) + record)
    write = lambda form, application=1, room=4096: script.case(33, room, bytes([application]) + form)

    def both(made, application=1, room=8192):
        form = menu.form_of(made)
        write(form, application, room), read(menu.write_menu(application, form), application, room)

    def rooms(made, application):
        form = menu.form_of(made)
        room_tried(script, 33, bytes([application]) + form, lambda payload: menu.write_menu(payload[0], payload[1:]))
        room_tried(script, 32, bytes([application]) + menu.write_menu(application, form), lambda payload: menu.read_menu(payload[0], payload[1:]).form)

    for made in (EMPTY, SAMPLE, *(some_menu(dice) for _ in range(15 * size))):
        rooms(made, dice.below(32))
    for descriptors in (*range(8), 31, 32, 61, 62, 63):
        both(some_menu(dice, descriptors=descriptors, events=descriptors % 3))
    for count in range(64):
        both(EMPTY._replace(descriptors=[(at, 63 - at, 255 - 4 * at) for at in range(count)]))
    for kind in (0x00, 0x7F, 0x80, 0xBF, 0xC0, 0xDF, 0xE0, 0xFF):     # no bits and all bits
        both(EMPTY._replace(events=[Event(0, 0, [(kind, info) for info in (0, (1 << 8 * menu.info_bytes(kind)) - 1, 0)], plain(b""))]))
    for kind in KINDS:
        both(EMPTY._replace(events=[Event(1, 2, [some_attribute(dice, kind), (0, 1), some_attribute(dice, kind)], plain(b"k"))]))
    for kind in sorted(set(range(256)) - set(KINDS)):
        both(EMPTY._replace(events=[Event(1, 2, [(kind, kind)], plain(b"k"))]))
    for count in (14, 15):
        both(EMPTY._replace(events=[Event(1, 2, [some_attribute(dice) for _ in range(count)], plain(b""))]))
        both(EMPTY._replace(events=[some_event(dice) for _ in range(count)]))
    for escape in (Escape(0, 0, 0), Escape(1023, 63, 255), Escape(1, 0x0A, 0), Escape(512, 0x1F, 0x61)):
        both(EMPTY._replace(header=plain(b"ab", [escape] * 2), events=[Event(0, 1, [], plain(b"", [escape]))]))
    both(EMPTY._replace(header=plain(b"", [Escape(9, 9, 9), Escape(3, 3, 3)] * 127 + [Escape(0, 0, 0)])))
    for header, event in ((b"", b""), (b"", b"x"), (b"x", b""), (b"x" * 255, b""), (b"", b"x" * 255)):
        both(EMPTY._replace(header=plain(header), events=[Event(65535, 15, [], plain(event))] * 2))
    for value in (0, 1, 2):
        both(EMPTY._replace(header_size=value, message_size=7 - value, message_attribute=255 * value // 2, copyright=value % 2, block_no=65535 - value))
    # the largest blocks: 8,184 control bits, 2,047 bytes; one more
    for made in (filled(1023, 0), filled(1023, 1), worded(2046), worded(2047)):
        both(made)
    for made in (filled(1023, 2), filled(1024, 0), filled(1022, 4), worded(2048)):
        write(menu.form_of(made)), write(menu.form_of(made)[:-1]), write(menu.form_of(made), room=0)
    for made in (worded(2049), *(worded(length, 15) for length in (4095, 4096, 4097)), fullest()):
        write(menu.form_of(made))
    for room in (65536, 65537, 2 ** 32 - 1):
        both(SAMPLE, room=room)
    record = menu.write_menu(1, menu.form_of(filled(1023, 1)))
    read(with_bytes(hit(dice, record[:-1], 2046) + record[-1:], (2, 5)), room=8192)
    fault_cases(read), size_cases(read, dice), parity_cases(read, dice), write_faults(write, dice)
    good = menu.write_menu(1, menu.form_of(SAMPLE))
    head_cases(read, good), odd_cases(read), far_cases(read)
    for length in range(0, len(good), 3):
        read(good[:length])
    for n in range(12):                                              # small sizes, of images and of anything
        head = guide.head_of(1, n)
        for raw in (octet.images([0] * n), bytes([LOST]) * n, dice.bytes(n)):
            read(guide.record_of(head, raw)), read(guide.record_of(head, raw, 6))
    for kind in DATATYPES:
        for access in range(4):
            block = Block(SAMPLE)
            block.field(*KIND, kind), block.field(*ACCESS, access)
            read(block.record())
    read(table.write_block(1, table.form_of(CASE_G)))
    for _ in range(40 * size):                                       # anything changed
        form = menu.form_of(some_menu(dice))
        write(with_bytes(form, (dice.below(len(form)), dice.pick([0, 1, 3, 16, 64, 128, 255, dice.below(256)]))))
        block = Block(some_menu(dice))
        block.nibbles[dice.between(2, len(block.nibbles) - 1)] = dice.below(16)
        read(with_bytes(block.record(), (2, dice.below(7))))
        read(hit(dice, block.record(), dice.below(5)))
    list_cases(script, dice, size)
    for op in (0, 30, 31, 34, 40, 42, 255):
        script.case(op, 99, good)
    script.case(32, 99, b""), script.case(33, 99, b"")
    script.cut_short(b"\x20\x40\x00\x00")
    return script
