"""Table forms as the desk's lines."""

from model import listing, table
from model.table import Table

from .form import Script, line, room_tried, with_bytes
from .table import CASE_G, LATER, extreme_tables, limits, shaped, some_table, unwritable


def list_call(payload, room=2 ** 32):
    """How many bytes were mended, low byte first, a record's second byte and a table form."""
    return listing.list_table(payload[3:], int.from_bytes(payload[:2], "little"), payload[2], room)


def list_payload(form, mended=0, joined=0):
    return mended.to_bytes(2, "little") + bytes([joined]) + form


def script_of(dice, size):
    script = Script({40: (3, lambda payload, room: line(list_call, payload, room))})
    show = lambda form, room=65536, mended=0, joined=0: script.case(40, room, list_payload(form, mended, joined))
    for t in (CASE_G, *(some_table(dice) for _ in range(40 * size))):
        room_tried(script, 40, list_payload(table.form_of(t), dice.below(2052), dice.below(2)), list_call)
    for mended in (0, 1, 9, 10, 99, 100, 256, 999, 1000, 2051, 2052, 9999, 10000, 65535):
        show(table.form_of(CASE_G), mended=mended), show(table.form_of(shaped(table.LI, [])), mended=mended)
    for joined in (1, 2, 3, 9, 10, 49, 127, 128, 129, 255):     # 1 prints a line, and no other value does
        for t in (CASE_G, shaped(table.LI, []), shaped(table.TI, [])):
            show(table.form_of(t), mended=joined * 8, joined=joined)
    for t in (CASE_G, shaped(table.LI, [])):                    # its line needs nine bytes
        length = len(listing.list_table(table.form_of(t)))
        for joined in (0, 1, 2):
            for room in (length, length - 1, length + 8, length + 9):
                show(table.form_of(t), room, joined=joined)
    for t in extreme_tables():
        show(table.form_of(t))
    for within, over in limits():
        text = len(listing.list_table(table.form_of(within)))
        show(table.form_of(within), text), show(table.form_of(within), text - 1), show(table.form_of(over), joined=1)
        show(table.form_of(within), text + 8, joined=1)
    for kind in (table.TI, table.LI):                   # a language is three of a..z
        for at in range(3):
            for letter in (0x00, 0x20, 0x41, 0x60, 0x61, 0x62, 0x79, 0x7A, 0x7B, 0xE1, 0xFF):
                word = int.from_bytes(with_bytes(b"max", (at, letter)), "big")
                page = [dice.below(1 << 24)] if kind == table.TI else []
                show(table.form_of(Table(kind, 1, dice.below(10), dice.below(10), [(at, [word] + page)])))
    for number in (0, 9, 10, 99, 100, 255):             # decimals of each length
        for block_no in (0, 0x8000, number, 65535):     # another than 0 and 8000 hex isn't of this edition
            show(table.form_of(Table(table.LI, 0, block_no, number, [(number % 64, [])])))
    form = table.form_of(some_table(dice, table.TI, 2, 2)._replace(descriptors=[(9, [1, 2]), (3, [4, 5, 6, 7])]))
    for length in range(len(form)):
        show(form[:length]), show(form[:length], 0, joined=1)
    show(form + b"\x00")
    for block_no in LATER:
        other = with_bytes(form, (2, block_no % 256), (3, block_no // 256))
        show(other), show(other, 0), show(other[:-1]), show(other[:5]), show(other[:4]), show(other[:3]), show(with_bytes(other, (0, 3)))
    for t in unwritable():                              # 22 before 15
        show(table.form_of(t._replace(block_no=3)))
    for at, value in ((0, 0), (0, 6), (0, 9), (0, 255), (1, 2), (1, 255), (2, 1), (3, 1), (3, 0x80), (3, 0xC0), (5, 1), (5, 3), (5, 64), (6, 64),
                      (14, 255), (7, 16), (7, 0)):
        show(with_bytes(form, (at, value))), show(with_bytes(form, (at, value)), 0), show(with_bytes(form, (at, value))[:-1])
    for kind in (table.TI, table.LI):
        for counts in ([15], [16], [0] * 63, [0] * 64, [255]):
            show(table.form_of(shaped(kind, counts)))
    for payload in (b"", b"\x00", b"\x00\x00", b"\x01\x00\x01", bytes(2) + form, bytes(2) + b"\x01" + form):
        script.case(40, 99, payload)
    for op in (0, 39, 41, 255):
        script.case(op, 99, bytes(3) + form)
    script.cut_short(b"\x28\x40\x00\x00\x00\x08\x00\x00\x00" + form[:7])
    return script
