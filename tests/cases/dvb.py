"""Table forms as descriptors, descriptors as they are read, and what is wrong with either."""

from itertools import combinations

from model import dvb, table
from model.table import LI, TI, Table

from .form import Script, line, room_tried, with_bytes
from .table import CASE_G, LATER, extreme_tables, limits, shaped, some_table, some_word, spread, unwritable

DUT = 0x647574
OTHER_PAGES = {0x008123: "1123", 0x400123: "1223", 0x800123: "1423"}     # a page field, and a descriptor's last two bytes
L2_PRINTED = "32F7F3"               # annex L.2.2: page 123, any subcode, its nibbles in the order in which they are sent
ANY_123 = sum(int(digit, 16) << 4 * i for i, digit in enumerate(L2_PRINTED))


def dutch(*words):
    """A table of one descriptor with these pages."""
    return CASE_G._replace(descriptors=[(5, [number for word in words for number in (DUT, word)])])


def titled(counts):
    """A table of descriptors with so many subtitles each, no two of them alike."""
    words = [number * factor % 2 ** 24 for number in range(1, sum(counts) + 1) for factor in (0x0B3A57, 0x9D51E3)]
    return Table(TI, 1, 0x8000, 7, [(at * 5 % 64, words[2 * sum(counts[:at]):2 * sum(counts[:at + 1])]) for at in range(len(counts))])


def scattered(dice, count, descriptors):
    """So many subtitles, put into so many descriptors as it falls; at most 15 in each."""
    counts = [0] * descriptors
    for _ in range(count):
        counts[dice.pick([at for at, held in enumerate(counts) if held < 15])] += 1
    return titled(counts)


def all_ones(count):
    """So many subtitles, each with every bit of its language and page set."""
    return shaped(TI, spread(count, 4), 0xFFFFFF)


def needed(count):
    """The bytes of so many subtitles, written or read."""
    return dvb.FRONT + dvb.ENTRY * count


# --- what can be wrong with a form, in the order in which it is judged ------------------

# Each rule's number, and the ways in which it is broken: the fault's name, and what it is.
RULES = (
    (22, [("number", 3), ("number", 0x8001)]),
    (13, [("cut", 5), ("cut", 4)]),
    (15, [("kind", LI), ("kind", 0), ("kind", 255), ("kind", "LI")]),
    (13, [("length", -1), ("length", 1)]),
    (15, [("value", at) for at in range(5)]),
    (26, [("many", [15, 15, 15, 7]), ("many", [15] * 11)]),
    (1, [("room", 0), ("room", -1)]),
)
SOUND = titled([2, 0, 1])


def valued(made, at):
    """The same table with a value too large for its field: the copyright bit, an id, entries, descriptors, bits in all (never without over 51
    subtitles: 51 in 63 descriptors have 3,136 bits)."""
    (id, words), *rest = made.descriptors
    return (made._replace(copyright=2), made._replace(descriptors=[(64, words), *rest]), made._replace(descriptors=[*rest, (id, words[:2] * 16)]),
            made._replace(descriptors=made.descriptors + [(0, [])] * (64 - len(made.descriptors))),
            made._replace(descriptors=[(id, words[:2] * 15)] * 12))[at]


def broken(faults):
    """A form and a room with these faults and no other: a sound one where there is none."""
    made = titled(faults["many"]) if "many" in faults else SOUND
    if "value" in faults:
        made = valued(made, faults["value"])
    if "number" in faults:
        made = made._replace(block_no=faults["number"])
    need, kind = needed(len(dvb.subtitles(made))), faults.get("kind", TI)
    if kind == "LI":                                    # one whose length is right
        made = made._replace(kind=LI, descriptors=[(id, words[::2]) for id, words in made.descriptors])
    form = table.form_of(made)
    if kind != "LI":
        form = with_bytes(form, (0, kind))
    if "length" in faults:
        form = form[:-1] if faults["length"] < 0 else form + b"\x00"
    return form[:faults.get("cut")], {0: 0, -1: need - 1}.get(faults.get("room"), need)


def fault_sets():
    """The first way of every set of rules, and every two ways of two rules, each with the number that is due."""
    for chosen in range(1 << len(RULES)):
        rules = [rule for at, rule in enumerate(RULES) if chosen >> at & 1]
        yield dict(ways[0] for _, ways in rules), rules[0][0] if rules else 0
    for (no, ways), (_, others) in combinations(RULES, 2):
        for way in ways:
            for other in others:
                yield dict([way, other]), no
    for no, ways in RULES:
        for way in ways[1:]:
            yield dict([way]), no


# --- writing ------------------------------------------------------------------------------

def page_cases(write):
    """Every bit of the page field alone, and every one missing; every magazine; every page."""
    for bit in range(24):
        write(dutch(1 << bit)), write(dutch(0xFFFFFF ^ 1 << bit))
    for magazine in range(8):
        bits = (magazine & 1) << 15 | (magazine >> 1) << 22
        for rest in (0, 0x3F7FFF, 0x000123, ANY_123, 0x155555, 0x2A2AAA):
            write(dutch(bits | rest))
    for first in range(0, 256, 51):
        pages = range(first, min(first + 51, 256))
        write(titled([])._replace(descriptors=[(at // 15, [DUT, page * 0x010101]) for at, page in enumerate(pages)]))
        for place in range(3):                          # a language is any three bytes
            write(titled([])._replace(descriptors=[(at // 15, [int.from_bytes(with_bytes(b"dut", (place, letter)), "big"), 0x000888]) for at, letter in enumerate(pages)]))
    for first in range(24):                             # two bits
        for second in range(first):
            write(dutch(1 << first | 1 << second))


def count_cases(write, script, dice):
    """Numbers of subtitles, over one descriptor and over several."""
    for made in (titled([]), titled([0]), titled([0] * 63), titled([1]), titled([0, 0, 1]), titled([1] + [0] * 62), titled([15]), titled([15, 15])):
        room_tried(script, 70, table.form_of(made), dvb.write_descriptor)
    for count in (50, 51, 52):
        for descriptors in (4, 5, count, 63):
            for made in (titled(spread(count, descriptors)), scattered(dice, count, descriptors)):
                write(made), write(made, needed(count)), write(made, needed(count) - 1)
        write(titled([1] * count)), write(titled([count])), write(all_ones(count)), write(all_ones(count), 0)
    for count in range(52):
        made = scattered(dice, count, max(4, dice.below(64)))
        write(made, needed(count)), write(made, needed(count) - 1)
    for count in (16, 51, 52, 102, 255):                # more than a descriptor can have
        write(titled([count])), write(titled([1, count])), write(titled([count, 0]), 0)
    for count in (54, 60, 64, 75, 100, 102, 103, 128, 153, 154, 164, 165):
        write(titled(spread(count, 11))), write(titled(spread(count, 11)), 0)
    write(titled([15] * 11), needed(165)), write(titled([15] * 12), needed(180))
    write(titled([3] * 17)), write(titled([3] * 17 + [0] * 46)), write(titled([3] * 17 + [0] * 47)), write(titled([4] * 13)), write(titled([0] * 64))
    for within, over in limits():                       # of TI these are 26 and 15
        write(within), write(over), write(over, 0)
    write(titled([255] * 10)), write(titled([255] * 10), 0)


def form_cases(write_form, write, dice):
    """22, 13, 15, 13, 15, 26, 1."""
    for faults, _ in fault_sets():
        write_form(*broken(faults))
    form = table.form_of(SOUND)
    for length in range(len(form)):
        for kind in (TI, LI, 3):
            write_form(with_bytes(form, (0, kind))[:length], 99)
    for block_no in (*table.NUMBERS, *LATER):
        other = with_bytes(form, (2, block_no % 256), (3, block_no // 256))
        for kind in (TI, LI, 9):
            for length in (0, 1, 2, 3, 4, 5, 6, 7, len(form) - 1, len(form)):
                write_form(with_bytes(other, (0, kind))[:length], 99)
        write_form(other + b"\x00", 99), write_form(with_bytes(other, (1, 2)), 99), write_form(other, 0)
    short = table.form_of(CASE_G)
    for value in range(256):                            # every kind, copyright bit and id
        for at in (0, 1, 6):
            write_form(with_bytes(short, (at, value)), 99)
    for at in (2, 3, 4, 5, 7):
        for value in (0, 1, 2, 3, 14, 15, 16, 17, 51, 52, 62, 63, 64, 65, 127, 128, 129, 192, 254, 255):
            write_form(with_bytes(form, (at, value)), 99), write_form(with_bytes(short, (at, value)), 99)
    for value in range(256):
        write_form(with_bytes(form[:6], (5, 0), (0, value)), 99), write_form(with_bytes(form[:6], (5, value)), 99)
    for made in (*extreme_tables(), *unwritable()):
        write(made), write(made._replace(block_no=3)), write(made, 0)
    for made in (shaped(LI, [51, 1]), shaped(LI, [15, 15, 15, 6]), shaped(LI, [15, 15, 15, 7]), shaped(LI, [])):
        write(made), write_form(table.form_of(made)[:-1], 99), write_form(table.form_of(made) + b"\x08", 99), write_form(table.form_of(made)[:5], 99)
    write_form(form + form), write_form(form + form[6:]), write_form(b""), write_form(b"", 0)
    for made in (titled([15, 15, 15, 7]), titled([15, 15, 15, 6])):     # its last descriptor says more and fewer than there are
        whole = table.form_of(made)
        last = 6 + 3 * (2 + 6 * 15) + 1
        for count in (0, 5, 6, 7, 8, 15, 16, 255):
            write_form(with_bytes(whole, (last, count))), write_form(with_bytes(whole, (last, count)), 0)


# --- reading ------------------------------------------------------------------------------

def some_entry(dice, type_=None):
    type_ = dice.pick([2, 2, 2, 5, 1, 3, 18, dice.below(32)]) if type_ is None else type_
    return dvb.entry(dvb.Subtitle(some_word(dice).to_bytes(3, "big"), dice.below(8), dice.below(256)), type_)


def some_body(dice, length):
    """So many bytes: entries, and what is left."""
    return b"".join(some_entry(dice) for _ in range(length // dvb.ENTRY)) + dice.bytes(length % dvb.ENTRY)


def type_cases(read, script, dice):
    """Every type with every magazine, alone and among others."""
    for both in range(256):
        read(bytes([dvb.TAG, 5, 0x64, 0x75, 0x74, both, 0x88]))
    for type_ in range(32):
        other = [some_entry(dice, type_) for _ in range(3)]
        for entries in (other, [some_entry(dice, 2), other[0], some_entry(dice, 2)], [other[0], some_entry(dice, 2), other[1]]):
            read(dvb.descriptor(entries))
        read(dvb.descriptor([some_entry(dice, type_) for _ in range(dvb.MOST)]))
    for first in range(0, 256, 51):                     # every page, every letter
        some = range(first, min(first + 51, 256))
        read(dvb.descriptor([b"dut" + bytes([0x10 + n % 8, n]) for n in some])), read(dvb.descriptor([bytes([n, 255 - n, n, 0x10, 0x88]) for n in some]))
    for count in range(dvb.MOST + 1):                   # every number of subtitles, and of those passed over
        entries = [some_entry(dice, 2) for _ in range(count)]
        while len(entries) < dvb.MOST:
            entries.insert(dice.below(len(entries) + 1), some_entry(dice, dice.pick([0, 1, 3, 4, 5, 6, 10, 18, 31])))
        made = dvb.descriptor(entries)
        read(made, needed(count)), read(made, needed(count) - 1)
    for types in ([], [5], [2], [2, 5], [5, 2], [5, 5, 2, 2, 5], [0, 1, 3, 4], [2] * 51, [5] * 51, [2, 5] * 25):
        room_tried(script, 71, dvb.descriptor([some_entry(dice, type_) for type_ in types]), dvb.read_descriptor)


def length_cases(read, dice):
    """Every length with its bytes, without them, with one fewer and one more; with bytes that are a multiple of 256 more."""
    for length in range(256):
        front, body = bytes([dvb.TAG, length]), some_body(dice, length + 1)
        for own in sorted({0, max(length - 1, 0), length, length + 1}):
            read(front + body[:own])
    for length in range(0, 256, 5):                     # one entry fewer, one more
        front, body = bytes([dvb.TAG, length]), some_body(dice, length + 5)
        read(front + body[:max(length - 5, 0)], 0), read(front + body)
    for length in (0, 4, 5, 9, 10, 254, 255):
        for more in (256, 512, 1280):
            read(bytes([dvb.TAG, length]) + some_body(dice, length + more))


def descriptor_cases(read, dice):
    """27 and 1: the tag, a length that is no multiple, one that isn't that of the bytes, no room; each alone and with each other."""
    good = dvb.descriptor([some_entry(dice, type_) for type_ in (2, 5, 2)])
    need = len(dvb.read_descriptor(good))
    for tag in range(256):
        read(with_bytes(good, (0, tag))), read(bytes([tag, 0])), read(bytes([tag]))
    for tag in (dvb.TAG, 0x46, 0x55, 0x57, 0x59, 0xD6, 0):
        for length in (len(good) - 2, len(good) - 3, len(good) - 7, len(good) + 3, 0):
            for room in (need, need - 1, 0):
                made = with_bytes(good, (0, tag), (1, length))
                read(made, room), read(made[:-1], room), read(made + b"\x10", room), read(made + good[2:7], room), read(made[:2 + length], room)
    for length in range(len(good)):
        read(good[:length]), read(good[:length], 0)
    for room in (65536, 65537, 2 ** 32 - 1):
        read(good, room)
    for lent in (b"", b"\x56", b"\x00", b"\x56\x00", b"\x56\x01", b"\x56\x05", b"\x05\x56", b"\x56\x56"):
        for room in (0, 1, 2, 3, 99):
            read(lent, room)
    read(good + good), read(good[2:]), read(table.form_of(CASE_G))


def some_lent(dice):
    """A descriptor, or nearly one."""
    made = dvb.descriptor([some_entry(dice) for _ in range(dice.pick([0, 1, 2, 3, 8, dice.below(52)]))])
    if dice.chance(3):
        made = with_bytes(made, (dice.below(len(made)), dice.pick([0, 2, 5, 0x10, 0x17, 0x56, 255, dice.below(256)])))
    return made[:dice.below(len(made) + 1)] if dice.chance(6) else made + dice.bytes(dice.below(7)) if dice.chance(6) else made


def script_of(dice, size):
    script = Script({
        70: (0, lambda payload, room: line(dvb.write_descriptor, payload, room)),
        71: (0, lambda payload, room: line(dvb.read_descriptor, payload, room)),
    })
    write_form = lambda form, room=512: script.case(70, room, form)
    write = lambda made, room=512: write_form(table.form_of(made), room)
    read = lambda lent, room=512: script.case(71, room, lent)

    def both(made):
        form = table.form_of(made)
        room_tried(script, 70, form, dvb.write_descriptor), room_tried(script, 71, dvb.write_descriptor(form), dvb.read_descriptor)

    for made in (CASE_G, dutch(*OTHER_PAGES), *map(dutch, OTHER_PAGES), dutch(ANY_123), shaped(TI, [])):
        both(made)
    for _ in range(12 * size):
        both(some_table(dice, TI, dice.below(5), 10))
    page_cases(write), count_cases(write, script, dice), form_cases(write_form, write, dice)
    type_cases(read, script, dice), length_cases(read, dice), descriptor_cases(read, dice)
    for room in (65536, 65537, 2 ** 32 - 1):
        write(CASE_G, room), write(titled([15] * 11), room)
    for _ in range(60 * size):
        made = some_table(dice, dice.pick([TI, TI, TI, LI]), dice.below(7), 15)
        form = table.form_of(made)
        write_form(form, dice.pick([512, 257, 100, dice.below(300)]))
        write_form(with_bytes(form, (dice.below(len(form)), dice.pick([0, 1, 7, 8, 15, 16, 63, 64, 255, dice.below(256)]))))
        read(some_lent(dice), dice.pick([512, 257, 100, dice.below(300)])), read(dice.bytes(dice.below(40))), read(some_lent(dice))
    for op in (0, 1, 31, 40, 69, 72, 73, 255):
        script.case(op, 99, table.form_of(CASE_G)), script.case(op, 99, b"")
    script.case(70, 99, b""), script.case(71, 99, b"")
    script.cut_short(b"\x46\x40\x00\x00\x00\x0E\x00\x00\x00" + table.form_of(CASE_G)[:9])
    return script
