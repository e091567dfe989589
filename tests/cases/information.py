"""Application Information both ways, and whether a broadcast is lawful: every field and name at its limits, the largest blocks, each refusal alone and
in pairs, and each rule of table D.1 at its limit and over, with blocks that count and blocks that don't."""

import itertools

from model import guide, information, octet, table
from model.guide import HEAD
from model.information import AI, GENERAL, MI, NETWORK, OPENING, SPARE, UI, Information, Named, in_form
from model.table import LI, TI

from . import menu as menu_cases
from .form import LOST, Script, line, room_tried, with_bytes
from .menu import ACCESS, CONTROL, KIND, Strung, control_sizes, first_eight, head_cases, odd_cases
from .table import block_line, hit, nibbles_in, shaped, with_field


# --- values ---------------------------------------------------------------------------

def named(row, length, name, values):
    """The values of a row, 0 where nothing else is said, with its name's length."""
    blank = {value: 0 for value, _ in in_form(row)}
    assert values.keys() <= blank.keys()
    return Named({**blank, length: len(name), **values}, name)


def network(name=b"", **values):
    return named(NETWORK, "netwop_name_len", name, values)


def informed(name=b"", networks=(), **values):
    return Information(named(OPENING, "service_name_length", name, {"no_of_networks": len(networks), **values}), list(networks))


def value_widths(row):
    return [(name, width) for name, width in row if name != SPARE and name not in ("no_of_networks", "service_name_length", "netwop_name_len")]


def some_values(dice, row):
    return {name: dice.below(1 << width) for name, width in value_widths(row)}


def some_name(dice, most=31):
    return bytes(dice.between(0x20, 0x7E) if dice.below(8) else dice.below(0x80) for _ in range(dice.below(most + 1)))


def some_information(dice, networks=None, most=12):
    count = dice.below(5) if networks is None else networks
    return informed(some_name(dice, most), [network(some_name(dice, most), **some_values(dice, NETWORK)) for _ in range(count)], **some_values(dice, OPENING))


EMPTY = informed()
SAMPLE = informed(b"Hotel", [
    network(b"One", cni=0x1234, LTO_magnitude=4, no_of_days=7, default_alphabet=0x24, prog_start_no=1, prog_stop_no=300, prog_stop_no_swo=0x8001,
            network_version_no=33, no_of_LI_structures=1, no_of_TI_structures=2, network_add_info=1),
    network(b"", LTO_sign=1, no_of_days=31, prog_stop_no=0xFFFF), network(b"Three", cni=0xFEDC, default_alphabet=1, no_of_TI_structures=1)],
    copyright=1, epg_version_number=9, epg_version_number_swo=37, no_of_navigation_info=2, no_of_osd_info=0x0100, no_of_message_info=3,
    no_of_navigation_info_swo=0x0400, no_of_osd_info_swo=5, no_of_message_info_swo=0x8006, this_operator_network_no=2, no_of_updates=1)


def named_in_all(networks, codes):
    """So many networks, and so many codes in the names, the first ones first."""
    lengths = []
    for _ in range(networks + 1):
        lengths.append(min(codes, 31))
        codes -= lengths[-1]
    assert codes == 0
    return informed(b"s" * lengths[0], [network(b"n" * length, cni=at) for at, length in enumerate(lengths[1:])])


def changed(made, at, name=None, **values):
    """With other values, and another name without its length, in the service (none) or in a network."""
    def again(one):
        return Named({**one.values, **values}, one.name if name is None else name)

    if at is None:
        return made._replace(service=again(made.service))
    return made._replace(networks=[again(one) if j == at else one for j, one in enumerate(made.networks)])


def renamed(made, at, name):
    """With another name and its length."""
    return changed(made, at, name, **{"service_name_length" if at is None else "netwop_name_len": len(name)})


def record_of(made, application=1):
    return information.write_information(application, information.form_of(made))


class Block(Strung):
    def __init__(self, made):
        super().__init__(information.control_nibbles(made), information.codes_of(made))


def place(field, at=None):
    """Where a field of the opening (none) or of a network begins, and its width."""
    before, row = (GENERAL, OPENING) if at is None else (GENERAL + OPENING + NETWORK * at, NETWORK)
    index = [name for name, _ in row].index(field)
    return sum(width for _, width in before + row[:index]), row[index][1]


def spare_fields(networks):
    """reserved, fill_up_1 and, where the number of networks is odd, fill_up, as (place, width)."""
    return ((27, 1), (158, 2), (160 + 100 * networks, 4))[:2 + networks % 2]


def with_fields(made, *fields):
    """A record with other values in some fields, each (place, width), value; its sum agrees."""
    block = Block(made)
    for where, value in fields:
        block.field(*where, value)
    return block.record()


# --- reading --------------------------------------------------------------------------

FAULTS = {name: fault for name, fault in menu_cases.FAULTS.items() if name != "header"}
FAULTS["lengths"] = lambda b: b.field(*place("no_of_networks"), 2)


def length_cases(read):
    """Counts and lengths that don't fit, and those that fit otherwise than they were written."""
    for made in (SAMPLE, EMPTY, named_in_all(1, 33), named_in_all(2, 9)):
        count = len(made.networks)
        control_sizes(read, lambda: Block(made), information.control_size(made))
        for networks in sorted({0, 1, count - 1, count + 1, count + 2, 81, 255} - {count, -1}):
            read(with_fields(made, (place("no_of_networks"), networks)))
        for more in (b"\x20", b"\x20\x20", b"\x20" * 25):            # bytes behind the names
            block = Block(made)
            block.strings += more
            read(block.record())
        block = Block(made)                                          # .. and too few
        block.strings = block.strings[:-1]
        read(block.record())
        for spare in (0, 15):                                        # control data behind the last field
            block = Block(made)
            block.nibbles += [spare, spare]
            read(block.record())
            block.field(*CONTROL, information.control_size(made) + 1)
            read(block.record())
    first_eight(read, lambda: Block(EMPTY))
    for networks in (79, 81):
        read(with_fields(named_in_all(80, 7), (place("no_of_networks"), networks)))
    service, first, last = place("service_name_length"), place("netwop_name_len", 0), place("netwop_name_len", 2)
    for lengths in itertools.product((4, 5, 6), (2, 3, 4), (4, 5, 6)):       # one code to the name before or behind it is another form
        read(with_fields(SAMPLE, *zip((service, first, last), lengths)))
    for lengths in ((13, 0, 0), (0, 13, 0), (0, 0, 13), (31, 31, 31), (0, 0, 0)):
        read(with_fields(SAMPLE, *zip((service, first, last), lengths)))
    for more in (25, 26):                                            # two networks' control data made three's, without and with fill_up
        block = Block(named_in_all(2, 5))
        block.nibbles += [0] * more
        block.field(*place("no_of_networks"), 3), block.field(*CONTROL, information.control_size(named_in_all(3, 0)))
        read(block.record())
    for made in (EMPTY, named_in_all(2, 3)):                         # no fill_up where the number of networks is even
        block = Block(made)
        block.nibbles += [0]
        read(block.record())
        block.field(*CONTROL, information.control_size(made) + 1)
        read(block.record())
    block = Block(named_in_all(1, 3))                                # .. and none left out where it is odd
    block.nibbles = block.nibbles[:-1]
    read(block.record())
    block.field(*CONTROL, 32)
    read(block.record())


def spare_cases(read, write):
    for networks in (0, 1, 2, 3, 79, 80):
        made = named_in_all(networks, 2)
        spares = spare_fields(networks)
        read(with_fields(made, *((spare, (1 << spare[1]) - 1) for spare in spares)))
        for spare in spares if networks < 79 else ():
            for value in range(1, 1 << spare[1]):
                read(with_fields(made, (spare, value)))
            block = Block(made)                                      # in the sum
            block.off = -1
            block.field(*spare, 1)
            read(block.record())
    for value in range(4):                                           # reserved too, but kept
        both_ways = changed(SAMPLE, 2, network_add_info=value)
        read(record_of(both_ways)), write(information.form_of(both_ways))


def byte_cases(read, dice):
    """Mended bytes, wrong parity, bytes that can't be decoded: at each place, early and late."""
    record = record_of(SAMPLE)
    control = HEAD + 2 * information.control_size(SAMPLE)
    for at in range(HEAD, len(record)):
        bit = dice.below(8)
        read(with_bytes(record, (at, record[at] ^ 1 << bit)))
        if at % 3 == 0 or at >= control - 2:
            read(with_bytes(record, (at, record[at] ^ 1 << bit ^ 1 << (bit + dice.between(1, 7)) % 8)))
    for part in range(8):
        for joined in (0, 1, 2):
            read(with_bytes(hit(dice, record[:control], 7 * part) + record[control:], (2, part), (3, joined)))
    for bit in range(8):
        read(with_bytes(record, (control - 1, record[control - 1] ^ 1 << bit))), read(with_bytes(record, (control, record[control] ^ 1 << bit)))
    read(with_bytes(record, (control, 0), (len(record) - 1, 0))), read(with_bytes(record, (control - 1, LOST), (control, 0)))
    read(with_bytes(record, (HEAD + 7, LOST), (HEAD + 8, LOST))), read(with_bytes(record, (HEAD + 8, LOST), (HEAD + 9, LOST)))
    for code in range(0x80):
        made = record_of(informed(bytes([code])))
        read(made) if code % 7 == 0 or code in (0x1F, 0x20, 0x7F) else None
        read(with_bytes(made, (-1, made[-1] ^ 0x80))) if code % 11 == 0 else None
    large, wordy = record_of(named_in_all(80, 7)), record_of(named_in_all(36, 1107))
    read(with_bytes(hit(dice, large[:HEAD + 2040], 2040) + large[HEAD + 2040:], (2, 5), (3, 1)), room=8192)     # 2,045, the most there can be
    for at in (255, 256, 1501, 2043):
        read(with_bytes(large, (at, LOST), (2043, LOST)))
    for at in (944, 945, 1501, 2050):
        read(with_bytes(wordy, (at, 0), (2050, 0)))


# --- writing --------------------------------------------------------------------------

WRONG = {
    "setting": lambda form: (form, 32, 4096),
    "short": lambda form: (form[:19], 1, 4096),
    "kind": lambda form: (with_bytes(form, (0, 3)), 1, 4096),
    "counts": lambda form: (form[:-1], 1, 4096),
    "value": lambda form: (with_bytes(form, (1, 2)), 1, 4096),
    "code": lambda form: (form[:20] + b"\x80" + form[21:], 1, 4096),
    "room": lambda form: (form, 1, 0),
}


def write_faults(write):
    """Each refusal alone, and each two of them, one of which may be a block that is too long."""
    for one in WRONG:
        write(*WRONG[one](information.form_of(named_in_all(80, 8))))
        for two in WRONG:
            form, application, room = WRONG[one](information.form_of(SAMPLE))
            if two != one:
                form, more, less = WRONG[two](form)
                application, room = max(application, more), min(room, less)
            write(form, application, room)
    form = information.form_of(SAMPLE)
    for application in (0, 31, 32, 33, 255):
        write(form, application), write(b"", application), write(form[:19], application), write(form, application, 0)
    for length in range(len(form)):
        write(form[:length])
    for more in (b"\x00", b"\x01", bytes(16), bytes(17), form):
        write(form + more), write(form + more, room=0)
    empty = information.form_of(EMPTY)
    for length in range(24):
        write((empty + bytes(8))[:length]), write(bytes(length)), write(b"\x01" + b"\xff" * length)
    for kind in (0, 2, 3, 7, 8, 0x41, 0x81, 255):
        for length in (1, 19, 20, 21, len(form)):
            write(with_bytes(form, (0, kind))[:length])
        write(with_bytes(form, (0, kind)) + b"\x00"), write(with_bytes(form, (0, kind)), 32), write(with_bytes(form, (0, kind)), room=0)
    for at in range(len(form)):
        for value in (255,) if at > 20 else (0, 2, 32, 64, 0x80, 255):
            write(with_bytes(form, (at, value)))


def field_cases(both, write):
    """Each value at its greatest and one over: in the opening, in the first network and in the last."""
    for row, at in ((OPENING, None), (NETWORK, 0), (NETWORK, 2)):
        for name, width in value_widths(row):
            greatest = (1 << width) - 1
            both(changed(EMPTY if at is None else named_in_all(3, 0), at, **{name: greatest}))
            for over in sorted({greatest + 1, 128, 255}) if width < 8 else ():
                if over > greatest:
                    form = information.form_of(changed(SAMPLE, at, **{name: over}))
                    write(form), write(form, room=0) if over == greatest + 1 else None, write(form[:-1]) if over == greatest + 1 else None
        full = {name: (1 << width) - 1 for name, width in value_widths(row)}
        both(changed(SAMPLE, at, **full))
        for name, width in value_widths(row):                        # all but one
            both(changed(EMPTY if at is None else named_in_all(3, 0), at, **{**full, name: 0 if width < 16 else 0x00FF}))


def name_cases(both, write):
    """Names of 0, 31 and 32, and every code, in each place."""
    for at in (None, 0, 1, 2):
        for length in (0, 1, 30, 31):
            both(renamed(SAMPLE, at, b"n" * length))
        for length in (32, 33, 64, 255):
            form = information.form_of(renamed(SAMPLE, at, b"n" * length))
            write(form), write(form[:-1]), write(form + b"n"), write(form, room=0)
            write(information.form_of(changed(SAMPLE, at, b"n" * length)))       # the codes without their length
        for codes in (bytes(range(0x1F)), b"\x1f\x7f", b"\x7f" * 31, b" ~"):
            both(renamed(SAMPLE, at, codes))
        for codes in (b"\x80", b"ab\x80", b"\x80ab", b"a\xffb"):
            write(information.form_of(renamed(SAMPLE, at, codes)))
    for at in (None, 2):                                             # a code over 7F and nothing else, first or last in a long name
        for codes in (b"\x80" + b"n" * 30, b"n" * 30 + b"\x80", b"n" * 15 + b"\xa0" + b"n" * 15):
            write(information.form_of(renamed(SAMPLE, at, codes)))
    both(informed(b"", [network(bytes(range(at, at + 16))) for at in range(0, 0x80, 16)]))


def size_cases(both, write):
    """0, 1, 2, 79, 80 networks; 81 and 255; 2,047 bytes and 2,048; the longest form, 1,739 bytes."""
    for networks, codes in ((0, 0), (0, 31), (1, 0), (1, 62), (2, 0), (2, 93), (3, 5), (36, 1107), (79, 31), (80, 0), (80, 7)):
        both(named_in_all(networks, codes))
    both(informed(b"", [network()] * 79 + [network(b"seventh")]))
    for networks, codes in ((36, 1108), (37, 1082), (79, 32), (80, 8), (80, 31), (81, 0), (81, 31), (82, 0), (82, 9), (255, 0)):
        form = information.form_of(named_in_all(networks, codes))
        write(form), write(form[:-1]) if networks % 3 == 0 else None, write(form, room=0) if networks % 3 == 1 else None
    write(information.form_of(named_in_all(255, 256 * 31)))


# --- the verdict ----------------------------------------------------------------------

def guide_of(channel=0, networks=2, application=1, **values):
    """An AI's record."""
    return record_of(informed(b"G", [network()] * networks, this_operator_network_no=channel, **values), application)


def plain(kind, application=1, size=8, fill=0):
    """A record of a kind, of so many bytes, its sum right."""
    nibbles = with_field([fill] * size, "datatype_id", kind)
    return table.summed(application, with_field(nibbles, "control_block_size", size // 2))


def table_record(kind, network_no, block_no=0, counts=(), application=1):
    return table.write_block(application, table.form_of(shaped(kind, counts)._replace(network=network_no, block_no=block_no)))


def over(rule, channel):
    """Records that break a rule, where the list has one AI without them."""
    return {"AI": lambda: guide_of(channel, 1), "MI": lambda: plain(MI) * 256, "UI": lambda: plain(UI) + plain(UI, size=10),
            "LI": lambda: table_record(LI, channel ^ 1) * 2, "TI": lambda: table_record(TI, channel) * 3}[rule]()


def within(rule, channel):
    """.. and records at its limit."""
    return {"AI": lambda: b"", "MI": lambda: plain(MI) * 255, "UI": lambda: plain(UI),
            "LI": lambda: table_record(LI, channel ^ 1) + table_record(LI, channel) * 2,
            "TI": lambda: table_record(TI, channel) + table_record(TI, channel ^ 1) + table_record(TI, channel, 0x8000)}[rule]()


RULES = ("AI", "MI", "UI", "LI", "TI")


def rule_cases(judge):
    for channel in (0, 7, 255):
        good = guide_of(channel)
        for rule in RULES if channel == 7 else ("AI", "UI", "LI", "TI"):
            judge(good + within(rule, channel)), judge(good + over(rule, channel)), judge(over(rule, channel) + good)
    some = ("AI", "UI", "LI", "TI")
    for count in (2, 3, 4):                                          # the first in the table's order, whatever the list's
        for broken in itertools.combinations(some, count):
            records = [guide_of(9), *(over(rule, 9) for rule in broken)]
            judge(b"".join(records)), judge(b"".join(reversed(records)))
    for other in ("AI", "UI", "LI"):
        judge(over(other, 9) + over("MI", 9) + guide_of(9))
    judge(guide_of(9) + b"".join(over(rule, 9) for rule in reversed(RULES))), judge(guide_of(9) + over("TI", 9) + over("MI", 9))
    for broken in RULES:                                             # one over, the others at their limits
        judge(b"".join(over(rule, 9) if rule == broken else within(rule, 9) for rule in RULES) + guide_of(9))
    judge(b"".join(within(rule, 9) for rule in RULES) + guide_of(9))


def network_cases(judge):
    """LI and TI: one for each network, two for this channel, which is the number that the AI names, listed there or not."""
    for kind, other in ((LI, TI), (TI, LI)):
        for channel, listed in ((0, 0), (0, 1), (0, 3), (1, 1), (1, 3), (2, 3), (3, 3), (254, 2), (255, 0), (255, 3)):
            good = guide_of(channel, listed)
            for network_no in sorted({0, 1, channel, 255}):
                for count in (1, 2, 3):
                    judge(good + table_record(kind, network_no) * count) if count == 2 or network_no in (channel, 255) else None
            judge(good + table_record(kind, channel) * 2 + table_record(kind, channel ^ 1) + table_record(other, channel) * 2 + table_record(other, channel ^ 1))
        good = guide_of(5)
        all_networks = b"".join(table_record(kind, network_no) for network_no in range(256))
        judge(good + all_networks + table_record(kind, 5)), judge(all_networks + table_record(kind, 5) * 2 + good)
        for network_no in (0, 255) if kind == LI else (4,):
            judge(table_record(kind, network_no) + all_networks + table_record(kind, 5) * (network_no % 4) + good)
        for numbers in itertools.product(table.NUMBERS, repeat=2):   # which of the two numbers they have isn't looked at
            for network_no in (5, 6):
                judge(good + b"".join(table_record(kind, network_no, number) for number in numbers))
        judge(good + table_record(kind, 6) + table_record(other, 6)), judge(good + table_record(kind, 6, counts=[2, 1]) + table_record(kind, 7, counts=[2, 1]))
        judge(good + table_record(kind, 6, counts=[2, 1]) + table_record(kind, 6)), judge(good + table_record(kind, 5, counts=[3]) + table_record(kind, 5))
        for said in (0, 1, 3):                                       # what the AI says of its own blocks isn't looked at
            own = record_of(informed(b"", [network(no_of_LI_structures=said % 2, no_of_TI_structures=said)] * 6,
                                     this_operator_network_no=5, no_of_message_info=said, no_of_updates=said % 2))
            judge(own), judge(own + table_record(kind, 4)), judge(own + table_record(kind, 4) * 2), judge(own + table_record(kind, 5) * 2)


def standing(kind):
    """Blocks of a kind that nobody reads: those that are tried of MI too, and those of UI alone."""
    block = plain(kind, size=12)
    nibbles = nibbles_in(block)
    both = [with_bytes(block, (HEAD + 8, LOST)), with_bytes(block, (HEAD + 11, LOST), (HEAD + 8, 0)),            # behind the eighth byte
            with_bytes(block, (HEAD, octet.image(nibbles[0] ^ 1))), table.summed(1, with_field(nibbles, "CA_mode", 3)), with_bytes(block, (2, 6)),
            plain(kind), plain(kind, 2), with_bytes(block, (HEAD + 7, block[HEAD + 7] ^ 16)), with_bytes(block, (HEAD + 7, LOST))]
    alone = [block, with_bytes(block, (2, 255)), with_bytes(block, (3, 2)), with_bytes(block, (2, 5), (3, 1)), guide.record_of(guide.head_of(1, 0), b"")]
    alone += [with_bytes(block, (at, byte)) for at in range(HEAD, HEAD + 8) for byte in (LOST, block[at] ^ 1)]
    alone += [table.summed(1, with_field(nibbles, field, value)) for field, value in (
        ("CA_mode", 1), ("CA_mode", 2), ("copyright", 1), ("reserved", 1), ("control_block_size", 0), ("control_block_size", 1023))]
    alone += [plain(kind, application) for application in (0, 3, 30, 31)] + [plain(kind, size=size) for size in (7, 9, 10, 11, 300, 2047)]
    return both, alone


def standing_cases(judge):
    """MI and UI count as they stand, if their first eight bytes say what they are."""
    for kind, most in ((UI, 0), (MI, 254)):
        before = guide_of() + plain(kind) * most + plain(kind, size=12, fill=5)        # at the limit: one that counts is too many
        both, alone = standing(kind)
        for record in both + alone if kind == UI else both:
            judge(before + record)


TABLE_FAULTS = {
    "sum": lambda r: with_bytes(r, (HEAD, octet.image(octet.decode(r[HEAD]) ^ 1))),
    "access": lambda r: table.summed(1, with_field(nibbles_in(r), "CA_mode", 1)),
    "first": lambda r: with_bytes(r, (HEAD + 7, LOST)),
    "rest": lambda r: with_bytes(r, (len(r) - 1, LOST)),
    "part": lambda r: with_bytes(r, (2, 6)),
    "second": lambda r: with_bytes(r, (3, 2)),
    "number": lambda r: table.summed(1, with_field(nibbles_in(r), "block_no", 1)),
    "lengths": lambda r: table.summed(1, with_field(nibbles_in(r), "descr_no", 1)),
    "odd": lambda r: table.summed(1, nibbles_in(r) + [0]),
    "application": lambda r: with_bytes(r, (0, r[0] ^ 3)),
}
TAKEN = {                                                            # .. and what a table may be like
    "mended": lambda r: with_bytes(r, (HEAD + 9, r[HEAD + 9] ^ 64), (HEAD + 3, r[HEAD + 3] ^ 1)),
    "reserved": lambda r: table.summed(1, with_field(nibbles_in(r), "reserved", 1)),
    "way": lambda r: with_bytes(r, (2, 5), (3, 1)),
}


def read_cases(judge):
    """LI, TI and AI count where reading accepts them."""
    good = guide_of(5)
    for kind in (LI, TI):
        for network_no, count in ((6, 1), (5, 2)):                   # at the limit, and one more that is refused, or isn't
            record = table_record(kind, network_no)
            for fault in (*TABLE_FAULTS.values(), *TAKEN.values()):
                judge(good + record * count + fault(record)), judge(good + fault(record) * 3) if count == 1 else None
        judge(good + plain(kind) * 3), judge(good + b"".join(fault(table_record(kind, 6)) for fault in TABLE_FAULTS.values()))
    for fault in FAULTS:                                             # an AI that is refused names no channel and isn't a second one
        if fault in ("setting", "length", "application", "room"):
            continue
        block = Block(SAMPLE)                                        # this channel is 2
        FAULTS[fault](block)
        record = block.record()
        judge(record), judge(record + good), judge(good + record), judge(record + table_record(LI, 2) * 2 + good), judge(record + good + table_record(LI, 5) * 2)
    sample = record_of(SAMPLE)
    for record in (with_bytes(sample, (2, 5), (3, 1)), with_bytes(sample, (HEAD + 20, sample[HEAD + 20] ^ 1)), with_fields(SAMPLE, *((spare, 1) for spare in spare_fields(3)))):
        judge(record), judge(record + good), judge(record + sample), judge(record + table_record(TI, 2) * 2), judge(record + table_record(TI, 5) * 2)
    judge(plain(AI)), judge(plain(AI) + good), judge(plain(AI, size=40)), judge(plain(AI, size=40, fill=1))


def kind_cases(judge):
    """The other kinds: any number of each; those that nobody knows too."""
    good, ni = guide_of(1), menu_cases.listed(1, menu_cases.SAMPLE)
    for kind in range(64):
        judge(good + plain(kind) * 2)
    for kind in (2, 4, 0x3E, 0x3F, 0, 9, 0x3D):
        judge(plain(kind) * 300 + good) if kind in (2, 4, 0x3E, 0x3F) else judge(plain(kind) * 3), judge(plain(kind) * 3 + plain(UI) * 2 + good)
    judge(good + ni), judge(good + ni * 10), judge(ni), judge(good + with_bytes(ni, (-1, 0))), judge(ni + good + plain(UI) + plain(UI, fill=3))
    judge(good + menu_cases.listed(1, menu_cases.EMPTY) * 260)


def list_cases(judge, script):
    """16, 13, 24, 1; equal blocks; other applications; the room."""
    good, ui = guide_of(1), plain(UI)
    for records in (b"", good, good * 2, ui * 2, good[:-1], good + b"\x01", good + ui + good[:3], ui + good[:5], b"\x01", b"\x00" * 3, b"\x00" * 4,
                    guide_of(1, application=2)):
        for application in (0, 1, 2, 31, 32, 255):
            judge(records, application), judge(records, application, room=0)
    for records in (good, good + ui * 2, good * 2):
        room_tried(script, 42, b"\x01" + records, lambda payload: information.lawful(payload[0], payload[1:]))
        for room in (10, 20, 21, 27, 28, 65536, 65537, 2 ** 32 - 1):
            judge(records, room=room)
    for records in (good * 2, good * 3, good + ui * 2, good + table_record(LI, 3) * 2, good + table_record(TI, 3) * 2, good + table_record(TI, 1) * 2,
                    good + table_record(LI, 1) * 3, good + with_bytes(good, (2, 1)), good + ui + with_bytes(ui, (HEAD + 6, ui[HEAD + 6] ^ 1)), good + guide_of(2), guide_of(2) + good):
        judge(records)
    for ours, other in ((0, 1), (1, 0), (1, 3), (31, 15)):           # each rule broken only with another application's blocks
        own, theirs = guide_of(1, application=ours), guide_of(2, application=other)
        judge(theirs, ours), judge(own, ours), judge(own + theirs, ours), judge(theirs + own, ours), judge(theirs * 2 + own, ours), judge(own + theirs, other)
        judge(own + plain(UI, ours) + plain(UI, other), ours), judge(own + plain(UI, other) * 2, ours), judge(own + plain(MI, other) * 30 + plain(MI, ours) * 2, ours)
        for kind in (LI, TI):
            judge(own + table_record(kind, 3, application=ours) + table_record(kind, 3, application=other), ours)
            judge(theirs + own + table_record(kind, 2, application=ours) * 2, ours), judge(theirs + own + table_record(kind, 1, application=ours) * 2, ours)
    judge(plain(MI, 3) * 100 + plain(MI) * 200 + good)
    for many in (plain(UI) * 257, plain(MI) * 511, table_record(LI, 3) * 257, table_record(TI, 1) * 258, record_of(EMPTY) * 256):
        judge(good + many)                                           # a count that goes round at 256 would pass
    judge(record_of(named_in_all(80, 7)) + table_record(LI, 0) * 2), judge(record_of(named_in_all(36, 1107)) + table_record(LI, 1) * 2)


def some_lists(judge, dice, size):
    for _ in range(30 * size):
        channel = dice.below(4)
        records = [guide_of(channel, dice.below(3))] if dice.below(6) else []
        for _ in range(dice.below(8)):
            kind = dice.pick([LI, LI, TI, TI, UI, MI, 2, 4, AI])
            if kind in (LI, TI):
                record = table_record(kind, dice.below(4), dice.pick(table.NUMBERS), [1] * dice.below(2))
            else:
                record = guide_of(dice.below(4), 1) if kind == AI and dice.chance(4) else plain(kind, size=dice.between(8, 14))
            records.insert(dice.below(len(records) + 1), hit(dice, record, dice.below(3)) if dice.chance(4) else record)
        judge(b"".join(records), room=dice.pick([4096, 4096, 21]))


def script_of(dice, size):
    script = Script({
        34: (1, lambda payload, room: block_line(information.read_information, payload, room)),
        35: (1, lambda payload, room: line(information.write_information, payload[0], payload[1:], room)),
        42: (1, lambda payload, room: line(information.lawful, payload[0], payload[1:], room)),
    })
    read = lambda record, application=1, room=4096: script.case(34, room, bytes([application]) + record)
    write = lambda form, application=1, room=4096: script.case(35, room, bytes([application]) + form)
    judge = lambda records, application=1, room=64: script.case(42, room, bytes([application]) + records)

    def both(made, application=1, room=4096):
        form = information.form_of(made)
        write(form, application, room), read(information.write_information(application, form), application, room)

    for made in (EMPTY, SAMPLE, *(some_information(dice) for _ in range(6 * size))):
        application, form = dice.below(32), information.form_of(made)
        room_tried(script, 35, bytes([application]) + form, lambda payload: information.write_information(payload[0], payload[1:]))
        room_tried(script, 34, bytes([application]) + record_of(made, application), lambda payload: information.read_information(payload[0], payload[1:]).form)
    for room in (65536, 65537, 2 ** 32 - 1):
        both(SAMPLE, room=room)
    good = record_of(SAMPLE)
    field_cases(both, write), name_cases(both, write), size_cases(both, write)
    menu_cases.fault_cases(read, FAULTS, lambda: Block(SAMPLE)), length_cases(read), spare_cases(read, write), byte_cases(read, dice)
    head_cases(read, good), odd_cases(read, lambda: Block(SAMPLE)), write_faults(write)
    for length in range(0, len(good), 5):
        read(good[:length])
    for n in range(12):                                              # small sizes, of images and of anything
        for raw in (octet.images([0] * n), bytes([LOST]) * n, dice.bytes(n)):
            read(guide.record_of(guide.head_of(1, n), raw)), read(guide.record_of(guide.head_of(1, n), raw, 6))
    for kind in menu_cases.DATATYPES:
        for access in range(4):
            read(with_fields(EMPTY, (KIND, kind), (ACCESS, access)))
    read(menu_cases.listed(1, menu_cases.SAMPLE)), read(table_record(TI, 1))
    for _ in range(40 * size):                                       # anything changed
        form = information.form_of(some_information(dice))
        write(with_bytes(form, (dice.below(len(form)), dice.pick([0, 1, 2, 4, 32, 64, 128, 255, dice.below(256)]))))
        block = Block(some_information(dice))
        block.nibbles[dice.between(2, len(block.nibbles) - 1)] = dice.below(16)
        read(with_bytes(block.record(), (2, dice.below(7))))
        read(hit(dice, block.record(), dice.below(5)))
    rule_cases(judge), network_cases(judge), standing_cases(judge), read_cases(judge), kind_cases(judge), list_cases(judge, script), some_lists(judge, dice, size)
    for op in (0, 30, 32, 33, 36, 41, 43, 255):
        script.case(op, 99, good)
    script.case(34, 99, b""), script.case(35, 99, b""), script.case(42, 99, b"")
    script.cut_short(b"\x22\x40\x00\x00")
    return script
