"""Menus: the Navigation Information block (EN 300 707, clauses 11.6, 11.12.1, 11.12.4, 11.12.5, A.3 and A.4), their listing, and the program `menus`."""

from typing import NamedTuple

from . import Refused, need
from .guide import HEAD, head_in, head_of, record_of, records_in
from .listing import DESK
from .octet import images, mended
from .streams import blocks
from .table import COMMON, FIRST, Bits, Read, checksum, decoded, nibbles_laid, opened

NI = 3                              # datatype_id, clause 11.12.3
MOST_SIZE = 2047                    # of a block, in bytes
LEVELS = 8                          # of a listing, at most and where no number is named
TO_MENU = 1                         # the type of a link to another menu, clause 11.12.5


class Escape(NamedTuple):
    position: int
    mode: int
    data: int


class String(NamedTuple):
    escapes: list
    codes: bytes                    # 0 to 7F, without parity


class Event(NamedTuple):
    link: int                       # the block_no of what it links to
    link_type: int
    attributes: list                # (kind, info)
    string: String


class Menu(NamedTuple):
    copyright: int
    block_no: int
    header_size: int
    message_size: int
    message_attribute: int
    descriptors: list               # (type, id, eval)
    header: String
    events: list


def info_bytes(kind):
    """How many bytes the info of an attribute has (table 41)."""
    return 1 if kind <= 0x7F else 2 if kind <= 0xBF else 3 if kind <= 0xDF else 4


# --- the fields, widths and values, from header_size on ------------------------------

def string_fields(string):
    """Its escape sequences and its length; the codes come at the block's end."""
    fields = [(8, len(string.escapes))]
    for escape in string.escapes:
        fields += [(10, escape.position), (6, escape.mode), (8, escape.data)]
    return fields + [(8, len(string.codes))]


def event_fields(event):
    fields = [(16, event.link), (4, event.link_type), (4, len(event.attributes))]
    for kind, info in event.attributes:
        fields += [(8, kind), (8 * info_bytes(kind), info)]
    return fields + string_fields(event.string)


def menu_fields(menu):
    fields = [(2, menu.header_size), (4, len(menu.events)), (3, menu.message_size), (1, 0), (6, len(menu.descriptors))]
    for type_, id, eval_ in menu.descriptors:
        fields += [(6, type_), (6, id), (8, eval_)]
    if len(menu.descriptors) % 2 == 0:      # fill_up_2
        fields.append((4, 0))
    fields += string_fields(menu.header) + [(8, menu.message_attribute)]
    for event in menu.events:
        fields += event_fields(event)
    return fields


def width(menu):
    return sum(w for _, w in COMMON) + sum(w for w, _ in menu_fields(menu))


def codes_of(menu):
    """All codes in the order in which they are sent."""
    return b"".join(string.codes for string in [menu.header, *(event.string for event in menu.events)])


def block_size(menu):
    """Two bytes for each whole byte of control data, and one for each code; there is never any fill behind the last field."""
    assert width(menu) % 8 == 0
    return width(menu) // 4 + len(codes_of(menu))


# --- the NI form ----------------------------------------------------------------------

def form_of(menu):
    form = bytes([NI, menu.copyright]) + menu.block_no.to_bytes(2, "little")
    form += bytes([menu.header_size, menu.message_size, menu.message_attribute, len(menu.descriptors), len(menu.events)])
    form += b"".join(map(bytes, menu.descriptors)) + string_form(menu.header)
    for event in menu.events:
        form += event.link.to_bytes(2, "little") + bytes([event.link_type, len(event.attributes)])
        form += b"".join(bytes([kind]) + info.to_bytes(info_bytes(kind), "big") for kind, info in event.attributes)
        form += string_form(event.string)
    return form


def string_form(string):
    escapes = b"".join(e.position.to_bytes(2, "little") + bytes([e.mode, e.data]) for e in string.escapes)
    return bytes([len(string.escapes), len(string.codes)]) + escapes + string.codes


class Form:
    """A form's bytes, taken one after the other; 13 where there are too few."""

    def __init__(self, form):
        self.rest = form

    def take(self, n):
        need(len(self.rest) >= n, 13)
        taken, self.rest = self.rest[:n], self.rest[n:]
        return taken

    def number(self, n, order="little"):
        return int.from_bytes(self.take(n), order)

    def string(self):
        escapes, length = self.take(2)
        return String([Escape(self.number(2), *self.take(2)) for _ in range(escapes)], self.take(length))

    def event(self):
        link, (type_, attributes) = self.number(2), self.take(2)
        kinds = []
        for _ in range(attributes):
            kind = self.number(1)
            kinds.append((kind, self.number(info_bytes(kind), "big")))
        return Event(link, type_, kinds, self.string())


def menu_of(form):
    """An NI form's menu: 13 (under nine bytes), 15 (the kind), 13 (its length isn't that of its counts), 15 (values, size)."""
    need(len(form) >= 9, 13)
    rest = Form(form)
    kind, copyright = rest.take(2)
    need(kind == NI, 15)
    block_no, (header_size, message_size, attribute, descriptors, events) = rest.number(2), rest.take(5)
    loop = [tuple(rest.take(3)) for _ in range(descriptors)]
    menu = Menu(copyright, block_no, header_size, message_size, attribute, loop, rest.string(), [rest.event() for _ in range(events)])
    need(rest.rest == b"", 13)
    need(writable(menu), 15)
    return menu


def writable(menu):
    """Every value fits its field, header_size isn't 3, codes have seven bits, and the block has a size."""
    fit = all(value < 1 << width for width, value in menu_fields(menu)) and menu.copyright <= 1
    return fit and menu.header_size < 3 and all(code <= 0x7F for code in codes_of(menu)) and block_size(menu) <= MOST_SIZE


# --- strings in bytes -----------------------------------------------------------------

def with_parity(code):
    """An odd number of ones (A.4)."""
    return code | (bin(code).count("1") % 2 == 0) << 7


# --- reading --------------------------------------------------------------------------

class Sound(NamedTuple):
    """A block with strings whose bytes are sound and whose sum agrees."""
    size: int
    control_size: int               # as it says itself
    nibbles: list                   # of its control bytes
    codes: bytes                    # of its string bytes
    mended: int                     # bytes of its start, header and control data
    joined: int

    def read(self, form, room):
        """The answer, with a form that has to fit the room."""
        need(len(form) <= room, 1)
        return Read(form, self.mended, self.joined)


def sound(application, record, kind):
    """What is judged of a block with strings before its lengths (SCOPE 23.6), and what it has then."""
    head, size, part, joined, nibbles, front = opened(application, record, [kind])
    control = HEAD + max(FIRST, min(2 * front["control_block_size"], size))
    nibbles += decoded(record, range(HEAD + FIRST, control))
    for at in range(control, len(record)):
        need(with_parity(record[at] & 0x7F) == record[at], 23, at)
    need(front["checksum"] == checksum(head, nibbles), 11)
    codes = bytes(byte & 0x7F for byte in record[control:])
    return Sound(size, front["control_block_size"], nibbles, codes, part + sum(map(mended, record[HEAD:control])), joined)


def read_menu(application, record, room=65536):
    """A record's NI form, how many bytes of its start, header and control data were mended, and whether it is joined."""
    block = sound(application, record, NI)
    menu, lengths = menu_in(block.nibbles)
    need(width(menu) == 8 * block.control_size and block_size(menu) == block.size and menu.header_size < 3, 14)
    return block.read(form_of(with_codes(menu, lengths, block.codes)), room)


def menu_in(nibbles):
    """The menu that control data says, with blank strings of the right lengths, and those lengths."""
    bits, lengths = Bits(nibbles), []
    front = bits.fields(COMMON)

    def string():
        escapes = [Escape(bits.take(10), bits.take(6), bits.take(8)) for _ in range(bits.take(8))]
        lengths.append(bits.take(8))
        return String(escapes, bytes(lengths[-1]))

    def event():
        link, type_, count = bits.take(16), bits.take(4), bits.take(4)
        attributes = []
        for _ in range(count):
            kind = bits.take(8)
            attributes.append((kind, bits.take(8 * info_bytes(kind))))
        return Event(link, type_, attributes, string())

    header_size, events, message_size, _, descriptors = (bits.take(w) for w in (2, 4, 3, 1, 6))
    loop = [(bits.take(6), bits.take(6), bits.take(8)) for _ in range(descriptors)]
    if descriptors % 2 == 0:
        bits.take(4)
    header, attribute = string(), bits.take(8)
    return Menu(front["copyright"], front["block_no"], header_size, message_size, attribute, loop, header,
                [event() for _ in range(events)]), lengths


def strings_in(codes, lengths):
    """Strings of these lengths, cut from the codes of a block."""
    return [codes[sum(lengths[:i]):sum(lengths[:i + 1])] for i in range(len(lengths))]


def with_codes(menu, lengths, codes):
    """The menu with its strings cut from the codes of a block."""
    cut = strings_in(codes, lengths)
    events = [event._replace(string=event.string._replace(codes=own)) for event, own in zip(menu.events, cut[1:])]
    return menu._replace(header=menu.header._replace(codes=cut[0]), events=events)


# --- writing --------------------------------------------------------------------------

def summed(application, nibbles, strings):
    """The record of control data, whose first two nibbles become its checksum, and string bytes."""
    head = head_of(application, len(nibbles) + len(strings))
    sum_ = checksum(head, nibbles)
    return record_of(head, images([sum_ % 16, sum_ // 16] + nibbles[2:]) + strings)


def control_nibbles(menu):
    common = (0, width(menu) // 8, NI, 0, menu.copyright, 0, menu.block_no)
    return nibbles_laid([(w, value) for (_, w), value in zip(COMMON, common)] + menu_fields(menu))


def write_menu(application, form, room=65536):
    need(application <= 31, 16)
    menu = menu_of(form)
    need(HEAD + block_size(menu) <= room, 1)
    return summed(application, control_nibbles(menu), bytes(map(with_parity, codes_of(menu))))


# --- the listing ----------------------------------------------------------------------

def shown(codes):
    """A code below 20 as a space, 7F as #."""
    return bytes(0x20 if code < 0x20 else 0x23 if code == 0x7F else code for code in codes)


def accepted(application, record):
    """A record's menu; none where reading refuses it."""
    try:
        return menu_of(read_menu(application, record).form)
    except Refused:
        return None


class Listing:
    """A walk over menus by their number, to so many levels, that ends as soon as the room is full."""

    def __init__(self, menus, levels, room):
        self.menus, self.levels, self.room, self.text = menus, levels, room, bytearray()

    def line(self, name, value):
        self.text += name + b"=" + (value if isinstance(value, bytes) else b"%d" % value) + b"\n"
        need(len(self.text) <= self.room, 1)

    def walk(self, number, level):
        """A menu, its events, and what they link to."""
        if number not in self.menus:
            self.line(b"missing", number)
            return
        menu = self.menus[number]
        self.line(b"level", level), self.line(b"menu", number), self.line(b"header", shown(menu.header.codes))
        for event in menu.events:
            self.line(b"level", level), self.line(b"event", shown(event.string.codes))
            self.line(b"link", b"%d,%d" % (event.link_type, event.link))
            if event.link_type == TO_MENU:
                if level == self.levels:
                    self.line(b"deeper", event.link)
                else:
                    self.walk(event.link, level + 1)


def lines_of(menus, number, levels, room):
    """The listing of a number, over menus by their number."""
    listing = Listing(menus, levels, room)
    listing.walk(number, 1)
    return bytes(listing.text)


def list_levels(application, number, levels, records, room=65536):
    """The listing over a list of records, of which the first menu of each number counts (SCOPE 23.8)."""
    need(application <= 31, 16)
    need(1 <= levels <= LEVELS, 16)
    menus = {}
    for menu in (accepted(application, record) for record in records_in(records)):
        if menu:
            menus.setdefault(menu.block_no, menu)
    return lines_of(menus, number, levels, room)


def list_menu(application, number, records, room=65536):
    return list_levels(application, number, LEVELS, records, room)


# --- the program ----------------------------------------------------------------------

STORE, TEXT = 1 << 19, 1 << 20      # the bytes of the records that are kept, and of the longest listing that is printed
NOTED = 20                          # the numbers that a note names


def kept(data, setting):
    """Of each number that came in a capture, in one stream or in either of two, the first accepted menu, in their order; none where it is left
    out: from the first that doesn't fit on, all."""
    came, used = {}, 0
    for _, record in blocks(setting, data):
        menu = accepted(setting.application, record)
        if menu and menu.block_no not in came:
            used += len(record)
            came[menu.block_no] = menu if used <= STORE else None
    return came


def told(name):
    """A file's name as it is told (SCOPE 13.8)."""
    return bytes(0x3F if byte < 0x20 or byte == 0x7F else byte for byte in name)


def note(number, came):
    """What the note says behind the name, where a number isn't among those that came."""
    some = b"".join(b" %d" % one for one in list(came)[:NOTED]) + b" .." * (len(came) > NOTED)
    return b"menu %d is missing; " % number + (b"came:" + some if came else b"none came")


def greatest(menus, number, below):
    """The greatest number of levels below a given one with which the listing isn't too long; one level always fits."""
    for levels in range(below - 1, 0, -1):
        try:
            lines_of(menus, number, levels, TEXT)
            return levels
        except Refused:
            pass
    raise AssertionError("one level is too long")


def told_of(came, number=0, levels=LEVELS, name=None):
    """What goes to standard output and to standard error for the menus of a capture; where a name is given, it was read by that."""
    menus = {no: menu for no, menu in came.items() if menu}
    title = b"" if name is None else b"file=" + told(name) + b"\n"
    input = b"standard input" if name is None else told(name)
    left = len(came) - len(menus)
    said = title + b"left=%d\n" % left if left else b""
    if number not in came:
        said += b"note: " + input + b": " + note(number, came) + b"\n"
    try:
        return title + lines_of(menus, number, levels, TEXT), said
    except Refused:
        fits = greatest(menus, number, levels)
        return b"", said + b"menus: " + input + b": the listing of menu %d is longer than 1 MB and isn't printed; -l %d fits\n" % (number, fits)


def menus(data, setting=DESK, number=0, levels=LEVELS, name=None):
    """The same of a capture (SCOPE 23.10)."""
    return told_of(kept(data, setting), number, levels, name)
