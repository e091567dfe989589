"""The day sheet in either form: read and written again, a table added, two joined, two compared, an entry dropped; every line's faults, and the limits; moved up and down."""

from model import changes, sheet, table
from model.sheet import MOST_STAMP, NEW, OLD, Entry
from model.table import LI, TI, Table

from .form import MOST, Script, line, room_tried
from .table import CASE_G, LATER, limits, shaped, some_word, spread, unwritable

BLOCKS = table.NUMBERS


# --- sheets ---------------------------------------------------------------------

def some_entry(dice, network=None, descriptors=None, most=4, form=OLD):
    kind = dice.pick([LI, TI])
    count = dice.below(4) if descriptors is None else descriptors
    loop = [(dice.below(64), [some_word(dice) for _ in range(table.WORDS[kind] * dice.below(most + 1))]) for _ in range(count)]
    entry = Entry(some_stamp(dice), Table(kind, 0, dice.pick(BLOCKS), dice.below(256) if network is None else network, loop))
    return entry._replace(mended=some_mended(dice)) if form.numbered else entry


def some_stamp(dice):
    return dice.pick([dice.below(10), dice.word(), 1794787200 + dice.below(3), 0, MOST_STAMP])


def some_mended(dice):
    return dice.pick([0, 0, dice.below(3), dice.below(NEW.most_mended + 1), NEW.most_mended])


def some_sheet(dice, count, networks=256, form=OLD):
    """At most so many entries, with numbers where the form has them; keys that come twice are one."""
    return sheet.joined([some_entry(dice, dice.below(networks), form=form) for _ in range(count)])


def overnight(dice, entries, networks=256, form=OLD):
    """What a night may make of a sheet: entries go, stay as they are, get another stamp or another table; others come."""
    left = []
    for entry in entries:
        loop, fate = entry.table.descriptors, dice.below(5)
        if fate > 1:
            entry = entry._replace(stamp=some_stamp(dice))
        if fate > 2:
            loop = dice.pick([loop[:-1], loop[1:], loop + [(dice.below(64), [])], [(63 - id, words) for id, words in loop], []])
        if fate > 0:
            left.append(entry._replace(table=entry.table._replace(descriptors=loop)))
    return sheet.joined(left, some_sheet(dice, dice.below(3), networks, form))


def small(count, stamp=0):
    """So many entries of the least length, in order."""
    keys = [(network, kind, block) for network in range(256) for kind in (LI, TI) for block in BLOCKS][:count]
    return [Entry(stamp, Table(kind, 0, block, network, [])) for network, kind, block in keys]


def sized(form, length, count=20):
    """So many entries that come to so many bytes: their stamps' digits make up what tables leave."""
    entries, at = [Entry(0, Table(TI, 0, 0, network, [])) for network in range(count)], 0
    while len(sheet.written(form, entries)) + 180 < length:
        t = entries[at % count].table
        entries[at % count] = Entry(0, t._replace(descriptors=t.descriptors + [(at % 64, [0x647574, 0x000888] * 3)]))
        at += 1
    for at in range(count):
        digits = 1 + min(9, length - len(sheet.written(form, entries)))
        entries[at] = entries[at]._replace(stamp=int("1" * digits))
    assert len(sheet.written(form, entries)) == length and sheet.read(form, sheet.written(form, entries)) == entries
    return entries


def most_entries(form):
    """The most entries that there is room for: most of the least length, and with so many of block 32768 it is the limit's bytes."""
    count, others = (377, 15) if form.numbered else (448, 14)
    tables = [Table(kind, 0, 0, network, []) for network in range(256) for kind in (LI, TI)][:count - others]
    entries = sheet.joined([Entry(0, t) for t in tables], [Entry(0, t._replace(block_no=0x8000)) for t in tables[:others]])
    assert len(entries) == count and len(sheet.written(form, entries)) == form.most_bytes
    return entries


LONGEST = {OLD: 5924, NEW: 5936}


def largest(form):
    """The entry with the longest text."""
    loop = [(63, [0xFFFFFF] * count) for count in spread(312, 63)]
    entry = Entry(MOST_STAMP, Table(LI, 0, 0x8000, 255, loop), form.most_mended)
    assert len(sheet.text_of(form, entry)) == LONGEST[form] and table.writable(entry.table)
    return entry


def with_numbers(form, entries, *numbers):
    """The entries with these numbers, by turns, where the form has any."""
    return [entry._replace(mended=numbers[at % len(numbers)] if form.numbered else 0) for at, entry in enumerate(entries)]


SAMPLE = [Entry(7, Table(LI, 0, 0, 9, [(5, [0x647574, 0x00FFFF]), (0, [])])),
          Entry(0, Table(TI, 0, 0, 9, [])),
          Entry(4294967295, Table(TI, 0, 0x8000, 10, [(63, [0x656E67, 0x000888, 0xABCDEF, 0xFFFFFF])]))]

FIVE = [Entry(stamp, Table(kind, 0, block_no, network, [(stamp, [0x647574] * table.WORDS[kind])])) for stamp, (network, kind, block_no) in enumerate(
    ((2, LI, 0), (2, LI, 0x8000), (2, TI, 0), (2, TI, 0x8000), (3, TI, 0)), 1)]


def form_of(entry, copyright=0):
    return table.form_of(entry.table._replace(copyright=copyright))


def named(entry):
    """An entry's key as it is given to be dropped."""
    return entry.table.network, entry.table.kind, entry.table.block_no


# --- the ops --------------------------------------------------------------------

def lent(payload, at):
    """A length of four bytes, low first, at a place: where so many bytes end, or nothing where there are fewer."""
    end = at + 4 + int.from_bytes(payload[at:at + 4], "little")
    return end if end <= len(payload) else None


def two_sheets(payload):
    return payload[4:lent(payload, 0)], payload[lent(payload, 0):]


def join_payload(first, second):
    return len(first).to_bytes(4, "little") + first + second


def drop_payload(key, text):
    network, kind, block_no = key
    return bytes([network, kind]) + block_no.to_bytes(2, "little") + text


class Calls:
    """The five calls of a form, each of a payload and a room."""

    def __init__(self, form):
        self.form, self.count = form, 2 if form.numbered else 0         # the bytes of a table's count, where one is lent
        self.all = {0: self.rewrite, 1: self.add, 2: self.join, 3: self.compare, 6: self.drop}

    def rewrite(self, payload, room=MOST):
        return sheet.rewrite(self.form, payload, room)

    def add(self, payload, room=MOST):
        end = lent(payload, 4)
        mended, table_form = payload[end:end + self.count], payload[end + self.count:]
        return sheet.add(self.form, int.from_bytes(payload[:4], "little"), int.from_bytes(mended, "little"), payload[8:end], table_form, room)

    def join(self, payload, room=MOST):
        return sheet.join(self.form, *two_sheets(payload), room)

    def compare(self, payload, room=MOST):
        return changes.compare(self.form, *two_sheets(payload), room)

    def drop(self, payload, room=MOST):
        return sheet.drop(self.form, payload[0], payload[1], int.from_bytes(payload[2:4], "little"), payload[4:], room)

    def add_line(self, payload, room):
        end = lent(payload, 4)
        return line(self.add, payload, room) if end and end + self.count <= len(payload) else "unknown"

    def join_line(self, payload, room):
        return line(self.join, payload, room) if lent(payload, 0) else "unknown"

    def compare_line(self, payload, room):
        """With the number of the sheet at fault, where one is."""
        if not lent(payload, 0):
            return "unknown"
        number = changes.at_fault(self.form, *two_sheets(payload))
        return line(self.compare, payload, room) + (f" sheet={number}" if number else "")

    def ops(self):
        """The ops 50 to 56 of the old form, 60 to 66 of the new one."""
        tens = tens_of(self.form)
        return {tens: (0, lambda payload, room: line(self.rewrite, payload, room)), tens + 1: (8, self.add_line), tens + 2: (4, self.join_line),
                tens + 3: (4, self.compare_line), tens + 6: (4, lambda payload, room: line(self.drop, payload, room))}


def tens_of(form):
    return 60 if form.numbered else 50


UP, DOWN = 54, 55
MOVES = {UP: (0, lambda payload, room: line(sheet.up, payload, room)), DOWN: (0, lambda payload, room: line(sheet.down, payload, room))}
OPS = {**Calls(OLD).ops(), **Calls(NEW).ops(), **MOVES}


class Sheets:
    """The five ops of a form as cases."""

    def __init__(self, script, form):
        self.script, self.form, self.calls = script, form, Calls(form)
        self.most, self.longest = form.most_bytes, LONGEST[form]
        self.sample, self.five = with_numbers(form, SAMPLE, 12, 0, 2051), with_numbers(form, FIVE, 0, 1, 0, 2051, 7)

    def text(self, entries):
        return sheet.written(self.form, entries)

    def one(self, entry):
        return sheet.text_of(self.form, entry)

    def sized(self, length, count=20):
        return sized(self.form, length, count)

    def some(self, dice, count, networks=256):
        return some_sheet(dice, count, networks, self.form)

    def case(self, which, room, payload):
        self.script.case(tens_of(self.form) + which, room, payload)

    def tried(self, which, payload):
        """With room to spare, exactly enough, one short and none."""
        room_tried(self.script, tens_of(self.form) + which, payload, self.calls.all[which])

    def add_payload(self, stamp, text, table_form, mended=0):
        return stamp.to_bytes(4, "little") + len(text).to_bytes(4, "little") + text + mended.to_bytes(2, "little")[:self.calls.count] + table_form

    def rewrite(self, text, room=None):
        self.case(0, self.most if room is None else room, text)

    def add(self, stamp, text, table_form, room=None, mended=0):
        self.case(1, self.most if room is None else room, self.add_payload(stamp, text, table_form, mended))

    def join(self, first, second, room=None):
        self.case(2, self.most if room is None else room, join_payload(first, second))

    def both(self, first, second, room=None):
        self.join(first, second, room), self.join(second, first, room)

    def compare(self, first, second, room=None):
        self.case(3, 2 * self.most if room is None else room, join_payload(first, second))

    def held(self, first, second, room=None):
        """Either one against the other."""
        self.compare(first, second, room), self.compare(second, first, room)

    def drop(self, key, text, room=None):
        self.case(6, self.most if room is None else room, drop_payload(key, text))

    def everywhere(self, text):
        """A sheet in each place where one is lent."""
        other = self.text(self.sample[1:2])
        self.rewrite(text), self.add(1, text, form_of(self.sample[1])), self.both(text, other)
        self.drop(named(self.sample[1]), text), self.held(text, other)


# --- reading --------------------------------------------------------------------

def line_faults(sheets, dice):
    """Every line of a small sheet, with everything that can befall it: the sheet ends with that line's entry, and what was shown of a
    line in an earlier entry is shown again by a few faults."""
    lines, shown = sheets.text(sheets.sample).split(b"\n")[:-1], set()

    def with_line(at, *instead):
        return b"".join(one + b"\n" for one in [*lines[:at], *instead, *lines[at + 1:lines.index(b"", at) + 1]])

    for at, text in enumerate(lines):
        name, _, value = text.partition(b"=")
        faults = (text + b"\r", name + value, name + b"=", text + b" ", b" " + text, text + b"\x00", b"\x00" + text, b"\xef\xbb\xbf" + text,
                  text.upper() + b"A", name + b" =" + value, name + b"= " + value, text + b"0" * 10, name[:-1] + b"=" + value)
        for fault in faults[:3] if name in shown and lines[:at].count(b"") else faults:
            sheets.rewrite(with_line(at, fault))
        shown.add(name)
        sheets.rewrite(with_line(at)), sheets.rewrite(with_line(at, text, text)), sheets.rewrite(with_line(at, b"", text))
        sheets.rewrite(with_line(at, text, b"mended=0")), sheets.rewrite(with_line(at, *lines[at + 1:at + 2], text))
        sheets.rewrite(b"\n".join(lines[:at] + [text])), sheets.rewrite(b"\n".join(lines[:at] + [text]) + b"\n")
        sheets.rewrite(b"\n".join(lines[:at] + [text + b"x"]))
        place = len(b"\n".join(lines[:at] + [text]))            # its LF is gone
        sheets.rewrite(sheets.text(sheets.sample)[:place] + sheets.text(sheets.sample)[place + 1:])
    text = sheets.text(sheets.sample)
    for whole in (b"\n", b"\n" + text, text + b"\n", text + b"\n\n", text + b"x", text + b"stamp=1", text + b"stamp=1\n", b"\x00", b"x", b"stamp",
                  text.replace(b"\n", b"\r\n"), b"\xef\xbb\xbf" + text, text.replace(b"\n", b"\r"), text + text, text[::-1]):
        sheets.rewrite(whole)


def numbers_tried(most):
    """Numbers up to a greatest one and over it, and what is spelled as no number is."""
    for value in (0, 9, 10, most - 1, most, most + 1, most + 2, 10 * most, 2 ** 8, 2 ** 16, 2 ** 32, 2 ** 32 + 2, 2 ** 64, 2 ** 64 + 3, 2 ** 128 + 1):
        yield str(value).encode()
    yield from (b"", b"00", b"01", b"+1", b"-0", b"-1", b"1 ", b" 1", b"0x1", b"1.0", b"1e1", b"1_0", b"a", b"\xb2", b"\xd9\xa1", b"0" * 30)


def value_faults(sheets, dice):
    """Numbers, languages, pages and kinds, in form and out of it."""
    base = sheets.text([Entry(1, Table(TI, 0, 0, 2, [(3, [0x647574, 0x000888])]))])
    given = lambda old, new: sheets.rewrite(base.replace(old, new))
    for old, most in ((b"stamp=1", MOST_STAMP), (b"network=2", 255), (b"block=0", 65535), (b"descriptor=3", 63)):
        for value in numbers_tried(most):
            given(old, old.partition(b"=")[0] + b"=" + value)
    for digits in (b"9" * 3000, b"1" + b"0" * 4999, b"0" * 2000, b"18446744073709551616" * 100):
        given(b"stamp=1", b"stamp=" + digits)
    for old in (b"network=2", b"block=0", b"descriptor=3", b"language=dut", b"page=000888"):
        given(old, old.partition(b"=")[0] + b"=1" + b"0" * 999)
    for value in (b"du", b"dutc", b"Dut", b"DUT", b"du1", b"d t", b"647574", b"64757A", b"64757a", b"64757b", b"647560", b"607574", b"617574",
                  b"7a7a7a", b"616161", b"606161", b"7b7a7a", b"61607a", b"aaaaaa", b"abcdef", b"000000", b"ffffff", b"FFFFFF", b"12345", b"1234567",
                  b"12345g", b"", b"`aa", b"{aa", b"aaz", b"zza", b"64757", b"zzzzzz"):
        given(b"language=dut", b"language=" + value)
    for value in (b"000000", b"ffffff", b"abcdef", b"ABCDEF", b"00088", b"0008888", b"00088g", b"dut", b"", b"0x0888", b"647574", b"/00000", b":00000"):
        given(b"page=000888", b"page=" + value)
    for value in (b"LI", b"li", b"Ti", b"TII", b"T", b"", b"NI", b"8", b"LI "):
        given(b"kind=TI", b"kind=" + value)
    given(b"page=000888\n", b""), given(b"language=dut\n", b""), given(b"descriptor=3\n", b""), given(b"language=dut\npage=000888\n", b"")
    given(b"descriptor=3\nlanguage=dut\npage=000888\n", b"")


def key_faults(sheets, dice):
    """Keys rise by network, kind and block, as numbers; a table that can't be written is told where an entry ends."""
    keys = [(network, kind, block) for network in (0, 9, 10, 99, 100) for kind in (LI, TI) for block in BLOCKS]
    for one in keys:
        for other in keys:
            if dice.chance(6):
                pair = [Entry(1, Table(kind, 0, block, network, [])) for network, kind, block in (one, other)]
                sheets.rewrite(sheets.text(pair))
    for pair in (((1, TI, 0), (1, LI, 0x8000)), ((1, LI, 0x8000), (1, TI, 0)), ((1, TI, 0x8000), (2, LI, 0)), ((2, LI, 0), (1, TI, 0x8000)),
                 ((9, LI, 0), (10, LI, 0)), ((10, LI, 0), (9, LI, 0)), ((255, TI, 0), (255, TI, 0))):
        entries = [Entry(stamp, Table(kind, 0, block, network, [(1, [])])) for stamp, (network, kind, block) in enumerate(pair)]
        sheets.rewrite(sheets.text(entries)), sheets.rewrite(sheets.text(sheets.sample[:1] + entries)), sheets.rewrite(sheets.text(entries)[:-1])
    for kind in (LI, TI):
        for counts in ([15], [16], [0] * 63, [0] * 64, [0, 16, 0], [17] * 2):
            t = shaped(kind, counts)
            sheets.rewrite(sheets.text([Entry(1, t), Entry(2, t._replace(network=1))]))
            sheets.rewrite(sheets.text([Entry(1, t)])[:-1] + b"x\n")
    for within, over in list(limits())[:2]:
        for t in (within, over):
            sheets.rewrite(sheets.text([Entry(0, t)]), 0)     # in form or not is judged before the room
    sheets.rewrite(sheets.text([largest(sheets.form)]), 0)
    for block_no in LATER[::2]:                                 # a number of a later edition is a table that can't be written
        for kind in (LI, TI):
            t = Table(kind, 0, block_no, 3, [(1, [])])
            text = sheets.text([Entry(1, t), Entry(2, t._replace(network=9, block_no=0))])
            sheets.rewrite(text), sheets.join(b"", text), sheets.rewrite(text + b"x"), sheets.rewrite(text.replace(b"descriptor=1\n", b"descriptor=\n"))


def lent_faults(sheets):
    """Keys that don't rise and tables that can't be written, in each place where a sheet is lent. They are told at the entry's empty line:
    not where a line before that is bad, or the sheet ends there."""
    before, behind = (Entry(1, Table(LI, 0, 0, network, [])) for network in (0, 255))
    pairs = [[Entry(1, Table(kind, 0, block, network, [(1, [])])) for network, kind, block in pair] for pair in (
        ((3, TI, 0), (3, TI, 0)), ((3, TI, 0), (2, TI, 0)), ((3, TI, 0), (3, LI, 0)), ((3, LI, 0x8000), (3, LI, 0)))]
    for t in (shaped(LI, [16]), shaped(TI, [0] * 64), CASE_G._replace(block_no=3)):
        bad = Entry(1, t._replace(network=7))
        pairs.append([before, bad]), sheets.everywhere(sheets.text([bad, behind]))
    for pair in pairs:
        text = sheets.text(pair)
        sheets.everywhere(text), sheets.everywhere(text[:-2]), sheets.rewrite(text[:-1]), sheets.rewrite(text[:-1] + b"x\n\n")
    within, (_, over_ti), (_, over_li) = list(limits())[2][0], *list(limits())[4:]         # 8,184 bits; 8,186
    sheets.rewrite(sheets.text([Entry(0, within)]), 0), sheets.rewrite(sheets.text([Entry(0, over_ti)]))
    sheets.rewrite(sheets.text([before, Entry(0, over_li._replace(network=7))]))


# --- limits ---------------------------------------------------------------------

def limit_cases(sheets, dice):
    full, over = sheets.text(sheets.sized(sheets.most)), sheets.text(sheets.sized(sheets.most + 1))
    sheets.rewrite(full, sheets.most - 1), sheets.rewrite(b"x" + full, 0)
    for count in (64, 65):
        text = sheets.text(small(count))
        sheets.rewrite(text), sheets.rewrite(text, 0)
    sheets.rewrite(text + b"stamp=01\n"), sheets.rewrite(text + b"\n"), sheets.rewrite(text[:-1])
    sheets.rewrite(sheets.text(most_entries(sheets.form)))
    # a result of 64 entries or of 16,384 bytes, and one more
    one = Entry(5, Table(LI, 0, 0, 200, []))
    for count in (63, 64):
        text = sheets.text(small(count))
        sheets.add(5, text, form_of(one)), sheets.add(5, text, form_of(one), 0), sheets.join(sheets.text([one]), text)
    sheets.add(5, text, form_of(small(1)[0])), sheets.join(text, sheets.text(small(64, 1)), 0)
    text = sheets.text(sheets.sized(sheets.most + 1 - len(sheets.one(one))))
    sheets.join(sheets.text([one]), text)
    sheets.add(MOST_STAMP, b"", form_of(largest(sheets.form))), sheets.add(MOST_STAMP, b"", form_of(largest(sheets.form)), sheets.longest - 1)
    # a lent sheet that is too long comes before one out of form, be it that sheet, the first or the second
    for first, second in ((b"x" + full, b"x"), (b"x", b"x" + full), (b"x", b""), (b"", b"x"), (b"y", b"\nx"), (sheets.text(sheets.sample)[:-1], b"\n"),
                          (b"\n", sheets.text(sheets.sample)[:-1])):
        sheets.join(first, second, 0)
    sheets.add(0, b"x" + full, form_of(one), 0), sheets.add(0, b"x", form_of(one), 0)
    sheets.add(0, over, table.form_of(CASE_G._replace(descriptors=[(64, [])])))                 # and behind the form's own


def full_cases(sheets):
    """A lent sheet of just 16,384 bytes: one of its entries is put for another of its length, and all of them for shorter ones."""
    full = sheets.sized(sheets.most)
    later = full[7]._replace(stamp=full[7].stamp + 1)
    sheets.join(sheets.text(full), sheets.text([later]))
    thin = [Entry(MOST_STAMP, entry.table._replace(descriptors=[])) for entry in full]
    sheets.join(sheets.text(thin), sheets.text(full))


def many_cases(sheets):
    """Lent sheets of over 64 entries, in form: the result has as many, so it is 21. Out of form, and it is 20."""
    many, most, one = small(65), most_entries(sheets.form), Entry(5, Table(LI, 0, 0, 255, []))
    text, other = sheets.text(many), sheets.text([one])
    sheets.add(5, text, form_of(many[30])), sheets.add(5, text, form_of(one), 0), sheets.both(text, other)
    sheets.add(5, text[:-1], form_of(one)), sheets.both(text[:-1], other)
    sheets.join(sheets.text(most[::2]), sheets.text(most[1::2] + [one]))


# --- adding and joining ---------------------------------------------------------

def table_with(*words, id=5, kind=LI):
    return Table(kind, 0, 0, 7, [(id, list(words))])


RIVALS = (Table(LI, 0, 0, 7, []), table_with(), table_with(id=6), table_with(id=50), table_with(0x647574), table_with(0x647575),
          table_with(0x647574, 0x656E67), table_with(0x000000), table_with(0xFFFFFF), table_with(0x7A7A7A),
          Table(LI, 0, 0, 7, [(5, [0x647574]), (0, [])]), Table(LI, 0, 0, 7, [(5, []), (5, [])]))


def choice_cases(sheets, dice):
    """Two entries of one key: the greater stamp stays; at equal stamps the lines that come later, a prefix first."""
    for one in RIVALS:
        for other in RIVALS:
            for stamps in ((3, 3), (9, 10)) if dice.chance(8) else ((3, 3),):
                sheets.join(sheets.text([Entry(stamps[0], one)]), sheets.text([Entry(stamps[1], other)]))
    for one, other in ((0, 0), (0, 1), (9, 10), (99, 100), (MOST_STAMP, 0), (MOST_STAMP, MOST_STAMP), (1 << 31, (1 << 31) - 1), (256, 255)):
        for tables in (RIVALS[4:6], RIVALS[5:3:-1], RIVALS[4:5] * 2):
            entries = [Entry(stamp, t) for stamp, t in zip((one, other), tables)]
            sheets.join(sheets.text(entries[:1]), sheets.text(entries[1:]))
            sheets.add(other, sheets.text(entries[:1]), form_of(entries[1], dice.below(2)))
    for one, other in ((0, 1), (1, 4), (4, 6), (4, 5), (4, 10)):        # a prefix of the other, or before it: which was there, which comes
        for old, new in ((one, other), (other, one), (other, other)):
            sheets.add(3, sheets.text([Entry(3, RIVALS[old])]), form_of(Entry(3, RIVALS[new])))
    pages = [Table(TI, 0, 0, 7, [(5, [0x647574, page])]) for page in (0x000888, 0x000889, 0x00088A, 0xA00888)]
    for one in pages:
        for other in pages:
            sheets.join(sheets.text([Entry(3, one)]), sheets.text([Entry(3, other)]))


def add_cases(sheets, dice, size):
    text = sheets.text(sheets.sample)
    for network in (0, 9, 10, 50, 100, 255):            # before, between and behind, new and not
        for kind in (LI, TI):
            entry = some_entry(dice, network)
            entry = entry._replace(table=entry.table._replace(kind=kind, descriptors=[(1, [0x647574, 0x656E67])]))
            for stamp in (0, MOST_STAMP):
                sheets.add(stamp, text, form_of(entry, dice.below(2)))
    sheets.tried(1, sheets.add_payload(8, text, form_of(sheets.sample[0])))
    sheets.tried(1, sheets.add_payload(8, b"", form_of(sheets.sample[1])))
    # the form's own refusals, 22, 13 and 15, come before those of the sheet
    form = form_of(sheets.sample[2])
    for wrong in (b"", form[:5], form[:-1], form + b"\x00", b"\x03" + form[1:], b"\x08\x02" + form[2:], form_of(Entry(0, shaped(LI, [16]))),
                  form_of(Entry(0, shaped(TI, [0] * 64))), form_of(Entry(0, shaped(TI, [15] * 12)))):
        for lent_sheet in (text, b"x", text + b"\n"):
            sheets.add(1, lent_sheet, wrong, dice.pick([0, 999]))
    for block_no in LATER[:6]:
        other = form_of(Entry(0, sheets.sample[2].table._replace(block_no=block_no)))
        for wrong in (other, other[:-1], other[:6], other[:5], other[:4], other[:3], b"\x03" + other[1:], b"\x08\x02" + other[2:]):
            sheets.add(1, dice.pick([text, b"", b"x", text + b"\n"]), wrong, dice.pick([0, 999]))
    for wrong in unwritable():
        for block_no in (0, 3):
            sheets.add(1, b"x", table.form_of(wrong._replace(block_no=block_no)), 0)
    few = sheets.text(sheets.sample[:1])
    for room in (sheets.most + 1, 65536, 65537):
        sheets.add(1, few, form, room), sheets.rewrite(few, room), sheets.join(few, few, room)
    for at in range(0, len(text), 7):                   # a sheet out of form
        sheets.add(1, text[:at] + b"?" + text[at + 1:], form)
    for _ in range(8 * size):
        sheets.add(some_stamp(dice), sheets.text(sheets.some(dice, dice.below(6), 3)), form_of(some_entry(dice, dice.below(3)), dice.below(2)))
    for payload in (b"", bytes(7), bytes(8), bytes(4) + b"\x01\x00\x00\x00", bytes(4) + b"\xff\xff\xff\xff" + bytes(90)):
        sheets.case(1, 99, payload)


def join_cases(sheets, dice, size):
    text = sheets.text(sheets.sample)
    sheets.join(b"", b""), sheets.both(text, b""), sheets.join(text, text), sheets.rewrite(b""), sheets.rewrite(b"", 0)
    sheets.both(sheets.text(sheets.sample[::2]), sheets.text(sheets.sample[1::2])), sheets.both(sheets.text(sheets.sample[:2]), sheets.text(sheets.sample[2:]))
    sheets.tried(0, text)
    sheets.tried(2, join_payload(text, sheets.text(sheets.sample[:3])))
    for _ in range(4 * size):
        first, second, third = (sheets.text(sheets.some(dice, dice.below(4), 2)) for _ in range(3))
        sheets.both(first, second), sheets.rewrite(third)
        sheets.join(sheet.join(sheets.form, first, second), third), sheets.join(first, sheet.join(sheets.form, second, third))
    for _ in range(10 * size):                          # anything changed: a byte, a line
        first, second = (bytearray(sheets.text(sheets.some(dice, 4, 4)) or text) for _ in range(2))
        spoilt(dice, dice.pick([first, second])), sheets.join(bytes(first), bytes(second))
        spoilt(dice, first), sheets.rewrite(bytes(first))
    for payload in (b"", bytes(3), bytes(4), b"\x01\x00\x00\x00", b"\x01\x00\x00\x80" + bytes(90)):
        sheets.case(2, 99, payload)


def grouping_cases(sheets):
    """Three of the longest entries, of three keys, and a late empty table of the third key: joined from the left it is 21 at the third,
    and as two pairs it isn't."""
    one, two, three = (largest(sheets.form)._replace(table=largest(sheets.form).table._replace(network=network)) for network in (253, 254, 255))
    three = three._replace(stamp=MOST_STAMP - 1)
    late = Entry(MOST_STAMP, three.table._replace(descriptors=[]))
    pair = sheets.text([one, two])
    sheets.join(pair, sheets.text([three]))
    sheets.join(sheets.text([three]), sheets.text([late])), sheets.join(pair, sheets.text([late]))


# --- dropping -------------------------------------------------------------------

def drop_cases(sheets, dice, size):
    """A key that is there, in each place, and keys next to it that aren't."""
    text = sheets.text(sheets.five)
    for key in map(named, sheets.five):
        sheets.drop(key, text)
    for key in ((0, LI, 0), (1, TI, 0x8000), (3, LI, 0), (3, TI, 0x8000), (4, TI, 0), (130, TI, 0), (255, TI, 0)):
        sheets.drop(key, text)
    for kind in (0, 1, 3, 6, 9, 15, 71, 72, 135, 136, 255):             # no kind that an entry has
        sheets.drop((2, kind, 0), text)
    for block_no in (*LATER[::3], 0x0080, 0x8001):
        sheets.drop((2, TI, block_no), text)
    for few in (b"", sheets.text(sheets.five[:1])):                          # nothing comes out, and then no room is needed
        for key in map(named, sheets.five[:2]):
            sheets.drop(key, few), sheets.drop(key, few, 0)
    for key in (named(sheets.five[1]), named(sheets.five[4]), (9, LI, 0)):
        sheets.tried(6, drop_payload(key, text))
    for room in (sheets.most + 1, 65536, 65537):
        sheets.drop(named(sheets.five[0]), sheets.text(sheets.five[:2]), room)
    for length in range(5):                                             # a payload with no sheet, or not even a key
        sheets.case(6, 99, drop_payload((2, LI, 0), b"")[:length])
    for _ in range(12 * size):
        entries = sheets.some(dice, 1 + dice.below(6), 4)
        sheets.drop(named(dice.pick(entries)), sheets.text(entries)), sheets.drop(named(some_entry(dice, dice.below(4))), sheets.text(entries))


def drop_faults(sheets):
    """A sheet out of form is 20, be it before, in or behind the entry that is to go, and whatever the room."""
    text, key = sheets.text(sheets.five), named(sheets.five[2])
    start = len(sheets.text(sheets.five[:2]))
    for at in (0, start - 1, start, start + 20, len(sheets.text(sheets.five[:3])) - 1, len(sheets.text(sheets.five[:3])), len(text) - 1):
        sheets.drop(key, text[:at] + b"?" + text[at + 1:], 0), sheets.drop(key, text[:at])
    for whole in (text + b"\n", b"\n" + text, text + b"x", b"x"):
        sheets.drop(key, whole), sheets.drop((9, LI, 0), whole, 0)
    for entries in (sheets.five[:3] + sheets.five[2:], sheets.five[:3] + sheets.five[1:], [sheets.five[2], sheets.five[1]], [sheets.five[3], sheets.five[2], sheets.five[4]]):        # keys that don't rise
        sheets.drop(key, sheets.text(entries)), sheets.drop((9, LI, 0), sheets.text(entries), 0)
    for t in (shaped(TI, [16]), shaped(LI, [0] * 64), CASE_G._replace(block_no=3)):         # tables that can't be written
        bad = Entry(1, t._replace(network=9))
        sheets.drop(named(bad), sheets.text([bad])), sheets.drop(key, sheets.text(sheets.five + [bad]))


def drop_limits(sheets):
    """A lent sheet over 16,384 bytes is 21 also where less would come out; of entries those that are left are counted."""
    long = largest(sheets.form)
    for length, room in ((sheets.most, sheets.most - sheets.longest), (sheets.most + 1, sheets.most)):
        sheets.drop(named(long), sheets.text(sheets.sized(length - sheets.longest) + [long]), room)
    sheets.drop(named(sheets.five[2]), b"x" + sheets.text(sheets.sized(sheets.most)), 0)
    first, middle, last, none = named(small(1)[0]), named(small(33)[-1]), named(small(64)[-1]), (255, LI, 0)
    full, more, most = (sheets.text(small(count)) for count in (64, 65, 66))
    sheets.drop(none, full, len(full) - 1), sheets.drop(last, full)
    sheets.drop(middle, more), sheets.drop(first, more, len(more) - len(sheets.text(small(1))) - 1), sheets.drop(named(small(65)[-1]), more, 0)
    sheets.drop(none, more), sheets.drop(none, more, 0), sheets.drop((0, 9, 0), more), sheets.drop(none, more[:-1])
    sheets.drop(first, most), sheets.drop(last, most, 0), sheets.drop(none, most), sheets.drop(middle, most[:-1])


# --- comparing ------------------------------------------------------------------

def compare_cases(sheets, dice, size):
    """What of one key stands in either sheet; keys before, between and behind; sheets of two mornings."""
    rivals = RIVALS[:7] + RIVALS[10:]
    for one in rivals:                                                  # tables that are prefixes of others, both ways
        for other in rivals:
            sheets.compare(sheets.text([Entry(3, one)]), sheets.text([Entry(dice.below(5), other)]))
    pages = [table_with(*words, kind=TI) for words in ((), (0x647574, 0x000888), (0x647574, 0x000888) * 2, (0x647574, 0x000889))]
    for one in pages:
        for other in pages:
            sheets.compare(sheets.text([Entry(3, one)]), sheets.text([Entry(3, other)]))
    text = sheets.text(sheets.five)
    for stamp in (0, 3, MOST_STAMP):                                    # stamps alone differ: nothing comes out, and then no room is needed
        again = sheets.text([entry._replace(stamp=stamp) for entry in sheets.five])
        sheets.held(text, again), sheets.held(text, again, 0)
    for at in range(len(sheets.five)):                                         # the first, each between, the last: gone, new, changed
        other = Entry(0, sheets.five[at].table._replace(descriptors=[]))
        sheets.held(text, sheets.text(sheets.five[:at] + sheets.five[at + 1:])), sheets.held(text, sheets.text(sheets.five[:at] + [other] + sheets.five[at + 1:]))
    keys = [(network, kind, block) for network in (9, 10, 99, 100) for kind in (LI, TI) for block in BLOCKS]
    entries = [Entry(1, Table(kind, 0, block, network, [])) for network, kind, block in keys]
    for step in (2, 3):                                                 # by turns
        sheets.held(sheets.text(entries[::step]), sheets.text(entries[1::step])), sheets.held(sheets.text(entries), sheets.text(entries[::step]))
    for cut in (1, 8, 15):                                              # all of one sheet before all of the other
        sheets.held(sheets.text(entries[:cut]), sheets.text(entries[cut:]))
    for _ in range(30 * size):                                          # both kinds and blocks of a network, each in neither, one or both
        four = [(entry, dice.below(5)) for entry in sheets.five[:4]]
        first = [entry for entry, fate in four if fate in (1, 2, 3)]
        second = [entry._replace(table=entry.table._replace(descriptors=[])) if fate == 3 else entry for entry, fate in four if fate in (2, 3, 4)]
        sheets.compare(sheets.text(first), sheets.text(second))
    for _ in range(16 * size):
        first = sheets.some(dice, dice.below(6), 4)
        sheets.compare(sheets.text(first), sheets.text(overnight(dice, first, 4, sheets.form)))


def compare_rooms(sheets):
    """Just the room, and one less; payloads that are too short."""
    text, later = sheets.text(sheets.five[1:3]), sheets.text(sheets.sample)
    changed = sheets.text([Entry(9, entry.table._replace(descriptors=entry.table.descriptors * 2)) for entry in sheets.five[1:3]])
    for first, second in ((text, b""), (b"", text), (text, changed), (changed, text), (text, later), (later, text), (text, text)):
        sheets.tried(3, join_payload(first, second))
    for room in (sheets.most + 1, 65536, 65537, 2 ** 32 - 1):
        sheets.compare(text, later, room)
    for payload in (b"", bytes(3), bytes(4), b"\x01\x00\x00\x00", b"\x01\x00\x00\x80" + bytes(90), b"\xff\xff\xff\xff" + text, join_payload(text, b""),
                    join_payload(text, b"")[:-1], join_payload(text, b"")[:4], len(text).to_bytes(3, "little")):
        sheets.case(3, 999, payload)


def compare_faults(sheets):
    """A sheet out of form is 20 at its own place, whatever the room; with both out of form it is the first's."""
    text = sheets.text(sheets.five[1:3])
    for at in range(0, len(text), 9):
        spoiled, cut = text[:at] + b"?" + text[at + 1:], text[:at + 1]
        sheets.held(text, spoiled, at % 2 * 99), sheets.compare(spoiled, cut), sheets.compare(cut, spoiled, 0)
    for whole in (b"\n", text + b"\n", text + b"x", b"\n" + text, text + text, text[:-1], text.replace(b"\n", b"\r\n")):
        sheets.held(whole, b""), sheets.held(whole, text, 0), sheets.held(whole, b"x")


def lent_pairs(sheets):
    """Sheets of each size and fault, as a first one and as a second, whose tables or place of fault are others."""
    full, over = (sheets.text(sheets.sized(length)) for length in (sheets.most, sheets.most + 1))
    one, more, bad = sheets.text(sheets.five[2:3]), sheets.text(small(65)), sheets.text(sheets.sample)
    many = [entry._replace(stamp=at, table=entry.table._replace(descriptors=[(at % 64, [])] * (at % 3))) for at, entry in enumerate(small(68)[4:])]
    return ((b"", b""), (one, one.replace(b"dut", b"eng")), (sheets.text(small(64)), sheets.text(many)), (more, more), (more + b"stamp=01\n", more + b"stamp=1\nkind=\n"),
            (full, full[:len(full) // 2] + full[len(full) // 2:].replace(b"dut", b"eng")), (over, b"x" * len(over)), (bad.replace(b"block=0", b"block=00", 1), bad.replace(b"kind=TI", b"kind=ti", 1)))


EMPTY, ONE, SOME, MORE, MORE_BAD, FULL, OVER, BAD = range(8)            # the places of lent_pairs
COMPARED = [(first, second) for first in (EMPTY, ONE, BAD) for second in (EMPTY, ONE, BAD)] + [
    (SOME, SOME), (SOME, MORE), (ONE, MORE), (ONE, MORE_BAD), (BAD, MORE), (BAD, MORE_BAD), (MORE, EMPTY), (MORE, BAD), (MORE, MORE_BAD), (MORE_BAD, MORE), (MORE_BAD, BAD),
    (FULL, FULL), (ONE, OVER), (OVER, BAD), (BAD, OVER)]


def compare_limits(sheets, pairs):
    """Pairs of sheets: empty, one entry, 64, 65, 65 and a bad line, the most bytes, one more, out of form. The first is judged whole before the second is
    looked at, and the room last. A print of over 16,384 bytes has just its room."""
    made = lent_pairs(sheets)
    for at, to in pairs:
        first, second = made[at][0], made[to][1]
        if changes.at_fault(sheets.form, first, second):
            sheets.compare(first, second, (at + to) % 2 * 2 * sheets.most)
            continue
        sheets.compare(first, second, len(changes.compare(sheets.form, first, second)))


def spoilt(dice, text):
    at = dice.below(len(text))
    end = text.find(b"\n", at) + 1
    change = dice.below(5)
    if change == 0:
        text[at] = dice.pick([10, 13, 32, 48, 57, 61, 97, 0, dice.below(256)])
    elif change == 1:
        del text[at]
    elif change == 2:
        text.insert(at, dice.pick([10, 48, 61, 97]))
    elif change == 3:
        del text[at:end]
    else:
        text[at:at] = text[at:end]


# --- the new form ---------------------------------------------------------------

BASE = Entry(1, Table(TI, 0, 0, 2, [(3, [0x647574, 0x000888])]))


def mended_faults(sheets):
    """The line `mended=`: every number and spelling, missing, another line in its place, twice, elsewhere. In a later entry fewer of them."""
    before, text, zero = sheets.text([Entry(5, BASE.table._replace(network=1), 2051)]), sheets.text([BASE]), b"mended=0\n"
    given = lambda instead: sheets.rewrite(text.replace(zero, instead))
    for value in numbers_tried(NEW.most_mended):
        given(b"mended=" + value + b"\n"), sheets.rewrite(before + text.replace(zero, b"mended=" + value + b"\n"))
    for value in (1, 99, 100, 255, 256, 999, 1000, 1999, 2000, 2009, 2049, 2060, 2100, 2152, 3000, 2 ** 11, 2 ** 12, 2 ** 16 + 5, 2 ** 32 + 2051, 2 ** 64 + 2051):
        given(b"mended=%d\n" % value)
    for value in (b"000", b"02051", b"002051", b"2051 ", b"2051\r", b"2051\x00", b"20 51", b"2,051", b"2051x", b"/", b":", b"205:", b"--1"):
        given(b"mended=" + value + b"\n")
    for digits in (b"9" * 3000, b"1" + b"0" * 4999, b"0" * 2000, b"18446744073709551616" * 100):
        given(b"mended=" + digits + b"\n")
    for other in (b"", b"\n", b"kind=TI\n", b"kind=LI\n", b"stamp=0\n", b"network=0\n", b"block=0\n", b"descriptor=0\n", b"language=dut\n", b"joined=0\n", b"mended\n", b"mended 0\n", b"mended:0\n",
                  b"mended==0\n", b"mende=0\n", b"mendedd=0\n", b"Mended=0\n", b"MENDED=0\n", b"mEnded=0\n", b" mended=0\n", b"mended =0\n", b"mended= 0\n", b"\tmended=0\n", b"\x00mended=0\n",
                  b"\xef\xbb\xbfmended=0\n", b"mended=0", b"mended=0\r\n", b"mended=0\r", b"mended=0\n\n", b"\nmended=0\n", b"mended=0\nmended=0\n", b"mended=0\nmended=1\n", b"mended=0\nstamp=1\n"):
        given(other)
    bare, stamp = text.replace(zero, b""), len(b"stamp=1\n")
    for place in (0, *(at + 1 for at, byte in enumerate(bare) if byte == 10)):              # in each place
        sheets.rewrite(bare[:place] + zero + bare[place:])
    for end in range(stamp - 1, stamp + len(zero) + 1):                                     # the sheet ends before, in or behind it
        sheets.rewrite(text[:end])
    sheets.rewrite(before + text[:stamp]), sheets.rewrite(before + text[:stamp + 5])
    for bad in (b"", b"kind=TI\n", b"mended=2052\n", b"mended=00\n", b"mended=2051 \n"):      # wherever a sheet is lent
        worse = before + text.replace(zero, bad)
        sheets.everywhere(worse), sheets.script.case(DOWN, 999, worse)


def number_choices(sheets):
    """Equal stamps and lines: each order of numbers, in either sheet, and added. A greater stamp or later lines stay with any number."""
    five = RIVALS[4]
    for one, other in ((0, 1), (1, 0), (1, 1), (2, 10), (10, 2), (99, 100), (100, 99), (255, 256), (256, 255), (511, 1024), (1024, 511), (2050, 2051), (2051, 2050), (2051, 2051), (2051, 0), (0, 2051)):
        sheets.join(sheets.text([Entry(3, five, one)]), sheets.text([Entry(3, five, other)]))
        sheets.add(3, sheets.text([Entry(3, five, one)]), form_of(Entry(3, five), other % 2), mended=other)
    for one in RIVALS[:7] + RIVALS[10:]:                                # the lines before the number, in either order of numbers
        for other in (RIVALS[1], RIVALS[4]):
            for numbers in ((0, 9), (9, 0)):
                sheets.join(*(sheets.text([Entry(3, t, mended)]) for t, mended in zip((one, other), numbers)))
    for stamps in ((9, 10), (MOST_STAMP, 0)):                           # the stamp before both
        for tables in ((RIVALS[4], RIVALS[5]), (RIVALS[5], RIVALS[4]), (five, five)):
            for numbers in ((0, 2051), (2051, 0)):
                pair = [Entry(stamp, t, mended) for stamp, t, mended in zip(stamps, tables, numbers)]
                sheets.join(sheets.text(pair[:1]), sheets.text(pair[1:]))
                sheets.add(pair[1].stamp, sheets.text(pair[:1]), form_of(pair[1]), mended=pair[1].mended)
    for numbers in ((0, 1, 0, 1, 0), (1, 0, 1, 0, 1), (2051, 7, 2051, 7, 0)):       # some keys from the one sheet, some from the other
        sheets.both(sheets.text(sheets.five), sheets.text(with_numbers(NEW, FIVE, *numbers)))
    for numbers in ((1, 2, 3), (3, 1, 2), (2, 3, 1), (2, 2, 1)):                    # three, in either grouping
        one, two, three = (sheets.text([Entry(3, five, mended)]) for mended in numbers)
        sheets.join(sheet.join(NEW, one, two), three), sheets.join(one, sheet.join(NEW, two, three))


def counts_added(sheets):
    """The number up to 2,051 and over it; 15 for it stands behind the table form's own refusals and before every one of the sheet's."""
    text, good = sheets.text(sheets.sample), form_of(sheets.sample[2])
    for mended in (0, 1, 9, 10, 255, 256, 2047, 2048, 2050, 2051, 2052, 2053, 2303, 2307, 4095, 4096, 4099, 8191, 32767, 32768, 34819, 65535):
        sheets.add(MOST_STAMP, b"", good, mended=mended)
    cut, wide, later, kind = good[:-1], good[:1] + b"\x02" + good[2:], good[:2] + b"\x03" + good[3:], b"\x03" + good[1:]
    for table_form in (good, cut, good[:5], good[:3], b"", good + b"\x00", wide, later, later[:-1], kind, later[:1] + b"\x02" + later[2:]):
        for lent_sheet in (text, b"x"):
            for mended in (0, 2051, 2052):
                if table_form is good or mended != 2051:
                    sheets.add(1, lent_sheet, table_form, 0 if mended else 999, mended)
    sheets.add(1, sheets.text(small(64)), good, 0, 2051), sheets.add(1, sheets.text(small(64)), good, 0, 2052), sheets.add(1, sheets.text(small(65))[:-1], good, 0, 2051)
    over = b"x" + sheets.text(sheets.sized(NEW.most_bytes))
    sheets.add(1, over, good, 0, 2052), sheets.add(1, over, good, 0, 2051)
    for table_form in (good, form_of(sheets.sample[1])):
        sheets.tried(1, sheets.add_payload(8, text, table_form, 7)), sheets.tried(1, sheets.add_payload(8, b"", table_form, 2051))
    for payload in (b"", bytes(7), bytes(8), bytes(9), bytes(10), bytes(8) + b"\x04\x08", bytes(11), bytes(4) + b"\x01\x00\x00\x00", bytes(4) + b"\x01\x00\x00\x00x", bytes(4) + b"\x01\x00\x00\x00x\x00",
                    bytes(4) + b"\x01\x00\x00\x00x\x00\x00", bytes(4) + b"\xff\xff\xff\xff" + bytes(90), *(sheets.add_payload(1, text, good, 5)[:len(text) + 8 + more] for more in range(-1, 5))):
        sheets.case(1, 999, payload)


def new_limits(sheets):
    """17,152 bytes and one more, 64 entries and 65, 377: lent, and as a result."""
    full, one = sheets.sized(NEW.most_bytes), Entry(5, Table(LI, 0, 0, 200, []), 2051)
    sheets.rewrite(sheets.text(full)), sheets.join(b"x", b"x" + sheets.text(full), 0), sheets.join(sheets.text(full[::2]), sheets.text(full[1::2]), NEW.most_bytes - 1)
    sheets.add(5, sheets.text(sheets.sized(NEW.most_bytes + 1 - len(sheets.one(one)))), form_of(one), mended=2051)
    for count in (64, 65):
        text = sheets.text(with_numbers(NEW, small(count), 0, 2051, 7))
        sheets.rewrite(text), sheets.rewrite(text, 0)
    sheets.rewrite(text + b"stamp=01\n", 0), sheets.rewrite(sheets.text(most_entries(NEW)))
    for count in (63, 64):
        text = sheets.text(small(count))
        sheets.add(5, text, form_of(one), 0, 9), sheets.join(sheets.text([one]), text, 0)
    sheets.add(MOST_STAMP, b"", form_of(largest(NEW)), mended=2051), sheets.add(MOST_STAMP, b"", form_of(largest(NEW)), LONGEST[NEW] - 1, 2051)
    for room in (NEW.most_bytes + 1, 65536, 65537):
        sheets.rewrite(sheets.text([BASE]), room), sheets.script.case(UP, room, sheet.written(OLD, [BASE])), sheets.script.case(DOWN, room, sheets.text([BASE]))


def other_reader(old, new):
    """A sheet of one form where one of the other is read; a sheet over that reader's limit."""
    for entries in (FIVE[2:4], SAMPLE[2:]):
        old.everywhere(new.text(entries)), new.everywhere(old.text(entries))
        old.script.case(UP, 999, new.text(entries)), new.script.case(DOWN, 999, old.text(entries))
    old.everywhere(new.text(new.sample)), old.script.case(UP, 0, new.text(new.sample))
    for sheets, other, move in ((old, new, UP), (new, old, DOWN)):
        own = sheets.text(SAMPLE)
        sheets.both(own, other.text(SAMPLE), 0), sheets.held(own, other.text(FIVE), 0), sheets.compare(other.text(SAMPLE), b"x")
        sheets.script.case(move, 0, other.text(small(65)))
        sheets.rewrite(own + other.text(SAMPLE)), sheets.rewrite(sheets.text(SAMPLE[:1]) + other.text(SAMPLE[1:]))
        sheets.rewrite(other.text(SAMPLE[:1]) + sheets.text(SAMPLE[1:]))
    old.rewrite(new.text(new.sized(OLD.most_bytes + 1))), new.rewrite(old.text(old.sized(NEW.most_bytes + 1)))


def up_cases(script, old, dice, size):
    """Sheets of the old form moved up, and what comes of it moved down again; each refusal, alone and with others."""
    up = lambda text, room=NEW.most_bytes: script.case(UP, room, text)
    for entries in ([], SAMPLE, SAMPLE[1:2], FIVE, *(old.some(dice, 1 + dice.below(3), 4) for _ in range(3 * size))):
        text = old.text(entries)
        room_tried(script, UP, text, sheet.up), room_tried(script, DOWN, sheet.up(text), sheet.down)
    first, second = (sheet.add(OLD, 9, 0, old.text(SAMPLE), form_of(entry)) for entry in FIVE[:2])
    up(sheet.join(OLD, first, second)), script.case(62, 999, join_payload(sheet.up(first), sheet.up(second)))
    text = old.text(SAMPLE)
    for at in range(0, len(text), 17):                                  # out of form, and whatever the room
        up(text[:at] + b"?" + text[at + 1:], at % 2 * 999), up(text[:at], 0)
    for whole in (b"\n", text + b"\n", b"\n" + text, text + b"x", text + text, text.replace(b"\n", b"\r\n"), text.replace(b"kind", b"mended=0\nkind"), text.replace(b"kind", b"mended=0\nkind", 1)):
        up(whole, 0)
    for t in (shaped(TI, [16]), shaped(LI, [0] * 64), CASE_G._replace(block_no=3)):
        up(old.text([Entry(1, t._replace(network=9))]))
    full, more = old.text(sized(OLD, OLD.most_bytes, 64)), old.text(small(65))
    up(full, 16959), up(b"x" + full, 0), up(old.text(small(64)), len(old.text(small(64))) + 64 * 9 - 1)
    up(more, 0), up(more + b"stamp=01\n")


def down_cases(script, new, dice, size):
    """Sheets of the new form moved down, and what comes of it moved up again; each refusal, alone and with others."""
    down = lambda text, room=OLD.most_bytes: script.case(DOWN, room, text)
    for at in range(3):                                                 # the number of one entry
        for mended in (1, 10, 2051):
            down(new.text(SAMPLE[:at] + [SAMPLE[at]._replace(mended=mended)] + SAMPLE[at + 1:]), mended % 2 * 999)
    for numbers in ((0, 1, 0, 0, 0), (0, 0, 2, 2, 0), (3, 0, 0, 0, 3), (1, 1, 1, 1, 1)):
        down(new.text(with_numbers(NEW, FIVE, *numbers)), 0)
    for text in (new.text(SAMPLE), new.text(new.sample)):               # 20 before 25, wherever the line is; and before the room
        for at in range(0, len(text), 17):
            down(text[:at] + b"?" + text[at + 1:], at % 2 * 999), down(text[:at], 0)
        for whole in (text + b"\n", b"\n" + text, text + b"x", text + text, text[:-1], text + b"stamp=1\nmended=2052\n", text.replace(b"mended=0\n", b"mended=00\n"), text.replace(b"mended=0\n", b"")):
            down(whole, 0)
    for numbers in ((1, 0), (0, 1)):
        for pair in ((3, 2), (3, 3)):                                   # keys that don't rise, tables that can't be written
            down(new.text(with_numbers(NEW, [Entry(1, Table(TI, 0, 0, network, [])) for network in pair], *numbers)), 0)
        for t in (shaped(TI, [16]), shaped(LI, [0] * 64), CASE_G._replace(block_no=3)):
            down(new.text(with_numbers(NEW, [Entry(1, t._replace(network=1)), Entry(1, CASE_G._replace(network=9, copyright=0))], *numbers)), 0)
    # of entries: 64 and 65, with a number in none, the first, the last; 65 with a line out of form
    for count in (64, 65):
        for at in (None, 0, count - 1):
            text = new.text([entry._replace(mended=int(place == at)) for place, entry in enumerate(small(count))])
            down(text, 0 if at is not None else OLD.most_bytes)
    down(text + b"x", 0), down(new.text(small(65)) + b"stamp=01\n")
    # of bytes: a result of 16,384 and of 16,385, a lent sheet of 17,152 and of 17,153, these two with a number
    down(sheet.up(sheet.written(OLD, sized(OLD, OLD.most_bytes, 64))), OLD.most_bytes - 1), down(new.text(sized(NEW, OLD.most_bytes + 1 + 20 * 9)))
    entries = sized(NEW, NEW.most_bytes)
    text = new.text(entries[:-1] + [entries[-1]._replace(mended=1)])
    down(text, 0), down(b"x" + text, 0)
    for _ in range(8 * size):
        entries = new.some(dice, 1 + dice.below(2), 4)
        down(new.text(entries)), down(bytes(spoiled(dice, new.text(entries))), dice.pick([0, 999]))
        if not any(entry.mended for entry in entries):
            script.case(UP, 999, sheet.down(new.text(entries)))


def spoiled(dice, text):
    text = bytearray(text)
    spoilt(dice, text)
    return text


def new_cases(sheets, dice, size):
    """Some of what is shown in the old form, with numbers; the whole of it is too much to be stored."""
    new_drops(sheets)
    for _ in range(3 * size):
        first, second, third = (sheets.text(sheets.some(dice, dice.below(4), 2)) for _ in range(3))
        sheets.both(first, second), sheets.rewrite(third)
        sheets.join(sheet.join(NEW, first, second), third), sheets.join(first, sheet.join(NEW, second, third))
        sheets.rewrite(bytes(spoiled(dice, first or third or sheets.text(SAMPLE)))), sheets.add(some_stamp(dice), second, form_of(some_entry(dice, dice.below(2))), mended=some_mended(dice))
    compare_limits(sheets, [(ONE, OVER), (MORE, BAD), (BAD, MORE), (MORE_BAD, ONE), (ONE, MORE), (ONE, BAD), (BAD, BAD), (EMPTY, ONE)])
    sheets.tried(3, join_payload(sheets.text(sheets.five), sheets.text(with_numbers(NEW, SAMPLE, 5, 0)))), sheets.tried(3, join_payload(sheets.text(sheets.five), sheets.text(FIVE)))
    for payload in (b"", bytes(3), bytes(4), b"\x01\x00\x00\x00", join_payload(sheets.text(FIVE), b"")[:-1]):
        sheets.case(2, 99, payload), sheets.case(3, 99, payload)
    for _ in range(6 * size):                                           # comparing doesn't look at the number
        entries = sheets.some(dice, dice.below(5), 4)
        sheets.compare(sheets.text(entries), sheets.text(overnight(dice, entries, 4, NEW)))
        sheets.compare(sheets.text(entries), sheets.text([entry._replace(mended=some_mended(dice)) for entry in entries]), 0)


def new_drops(sheets):
    text = sheets.text(sheets.five)
    for key in (*map(named, sheets.five), (2, 9, 0), (3, LI, 0), (255, TI, 0), (2, TI, 3)):
        sheets.drop(key, text)
    sheets.tried(6, drop_payload(named(sheets.five[1]), text)), sheets.tried(6, drop_payload((9, LI, 0), text))
    for length in range(5):
        sheets.case(6, 99, drop_payload((2, LI, 0), b"")[:length])
    entries = with_numbers(NEW, small(66), 0, 2051)
    sheets.drop(named(entries[5]), sheets.text(entries[:65])), sheets.drop((255, LI, 0), sheets.text(entries[:65]), 0), sheets.drop(named(entries[5]), sheets.text(entries), 0)


def form_cases(sheets, dice, size):
    """Everything, over the form."""
    line_faults(sheets, dice), value_faults(sheets, dice), key_faults(sheets, dice), limit_cases(sheets, dice), choice_cases(sheets, dice)
    lent_faults(sheets), full_cases(sheets), many_cases(sheets)
    add_cases(sheets, dice, size), join_cases(sheets, dice, size), grouping_cases(sheets)
    drop_cases(sheets, dice, size), drop_faults(sheets), drop_limits(sheets)
    compare_cases(sheets, dice, size), compare_rooms(sheets), compare_faults(sheets), compare_limits(sheets, COMPARED)


def script_of(dice, size):
    script = Script(OPS)
    old, new = Sheets(script, OLD), Sheets(script, NEW)
    form_cases(old, dice, size)
    mended_faults(new), number_choices(new), counts_added(new), new_limits(new), other_reader(old, new)
    up_cases(script, old, dice, size), down_cases(script, new, dice, size), new_cases(new, dice, size)
    if size > 1:                        # too much to be stored
        form_cases(new, dice, size)
    for op in (0, 49, 57, 58, 59, 64, 65, 67, 255):
        script.case(op, 99, sheet.written(OLD, SAMPLE))
    script.cut_short(b"\x32\x40\x00\x00\x00\x08\x00\x00\x00stamp=1")
    return script
