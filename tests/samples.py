"""Small captures for the desk, `menus` and `lawful`, and what they print for each (magazine 1, page DF,
stream 1, or 1 and 2, application 1); sheets of a day and of two mornings. Made by the model's writer; nothing is off the air."""

from cases.both import mixed
from cases.form import LOST, Dice, with_bytes
from cases.information import informed, network
from cases.information import record_of as informing
from cases.reader import Air
from cases.table import CASE_G, nibbles_in
from model import Refused, both, changes, guide, information, listing, menu, octet, pes, sheet, table, unpes
from model.guide import HEAD
from model.information import MI, UI
from model.listing import DESK
from model.menu import Event, Menu, String, with_parity
from model.sheet import KEPT
from model.table import LI, TI, Bits, Table, nibbles_laid

LANGUAGES = [int.from_bytes(name, "big") for name in (b"dut", b"eng", b"fre", b"ger", b"ita", b"spa", b"swe", b"tur")]


def some_page(dice):
    return 0x000800 + dice.below(256)


def record(t):
    return table.write_block(DESK.application, table.form_of(t))


def case_g():
    """The desk's stored run: case G's 84 bytes, and the text of SCOPE 13.6."""
    packets = guide.cut(DESK, 0, 1, record(CASE_G))
    return packets, listing.desk(packets)


def dvb_run():
    """The stored run of `dvb`: case G's 84 bytes, and its descriptor as SCOPE 29 has it."""
    return case_g()[0], b"network=2 block=0 dvb=56056475741088\ntables=1 over=0\n"


def packets_in(data):
    return [data[i:i + guide.PACKET] for i in range(0, len(data), guide.PACKET)]


def night_list(dice, networks):
    """A TI and an LI table for each network, and blocks of other kinds between."""
    records = []
    for network in range(networks):
        for kind in (TI, LI):
            descriptors = []
            for id in range(dice.between(1, 5)):
                words = []
                for _ in range(dice.between(1, 4)):
                    words += [dice.pick(LANGUAGES), some_page(dice)][:table.WORDS[kind]]
                descriptors.append((id, words))
            records.append(record(Table(kind, dice.below(2), dice.pick([0, 0x8000]), network, descriptors)))
        if dice.chance(3):      # a block of another application
            size = dice.between(10, 60)
            records.append(guide.record_of(guide.head_of(dice.pick([0, 2]), size), dice.bytes(size)))
    return records


def aired(dice, records, k=25):
    """The pages of the list, with other streams between pages and other magazines anywhere."""
    air, other, packets = Air(dice, DESK), Air(dice, DESK._replace(stream=2)), []
    for packet in packets_in(guide.cut(DESK, 0, k, b"".join(records))):
        if packet[:2] == guide.address(DESK.magazine, 0) and dice.chance(2):
            packets += other.stream(3, [50, 30], dice.below(16))
        if dice.chance(6):
            packets.append(air.elsewhere("magazine"))
        packets.append(packet)
    return packets


def roughened(dice, packets):
    """Most packets with one flip in bytes, some with two, some lost."""
    air, arrived = Air(dice, DESK), []
    for packet in packets:
        fate = dice.below(60)
        if fate == 0:
            continue
        arrived.append(air.noised(packet, 2 if fate < 3 else 1 if fate < 40 else 0))
    return arrived


# --- the march of sixteen pages ----------------------------------------------------

class Heedless(guide.Reader):
    """A reader that passes over packets whose address can't be read."""

    def unreadable(self):
        pass


def march_table(dice, network, counts=(2,) * 11, pages=None):
    """A table whose block fills whole packets: eight, or five for 5, 5 and 4 entries."""
    pages = iter(pages or [some_page(dice) for _ in range(sum(counts))])
    language = LANGUAGES[network % 8]
    return Table(TI, 0, 0, network, [
        (id, [word for _ in range(count) for word in (language, next(pages))]) for id, count in enumerate(counts)])


def march(dice):
    """Half a table, sixteen pages that can't be read, half of another table.

    Sixteen pages bring the running number round to where it was, and the second
    halves have the same nibbles in another order, so the checksum agrees."""
    pages = [some_page(dice) for _ in range(22)]
    half = march_table(dice, 0, pages=pages)
    other = march_table(dice, 0, pages=[some_page(dice) for _ in range(10)] + [swapped(page) for page in pages[10:]])
    five = [march_table(dice, network, (5, 5, 4)) for network in (1, 2)]
    eight = [march_table(dice, network) for network in range(3, 54)]
    sent = [record(t) for t in (five[0], *eight[:2], half, *eight[2:], other, five[1])]
    packets = packets_in(guide.cut(DESK, 0, 25, b"".join(sent)))
    lost = range(26, 17 * 26)                               # pages 1 to 16 of 0 to 17
    arrived = [with_bytes(p, (i % 2, LOST)) if i in lost else p for i, p in enumerate(packets)]
    joined = [r for r in handed_out(Heedless(DESK), arrived) if guide.bare(r) not in sent]
    assert len(joined) == 1 and form(joined[0]), "a heedless reader takes the joined table"
    assert all(guide.bare(r) in sent for r in handed_out(guide.Reader(DESK), arrived)), "ours doesn't"
    return arrived


def swapped(page):
    """The same nibbles, the two lowest exchanged."""
    return page & ~0xFF | page % 16 << 4 | page >> 4 & 15


def handed_out(reader, packets):
    return [r for p in packets for r in guide.records_in(reader.feed(p).records)]


def form(r):
    """A record's table form; nothing where it is refused."""
    try:
        return table.read_block(DESK.application, r).form
    except Refused:
        return None


# --- PES ------------------------------------------------------------------------------

def night_pes(packets):
    """Fifteen packets to a PES packet, on rising lines; one framing byte is damaged."""
    out = []
    for i in range(0, len(packets), 15):
        parity = 0xE0 if len(out) % 2 else 0xC0
        out.append(pes.write(0x10, b"".join(
            bytes([0x02, parity | 7 + line]) + packet for line, packet in enumerate(packets[i:i + 15]))))
    damaged = len(out) // 2
    out[damaged] = with_bytes(out[damaged], (45 + 1 + 4 * 46 + 3, 0x27))
    return b"".join(out)


# --- the day sheet --------------------------------------------------------------------

EVENING, MORNING = 1794780000, 1794812400       # the seconds at which the two captures began


def day():
    """Two captures of a day, the second with some tables sent anew, and the sheet that they give in either order."""
    dice = Dice(8)
    evening, morning = (b"".join(aired(dice, night_list(dice, networks), 20)) for networks in (5, 7))
    text, _ = sheet.fed(KEPT, b"", [(EVENING, evening), (MORNING, morning)])
    assert text == sheet.fed(KEPT, b"", [(MORNING, morning), (EVENING, evening)])[0]
    assert {entry.stamp for entry in sheet.read(KEPT, text)} == {EVENING, MORNING}
    return {"evening.t42": evening, "morning.t42": morning, "day.sheet": text}


def sheet_run():
    """What the gate runs `sheet` on, and what it prints."""
    made = day()
    yield "args", f"add\nday\n{EVENING}\nevening.t42\n{MORNING}\nmorning.t42\n".encode()
    for name in ("evening.t42", "morning.t42"):
        yield f"data/{name}", made[name]
    yield "stdout", sheet.fed(KEPT, b"", [(EVENING, made["evening.t42"]), (MORNING, made["morning.t42"])])[1].encode()


MONDAY, TUESDAY = MORNING, MORNING + 24 * 60 * 60


def mornings():
    """The sheets of two mornings, and what changed between them. On Tuesday Monday's sheet is copied, the tables of that night's capture are added, and
    an entry is dropped. Network 2's languages aren't sent again, and network 5's are, as they were."""
    dut, eng, fre, ger, ita, spa, swe, tur = LANGUAGES
    monday = (Table(LI, 0, 0, 2, [(0, [dut, eng])]), Table(TI, 0, 0, 2, [(0, [dut, 0x000888])]), Table(LI, 0, 0, 5, [(0, [swe]), (1, [swe, eng])]),
              Table(TI, 0, 0, 5, [(0, [swe, 0x000899]), (1, [swe, 0x000899, eng, 0x00089A])]), Table(TI, 0, 0x8000, 5, [(0, [ger, 0x000850])]))
    tuesday = (Table(TI, 0, 0, 2, [(0, [dut, 0x000888, tur, 0x000889])]), Table(LI, 0, 0, 3, [(0, [fre]), (2, [fre, ita])]), monday[2],
               Table(TI, 0, 0, 5, [(0, [swe, 0x000899])]), Table(TI, 0, 0, 9, [(0, [spa, 0x000877])]))
    first = added(MONDAY, b"", monday)
    second = sheet.drop(KEPT, 5, TI, 0x8000, added(TUESDAY, first, tuesday))
    text = changes.compare(KEPT, first, second)
    assert {line.split("=")[0] for line in text.decode().split("\n") if "," in line} == {"gone", "new", "changed"}
    old, new = ({sheet.key(entry): entry for entry in sheet.read(KEPT, data)} for data in (first, second))
    kept = [at for at in old if at in new and old[at].table == new[at].table]
    assert sorted(new[at].stamp for at in kept) == [MONDAY, TUESDAY]
    return {"monday.sheet": first, "tuesday.sheet": second, "overnight.txt": text}


def added(stamp, text, tables):
    for t in tables:
        text = sheet.add(KEPT, stamp, 0, text, table.form_of(t))
    return text


# --- menus ----------------------------------------------------------------------------

def offered(number, header, *events):
    """A menu's record: of each event its text, the type of its link and the number."""
    made = Menu(0, number, 1, 2, 3, [], String([], header), [Event(to, type_, [], String([], text)) for text, type_, to in events])
    return menu.write_menu(DESK.application, menu.form_of(made))


def menus_run():
    """What the gate runs `menus` on, and what it prints."""
    packets = guide.cut(DESK, 0, 20, offered(0, b"TV Guide", (b"Themes", 1, 5), (b"More", 1, 9)) + offered(5, b"Themes", (b"Golf", 2, 0)))
    return packets, menu.menus(packets)[0]


def guide_menus():
    """A guide's menus, sent twice among the tables of a night; one that is linked to never comes."""
    dice = Dice(9)
    menus = [
        offered(0, b"TV Guide", (b"Tonight", 1, 1), (b"Themes", 1, 2), (b"Help", 1, 9)),
        offered(1, b"Tonight", (b"20:00 News", 2, 301), (b"20:30 Film: The Lighthouse", 2, 302), (b"22:15 Late sports", 1, 4)),
        offered(2, b"Themes", (b"Film", 2, 12), (b"Sports", 1, 4)),
        offered(4, b"Sports", (b"Golf", 2, 40), (b"Ice hockey", 2, 41))]
    capture = b"".join(aired(dice, night_list(dice, 2) + menus + night_list(dice, 2) + menus, 20))
    text, said = menu.menus(capture)
    assert said == b"" and text.endswith(b"missing=9\n")
    return capture, text


# --- two streams ----------------------------------------------------------------------

TWO = both.Pair(DESK.magazine, DESK.page, 1, 2, DESK.application)


def pages_of(setting, index, k, records):
    """A list of records, cut into whole pages."""
    packets = packets_in(guide.cut(setting, index, k, b"".join(records)))
    return [packets[at:at + k + 1] for at in range(0, len(packets), k + 1)]


def aired_both(dice, lists, k=(20, 20), indices=(0, 0), pair=TWO):
    """A list of each stream, whole pages of either between whole pages of the other, with other magazines anywhere."""
    pages = mixed(dice, *(pages_of(pair.of(whose), indices[whose], k[whose], lists[whose]) for whose in both.BOTH))
    air, packets = Air(dice, pair.of(0)), []
    for packet in (packet for page in pages for packet in page):
        if dice.chance(6):
            packets.append(air.elsewhere("magazine"))
        packets.append(packet)
    return packets


def both_streams():
    """A guide in two streams: tables in each, some of one key in both; menu 0 in the first, and one that it links to in the second."""
    dice = Dice(13)
    capture = b"".join(aired_both(dice, (
        night_list(dice, 3) + [offered(0, b"TV Guide", (b"Themes", 1, 5), (b"Help", 1, 9))],
        [offered(5, b"Themes", (b"Film", 2, 12), (b"Golf", 2, 40))] + night_list(dice, 4)), (5, 4), (4, 11)))
    text, keys = listing.desk(capture, TWO), [{sheet.key(e) for e in sheet.read(KEPT, sheet.fed(KEPT, b"", [(0, capture)], TWO.of(whose))[0])} for whose in both.BOTH]
    assert text == listing.desk(capture, TWO._replace(first=TWO.second, second=TWO.first)) and keys[0] & keys[1] and keys[0] ^ keys[1]
    assert all(line in text for line in (b"stream=1\nkind=TI\n", b"stream=1\nkind=LI\n", b"stream=2\nkind=TI\n", b"stream=2\nkind=LI\n", b"\njoined=1\n"))
    assert any(octet.decode(packet[0]) % 8 != TWO.magazine for packet in packets_in(capture))
    assert menu.menus(capture, TWO)[0].count(b"menu=") == 2
    return capture, text


# --- the hotel group's guide ----------------------------------------------------------

def laid(kind, fields, text=b""):
    """A record of a kind that only has to stand in a guide: its fields behind CA_mode, and its codes."""
    size = table.whole_bytes(26 + sum(width for width, _ in fields))
    return menu.summed(DESK.application, nibbles_laid([(8, 0), (10, size), (6, kind), (2, 0), *fields]), bytes(map(with_parity, text)))


def message(number, text):
    """Table 23: no descriptors, no escape sequences."""
    return laid(MI, [(1, 0), (1, 0), (16, number), (6, 0), (6, 0), (8, 0), (10, len(text))], text)


def update(version, *changed):
    """Table 24: of each change network and block."""
    return laid(UI, [(1, 0), (1, 0), (6, version), (6, 0), (8, len(changed)), *((width, value) for one in changed for width, value in zip((8, 16), one))])


def hotel_blocks():
    """The blocks of each stream. The guide's own channel is network 0, and its two subtitle tables are both in the first stream."""
    dut, eng, fre, ger, ita, spa, swe, tur = LANGUAGES
    none = dict(LTO_magnitude=4, no_of_days=1, prog_start_no=1, no_of_LI_structures=1)      # no programmes: they stop before they start
    own = informing(informed(b"Lakeside Hotels", [
        network(b"House Channel", cni=0x4A11, no_of_TI_structures=2, **none), network(b"City One", cni=0x4A12, no_of_TI_structures=1, **none),
        network(b"Sport 24", cni=0x4A13, no_of_TI_structures=1, **none)],
        epg_version_number=5, epg_version_number_swo=5, no_of_navigation_info=2, no_of_message_info=1, no_of_navigation_info_swo=1, no_of_message_info_swo=1,
        no_of_updates=1))
    first = [own, update(5, (1, 2)), message(0, b"Breakfast from 7 to 10, in the lake room."),
             record(Table(LI, 0, 0, 0, [(0, [eng]), (1, [eng, ger])])), record(Table(TI, 0, 0, 0, [(0, [eng, 0x000888]), (1, [ger, 0x000889])])),
             record(Table(TI, 0, 0x8000, 0, [(0, [fre, 0x000850])])),
             offered(0, b"Lakeside Hotels", (b"In the house", 1, 1), (b"Channels", 1, 2)), offered(1, b"In the house", (b"Sauna and pool", 2, 10), (b"Dinner", 2, 11))]
    second = [record(Table(LI, 0, 0, 1, [(0, [dut]), (1, [dut, eng])])), record(Table(TI, 0, 0, 1, [(0, [dut, 0x000888])])),
              record(Table(LI, 0, 0, 2, [(0, [swe, spa])])), record(Table(TI, 0, 0, 2, [(0, [swe, 0x000899, ita, 0x00089A, tur, 0x00089B])])),
              message(1, b"The night bus leaves at 23:40."), offered(2, b"Channels", (b"City One", 2, 20), (b"Sport 24", 2, 21)), first[3]]
    return first, second


def weathered(dice, block):
    """A repeat of which up to three control bytes came with one flipped bit each."""
    control = 2 * Bits(nibbles_in(block)[:8]).fields(table.COMMON)["control_block_size"]
    places = {HEAD + dice.below(control) for _ in range(dice.below(4))}
    return with_bytes(block, *((at, block[at] ^ 1 << dice.below(8)) for at in places))


def hotel():
    """A hotel group's own guide in two streams, each block three times and some of the repeats mended; what `lawful` prints of its first stream, and the desk."""
    dice = Dice(36)
    streams = hotel_blocks()
    packets = aired_both(dice, [blocks + [weathered(dice, block) for block in blocks * 2] for blocks in streams], (10, 10), (2, 9))
    capture = b"".join(with_bytes(packet, (at, packet[at] ^ 1 << dice.below(8))) if dice.chance(5) else packet
                       for packet, at in ((packet, dice.below(3)) for packet in packets))         # address or pointer
    text, tables = information.program(capture)[0], listing.desk(capture)
    assert information.program(capture) == (b"guide=EPG\nlawful=yes\nAI=1 MI=1 UI=1 LI=1 TI=2\n", b"")
    assert information.program(capture, TWO) == (b"guide=EPG\nlawful=yes\nAI=1 MI=2 UI=1 LI=3 TI=4\n", b"")
    assert information.program(capture, TWO.of(1))[0] == b"" and menu.menus(capture, TWO)[0].count(b"menu=") == 3
    assert len(set(guide.read_all(DESK, capture))) > len(streams[0]) and tables.count(b"mended=0\n") < tables.count(b"kind=") == 9
    return capture, text, tables


def lawful_run():
    """The stored run of `lawful`: the smallest Application Information twice, and case G between."""
    own = information.write_information(DESK.application, b"\x01" + bytes(19))
    packets = guide.cut(DESK, 0, 4, own + record(CASE_G) + own)
    return packets, information.program(packets)[0]


def make():
    """Each file of samples/ and its bytes."""
    dice = Dice(7)
    night = night_list(dice, 40)
    clean = aired(dice, night)
    rough = b"".join(roughened(dice, aired(dice, night * 2))) + dice.bytes(17)
    came = handed_out(guide.Reader(DESK), packets_in(rough)[:-1])
    assert {form(r) for r in came} < {form(r) for r in night}, "a missing table, never a wrong one"
    carried = night_pes(clean)
    packets, said = unpes.run(carried)
    captures = {"clean.t42": b"".join(clean), "rough.t42": rough, "march.t42": b"".join(march(dice)), "night.pes": carried}
    fed = {**captures, "night.pes": packets}
    for name in captures:
        yield name, captures[name]
        yield name[:-4] + ".txt", listing.desk(fed[name])
    yield "night.err", said.encode()        # what unpes says last on standard error
    yield from day().items()
    yield from mornings().items()
    yield from zip(("menus.t42", "menus.txt"), guide_menus())
    yield from zip(("both.t42", "both.txt"), both_streams())
    yield from zip(("hotel.t42", "hotel.txt", "hotel-desk.txt"), hotel())
