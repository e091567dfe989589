"""The desk with `-s A,B`: captures of two streams, of one of them and of neither, what a packet drops in one or in both, and words that -s takes
and doesn't take (SCOPE 13.12)."""

import itertools

from cases.both import Duet, mixed
from cases.form import LOST, with_bytes
from cases.reader import Air, wild_row
from cases.table import CASE_G, later, some_table
from model import both, guide, listing, octet, streams, table
from model.guide import PACKET, Setting
from model.listing import DESK
from model.survey import PIECE
from samples import TWO, aired_both, both_streams, night_list, night_pes, packets_in, pages_of, record


def heeded(words):
    """The setting that words say; what those of -s do, the model says."""
    given = words.split()
    said = {letter: [value for option, value in zip(given, given[1:]) if option == "-" + letter] for letter in "mpsa"}
    magazine, page, application = ((said[letter] or [usual])[-1] for letter, usual in (("m", "1"), ("p", "df"), ("a", "1")))
    return streams.heeding(Setting(int(magazine), int(page, 16), DESK.stream, int(application)), *said["s"])


def about(pair):
    return pair._replace(first=pair.second, second=pair.first)


def sample():
    """The sample in many words: two streams, one of them behind two, one that isn't there, neither; another page, magazine and application."""
    data = both_streams()[0]
    for name, words in (
            ("both", "-s 1,2"), ("usual", ""), ("one", "-s 1,2 -s 1"), ("other", "-s 2,1 -s 02"), ("last", "-s 9 -s 4,5 -s 1,2"), ("then", "-s 1 -s 1,2"),
            ("zeros", "-s 001,0000000000000000000000002"), ("alone", "-s 1,9"), ("alone-other", "-s 9,2"), ("alone-last", "-s 1,2 -s 0,2"), ("neither", "-s 9,4"),
            ("page", "-p de -s 1,2"), ("magazine", "-s 1,2 -m 2"), ("application", "-s 1,2 -a 2")):
        yield name, words, data


def elsewhere(dice):
    """Tables under settings at an end of their range; both streams have the same table."""
    for name, words, k, indices in (("low", "-m 1 -p 00 -s 0,15 -a 0", (25, 1), (0, 0)), ("high", "-a 31 -s 15,0 -p fF -m 8", (1, 1), (15, 0)),
                                    ("middle", "-s 07,8 -m 007 -p 0a -a 03", (2, 3), (7, 8))):
        pair = heeded(words)
        lists = [[table.write_block(pair.application, table.form_of(t)) for t in (CASE_G, *(some_table(dice) for _ in range(5)), CASE_G)] for _ in both.BOTH]
        yield name, words, b"".join(aired_both(dice, lists, k, indices, pair))


def between(dice):
    """Between whole pages of the two those of a third stream and of other pages, whole or not; other magazines and Y over 25 anywhere."""
    duet = Duet(dice, TWO)
    packets = []
    for page in mixed(dice, *(pages_of(TWO.of(whose), dice.below(16), 3, night_list(dice, 6)) for whose in both.BOTH)):
        if dice.chance(2):
            other = dice.pick([duet.third(), duet.page()])
            packets += [other.header(dice.below(16), dice.below(32)), *(other.row(y, *wild_row(dice)) for y in range(1, dice.between(1, 4)))]
        for packet in page:
            packets += [duet.airs[0].elsewhere(dice.pick(["magazine", "high y"]))] * dice.chance(5) + [packet]
    yield "between", "-s 1,2", b"".join(packets)


def long(dice):
    """More than one piece, and ends at and near the end of a piece; the text runs full again and again, also with the longest tables."""
    many = b"".join(aired_both(dice, [night_list(dice, networks) * 2 for networks in (170, 190)]))
    assert len(many) > 2 * PIECE and len(listing.desk(many, TWO)) > 2 * 65536
    for name, data in (("many", many + b"\x15" * 41), ("piece", many[:PIECE]), ("more", many[:PIECE + 1]), ("less", many[:PIECE - 1]), ("none", b""), ("part", b"\x15" * 41)):
        yield name, "-s 1,2", data
    most = record(table.Table(table.LI, 1, 0x8000, 255, [(63, [0x010203] * 15)] * 20 + [(63, [])] * 42))
    small = [record(CASE_G._replace(network=network)) for network in (0, 10, 100)]
    pair = TWO._replace(first=15, second=10)
    lists = [[one for at in range(60) for one in (most, *(dice.pick(small) for _ in range(at % 5)))] for _ in both.BOTH]
    yield "full", "-s 15,10", b"".join(aired_both(dice, lists, (25, 25), pair=pair))


def others(dice):
    """Blocks of a later edition, and tables in pages of one packet: most stand in more than one page, with the other's between."""
    yield "editions", "-s 1,2", b"".join(aired_both(dice, [[later(CASE_G, n) for n in (0, 3, 0x8000, 1, 0x8001, 0xFFFF, 0)]] * 2, (1, 1)))
    data = b"".join(aired_both(dice, [[record(some_table(dice, descriptors=2)) for _ in range(12)] for _ in both.BOTH], (1, 1), (15, 3)))
    text = listing.desk(data, TWO)
    joined = [[b"joined=1\n" in part for part in text.split(b"stream=") if part.startswith(b"%d\n" % stream)] for stream in TWO.streams()]
    assert all(sum(one) > 3 for one in joined) and not all(joined[0] + joined[1])
    yield "joined", "-s 1,2", data


# --- drops: a table of each stream lies in three pages of one packet, and is followed by another ------------------------

def fates(packets):
    """Of which streams a block was dropped with each packet that dropped one, by a reader of each."""
    readers = [guide.Reader(TWO.of(whose)) for whose in both.BOTH]
    dropped = [[reader.feed(packet).dropped for reader in readers] for packet in packets]
    return [tuple(one) for one in dropped if any(one)]


def drops():
    """What drops the first's block, the second's, or both with one packet; what comes after is read."""
    tables = [CASE_G._replace(network=network, descriptors=[(1, [0x647574, 0x000888] * 5)]) for network in (1, 2)]
    ends = [CASE_G._replace(network=network) for network in (3, 4)]
    a, b = (pages_of(TWO.of(whose), 3, 1, [record(tables[whose]), record(ends[whose])]) for whose in both.BOTH)
    assert len(a) == len(b) == 4
    first, second, two = (True, False), (False, True), (True, True)

    def long_(page):
        """A packet 0 whose n is 26."""
        return [with_bytes(page[0], (5, octet.image(2)), (7, octet.image(3))), page[1]]

    def lost(page, row, at):
        return [with_bytes(packet, (at, LOST)) if i == row else packet for i, packet in enumerate(page)]

    for name, pages, expected in (
            ("none", [a[0], b[0], a[1], b[1], b[2], a[2], a[3], b[3]], []),
            ("address", [a[0], b[0], lost(a[1], 1, 0), a[2], b[1], b[2], a[3], b[3]], [two]),
            ("address-other", [a[0], b[0], lost(b[1], 1, 1), b[2], a[1], a[2], a[3], b[3]], [two]),
            ("header", [a[0], b[0], lost(a[1], 0, 4), b[1], a[2], b[2], a[3], b[3]], [two]),
            ("header-other", [a[0], b[0], lost(b[1], 0, 7), a[1], b[2], a[2], a[3], b[3]], [two]),
            ("short", [a[0], b[0], a[1][:1], b[1], b[2], a[2], b[3], a[3]], [first]),
            ("short-other", [a[0], b[0], b[1][:1], a[1], a[2], b[2], b[3], a[3]], [second]),
            ("index", [b[0], a[0], a[2], b[1], b[2], a[3], b[3]], [first]),
            ("index-other", [a[0], b[0], b[2], a[1], a[2], a[3], b[3]], [second]),
            ("long", [b[0], a[0], long_(a[1]), b[1], b[2], a[2], a[3], b[3]], [first]),
            ("two-rules", [a[0], b[0], a[1][:1], b[2], a[2], a[3], b[3]], [two]),
            ("two-rules-other", [b[0], a[0], b[1][:1], a[2], b[2], a[3], b[3]], [two]),
            ("each", [a[0], b[0], a[2], b[2], a[3], b[3]], [first, second]),
            ("after", [a[0], lost(a[1], 1, 0), b[0], a[2], b[1], b[2], a[3], b[3]], [first])):
        packets = [packet for page in pages for packet in page]
        assert fates(packets) == expected, name
        data = b"".join(packets)
        text = listing.desk(data, TWO).decode()
        assert [f"network={network}\n" in text for network in (1, 2, 3, 4)] == [not any(fate[whose] for fate in expected) for whose in both.BOTH] + [True, True]
        yield f"drop-{name}", "-s 1,2", data


def rough(dice):
    """Pages of both that are too long, broken off, lost or out of step, with packets that can't be read: most drop in one, some in both."""
    duet, packets = Duet(dice, TWO), []
    for page in mixed(dice, *(pages_of(TWO.of(whose), 5, 3 + whose, night_list(dice, 90)) for whose in both.BOTH)):
        fate, air = dice.below(24), dice.pick(duet.airs)
        if fate < 4:
            page[0] = (air.header(dice.below(16), dice.below(32)), with_bytes(page[0], (dice.between(2, 7), LOST)),
                       duet.third().header(dice.below(16), 3), duet.page().header(1, 3))[fate]
        elif fate < 6:
            del page[dice.below(len(page)):]
        packets += [p if dice.below(30) else dice.pick([with_bytes(p, (dice.below(2), LOST)), air.noised(p, 2), air.elsewhere("magazine"), air.elsewhere("y"),
                                                        dice.bytes(PACKET)]) for p in page]
    seen = fates(packets)
    assert all(seen.count(fate) > 5 for fate in ((True, False), (False, True), (True, True)))
    yield "rough", "-s 1,2", b"".join(packets)


# --- nothing of ours --------------------------------------------------------------------

def without(dice):
    """Neither came: PES packets, packets out of step, bits turned about, other pages, packets 0 that can't be read; the first place where
    one of either stands; and one of the two after all, which is enough."""
    clean = b"".join(aired_both(dice, [night_list(dice, 4), night_list(dice, 4)]))
    a, b = (Air(dice, TWO.of(whose)).header(3, 5) for whose in both.BOTH)
    rows = b"".join(p for p in packets_in(clean) if octet.decode(p[1]) != 0 or octet.decode(p[0]) > 7)
    pages = b"".join(Air(dice, Setting(1 + i % 8, 16 * i % 256 + i, i % 16)).header(i % 16, 25) for i in range(40))
    broken = b"".join(with_bytes(header, (at, LOST)) for at in (4, 5, 7) for header in (a, b))  # our page and streams, but S1, S2 or S4 is lost
    lost = bytes([LOST])
    for name, words, data in (
            ("pes", "-s 1,2", night_pes(packets_in(clean))),
            ("pes-part", "-s 2,1", b"\x00\x00\x01\xBD"),
            ("step", "-s 1,2", clean[5:] + b"\x00" * 5),
            ("cut", "-s 1,2", clean[5:]),
            ("turned", "-s 1,2", octet.turned(clean)),
            ("turned-step", "-s 1,2", octet.turned(clean[17:])),
            ("place-first", "-s 1,2", lost * 5 + a + lost * 7 + b + lost * 30),
            ("place-second", "-s 1,2", lost * 5 + b + lost * 7 + a + lost * 30),
            ("place-one", "-s 9,2", lost * 5 + a + lost * 7 + b + lost * 30),
            ("place-turned", "-s 1,2", octet.turned(lost * 5 + a) + lost * 3 + b),               # bytes as they stand go first
            ("turned-first", "-s 1,2", octet.turned(lost * 5 + a + lost * 2 + b)),
            ("turned-second", "-s 1,2", octet.turned(lost * 42 + b + lost * 2 + a)),
            ("place-pieces", "-s 1,2", lost * (PIECE - 20) + a + lost * 9 + b),                    # the first lies across two pieces
            ("place-far", "-s 1,2", lost * (2 * PIECE + 4) + b + lost * 9 + a),
            ("stranger", "-s 9,4", clean),
            ("stranger-page", "-p FE -m 8 -s 0,15", clean + b"\x15" * 3),
            ("many-pages", "-p 00 -s 3,5", pages * 2),
            ("rows", "-s 1,2", rows),
            ("broken", "-s 1,2", broken + rows),
            ("broken-others", "-s 1,2", broken + pages[:5 * PACKET] + broken + pages[5 * PACKET:] + broken),
            ("broken-one", "-s 1,2", with_bytes(a, (4, LOST)) + b),                               # the other came: nothing is said
            ("broken-stranger", "-s 1,9", with_bytes(a, (4, LOST)) + b),
            ("noise", "-s 1,2", lost * 4201),
            ("one-first", "-s 1,2", a),
            ("one-second", "-s 1,2", rows + b),
            ("one-late", "-s 1,2", lost * (2 * PIECE) + b)):
        yield name, words, data


def halves(dice):
    """A capture cut where a block of each stream runs: the lists of its halves lack both."""
    packets = aired_both(dice, [[record(some_table(dice, descriptors=9, most=12)) for _ in range(3)] for _ in both.BOTH], (3, 2))
    reader = both.ReaderOfTwo(TWO)
    at = next(at for at, packet in enumerate(packets, 1) if [reader.feed(packet)] and all(reader.blocks) and at > len(packets) // 3)
    first, second = b"".join(packets[:at]), b"".join(packets[at:])
    came = [[stream for stream, _ in streams.blocks(TWO, data)] for data in (first + second, first, second)]
    assert all(came[0].count(stream) > came[1].count(stream) + came[2].count(stream) for stream in TWO.streams())
    yield "half-1", "-s 1,2", first
    yield "half-2", "-s 1,2", second


def cases(dice):
    """Name, words, setting and bytes; each setting of two also the other way about, said by one -s more: what is printed is the same."""
    for name, words, data in (*sample(), *elsewhere(dice), *between(dice), *long(dice), *others(dice), *drops(), *rough(dice), *without(dice), *halves(dice)):
        setting = heeded(words)
        yield f"two-{name}", words, setting, data
        if len(setting.streams()) == 2 and name not in ("many", "piece", "more", "less", "full"):
            yield f"two-{name}-about", f"{words} -s {setting.second},{setting.first}", about(setting), data


# --- words --------------------------------------------------------------------------------

def bad_words():
    """Words that -s doesn't take: each number and each comma gone wrong, by the model."""
    numbers = ["", "0", "1", "01", "15", "016", "16", "17", "100", "257", "65537", "4294967297", "18446744073709551617", "+1", "-1", "1a", "a1", "x", "0x1", "1.0", " 1", "1 "]
    words = [f"{one},{other}" for one, other in itertools.product(numbers, ["", "2", "16"])] + [f"2,{number}" for number in numbers]
    words += [f"{number},{number}" for number in ("0", "1", "7", "15", "001")] + ["1,01", "01,1", "0,000", "15,0015", "1,4294967297", "3,259", "1,65537", "0,18446744073709551616"]
    words += [f"1{between}2" for between in (",,", ", ", " ,", " , ", ";", ".", ":", "-", "/", "+", " ", "\t", ",+", ",-", "or", "\u060c", "\uff0c")]
    words += [",", ",,", "1,2,", ",1,2", "1,2,3", "1,2,1", "1,2,3,4", "1,2,,", " 1,2", "1,2 ", "1,2\r", "df,1", "\u0661,2", "-s", "--", "1,--", "-s,1"]
    return [word for word in dict.fromkeys(words) if streams.streams_in(word) is None]


def pairs():
    """A capture with a table in each of the sixteen streams, and what the desk prints of it for some pairs."""
    pages = [pages_of(DESK._replace(stream=stream), stream, 1, [record(CASE_G._replace(network=stream))])[0] for stream in (*range(1, 16, 2), *range(0, 16, 2))]
    data = b"".join(packet for page in pages for packet in page)
    words = [f"{one},{other}" for one in range(16) for other in sorted({one ^ 1, one ^ 8, (one + 3) % 16})]
    return data, {word: listing.desk(data, streams.heeding(DESK, word)) for word in words}
