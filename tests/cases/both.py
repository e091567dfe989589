"""Packets for the reader of two streams: mixtures of their pages, and what befalls one of them or both."""

from model import both, guide, octet
from model.both import Pair

from .form import LOST, with_bytes
from .reader import FILL, Air, wild_row

FRESH, FEED = 24, 25


def some_pair(dice):
    first = dice.below(16)
    return Pair(dice.between(1, 8), dice.below(256), first, (first + dice.between(1, 15)) % 16, dice.below(32))


class Hearing:
    """Cases 24 and 25: a fresh reader of two, then packets."""

    def __init__(self, script):
        self.script = script

    def fresh(self, pair):
        self.script.case(FRESH, 0, bytes(pair))

    def feed(self, *packets, room=both.ROOM):
        for packet in packets:
            self.script.case(FEED, room, packet)


class Duet:
    """The two streams of a setting: an air of each."""

    def __init__(self, dice, pair=None):
        self.dice, self.pair = dice, pair or some_pair(dice)
        self.airs = [Air(dice, self.pair.of(whose)) for whose in both.BOTH]

    def third(self):
        """The air of a stream that is none of the two."""
        others = [stream for stream in range(16) if stream not in self.pair.streams()]
        return Air(self.dice, self.airs[0].setting._replace(stream=self.dice.pick(others)))

    def page(self):
        """The air of another page, of the first, the second or a third stream."""
        air = self.dice.pick([*self.airs, self.third()])
        return Air(self.dice, air.setting._replace(page=self.pair.page ^ 1 << self.dice.below(8)))

    def pages(self, whose, k, sizes, index):
        """A stream's list, cut into whole pages."""
        packets = self.airs[whose].stream(k, sizes, index)
        return [packets[at:at + k + 1] for at in range(0, len(packets), k + 1)]


def mixed(dice, first, second):
    """The pages of two streams, each in its order."""
    first, second, out = list(first), list(second), []
    while first or second:
        out.append((first if first and (not second or dice.chance(2)) else second).pop(0))
    return out


def clean_cases(hear, dice, size):
    """Whole pages of either between whole pages of the other; third streams and other pages between them, other magazines anywhere."""
    for k, sizes in (((1, 1), ([60, 0, 34, 90], [40, 73, 2, 3])), ((2, 3), ([100, 5, 34], [0] * 20)), ((1, 4), ([34, 34, 34], [150]))):
        duet = Duet(dice)
        pages = mixed(dice, *(duet.pages(whose, k[whose], sizes[whose], dice.below(16)) for whose in both.BOTH))
        for pair in (duet.pair, duet.pair._replace(first=duet.pair.second, second=duet.pair.first)):    # in either order of the setting
            hear.fresh(pair)
            hear.feed(*(packet for page in pages for packet in page))
    for _ in range(2 * size):
        duet = Duet(dice)
        lists = [duet.pages(whose, dice.between(1, 4), [dice.below(90) for _ in range(5)], dice.below(16)) for whose in both.BOTH]
        hear.fresh(duet.pair)
        for page in mixed(dice, *lists):
            if dice.chance(2):
                other = dice.pick([duet.third(), duet.page()])
                hear.feed(other.header(dice.below(16), dice.below(32)), *(other.row(y, *wild_row(dice)) for y in range(1, dice.between(1, 3))))
            for packet in page:
                if dice.chance(6):
                    hear.feed(duet.airs[0].elsewhere(dice.pick(["magazine", "high y"])))
                hear.feed(packet)
    for indices in ((3, 3), (15, 0), (7, 8), (0, 15)):                  # an index for each: alike, and next to each other
        duet = Duet(dice)
        hear.fresh(duet.pair)
        hear.feed(*(packet for page in mixed(dice, *(duet.pages(whose, 1, [90], indices[whose]) for whose in both.BOTH)) for packet in page))


class Running:
    """Both run: the one's block in a page that is done, then mine's in the open page, of n packets, whose first has come."""

    def __init__(self, hear, dice, mine, n=1):
        self.hear, self.duet, self.mine, self.other = hear, Duet(dice), mine, 1 - mine
        self.air, self.indices = self.duet.airs[mine], [dice.below(16), dice.below(16)]
        self.blocks = [air.block(44) for air in self.duet.airs]
        hear.fresh(self.duet.pair)
        for whose, count in ((self.other, 1), (mine, n)):
            hear.feed(self.header(whose, 0, count), self.duet.airs[whose].row(1, 0, self.blocks[whose]))

    def header(self, whose, on, n=1):
        """A stream's packet 0, so far on from its last."""
        self.indices[whose] += on
        return self.duet.airs[whose].header(self.indices[whose], n)

    def row(self, whose, y):
        """The rest of a stream's block, and a small one."""
        return self.duet.airs[whose].row(y, 4, self.blocks[whose][39:] + bytes([FILL]) * 2 + self.duet.airs[whose].block(3))

    def rests(self, *order):
        """What is left of each comes, in a page of its own: it shows which was dropped."""
        for whose in order or (self.mine, self.other):
            self.hear.feed(self.header(whose, 1), self.row(whose, 1))


def unreadable_cases(hear, dice, size):
    """An unreadable address, and one of the six bytes of a packet 0 of our magazine, drop both and shut the page."""
    for at in (0, 1):
        for n, packet in ((1, "row"), (2, "row"), (2, "header"), (1, "magazine")):
            run = Running(hear, dice, at, n)
            lost = {"row": run.air.row(2, 13), "header": run.header(run.other, 0), "magazine": run.air.elsewhere("magazine")}[packet]
            hear.feed(with_bytes(lost, (at, LOST)), run.row(run.mine, 2)), run.rests()
    for at in range(2, 8):
        for n, whose in ((1, "mine"), (2, "mine"), (1, "other"), (2, "other"), (1, "third"), (2, "page")):
            if whose in ("third", "page") and at % 2:
                continue
            run = Running(hear, dice, at % 2, n)
            air = {"mine": run.air, "other": run.duet.airs[run.other], "third": run.duet.third(), "page": run.duet.page()}[whose]
            hear.feed(with_bytes(air.header(dice.below(16), 1), (at, LOST)), run.row(run.mine, 1)), run.rests()
    run = Running(hear, dice, 0)                # with the page shut, and only one block left
    hear.feed(run.duet.page().header(1, 3), run.row(0, 1), with_bytes(run.header(0, 0), (3, LOST)), run.row(0, 1)), run.rests()
    run = Running(hear, dice, 1, 2)
    hear.feed(run.row(1, 2), with_bytes(run.air.row(2, 13), (1, LOST))), run.rests(0, 1)


def packet_0_cases(hear, dice, size):
    """A short page drops its own stream's block, whichever packet 0 follows; index and n those of the stream that it names; one may drop both."""
    for n in (0, 1, 2, 25):                     # 0 and 1 are done, the others short
        for what in ("mine", "mine index", "mine long", "other", "other index", "other same", "other long", "third", "page", "magazine", "high y"):
            if n == 25 and what in ("mine long", "page", "magazine", "high y") or n == 0 and "mine" not in what and "other" not in what:
                continue
            run = Running(hear, dice, dice.below(2), n or 1)
            if n == 0:                          # a page of no packets stands between
                hear.feed(run.header(run.mine, 1, 0))
            whose = run.other if "other" in what else run.mine
            if what in ("mine", "other"):
                hear.feed(run.header(whose, 1), run.row(whose, 1)), run.rests(1 - whose, whose)
            elif "index" in what or "same" in what:
                hear.feed(run.header(whose, 0 if "same" in what else dice.between(2, 15)), run.row(whose, 1)), run.rests(1 - whose, whose)
            elif "long" in what:                # its index counts all the same
                hear.feed(run.header(whose, 1, dice.between(26, 31)), run.row(whose, 1)), run.rests()
            elif what in ("third", "page"):     # rows behind it are nobody's
                hear.feed((run.duet.third() if what == "third" else run.duet.page()).header(dice.below(16), dice.below(32)), run.row(run.mine, 1)), run.rests()
            else:
                hear.feed(run.air.elsewhere(what), run.row(run.mine, 2)), run.rests(run.other, run.mine)
    for mine in both.BOTH:                      # the other's page is short and its own index wrong: both at once, and so with n over 25
        for n in (1, 30):
            run = Running(hear, dice, mine, 2)
            hear.feed(run.header(run.other, 5, n), run.row(run.other, 1)), run.rests()
    for mine in both.BOTH:                      # short pages one after the other, each dropping its own
        run = Running(hear, dice, mine, 3)
        hear.feed(run.header(run.other, 1, 2), run.row(run.other, 1), run.header(mine, 1, 2), run.row(mine, 1), run.header(run.other, 1, 1)), run.rests()


def row_cases(hear, dice, size):
    """What befalls a packet Y, or its 40 bytes, befalls the open page's block and not the other."""
    for what in ("skipped", "again", "over", "pointer", "stray", "late", "header"):
        for mine in both.BOTH:
            run = Running(hear, dice, mine, 3)
            row = run.row(mine, {"skipped": 3, "again": 1, "over": 4}.get(what, 2))
            if what == "pointer":
                row = with_bytes(row, (2, LOST if mine else octet.image(14 + dice.below(2))))
            elif what in ("stray", "late"):
                row = with_bytes(row, (3 + 11, LOST)) if what == "stray" else with_bytes(row, (2, octet.image(3)))
            elif what == "header":              # a block whose header can't be read starts in the other's page
                row = run.air.row(2, 4, run.blocks[mine][39:] + bytes([FILL]) * 2 + with_bytes(run.air.block(3), (2, LOST)))
            hear.feed(row, run.air.row(3, 13)), run.rests(run.other, mine)
    for mine in both.BOTH:                      # a page of the other between: its packets aren't read for ours, nor ours for it
        run = Running(hear, dice, mine)
        hear.feed(run.header(run.other, 1, 2), run.row(run.other, 1), run.duet.airs[run.other].row(2, 0, run.air.block(60)))
        hear.feed(run.header(mine, 1), run.row(mine, 1), run.header(run.other, 1, 1), run.duet.airs[run.other].row(1, 9, dice.bytes(27)))


def store_cases(hear, dice, size):
    """Both stores full to the last byte, page by page in turn; many blocks in a packet, each behind its stream's number."""
    duet = Duet(dice)
    lists = [duet.pages(whose, 9, [2047, 1], dice.below(16)) for whose in both.BOTH]
    hear.fresh(duet.pair)
    hear.feed(*(packet for pages in zip(*lists) for page in pages for packet in page))
    duet = Duet(dice)
    hear.fresh(duet.pair)
    for whose in both.BOTH:
        air = duet.airs[whose]
        hear.feed(air.header(2, 1), air.row(1, 12, bytes(36) + air.block(0)[:3]))
    for whose in both.BOTH:
        air = duet.airs[whose]
        hear.feed(air.header(3, 1), air.row(1, 1, octet.images([2, 0]) + bytes([FILL]) + b"".join(air.block(0) for _ in range(7))))


def refused_cases(hear, dice, size):
    """16 and 1; the state comes back equal."""
    run = Running(hear, dice, 1, 2)
    for length in (0, 41, 43, 84):
        hear.feed(dice.bytes(length)), hear.feed(dice.bytes(length), room=0)
    for room in (0, guide.ROOM, both.ROOM - 1):
        hear.feed(bytes([LOST]) * 42, run.header(0, 0), run.row(1, 2), room=room)
    hear.feed(run.row(1, 2), room=both.ROOM + 300)
    hear.feed(run.header(0, 1), run.row(0, 1))
    for setting in ((0, 0, 1, 2, 0), (9, 0, 1, 2, 0), (1, 0, 16, 2, 0), (1, 0, 1, 16, 0), (1, 0, 255, 1, 0), (1, 0, 1, 2, 32), (1, 0, 1, 1, 0), (8, 255, 0, 0, 31),
                    (1, 0, 16, 16, 0), (1, 0, 17, 1, 0), (8, 255, 15, 0, 31), (1, 0, 0, 15, 0)):
        pair = Pair(*setting)
        air = Air(dice, (pair if pair.in_range() else Pair(1, 0, 1, 2)).of(1))
        hear.fresh(pair)
        hear.feed(air.header(0, 1), air.row(1, 0, air.block(4)))
        hear.feed(air.header(0, 1), air.row(1, 0), dice.bytes(41), room=both.ROOM - 1)


def wild_cases(hear, dice, size):
    """Long runs of packets of both streams that are nearly right, garbage among them."""
    for _ in range(2 * size):
        duet = Duet(dice)
        hear.fresh(duet.pair)
        indices, whose, n, y = [dice.below(16), dice.below(16)], 0, 0, 0
        for _ in range(130):
            y += 1
            if y > n or dice.chance(30):
                whose, n, y = dice.below(2), dice.between(1, 4), 0
                indices[whose] += dice.pick([1] * 9 + [2])
                packet = duet.airs[whose].header(indices[whose], n if dice.below(15) else dice.below(32), dice.below(2), dice.below(4))
            else:
                packet = duet.airs[whose].row(dice.between(1, 5) if dice.chance(25) else y, *wild_row(dice))
            if dice.chance(20):
                packet = dice.pick([duet.third(), duet.page()]).header(dice.below(16), dice.below(32))
            if dice.chance(25):
                packet = with_bytes(packet, (dice.below(42), LOST)) if dice.chance(2) else duet.airs[0].noised(packet, 2)
            hear.feed(packet)
    hear.feed(b"\x00" * 42, b"\xff" * 42, bytes([LOST]) * 42)


def all_cases(script, dice, size):
    hear = Hearing(script)
    for cases in (clean_cases, unreadable_cases, packet_0_cases, row_cases, store_cases, refused_cases, wild_cases):
        cases(hear, dice, size)
