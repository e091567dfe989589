"""Packets for the reader: what befalls a page, a running block, a pointer."""

from model import guide, octet
from model.guide import Setting

from .form import LOST, with_bytes
from .writer import some_list, some_setting

FILL, BEGIN = octet.image(guide.FILLER), octet.image(guide.START)


class Air:
    """Packets of one setting, and what befalls them."""

    def __init__(self, dice, setting=None):
        self.dice, self.setting = dice, setting or some_setting(dice)

    def header(self, index, n, c4=0, c56=0):
        """Packet 0; the bits C4, C5 and C6, the control bytes and the text are free."""
        packet = guide.packet_0(self.setting, index % 16, n)
        s2, s4 = n % 8 + 8 * c4, n // 8 + 4 * c56
        return with_bytes(packet, (5, octet.image(s2)), (7, octet.image(s4)))[:8] + self.dice.bytes(34)

    def row(self, y, pointer, data=b"", rest=FILL):
        """A packet; pointer 16 is one that can't be decoded, bytes of data from 1 on."""
        pointer = LOST if pointer == 16 else octet.image(pointer)
        data = bytes(data)[:39]
        return guide.address(self.setting.magazine, y) + bytes([pointer]) + data + bytes([rest]) * (39 - len(data))

    def block(self, size):
        """A block's start, header and raw bytes."""
        head = guide.head_of(self.dice.below(32), size)
        return octet.images([guide.START] + guide.nibbles_of(head)) + self.dice.bytes(size)

    def stream(self, k, sizes, index=0):
        packets = guide.cut(self.setting, index % 16, k, some_list(self.dice, sizes))
        return [packets[i:i + 42] for i in range(0, len(packets), 42)]

    def noised(self, packet, most):
        """At most so many flipped bits in each byte."""
        return bytes(self.flipped(b, self.dice.below(most + 1)) for b in packet)

    def flipped(self, byte, count):
        for place in [self.dice.below(8) for _ in range(count)]:
            byte ^= 1 << place
        return byte

    def elsewhere(self, what):
        """A packet of another magazine, page or stream, or of Y 26..31."""
        dice, s = self.dice, self.setting
        if what == "magazine":
            other = Setting(s.magazine % 8 + 1, s.page, s.stream)
            return Air(dice, other).header(dice.below(16), dice.below(26)) if dice.chance(2) else \
                Air(dice, other).row(dice.between(1, 25), dice.below(17), dice.bytes(39))
        if what == "page":
            return Air(dice, s._replace(page=s.page ^ 1 << dice.below(8))).header(dice.below(16), dice.below(32))
        if what == "stream":
            return Air(dice, s._replace(stream=s.stream ^ 1 << dice.below(4))).header(dice.below(16), dice.below(32))
        return self.row(dice.between(26, 31), dice.below(17), dice.bytes(39))


class Hearing:
    """Cases 20 and 21: a fresh reader, then packets."""

    def __init__(self, script):
        self.script = script

    def fresh(self, air):
        self.script.case(20, 0, bytes(air.setting))

    def feed(self, *packets, room=guide.ROOM):
        for packet in packets:
            self.script.case(21, room, packet)


def clean_cases(hear, dice, size):
    for k, sizes in ((1, [0, 1, 2, 34, 35, 60]), (2, [34, 34, 73, 5]), (3, [0] * 9 + [40]), (25, [200, 0, 300, 33]),
                     (7, [2047]), (5, [22] * 12)):
        air = Air(dice)
        hear.fresh(air)
        hear.feed(*air.stream(k, sizes, dice.below(16)))
    for _ in range(2 * size):                   # other packets between, kept by a new page
        air = Air(dice)
        hear.fresh(air)
        for packet in air.stream(dice.between(1, 9), [dice.below(120) for _ in range(6)], dice.below(16)):
            for _ in range(dice.below(2)):
                hear.feed(air.noised(air.elsewhere(dice.pick(["magazine", "high y"])), 0))
            hear.feed(packet)


def noise_cases(hear, dice, size):
    for most in [1] * size + [2] * 4 * size:    # one and two flips in each byte
        air = Air(dice)
        hear.fresh(air)
        for packet in air.stream(dice.pick([1, 2, 4]), [dice.below(50) for _ in range(16)]):
            noised = air.noised(packet, most) if most == 1 or dice.chance(4) else packet
            hear.feed(noised)
    for _ in range(6 * size):                   # lost, doubled, reordered, others inside
        air = Air(dice)
        hear.fresh(air)
        packets = air.stream(dice.between(1, 5), [dice.below(90) for _ in range(10)], dice.below(16))
        for _ in range(dice.between(1, 5)):
            at = dice.below(len(packets) - 1)
            befalls = dice.below(5)
            if befalls == 0:
                del packets[at:at + dice.between(1, 3)]
            elif befalls == 1:
                packets.insert(at, packets[at])
            elif befalls == 2:
                packets[at:at + 2] = packets[at:at + 2][::-1]
            elif befalls == 3:
                packets.insert(at, air.elsewhere(dice.pick(["magazine", "page", "stream", "high y"])))
            else:
                packets[at] = with_bytes(packets[at], (dice.below(42), dice.below(256)))
        hear.feed(*packets)


def running_cases(hear, dice, size):
    """A block is running, then something befalls, then its rest comes."""
    def running(air, n=25, last=1, index=0):
        """A page with a block whose ten last bytes are to come, at packet last."""
        block = air.block(34 + 39 * (last - 1) + 10)
        rows = [air.row(1 + i, 13 if i else 0, block[39 * i:39 * i + 39]) for i in range(last)]
        hear.fresh(air)
        hear.feed(air.header(index, n), *rows)
        return air.row(last + 1, 4, block[39 * last:] + bytes([FILL]) * 2 + air.block(3)), block

    # addresses: each byte undecodable; other magazines, Y 26..31
    for change in ((0, LOST), (1, LOST), (0, 0xFF ^ LOST)):
        air = Air(dice)
        rest, _ = running(air)
        hear.feed(with_bytes(air.row(2, 13), change), rest, air.header(1, 1), air.row(1, 0, air.block(4)))
    for what in ("magazine", "magazine", "page", "stream", "high y", "high y"):
        air = Air(dice)
        rest, _ = running(air)
        hear.feed(air.elsewhere(what), rest)
    for damaged in (0, 1):                      # the other address byte tells another magazine or Y 31
        air = Air(dice)
        rest, _ = running(air)
        hear.feed(with_bytes(air.elsewhere("magazine"), (damaged, LOST)), rest)
    # packet 0 after a complete page and one not complete: next index or not, each n, six damaged bytes
    for n in range(32):
        air = Air(dice)
        rest, block = running(air, n=1, index=15)
        again = air.row(1, 4, rest[3:])
        hear.feed(air.header(0, n, dice.below(2), dice.below(4)), again, air.row(2, 13), air.header(1, 2))
    for n, index, next_index in ((1, 3, 4), (1, 3, 5), (1, 3, 3), (1, 15, 0), (1, 15, 1), (2, 3, 4), (25, 15, 0), (1, 0, 0)):
        for between in (None, "page", "stream", "magazine"):
            air = Air(dice)
            rest, _ = running(air, n=n, index=index)
            if between:
                hear.feed(air.elsewhere(between))
            hear.feed(air.header(next_index, 1), air.row(1, 4, rest[3:]))
    for at in range(2, 8):
        for n in (1, 2):
            air = Air(dice)
            rest, _ = running(air, n=n)
            hear.feed(with_bytes(air.header(1, 1), (at, LOST)), air.row(1, 4, rest[3:]))
            hear.feed(air.header(1, 1), air.row(1, 4, rest[3:]))
    for mended in range(2, 8):                  # a mended byte of the six serves; other bytes aren't read
        air = Air(dice)
        rest, _ = running(air, n=1)
        packet = air.header(1, 1, 1, 3)
        hear.feed(with_bytes(packet, (mended, packet[mended] ^ 1 << dice.below(8))), air.row(1, 4, rest[3:]))
    # an n over 25: its index counts, and the next page fits it or doesn't; n 0 is complete at once
    for n in (0, 26, 31):
        for index in (1, 2):
            air = Air(dice)
            rest, _ = running(air, n=1)
            hear.feed(air.header(1, n))
            block = air.block(44)
            hear.feed(air.header(2, 1), air.row(1, 0, block), air.header(index + 2, 1),
                      air.row(1, 4, block[39:] + bytes([FILL]) * 29))
    air = Air(dice)                             # n over 25: its index is ours, the next is one above
    hear.fresh(air)
    block = air.block(44)
    hear.feed(air.header(4, 1), air.row(1, 0, block), air.header(6, 30), air.header(7, 1), air.row(1, 0, block),
              air.header(8, 1), air.row(1, 13, block[39:]))
    # Y: each last of a page of 2, each Y
    for n in (2, 3):
        for last in range(1, n + 1):
            for y in (0, 1, 2, 3, 4, 24, 25, 26, 31):
                air = Air(dice)
                rest, _ = running(air, n=n, last=last)
                packet = air.header(1, n) if y == 0 else with_bytes(rest, *enumerate(guide.address(air.setting.magazine, y)))
                hear.feed(packet, air.row(last + 1, 0, air.block(2)), air.row(last + 2, 13))
    # a packet that is skipped for its pointer still sets last
    for pointer in (14, 15, 16):
        air = Air(dice)
        hear.fresh(air)
        hear.feed(air.header(0, 3), air.row(1, pointer, air.block(9)), air.row(2, 0, air.block(50)),
                  air.row(3, 13, dice.bytes(39)))
    # our page shut, in a fresh reader too (SCOPE 8.10)
    air = Air(dice)
    hear.fresh(air)
    hear.feed(air.row(1, 0, air.block(3)), air.header(5, 2), air.row(1, 0, air.block(3)), air.elsewhere("page"),
              air.row(2, 0, air.block(3)), air.header(6, 0), air.row(1, 0, air.block(3)), air.row(0, 0))


def pointer_cases(hear, dice, size):
    # each pointer, against an idle reader and against a block in header or body
    for pointer in range(17):
        for begin in (None, 35, 36, 37, 38, 39, 1):
            air = Air(dice)
            block = air.block(40) if begin == 1 else air.block(dice.pick([0, 3, 6]))
            hear.fresh(air)
            hear.feed(air.header(0, 2))
            if begin:
                first = bytes([FILL]) * ((begin - 1) % 3 if begin > 1 else 0) + block
                hear.feed(air.row(1, (begin - 1) // 3, bytes([LOST]) * ((begin - 1) // 3 * 3) + first))
                left = block[40 - begin:]
            else:
                left = dice.bytes(7)
                hear.feed(air.row(1, 13, dice.bytes(39)))
            starts = bytes([FILL]) * max(3 * pointer - len(left), 0) + air.block(1)
            hear.feed(air.row(2, pointer, left + starts))
    # blocks that end at each place, with filler, another nibble, or a lost byte up to the pointed byte
    for end in range(1, 40):
        for between in ("filler", "stray", "lost", "none", "late") if end % 2 else ("filler", "stray", "late"):
            air = Air(dice)
            block = air.block(34 + end)
            pointer = min(-(-end // 3) + dice.below(3), 12)
            tail = bytearray([FILL]) * (39 - end)
            gap = 3 * pointer - end
            if between in ("stray", "lost") and gap > 0:
                tail[dice.below(gap)] = LOST if between == "lost" else octet.image(dice.pick([0, 2, 11, 12, 15]))
            if between == "filler" and gap > 0:
                tail[dice.below(gap)] = FILL ^ 1 << dice.below(8)
            if between == "none":
                pointer, tail = 13, air.block(0) + dice.bytes(40)
            if between == "late":
                pointer = max(pointer - dice.between(1, 2), 0)
            elif gap >= 0 and between != "none":
                tail[gap:] = air.block(0) + bytes([FILL]) * 39
            hear.fresh(air)
            hear.feed(air.header(7, 2), air.row(1, 0, block), air.row(2, pointer, block[39:] + tail))
    # a header byte that can't be decoded, in one packet and over two
    for begin in (1, 34, 36, 37, 38, 39):
        for broken in range(1, 5):
            for pointer in (2, 13):
                air = Air(dice)
                block = with_bytes(air.block(5), (broken, LOST))
                lead = (begin - 1) % 3
                hear.fresh(air)
                first = bytes((begin - 1) // 3 * 3) + bytes([FILL]) * lead + block
                hear.feed(air.header(0, 3), air.row(1, (begin - 1) // 3, first))
                hear.feed(air.row(2, pointer, (block[40 - begin:] + bytes([FILL]) * 6)[:6] + air.block(2)))
                hear.feed(air.row(3, 0, air.block(1)))
    for broken in range(1, 5):                  # .. skips the rest, even a start right behind it
        for filler in (0, 1, 3):
            air = Air(dice)
            block = air.block(0)[:broken] + bytes([LOST]) + bytes([FILL]) * filler
            hear.fresh(air)
            hear.feed(air.header(0, 2), air.row(1, 1, air.block(0)[:3] + block + air.block(1) + air.block(2)), air.row(2, 13))
    # what stands at the pointed byte, and what follows blocks
    for nibble in range(16):
        air = Air(dice)
        hear.fresh(air)
        hear.feed(air.header(0, 3), air.row(1, 0, [octet.image(nibble)]),
                  air.row(2, 0, air.block(2) + octet.images([nibble]) + air.block(0)),
                  air.row(3, 1, bytes(3) + octet.images([3, nibble, 3]) + air.block(0)))
    for lost in (LOST, 0xFF ^ LOST):
        air = Air(dice)
        hear.fresh(air)
        hear.feed(air.header(0, 2), air.row(1, 0, bytes([lost]) + air.block(0)),
                  air.row(2, 0, air.block(1) + bytes([lost]) + air.block(0)))
    # many blocks of size 0, eight in one packet, with and without filler between
    for begin in (35, 36, 37, 38, 39):
        air = Air(dice)
        lead = (begin - 1) // 3
        block = air.block(0)
        row = block[40 - begin:]
        row += bytes([FILL]) * (-len(row) % 3)
        pointer = len(row) // 3
        hear.fresh(air)
        hear.feed(air.header(9, 2), air.row(1, lead, bytes(3 * lead) + bytes([FILL]) * ((begin - 1) % 3) + block),
                  air.row(2, pointer, row + b"".join(air.block(0) for _ in range(7))))
    air = Air(dice)                             # a store full to the last byte, then more blocks
    hear.fresh(air)
    block = air.block(2047)
    rows = [air.row(y, 13 if y > 1 else 0, block[39 * (y - 1):39 * y]) for y in range(1, 26)]
    hear.feed(air.header(0, 25), *rows, air.header(1, 25))
    rows = [air.row(y, 13, block[975 + 39 * (y - 1):975 + 39 * y]) for y in range(1, 26)]
    left = block[1950:]
    hear.feed(*rows, air.header(2, 3), air.row(1, 13, left[:39]), air.row(2, 13, left[39:78]),
              air.row(3, 8, left[78:] + bytes([FILL]) * (24 - len(left[78:])) + air.block(1) + air.block(2)))


def mended_cases(hear, dice, size):
    """The part of a block: its start and header bytes that aren't images, wherever they stand; nothing else counts."""
    hit = lambda byte: byte ^ 1 << dice.below(8)

    def damaged(block, which):
        """Its first five bytes with one flipped bit where the bits of a number say so."""
        return bytes(hit(b) if i < 5 and which >> i & 1 else b for i, b in enumerate(block))

    for which in range(32):                     # each choice of the five, all in one packet
        air = Air(dice)
        hear.fresh(air)
        hear.feed(air.header(0, 1), air.row(1, 0, damaged(air.block(dice.below(9)), which) + damaged(air.block(2), 31 - which)))
    for begin in range(34, 40):                 # .. over two packets of one page, and over two pages
        for which in (1, 2, 16, 31, dice.below(32)):
            for n in (1, 2):
                air = Air(dice)
                block = damaged(air.block(dice.pick([0, 1, 5, 30])), which)
                lead = (begin - 1) // 3
                hear.fresh(air)
                hear.feed(air.header(0, n), air.row(1, lead, bytes([FILL ^ 1]) * (begin - 1) + block))
                rest = block[40 - begin:]
                rest += bytes([FILL ^ 1 << dice.below(8)]) * (-len(rest) % 3)
                if n == 1:
                    hear.feed(air.header(1, 1))
                hear.feed(air.row(2 if n == 2 else 1, len(rest) // 3, rest + damaged(air.block(0), dice.below(32))))
    for between in ("pointer", "stray", "lost", "index", "header"):     # a block with mended bytes is dropped, the next has its own part
        air = Air(dice)
        first, second = damaged(air.block(90), 31), damaged(air.block(3), dice.pick([0, 1, 16]))
        hear.fresh(air)
        hear.feed(air.header(0, 3 if between != "index" else 1), air.row(1, 0, first))
        if between == "header":
            first = with_bytes(damaged(air.block(5), 15), (4, LOST))
            hear.feed(air.row(2, 0, first))
        if between == "lost":
            hear.feed(with_bytes(air.row(2, 13), (1, LOST)), air.header(1, 3), air.row(1, 13))
        if between == "index":
            hear.feed(air.header(9, 3), air.row(1, 13))
        hear.feed(air.row(2 if between != "header" else 3, 16 if between == "pointer" else 1, octet.images([2, 3, 3]) + second))
        hear.feed(air.row(3, 0, second))
    for most in (1, 1, 2):                      # noise in fillers, pointers, addresses and packets 0 only
        air = Air(dice)
        hear.fresh(air)
        block = air.block(50)
        rest = block[36:] + bytes([FILL]) * 2
        for packet, keep in ((air.header(3, 1), 42), (air.row(1, 1, bytes([FILL]) * 3 + block), 6),
                             (air.header(4, 1), 42), (air.row(1, 7, rest + air.block(0) + bytes([FILL]) * 4), 3)):
            hear.feed(air.noised(packet[:keep], 1) + packet[keep:])
        hear.feed(air.noised(air.header(5, 2), most), air.noised(air.row(1, 0, air.block(20) + air.block(4)), most),
                  air.noised(air.row(2, 0, air.block(0) * 7), most))
    air = Air(dice)                             # eight in one packet, each with its own part
    hear.fresh(air)
    blocks = [damaged(air.block(0), which) for which in (31, 0, 1, 2, 7, 30, 21, 16)]
    hear.feed(air.header(0, 2), air.row(1, 12, bytes(36) + blocks[0]), air.row(2, 1, blocks[0][3:] + bytes([FILL]) + b"".join(blocks[1:])))
    for _ in range(4 * size):                   # at random, with two flips seldom
        air = Air(dice)
        hear.fresh(air)
        for packet in air.stream(dice.pick([1, 2, 3]), [dice.below(40) for _ in range(12)], dice.below(16)):
            hear.feed(air.noised(packet, 1) if dice.below(9) else air.noised(packet, 2))


def joined_cases(hear, dice, size):
    """The second byte: 1 for a block whose bytes, start and header among them, stand in more than one page as they were met."""
    def over(air, block, begin, *between, n=1, more=b""):
        """A block that begins at a byte of a page's last packet, what comes between, and a page with its rest and what follows it."""
        lead = (begin - 1) // 3
        hear.fresh(air)
        hear.feed(air.header(3, n), *(air.row(y, 13) for y in range(1, n)), air.row(n, lead, bytes([FILL]) * (begin - 1) + block), *between)
        rest = block[40 - begin:]
        return rest + bytes([FILL]) * (-len(rest) % 3) + more

    def rest_of(air, y, rest, at):
        return air.row(y, at // 3, rest)

    # a start alone in a page, a header across pages, one byte of a block in the second page, with blocks before and behind that aren't joined
    for begin in range(33, 40):
        for left in (0, 1, 2, 20):
            air = Air(dice)
            block = air.block(max(0, 40 - begin - 5 + left))
            rest = over(air, block, begin)
            hear.feed(air.header(4, 1), rest_of(air, 1, rest + air.block(0) + air.block(3), len(rest)))
    for n in (1, 2):                            # the last block of a packet runs on, in the same page or over its end
        air = Air(dice)
        first, second, third = air.block(40), air.block(14), air.block(60)
        hear.fresh(air)
        hear.feed(air.header(13 + n, n), air.row(1, 0, first))
        if n == 1:
            hear.feed(air.header(15, 1))
        rest = first[39:] + second + bytes([FILL]) * 2
        hear.feed(air.row(n, 2, rest + third), air.header(0, 2), air.row(1, 13, third[39 - len(rest):]))
        hear.feed(air.row(2, 5, third[78 - len(rest):] + bytes([FILL]) + air.block(1)))
    for pages in (3, 4, 17):                    # over many pages, and round the indices
        for n in (1, 2) if pages < 17 else (1,):
            air = Air(dice)
            rows = pages * n
            block = air.block(39 * (rows - 1) - 2)          # three bytes are left for the last packet
            hear.fresh(air)
            for at in range(rows):
                if at % n == 0:
                    hear.feed(air.header(9 + at // n, n))
                more = air.block(1) if at + 1 == rows else b""
                hear.feed(air.row(1 + at % n, 0 if at == 0 else 13 if at + 1 < rows else 1, (block[39 * at:39 * at + 39] + more + b"\x00" * 39)[:39]))
            hear.feed(air.header(9 + pages, 1), air.row(1, 0, air.block(2)))
    # what stands between the pages: a page of n 0, more of them, other pages, streams and magazines, their rows, Y over 25
    for zeros in (1, 2, 16):
        air = Air(dice)
        block = air.block(50)
        rest = over(air, block, 37, *(air.header(4 + i, 0) for i in range(zeros)))
        hear.feed(air.header(4 + zeros, 2), air.row(1, 13, rest), rest_of(air, 2, rest[39:] + air.block(1), len(rest) - 39))
    air = Air(dice)                             # .. and rows in it are over its n: they drop
    rest = over(air, air.block(5), 39, air.header(4, 0), air.row(1, 13))
    hear.feed(air.header(5, 1), rest_of(air, 1, rest + air.block(1), len(rest)))
    for what in ("page", "stream", "magazine", "high y"):
        for twice in (False, True):
            for n in (1, 2):
                air = Air(dice)
                between = [air.elsewhere(what), *([air.row(1, 0, air.block(1)), air.elsewhere(what)] if twice and what in ("page", "stream") else [])]
                rest = over(air, air.block(dice.below(30)), 38, *between, n=n)
                hear.feed(air.header(4, 1), rest_of(air, 1, rest + air.block(0), len(rest)))
    # another page's packet 0 alone opens no page of ours: nothing is joined, a row behind it isn't read
    for what in ("page", "stream"):
        air = Air(dice)
        rest = over(air, air.block(3), 37, air.elsewhere(what))
        hear.feed(rest_of(air, 1, rest + air.block(0), len(rest)), rest_of(air, 2, rest, len(rest)), air.header(4, 1), air.row(1, 0, air.block(0)))
    # a joined block is dropped, and the next, in the same page or over its end, has its own byte
    for fault in ("pointer", "stray", "y", "address", "header", "index", "long"):
        for second in (3, 60):
            air = Air(dice)
            block = air.block(20)
            block = with_bytes(block, (4, LOST)) if fault == "header" else block
            index, n = (6, 3) if fault == "index" else (4, 30) if fault == "long" else (4, 3)
            rest = over(air, block, 38, air.header(index, n))
            if fault == "address":
                hear.feed(with_bytes(air.row(1, 13), (1, LOST)))
            if fault in ("address", "long"):
                hear.feed(air.header(5, 3))
            rest = with_bytes(rest, (len(rest) - 1, LOST)) if fault == "stray" else rest
            other = air.block(second)
            hear.feed(air.row(2 if fault == "y" else 1, 16 if fault == "pointer" else len(rest) // 3, rest + other))
            hear.feed(air.row(3 if fault == "y" else 2, 13, other[39 - len(rest):]), air.row(3, 13, other[78 - len(rest):]))
            hear.feed(air.header(6, 1), air.row(1, 0, air.block(0)))
    # a block that ends with its page, and one that begins with the next: neither is joined
    for length in (39, 78):
        air = Air(dice)
        block = air.block(length - 5)
        n = length // 39
        hear.fresh(air)
        hear.feed(air.header(0, n), *(air.row(y, 13 if y > 1 else 0, block[39 * (y - 1):]) for y in range(1, n + 1)), air.header(1, 1), air.row(1, 0, air.block(34)),
                  air.header(2, 1), air.row(1, 0, air.block(29) + b"\x00" * 9))
    # 0 doesn't say whole: of pages of two packets three are gone without a word, and two halves join in what is met as one page
    air = Air(dice)
    packets = air.stream(2, [73] * 4)
    hear.fresh(air)
    hear.feed(*packets[:2], *packets[5:])
    air = Air(dice)                             # .. and one page of sixteen: 1, and not as it was sent
    packets = air.stream(1, [60] * 20)
    hear.fresh(air)
    hear.feed(*packets[:2], *packets[34:])
    # after a cut line: from a packet 0 on all comes, whatever ran before
    for _ in range(5 * size):
        air = Air(dice)
        k = dice.between(1, 4)
        packets = air.stream(k, [60, 73, *(dice.pick([0, 3, dice.below(90), 34, 73]) for _ in range(6)), 80], dice.below(16))
        cut = dice.between(1, len(packets) // (k + 1) - 1) * (k + 1)
        before = packets[:cut][:dice.between(1, cut)] if dice.chance(2) else [p for p in packets[:cut] if dice.below(4)]
        hear.fresh(air)
        hear.feed(*before, *packets[cut:])


def refused_cases(hear, dice, size):
    """16 and 1; the state comes back equal, so what follows is as if they weren't."""
    air = Air(dice)
    block = air.block(60)
    hear.fresh(air)
    hear.feed(air.header(0, 2))
    hear.feed(air.header(9, 9), room=guide.ROOM - 1)
    hear.feed(air.row(1, 0, block))
    for length in (0, 1, 41, 43, 84, 300):
        hear.feed(dice.bytes(length))
        hear.feed(dice.bytes(length), room=0)
    hear.feed(bytes([LOST]) * 42, room=guide.ROOM - 1)
    hear.feed(air.row(2, 13, block[39:]), room=guide.ROOM - 1)
    hear.feed(air.row(2, 13, block[39:]), room=0)
    hear.feed(air.row(2, 13, block[39:]), room=guide.ROOM + 300)
    for setting in ((0, 0, 0, 0), (9, 0, 0, 0), (255, 0, 0, 0), (1, 0, 16, 0), (1, 0, 255, 0), (1, 0, 0, 32), (1, 0, 0, 255),
                    (8, 255, 15, 31), (1, 0, 0, 0), (8, 0, 15, 0)):
        air = Air(dice, Setting(*setting))
        ok = air.setting if air.setting.in_range() else Setting(1, 0, 0)
        hear.fresh(air)
        for room in (guide.ROOM, guide.ROOM - 1):
            hear.feed(Air(dice, ok).header(0, 1), dice.bytes(41), room=room)
        hear.feed(Air(dice, ok).row(1, 0, air.block(4)))


def wild_cases(hear, dice, size):
    """Garbage, and long runs of packets that are nearly right."""
    air = Air(dice)
    hear.fresh(air)
    for _ in range(40 * size):
        hear.feed(dice.bytes(42))
    for _ in range(40 * size):                  # rightly addressed garbage
        hear.feed(guide.address(air.setting.magazine, dice.below(32)) + dice.bytes(40))
    hear.feed(b"\x00" * 42, b"\xff" * 42, bytes([LOST]) * 42)
    for _ in range(2 * size):
        air = Air(dice)
        hear.fresh(air)
        index, n, y = dice.below(16), 5, 5
        for _ in range(220):
            y += 1
            if y > n or dice.chance(40):
                index, n, y = index + 1, dice.between(1, 6), 0
                if dice.chance(12):
                    index, n = dice.below(16), dice.below(32)
                packet = air.header(index, n, dice.below(2), dice.below(4))
            else:
                y = dice.between(1, 7) if dice.chance(25) else y
                packet = air.row(y, *wild_row(dice))
            if dice.chance(20):
                packet = air.elsewhere(dice.pick(["magazine", "page", "stream", "high y"]))
            if dice.chance(6):
                packet = air.noised(packet, dice.between(1, 2)) if dice.chance(4) else \
                    with_bytes(packet, (dice.below(42), LOST))
            hear.feed(packet)


def wild_row(dice):
    """A pointer and 39 bytes of small blocks, filler and, seldom, something else."""
    data = b""
    while len(data) < 39:
        data += bytes([FILL]) * dice.pick([0, 0, 1, 2, 5])
        head = guide.head_of(dice.below(32), dice.pick([0, 0, 1, 2, 5, 9, 20, 30, 45, 90]))
        data += octet.images([guide.START] + guide.nibbles_of(head))
        data += dice.pick([bytes([FILL]) * guide.size_of(head), dice.bytes(guide.size_of(head))])
        if dice.chance(9):
            data += dice.bytes(1)
    data = data[dice.below(9):][:39] if dice.chance(2) else data[:39]
    pointer = dice.pick([data.find(BEGIN) // 3 if BEGIN in data else 13, dice.below(14), 13])
    return (dice.below(17) if dice.chance(20) else pointer), data


def all_cases(script, dice, size):
    hear = Hearing(script)
    for cases in (clean_cases, noise_cases, running_cases, pointer_cases, mended_cases, joined_cases, refused_cases, wild_cases):
        cases(hear, dice, size)
