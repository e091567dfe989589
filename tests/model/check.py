#!/usr/bin/env python3
"""Holds the model to what SCOPE and EN 300 707 print: the sixteen images, cases
A to K, annex L.1, and the third demand, counts included, under random noise; and
the programs with two streams to what they do with one; and Application Information and annex D to their limits; and descriptors for digital sets to those
that are known, with what they keep and lose."""

import functools
import pathlib
import sys

sys.dont_write_bytecode = True
sys.path.insert(0, str(pathlib.Path(__file__).resolve().parent.parent))

from cases.form import LOST, Dice, with_bytes
from cases import both as both_cases
from cases import dvb as dvb_cases
from cases import information as information_cases
from cases.reader import Air, all_cases
from cases.menu import EMPTY, SAMPLE, filled, linked, listed, some_menu, worded
from cases.sheet import FIVE, RIVALS, SAMPLE as ENTRIES, Sheets, largest, lent_pairs, most_entries, named, overnight, sized, small, some_entry, some_sheet, with_numbers
from cases.table import CASE_G, L1_PRINTED, L1_SUM, l1_records, later, shaped, some_table
from model import Refused, both, changes, dvb, guide, information, listing, menu, octet, pes, sheet, streams, survey, table, unpes
from model.listing import DESK
from model.sheet import NEW, OLD, Entry
from samples import aired_both
import samples
import vectors


def number(call, *given):
    """A call's number and offset."""
    try:
        call(*given)
        return 0, 0
    except Refused as refused:
        return refused.no, refused.at


def images():
    printed = bytes.fromhex("15 02 49 5E 64 73 38 2F D0 C7 8C 9B A1 B6 FD EA")
    assert octet.images(range(16)) == printed
    assert sum(n < 16 for n in octet.DECODED) == 144 and octet.DECODED.count(16) == 112
    assert min(octet.flips(a, b) for a in printed for b in printed if a != b) == 4
    for byte in range(256):                 # the fault place agrees with the table
        place, nibble = octet.fault_place(byte), octet.decode(byte)
        if place == 16:
            assert nibble == 16
        else:
            assert octet.image(nibble) == (byte if place == 8 else byte ^ 1 << place)
        assert octet.turn(octet.turn(byte)) == byte
        assert octet.mended(byte) == (place < 8)
    assert sum(octet.mended(byte) for byte in range(256)) == 128


def cases_a_to_f():
    assert octet.decode(0x14) == 0                                          # A
    assert octet.decode(0x16) == octet.UNDECODABLE                          # B
    assert octet.decode(0x00) == 1 and octet.decode(0xFF) == 0xE            # C, D
    assert octet.turn(0x15) == 0xA8 and octet.turn(0x27) == pes.FRAMING     # E
    assert octet.images(guide.nibbles_of(guide.head_of(1, 30))) == bytes.fromhex("02A15E15")  # F


def case_g():
    assert table.width(CASE_G) == 116
    record = table.write_block(1, table.form_of(CASE_G))
    assert len(record) == guide.HEAD + 30 and 4 * 30 - 116 == 4 and record[:guide.HEAD] == bytes.fromhex("C1030000")
    packets = guide.cut(DESK, 0, 1, record)
    assert len(packets) == 84
    assert packets[:42] == bytes.fromhex("0215EAB6150202151515") + b"\x20" * 32
    assert packets[42:46] == bytes.fromhex("C71515A1")
    assert listing.desk(packets).decode() == (
        "kind=TI\nblock=0\nnetwork=2\nmended=0\ndescriptor=5\nlanguage=dut\npage=000888\nblocks=1 refused=0 short=0\n")


def cases_h_to_k():
    none = shaped(table.TI, [])                                             # H
    assert table.width(none) == 58 and len(table.write_block(1, table.form_of(none))) == guide.HEAD + 16
    eleven, twelve = shaped(table.TI, [15] * 11), shaped(table.TI, [15] * 12)    # I
    assert table.width(eleven) == 8088 and len(table.write_block(1, table.form_of(eleven))) == guide.HEAD + 2022
    assert number(table.write_block, 1, table.form_of(twelve)) == (15, 0)
    one = pes.write(0x10, b"")                                              # J
    assert len(one) == 184 and one[4:6] == (178).to_bytes(2, "big") and (len(one) - 46) // pes.UNIT == 3
    text = pes.write(0x10, b"\x02\x07" + bytes(42))                         # K
    assert [number(pes.read, with_bytes(text, (48, 0xE0 | line))) for line in (0x06, 0x07, 0x16, 0x17)] == \
        [(9, 48), (0, 0), (0, 0), (9, 48)]


def annex_l1():
    nibbles = [octet.decode(byte) for byte in L1_PRINTED[:4 + 58]]
    assert octet.images(nibbles) == L1_PRINTED[:4 + 58] and -sum(nibbles) % 256 == L1_SUM
    assert [number(table.read_block, 1, record)[0] for record in l1_records()] == [13, 13, 12, 12]
    assert [len(record) - guide.HEAD for record in l1_records()] == [73, 75, 75, 75]


def editions():
    """22 for a number other than 0 and 8000 hex: after 11, before 14, by the block's size."""
    assert [number(table.read_block, 1, later(CASE_G, n))[0] for n in (0, 0x8000, 1, 3, 0x7FFF, 0x8001, 0xFFFF)] == [0, 0] + [22] * 5
    other = table.form_of(CASE_G._replace(block_no=3))
    assert [number(table.write_block, 1, other[:n])[0] for n in range(len(other) + 1)] == [13] * 4 + [22] * (len(other) - 3)
    assert number(table.write_block, 32, other) == (16, 0) and number(listing.list_table, other) == (22, 0) and number(sheet.add, OLD, 0, 0, b"x", other) == (22, 0)
    text = sheet.written(OLD, [Entry(0, CASE_G._replace(block_no=3))])
    assert number(sheet.rewrite, OLD, text) == (20, len(text) - 1)


def lost_pes():
    """Each loss becomes one packet that can't be read, and reading goes on at the next packet."""
    good, packet = pes.write(0x10, b"\x02\x07" + b"\x15" * 42), b"\x15" * 42
    bad = with_bytes(good, (49, 0x27))
    gone = unpes.UNREADABLE
    assert unpes.run(b"") == unpes.run() == (b"", "read=0 refused=0 numbers= left=0\n")
    assert unpes.run(good + bad + good) == (packet + gone + packet, "read=2 refused=1 numbers=9 left=0\n")
    for tail in (b"\x00", good[:-1], good[:5]):         # cut short
        assert unpes.run(good + tail) == (packet + gone, f"read=1 refused=0 numbers= left={len(tail)}\n")
    for between in (b"\x00", b"\x00\x00\x01", good[1:], pes.FRONT, pes.FRONT + b"\x00\xb3", bytes(70000)):
        assert unpes.run(good + between + good) == (packet + gone + packet, f"read=2 refused=0 numbers= left={len(between)}\n")
    for bit in range(6 * 8):                            # start code, stream id, length: any bit of them
        flipped = with_bytes(good, (bit // 8, good[bit // 8] ^ 1 << bit % 8))
        assert unpes.run(flipped + good) == (gone + packet, f"read=1 refused=0 numbers= left={len(good)}\n")
    assert unpes.run(good, good[:7], good) == (packet + gone * 3 + packet, "read=2 refused=0 numbers= left=7\n")


def pages():
    """Where no number is named pages have 20 packets; 25 is named."""
    records = guide.record_of(guide.head_of(1, 34), bytes(34)) * 20
    assert guide.cut(DESK, 0, 0, records) == guide.cut(DESK, 0, 20, records) and len(guide.cut(DESK, 0, 0, records)) == 21 * guide.PACKET
    assert len(guide.cut(DESK, 0, 25, records)) == 26 * guide.PACKET


def in_either_form(check):
    """A check of sheets, for the old form and for the new one."""
    @functools.wraps(check)
    def in_turn():
        check(OLD), check(NEW)
    return in_turn


@in_either_form
def day_sheet(form):
    """Reading and writing come back; joining goes in either order and grouping, and a sheet joined with itself is itself."""
    text = sheet.add(form, 7, 0, b"", table.form_of(CASE_G._replace(copyright=1)))
    assert text == b"stamp=7\n" + (b"mended=0\n" if form is NEW else b"") + b"kind=TI\nnetwork=2\nblock=0\ndescriptor=5\nlanguage=dut\npage=000888\n\n"
    assert [number(sheet.rewrite, form, text[:n])[0] for n in range(len(text) + 1)] == [0] + [20] * (len(text) - 1) + [0]
    assert number(sheet.rewrite, form, text[:-1]) == (20, len(text) - 1) and number(sheet.rewrite, form, text + text) == (20, 2 * len(text) - 1)
    assert number(sheet.rewrite, form, sheet.written(form, sized(form, form.most_bytes + 1))) == (21, 0) and len(sheet.rewrite(form, sheet.written(form, sized(form, form.most_bytes)))) == form.most_bytes
    dice = Dice(3)
    for _ in range(100):
        sheets = [some_sheet(dice, dice.below(9), 3, form) for _ in range(3)]
        a, b, c = (sheet.written(form, one) for one in sheets)
        assert [sheet.read(form, one) for one in (a, b, c)] == sheets and sheet.rewrite(form, a) == a
        assert sheet.join(form, a, b) == sheet.join(form, b, a) and sheet.join(form, a, a) == a
        assert sheet.join(form, sheet.join(form, a, b), c) == sheet.join(form, a, sheet.join(form, b, c))
        came = sheet.joined(*sheets)
        for entry in (entry for one in sheets for entry in one):        # never back, and nothing made up
            assert max(e.stamp for e in came if sheet.key(e) == sheet.key(entry)) >= entry.stamp
        assert all(any(entry in one for one in sheets) for entry in came)
    # "together" can't be the joined sheet's size: three of the largest, the third outdone by an empty table, joined in two groupings
    one, two, three = ([largest(form)._replace(stamp=5, table=largest(form).table._replace(network=n))] for n in (1, 2, 3))
    last = [Entry(6, three[0].table._replace(descriptors=[]))]
    wide, thin, late = sheet.written(form, sheet.joined(one, two)), sheet.written(form, three), sheet.written(form, last)
    assert number(sheet.join, form, wide, thin) == (21, 0) and len(sheet.join(form, wide, sheet.join(form, thin, late))) < form.most_bytes


@in_either_form
def dropping(form):
    """A key's entry goes and the others stay; what goes comes back by adding it or joining with what was. Of 65 entries one may go."""
    dice = Dice(5)
    for entries in (sized(form, form.most_bytes), small(64), *(some_sheet(dice, dice.below(9), 3, form) for _ in range(100))):
        text = sheet.written(form, entries)
        for entry in entries:
            rest = sheet.drop(form, *named(entry), text)
            assert sheet.read(form, rest) == [other for other in entries if other is not entry]
            assert len(rest) + len(sheet.text_of(form, entry)) == len(text) and sheet.drop(form, *named(entry), rest) == rest
            assert sheet.add(form, entry.stamp, entry.mended, rest, table.form_of(entry.table)) == text == sheet.join(form, rest, text)
        for other in (named(some_entry(dice, dice.below(3))), (0, 9, 0), (1, 0, 0), (2, table.TI, 3)):
            assert other in map(named, entries) or sheet.drop(form, *other, text) == text
    more = sheet.written(form, small(65))
    assert number(sheet.rewrite, form, more) == (21, 0) and number(sheet.drop, form, 255, table.TI, 0, more) == (21, 0)
    for entry in small(65):
        assert len(sheet.read(form, sheet.rewrite(form, sheet.drop(form, *named(entry), more)))) == 64
    assert number(sheet.drop, form, *named(small(1)[0]), sheet.written(form, small(66))) == (21, 0)
    over = sheet.written(form, sized(form, form.most_bytes + 1))
    assert [number(sheet.drop, form, 0, table.TI, 0, lent, 0) for lent in (over, b"x" + over, b"x" + more, b"x", over[:-1], more)] == \
        [(21, 0), (21, 0), (20, 0), (20, 0), (20, form.most_bytes), (1, 0)]


@in_either_form
def comparing(form):
    """Applied to the first sheet's tables the print gives the second's, nothing is printed exactly when the tables are equal, and for one first
    sheet two seconds print alike exactly when their tables are; a print is no longer than the two sheets."""
    dice, alike = Dice(30), {True: 0, False: 0}
    rising = [None, RIVALS[0], RIVALS[1], RIVALS[4], RIVALS[6]]         # the lines of each table begin those of the next
    few = [[Entry(1, t._replace(network=n)) for n, t in ((7, low), (9, high)) if t] for low in rising for high in rising]
    families = [(first, few) for first in few]
    for _ in range(300):
        first = some_sheet(dice, dice.below(9), 3, form)
        families.append((first, [overnight(dice, first, 3, form), overnight(dice, first, 3, form), some_sheet(dice, dice.below(9), 3, form), [entry._replace(stamp=8, mended=form.most_mended) for entry in first], []]))
    families.append((sized(form, form.most_bytes), [all_changed(sized(form, form.most_bytes)), sized(form, form.most_bytes), small(64), []]))
    for first, seconds in families:
        text, tables = sheet.written(form, first), [entry.table for entry in first]
        made = [([entry.table for entry in second], changes.compare(form, text, sheet.written(form, second))) for second in seconds]
        for second, (theirs, came) in zip(seconds, made):
            assert changes.applied(came, tables) == theirs and (came == b"") == (tables == theirs)
            assert len(came) <= len(text) + len(sheet.written(form, second)) and came == changes.printed(tables, theirs)
            for others, other in made:
                assert (came == other) == (theirs == others)
                alike[came == other] += 1
    assert min(alike.values()) > 1000
    empty, five = (sheet.written(form, [Entry(0, t)]) for t in RIVALS[:2])          # the print alone doesn't say which of the two it was
    assert changes.compare(form, empty, five) == changes.compare(form, five, empty) == b"changed=LI,7,0\ndescriptor=5\n"
    two = [FIVE[1], FIVE[2]._replace(table=CASE_G._replace(descriptors=[(5, [0x647574, 0x000888])])), *FIVE[3:4]]
    assert changes.compare(form, sheet.written(form, FIVE[:3]), sheet.written(form, two)) == (
        b"gone=LI,2,0\nchanged=TI,2,0\ndescriptor=3\nlanguage=dut\npage=647574\ndescriptor=5\nlanguage=dut\npage=000888\n"
        b"new=TI,2,32768\ndescriptor=4\nlanguage=dut\npage=647574\n")


def all_changed(entries):
    """Every table another one of its length."""
    return [e._replace(table=e.table._replace(descriptors=[(id, [word ^ 1 for word in words]) for id, words in e.table.descriptors])) for e in entries]


@in_either_form
def compared_faults(form):
    """The first sheet is judged whole, then the second, as `rewrite` judges each alone, then the room; the number is that of the sheet that is told."""
    pairs = lent_pairs(Sheets(None, form))
    for first in (one for pair in pairs for one in pair):
        for second in (one for pair in pairs for one in pair):
            faults = [number(sheet.rewrite, form, lent) for lent in (first, second)]
            bad = next((at for at, fault in enumerate(faults, 1) if fault != (0, 0)), 0)
            assert changes.at_fault(form, first, second) == bad
            for room in (0, 2 ** 15):
                expected = faults[bad - 1] if bad else (1, 0) if room == 0 and changes.compare(form, first, second) else (0, 0)
                assert number(changes.compare, form, first, second, room) == expected
    more, over, bad = sheet.written(form, small(65)), sheet.written(form, sized(form, form.most_bytes + 1)), b"stamp=1\nkind=\n" if form is OLD else b"stamp=1\nkind=TI\n"
    told = [(number(changes.compare, form, *two, 0), changes.at_fault(form, *two)) for two in (
        (bad, over), (over, bad), (bad, more), (more, bad), (b"", over), (b"", more), (b"", bad), (b"", more + b"x"), (over, more), (sheet.written(form, small(64)), b""), (b"", b""))]
    assert told == [((20, 8), 1), ((21, 0), 1), ((20, 8), 1), ((21, 0), 1), ((21, 0), 2), ((21, 0), 2), ((20, 8), 2), ((20, len(more)), 2), ((21, 0), 1), ((1, 0), 0), ((0, 0), 0)]


# --- the sheet's two forms ------------------------------------------------------------

NIGHT = (b"stamp=7\nmended=12\nkind=LI\nnetwork=9\nblock=0\ndescriptor=5\nlanguage=dut\n\n"
         b"stamp=0\nmended=0\nkind=TI\nnetwork=9\nblock=0\n\n"
         b"stamp=4294967295\nmended=2051\nkind=TI\nnetwork=10\nblock=32768\ndescriptor=63\nlanguage=eng\npage=000888\n\n")
SECOND = 8                      # where an entry's second line begins, with a stamp of one digit


def the_new_form():
    """Its lines, its greatest number, its limits: as Wish 12 has them."""
    assert [(entry.stamp, entry.mended, *named(entry)) for entry in sheet.read(NEW, NIGHT)] == \
        [(7, 12, 9, table.LI, 0), (0, 0, 9, table.TI, 0), (4294967295, 2051, 10, table.TI, 0x8000)]
    assert sheet.rewrite(NEW, NIGHT) == NIGHT and number(sheet.rewrite, NEW, NIGHT, len(NIGHT) - 1) == (1, 0)
    assert (OLD.most_bytes, NEW.most_bytes) == (16384, 17152) == (16384, 16384 + 64 * len(b"mended=2051\n"))
    assert [len(sheet.text_of(form, largest(form))) for form in (OLD, NEW)] == [5924, 5936]
    assert [len(most_entries(form)) for form in (OLD, NEW)] == [448, 377]
    least = sorted(len(sheet.text_of(NEW, Entry(0, t))) for t in (table.Table(kind, 0, block, network, []) for kind in table.WORDS for block in table.NUMBERS for network in range(256)))
    assert sum(least[:377]) <= 17152 < sum(least[:378])
    assert sheet.rewrite(OLD, b"") == sheet.rewrite(NEW, b"") == sheet.up(b"", 0) == sheet.down(b"", 0) == b""
    for value in (b"0", b"1", b"9", b"10", b"255", b"256", b"999", b"1000", b"2050", b"2051"):
        assert sheet.rewrite(NEW, NIGHT.replace(b"=12\n", b"=" + value + b"\n")).count(b"mended=" + value + b"\n") >= 1
    for value in (b"2052", b"2060", b"2100", b"3000", b"9999", b"10000", b"65536", b"4294967296", b"18446744073709551616", b"1" + b"0" * 5000, b"00", b"01", b"012", b"02051", b"", b"-0",
                  b"+1", b" 1", b"1 ", b"1\r", b"1x", b"x", b"0x1", b"1.0", b"\xd9\xa1"):
        assert number(sheet.rewrite, NEW, NIGHT.replace(b"=12\n", b"=" + value + b"\n")) == (20, SECOND), value
    for line in (b"", b"\n", b"kind=LI\n", b"Mended=12\n", b"mended 12\n", b"mended:12\n", b"mend=12\n", b" mended=12\n", b"stamp=12\n", b"mended=12", b"\nmended=12\n", b"mended=12\r\n"):
        assert number(sheet.rewrite, NEW, NIGHT.replace(b"mended=12\n", line)) == (20, SECOND), line
    assert number(sheet.rewrite, NEW, NIGHT.replace(b"mended=12\n", b"mended=12\nmended=12\n")) == (20, 18)
    assert number(sheet.rewrite, NEW, NIGHT.replace(b"mended=12\nkind=LI\n", b"kind=LI\nmended=12\n")) == (20, SECOND)
    assert [number(sheet.rewrite, NEW, NIGHT[:at]) for at in (8, 9, 17, 18)] == [(20, 8), (20, 8), (20, 8), (20, 18)]
    for form in (OLD, NEW):
        texts = [sheet.written(form, sized(form, form.most_bytes + more)) for more in (0, 1)]
        assert [number(sheet.rewrite, form, text) for text in texts] == [(0, 0), (21, 0)]
        assert [number(sheet.rewrite, form, sheet.written(form, small(count))) for count in (64, 65)] == [(0, 0), (21, 0)]
        assert number(sheet.rewrite, form, sheet.written(form, most_entries(form))) == (21, 0)


def smaller_numbers():
    """The smaller number stays at equal stamp and lines, in either order; before it the stamp decides, then the lines. Comparing doesn't look at it."""
    empty, five = RIVALS[:2]
    text = lambda stamp, t, mended: sheet.written(NEW, [Entry(stamp, t, mended)])
    for one in (0, 1, 9, 10, 255, 256, 2050, 2051):
        for other in (0, 1, 9, 10, 255, 256, 2050, 2051):
            assert sheet.join(NEW, text(3, five, one), text(3, five, other)) == text(3, five, min(one, other)) == sheet.add(NEW, 3, other, text(3, five, one), table.form_of(five))
            assert sheet.join(NEW, text(3, five, one), text(3, empty, other)) == text(3, five, one) == sheet.join(NEW, text(3, empty, other), text(3, five, one))
            assert sheet.join(NEW, text(4, empty, one), text(3, five, other)) == text(4, empty, one) == sheet.join(NEW, text(3, five, other), text(4, empty, one))
            assert changes.compare(NEW, text(3, five, one), text(5, five, other), 0) == b""
            assert changes.compare(NEW, text(3, empty, one), text(5, five, other)) == b"changed=LI,7,0\ndescriptor=5\n"
            fates = [sheet.fate(Entry(stamp, t, other), Entry(3, five, one)) for stamp, t in ((3, five), (4, five), (2, five), (3, empty))]
            assert fates == ["replaced" if other < one else "same", "replaced", "older", "older"]
    three = [text(3, five, mended) for mended in (2, 1, 3)]
    assert sheet.join(NEW, sheet.join(NEW, three[0], three[1]), three[2]) == sheet.join(NEW, three[0], sheet.join(NEW, three[1], three[2])) == three[1]


def adding_order():
    """22, 13, 15 (the table form), 15 (the number), 21 (the length), 20, 21 (the result), 1: of any two faults that one which comes first."""
    for form in (OLD, NEW):
        good, full = table.form_of(CASE_G._replace(network=255)), sheet.written(form, small(64))
        over = sheet.written(form, sized(form, form.most_bytes + 1))
        fits = {False: sheet.written(form, small(63)), True: full}
        wrong = ("22", "13", "15 form", "15 number", "21 length", "20", "21 result", "1")
        for one in range(len(wrong)):
            for other in range(one, len(wrong)):
                faults = {wrong[one], wrong[other]}
                lent = with_bytes(good, (1, 2 if "15 form" in faults else 0), (2, 3 if "22" in faults else 0))
                lent = lent[:-1] if "13" in faults else lent
                data = over if "21 length" in faults else fits["21 result" in faults]
                data = b"x" + data if "20" in faults else data
                mended = form.most_mended + 1 if "15 number" in faults else form.most_mended
                assert number(sheet.add, form, 1, mended, data, lent, 0 if "1" in faults else 65536) == (int(wrong[one].split()[0]), 0), (form, faults)
        assert number(sheet.add, form, 1, form.most_mended, fits[False], good) == (0, 0)
        assert all(number(sheet.add, form, 1, mended, b"", good) == (15, 0) for mended in (form.most_mended + 1, 2052, 4096, 32768, 65535))


def moving():
    """Over and back gives the same bytes; what the old join gives the new one gives of the sheets moved up; each refusal of the two moves, and 25 before 21."""
    assert sheet.down(NIGHT.replace(b"=12\n", b"=0\n").replace(b"=2051\n", b"=0\n")) == b"".join(line for line in NIGHT.splitlines(True) if b"mended" not in line)
    assert sheet.up(b"stamp=7\nkind=LI\nnetwork=9\nblock=0\n\n") == b"stamp=7\nmended=0\nkind=LI\nnetwork=9\nblock=0\n\n"
    dice, lost = Dice(31), 0
    for _ in range(200):
        entries, others = (some_sheet(dice, dice.below(9), 3) for _ in range(2))
        old, other = sheet.written(OLD, entries), sheet.written(OLD, others)
        assert sheet.up(old) == sheet.written(NEW, entries) and sheet.down(sheet.up(old)) == old
        assert sheet.join(NEW, sheet.up(old), sheet.up(other)) == sheet.up(sheet.join(OLD, old, other))
        assert changes.compare(NEW, sheet.up(old), sheet.up(other)) == changes.compare(OLD, old, other)
        new = some_sheet(dice, dice.below(3), 3, NEW)
        if any(entry.mended for entry in new):
            assert number(sheet.down, sheet.written(NEW, new), 0) == (25, 0)
            lost += 1
        else:
            assert sheet.up(sheet.down(sheet.written(NEW, new))) == sheet.written(NEW, new)
    assert 50 < lost < 150
    # 64 entries in 16,384 bytes become 16,960, and these 16,384 again
    longest = sheet.written(OLD, sized(OLD, 16384, 64))
    assert len(sheet.up(longest, 16960)) == 16960 and number(sheet.up, longest, 16959) == (1, 0)
    assert sheet.down(sheet.up(longest), 16384) == longest and number(sheet.down, sheet.up(longest), 16383) == (1, 0)
    over, more, most = sheet.written(OLD, sized(OLD, 16385)), sheet.written(OLD, small(65)), sheet.written(OLD, most_entries(OLD))
    assert [number(sheet.up, lent, 0) for lent in (over, b"x" + over, over[:-1], more, more + b"x", more[:-1], most, b"x" + longest, b"x", longest)] == \
        [(21, 0), (21, 0), (20, 16384), (21, 0), (20, len(more)), (20, len(more) - 1), (21, 0), (21, 0), (20, 0), (1, 0)]
    # a new sheet whose old one has 16,385 bytes, one over 17,152, 65 entries and 377; each with a number, and each with a line out of form
    for entries, no in ((sized(NEW, 16385 + 20 * 9), 21), (sized(NEW, 17152), 21), (small(65), 21), (most_entries(NEW), 21), (sized(NEW, 16384 + 20 * 9), 1), (small(64), 1)):
        assert number(sheet.down, sheet.written(NEW, entries), 0) == (no, 0)
        for at in (0, len(entries) // 2, len(entries) - 1):
            numbered = entries[:at] + [entries[at]._replace(mended=1)] + entries[at + 1:]
            text = sheet.written(NEW, numbered)
            assert number(sheet.down, text, 0) == (25, 0)
            if len(text) < 17152:
                assert number(sheet.down, text + b"x", 0) == (20, len(text)) and number(sheet.down, b"x" + text, 0) == (20, 0)
            assert number(sheet.down, text[:-1], 0) == (20, len(text) - 1)
    assert number(sheet.down, sheet.written(NEW, with_numbers(NEW, sized(NEW, 17153), 1))) == (21, 0)
    # at 16,385 bytes the old join is 21, and that of the sheets moved up isn't
    parts = sized(OLD, 16385)
    halves = [sheet.written(OLD, part) for part in (parts[:10], parts[10:])]
    assert number(sheet.join, OLD, *halves) == (21, 0) and len(sheet.join(NEW, *map(sheet.up, halves))) == 16385 + 20 * 9
    # room by the sum isn't carried over: 390 sheets of one 35-byte entry of one key
    one = sheet.written(OLD, small(1))
    assert (390 * len(one), 390 * len(sheet.up(one))) == (13650, 17160)


def the_other_form():
    """A reader of one form with a sheet of the other that has an entry: 20 at its first `mended=` line, or at its first `kind=` line; 21 where it is too long."""
    form = table.form_of(CASE_G)
    for reader, other, move in ((OLD, NEW, sheet.up), (NEW, OLD, sheet.down)):
        own = sheet.written(reader, ENTRIES)
        for entries, at in ((ENTRIES, 8), (FIVE, 8), (small(64), 8), (small(65), 8), (sized(other, reader.most_bytes), None), (ENTRIES[2:], 17), (with_numbers(other, ENTRIES, 5, 2051), 8)):
            text = sheet.written(other, entries)
            at = text.index(b"\n") + 1 if at is None else at
            assert text[at:at + 5] == (b"mende" if other is NEW else b"kind=")
            told = [number(call, *given) for call, *given in (
                (sheet.rewrite, reader, text, 0), (move, text, 0), (sheet.join, reader, text, own), (sheet.join, reader, own, text), (sheet.add, reader, 1, 0, text, form),
                (sheet.drop, reader, 1, table.TI, 0, text), (changes.compare, reader, text, b"x"), (changes.compare, reader, own, text))]
            assert told == [(20, at)] * len(told)
        over = sheet.written(other, sized(other, reader.most_bytes + 1))
        told = [number(call, *given) for call, *given in (
            (sheet.rewrite, reader, over), (move, over), (sheet.join, reader, b"x", over), (sheet.add, reader, 1, 0, over, form), (changes.compare, reader, own, over))]
        assert told == [(21, 0)] * len(told)
    assert number(sheet.rewrite, OLD, sheet.written(NEW, sized(NEW, 17152))) == (21, 0)


def given_by(stdout):
    """The numbers that each op gives."""
    given = {}
    for words in (line.split() for line in stdout.decode().splitlines()[:-1]):
        given.setdefault(words[0], set()).add(words[1])
    return given


def sheet_vectors():
    """Every refusal that an op can give is among the cases, and what is stored has room in 2 MB."""
    stdin, stdout = vectors.make("sheet")
    given = given_by(stdout)
    for op, numbers in ((0, ()), (1, (13, 15, 22)), (2, ()), (3, ()), (6, ())):
        expected = {f"no={no}" for no in (0, 1, 20, 21, *numbers)} | ({"unknown"} if op else set())
        assert given[f"op={50 + op}"] == given[f"op={60 + op}"] == expected, op
    assert given["op=54"] == {f"no={no}" for no in (0, 1, 20, 21)} and given["op=55"] == {f"no={no}" for no in (0, 1, 20, 21, 25)}
    assert len(stdin) + len(stdout) <= 2_000_000


def menus():
    """What is written reads back, nothing is ever left to fill, the listing is the one printed, and a menu that links to itself is bounded."""
    dice = Dice(4)
    for made in (EMPTY, SAMPLE, filled(1023, 1), worded(2047), *(some_menu(dice) for _ in range(200))):
        form = menu.form_of(made)
        record = menu.write_menu(1, form)
        assert menu.menu_of(form) == made and menu.read_menu(1, record) == (form, 0, 0)
        assert menu.width(made) % 8 == 0 and len(record) == guide.HEAD + menu.block_size(made)
        assert number(table.read_block, 1, record)[0] == 12
    assert number(menu.read_menu, 1, table.write_block(1, table.form_of(CASE_G)))[0] == 12
    golf = linked(5, header=b"Themes")._replace(events=[menu.Event(0, 2, [], menu.String([], b"Golf"))])
    assert menu.list_menu(1, 0, listed(1, SAMPLE, golf)).decode() == (
        "level=1\nmenu=0\nheader=TV Guide\nlevel=1\nevent=Themes\nlink=1,5\nlevel=2\nmenu=5\nheader=Themes\nlevel=2\nevent=Golf\nlink=2,0\n"
        "level=1\nevent=More\nlink=1,9\nmissing=9\n")
    itself = EMPTY._replace(events=[menu.Event(0, 1, [], menu.String([], b""))] * 15)
    assert menu.block_size(itself) == 172 and number(menu.list_menu, 1, 0, listed(1, itself)) == (1, 0)
    need = 0
    for _ in range(8):                                  # a menu's own lines, and of each event its lines and what it links to
        need = 23 + 15 * (24 + (need or 9))
    assert need // 10 ** 9 == 93
    letter = menu.write_menu(1, menu.form_of(linked(1, header=b"A")))       # why demand 3 can't speak of menus: two flips, another letter
    assert menu.read_menu(1, with_bytes(letter, (len(letter) - 1, letter[-1] ^ 6))).form == menu.form_of(linked(1, header=b"G"))


def menu_levels():
    """16 outside 1 to 8, `deeper=` at the last without a look into the list, fewer never longer; the lines of `menus` that SCOPE 23.10 prints."""
    row = listed(1, *(linked(n, n + 1) for n in range(9)))
    texts = [menu.list_levels(1, 0, levels, row) for levels in range(1, 9)]
    for levels, text in enumerate(texts, 1):
        assert text.count(b"menu=") == levels and text.endswith(b"link=1,%d\ndeeper=%d\n" % (levels, levels))
    assert texts == sorted(texts, key=len) and texts[7] == menu.list_menu(1, 0, row)
    assert menu.list_levels(1, 0, 1, listed(1, linked(0, 5))).endswith(b"deeper=5\n") and menu.list_levels(1, 0, 2, listed(1, linked(0, 5))).endswith(b"missing=5\n")
    assert [number(menu.list_levels, 1, 0, levels, b"\x01")[0] for levels in (0, 1, 8, 9, 255)] == [16, 13, 13, 16, 16]
    assert number(menu.list_levels, 32, 0, 0, b"") == (16, 0) and number(menu.list_levels, 1, 0, 9, row, 0) == (16, 0)

    def said(*menus):
        return menu.menus(guide.cut(DESK, 0, 20, listed(1, *menus)), name=b"night.t42")[1].decode()

    assert said(linked(5), linked(7), linked(5), linked(9), linked(7)) == "note: night.t42: menu 0 is missing; came: 5 7 9\n"
    assert said() == "note: night.t42: menu 0 is missing; none came\n" and said(linked(0, 9)) == ""
    assert said(linked(0, *[0] * 7)) == "menus: night.t42: the listing of menu 0 is longer than 1 MB and isn't printed; -l 5 fits\n"
    for count, end in ((19, " 18 19\n"), (20, " 19 20\n"), (21, " 19 20 ..\n"), (99, " 19 20 ..\n")):
        assert said(*(linked(n) for n in range(1, count + 1))).endswith(end)


def application_information():
    """The first case; what is written reads back, what is read is written as the same values; fill_up is four bits where networks are odd."""
    first = bytes.fromhex("01 05 00 00 02 EA 64 02 64") + b"\x15" * 35
    assert information.write_information(1, b"\x01" + bytes(19)) == first and information.read_information(1, first) == (b"\x01" + bytes(19), 0, 0)
    dice, cases = Dice(9), information_cases
    for made in (cases.EMPTY, cases.SAMPLE, cases.named_in_all(80, 7), cases.named_in_all(36, 1107), *(cases.some_information(dice) for _ in range(150))):
        form, application, networks = information.form_of(made), dice.below(32), len(made.networks)
        record = information.write_information(application, form)
        assert information.information_of(form) == made and information.read_information(application, record) == (form, 0, 0)
        assert len(record) == guide.HEAD + (160 + 100 * networks + 4 * (networks % 2)) // 4 + len(information.codes_of(made))
        control = guide.HEAD + 2 * information.control_size(made)
        spares = [(spare, dice.below(1 << spare[1])) for spare in cases.spare_fields(networks)]
        came = cases.with_fields(made, *spares)         # of our application, 1: spare bits set, some bytes mended, part and second byte
        flips = [(at, came[at] ^ 1 << dice.below(8)) for at in sorted({dice.between(guide.HEAD, control - 1) for _ in range(dice.below(9))})]
        came = with_bytes(came, *flips, (2, 3), (3, 1))
        assert information.read_information(1, came) == (form, 3 + len(flips), 1)
        again = information.write_information(1, form)
        assert information.same(came, again) == (not any(value for _, value in spares))
        assert information.counts(1, came) == information.AI and information.read_information(1, again).form == form
        assert number(menu.read_menu, 1, again)[0] == number(table.read_block, 1, again)[0] == 12
        for length in (0, 19, len(form) - 1):
            assert number(information.write_information, 1, form[:length]) == (13, 0)
        assert number(information.write_information, 1, form + b"\x00") == (13, 0)


def information_limits():
    """80 networks and 2,047 bytes, the longest form, and annex E: names of 31, strings of 255, none in LI and TI."""
    cases, most = information_cases, 0
    for networks in range(82):
        codes = min(31 * (networks + 1), information.MOST_SIZE - information.block_size(cases.named_in_all(networks, 0)))
        assert (codes >= 0) == (networks <= 80)
        if codes < 0:
            assert number(information.write_information, 1, information.form_of(cases.named_in_all(networks, 0))) == (15, 0)
            continue
        made = cases.named_in_all(networks, codes)
        form = information.form_of(made)
        assert len(form) <= information.block_size(made) and information.writable(made)
        assert codes == 31 * (networks + 1) or not information.writable(cases.named_in_all(networks, codes + 1))
        most = max(most, len(form))
    assert most == 1739 == len(information.form_of(cases.named_in_all(36, 1107))) and information.block_size(cases.named_in_all(80, 0)) == 2040
    for at in (None, 0, 2):
        for length, no in ((31, 0), (32, 15)):
            assert number(information.write_information, 1, information.form_of(cases.renamed(cases.SAMPLE, at, b"n" * length)))[0] == no
        for codes, no in ((bytes(range(31)), 0), (b"\x1f\x7f", 0), (b"\x80", 15)):
            assert number(information.write_information, 1, information.form_of(cases.renamed(cases.SAMPLE, at, codes)))[0] == no
    for row, at in ((information.OPENING, None), (information.NETWORK, 0), (information.NETWORK, 2)):
        for name, width in cases.value_widths(row):
            assert information.writable(cases.changed(cases.SAMPLE, at, **{name: (1 << width) - 1})) and not information.writable(cases.changed(cases.SAMPLE, at, **{name: 1 << width}))
    assert [width for name, width in information.OPENING + information.NETWORK if "name_len" in name] == [5, 5]
    longest = menu.write_menu(1, menu.form_of(EMPTY._replace(header=menu.String([], b"h" * 255))))
    assert menu.menu_of(menu.read_menu(1, longest).form).header.codes == b"h" * 255
    for kind in (table.LI, table.TI):                   # as long as their control data, so a string byte is one too many
        record = cases.table_record(kind, 1, counts=[2])
        assert len(record) == guide.HEAD + 2 * table.control_size(shaped(kind, [2]))
        for more in (b"\x20", b"\x20\x20"):
            longer = guide.record_of(guide.head_of(1, len(record) - guide.HEAD + len(more)), record[guide.HEAD:] + more)
            assert number(table.read_block, 1, longer)[0] in (10, 11, 13, 14)


def counted_blocks():
    """What counts as what, and which records are one block."""
    cases = information_cases
    read = {information.AI: cases.guide_of(), menu.NI: listed(1, SAMPLE), table.LI: cases.table_record(table.LI, 1), table.TI: cases.table_record(table.TI, 1)}
    for kind in range(64):
        blank = cases.plain(kind)
        assert information.counts(1, blank) == (information.NOT if kind in read else kind)
        assert information.counts(1, read.get(kind, blank)) == kind and information.counts(2, read.get(kind, blank)) == information.counts(33, blank) == information.NOT
        assert information.counts(1, read.get(kind, blank)[:-1]) == information.counts(1, b"") == information.NOT
        for change in ((2, 6), (3, 2), (guide.HEAD + 12, LOST)):
            record = read.get(kind, cases.plain(kind, size=13))
            assert information.counts(1, with_bytes(record, change)) == (information.NOT if kind in read else kind)
        assert information.counts(1, with_bytes(blank, (guide.HEAD + 7, LOST))) == information.counts(1, cases.plain(kind, size=7)) == information.NOT
    record, dice = read[information.AI], Dice(3)
    assert information.same(record, record) and information.same(record, with_bytes(record, (2, 5), (3, 1)))
    for at in range(guide.HEAD, len(record) - 1):       # the last is a string byte
        mended = with_bytes(record, (at, record[at] ^ 1 << dice.below(8)))
        twice = with_bytes(record, (at, record[at] ^ 1 << dice.below(8)))
        lost = with_bytes(record, (at, LOST))
        assert information.same(mended, record) and information.same(mended, twice) and information.same(lost, lost)
        assert not information.same(lost, record) and not information.same(lost, with_bytes(record, (at, LOST ^ 3)))
        assert not information.same(record, with_bytes(record, (at, octet.image(octet.decode(record[at]) ^ 1))))
    assert not information.same(record, with_bytes(record, (0, record[0] ^ 1)))
    ones = [guide.record_of(guide.head_of(1, 1), [byte]) for byte in range(256)]
    for a in range(256):                                # of string bytes of right parity it is equality
        for b in range(256):
            alike = information.same(ones[a], ones[b])
            assert alike == (a == b or octet.decode(a) == octet.decode(b) < 16)
            assert alike == (a == b) or menu.with_parity(a & 0x7F) != a or menu.with_parity(b & 0x7F) != b


def lawful_lists():
    """Each rule of table D.1 at its limit and over, in its order; 16, 13, 24 and 1."""
    cases, yes = information_cases, b"guide=EPG\nlawful=yes\n"
    no = {rule: b"guide=EPG\nlawful=no\nrule=" + rule.encode() + b"\n" for rule in cases.RULES}
    assert [row.name for row in information.GUIDES["EPG"]] == ["AI", "PI", "NI", "OI", "MI", "UI", "LI", "TI", "CI", "HI"]
    assert tuple(information.FAILING.values()) == cases.RULES
    for channel in (0, 5, 255):
        good = cases.guide_of(channel)
        assert information.lawful(1, good) == yes
        for at, rule in enumerate(cases.RULES):
            assert information.lawful(1, good + cases.within(rule, channel)) == yes and information.lawful(1, good + cases.over(rule, channel)) == no[rule]
            for later in cases.RULES[at:] if channel == 5 else ():
                assert information.lawful(1, cases.over(later, 5) + good + cases.over(rule, 5)) == no[rule]
    fullest = good + b"".join(cases.within(rule, 255) for rule in ("MI", "UI")) + b"".join(
        cases.table_record(kind, network) for kind in (table.LI, table.TI) for network in (*range(256), 255))
    assert information.lawful(1, fullest) == yes
    for kind, rule in ((table.LI, "LI"), (table.TI, "TI")):
        assert all(information.lawful(1, fullest + cases.table_record(kind, network)) == no[rule] for network in (0, 254, 255))
    for given, expected in (((32, b"\x01"), 16), ((1, b"\x01", 0), 13), ((1, good[:-1]), 13), ((1, b"", 0), 24), ((2, good, 0), 24), ((1, good, 20), 1), ((1, good, 21), 0),
                            ((1, with_bytes(good, (-1, 0))), 24)):
        assert number(information.lawful, *given) == (expected, 0)


def lawful_said():
    """What `lawful` prints: each block once, however often and however mended it came, and a repeat takes no room; what it says of a no; nothing where
    no Application Information counts, or where there are more blocks than fit."""
    cases, dice = information_cases, Dice(5)
    tables = [cases.table_record(table.LI, 0), cases.table_record(table.LI, 1), *(cases.table_record(table.TI, network, block_no) for network in (0, 1) for block_no in table.NUMBERS)]
    first, last = [cases.guide_of(0), cases.plain(information.UI), *tables], cases.table_record(table.TI, 3)
    text = b"guide=EPG\nlawful=no\nrule=TI\nAI=1 MI=0 UI=1 LI=2 TI=4\n"
    again = [hit_first(dice, record) for record in first]
    for came in (first, first + first, again + first + again):
        assert information.told_of(1, came) == (text, b"lawful: standard input: not lawful, by rule TI\n")
        assert information.told_of(1, came, b"a\nb") == (b"file=a?b\n" + text, b"lawful: a?b: not lawful, by rule TI\n")
        capture = guide.cut(DESK, 0, 20, b"".join(came))
        assert information.program(capture)[0] == text
    assert information.told_of(1, first[:-1] + [last]) == (b"guide=EPG\nlawful=yes\nAI=1 MI=0 UI=1 LI=2 TI=4\n", b"")
    assert information.told_of(1, first[1:], b"n") == information.told_of(2, first, b"n") == (b"", b"lawful: n: ")
    assert information.weighed(1, first[1:]).failure == information.NO_INFORMATION and not information.weighed(1, first).failure
    pair = both.Pair(1, 0xDF, 1, 2, 1)                  # the blocks of both streams are one list
    two = guide.cut(DESK, 0, 20, b"".join(first)) + guide.cut(DESK._replace(stream=2), 0, 20, b"".join(again) + last)
    assert information.program(two, pair)[0] == text.replace(b"TI=4", b"TI=5") and information.program(two)[0] == text
    longest = table.MOST_BITS // 4 + guide.HEAD, information.MOST_SIZE + guide.HEAD
    assert 2 * 257 * longest[0] + (1 + 255 + 1) * longest[1] == 1_580_807 < information.STORE
    message = cases.plain(information.MI, size=2047)    # its sum isn't judged
    large = [with_bytes(message, *enumerate(octet.images(guide.nibbles_of(n)), guide.HEAD + 8)) for n in range(1023)]
    assert sum(map(len, large)) > information.STORE and information.told_of(1, first[:1] + large) == (b"", b"lawful: standard input: ")
    assert information.weighed(1, large).failure == information.TOO_MANY and information.weighed(1, large[1:]).failure == information.NO_INFORMATION
    assert information.told_of(1, first[:1] + large[:300] * 4)[0] == b"guide=EPG\nlawful=no\nrule=MI\nAI=1 MI=300 UI=0 LI=0 TI=0\n"


def hotel_guide():
    """The hotel's sample: every block of both streams is of its kind and counts, and the guide's own counts are those of its blocks. With any block more of a kind
    that is at its limit it isn't lawful."""
    first, second = samples.hotel_blocks()
    own = information.information_of(information.read_information(1, first[0]).form)
    came = [information.counted(1, block) for block in first + second]
    assert [one.kind for one in came[:8]] == [information.AI, information.UI, information.MI, table.LI, table.TI, table.TI, menu.NI, menu.NI]
    assert first[3] in second and len({information.block_of(block) for block in first + second}) == len(first) + len(second) - 1
    values = own.service.values
    for kind, name in ((menu.NI, "no_of_navigation_info"), (information.MI, "no_of_message_info")):
        assert [sum(information.counts(1, block) == kind for block in blocks) for blocks in (first, second)] == [values[name], values[name + "_swo"]]
    for at, network in enumerate(own.networks):
        tables = [table.table_of(one.form) for one in set(came) if one.kind in (table.LI, table.TI)]
        said = [sum(t.kind == kind and t.network == at for t in tables) for kind in (table.LI, table.TI)]
        assert said == [network.values[name] for name in ("no_of_LI_structures", "no_of_TI_structures")] and network.values["prog_stop_no"] + 1 == network.values["prog_start_no"]
    blocks = [block for block in first + second if block != first[3]] + [first[3]]
    assert information.lawful(1, b"".join(blocks)).endswith(b"lawful=yes\n")
    for more, rule in ((information_cases.guide_of(), b"AI"), (samples.update(6), b"UI"), (information_cases.table_record(table.LI, 2), b"LI"),
                       (information_cases.table_record(table.TI, 0), b"TI")):
        assert information.lawful(1, b"".join(blocks) + more).endswith(b"lawful=no\nrule=" + rule + b"\n")


def hit_first(dice, record):
    """A record that came with one of its first eight bytes mended."""
    at = guide.HEAD + dice.below(8)
    return with_bytes(record, (at, record[at] ^ 1 << dice.below(8)), (2, 1))


def information_vectors():
    """Every refusal that an op can give is among the cases, and what is stored has room in 1 MB."""
    stdin, stdout = vectors.make("information")
    given = given_by(stdout)
    for op, numbers in ((34, (0, 1, 10, 11, 12, 13, 14, 16, 23)), (35, (0, 1, 13, 15, 16)), (42, (0, 1, 13, 16, 24))):
        assert given[f"op={op}"] == {"unknown"} | {f"no={no}" for no in numbers}, op
    assert len(stdin) + len(stdout) <= 1_000_000
    assert sum(map(len, vectors.make("menu"))) <= 1_000_000


class Marked(guide.Reader):
    """A reader in which a block that runs is marked where a packet 0 opens our page and it lives."""

    def __init__(self, setting):
        super().__init__(setting)
        self.marks = []

    def open(self, n):
        super().open(n)
        if self.running:
            self.running.marked = True

    def hand_out(self):
        self.marks.append(getattr(self.running, "marked", False))
        super().hand_out()


class Streams:
    """Takes a reader's vector cases as streams: those of one stream (op 20), or of two (op 24)."""

    def __init__(self):
        self.streams = []

    def case(self, op, room, payload):
        if op in (20, both_cases.FRESH):
            self.streams.append(((guide.Setting if op == 20 else both.Pair)(*payload), []))
        elif len(payload) == guide.PACKET:
            self.streams[-1][1].append(payload)


def joined_blocks():
    """The second byte is 1 exactly where the block ran when a packet 0 opened our page, and lived; both come, in one page or many."""
    streams, seen = Streams(), {0: 0, 1: 0}
    all_cases(streams, Dice(6), 3)
    for setting, packets in streams.streams:
        if setting.in_range():
            reader = Marked(setting)
            came = [record for packet in packets for record in guide.records_in(reader.feed(packet).records)]
            assert [record[3] for record in came] == reader.marks
            for mark in reader.marks:
                seen[mark] += 1
    assert min(seen.values()) > 300
    # 0 doesn't say whole: of pages of two packets three are gone without a word, and a block comes that wasn't sent
    records = b"".join(guide.record_of(guide.head_of(1, 73), bytes([i]) * 73) for i in range(4))
    packets = guide.cut(DESK, 0, 2, records)
    came = guide.read_all(DESK, packets[:84] + packets[5 * 42:])
    assert came[0][3] == 0 and guide.bare(came[0]) not in guide.records_in(records)


def cut_line():
    """After a cut line: from a packet 0 of ours on everything that starts behind it comes, with its second byte; before that at most one
    block, which was running, and its second byte is 1. Between may stand other magazines' packets and, between pages, other pages'."""
    dice, first = Dice(9), 0
    for _ in range(400):
        air, k = Air(dice), dice.between(1, 5)
        records = [guide.record_of(guide.head_of(dice.below(32), size), dice.bytes(size))
                   for size in (dice.pick([0, 1, 34, 73, dice.below(300)]) for _ in range(dice.between(3, 12)))]
        packets = guide.cut(air.setting, dice.below(16), k, b"".join(records))
        spans = list(guide.spanning(b"".join(records), packets))
        packets = [packets[at:at + guide.PACKET] for at in range(0, len(packets), guide.PACKET)]
        cut = dice.below(len(packets) // (k + 1)) * (k + 1)
        place, starts = 0, []                               # the byte behind pointers at which each block starts
        for record in records:
            starts.append(place)
            place += guide.CELL * len(guide.cells_of(record))
        reader = guide.Reader(air.setting)
        for packet in dice.pick([packets[:cut], packets[:cut][:dice.below(cut + 1)], packets, [], [p for p in packets if dice.below(3)]]):
            reader.feed(packet if dice.below(9) else air.noised(packet, 2))
        ran = reader.running is not None
        came = []
        for at, packet in enumerate(packets[cut:]):
            if dice.chance(4):
                came += guide.records_in(reader.feed(air.elsewhere("magazine")).records)
            if at % (k + 1) == 0 and dice.chance(3):        # between whole pages another page, whole or not
                if at > 0 or not reader.page or reader.page.last == reader.page.n:
                    reader.feed(air.elsewhere(dice.pick(["page", "stream"])))
                    for y in range(1, dice.below(4)):
                        reader.feed(air.row(y, dice.below(14), dice.bytes(39)))
            came += guide.records_in(reader.feed(packet).records)
        behind = [guide.record_of(guide.head_in(r), r[guide.HEAD:], 0, span)
                  for r, span, start in zip(records, spans, starts) if start >= cut // (k + 1) * k * 39]
        assert came[len(came) - len(behind):] == behind and len(came) - len(behind) <= ran
        for record in came[:len(came) - len(behind)]:
            assert record[3] == 1
            first += 1
    assert first > 20


def side_by_side():
    """A reader of two streams is two readers of one: of any packets each stream's blocks, index, running block and page are that reader's, a
    page that is the other's is shut to it, and a drop is told where either tells one."""
    streams, dice = Streams(), Dice(10)
    both_cases.all_cases(streams, Dice(10), 4)
    one = Streams()                             # streams of one, heard with a second that is seldom or never there
    all_cases(one, Dice(11), 1)
    for setting, packets in one.streams:
        if setting.in_range():
            second = (setting.stream + 1) % 16 if dice.chance(2) else setting.stream ^ 1
            streams.streams.append((both.Pair(setting.magazine, setting.page, setting.stream, second, setting.application), packets))
    told = {(one, two): 0 for one in (False, True) for two in (False, True)}
    for pair, packets in streams.streams:
        if not pair.in_range():
            continue
        two, readers = both.ReaderOfTwo(pair), [guide.Reader(pair.of(whose)) for whose in both.BOTH]
        for packet in packets:
            heard, alone = two.feed(packet), [reader.feed(packet) for reader in readers]
            came = both.records_of_two(heard.records)
            assert len(came) == heard.blocks and min(len(a.records) for a in alone) == 0
            for whose in both.BOTH:
                assert b"".join(r for stream, r in came if stream == pair.streams()[whose]) == alone[whose].records
                assert two.indices[whose] == readers[whose].index and saying(two.blocks[whose]) == saying(readers[whose].running)
                page = two.page if two.page and two.page.whose == whose else None
                assert (page and (page.n, page.last)) == (readers[whose].page and readers[whose].page[:2])
            assert heard.dropped == any(a.dropped for a in alone)
            told[tuple(a.dropped for a in alone)] += 1
    assert min(told.values()) > 20              # neither, one, the other, and both at once


def saying(block):
    """What a running block is, if there is one."""
    return block and (block.nibbles, bytes(block.raw), block.part, block.joined())


def untouched():
    """However the 40 bytes differ in packets Y that stand in one stream's pages, the other stream hands out the same blocks."""
    streams, dice, differ = Streams(), Dice(12), 0
    both_cases.all_cases(streams, Dice(13), 2)
    for pair, packets in streams.streams:
        for whose in both.BOTH if pair.in_range() else ():
            changed, stands = [], False
            for packet in packets:
                one, two = octet.decode(packet[0]), octet.decode(packet[1])
                if octet.UNDECODABLE not in (one, two) and (one % 8 or 8) == pair.magazine and one // 8 + 2 * two == 0:
                    six = [octet.decode(byte) for byte in packet[2:8]]
                    stands = (six[0] + 16 * six[1], six[4]) == (pair.page, pair.streams()[whose])
                elif stands and octet.UNDECODABLE not in (one, two) and (one % 8 or 8) == pair.magazine:
                    packet = packet[:2] + dice.pick([packet[2:], dice.bytes(40), packet[2:20] + dice.bytes(22)])
                changed.append(packet)
            came = []
            for run in (packets, changed):
                reader = both.ReaderOfTwo(pair)
                came.append([r for packet in run for r in both.records_of_two(reader.feed(packet).records)])
            kept = [[r for stream, r in one if stream == pair.streams()[1 - whose]] for one in came]
            assert kept[0] == kept[1]
            differ += came[0] != came[1]
    assert differ > 50


def both_carried(rounds, most):
    """Demand 3 for each of two streams: whole pages of either between whole pages of the other, third streams and other pages between them,
    other magazines anywhere, flips in every byte."""
    dice, kept, sent = Dice(20 + most), 0, 0
    for _ in range(rounds):
        duet = both_cases.Duet(dice)
        truth, lists = [], []
        for whose in both.BOTH:
            forms = [table.form_of(some_table(dice)) for _ in range(dice.between(1, 8))]
            records = [table.write_block(duet.pair.application, form) for form in forms]
            k = dice.between(1, 9)
            packets = guide.cut(duet.pair.of(whose), dice.below(16), k, b"".join(records))
            spans = list(guide.spanning(b"".join(records), packets))
            packets = [packets[at:at + guide.PACKET] for at in range(0, len(packets), guide.PACKET)]
            hit = [duet.airs[0].noised(packet, most if dice.chance(6) else 1) for packet in packets]
            rows = [at for at in range(len(packets)) if at % (k + 1)]
            truth.append(list(zip(forms, damage(records, [packets[at] for at in rows], [hit[at] for at in rows]), spans)))
            lists.append([hit[at:at + k + 1] for at in range(0, len(hit), k + 1)])
        reader, came = both.ReaderOfTwo(duet.pair), ([], [])
        for page in both_cases.mixed(dice, *lists):
            if dice.chance(3):
                other = dice.pick([duet.third(), duet.page()])
                page = [duet.airs[0].noised(packet, 1) for packet in (other.header(dice.below(16), dice.below(32)), other.row(1, dice.below(14), dice.bytes(39)))] + page
            for packet in page:
                if dice.chance(5):
                    reader.feed(duet.airs[0].noised(duet.airs[0].elsewhere("magazine"), most if dice.chance(6) else 1))
                for stream, record in both.records_of_two(reader.feed(packet).records):
                    try:
                        came[duet.pair.streams().index(stream)].append(table.read_block(duet.pair.application, record))
                    except Refused:
                        assert most == 2
        for whose in both.BOTH:
            assert came[whose] == truth[whose] if most == 1 else subsequence(came[whose], truth[whose])
            kept, sent = kept + len(came[whose]), sent + len(truth[whose])
    return f"{kept} of {sent} tables of two streams with up to {most} flips a byte"


# --- the programs with two streams, held to what they do with one ----------------------

def two_said():
    """The words of -s: one number as ever, or two that differ, with one comma; the last counts, and a bad one spoils all."""
    assert [streams.streams_in(word) for word in ("0", "15", "007", "1,2", "2,1", "015,0", "00,0000000000000000000001")] == \
        [(0,), (15,), (7,), (1, 2), (2, 1), (15, 0), (0, 1)]
    for word in ("", ",", "1,", ",1", "1,1", "01,1", "1,2,3", "1,2,", ",1,2", "1,,2", "1, 2", "1 ,2", " 1,2", "1,2 ", "1;2", "1.2", "1-2", "16,1", "1,16", "256,1", "1,257",
                 "4294967297,2", "1,4294967298", "+1,2", "1,-2", "1,x", "a,b", "0x1,2", "1,2\n", "\u0661,2"):
        assert streams.streams_in(word) is None, word
    pair = both.Pair(1, 0xDF, 2, 1, 1)
    assert streams.heeding(DESK) == streams.heeding(DESK, "1") == streams.heeding(DESK, "2,1", "1") == DESK
    assert streams.heeding(DESK, "2,1") == streams.heeding(DESK, "3", "1,2", "2,1") == pair
    assert streams.heeding(DESK, "1,1", "2") is streams.heeding(DESK, "2", "1,") is None


def turned_about(pair):
    return pair._replace(first=pair.second, second=pair.first)


def captures_of_two(dice, rounds, most):
    """A setting of two and a capture: tables and menus of both streams, which share keys and numbers. Some captures are damaged, and some hold
    one of the two alone, or neither."""
    for _ in range(rounds):
        duet = both_cases.Duet(dice)
        pair, lists = duet.pair, ([], [])
        for _ in range(dice.between(1, 2 * most)):
            made = some_table(dice, most=4)._replace(network=dice.below(3))
            lists[dice.below(2)].append(table.write_block(pair.application, table.form_of(made)))
            made = linked(dice.below(6), header=dice.pick([b"one", b"two", b"three"]))
            lists[dice.below(2)].append(menu.write_menu(pair.application, menu.form_of(made)))
        packets = aired_both(dice, lists, (dice.between(1, 5), dice.between(1, 5)), (dice.below(16), dice.below(16)), pair)
        if dice.below(3):
            packets = [packet for one in packets for packet in befallen(dice, duet, one)]
        if dice.chance(4):
            others = [stream for stream in range(16) if stream not in pair.streams()]
            pair = pair._replace(first=others[0], second=dice.pick([pair.second, others[1]]))
        yield pair, b"".join(packets) + dice.bytes(dice.pick([0, 0, 1, 41]))


def befallen(dice, duet, packet):
    """What becomes of a packet: mostly nothing; it is lost or can't be read, its bytes are damaged, another packet 0 stands before it."""
    fate = dice.below(30)
    if fate == 0:
        return []
    if fate == 1:
        return [dice.pick([duet.third(), duet.page(), *duet.airs]).header(dice.below(16), dice.below(32)), packet]
    if fate < 4:
        return [with_bytes(packet, (dice.below(6), LOST))]
    return [duet.airs[0].noised(packet, 2 if fate == 4 else 1) if fate < 10 else packet]


def numbers(line):
    return [int(pair.split("=")[1]) for pair in line.split()]


def desk_of_two():
    """The desk's list of two is the lists of each, one among the other, in the order of packets; its numbers are theirs together; it says that
    nothing of ours came where both do. The order of the two shows only there."""
    seen = {"both dropped": 0, "neither": 0, "one": 0, "two": 0}
    for pair, data in captures_of_two(Dice(14), 150, 8):
        lists = [listing.desk(data, pair.of(whose)).decode() for whose in both.BOTH]
        came = listing.desk(data, pair).decode()
        assert came.encode() == listing.desk(data, turned_about(pair))
        parts, last = came[:came.index("blocks=")].split("stream="), came[came.index("blocks="):]
        assert parts[0] == "" and all(part.split("\n")[1].startswith("kind=") for part in parts[1:])
        for whose in both.BOTH:
            own = "".join(part.partition("\n")[2] for part in parts[1:] if part.startswith(f"{pair.streams()[whose]}\n"))
            assert own + lists[whose][lists[whose].index("blocks="):] == lists[whose]
        ends = [numbers(text[text.index("blocks="):]) for text in lists]
        assert numbers(last) == [ends[0][0] + ends[1][0], ends[0][1] + ends[1][1], len(data) % guide.PACKET]
        for at in range(0, len(data), 11 * guide.PACKET):
            assert came.startswith(listing.desk(data[:at], pair).decode().partition("blocks=")[0])
        first, second, two = (numbers(survey.counts(data, setting)) for setting in (pair.of(0), pair.of(1), pair))
        assert survey.counts(data, pair) == survey.counts(data, turned_about(pair))
        assert first[0] == second[0] == two[0] and first[1] + second[1] == two[1] and first[2] == second[2] == two[2]
        assert max(first[3], second[3]) <= two[3] <= first[3] + second[3]
        seen["both dropped"] += two[3] < first[3] + second[3]
        lacks = [survey.lack(data, setting) for setting in (pair.of(0), pair.of(1), pair, turned_about(pair))]
        assert bool(lacks[2]) == bool(lacks[3]) == bool(lacks[0] and lacks[1])
        if lacks[2]:
            assert lacks[2].startswith(f": no packet 0 of magazine {pair.magazine}, page {pair.page:02x}, stream {pair.first} or {pair.second} came; ")
            assert lacks[2].partition("; ")[2] == lacks[3].partition("; ")[2]
            assert not any(survey.told(pair.magazine, pair.page, stream) in lacks[2].split() for stream in pair.streams())
        seen["neither" if lacks[2] else "one" if lacks[0] or lacks[1] else "two"] += 1
    assert min(seen.values()) > 9


@in_either_form
def sheet_of_two(form):
    """Both streams in one add give the sheet that two adds with one stamp give, in either order (SCOPE 25.6): where they have room together."""
    dice, changed = Dice(15), 0
    for pair, data in captures_of_two(dice, 150, 6):
        stamp, before = dice.below(3), sheet.written(form, some_sheet(dice, dice.below(6), 3, form))
        after, line = sheet.fed(form, before, [(stamp, data)], pair)
        assert (after, line) == sheet.fed(form, before, [(stamp, data)], turned_about(pair))
        for order in ((0, 1), (1, 0)):
            text, tables = before, 0
            for whose in order:
                text, one = sheet.fed(form, text, [(stamp, data)], pair.of(whose))
                tables += numbers(one)[1]
            assert text == after and numbers(line)[:2] == [1, tables]
        changed += after not in [sheet.fed(form, before, [(stamp, data)], pair.of(whose))[0] for whose in both.BOTH]
    assert changed > 30


def menus_of_two():
    """Of each number the first menu that came whole, in whichever stream."""
    contested = 0
    for pair, data in captures_of_two(Dice(16), 150, 8):
        came = {}                                           # of each number the packet with which each stream's first one was whole
        for whose in both.BOTH:
            reader = guide.Reader(pair.of(whose))
            for at, packet in enumerate(streams.whole_packets(data)):
                for record in guide.records_in(reader.feed(packet).records):
                    made = menu.accepted(pair.application, record)
                    if made:
                        came.setdefault(made.block_no, {}).setdefault(whose, (at, made))
        kept = menu.kept(data, pair)
        assert kept == menu.kept(data, turned_about(pair)) == {number: min(firsts.values(), key=lambda first: first[0])[1] for number, firsts in came.items()}
        contested += any(len(firsts) == 2 for firsts in came.values())
    assert contested > 30


def descriptors():
    """The descriptors that are known; which bit of a page field goes where; annex L.2.2's reference is page 23 with X/27's subcode for any."""
    write = lambda made: dvb.write_descriptor(table.form_of(made)).hex()
    assert write(CASE_G) == "56056475741088" and write(shaped(table.TI, [])) == write(shaped(table.TI, [0] * 63)) == "5600"
    assert [write(dvb_cases.dutch(word)) for word in dvb_cases.OTHER_PAGES] == ["5605647574" + last for last in dvb_cases.OTHER_PAGES.values()]
    assert write(dvb_cases.dutch(*dvb_cases.OTHER_PAGES)) == "560f" + "".join("647574" + last for last in dvb_cases.OTHER_PAGES.values())
    assert sum(width for _, width in dvb.PAGE_REFERENCE) == table.WORD
    goes = {bit: (0x10, 1 << bit) for bit in range(8)} | {15: (0x11, 0), 22: (0x12, 0), 23: (0x14, 0)}
    for bit in range(24):
        assert write(dvb_cases.dutch(1 << bit)) == "5605647574" + bytes(goes.get(bit, (0x10, 0))).hex()
    parts = dvb.reference(dvb_cases.ANY_123)
    assert [parts[name] for name in ("M2", "M1", "M0", "tens", "units", "S4", "S3", "S2", "S1")] == [0, 0, 0, 2, 3, 0x3, 0xF, 0x7, 0xF]
    assert dvb.read_descriptor(bytes.fromhex("5600")).hex() == "0000" and dvb.read_descriptor(bytes.fromhex("56056475741088")).hex() == "01006475740088"
    assert dvb.read_descriptor(bytes.fromhex("560a" "6475742988" "6475741123")).hex() == "01016475740123"


def descriptors_judged():
    """The first fault decides, of every set of rules and of every two ways to break two; what is read is what has tag and length."""
    for faults, no in dvb_cases.fault_sets():
        assert number(dvb.write_descriptor, *dvb_cases.broken(faults)) == (no, 0), faults
    eleven, twelve = ([15] * count for count in (11, 12))
    assert table.width(shaped(table.TI, twelve)) == 8818
    counted = [number(dvb.write_descriptor, table.form_of(shaped(table.TI, counts))) for counts in ([15, 15, 15, 6], [15, 15, 15, 7], eleven, twelve, [51], [52])]
    assert counted == [(0, 0), (26, 0), (26, 0), (15, 0), (15, 0), (15, 0)]
    other = table.form_of(CASE_G._replace(block_no=3))
    for kind in (table.TI, table.LI, 0):
        assert [number(dvb.write_descriptor, with_bytes(other, (0, kind))[:n])[0] for n in range(1, 8)] == [13] * 3 + [22] * 4
        short = with_bytes(table.form_of(CASE_G), (0, kind))
        assert [number(dvb.write_descriptor, short[:n])[0] for n in range(1, 15)] == [13] * 5 + ([13] * 8 + [0] if kind == table.TI else [15] * 9)
    assert number(dvb.write_descriptor, b"", 0) == (13, 0) and number(dvb.read_descriptor, b"", 0) == (27, 0)
    for tag in (0x46, 0x55, 0x56, 0x57, 0xD6):
        for length in range(256):
            for own in {0, 1, length - 1, length, length + 1, length + 5, length + 256} - {-1}:
                lent = bytes([tag, length]) + b"\x10" * own
                fits = tag == 0x56 and length in range(0, 256, 5) and own == length
                assert number(dvb.read_descriptor, lent) == ((0, 0) if fits else (27, 0))
                assert number(dvb.read_descriptor, lent, 1) == ((1, 0) if fits else (27, 0))


def pairs_of(made):
    """The languages and page fields of a TI table, over all its descriptors."""
    return [pair for _, words in made.descriptors for pair in zip(words[::2], words[1::2])]


def grouped(dice, pairs):
    """A TI table of these, all else as it falls: descriptors and their numbers, network, block number, copyright."""
    loop = []
    while pairs or dice.chance(3):
        count = dice.below(16)
        loop.append((dice.below(64), [word for pair in pairs[:count] for word in pair]))
        pairs = pairs[count:]
    return table.Table(table.TI, dice.below(2), dice.pick(table.NUMBERS), dice.below(256), loop)


def descriptors_back():
    """A table's descriptor, read, has its subtitles and none passed over; two tables have one descriptor exactly when languages, magazines and
    pages are the same in order."""
    dice, alike = Dice(31), {True: 0, False: 0}
    kept = lambda made: [(language, word >> 15 & 1 | word >> 22 << 1, word & 0xFF) for language, word in pairs_of(made)]
    for _ in range(60):
        made = some_table(dice, table.TI, dice.below(7), 8)
        pairs = pairs_of(made)
        family = [made, shaped(table.TI, [])]
        for _ in range(4):                              # other subpages; one bit elsewhere; one gone; two exchanged
            others = [(language, word ^ dice.below(1 << 24) & 0x3F7F00) for language, word in pairs]
            family.append(grouped(dice, others))
            assert kept(family[-1]) == kept(made)
            if pairs:
                at, to = dice.below(len(pairs)), dice.below(len(pairs))
                bit = 1 << dice.below(24)
                family.append(grouped(dice, others[:at] + [(others[at][0] ^ bit, others[at][1])] + others[at + 1:]))
                family.append(grouped(dice, others[:at] + [(others[at][0], others[at][1] ^ bit)] + others[at + 1:]))
                family.append(grouped(dice, others[:at] + others[at + 1:]))
                others[at], others[to] = others[to], others[at]
                family.append(grouped(dice, others))
        written = [dvb.write_descriptor(table.form_of(one)) for one in family]
        for one, lent in zip(family, written):
            subtitles = b"".join(language.to_bytes(3, "big") + bytes(rest) for language, *rest in kept(one))
            assert dvb.read_descriptor(lent) == bytes([len(kept(one)), 0]) + subtitles and len(lent) == len(dvb.read_descriptor(lent))
            for other, theirs in zip(family, written):
                assert (lent == theirs) == (kept(one) == kept(other))
                alike[lent == theirs] += 1
    assert min(alike.values()) > 1000
    for _ in range(300):                                # entries of other types are passed over, wherever they stand
        entries = [dvb_cases.some_entry(dice) for _ in range(dice.below(52))]
        ours = [one for one in entries if one[3] in range(0x10, 0x18)]
        out = dvb.read_descriptor(dvb.descriptor(entries))
        assert out[:2] == bytes([len(ours), len(entries) - len(ours)])
        assert out == out[:2] + dvb.read_descriptor(dvb.descriptor(ours))[2:] == out[:2] + b"".join(one[:3] + bytes([one[3] - 0x10, one[4]]) for one in ours)


def subsequence(some, whole):
    rest = iter(whole)
    return all(thing in rest for thing in some)


def damage(records, sent, arrived):
    """How many bytes of each block, start and header included, arrived other than they were sent, from the packets themselves: the
    blocks stand one after the other, each from a whole cell on, in the bytes behind the pointers."""
    sent, arrived = (b"".join(packet[3:] for packet in packets) for packets in (sent, arrived))
    at = 0
    for record in records:
        end = at + 1 + 4 + len(record) - guide.HEAD
        yield sum(a != b for a, b in zip(sent[at:end], arrived[at:end]))
        at = end + -end % guide.CELL


def noise(rounds, most):
    """Demand 3: one flip in each byte gives exactly the list, two a subsequence, each table with its count of damaged bytes and with whether
    it was sent in more than one page."""
    dice = Dice(most)
    kept = sent = 0
    for _ in range(rounds):
        air = Air(dice)
        forms = [table.form_of(some_table(dice)) for _ in range(dice.between(1, 12))]
        application = air.setting.application
        records = [table.write_block(application, form) for form in forms]
        packets = guide.cut(air.setting, dice.below(16), dice.between(1, 25), b"".join(records))
        spans = guide.spanning(b"".join(records), packets)
        packets = [packets[at:at + guide.PACKET] for at in range(0, len(packets), guide.PACKET)]
        hit = [air.noised(packet, most if dice.chance(6) else 1) for packet in packets]     # two flips everywhere leave nothing to see
        arrived = b"".join((air.noised(air.elsewhere("magazine"), most) if dice.chance(4) else b"") + packet for packet in hit)
        rows = [i for i, packet in enumerate(packets) if packet[:2] != guide.address(air.setting.magazine, 0)]
        truth = list(zip(forms, damage(records, [packets[i] for i in rows], [hit[i] for i in rows]), spans))
        came = []
        for record in guide.read_all(air.setting, arrived):
            try:
                came.append(table.read_block(application, record))
            except Refused:
                assert most == 2
        assert came == truth if most == 1 else subsequence(came, truth)
        kept, sent = kept + len(came), sent + len(truth)
    return f"{kept} of {sent} tables with up to {most} flips a byte"


def main():
    for check in (images, cases_a_to_f, case_g, cases_h_to_k, annex_l1, editions, lost_pes, pages, day_sheet, dropping, comparing, compared_faults,
                  the_new_form, smaller_numbers, adding_order, moving, the_other_form, sheet_vectors, menus, menu_levels,
                  application_information, information_limits, counted_blocks, lawful_lists, lawful_said, hotel_guide, information_vectors, joined_blocks, cut_line, side_by_side, untouched, two_said, desk_of_two, sheet_of_two, menus_of_two,
                  descriptors, descriptors_judged, descriptors_back):
        check()
        print(f"{check.__name__}: ok")
    for most in (1, 2):
        print(f"noise: ok, {noise(60, most)}")
        print(f"noise: ok, {both_carried(40, most)}")


if __name__ == "__main__":
    main()
