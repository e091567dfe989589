#!/usr/bin/env python3
"""Captures for `dvb`: tests/dvb/captures.py DIR writes for each NAME.t42, NAME.words (its options, one word to a line), NAME.txt (what it
prints) and NAME.over (what follows the name, on standard error, for each table that is left out). Which tables come is the model's to say; what
a table's line is stands here, from EN 300 707's page_reference and EN 300 468's teletext_descriptor."""

import pathlib
import sys

sys.dont_write_bytecode = True
sys.path.insert(0, str(pathlib.Path(__file__).resolve().parent.parent))

from cases.form import Dice
from cases.table import CASE_G, later, some_table
from model import Refused, guide, table
from model.guide import PACKET, Setting
from model.listing import DESK
from model.streams import blocks, heeding
from model.survey import PIECE
from model.table import LI, TI, Table
from samples import TWO, aired, aired_both, both_streams, guide_menus, make, night_list, offered, record, roughened

DUT, ENG = 0x647574, 0x656E67
MOST = 51                           # entries of five bytes that a length of one byte can count

# Page values, and the magazine's three bits and the page that they name: units in bits 0 to 3, tens in 4 to 7, the magazine in 15, 22 and 23,
# the subpage in the others. By hand.
PLACES = (
    (0x000888, 0, 0x88), (0x008123, 1, 0x23), (0x400123, 2, 0x23), (0x800123, 4, 0x23), (0x000000, 0, 0x00), (0xFFFFFF, 7, 0xFF),
    (0x408145, 3, 0x45), (0x808145, 5, 0x45), (0xC00145, 6, 0x45), (0xC08145, 7, 0x45), (0x3F7F00, 0, 0x00), (0x3F7FDF, 0, 0xDF), (0xC08000, 7, 0x00),
    (0x000001, 0, 0x01), (0x000002, 0, 0x02), (0x000004, 0, 0x04), (0x000008, 0, 0x08), (0x000010, 0, 0x10), (0x000020, 0, 0x20), (0x000040, 0, 0x40),
    (0x000080, 0, 0x80), (0x000100, 0, 0x00), (0x000200, 0, 0x00), (0x000400, 0, 0x00), (0x000800, 0, 0x00), (0x001000, 0, 0x00), (0x002000, 0, 0x00),
    (0x004000, 0, 0x00), (0x008000, 1, 0x00), (0x010000, 0, 0x00), (0x020000, 0, 0x00), (0x040000, 0, 0x00), (0x080000, 0, 0x00), (0x100000, 0, 0x00),
    (0x200000, 0, 0x00), (0x400000, 2, 0x00), (0x800000, 4, 0x00))

# Descriptors that the specification and its case G name.
NAMED = {0x000888: "56056475741088", 0x008123: "56056475741123", 0x400123: "56056475741223", 0x800123: "56056475741423"}


def magazine(page):
    """Its three bits; 0 stands for magazine 8."""
    return page >> 15 & 1 | page >> 22 << 1


def descriptor(t):
    """Tag, length, and for each subtitle language, type 2 above the magazine, page; nothing where there are over 51."""
    entries = [words[at:at + 2] for _, words in t.descriptors for at in range(0, len(words), 2)]
    if len(entries) > MOST:
        return None
    made = b"".join(language.to_bytes(3, "big") + bytes([0x02 << 3 | magazine(page), page % 256]) for language, page in entries)
    return bytes([0x56, len(made)]) + made


def tables(data, setting):
    """The TI tables that are accepted, in the order in which they come, of one stream or of two."""
    for _, r in blocks(setting, data):
        try:
            t = table.table_of(table.read_block(setting.application, r)[0])
        except Refused:
            continue
        if t.kind == TI:
            yield t


def told(data, setting):
    """What is printed, and what is said behind the name for each table that is left out."""
    lines, over = [], []
    for t in tables(data, setting):
        made = descriptor(t)
        if made is None:
            over.append(f": network {t.network}, block {t.block_no}: more than 51 subtitles\n")
        else:
            lines.append(f"network={t.network} block={t.block_no} dvb={made.hex()}\n")
    return "".join(lines) + f"tables={len(lines) + len(over)} over={len(over)}\n", "".join(over)


def sent(setting, tables, k=25):
    return guide.cut(setting, 3, k, b"".join(table.write_block(setting.application, table.form_of(t)) for t in tables))


def elsewhere(dice):
    """Case G and some tables under each setting at an end of its range."""
    for name, words, setting in (
            ("low", "-m 1 -p 00 -s 0 -a 0", Setting(1, 0x00, 0, 0)),
            ("high", "-a 31 -s 15 -p fF -m 8", Setting(8, 0xFF, 15, 31)),
            ("zeros", "-m 007 -p 0a -s 002 -a 03", Setting(7, 0x0A, 2, 3)),
            ("last", "-m 3 -m 2 -p DE -p Cd", Setting(2, 0xCD, 1, 1))):
        yield name, words, setting, sent(setting, [CASE_G, *(some_table(dice) for _ in range(5))])


def places():
    """Every bit of the page alone and every magazine, in a table each."""
    yield "places", "", DESK, sent(DESK, [Table(TI, 0, 0, 2, [(5, [DUT, page])]) for page, _, _ in PLACES])


def fields(dice):
    """What is lost (descriptor numbers and bounds, copyright), what stands in the line (network, block), and languages that are no letters."""
    words = [DUT, 0x000888, ENG, 0x008123]
    bounds = ([(5, words)], [(6, words)], [(0, words[:2]), (63, words[2:])], [(0, []), (1, words), (2, [])], [(0, words[2:]), (1, words[:2])], [], [(0, [])])
    yield "bounds", "", DESK, sent(DESK, [Table(TI, 0, 0, 2, loop) for loop in bounds])
    yield "head", "", DESK, sent(DESK, [Table(TI, copyright, block, network, [(5, [DUT, 0x000888])])
                                        for copyright in (0, 1) for block in table.NUMBERS for network in (0, 1, 9, 10, 99, 100, 255)])
    yield "languages", "", DESK, sent(DESK, [Table(TI, 0, 0, 2, [(0, [word, 0x000899])]) for word in (0, 0xFFFFFF, 0x444553, 0x00007A, dice.below(1 << 24))])


def counts(dice):
    """Each number of subtitles about the limit, in as few descriptors as they fit in and in more; the longest line; every one left out."""
    def filled(n, per, network=7, block=0):
        words = [word for _ in range(n) for word in (DUT, dice.below(1 << 24))]
        return Table(TI, 0, block, network, [(at % 64, words[2 * at:2 * (at + per)]) for at in range(0, n, per)])

    some = [filled(n, per) for n in (0, 1, 14, 15, 16, 49, 50, 51, 52, 53, 60) for per in (15, 7, 4)]
    yield "counts", "", DESK, sent(DESK, some)
    yield "longest", "", DESK, sent(DESK, [filled(MOST, 15, 255, 0x8000)] * 600)     # 325,800 bytes of lines
    yield "most", "", DESK, sent(DESK, [filled(165, 15, 1, 0x8000), CASE_G, filled(165, 15, 1, 0x8000), filled(157, 15, 255)])
    yield "left-out", "", DESK, sent(DESK, [filled(MOST + 1, 15, network) for network in range(3)] * 2)


def others(dice):
    """Repeats come again; languages, menus, blocks of other applications and of other editions, and other tables' halves don't."""
    night = night_list(dice, 5)
    yield "repeats", "", DESK, b"".join(aired(dice, night * 3, 20))
    yield "languages-alone", "", DESK, sent(DESK, [some_table(dice, LI) for _ in range(9)])
    yield "menus", "", DESK, guide_menus()[0]
    yield "editions", "", DESK, guide.cut(DESK, 0, 20, b"".join(later(CASE_G, n) for n in (0, 3, 0x8000, 1, 0x8001, 0xFFFF, 0)))
    yield "joined", "", DESK, sent(DESK, [some_table(dice, TI, 2) for _ in range(12)], 1)
    yield "noise", "", DESK, b"".join(roughened(dice, aired(dice, night * 4)))


def long(dice):
    """More than one piece, and ends at and near the end of a piece."""
    many = b"".join(aired(dice, night_list(dice, 250) * 3))
    assert len(many) > 3 * PIECE and len(told(many, DESK)[0]) > 65536
    for name, data in (("many", many + b"\x15" * 41), ("piece", many[:PIECE]), ("more", many[:PIECE + 1]), ("less", many[:PIECE - 1]),
                       ("none", b""), ("part", b"\x15" * 41), ("text", dice.bytes(2 * PIECE + 5))):
        yield name, "", DESK, data


def halves(dice):
    """A capture cut in two within a block: neither half has its line."""
    whole = sent(DESK, [some_table(dice, TI, 4, 12) for _ in range(5)])
    at = len(whole) // 84 * PACKET
    assert len(list(tables(whole, DESK))) > len(list(tables(whole[:at], DESK))) + len(list(tables(whole[at:], DESK)))
    yield "first", "", DESK, whole[:at]
    yield "second", "", DESK, whole[at:]


def two(dice):
    """With two streams: the tables of both in the order of packets, whichever stream stands first."""
    sample = both_streams()[0]
    lists = [[*night_list(dice, 6), offered(0, b"TV Guide"), *night_list(dice, 3)] for _ in range(2)]
    night = b"".join(aired_both(dice, lists))
    for name, words, data in (("sample", "1,2", sample), ("sample-about", "2,1", sample), ("sample-last", "9 2 1,2", sample), ("sample-one", "1,2 1", sample),
                              ("sample-other", "2", sample), ("sample-alone", "1,9", sample), ("sample-neither", "9,4", sample), ("night", "1,2", night),
                              ("night-about", "2,1", night), ("night-zeros", "01,0000000000000000000002", night)):
        yield f"two-{name}", " ".join(f"-s {word}" for word in words.split()), heeding(DESK, *words.split()), data
    assert len(list(tables(night, TWO))) == sum(len(list(tables(night, TWO.of(whose)))) for whose in (0, 1)) == 18


def samples():
    """The captures that the repository has."""
    for name, data in make():
        if name.endswith(".t42"):
            yield f"sample-{name[:-4]}", "", DESK, data


def by_hand():
    """What stands here by hand is what is made."""
    for page, bits, low in PLACES:
        assert (magazine(page), page % 256) == (bits, low), f"{page:06x}"
    for page, text in NAMED.items():
        assert descriptor(Table(TI, 0, 0, 2, [(5, [DUT, page])])).hex() == text
    assert told(sent(DESK, [CASE_G]), DESK) == ("network=2 block=0 dvb=56056475741088\ntables=1 over=0\n", "")


def main(folder):
    by_hand()
    dice = Dice(41)
    for name, words, setting, data in (*elsewhere(dice), *places(), *fields(dice), *counts(dice), *others(dice), *long(dice), *halves(dice), *two(dice),
                                       *samples()):
        assert not (folder / f"{name}.t42").exists(), name
        text, over = told(data, setting)
        (folder / f"{name}.t42").write_bytes(data)
        (folder / f"{name}.words").write_text("".join(word + "\n" for word in words.split()))
        (folder / f"{name}.txt").write_text(text)
        (folder / f"{name}.over").write_text(over)
    for path in folder.glob("*-about.txt"):     # the order of the two doesn't show
        assert path.read_bytes() == path.with_name(path.name.replace("-about", "")).read_bytes()
    # what of a capture of several pieces is printed where the read after the third fails: no last line
    held = (folder / "many.t42").read_bytes()[:3 * PIECE]
    (folder / "held").mkdir()
    (folder / "held" / "held.t42").write_bytes(held + b"\x15" * 99)
    (folder / "held" / "held.txt").write_text(told(held, DESK)[0].rpartition("tables=")[0])


main(pathlib.Path(sys.argv[1]))
