#!/usr/bin/env python3
"""Captures in other settings, longer ones than the samples, and such as hold nothing of ours: tests/desk/captures.py DIR
writes for each NAME.t42, NAME.words (the desk's options, one word to a line) and what the model has for it: NAME.txt, the list;
NAME.counts, the line of -v; NAME.lack, what follows the name on standard error where no packet 0 of our page came. Those with two
streams are named two-NAME. bad-streams has words that -s doesn't take, one to a line; streams/A,B is what is printed of
streams/streams.t42 with that word."""

import pathlib
import sys

sys.dont_write_bytecode = True
sys.path.insert(0, str(pathlib.Path(__file__).resolve().parent.parent))

import two
from cases.form import LOST, Dice, with_bytes
from cases.reader import Air
from cases.table import CASE_G, later, some_table
from model import guide, listing, octet, survey, table
from model.guide import PACKET, Setting
from model.listing import DESK
from model.survey import PIECE
from samples import aired, guide_menus, night_list, night_pes, packets_in, record


def sent(setting, tables):
    return guide.cut(setting, 3, 25, b"".join(table.write_block(setting.application, table.form_of(t)) for t in tables))


def elsewhere(dice):
    """Case G and some tables under each setting at an end of its range."""
    for name, words, setting in (
            ("low", "-m 1 -p 00 -s 0 -a 0", Setting(1, 0x00, 0, 0)),
            ("high", "-a 31 -s 15 -p fF -m 8", Setting(8, 0xFF, 15, 31)),
            ("zeros", "-m 007 -p 0a -s 002 -a 03", Setting(7, 0x0A, 2, 3)),
            ("last", "-m 3 -m 2 -p DE -p Cd", Setting(2, 0xCD, 1, 1))):
        yield name, words, setting, sent(setting, [CASE_G, *(some_table(dice) for _ in range(5))])


def long(dice):
    """More than one piece, and ends at and near the end of a piece."""
    many = b"".join(aired(dice, night_list(dice, 250) * 3))
    assert len(many) > 3 * PIECE and len(listing.desk(many)) > 3 * 65536
    for name, data in (("many", many + b"\x15" * 41), ("piece", many[:PIECE]), ("more", many[:PIECE + 1]), ("less", many[:PIECE - 1]),
                       ("none", b""), ("part", b"\x15" * 41)):
        yield name, "", DESK, data


def halves(dice):
    """A capture cut in two within a block: the list of either half lacks it."""
    whole = sent(DESK, [some_table(dice, descriptors=11, most=15) for _ in range(3)])
    at = len(whole) // 84 * PACKET
    assert len(guide.read_all(DESK, whole)) > len(guide.read_all(DESK, whole[:at])) + len(guide.read_all(DESK, whole[at:]))
    yield "first", "", DESK, whole[:at]
    yield "second", "", DESK, whole[at:]


def rough(dice):
    """What the counts of -v tell apart: packets that can't be read, pages that are too long or broken off, blocks that are dropped."""
    air = Air(dice, DESK)
    packets = []
    for _ in range(60):
        page = air.stream(dice.between(1, 25), [dice.below(90) for _ in range(dice.between(1, 9))], dice.below(16))
        page[0] = dice.pick([page[0], page[0], air.header(dice.below(16), dice.below(32)), with_bytes(page[0], (dice.between(2, 7), LOST))])
        del page[dice.between(1, len(page)):]
        packets += [p if dice.below(12) else dice.pick([with_bytes(p, (dice.below(2), LOST)), air.elsewhere("page"), air.elsewhere("stream"),
                                                        air.elsewhere("magazine"), air.elsewhere("y"), dice.bytes(PACKET)]) for p in page]
    yield "rough", "", DESK, b"".join(packets)


def without(dice):
    """Nothing of ours: PES packets, packets out of step, bits turned about, other pages; and ours after all, but late."""
    clean = b"".join(aired(dice, night_list(dice, 12)))
    others = b"".join(Air(dice, Setting(1 + i % 8, 16 * i % 256 + i, i % 16)).header(i % 16, 25) for i in range(40))
    text = dice.bytes(3 * PIECE)
    text = b"".join(guide.address(2, 1 + i % 24) + text[i:i + 40] for i in range(0, len(text), PACKET))   # no packet 0 at all
    rows = b"".join(p for p in packets_in(clean) if octet.decode(p[1]) != 0 or octet.decode(p[0]) > 7)
    ours = Air(dice, DESK)
    broken = b"".join(with_bytes(ours.header(0, 25), (at, LOST)) for at in (4, 5, 7))    # our page and stream, but S1, S2 or S4 is lost
    for name, words, setting, data in (
            ("pes", "", DESK, night_pes(packets_in(clean))),
            ("pes-part", "", DESK, b"\x00\x00\x01\xBD"),
            ("cut", "", DESK, clean[5:]),
            ("step", "", DESK, clean[5:] + b"\x00" * 5),
            ("far-step", "", DESK, text[:2 * PIECE] + clean[41:]),
            ("turned", "", DESK, octet.turned(clean)),
            ("turned-step", "", DESK, octet.turned(clean[17:])),
            ("far-turned", "", DESK, text[:PIECE] + octet.turned(clean)),
            ("stream", "-s 9", DESK._replace(stream=9), clean),
            ("page", "-p FE -m 8", Setting(8, 0xFE, 1, 1), clean + b"\x15" * 3),
            ("many-pages", "-p 00", DESK._replace(page=0), others * 2),
            ("rows", "", DESK, rows),
            ("broken", "", DESK, broken + rows),
            ("broken-others", "", DESK, broken + others + broken),
            ("text", "", DESK, text),
            ("nothing", "", DESK, b"\x00" * 4200),
            ("noise", "", DESK, b"\x16" * 4201),
            ("late", "", DESK, text[:2 * PIECE] + clean),
            ("later", "", DESK, text[:PIECE] + clean[3:] + b"\x15" * 3 + clean)):
        yield name, words, setting, data


def longest():
    """Many tables with the most lines, so that the text runs full again and again."""
    most = table.Table(table.LI, 1, 0x8000, 255, [(63, [0x010203] * 15)] * 20 + [(63, [])] * 42)
    assert len(listing.list_table(table.form_of(most))) > 5400
    yield "full", "", DESK, guide.cut(DESK, 0, 25, record(most) * 200)


def editions():
    """Tables of a later edition between ours: they count as refused."""
    yield "editions", "", DESK, guide.cut(DESK, 0, 20, b"".join(later(CASE_G, n) for n in (0, 3, 0x8000, 1, 0x8001, 0xFFFF, 0)))


def pages(dice):
    """Tables in pages of one packet, most of them in more than one: each such table says so."""
    data = guide.cut(DESK, 15, 1, b"".join(record(some_table(dice, descriptors=2)) for _ in range(12)))
    assert 3 < listing.desk(data).count(b"joined=1\n") < 12
    yield "joined", "", DESK, data


def menus():
    """Menus among tables count as refused."""
    yield "menus", "", DESK, guide_menus()[0]


def main(folder):
    dice = Dice(11)
    for name, words, setting, data in (*elsewhere(dice), *long(dice), *halves(dice), *longest(), *editions(), *menus(), *rough(dice), *without(dice),
                                       *pages(dice), *two.cases(Dice(27))):
        assert not (folder / f"{name}.t42").exists(), name
        (folder / f"{name}.t42").write_bytes(data)
        (folder / f"{name}.words").write_text("".join(word + "\n" for word in words.split()))
        (folder / f"{name}.txt").write_bytes(listing.desk(data, setting))
        (folder / f"{name}.counts").write_text(survey.counts(data, setting))
        (folder / f"{name}.lack").write_text(survey.lack(data, setting))
    for path in folder.glob("*-about.txt"):     # the order of the two doesn't show
        assert path.read_bytes() == path.with_name(path.name.replace("-about", "")).read_bytes()
    (folder / "bad-streams").write_text("".join(word + "\n" for word in two.bad_words()), encoding="utf-8")
    data, lists = two.pairs()
    (folder / "streams").mkdir()
    (folder / "streams" / "streams.t42").write_bytes(data)
    for word, text in lists.items():
        (folder / "streams" / word).write_bytes(text)


main(pathlib.Path(sys.argv[1]))
