#!/usr/bin/env python3
"""Captures for the day sheet, and what the model makes of them: tests/sheet/captures.py DIR writes, for each NAME of a run of
`sheet add`, NAME.words (options, then a stamp and a capture in turn, one word to a line), NAME.before (the sheet that stands, where there
is one), NAME.after (the sheet afterwards), NAME.line (what is printed) and NAME.said (what is said of captures that gave nothing). And for late files: orders (every order of four captures, a
line each), four.after; twenty (a stamp and a capture, a line each), twenty.after, groupings (pairs of sheets to be joined, the second
into the first, a grouping after each empty line). And of two sheets that are compared NAME.first and NAME.second, with NAME.print, or NAME.fault where one
of them is refused: which, the number and the offset. And of sheets that are moved NAME.up or NAME.down, by the task, with NAME.moved, or NAME.refused: the number
and the offset."""

import itertools
import pathlib
import sys

sys.dont_write_bytecode = True
sys.path.insert(0, str(pathlib.Path(__file__).resolve().parent.parent))

import samples
from cases.form import Dice
from cases.reader import Air
from cases.sheet import FIVE, SAMPLE, Sheets, lent_pairs, overnight, small, some_sheet
from cases.table import CASE_G, some_table
from model import Refused, both, changes, guide, pes, sheet, streams, survey, table
from model.guide import Setting
from model.listing import DESK
from model.sheet import KEPT, NEW, OLD
from samples import EVENING, MORNING, TWO, aired, aired_both, both_streams, packets_in

DAY = 1794787200


def sent(setting, tables):
    return guide.cut(setting, 3, 20, b"".join(table.write_block(setting.application, table.form_of(t)) for t in tables))


def night(dice, networks, count):
    """Tables of few networks, so that captures share keys, on pages with other magazines between."""
    tables = [some_table(dice, most=3)._replace(network=dice.below(networks)) for _ in range(count)]
    return b"".join(aired(dice, [table.write_block(DESK.application, table.form_of(t)) for t in tables], 20))


def entries(dice, count):
    return sheet.written(KEPT, sheet.joined([sheet.Entry(DAY + dice.below(9), some_table(dice)._replace(copyright=0)) for _ in range(count)]))


def runs(dice):
    """Each run's name, its options and setting, the sheet before (None: no file), and (stamp, capture's name, bytes)."""
    evening, morning = samples.day()["evening.t42"], samples.day()["morning.t42"]
    yield "day", "", DESK, None, [(EVENING, "evening.t42", evening), (MORNING, "morning.t42", morning)]
    yield "late", "", DESK, None, [(MORNING, "morning.t42", morning), (EVENING, "evening.t42", evening)]
    yield "again", "", DESK, samples.day()["day.sheet"], [(EVENING, "evening.t42", evening)]
    yield "kept", "", DESK, sheet.written(KEPT, SAMPLE), [(DAY, "night.t42", night(dice, 5, 20))]
    yield "one", "", DESK, b"", [(0, "g.t42", sent(DESK, [CASE_G]))]
    yield "most", "", DESK, None, [(2 ** 32 - 1, "twice.t42", sent(DESK, [CASE_G, CASE_G]))]
    shared = night(dice, 2, 12)
    yield "equal", "", DESK, None, [(DAY, "a.t42", shared), (DAY, "b.t42", night(dice, 2, 12)), (DAY, "a.t42", shared)]
    other = Setting(8, 0xFE, 2, 31)
    yield "elsewhere", "-m 8 -p fE -s 2 -a 31", other, sheet.written(KEPT, SAMPLE), [(7, "other.t42", sent(other, [CASE_G, some_table(dice)]))]
    others = b"".join(Air(dice, DESK).stream(3, [20, 40], 0)) + b"\x15" * 5          # blocks that are no tables, and bytes left over
    yield "none", "", DESK, entries(dice, 9), [(DAY, "others.t42", others)]
    elsewhere = sent(other, [CASE_G])
    some = [(DAY, "g.t42", sent(DESK, [CASE_G])), (DAY, "elsewhere.t42", elsewhere), (DAY, "empty.t42", b""), (DAY, "others.t42", others), (DAY, "short.t42", sent(DESK, [CASE_G]) + b"\x15" * 41)]
    yield "some", "", DESK, entries(dice, 9), some
    yield "full", "", DESK, sheet.written(KEPT, small(63)), [(1, "last.t42", sent(DESK, [CASE_G._replace(network=255)]))]
    yield "long", "", DESK, entries(dice, 30), [(DAY + i, f"long{i}.t42", night(dice, 9, 25)) for i in range(3)]
    yield from runs_mended(Dice(41))


def flipped(dice, data, of):
    """A bit of about one byte of so many is another; never two of one byte."""
    return bytes(byte ^ (1 << dice.below(8)) if dice.below(of) == 0 else byte for byte in data)


def runs_mended(dice):
    """Tables that come again with more mended bytes, with fewer and with none: within a capture, in captures of one start and of others, and of what stands."""
    tables = [some_table(dice, most=2)._replace(network=dice.below(3)) for _ in range(5)]
    tables += [t._replace(copyright=1 - t.copyright) for t in tables[:2]]                # equal but for what the lines don't say
    clean = sent(DESK, tables)
    rough = b"".join(flipped(dice, clean, of) for of in (10, 25, 12, 40, 15, 30, 12))
    worse = b"".join(flipped(dice, clean, of) for of in (8, 10))
    stood, line = sheet.fed(KEPT, b"", [(DAY, rough)])
    assert "same=0" not in line and "replaced=0" not in line and any(entry.mended for entry in sheet.read(KEPT, stood))
    lower, higher = ([entry._replace(mended=number) for entry in sheet.read(KEPT, stood)] for number in (1, 2051))
    yield "mended", "", DESK, None, [(DAY, "rough.t42", rough)]
    yield "mended-falls", "", DESK, None, [(DAY, "worse.t42", worse), (DAY, "rough.t42", rough), (DAY, "clean.t42", clean)]
    yield "mended-rises", "", DESK, None, [(DAY, "clean.t42", clean), (DAY, "rough.t42", rough), (DAY, "worse.t42", worse)]
    yield "mended-later", "", DESK, sheet.fed(KEPT, b"", [(DAY, clean)])[0], [(DAY + 1, "worse.t42", worse)]        # a rough capture that started later takes a clean one's place
    yield "mended-older", "", DESK, sheet.fed(KEPT, b"", [(DAY, worse)])[0], [(DAY - 1, "clean.t42", clean), (DAY, "rough.t42", rough)]
    yield "mended-stands", "", DESK, sheet.written(KEPT, lower), [(DAY, "rough.t42", rough)]
    yield "mended-most", "", DESK, sheet.written(KEPT, higher), [(DAY, "rough.t42", rough), (DAY, "worse.t42", worse)]


def night_of_two(dice, networks, count):
    """The same in two streams, which share keys too."""
    return b"".join(aired_both(dice, [[table.write_block(DESK.application, table.form_of(some_table(dice, most=3)._replace(network=dice.below(networks))))
                                       for _ in range(count)] for _ in both.BOTH], (4, 3)))


def runs_of_two(dice):
    """With -s: two streams in either order, the last of several words, one that isn't there, neither; and captures that give no table."""
    sample, night_ = both_streams()[0], night_of_two(dice, 4, 12)
    before = sheet.written(KEPT, sheet.joined([sheet.Entry(DAY + dice.below(2), some_table(dice, most=2)._replace(network=dice.below(4), copyright=0)) for _ in range(12)]))
    blank = b"".join(Air(dice, TWO.of(whose)).header(0, 3) for whose in both.BOTH)         # both came, and brought nothing
    for name, words, stands, captures in (
            ("two", "1,2", None, [(DAY, "two.t42", sample)]),
            ("two-about", "2,1", None, [(DAY, "two.t42", sample)]),
            ("two-last", "3 9,4 1,2", None, [(DAY, "two.t42", sample)]),
            ("two-one", "1,2 02", None, [(DAY, "two.t42", sample)]),
            ("two-zeros", "0000001,02", None, [(DAY, "two.t42", sample)]),
            ("two-alone", "9,2", before, [(DAY, "two.t42", sample)]),
            ("two-kept", "1,2", before, [(DAY, "two-night.t42", night_)]),
            ("two-kept-about", "2,1", before, [(DAY, "two-night.t42", night_)]),
            ("two-some", "1,2", before, [(DAY, "two.t42", sample), (DAY + 1, "two-night.t42", night_), (DAY, "two.t42", sample)]),
            ("two-late", "1,2", before, [(DAY + 1, "two-night.t42", night_), (DAY, "two.t42", sample)]),
            ("two-neither", "9,4", before, [(DAY, "two.t42", sample)]),
            ("two-neither-about", "4,9", before, [(DAY, "two-rest.t42", sample + b"\x15" * 5)]),
            ("two-step", "2,1", before, [(DAY, "two-step.t42", sample[9:])]),
            ("two-blank", "1,2", before, [(DAY, "blank.t42", blank), (DAY, "two.t42", sample)]),
            ("two-blank-one", "9,2", before, [(DAY, "blank.t42", blank), (DAY, "two-empty.t42", b"")])):
        yield name, " ".join(f"-s {word}" for word in words.split()), streams.heeding(DESK, *words.split()), stands, captures


def said(name, data, setting):
    """What is said of a capture that gives no table, and of bytes at its end that make no packet."""
    if " tables=0 " in sheet.fed(KEPT, b"", [(0, data)], setting)[1]:
        yield f"sheet: {name}: it gave no table{survey.lack(data, setting)}\n"
    if len(data) % 42:
        yield f"note: {name}: {len(data) % 42} bytes at its end make no packet\n"


def main(folder):
    dice = Dice(23)
    for name, options, setting, before, captures in (*runs(dice), *runs_of_two(Dice(24))):
        words = options.split()
        for stamp, capture, data in captures:
            assert not (folder / capture).exists() or (folder / capture).read_bytes() == data, capture
            (folder / capture).write_bytes(data)
            words += [str(stamp), str(folder / capture)]
        after, line = sheet.fed(KEPT, before or b"", [(stamp, data) for stamp, _, data in captures], setting)
        if before is not None:
            (folder / f"{name}.before").write_bytes(before)
        (folder / f"{name}.words").write_text("".join(word + "\n" for word in words))
        (folder / f"{name}.after").write_bytes(after)
        (folder / f"{name}.line").write_text(line)
        (folder / f"{name}.said").write_text("".join(line for _, capture, data in captures for line in said(folder / capture, data, setting)))
    evening = packets_in(samples.day()["evening.t42"])
    (folder / "evening.pes").write_bytes(b"".join(pes.write(0x10, b"\x02\xe7" + packet) for packet in evening))
    (folder / "many.t42").write_bytes(sent(DESK, [CASE_G._replace(network=n) for n in range(65)]))      # more than a sheet holds
    (folder / "crowd").write_bytes(sheet.written(KEPT, [sheet.Entry(1, CASE_G._replace(network=100 + n, copyright=0)) for n in range(64)]))    # no other network has room in it
    drops(folder, dice)
    late(folder, dice)
    compares(folder, dice)
    moves(folder, Dice(40))


def drops(folder, dice):
    """Entries dropped: a line each of kind, network, block and a name; NAME.before, and NAME.after, or NAME.no where the sheet is refused."""
    many = [sheet.Entry(1, CASE_G._replace(network=n, copyright=0)) for n in range(66)]
    day = sheet.read(KEPT, samples.day()["day.sheet"])
    cases = [("d65", many[:65], many[7]), ("d64", many[:64], many[63]), ("d1", many[:1], many[0])]
    cases += [(f"day{i}", day, entry) for i, entry in enumerate(day)]
    lines = []
    for name, before, entry in cases:
        (folder / f"{name}.before").write_bytes(sheet.written(KEPT, before))
        (folder / f"{name}.after").write_bytes(sheet.written(KEPT, [e for e in before if e != entry]))
        lines.append((entry, name))
    for name, data, no in (("d66", sheet.written(KEPT, many), 21), ("cut", sheet.written(KEPT, many[:3])[:-1], 20), ("over", b"x" * 17153, 21)):
        (folder / f"{name}.before").write_bytes(data)
        (folder / f"{name}.no").write_text(str(no))
        lines.append((many[1], name))
    (folder / "drops").write_text("".join(f"{ {7: 'LI', 8: 'TI'}[e.table.kind] } {e.table.network} {e.table.block_no} {name}\n" for e, name in lines))


def late(folder, dice):
    """Captures of many vans, whose order mustn't matter."""
    for name, count in (("four", 4), ("twenty", 20)):
        captures = [(DAY + dice.below(3), night(dice, 5, 8)) for _ in range(count)]
        for at, (stamp, data) in enumerate(captures):
            (folder / f"{name}{at}.t42").write_bytes(data)
        (folder / name).write_text("".join(f"{stamp} {folder}/{name}{at}.t42\n" for at, (stamp, _) in enumerate(captures)))
        (folder / f"{name}.after").write_bytes(sheet.fed(KEPT, b"", captures)[0])
    (folder / "orders").write_text("".join(" ".join(map(str, order)) + "\n" for order in itertools.permutations(range(4))))
    with open(folder / "groupings", "w") as groupings:
        for _ in range(5):
            left = list(range(20))
            while len(left) > 1:
                into = dice.pick(left)
                left.remove(into)
                other = dice.pick(left)
                left.remove(other)
                left.append(into)
                groupings.write(f"{into} {other}\n")
            groupings.write("\n")


def compares(folder, dice):
    """Two sheets side by side: alike, of stamps alone that differ, the longest prints, nights of every kind, and each fault in either."""
    text, restamped = sheet.written(KEPT, FIVE), sheet.written(KEPT, [entry._replace(stamp=9) for entry in FIVE])
    pairs = {"alike": (text, text), "restamped": (text, restamped), "all-gone": (text, b""), "all-new": (b"", text)}
    for at in range(12):
        first = some_sheet(dice, dice.below(9), 5)
        pairs[f"night{at}"] = sheet.written(KEPT, first), sheet.written(KEPT, overnight(dice, first, 5))
    kinds = list(zip(("none", "one", "64", "65", "65bad", "full", "over", "bad"), lent_pairs(Sheets(None, KEPT)), strict=True))
    for kind, (first, _) in kinds:
        for other, (_, second) in kinds:
            pairs[f"{kind}-{other}"] = first, second
    for name, (first, second) in pairs.items():
        (folder / f"{name}.first").write_bytes(first)
        (folder / f"{name}.second").write_bytes(second)
        try:
            (folder / f"{name}.print").write_bytes(changes.compare(KEPT, first, second))
        except Refused as refused:
            (folder / f"{name}.fault").write_text(f"{changes.at_fault(KEPT, first, second)} {refused.no} {refused.at}\n")


def moves(folder, dice):
    """Sheets moved up and down: what each wrote, both limits and one more, numbers that would be lost, and each form where the other is asked for."""
    def of(count, number=0, descriptors=()):
        return [sheet.Entry(1, CASE_G._replace(network=n, copyright=0, descriptors=list(descriptors) or CASE_G.descriptors), number) for n in range(count)]
    some = [entry._replace(mended=0) for entry in FIVE]
    lost = [*some[:2], some[2]._replace(mended=1), some[3]._replace(mended=2051), *some[4:]]
    old, new = sheet.written(OLD, some), sheet.written(NEW, some)
    many = of(64, 0, [(d, [0x656E67, 0x000100 + d]) for d in range(6)])
    narrow = many[:next(k for k in range(64, 0, -1) if len(sheet.written(OLD, many[:k])) <= 16384)]
    wide = [*narrow, sheet.Entry(1, CASE_G._replace(network=255, copyright=0, descriptors=[]), 0)]
    assert 16384 < len(sheet.written(OLD, wide)) and len(sheet.written(NEW, wide)) <= 17152
    cases = {"none": b"", "old": old, "new": new, "lost": sheet.written(NEW, lost), "first": sheet.written(NEW, [some[0]._replace(mended=7)]), "cut-old": old[:-1], "cut-new": new[:-1],
             "64-old": sheet.written(OLD, of(64)), "64-new": sheet.written(NEW, of(64)), "65-old": sheet.written(OLD, of(65)), "65-new": sheet.written(NEW, of(65)), "65-lost": sheet.written(NEW, of(65, 3)),
             "long-old": sheet.written(OLD, narrow), "long-new": sheet.written(NEW, narrow), "over-old": sheet.written(OLD, wide), "over-new": sheet.written(NEW, wide),
             "over-lost": sheet.written(NEW, [*wide[:-1], wide[-1]._replace(mended=9)])}
    cases.update({f"some{i}": sheet.written(dice.pick([OLD, NEW]), [entry._replace(mended=0) for entry in some_sheet(dice, dice.below(9), 5)]) for i in range(6)})
    for name, data in cases.items():
        for task, move in (("up", sheet.up), ("down", sheet.down)):
            (folder / f"{name}.{task}").write_bytes(data)
            try:
                (folder / f"{name}.{task}.moved").write_bytes(move(data))
            except Refused as refused:
                (folder / f"{name}.{task}.refused").write_text(f"{refused.no} {refused.at}\n")


main(pathlib.Path(sys.argv[1]))
