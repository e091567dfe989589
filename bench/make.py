#!/usr/bin/env python3
"""The input of the measure, made by the model: bench/make.py DIR.

dense.t42  a multiple of sixteen pages of tables and nothing else, so that it can
           be repeated and the running number goes on
both.t42   the same pages, and between them those of the same tables in stream 2
mixed.t42  the same pages as dense.t42, after each three pages of other magazines
lines.pes  PES packets of fifteen lines, with the time stamp that libzvbi waits for
many.t42   mixed.t42 repeated, some two million packets

And cases with the model's answers, for the plain C loader: guide.in and guide.txt,
table.in and table.txt."""

import pathlib
import sys

sys.dont_write_bytecode = True
HERE = pathlib.Path(__file__).resolve().parent
sys.path[:0] = [str(HERE.parent / "tests"), str(HERE.parent / "tests" / "judge")]

import samples
from cases import reader as reader_cases
from cases import table as table_cases
from cases.form import Dice, Script
from cases.guide import Readers
from cases.reader import Air
from model import guide, pes
from model.listing import DESK
from pesrows import stamped

PAGE = 26       # packets of a page of 25, with its packet 0
MANY = 2_000_000


def cut(setting, records):
    return samples.packets_in(guide.cut(setting, 0, 25, b"".join(records)))


def dense():
    """Nights of tables, until they fill a multiple of sixteen pages: their records."""
    records = []
    for seed in range(1, 200):
        records += samples.night_list(Dice(seed), 40)
        pages = len(cut(DESK, records)) // PAGE
        if pages >= 100 and pages % 16 == 0:
            return records
    sys.exit("make.py: no list fills whole rounds of sixteen pages")


def mixed(dice, packets):
    """Other magazines' pages stand between ours, where either reader passes over them."""
    out = []
    for at in range(0, len(packets), PAGE):
        out += packets[at:at + PAGE]
        for other in (2, 3, 8):
            air = Air(dice, DESK._replace(magazine=other))
            out += [air.header(dice.below(16), 25)] + [air.row(y, dice.below(14), dice.bytes(39)) for y in range(1, 26)]
    return out


def both(ours, theirs):
    """Two streams' pages in turn."""
    return [packet for at in range(0, len(ours), PAGE) for packet in ours[at:at + PAGE] + theirs[at:at + PAGE]]


def lines(dice):
    frames = [b"".join(bytes([0x02, 0xE0 | line]) + dice.bytes(42) for line in range(7, 22)) for _ in range(200)]
    return b"".join(stamped(pes.write(0x10, frame)) for frame in frames)


def reader_script():
    readers = Readers()
    script = Script({20: (4, readers.fresh), 21: (0, readers.feed)})
    reader_cases.all_cases(script, Dice(5), 4)
    return script


def main():
    folder, dice = pathlib.Path(sys.argv[1]), Dice(12)
    records = dense()
    ours = cut(DESK, records)
    others = b"".join(mixed(dice, ours))
    (folder / "dense.t42").write_bytes(b"".join(ours))
    (folder / "both.t42").write_bytes(b"".join(both(ours, cut(DESK._replace(stream=2), records))))
    (folder / "mixed.t42").write_bytes(others)
    (folder / "lines.pes").write_bytes(lines(dice))
    for name, script in ("guide", reader_script()), ("table", table_cases.script_of(Dice(5), 4)):
        (folder / f"{name}.in").write_bytes(script.stdin)
        (folder / f"{name}.txt").write_text(script.stdout())
    with open(folder / "many.t42", "wb") as many:
        for _ in range(MANY * guide.PACKET // len(others)):
            many.write(others)


if __name__ == "__main__":
    main()
