#!/usr/bin/env python3
"""Captures of PES packets beyond the stored run: tests/unpes/captures.py DIR writes for each NAME.pes,
NAME.t42, what the model's unpes gives for it, and NAME.err, what it says last; NAME.txt too, the desk's list, for a run of losses
that a reader can't see."""

import pathlib
import sys

sys.dont_write_bytecode = True
sys.path.insert(0, str(pathlib.Path(__file__).resolve().parent.parent))

from cases.form import Dice, with_bytes
from cases.unpes import stream_of
from model import guide, listing, pes, table, unpes
from model.listing import DESK
from cases.table import some_table
from samples import aired, form, handed_out, march_table, night_list, night_pes, packets_in, record, some_page, swapped

SPACE = 131072      # what unpes holds at once


def parted(data):
    """The PES packets of a row that is whole."""
    at, parts = 0, []
    while at < len(data):
        length = unpes.length_at(data, at)
        parts.append(data[at:at + length])
        at += length
    return parts


def tables(packets):
    return listing.desk(packets).count(b"kind=")


def hit(dice):
    """A night in which one bit of every tenth packet's start code, stream id or length is flipped: most tables come."""
    whole = night_pes(aired(dice, night_list(dice, 100)))
    parts = parted(whole)
    for i in range(0, len(parts), 10):
        at = dice.below(6)
        parts[i] = with_bytes(parts[i], (at, parts[i][at] ^ 1 << dice.below(8)))
    some, all_ = tables(unpes.run(b"".join(parts))[0]), tables(unpes.run(whole)[0])
    assert all_ > some > all_ // 2
    yield "whole", whole
    yield "hit", b"".join(parts)


def gaps(dice):
    """Bytes where no packet begins, longer than what is held at once; and a packet's front across its end."""
    good = pes.write(0x10, b"\x02\x07" + b"\x15" * 42)
    yield "zeros", good + bytes(3 * SPACE) + good
    yield "codes", good + pes.FRONT * (SPACE // 2) + good
    yield "random", good + dice.bytes(SPACE + 12345) + good
    for short in range(8):
        yield f"across{short}", bytes(SPACE - short) + good * 2
    for short in range(1, 8):
        yield f"end{short}", good + bytes(SPACE) + good[:short]
    yield "none", bytes(SPACE)


def longest(dice):
    """Packets of the greatest length, more than are held at once; one that is cut short."""
    most = pes.write(0x1F, b"".join(b"\x03\xe7" + dice.bytes(1) * 42 for _ in range(1423)))
    yield "longest", most * 5
    yield "short", most * 3 + most[:-1]


def unseen(dice, units):
    """21 packets, one page of the usual length and its packet 0, are lost in PES packets of so many units: what follows fits. Left out, half
    a table and half of another join, and the sum agrees; as unpes puts it, no table comes that wasn't sent."""
    at = 9 if units == 3 else 7                         # the first packet lost: within a table of five packets, where a PES packet begins
    fives = [march_table(dice, network, (5, 5, 4)) for network in range(9)]
    first = (at - 1) // 5
    pages = [some_page(dice) for _ in range(14)]
    fives[first] = march_table(dice, first, (5, 5, 4), pages)
    fives[first + 4] = march_table(dice, first, (5, 5, 4), [some_page(dice)] + [swapped(page) for page in pages[1:]])
    sent = [record(t) for t in fives]
    packets = packets_in(guide.cut(DESK, 0, 0, b"".join(sent)))
    joined = [r for r in handed_out(guide.Reader(DESK), packets[:at] + packets[at + 21:]) if guide.bare(r) not in sent]
    assert len(joined) == 1 and form(joined[0]), "without a word the halves join"
    carried = [pes.write(0x10, b"".join(b"\x02\xe7" + packet for packet in packets[i:i + units])) for i in range(0, len(packets), units)]
    hit = range(at // units, (at + 21) // units)
    data = b"".join(with_bytes(p, (49, 0x27)) if i in hit else p for i, p in enumerate(carried))
    assert all(guide.bare(r) in sent for r in handed_out(guide.Reader(DESK), packets_in(unpes.run(data)[0])))
    return data


def main(folder):
    dice = Dice(17)
    made = [*hit(dice), *gaps(dice), *longest(dice), *((f"seed{seed}", stream_of(Dice(seed), 2)) for seed in (2, 3)), ("empty", b"")]
    for name, data in made:
        out, said = unpes.run(data)
        (folder / f"{name}.pes").write_bytes(data)
        (folder / f"{name}.t42").write_bytes(out)
        (folder / f"{name}.err").write_text(said)

    for name, units in (("sevens", 3), ("threes", 7)):
        data = unseen(dice, units)
        out, said = unpes.run(data)
        (folder / f"{name}.pes").write_bytes(data)
        (folder / f"{name}.t42").write_bytes(out)
        (folder / f"{name}.err").write_text(said)
        (folder / f"{name}.txt").write_bytes(listing.desk(out))

    # one capture cut in two within a block, as two files: the table that is cut doesn't come
    packets = guide.cut(DESK, 0, 25, b"".join(
        table.write_block(DESK.application, table.form_of(some_table(dice, descriptors=11, most=15))) for _ in range(3)))
    parts = parted(night_pes_clean(packets_in(packets)))
    halves = b"".join(parts[:len(parts) // 2]), b"".join(parts[len(parts) // 2:])
    out, said = unpes.run(*halves)
    assert tables(out) < tables(unpes.run(b"".join(halves))[0])
    for name, half in zip(("first", "second"), halves):
        (folder / f"{name}.half").write_bytes(half)
    (folder / "halves.t42").write_bytes(out)
    (folder / "halves.err").write_text(said)


def night_pes_clean(packets):
    return b"".join(pes.write(0x10, b"\x02\xe7" + packet) for packet in packets)


main(pathlib.Path(sys.argv[1]))
