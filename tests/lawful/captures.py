#!/usr/bin/env python3
"""Captures for `lawful`: tests/lawful/captures.py DIR writes for each NAME.t42, NAME.words (its options, one word to a line) and what the model has for
it: NAME.txt and NAME.err, what it prints and says where it reads the capture from standard input; NAME.named.txt and NAME.named.err, where by its
name. A line in NAME.err that begins with `desk ` or `some ` has words that aren't settled: what follows is how the line begins, and with `desk ` it
points to `./loader desk`. DIR/pes/hotel.pes is the hotel's guide in PES packets. In DIR/halves, 1.t42 and 2.t42 are the two parts of a capture, cut within its Application Information, and alike-1.t42 and
alike-2.t42 two captures of which each is lawful and both in one aren't."""

import functools
import itertools
import pathlib
import sys

sys.dont_write_bytecode = True
sys.path.insert(0, str(pathlib.Path(__file__).resolve().parent.parent))

from cases.form import LOST, Dice, with_bytes
from cases.information import (FAULTS, RULES, SAMPLE, TABLE_FAULTS, TAKEN, Block, guide_of, informed, named_in_all, network, plain, record_of, renamed,
                               table_record, with_fields)
from cases.menu import listed
from cases.menu import SAMPLE as MENU
from cases.reader import Air
from cases.table import nibbles_in, spread, with_field
from model import guide, information, octet, table, unpes
from model.guide import HEAD, PACKET, Setting
from model.information import AI, MI, NO_INFORMATION, STORE, TOO_MANY, UI
from model.listing import DESK
from model.streams import blocks, heeding
from model.survey import PIECE
from model.table import LI, TI
from samples import TWO, aired, aired_both, hotel, hotel_blocks, lawful_run, make, night_list, night_pes, packets_in, roughened, weathered

plain = functools.cache(plain)
UNSETTLED = {"": b"", NO_INFORMATION: b"desk ", TOO_MANY: b"some "}


def sent(setting, records, k=20, index=3):
    """The pages of a list; a long one is cut part by part, which takes less time."""
    data = []
    for at in range(0, len(records), 90):
        data.append(guide.cut(setting, index, k, b"".join(records[at:at + 90])))
        index = (index + len(data[-1]) // (PACKET * (k + 1))) % 16
    return b"".join(data)


def numbered(kind, number=0, size=12, application=DESK.application):
    """A record of a kind that nobody reads, with a number; its sum agrees."""
    return table.summed(application, with_field(nibbles_in(plain(kind, application, size)), "block_no", number))


def messages(count):
    return [numbered(MI, number) for number in range(count)]


def tables(kind, network_no, count, block_no=0):
    """So many tables of a network that have one number and aren't the same."""
    return [table_record(kind, network_no, block_no, [entries]) for entries in range(count)]


# --- the rules ------------------------------------------------------------------------

def over(rule, channel):
    """Blocks that break a rule, where there is one AI without them."""
    return {"AI": [guide_of(channel, 3)], "MI": messages(256), "UI": [numbered(UI, 0), numbered(UI, 1)],
            "LI": tables(LI, channel ^ 1, 2), "TI": tables(TI, channel, 3)}[rule]


def within(rule, channel):
    """.. and blocks at its limit."""
    return {"AI": [], "MI": messages(255), "UI": [numbered(UI)], "LI": tables(LI, channel ^ 1, 1) + tables(LI, channel, 2),
            "TI": tables(TI, channel, 1) + tables(TI, channel ^ 1, 1) + tables(TI, channel, 1, 0x8000)}[rule]


def rules():
    """Each rule at its limit and over, alone, two at once, all at once; this channel 0, 7 and 255, listed in the AI or not."""
    for channel, listed_there in ((0, 2), (7, 8), (7, 2), (255, 0)):
        good = [guide_of(channel, listed_there)]
        for rule in RULES if listed_there == 8 else ("AI", "UI", "LI", "TI"):
            yield f"within-{rule}-{channel}-{listed_there}", good + within(rule, channel)
            yield f"over-{rule}-{channel}-{listed_there}", over(rule, channel) + good
    good = [guide_of(7)]
    for pair in itertools.combinations(RULES, 2):                    # the first in the table's order, whatever the order of blocks
        broken = [over(rule, 7) for rule in pair]
        yield "pair-" + "-".join(pair), broken[1] + good + broken[0]
    for broken in RULES:                                             # one over, the others at their limits
        yield f"one-{broken}", [block for rule in RULES for block in (over if rule == broken else within)(rule, 7)] + good
    yield "limits", [block for rule in RULES for block in within(rule, 7)] + good
    yield "all", [block for rule in reversed(RULES) for block in over(rule, 7)] + good
    yield "alone", good
    every = [block for kind in (LI, TI) for block in (*(table_record(kind, network_no) for network_no in range(256)), table_record(kind, 7, counts=[1]))]
    yield "every-network", every + good
    for kind, network_no in ((LI, 0), (LI, 7), (TI, 255), (TI, 7)):
        yield f"every-network-{kind}-{network_no}", good + every + [table_record(kind, network_no, counts=[2])]
    for kind in (LI, TI):                                            # two numbers make no two of another network's
        yield f"numbers-{kind}", good + tables(kind, 6, 1) + tables(kind, 6, 1, 0x8000)
        yield f"numbers-own-{kind}", good + tables(kind, 7, 1) + tables(kind, 7, 1, 0x8000)
    yield "claims", [record_of(informed(b"", [network(no_of_LI_structures=1, no_of_TI_structures=3)] * 3, no_of_message_info=99, no_of_updates=1))]


# --- each block once ------------------------------------------------------------------

def mended(dice, block, control=None):
    """A repeat with one flipped bit in each of its bytes, or of its first so many."""
    ends = HEAD + (len(block) - HEAD if control is None else control)
    return with_bytes(block, *((at, block[at] ^ 1 << dice.below(8)) for at in range(HEAD, ends)))


def standing(kind):
    """A block of a kind that nobody reads, and what comes beside it: other blocks, and what counts as none."""
    block = numbered(kind, 3)
    lost = [with_bytes(block, (HEAD + 9, byte)) for byte in range(256) if octet.decode(byte) == octet.UNDECODABLE][:2]
    return block, {
        "sum": [with_bytes(block, (HEAD, octet.image(octet.decode(block[HEAD]) ^ 1)))], "lost": lost[:1], "lost-alike": lost[:1] * 3, "lost-two": lost * 2,
        "nibble": [with_bytes(block, (HEAD + 11, octet.image(9)))], "longer": [numbered(kind, 3, 13)], "least": [plain(kind)],
        "access": [table.summed(1, with_field(nibbles_in(block), "CA_mode", 3))],
        "unreadable": [with_bytes(block, (HEAD + 7, LOST))], "small": [plain(kind, size=7)]}


def repeats(dice):
    """Blocks that come again, as they were or mended, are one; blocks that differ in anything else are two."""
    own, li, ti = record_of(SAMPLE), table_record(LI, 2, counts=[2]), table_record(TI, 2, counts=[1])
    (mi, messages_beside), (ui, updates_beside) = standing(MI), standing(UI)
    all_of = [own, ui, mi, li, ti]

    def all_mended():
        return [mended(dice, own, 2 * information.control_size(SAMPLE)), *(mended(dice, block) for block in all_of[1:])]

    again, once_more = all_mended(), all_mended()
    for name, records in (("plain", all_of * 3), ("mended", all_of + again), ("first", again + all_of + again), ("twice", again + once_more),
                          ("each", [block for three in zip(all_of, again, once_more) for block in three * 2])):
        yield f"again-{name}", records
    for name, other in (("spare", with_fields(SAMPLE, ((27, 1), 1))), ("letter", record_of(renamed(SAMPLE, 2, b"Thref"))),
                        ("fewer", record_of(informed(b"Hotel", SAMPLE.networks[:2], this_operator_network_no=2)))):
        yield f"other-{name}", [*all_of, other, own, other]
    for name in messages_beside:
        yield f"message-{name}", [*all_of, *messages_beside[name], mi, *messages_beside[name]]
        yield f"update-{name}", [*updates_beside[name], *all_of, *updates_beside[name]]
    for fault, damaged in TABLE_FAULTS.items():                      # a repeat that is refused doesn't count, whichever comes first
        for kind, block in ((LI, li), (TI, ti)):
            if fault not in ("part", "second"):                      # those two aren't sent
                yield f"refused-{kind}-{fault}", [own, damaged(block), damaged(table_record(kind, 3)), block, damaged(table_record(kind, 3, 0x8000))]
    for name, changed in TAKEN.items():
        yield f"taken-{name}", [own, table_record(LI, 3), changed(table_record(LI, 3)), changed(table_record(LI, 4))]
    for fault in ("parity", "sum", "rest", "first", "lengths", "access"):
        block = Block(SAMPLE)
        FAULTS[fault](block)
        yield f"refused-AI-{fault}", [block.record(), own, block.record(), *tables(LI, 2, 2)]
        yield f"only-{fault}", [block.record(), ui, mi, li, ti]


def spans(dice):
    """Repeats that span pages and repeats that don't, of a guide without strings; up to one flipped bit in every byte of every packet."""
    own = record_of(informed(b"", [network(cni=at) for at in range(3)], this_operator_network_no=1))
    good = [own, *messages(3), numbered(UI), *tables(LI, 1, 2), *tables(TI, 0, 1), table_record(TI, 1, counts=[3, 2])]
    for k in (1, 2, 7, 25):
        yield f"pages-{k}", sent(DESK, good * 4, k)
        packets = sent(DESK, good * 4, k, 13)
        air = Air(dice, DESK)
        yield f"noise-{k}", b"".join(air.noised(packets[at:at + PACKET], 1) for at in range(0, len(packets), PACKET))
        assert information.program(packets) == (b"guide=EPG\nlawful=yes\nAI=1 MI=3 UI=1 LI=2 TI=2\n", b"")


def others(dice):
    """What doesn't count: any number of every other kind, and what other applications send."""
    good, ours = [guide_of(1), numbered(MI)], (AI, MI, UI, LI, TI)
    yield "kinds", good + [block for kind in range(64) if kind not in ours for block in (numbered(kind, 1), numbered(kind, 2), plain(kind, size=9))]
    yield "menus", good + [listed(1, MENU._replace(block_no=number)) for number in range(300)]
    yield "programmes", [numbered(2, number) for number in range(300)] + good
    for rule in RULES:
        theirs = {"AI": [guide_of(1, 3, 2)], "MI": [numbered(MI, n, 12, 3) for n in range(300)], "UI": [numbered(UI, n, 12, 0) for n in range(2)],
                  "LI": [table_record(LI, 5, counts=[n], application=2) for n in range(2)], "TI": [table_record(TI, 5, counts=[n], application=31) for n in range(2)]}[rule]
        yield f"theirs-{rule}", good + within(rule, 1) + theirs
    yield "theirs-alone", [guide_of(1, application=2), *within("LI", 1)]
    yield "smallest", [plain(AI), plain(AI, size=40)]
    yield "night", night_list(dice, 9) + good


def none(dice):
    """No Application Information counts."""
    good = [guide_of(1), *within("TI", 1)]
    for name, data in (("empty", b""), ("part", b"\x15" * 41), ("tables", sent(DESK, good[1:])), ("stream", sent(DESK._replace(stream=2), good)),
                       ("page", sent(DESK._replace(page=0xDE), good)), ("text", dice.bytes(2 * PIECE + 5)), ("cut", sent(DESK, good)[:2 * PACKET]),
                       ("rules", sent(DESK, [block for rule in RULES[1:] for block in over(rule, 1)])), ("blank", sent(DESK, [plain(AI), plain(AI, size=39)]))):
        yield f"none-{name}", data


# --- settings and streams ---------------------------------------------------------------

def elsewhere():
    """A guide that is lawful and one that isn't, under each setting at an end of its range."""
    for name, words, setting in (
            ("low", "-m 1 -p 00 -s 0 -a 0", Setting(1, 0x00, 0, 0)),
            ("high", "-a 31 -s 15 -p fF -m 8", Setting(8, 0xFF, 15, 31)),
            ("zeros", "-m 007 -p 0a -s 002 -a 03", Setting(7, 0x0A, 2, 3)),
            ("last", "-m 3 -m 2 -p DE -p Cd", Setting(2, 0xCD, 1, 1))):
        application = setting.application
        good = [guide_of(9, application=application), numbered(UI, 0, 12, application), table_record(LI, 8, application=application)]
        yield name, words, setting, sent(setting, good)
        yield f"{name}-no", words, setting, sent(setting, [*good, table_record(LI, 8, 0x8000, application=application)])
        yield f"{name}-none", words, setting, sent(setting, good[1:])


def two(dice):
    """With -s: the blocks of both streams are one list; one that comes in both is one."""
    def streams(first, second, k=(3, 2)):
        return b"".join(aired_both(dice, (first, second), k, (5, 9)))

    own = guide_of(1, 3)
    sample = hotel()[0]
    for name, words, data in (
            ("sample", "1,2", sample), ("sample-last", "9 2 1,2", sample), ("sample-zeros", "01,0000000000000000000002", sample), ("sample-one", "1,2 1", sample),
            ("sample-other", "2", sample), ("sample-alone", "1,9", sample), ("sample-alone-other", "9,2", sample), ("sample-neither", "9,4", sample),
            ("apart", "1,2", streams([own, *tables(LI, 0, 1)], tables(LI, 2, 1) + tables(TI, 2, 1))),
            ("alike", "1,2", streams([own, numbered(UI), *tables(TI, 0, 1)], [numbered(UI), own, *tables(TI, 0, 1)] * 2)),
            ("mended", "1,2", streams([own, numbered(UI), *tables(LI, 0, 1)], [mended(dice, block) for block in (numbered(UI), *tables(LI, 0, 1))])),
            ("AI", "1,2", streams([own], [guide_of(1, 2)])), ("UI", "1,2", streams([own, numbered(UI, 1)], [numbered(UI, 2)])),
            ("MI", "1,2", streams([own, *messages(200)], [numbered(MI, number) for number in range(100, 256)])),
            ("MI-less", "1,2", streams([own, *messages(200)], [numbered(MI, number) for number in range(100, 255)])),
            ("LI", "1,2", streams([own, *tables(LI, 2, 1)], tables(LI, 2, 2))), ("TI", "1,2", streams([own, *tables(TI, 1, 2)], tables(TI, 1, 1, 0x8000))),
            ("TI-less", "1,2", streams([own, *tables(TI, 1, 2)], tables(TI, 1, 2))), ("second", "1,2", streams(tables(LI, 1, 2), [own]))):
        for turned in ("", "-about") if "," in words.split()[-1] else ("",):
            said = [",".join(reversed(word.split(","))) if turned else word for word in words.split()]
            yield f"two-{name}{turned}", " ".join(f"-s {word}" for word in said), heeding(DESK, *said), data
    lists = [[block for block in part for _ in range(4)] for part in hotel_blocks()]
    clean = aired_both(dice, [[weathered(dice, block) for block in part] for part in lists])
    yield "two-weathered", "-s 2,1", TWO, b"".join(clean)
    yield "two-rough", "-s 1,2", TWO, b"".join(roughened(dice, clean * 3))


def long(dice):
    """More than one piece: the AI behind three of them, or before; ends at and near the end of a piece; noise."""
    good = [guide_of(4, 5), *messages(9), numbered(UI), *(table_record(LI, network_no) for network_no in range(250, 256))]
    many = b"".join(aired(dice, night_list(dice, 250) * 3))
    assert len(many) > 3 * PIECE
    first = sent(DESK, good)
    for name, data in (("behind", many[:3 * PIECE] + first + b"\x15" * 41), ("before", first + many), ("piece", first + many[:PIECE - len(first)]),
                       ("more", first + many[:PIECE + 1 - len(first)]), ("less", (first + many)[:PIECE - 1]), ("many", many)):
        yield f"long-{name}", data
    lake = [record_of(informed(b"", [network()] * 3)), *hotel_blocks()[0][1:], *hotel_blocks()[1]]
    for at in range(6):                                              # a damaged MI or UI is another block
        yield f"rough-{at}", b"".join(roughened(dice, aired(dice, lake * 5, 9)))


# --- as many as fit -----------------------------------------------------------------------

def large(number, size=guide.size_of(0xFFFF)):
    """An MI of so many bytes; its sum isn't judged."""
    return with_bytes(plain(MI, size=size), *enumerate(octet.images(guide.nibbles_of(number)), HEAD + 8))


def longest_messages(room):
    """As many of them as fit."""
    return [large(number) for number in range(room // 2051)]


def smallest_messages(count):
    """So many; again their sum isn't judged."""
    places = [HEAD + at for at in (0, 1, 3, 7, 2)]
    return [with_bytes(plain(MI), *zip(places, octet.images([*guide.nibbles_of(number), number >> 16]))) for number in range(count)]


def largest_lawful():
    """The largest guide that is lawful."""
    most = [record_of(named_in_all(80, 7)), *(large(number) for number in range(255)), numbered(UI, 0, 2047)]
    for kind, counts in ((LI, spread(329, 23)), (TI, spread(162, 35))):
        most += [table_record(kind, network_no, block_no, counts) for network_no, block_no in (*((one, 0) for one in range(256)), (0, 0x8000))]
    assert sum(map(len, most)) == 1_580_807
    return most


def full():
    """As many bytes as are kept, and one more; what takes no room; the largest guide that is lawful."""
    own = guide_of()
    longest = longest_messages(STORE - len(own))
    rest = STORE - len(own) - sum(map(len, longest))
    last, more = large(5000, rest - HEAD), large(5000, rest + 1 - HEAD)
    middle, passed = sent(DESK, longest), [numbered(2, 1, 2000), numbered(4, 1, 1000), listed(1, MENU), plain(LI, size=2000), numbered(MI, 9, 300, 2)]
    assert HEAD + 8 <= rest and len(own) + sum(map(len, longest)) + len(last) == STORE
    dice = Dice(3)
    for name, before, behind in (
            ("exact", [own], [last]), ("over", [own], [more]), ("last", [], [last, own]), ("late", [], [more, own]),
            ("again", [own], [last, *(mended(dice, block) for block in longest[:3]), mended(dice, last), own]), ("passed", [own], [last, *passed]),
            ("least", [own, *passed], [last, plain(UI)]), ("table", [own], [last, table_record(TI, 1)]), ("none", [], [last]), ("none-over", [], [last, large(5001)]),
            ("none-again", [], [last] * 20)):
        data = sent(DESK, before) + middle + sent(DESK, behind)
        yield f"full-{name}", "", DESK, data, before + longest + behind
    second = TWO.of(1)
    yield "full-two", "-s 1,2", TWO, sent(DESK, [own]) + middle + sent(second, [last, last, longest[0]]), [own, *longest, last]
    yield "full-two-over", "-s 2,1", TWO, sent(second, [own, more]) + middle, [own, more, *longest]
    most, crowd = largest_lawful(), smallest_messages(6000)
    yield "full-lawful", "", DESK, sent(DESK, most), most
    yield "crowd", "", DESK, sent(DESK, [own, *crowd, *crowd[::-1]]), [own, *crowd]     # each is held against all before it


# --- files --------------------------------------------------------------------------------

def halves():
    """The two parts of a capture, cut within its AI such that a reader that went on would hand it out; and two captures that aren't one."""
    data, at = sent(DESK, [record_of(named_in_all(80, 7)), numbered(UI)]), 30 * PACKET
    parts = data[:at], data[at:]
    assert information.program(data)[0] and not any(information.program(part)[0] for part in parts)
    yield from zip("12", parts)
    for at in "12":
        yield f"alike-{at}", sent(DESK, [guide_of(), numbered(UI, int(at))])


def write(path, words, data, setting, records=None):
    """A capture, its words, and what the model has for them. Where its blocks are given it isn't read again."""
    def put(suffix, content):
        path.with_name(path.name + suffix).write_bytes(content)

    assert not path.with_name(path.name + ".t42").exists(), path.name
    result = information.weighed(setting.application, [record for _, record in blocks(setting, data)] if records is None else records)
    put(".t42", data), put(".words", "".join(word + "\n" for word in words.split()).encode())
    for suffix, name in (("", None), (".named", f"{path}.t42".encode())):
        text, said = information.said_of(result, name)
        put(f"{suffix}.txt", text), put(f"{suffix}.err", UNSETTLED[result.failure] + said + b"\n" * bool(result.failure))
    return result.failure or " ".join(f"{name}={rule}" for name, rule in result.verdicts.items())


def main(folder):
    dice, came = Dice(36), set()
    for name, records in (*rules(), *repeats(dice), *others(dice)):
        came.add(write(folder / name, "", sent(DESK, records, 20 if len(records) > 9 else 3), DESK))
    for name, data in (*spans(dice), *none(dice), *long(dice), *((f"sample-{name[:-4]}", data) for name, data in make() if name.endswith(".t42"))):
        came.add(write(folder / name, "", data, DESK))
    for name, words, setting, data, *records in (*elsewhere(), *two(dice), *full()):
        came.add(write(folder / name, words, data, setting, *records))
    assert came == {NO_INFORMATION, TOO_MANY, "EPG=None", *(f"EPG={rule}" for rule in RULES)}
    for path in folder.glob("*-about.txt"):     # the order of the two doesn't show
        assert path.read_bytes() == path.with_name(path.name.replace("-about", "")).read_bytes()
    (folder / "halves").mkdir()
    for name, data in halves():
        write(folder / "halves" / name, "", data, DESK)
    (folder / "pes").mkdir()
    carried = night_pes(packets_in(hotel()[0]))
    write(folder / "pes" / "hotel", "", unpes.run(carried)[0], DESK)
    (folder / "pes" / "hotel.pes").write_bytes(carried)
    # a name so long that some hundred lines of it fill a pipe
    write(folder / "halves" / ("n" * 200), "", lawful_run()[0], DESK)


if __name__ == "__main__":
    main(pathlib.Path(sys.argv[1]))
