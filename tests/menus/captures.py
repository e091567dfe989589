#!/usr/bin/env python3
"""Captures with menus: tests/menus/captures.py DIR writes for each NAME.t42, NAME.words (the options of `menus`, one word to a line) and what
the model has for it: NAME.txt and NAME.err, what it prints and says where it reads the capture from standard input; NAME.named.txt and
NAME.named.err, where by its name. Where the listing is too long, NAME.fits.txt is the one with the number of levels that is named.
In DIR/halves, NAME-1.t42 and NAME-2.t42 are the two parts of a capture, with what the model has for each by its name; in DIR/halves-of-two,
of one with two streams, for -s 1,2."""

import functools
import pathlib
import re
import sys

sys.dont_write_bytecode = True
sys.path.insert(0, str(pathlib.Path(__file__).resolve().parent.parent))

from cases.form import LOST, Dice, with_bytes
from cases.menu import EMPTY, linked, plain, some_event, some_menu, worded
from model import both, guide, menu, streams
from model.guide import HEAD, PACKET, Setting
from model.listing import DESK
from model.menu import LEVELS, STORE, TEXT, TO_MENU, Event
from model.survey import PIECE
from samples import TWO, aired, aired_both, both_streams, night_list, pages_of, roughened

kept = functools.cache(menu.kept)       # a capture is read once


def record(made, application=DESK.application):
    return menu.write_menu(application, menu.form_of(made))


def sent(setting, records):
    return guide.cut(setting, 3, 20, b"".join(records))


def some_list(dice, numbers, application=DESK.application):
    """A menu for each of so many numbers, with links among them to numbers above."""
    for number in range(numbers):
        made = some_menu(dice, number, descriptors=dice.below(4))
        links = [number + 1 + dice.below(3) for _ in range(dice.below(3))]
        yield record(made._replace(events=[some_event(dice, link) for link in links] + [some_event(dice)]), application)


def elsewhere(dice):
    """Menus under each setting at an end of its range, and numbers of blocks."""
    for name, words, setting, number in (
            ("low", "-m 1 -p 00 -s 0 -a 0", Setting(1, 0x00, 0, 0), 0),
            ("high", "-b 3 -a 31 -s 15 -p fF -m 8", Setting(8, 0xFF, 15, 31), 3),
            ("zeros", "-m 007 -p 0a -b 00005 -s 002 -a 03", Setting(7, 0x0A, 2, 3), 5),
            ("last", "-b 65535 -m 3 -m 2 -p DE -b 1 -p Cd", Setting(2, 0xCD, 1, 1), 1)):
        yield name, words, setting, number, sent(setting, some_list(dice, 9, setting.application))
    ends = [linked(number, 65535 - number) for number in (0, 9, 255, 256, 32768, 65535)]
    for number in (0, 9, 255, 256, 32767, 32768, 65535):
        yield f"number-{number}", f"-b {number}", DESK, number, sent(DESK, map(record, ends))


def night(dice):
    """Menus among tables, with noise, in pieces; and nothing at all."""
    records = [*night_list(dice, 9), *some_list(dice, 30), *night_list(dice, 9)]
    many = b"".join(aired(dice, records * 20))
    rough = b"".join(roughened(dice, aired(dice, records * 2)))
    assert len(many) > 2 * PIECE
    for name, data in (("many", many), ("rough", rough), ("rest", many + b"\x15" * 41), ("piece", many[:PIECE]), ("none", b""), ("part", b"\x15" * 41)):
        for number in (0, 4, 29):
            yield f"{name}-{number}", f"-b {number}", DESK, number, data


def first():
    """Of doubled numbers the first that is accepted; what isn't is passed over."""
    one, two = (record(linked(4, 4 * (word == b"two"), header=word, type_=2)) for word in (b"one", b"two"))
    other = record(linked(4, header=b"other"), DESK.application + 1)
    lost = with_bytes(one, (HEAD + 20, LOST))
    for name, records in (("first", [one, two]), ("second", [two, one]), ("other", [other, two, one]), ("damaged", [lost, two, one]),
                          ("parity", [with_bytes(one, (len(one) - 1, one[-1] ^ 1)), two]), ("sum", [with_bytes(one, (HEAD, 0x15), (HEAD + 1, 0x15)), two])):
        yield name, "-b 4", DESK, 4, sent(DESK, records)


def deep(dice):
    """A row of menus that goes one level past the last, one that goes round, one whose links lead nowhere, and some at random, to each number of levels."""
    row = sent(DESK, [record(linked(n, n + 1)) for n in range(LEVELS + 1)])
    ring = sent(DESK, [record(linked(1, 2)), record(linked(2, 1))])
    nowhere = sent(DESK, [record(linked(0, 1, 9)), record(linked(1, 9, 0))])
    some = sent(DESK, some_list(dice, 12))
    every = range(1, LEVELS + 1)
    for name, number, data, asked in (("deep", 0, row, every), ("ring", 1, ring, (1, 7)), ("nowhere", 0, nowhere, (1, 2, 3)), ("some", 0, some, every)):
        yield name, f"-b {number}", DESK, number, data
        for levels in asked:
            yield f"{name}-{levels}", f"-l {levels} -b {number}", DESK, number, data, levels
    for name, words, levels in (("zero", "-l 08", 8), ("zeros", "-l 0000000000000000000000003", 3), ("twice", "-l 8 -l 2", 2),
                                ("among", "-l 1 -m 1 -l 005 -p df -a 1", 5)):
        yield f"deep-{name}", words, DESK, 0, row, levels


def missing(dice):
    """The asked number didn't come: none did, some, exactly as many as are named, and more; sent again and again, in no order of theirs."""
    numbers = [(1 + 40503 * n) % 65536 for n in range(300)]
    assert 0 not in numbers and len(set(numbers)) == 300 and numbers[:20] != sorted(numbers[:20])
    for count in (0, 1, 2, 3, 19, 20, 21, 300):
        records = [record(linked(number, 0)) for number in numbers[:count]]
        yield f"note-{count}", "", DESK, 0, sent(DESK, records + records[::-1] + records)
    five, seven = record(linked(5, 7)), record(linked(7, 5))
    lost, other = with_bytes(five, (HEAD + 20, LOST)), record(linked(5), DESK.application + 1)
    for name, words, number, records in (
            ("later", "", 0, [lost, other, seven, five]), ("refused", "-b 5", 5, [lost, other, lost]), ("one", "-b 5 -l 1", 5, [lost, other, seven]),
            ("zeros", "-b 00009", 9, [five, seven, five]), ("last", "-b 65535", 65535, [record(linked(65534)), record(linked(0))]),
            ("tables", "", 0, night_list(dice, 9)), ("came", "-b 7", 7, [five, seven])):
        yield f"note-{name}", words, DESK, number, sent(DESK, records), *([1] if "-l" in words else [])


def full():
    """As many records as are kept, to the byte; one byte more; and what comes after one that doesn't fit, which would."""
    longest = [record(worded(2047)._replace(block_no=n)) for n in range(STORE // 2051)]
    rest = STORE - sum(map(len, longest))

    def last(length, number):
        """A record of so many bytes."""
        made = EMPTY._replace(block_no=number, events=[Event(0, TO_MENU, [], plain(b"w" * 255))] * 4)
        made = made._replace(header=plain(b"w" * (length - HEAD - menu.block_size(made))))
        assert len(record(made)) == length
        return record(made)

    small = [record(linked(number)) for number in range(1000, 1003)]
    for name, records, number in (("exact", [last(rest, 999)], 999), ("over", [last(rest + 1, 999)], 999), ("after", [last(rest + 1, 999), *small], 1000),
                                  ("again", [last(rest + 1, 999), *small, *longest[:2], *small, last(rest + 1, 999)], 0), ("next", [last(rest, 999), *small], 1001),
                                  ("missing", [last(rest + 1, 999), *small], 5000)):
        yield f"full-{name}", f"-b {number}", DESK, number, guide.cut(DESK, 0, 20, b"".join(longest + records))


def spread(number, links, type_, text):
    """A menu with these links and so many characters, in its header and its events."""
    words = [b"x" * min(250, max(0, text - 250 * at)) for at in range(1 + len(links))]
    return EMPTY._replace(block_no=number, header=plain(words[0]), events=[Event(to, type_, [], plain(word)) for to, word in zip(links, words[1:])])


def long():
    """A listing of exactly as many bytes as are printed, and one with a byte more; the same to four levels, behind which each link that leads
    nowhere takes a byte more; and menus that link to themselves, most of them far longer than any disk."""
    def tree(type_, below, text):
        """Three levels below menu 0, of 3, 45 and 675 menus; so many characters in each of the last and in menu 0; the last ones' links have this type."""
        menus = spread(0, [1] * 3, TO_MENU, text), linked(1, *[2] * 15), linked(2, *[3] * 15), spread(3, [9] * 15, type_, below)
        return [record(made) for made in menus]

    def length(type_, below, text):
        return len(menu.list_levels(DESK.application, 0, 4, b"".join(tree(type_, below, text)), 2 * TEXT))

    for name, type_ in (("long", 2), ("edge", TO_MENU)):
        below = (TEXT - length(type_, 0, 0)) // 675
        text = TEXT - length(type_, below, 0)
        assert length(type_, below, text) == TEXT
        for more, words, levels in ((0, "", 8), (0, "-l 4", 4), (1, "", 8), (1, "-l 5", 5), (1, "-l 4", 4), (1, "-l 3", 3)):
            yield name + "-over" * more + words.replace(" ", ""), words, DESK, 0, sent(DESK, tree(type_, below, text + more)), levels
    for links in (3, 4, 5, 7, 9, 15):
        yield f"itself-{links}", "-b 7", DESK, 7, sent(DESK, [record(linked(7, *[7] * links))])


def back():
    """Eight themes, each with programmes and a link back to menu 0."""
    themes = [b"Films and series", b"Sports", b"News", b"Children", b"Music", b"Nature", b"Quizzes", b"Late at night"]
    first = EMPTY._replace(header=plain(b"TV Guide"), events=[Event(n, TO_MENU, [], plain(theme)) for n, theme in enumerate(themes, 1)])
    shows = [Event(300 + n, 2, [], plain(b"%d:00 Programme %d" % (12 + n, n))) for n in range(7)]
    others = [EMPTY._replace(block_no=n, header=plain(theme), events=shows + [Event(0, TO_MENU, [], plain(b"Back"))]) for n, theme in enumerate(themes, 1)]
    data = sent(DESK, map(record, [first, *others]))
    assert b"-l 7 fits" in menu.menus(data)[1]
    for words, number, levels in (("", 0, 8), ("-l 8", 0, 8), ("-l 7", 0, 7), ("-b 3", 3, 8), ("-b 3 -l 6", 3, 6)):
        yield f"back{words.replace(' ', '')}", words, DESK, number, data, levels


def crowd():
    """As many of the smallest menus as are kept beside four, through which a listing of almost all that is printed finds some of them thousands of times:
    the last that came, and the first of those whose numbers have one low byte."""
    def small(number, *links):
        return record(EMPTY._replace(block_no=number, events=[Event(to, TO_MENU, [], plain(b"")) for to in links]))

    def ways(*ends):
        return small(65532, *ends), small(65533, *[65532] * 15), small(65534, *[65533] * 15), small(65535, *[65534] * 5, *[65533] * 9)

    count = (STORE - sum(map(len, ways(*[0] * 15)))) // len(small(0))
    numbers = [256 * (at % 256) + at // 256 for at in range(count)]
    records = [*map(small, numbers), *ways(*numbers[-8:], *numbers[:7 * 256:256])]
    data = guide.cut(DESK, 0, 20, b"".join(records))
    assert count > 20_000 and 0.99 * TEXT < len(menu.told_of(kept(data, DESK), 65535)[0]) <= TEXT
    yield "crowd", "-b 65535", DESK, 65535, data


def bent():
    """As many menus of fifteen links as are kept, each to the fifteen behind it, the last to the first: from four levels on too long, and to eight some 90 GB."""
    count = STORE // len(record(spread(0, [0] * 15, TO_MENU, 0)))
    menus = [record(spread(n, [(n + 1 + at) % count for at in range(15)], TO_MENU, 0)) for n in range(count)]
    data = guide.cut(DESK, 0, 20, b"".join(menus))
    for words, levels in (("", 8), ("-l 4", 4), ("-l 2", 2)):
        yield f"bent{words.replace(' ', '')}", words, DESK, 0, data, levels


def two(dice):
    """With -s: the sample in many words; of each number the first menu that came whole, in whichever stream; noise; links from one stream to the other."""
    sample = both_streams()[0]
    for name, number, words in (
            ("sample", 0, "1,2"), ("sample-about", 0, "2,1"), ("sample-last", 0, "9 2 1,2"), ("sample-zeros", 0, "01,0000000000000000000002"), ("sample-5", 5, "1,2"),
            ("sample-one", 0, "1,2 1"), ("sample-other", 5, "2,1 2"), ("sample-other-0", 0, "2"), ("sample-alone", 0, "1,9"), ("sample-alone-other", 0, "9,2"),
            ("sample-neither", 0, "9,4"), ("sample-missing", 7, "1,2")):
        yield said(name, number, words, sample)
    one, other = (record(linked(4, header=word)) for word in (b"one", b"other"))
    lost = with_bytes(one, (HEAD + 20, LOST))
    long = record(worded(300, 1)._replace(block_no=4))

    def by_turns(*lists):
        """Pages of one packet, a stream's and the other's in turn, from the first on."""
        pages = [pages_of(TWO.of(whose), 3, 1, records) for whose, records in enumerate(lists)]
        return b"".join(packet for at in range(max(map(len, pages))) for own in pages for page in own[at:at + 1] for packet in page)

    for name, data in (("first", by_turns([one], [other])), ("second", by_turns([lost], [other])), ("long", by_turns([long], [other])), ("long-other", by_turns([one], [long])),
                       ("damaged", by_turns([lost, lost, one], [other])), ("last", by_turns([lost], [lost, other]))):
        for words in ("1,2", "2,1"):
            yield said(f"{name}-{words[0]}", 4, words, data)
    row = [record(linked(n, n + 1, n + 2)) for n in range(LEVELS + 1)]
    yield said("deep", 0, "1,2", by_turns(row[::2], row[1::2]))
    yield said("deep-4", 3, "2,1", by_turns(row[::2], row[1::2]), 4)
    lists = [[*night_list(dice, 3), *(r for r in some_list(dice, 40) if dice.chance(2)), *night_list(dice, 3)] * 3 for _ in both.BOTH]
    clean = aired_both(dice, lists)
    for number in (0, 7, 39):
        yield said(f"night-{number}", number, "1,2", b"".join(clean))
        yield said(f"rough-{number}", number, "2,1", b"".join(roughened(dice, clean)))
    yield said("many", 0, "1,2", b"".join(aired_both(dice, [one * 5 for one in lists])) + b"\x15" * 41)
    # one store for both: what comes in the second has no place left
    longest = [record(worded(2047)._replace(block_no=n)) for n in range(STORE // 2051 + 2)]
    turns = by_turns(longest[::2], longest[1::2])
    for number in (0, 1, STORE // 2051 - 1, STORE // 2051):
        yield said(f"full-{number}", number, "1,2", turns)


def said(name, number, words, data, *levels):
    """A case of `two`, by the words behind each -s."""
    options = [f"-s {word}" for word in words.split()] + [f"-b {number}"] * (number > 0) + [f"-l {level}" for level in levels]
    return f"two-{name}", " ".join(options), streams.heeding(DESK, *words.split()), number, data, *levels


def halves_of_two():
    """A menu of each stream, cut where both run, such that a reader that went on would hand out both."""
    first, second = (pages_of(TWO.of(whose), 9, 2, [record(worded(300 + whose, 1)._replace(block_no=whose))]) for whose in both.BOTH)
    pages = [packet for turn in zip(first, second) for page in turn for packet in page]
    data, at = b"".join(pages), 7 * PACKET
    parts = data[:at], data[at:]
    assert set(menu.kept(data, TWO)) == {0, 1} and all(not menu.kept(part, TWO) for part in parts)
    return parts


def halves():
    """A menu in two parts, such that a reader that went on would hand it out: cut within a page, between pages, within a packet, and so early that it
    needs nothing but the bytes of a part of a packet to be kept."""
    long = record(worded(300, 1))
    for name, rows, at in (("page", 20, 4 * PACKET), ("pages", 2, 6 * PACKET), ("packet", 20, 4 * PACKET + 17), ("bytes", 20, 17)):
        data = guide.cut(DESK, 0, rows, long)
        parts = data[:at], data[at:]
        assert menu.menus(data)[0].startswith(b"level=1\nmenu=0\n") and all(menu.menus(part)[0] == b"missing=0\n" for part in parts)
        yield name, parts


def main(folder):
    dice = Dice(12)
    for name, words, setting, number, data, *levels in (
            *elsewhere(dice), *night(dice), *first(), *deep(dice), *missing(dice), *full(), *long(), *back(), *crowd(), *bent(), *two(Dice(28)),
            *((f"whole-{name}", "", DESK, 0, b"".join(parts)) for name, parts in halves())):
        write(folder / name, words, data, setting, number, *levels)
    (folder / "halves").mkdir()
    for name, parts in halves():
        for at, part in enumerate(parts, 1):
            write(folder / "halves" / f"{name}-{at}", "", part, DESK, 0)
    (folder / "halves-of-two").mkdir()
    for at, part in enumerate(halves_of_two(), 1):
        write(folder / "halves-of-two" / f"{at}", "-s 1,2", part, TWO, 0)
    write(folder / "halves-of-two" / "whole", "-s 1,2", b"".join(halves_of_two()), TWO, 1)


def write(path, words, data, setting, *asked):
    """A capture, its words, and what the model has for them."""
    def put(suffix, content):
        path.with_name(path.name + suffix).write_bytes(content)

    came = kept(data, setting)
    text, said = menu.told_of(came, *asked)
    put(".t42", data), put(".words", "".join(word + "\n" for word in words.split()).encode()), put(".txt", text), put(".err", said)
    text, said = menu.told_of(came, *asked, name=f"{path}.t42".encode())
    put(".named.txt", text), put(".named.err", said)
    fits = re.search(rb"; -l ([1-8]) fits\n$", said)
    if fits:
        put(".fits.txt", menu.told_of(came, asked[0], int(fits[1]))[0])


main(pathlib.Path(sys.argv[1]))
