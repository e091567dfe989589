"""Subtitles for digital sets: a TI table as the teletext descriptor of EN 300 468, and back (EN 300 707, clauses 11.3.2 and 11.5.2)."""

from typing import NamedTuple

from . import need
from .table import TI, Bits, table_of

TAG = 0x56                          # of a teletext_descriptor
SUBTITLES = 0x02                    # the type of a subtitle page; a TI table can't tell one for the hard of hearing (05) from it
FRONT = 2                           # bytes: the tag, and how many follow
ENTRY = 5                           # bytes: language, type and magazine, page
MOST = 51                           # entries, since the length has one byte

# page_reference, the lowest bit first: 11.3.2 has the widths, packet X/27 of EN 300 706 the places.
PAGE_REFERENCE = (("units", 4), ("tens", 4), ("S1", 4), ("S2", 3), ("M0", 1), ("S3", 4), ("S4", 2), ("M1", 1), ("M2", 1))


class Subtitle(NamedTuple):
    language: bytes
    magazine: int                   # its three bits: 0 stands for 8
    page: int                       # tens high


def reference(word):
    """The parts of a page field."""
    return Bits([word >> 4 * i & 15 for i in range(6)]).fields(PAGE_REFERENCE)


def subtitle(language, word):
    """A subtitle of a table: its magazine is the one that the page field says, whatever the guide's own is."""
    at = reference(word)
    return Subtitle(language.to_bytes(3, "big"), at["M0"] + 2 * at["M1"] + 4 * at["M2"], 16 * at["tens"] + at["units"])


def subtitles(table):
    """Those of all descriptors, one after the other."""
    return [subtitle(language, word) for _, words in table.descriptors for language, word in zip(words[::2], words[1::2])]


def entry(one, type_=SUBTITLES):
    return one.language + bytes([8 * type_ + one.magazine, one.page])


def descriptor(entries):
    body = b"".join(entries)
    return bytes([TAG, len(body)]) + body


def write_descriptor(form, room=65536):
    """The descriptor of a table form: 22, 13 (under six bytes), 15 (no TI table, measured or not), 13, 15, then 26 and 1."""
    found = subtitles(table_of(form, [TI]))
    need(len(found) <= MOST, 26)
    made = descriptor(map(entry, found))
    need(len(made) <= room, 1)
    return made


def read_descriptor(lent, room=65536):
    """How many subtitles there are and how many entries of other types, then each subtitle: language, magazine, page."""
    need(len(lent) >= FRONT, 27)
    tag, length = lent[:FRONT]
    need(tag == TAG and length % ENTRY == 0 and length == len(lent) - FRONT, 27)
    entries = [lent[at:at + ENTRY] for at in range(FRONT, len(lent), ENTRY)]
    found = [Subtitle(one[:3], one[3] % 8, one[4]) for one in entries if one[3] // 8 == SUBTITLES]
    out = bytes([len(found), len(entries) - len(found)]) + b"".join(one.language + bytes(one[1:]) for one in found)
    need(len(out) <= room, 1)
    return out
