"""The day sheet: entries of text, each a table with the second at which its capture began; in the new form also with how many of its block's bytes were mended."""

import re
from typing import NamedTuple

from . import Refused, need
from .listing import DESK, NAMES, table_lines
from .streams import blocks
from .table import LI, TI, Table, read_block, table_of, writable

MOST_ENTRIES = 64
MOST_STAMP = 2 ** 32 - 1


class Form(NamedTuple):
    """What the two forms of a sheet differ in; all else is said once for both."""
    numbered: bool              # whether an entry has a `mended=` line
    most_mended: int
    most_bytes: int


OLD = Form(False, 0, 16384)
NEW = Form(True, 2051, 17152)


class Entry(NamedTuple):
    stamp: int
    table: Table                # without copyright, which the lines don't say
    mended: int = 0             # in the old form, which has no line for it, always so


def key(entry):
    """Entries rise by network, then kind, LI first, then block."""
    return entry.table.network, (LI, TI).index(entry.table.kind), entry.table.block_no


def lines_of(entry):
    """The lines from `descriptor=` on."""
    return "".join(line + "\n" for line in table_lines(entry.table)).encode()


def text_of(form, entry):
    assert form.numbered or entry.mended == 0
    table, mended = entry.table, f"mended={entry.mended}\n" if form.numbered else ""
    head = f"stamp={entry.stamp}\n{mended}kind={NAMES[table.kind]}\nnetwork={table.network}\nblock={table.block_no}\n"
    return head.encode() + lines_of(entry) + b"\n"


def written(form, entries):
    return b"".join(text_of(form, entry) for entry in entries)


# --- reading --------------------------------------------------------------------

class Lines:
    """The lines of a sheet, one after the other; number 20 has the first byte of the line at fault."""

    def __init__(self, data):
        self.data, self.at, self.next = data, 0, 0

    def fault(self):
        raise Refused(20, self.at)

    def take(self):
        """The next line without its LF. A last line without one is at fault; so is the end, where a line is missing."""
        self.at = self.next
        end = self.data.find(b"\n", self.at)
        if end < 0:
            self.fault()
        self.next = end + 1
        return self.data[self.at:end]

    def value(self, line, name):
        """What stands behind `name=`."""
        if not line.startswith(name + b"="):
            self.fault()
        return line[len(name) + 1:]

    def number(self, line, name, most):
        digits = self.value(line, name)
        # compared by their count first, so a run of thousands is never a number
        if not re.fullmatch(rb"0|[1-9][0-9]*", digits) or len(digits) > len(str(most)) or int(digits) > most:
            self.fault()
        return int(digits)

    def word(self, line):
        """Six hex digits of 24 bits."""
        if not re.fullmatch(rb"[0-9a-f]{6}", line):
            self.fault()
        return int(line, 16)

    def language(self, line):
        """Three letters a to z; or six hex digits, where those aren't three letters."""
        value = self.value(line, b"language")
        if re.fullmatch(rb"[a-z]{3}", value):
            return int.from_bytes(value, "big")
        word = self.word(value)
        if all(0x61 <= byte <= 0x7A for byte in word.to_bytes(3, "big")):
            self.fault()
        return word


def entry_in(form, lines):
    """One entry, up to its empty line."""
    stamp = lines.number(lines.take(), b"stamp", MOST_STAMP)
    mended = lines.number(lines.take(), b"mended", form.most_mended) if form.numbered else 0
    kind = {b"LI": LI, b"TI": TI}.get(lines.value(lines.take(), b"kind")) or lines.fault()
    network = lines.number(lines.take(), b"network", 255)
    block = lines.number(lines.take(), b"block", 65535)
    descriptors = []
    while True:
        line = lines.take()
        if line == b"":
            return Entry(stamp, Table(kind, 0, block, network, descriptors), mended)
        if descriptors and line.startswith(b"language="):
            words = descriptors[-1][1]
            words.append(lines.language(line))
            if kind == TI:
                words.append(lines.word(lines.value(lines.take(), b"page")))
        else:
            descriptors.append((lines.number(line, b"descriptor", 63), []))


def read(form, data):
    """The entries that a sheet says. A key that doesn't rise, and a table that can't be written, are told at the entry's empty line."""
    lines, entries = Lines(data), []
    while lines.next < len(data):
        entry = entry_in(form, lines)
        if entries and key(entry) <= key(entries[-1]) or not writable(entry.table):
            lines.fault()
        entries.append(entry)
    return entries


# --- joining --------------------------------------------------------------------

def rank(entry):
    """Of two entries with one key the greater stays: by stamp, then by their lines, byte by byte, a prefix first; then the one with the
    smaller number, which never decides between old entries."""
    return entry.stamp, lines_of(entry), -entry.mended


def joined(*sheets):
    """For each key the greatest entry, in the order of keys."""
    stays = {}
    for entry in (entry for entries in sheets for entry in entries):
        k = key(entry)
        stays[k] = max(stays.get(k, entry), entry, key=rank)
    return [stays[k] for k in sorted(stays)]


# --- the calls ------------------------------------------------------------------

def entries_of(form, *lent):
    """The entries of each lent sheet: 21 for a length of any of them, then 20 of the first at fault."""
    need(all(len(data) <= form.most_bytes for data in lent), 21)
    return [read(form, data) for data in lent]


def settled(form, entries, room):
    """A result's bytes, where they are within the limits and the room."""
    text = written(form, entries)
    need(len(entries) <= MOST_ENTRIES and len(text) <= form.most_bytes, 21)
    need(len(text) <= room, 1)
    return text


def rewrite(form, data, room=65536):
    entries, = entries_of(form, data)
    return settled(form, entries, room)


def add(form, stamp, mended, data, table_form, room=65536):
    """The sheet joined with one entry; the table form's own refusals, 22, 13 and 15, as in writing, come first, then 15 for a number that the form can't have."""
    table = table_of(table_form)
    need(mended <= form.most_mended, 15)
    entries, = entries_of(form, data)
    return settled(form, joined(entries, [Entry(stamp, table._replace(copyright=0), mended)]), room)


def join(form, first, second, room=65536):
    return settled(form, joined(*entries_of(form, first, second)), room)


def drop(form, network, kind, block_no, data, room=65536):
    """The sheet without the entry of a key, or as it was where no entry has it. The entries that are left are judged, so one of 65 may go."""
    entries, = entries_of(form, data)
    return settled(form, [e for e in entries if (e.table.network, e.table.kind, e.table.block_no) != (network, kind, block_no)], room)


def up(data, room=65536):
    """An old sheet's entries in the new form, where each has the number 0 by reading."""
    entries, = entries_of(OLD, data)
    return settled(NEW, entries, room)


def down(data, room=65536):
    """A new sheet's entries in the old form: 25 where a number would be lost."""
    entries, = entries_of(NEW, data)
    need(all(entry.mended == 0 for entry in entries), 25)
    return settled(OLD, entries, room)


# --- the program ----------------------------------------------------------------

KEPT = NEW                      # the form of the files that it keeps


def fed(form, data, captures, setting=DESK):
    """What `sheet add` makes of a sheet and of captures, (stamp, bytes) each, and the line that it prints; of one stream or of two."""
    sheet, fates = rewrite(form, data), []
    for stamp, capture in captures:
        for _, record in blocks(setting, capture):
            try:
                came = read_block(setting.application, record)
            except Refused:
                continue
            entry = Entry(stamp, table_of(came.form)._replace(copyright=0), came.mended if form.numbered else 0)
            fates.append(fate(entry, {key(e): e for e in read(form, sheet)}.get(key(entry))))
            sheet = add(form, stamp, entry.mended, sheet, came.form)
    counts = " ".join(f"{name}={fates.count(name)}" for name in ("new", "replaced", "older", "same"))
    return sheet, f"captures={len(captures)} tables={len(fates)} {counts} entries={len(read(form, sheet))} bytes={len(sheet)}\n"


def fate(entry, stood):
    """What becomes of a table where an entry with its key stood, or none. One that says what stands there with a greater number is the same."""
    if stood is None:
        return "new"
    if rank(entry) > rank(stood):
        return "replaced"
    return "same" if rank(entry)[:2] == rank(stood)[:2] else "older"
