"""What changed between two day sheets: the print, and what a print makes of the first sheet's tables. Stamps aren't compared, and numbers of mended bytes neither."""

import re

from . import Refused, need
from .listing import NAMES
from .sheet import OLD, Entry, key, lines_of, read, rewrite, text_of
from .table import LI, TI, Table


def place(table):
    """Where a table stands in the order of keys."""
    return key(Entry(0, table))


def lines(table):
    """The lines from `descriptor=` on."""
    return lines_of(Entry(0, table))


def heading(word, table):
    """`gone=`, `new=` or `changed=` with kind, network and block."""
    return f"{word}={NAMES[table.kind]},{table.network},{table.block_no}\n".encode()


# --- the print ------------------------------------------------------------------

def told(old, new):
    """What is printed of one key, of whose tables one may be missing: under a new one its lines, under a changed one the old and then the new."""
    if old == new:
        return b""
    if new is None:
        return heading("gone", old)
    if old is None:
        return heading("new", new) + lines(new)
    return heading("changed", new) + lines(old) + lines(new)


def printed(first, second):
    """Of two lists of tables, in the order of the keys of both."""
    old, new = ({place(table): table for table in tables} for tables in (first, second))
    return b"".join(told(old.get(at), new.get(at)) for at in sorted({*old, *new}))


# --- the call -------------------------------------------------------------------

def tables_of(form, data):
    """A sheet's tables, where `rewrite` takes the sheet: 21 (its length), 20, 21 (over 64 entries)."""
    return [entry.table for entry in read(form, rewrite(form, data))]


def at_fault(form, first, second):
    """The number of the first sheet at fault, 1 or 2; 0 where none is. A refusal with 1 names none."""
    for number, data in enumerate((first, second), 1):
        try:
            tables_of(form, data)
        except Refused:
            return number
    return 0


def compare(form, first, second, room=65536):
    """The first sheet is judged whole, then the second, then the room."""
    old = tables_of(form, first)
    new = tables_of(form, second)
    text = printed(old, new)
    need(len(text) <= room, 1)
    return text


# --- applying -------------------------------------------------------------------

def table_under(head, text):
    """The table of a heading, read from the lines up to the next heading or the end, which are those of either form; and the text behind them."""
    under = re.match(rb"(?:(?!gone=|new=|changed=)[^\n]*\n)*", text).group()
    entry, = read(OLD, text_of(OLD, Entry(0, head._replace(descriptors=[])))[:-1] + under + b"\n")
    return entry.table, text[len(under):]


def new_in(text):
    """The `new=` line at the front: a table without descriptors, and the text behind the line. Nothing where there is none."""
    line = re.match(rb"new=(LI|TI),(\d+),(\d+)\n", text)
    if not line:
        return None, text
    kind, network, block = line.groups()
    return Table({b"LI": LI, b"TI": TI}[kind], 0, int(block), int(network), []), text[line.end():]


def applied(text, tables):
    """The tables that a print makes of the first sheet's, from these and the text alone. Of a text that isn't a print for them it may give anything."""
    left, made = list(tables), []
    while True:
        head, behind = new_in(text)
        if head and (not left or place(head) < place(left[0])):
            table, text = table_under(head, behind)
            made.append(table)
            continue
        if not left:
            return made
        table = left.pop(0)
        gone, changed = heading("gone", table), heading("changed", table) + lines(table)
        if text.startswith(gone):
            text = text[len(gone):]
        elif text.startswith(changed):
            table, text = table_under(table, text[len(changed):])
            made.append(table)
        else:
            made.append(table)
