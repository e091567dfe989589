"""Subtitle (TI) and Language (LI) blocks (SCOPE 12; EN 300 707, tables 15 and 17)."""

from typing import NamedTuple

from . import need
from .guide import HEAD, MOST_PART, head_in, head_of, nibbles_of, record_of, size_of
from .octet import UNDECODABLE, decode, images, mended

LI, TI = 7, 8                       # datatype_id, clause 11.12.3
WORDS = {LI: 1, TI: 2}              # an entry: language; language and page
MOST_BITS = 8184                    # control_block_size has ten bits
NUMBERS = (0x0000, 0x8000)          # of this edition (clauses 11.4.2 and 11.5.2, the notes)


class Table(NamedTuple):
    kind: int
    copyright: int
    block_no: int
    network: int
    descriptors: list               # (id, words of 24 bits)


# The fields before the loop and their widths, in the standard's order.
FRONT = (("checksum", 8), ("control_block_size", 10), ("datatype_id", 6), ("CA_mode", 2),
         ("copyright", 1), ("reserved", 1), ("block_no", 16), ("netwop_no", 8), ("descr_no", 6))
COMMON = FRONT[:7]                  # every kind of block has these (table 7), and a number
LOOP = (("descriptor_id", 6), ("entry_no", 4))
WORD = 24
FIRST = 8                           # the bytes that say datatype and access
NUMBERED = 12                       # .. and, as sizes are even, the number too


def width(table):
    """The number of control bits, without fill."""
    loops = sum(sum(w for _, w in LOOP) + WORD * len(words) for _, words in table.descriptors)
    return sum(w for _, w in FRONT) + loops


def whole_bytes(bits):
    """In bytes of control bits, fill included (SCOPE 12.6)."""
    return (bits + 7) // 8


def control_size(table):
    return whole_bytes(width(table))


def checksum(head, nibbles):
    """Clause 11.1.2: over header and control data, except itself (the first two)."""
    return -(sum(nibbles_of(head)) + sum(nibbles[2:])) % 256


# --- the table form: a table in lent bytes ------------------------------------------

def form_of(table):
    form = bytes([table.kind, table.copyright]) + table.block_no.to_bytes(2, "little")
    form += bytes([table.network, len(table.descriptors)])
    for id, words in table.descriptors:
        form += bytes([id, len(words) // WORDS[table.kind]])
        form += b"".join(word.to_bytes(3, "big") for word in words)
    return form


def table_of(form, kinds=WORDS):
    """A table form's table, of one of these kinds: 22 (its number, where it has one), 13 (its length isn't that of its counts), then 15."""
    need(len(form) < 4 or int.from_bytes(form[2:4], "little") in NUMBERS, 22)
    need(len(form) >= 6, 13)
    kind, copyright, low, high, network, count = form[:6]
    need(kind in kinds, 15)         # its entries can't be measured, or needn't be
    descriptors, at = [], 6
    for _ in range(count):
        need(at + 2 <= len(form), 13)
        id, end = form[at], at + 2 + 3 * WORDS[kind] * form[at + 1]
        need(end <= len(form), 13)
        words = [int.from_bytes(form[i:i + 3], "big") for i in range(at + 2, end, 3)]
        descriptors.append((id, words))
        at = end
    need(at == len(form), 13)
    table = Table(kind, copyright, low + 256 * high, network, descriptors)
    need(writable(table), 15)
    return table


def writable(table):
    """Its number is one of this edition, every value fits its field, and the table its control size."""
    loops = all(id <= 63 and len(words) <= 15 * WORDS[table.kind] for id, words in table.descriptors)
    return table.block_no in NUMBERS and table.copyright <= 1 and len(table.descriptors) <= 63 and loops and width(table) <= MOST_BITS


# --- reading ------------------------------------------------------------------------

class Bits:
    """Fields from the lowest bit up (SCOPE 12.1); past the end a number reads as zeros."""

    def __init__(self, nibbles):
        self.number = sum(n << 4 * i for i, n in enumerate(nibbles))

    def take(self, width):
        value = self.number & (1 << width) - 1
        self.number >>= width
        return value

    def fields(self, fields):
        return {name: self.take(width) for name, width in fields}


def decoded(record, places):
    """The nibbles at these places; 10 at the first that can't be decoded."""
    nibbles = []
    for at in places:
        need(decode(record[at]) != UNDECODABLE, 10, at)
        nibbles.append(decode(record[at]))
    return nibbles


class Read(NamedTuple):
    form: bytes
    mended: int                     # the block's protected bytes that aren't images
    joined: int                     # the record's second byte, as it was given


def opened(application, record, kinds):
    """What is judged first of a block of any kind, up to kind and access: head, size, part and second byte, first nibbles and their fields."""
    need(application <= 31, 16)
    head = head_in(record)
    size = size_of(head)
    need(len(record) >= HEAD and len(record) == HEAD + size, 13)
    part, joined = record[2:HEAD]
    need(part <= MOST_PART and joined <= 1, 16)
    need(head == head_of(application, size), 12)
    need(size >= FIRST, 13)
    nibbles = decoded(record, range(HEAD, HEAD + FIRST))
    front = Bits(nibbles).fields(COMMON)
    need(front["datatype_id"] in kinds and front["CA_mode"] == 0, 12)
    return head, size, part, joined, nibbles, front


def read_block(application, record, room=65536):
    """A record's table form, how many bytes of its block were mended, start and header included, and whether it is joined."""
    head, size, part, joined, nibbles, _ = opened(application, record, WORDS)
    need(size % 2 == 0, 13)
    nibbles += decoded(record, range(HEAD + FIRST, HEAD + size))
    table, front = table_in(nibbles)
    need(front["checksum"] == checksum(head, nibbles), 11)
    need(size < NUMBERED or table.block_no in NUMBERS, 22)
    need(front["control_block_size"] * 2 == size, 14)
    need(0 <= 4 * size - width(table) <= 7, 14)        # loops, then fill 0..7
    form = form_of(table)
    need(len(form) <= room, 1)
    return Read(form, part + sum(mended(byte) for byte in record[HEAD:]), joined)


def table_in(nibbles):
    """The table that control data says, and the fields before its loop."""
    bits = Bits(nibbles)
    front = bits.fields(FRONT)
    kind, descriptors = front["datatype_id"], []
    for _ in range(front["descr_no"]):
        loop = bits.fields(LOOP)
        words = [bits.take(WORD) for _ in range(WORDS[kind] * loop["entry_no"])]
        descriptors.append((loop["descriptor_id"], words))
    return Table(kind, front["copyright"], front["block_no"], front["netwop_no"], descriptors), front


# --- writing ------------------------------------------------------------------------

def laid(fields):
    """The number whose lowest bits are the first field, then the next."""
    number, at = 0, 0
    for width, value in fields:
        number |= value << at
        at += width
    return number


def nibbles_laid(fields):
    """Fields as control data, 0 as fill up to a whole byte."""
    number = laid(fields)
    return [number >> 4 * i & 15 for i in range(2 * whole_bytes(sum(width for width, _ in fields)))]


def control_fields(table):
    """Tables 15 and 17 as (width, value); the checksum comes last, reserved is 0."""
    values = (0, control_size(table), table.kind, 0, table.copyright, 0,
              table.block_no, table.network, len(table.descriptors))
    fields = [(width, value) for (_, width), value in zip(FRONT, values)]
    for id, words in table.descriptors:
        counts = (id, len(words) // WORDS[table.kind])
        fields += [(width, value) for (_, width), value in zip(LOOP, counts)]
        fields += [(WORD, word) for word in words]
    return fields


def summed(application, nibbles):
    """The record of control data whose first two nibbles become its checksum."""
    head = head_of(application, len(nibbles))
    sum_ = checksum(head, nibbles)
    return record_of(head, images([sum_ % 16, sum_ // 16] + nibbles[2:]))


def write_block(application, form, room=65536):
    """The record of a table form; fill is 0 (SCOPE 12.10)."""
    need(application <= 31, 16)
    record = summed(application, nibbles_laid(control_fields(table_of(form))))
    need(len(record) <= room, 1)
    return record
