"""PES packets and their units (SCOPE 6; EN 300 472, clauses 4.2 to 4.4)."""

from . import need
from .octet import turned

FRONT = b"\x00\x00\x01\xbd"       # start code prefix, stream_id private stream 1
HEADER = 45                       # its length, always (SCOPE 6.1)
TEXT, STUFFING = (0x02, 0x03), 0xFF
TEXT_LENGTH = 0x2C
UNIT = 2 + TEXT_LENGTH            # with id and length (SCOPE 6.4)
RECORD = 44                       # id, line byte, 42 bytes turned (SCOPE 6.9)
FRAMING = 0xE4                    # 27 turned
MOST = 356                        # the greatest N
LENGTHS = range(184, MOST * 184 + 1, 184)   # how long a packet may be


def line_taken(line):
    """By the line offset, the five lowest bits (SCOPE 6.5)."""
    return line % 32 == 0 or 0x07 <= line % 32 <= 0x16


def identifier_taken(data_identifier):
    """EBU data."""
    return 0x10 <= data_identifier <= 0x1F


def unit_at(pes, at):
    """One unit: its record, or nothing for stuffing, and the next unit's place."""
    need(len(pes) - at > 1, 6, at)                         # in the order of SCOPE 3.4
    id, length = pes[at], pes[at + 1]
    need(id in TEXT or id == STUFFING, 7, at)
    end = at + 2 + length
    need(end <= len(pes), 6, at)                           # over the end
    if id == STUFFING:
        return b"", end
    need(length == TEXT_LENGTH, 8, at)
    line, framing = pes[at + 2], pes[at + 3]
    need(line_taken(line), 9, at + 2)
    need(framing == FRAMING, 9, at + 3)
    return bytes([id, line]) + turned(pes[at + 4:end]), end


def read(pes, room=65536):
    """The records of a PES packet, 44 bytes each."""
    need(len(pes) >= HEADER and pes[:4] == FRONT, 2)
    length = int.from_bytes(pes[4:6], "big")
    need(length + 6 in LENGTHS and length + 6 == len(pes), 3, 4)
    need(pes[6] >> 6 == 0b10 and pes[6] & 0x04, 4, 6)      # '10', data_alignment_indicator
    need(pes[8] == 0x24, 4, 8)                             # PES_header_data_length
    need(identifier_taken(pes[HEADER]), 5, HEADER)
    records, at = b"", HEADER + 1
    while at < len(pes):
        record, at = unit_at(pes, at)
        records += record
    need(len(records) <= room, 1)
    return records


def write(data_identifier, records, room=65536):
    """One packet, of the smallest N with room for the records (SCOPE 6.10)."""
    need(identifier_taken(data_identifier), 16)
    need(len(records) % RECORD == 0, 13)
    units = [records[i:i + RECORD] for i in range(0, len(records), RECORD)]
    need(all(u[0] in TEXT and line_taken(u[1]) for u in units), 15)
    need(len(units) <= 4 * MOST - 1, 15)
    n = next(n for n in range(1, MOST + 1) if len(units) <= 4 * n - 1)
    need(n * 184 <= room, 1)
    header = FRONT + (n * 184 - 6).to_bytes(2, "big") + b"\x84\x00\x24" + b"\xff" * 36
    text = b"".join(text_unit(u) for u in units)
    stuffing = bytes([STUFFING, TEXT_LENGTH]) + b"\xff" * TEXT_LENGTH
    return header + bytes([data_identifier]) + text + stuffing * (4 * n - 1 - len(units))


def text_unit(record):
    """Turned are the framing byte and those behind it, not the line byte (SCOPE 6.6)."""
    return bytes([record[0], TEXT_LENGTH, record[1], FRAMING]) + turned(record[2:])
