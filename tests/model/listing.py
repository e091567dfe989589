"""The desk's list (SCOPE 13)."""

from . import Refused, need
from .guide import PACKET, Setting
from .streams import blocks
from .table import LI, TI, WORDS, read_block, table_of

DESK = Setting(magazine=1, page=0xDF, stream=1, application=1)
NAMES = {LI: "LI", TI: "TI"}


def language(word):
    """Three letters a to z as such, anything else as six hex digits (SCOPE 13.4)."""
    letters = word.to_bytes(3, "big")
    if all(0x61 <= letter <= 0x7A for letter in letters):
        return letters.decode("ascii")
    return f"{word:06x}"


def lines(table, mended, joined):
    yield f"kind={NAMES[table.kind]}"
    yield f"block={table.block_no}"
    yield f"network={table.network}"
    yield f"mended={mended}"
    if joined == 1:
        yield "joined=1"
    yield from table_lines(table)


def table_lines(table):
    """The lines from `descriptor=` on."""
    for id, words in table.descriptors:
        yield f"descriptor={id}"
        for at in range(0, len(words), WORDS[table.kind]):
            yield f"language={language(words[at])}"
            if table.kind == TI:        # pages in TI only
                yield f"page={words[at + 1]:06x}"


def list_table(form, mended=0, joined=0, room=2 ** 32):
    """The lines of one table form, its count of mended bytes and its record's second byte; 22, 13 and 15 as in writing."""
    text = "".join(line + "\n" for line in lines(table_of(form), mended, joined)).encode()
    need(len(text) <= room, 1)
    return text


def title(stream, setting):
    """Of two streams a table begins with its own; of one nothing is said."""
    return f"stream={stream}\n".encode() if len(setting.streams()) == 2 else b""


def desk(data, setting=DESK):
    """All that the desk prints for a file, of one stream or of two."""
    out, accepted, refused = b"", 0, 0
    for stream, record in blocks(setting, data):
        try:
            out += title(stream, setting) + list_table(*read_block(setting.application, record))
            accepted += 1
        except Refused:
            refused += 1
    # the last line: SCOPE 13.5
    return out + f"blocks={accepted} refused={refused} short={len(data) % PACKET}\n".encode()
