"""Program unpes: PES packets, one after the other, to 42-byte packets."""

from . import Refused, pes

UNREADABLE = b"\x16" * 42  # one for each loss, so that a reader drops what it holds (SCOPE 6.12)


def length_at(data, at):
    """As long as its own length field says, where a packet begins; 0 where none does."""
    if data[at:at + 4] != pes.FRONT or len(data) - at < 6:
        return 0
    length = 6 + int.from_bytes(data[at + 4:at + 6], "big")
    return length if length in pes.LENGTHS else 0


def next_start(data, at):
    """The next place where a packet begins; the end where none does."""
    return next((place for place in range(at, len(data)) if length_at(data, place)), len(data))


def run(*captures):
    """Standard output for files one after the other, and the last line on standard error."""
    out, read, numbers, left = b"", 0, [], 0
    for count, data in enumerate(captures):
        if count:
            out += UNREADABLE               # a block may not go on in another file
        at = 0
        while at < len(data):
            length = length_at(data, at)
            if not length:                  # start code, stream id or length is none
                out += UNREADABLE
                start = next_start(data, at)
                left, at = left + start - at, start
                continue
            if len(data) - at < length:     # cut short
                out += UNREADABLE
                left += len(data) - at
                break
            try:
                records = pes.read(data[at:at + length])
                out += b"".join(records[i + 2:i + 44] for i in range(0, len(records), 44))
                read += 1
            except Refused as refused:
                out += UNREADABLE
                numbers.append(refused.no)
            at += length
    which = ",".join(str(no) for no in sorted(set(numbers)))
    return out, f"read={read} refused={len(numbers)} numbers={which} left={left}\n"
