"""What firmware/example.c prints, by the model: firmware/example.txt. The example's PES packet stands in its source as bytes;
`python3 tests/firmware.py` prints them."""

from cases.form import LOST, with_bytes
from cases.table import CASE_G
from model import Refused, guide, octet, pes, table
from model.listing import DESK
from samples import packets_in


def packet():
    """Case G's two packets, one of magazine 8 with a flipped bit in each byte of its address, and one whose address can't be read."""
    zero, one = packets_in(guide.cut(DESK, 0, 1, table.write_block(DESK.application, table.form_of(CASE_G))))
    other = guide.address(8, 25) + bytes(range(40))
    flipped = with_bytes(other, (0, other[0] ^ 0x80), (1, other[1] ^ 0x01))
    lost = with_bytes(other, (1, LOST))
    lines = (0xE7, 0xE8, 0xC9, 0xF6)
    return pes.write(0x10, b"".join(bytes([0x02 + i % 2, line]) + p for i, (line, p) in enumerate(zip(lines, (zero, one, flipped, lost)))))


NAMES = {6: "over the end", 7: "unknown id", 8: "wrong length", 9: "wrong line or framing"}


def decoded(name, byte):
    nibble = octet.decode(byte)
    return f"{name}: decode {byte:02X} " + ("refused" if nibble == octet.UNDECODABLE else f"gives {nibble:X}")


def unit(name, data, at):
    """What begins at a place of a PES packet."""
    if at >= len(data):
        return f"{name}: end at {at}"
    try:
        record, end = pes.unit_at(data, at)
    except Refused as refused:
        return f"{name}: refused with {refused.no} ({NAMES[refused.no]}), offset {refused.at}"
    return f"{name}: {'text unit' if record else 'stuffing'} at {at}, the next at {end}"


def walk(name, data):
    """Each unit of a whole packet, and of a text unit its line byte, its address and its 42 bytes turned."""
    at = 46
    while at < len(data):
        yield unit(name, data, at)
        record, at = pes.unit_at(data, at)
        if record:
            yield f"  line {record[1]:02X}, {address(record[2:])}"
            yield "  " + " ".join(f"{byte:02X}" for byte in record[2:])
    yield unit(name, data, at)


def address(packet):
    one, two = octet.decode(packet[0]), octet.decode(packet[1])
    if octet.UNDECODABLE in (one, two):
        return "an address that can't be decoded"
    return f"magazine {one % 8 or 8}, packet {one // 8 + 2 * two}"


def lines():
    for name, byte in (("case A", 0x14), ("case B", 0x16), ("case C", 0x00), ("case D", 0xFF)):
        yield decoded(name, byte)
    for name, byte in (("case E", 0x15), ("framing", 0x27)):
        yield f"{name}: turn {byte:02X} gives {octet.turn(byte):02X}"
    for nibble in range(16):
        yield decoded("image", octet.image(nibble))
    refused = octet.DECODED.count(octet.UNDECODABLE)
    yield f"all bytes: {256 - refused} decode, {refused} do not"
    yield f"all bytes: {sum(octet.turn(octet.turn(b)) == b for b in range(256))} are themselves when turned twice"
    yield from walk("packet", packet())
    yield unit("cut short", packet()[:138], 138)
    yield unit("one byte left", packet()[:139], 138)
    yield unit("overrun", packet()[:183], 138)
    for line in (0x06, 0x07, 0x16, 0x17):
        yield unit("case K", with_bytes(packet(), (48, line)), 46)
    yield unit("framing 27", with_bytes(packet(), (49, 0x27)), 46)
    yield unit("length 2B", with_bytes(packet(), (47, 0x2B)), 46)
    yield unit("id 01", with_bytes(packet(), (46, 0x01)), 46)
    yield unit("far beyond", packet(), 2 ** 64 - 1)
    yield unit("nothing", b"", 46)


def example():
    return "".join(line + "\n" for line in lines()).encode()


if __name__ == "__main__":
    data = packet()
    for at in range(0, len(data), 16):
        print("    " + " ".join(f"0x{byte:02X}," for byte in data[at:at + 16]))
