"""Every byte through every op of try_octet."""

from model import octet

from .form import Script, line


def of_byte(function):
    """One byte in, one byte out."""
    return 1, lambda payload, room: line(lambda: bytes([function(payload[0])]))


def script_of(dice, size):
    script = Script({
        1: of_byte(octet.decode),
        2: of_byte(lambda b: octet.image(b % 16)),
        3: of_byte(octet.turn),
        4: of_byte(octet.fault_place),
        5: (1, lambda payload, room: line(lambda: bytes([octet.decode(payload[0]), octet.mended(payload[0])]))),
    })
    for op in (1, 2, 3, 4, 5):
        for byte in range(256):
            script.case(op, 1, [byte])
    for byte in (0x14, 0x16, 0x00, 0xFF):  # cases A to D
        script.case(1, 1, [byte]), script.case(5, 2, [byte])
    script.case(3, 1, [0x15])              # case E
    for _ in range(64 * size):             # more room than is needed
        script.case(dice.between(1, 5), dice.between(1, 9), dice.bytes(1))
    script.case(5, 0, [0x14]), script.case(5, 1, [0x14])    # no output is lent, so the room isn't looked at
    for op in (0, 6, 9, 10, 21, 255):
        script.case(op, 1, [0])
    for op in (1, 2, 3, 4, 5):             # too few bytes, and more than are looked at
        script.case(op, 1, []), script.case(op, 2, [0x14, 0x16])
    script.cut_short(b"\x01\x01\x00")
    return script
