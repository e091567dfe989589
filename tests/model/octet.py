"""One protected byte (SCOPE 5), and the turning (SCOPE 6.6)."""

import functools

UNDECODABLE = 16  # in place of a nibble
NO_FAULT = 8      # in place of a bit's place


def bit(number, place):
    return number >> place & 1


@functools.cache
def image(nibble):
    """From the lowest bit up: P1 D1 P2 D2 P3 D3 P4 D4 (SCOPE 5.1)."""
    d1, d2, d3, d4 = (bit(nibble, i) for i in range(4))
    p1 = (1 + d1 + d3 + d4) % 2
    p2 = (1 + d1 + d2 + d4) % 2
    p3 = (1 + d1 + d2 + d3) % 2
    p4 = (1 + p1 + d1 + p2 + d2 + p3 + d3 + d4) % 2  # the number of ones is odd
    bits = (p1, d1, p2, d2, p3, d3, p4, d4)
    return sum(b << i for i, b in enumerate(bits))


def images(nibbles):
    return bytes(image(n) for n in nibbles)


def flips(a, b):
    """In how many bits two bytes differ."""
    return bin(a ^ b).count("1")


def nibble_of(byte):
    """The nibble whose image is at most one bit away (SCOPE 5.3)."""
    for n in range(16):
        if flips(image(n), byte) <= 1:
            return n
    return UNDECODABLE


DECODED = tuple(nibble_of(b) for b in range(256))


def decode(byte):
    return DECODED[byte]


def mended(byte):
    """Whether a byte decodes and isn't the image itself."""
    return decode(byte) != UNDECODABLE and byte != image(decode(byte))


# The parity checks as four rows, lowest bit first (SCOPE 5.5): the places whose
# number of ones is odd in every image. The first three go with P1, P2, P3.
CHECKS = (
    (1, 1, 0, 0, 0, 1, 0, 1),
    (0, 1, 1, 1, 0, 0, 0, 1),
    (0, 1, 0, 1, 1, 1, 0, 0),
    (1, 1, 1, 1, 1, 1, 1, 1),
)


def failed(byte):
    """Which of the four checks fail."""
    return tuple((1 + sum(c * bit(byte, i) for i, c in enumerate(row))) % 2 for row in CHECKS)


def fault_place(byte):
    """8: no fault; 0 to 7: that bit; 16: can't be mended."""
    fails = failed(byte)
    if not any(fails):
        return NO_FAULT
    for place in range(8):  # a flipped bit fails the checks that have it
        if fails == tuple(row[place] for row in CHECKS):
            return place
    return UNDECODABLE


def turn(byte):
    """Bit i goes to bit 7-i."""
    return sum(bit(byte, i) << 7 - i for i in range(8))


TURNED = bytes(turn(b) for b in range(256))


def turned(data):
    return bytes(data).translate(TURNED)
