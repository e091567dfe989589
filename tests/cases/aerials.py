"""Two packets of two aerials, op 23: which of them is handed back."""

from model import aerials, octet

from .form import LOST, line

OP = 23


def better_call(payload):
    """Two packets: the first half of the payload, rounded down, and the rest."""
    half = len(payload) // 2
    return aerials.better(payload[:half], payload[half:])


def all_cases(script, dice, size):
    def packet(lost):
        """A packet of random images and other bytes, with bytes that can't be decoded at these places."""
        made = bytearray(front_of_images(dice))
        for place in lost:
            made[place] = LOST
        return bytes(made)

    def pair(first, second):
        script.case(OP, dice.below(50), first + second)

    places = [(), (0,), (9,), (10,), (41,), (0, 9), (9, 10), (0, 1, 2), tuple(range(10)), tuple(range(10, 42)), tuple(range(42))]
    for first in places:
        for second in places:
            pair(packet(first), packet(second))
    good = packet(())
    for n in (0, 41, 43):               # only what makes two halves of 42 bytes is taken
        pair(good[:n] + bytes(max(0, n - 42)), good)
        pair(good, good[:n] + bytes(max(0, n - 42)))
        pair(bytes(n), bytes(n))
    for _ in range(40 * size):          # mended bytes don't count
        first, second = bytearray(packet(())), bytearray(packet(()))
        for made in (first, second):
            for _ in range(dice.below(6)):
                made[dice.below(14)] ^= 1 << dice.below(8)
            for _ in range(dice.below(4)):
                made[dice.below(14)] = dice.below(256)
        pair(bytes(first), bytes(second))


def front_of_images(dice):
    """Ten images, as a packet's first bytes are, and 32 bytes of any value."""
    return [octet.image(dice.below(16)) for _ in range(10)] + list(dice.bytes(32))


def call(payload, room):
    return line(better_call, payload)
