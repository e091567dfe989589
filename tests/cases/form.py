"""The form of the vectors: a case is an op, a room and a payload; a line answers it."""

from model import Refused

LOST = 0x16  # case B: a byte that can't be decoded
MOST = 65536  # bytes of a payload, and of a lent output


class Dice:
    """A small generator of our own, so that vectors don't hang on a version."""

    def __init__(self, seed):
        self.state = (seed * 0x9E3779B97F4A7C15 + 0x2545F4914F6CDD1D) % 2 ** 64 or 1

    def word(self):
        """xorshift64*, its upper 32 bits."""
        x = self.state
        x ^= x >> 12
        x ^= x << 25 & 0xFFFFFFFFFFFFFFFF
        x ^= x >> 27
        self.state = x
        return (x * 0x2545F4914F6CDD1D) % 2 ** 64 >> 32

    def below(self, n):
        return self.word() % n

    def between(self, low, high):
        return low + self.below(high - low + 1)

    def chance(self, one_in):
        return self.below(one_in) == 0

    def pick(self, things):
        return things[self.below(len(things))]

    def bytes(self, n):
        return bytes(self.below(256) for _ in range(n))


class Script:
    """A row of cases with the lines that a right program prints for them."""

    def __init__(self, ops):
        self.ops = ops  # op -> (bytes of the payload's fixed part, call)
        self.stdin, self.lines = bytearray(), []

    def case(self, op, room, payload):
        payload = bytes(payload)
        assert len(payload) <= MOST
        self.stdin += bytes([op]) + room.to_bytes(4, "little")
        self.stdin += len(payload).to_bytes(4, "little") + payload
        self.lines.append(f"op={op} " + self.expected(op, min(room, MOST), payload))

    def expected(self, op, room, payload):
        fixed, call = self.ops.get(op, (0, None))
        if call is None or len(payload) < fixed:
            return "unknown"
        return call(payload, room)

    def cut_short(self, left):
        """The last case, cut short by the end of input."""
        self.stdin += left
        self.lines.append(f"short={len(left)}")

    def stdout(self):
        return "".join(line + "\n" for line in self.lines)


def line(call, *given):
    """The line of a call that gives bytes or refuses."""
    try:
        no, at, out = 0, 0, call(*given)
    except Refused as r:
        no, at, out = r.no, r.at, b""
    return f"no={no} at={at} out={out.hex()} kept=yes"


def room_tried(script, op, payload, call):
    """A case with room to spare, exactly enough, one short and none."""
    need = len(call(payload))
    for room in sorted({need + 7, need, max(need - 1, 0), 0}):
        script.case(op, room, payload)


def with_bytes(data, *changes):
    """The bytes with others at some places: (place, value), (place, value) .."""
    data = bytearray(data)
    for at, value in changes:
        data[at] = value
    return bytes(data)
