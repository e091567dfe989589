"""The better of two packets that two aerials heard (SCOPE 18)."""

from . import need
from .octet import UNDECODABLE, decode

PACKET = 42
ADDRESS = 2
JUDGED = 10


def broken(packet):
    """How many of a packet's first ten bytes can't be decoded."""
    return sum(decode(byte) == UNDECODABLE for byte in packet[:JUDGED])


def better(first, second):
    """The 40 bytes after the address: the first's, or the second's where strictly fewer of its first ten bytes can't be decoded."""
    need(len(first) == PACKET and len(second) == PACKET, 16)
    packet = second if broken(second) < broken(first) else first
    return packet[ADDRESS:]
