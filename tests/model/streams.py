"""One stream or two: what the word behind -s says, and which blocks a capture gives the programs for it."""

import re

from .both import Pair, ReaderOfTwo, records_of_two
from .guide import PACKET, Reader, Setting, records_in

MOST_STREAM = 15


def streams_in(word):
    """The streams that the word names: one, or two different ones with one comma between (SCOPE 13.12); nothing where it is bad."""
    numbers = word.split(",")
    if len(numbers) > 2 or not all(re.fullmatch("[0-9]+", number) and int(number) <= MOST_STREAM for number in numbers):
        return None
    streams = tuple(map(int, numbers))
    return streams if len(set(streams)) == len(streams) else None


def heeding(setting, *words):
    """A setting of one stream with those that the last of these words names, if there is one; nothing where one of them is bad."""
    said = [streams_in(word) for word in words]
    if None in said:
        return None
    streams = said[-1] if said else setting.streams()
    return (Pair if len(streams) == 2 else Setting)(setting.magazine, setting.page, *streams, setting.application)


def whole_packets(data):
    return [data[at:at + PACKET] for at in range(0, len(data) - PACKET + 1, PACKET)]


def blocks(setting, data):
    """The blocks that a fresh reader (SCOPE 10.7) hands out for a capture, each as its stream and its record: one list, in the order of packets."""
    two = isinstance(setting, Pair)
    reader = ReaderOfTwo(setting) if two else Reader(setting)
    for packet in whole_packets(data):
        records = reader.feed(packet).records
        yield from records_of_two(records) if two else ((setting.stream, record) for record in records_in(records))
