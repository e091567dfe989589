"""Lists of records, cut into pages."""

from model import guide
from model.guide import Setting

from .form import room_tried


def some_setting(dice):
    return Setting(dice.between(1, 8), dice.below(256), dice.below(16), dice.below(32))


def some_record(dice, size):
    return guide.record_of(guide.head_of(dice.below(32), size), dice.bytes(size))


def some_list(dice, sizes):
    return b"".join(some_record(dice, size) for size in sizes)


def cut_call(payload, room=2 ** 32):
    magazine, page, stream, index, k = payload[:5]
    return guide.cut(Setting(magazine, page, stream), index, k, payload[5:], room)


def all_cases(script, dice, size):
    def cut(setting, index, k, records, room=0xFFFFFFFF):
        script.case(22, room, bytes([*setting[:3], index, k]) + records)

    def rooms(setting, index, k, records):
        room_tried(script, 22, bytes([*setting[:3], index, k]) + records, cut_call)

    for k in range(0, 26):                      # 0: none named
        cut(some_setting(dice), dice.below(16), k, some_list(dice, [34] * k))       # ends with a page
        sizes = [dice.pick([0, 1, 2, 3, 30, 33, 35, 60]) for _ in range(dice.between(1, 4))]
        cut(some_setting(dice), dice.below(16), k, some_list(dice, sizes))
    for block in (0, 1, 2, 3, 32, 33, 34, 35, 36, 37, 73, 74):
        rooms(some_setting(dice), dice.below(16), dice.pick([1, 2]), some_list(dice, [block]))
        cut(some_setting(dice), dice.below(16), 1, some_list(dice, [block, 0]))
    for k in (1, 0, 25):
        cut(some_setting(dice), dice.below(16), k, some_list(dice, [2047]))
    for rows in (19, 20, 21, 25, 26):           # none named is 20, and 25 is what it says
        whole, setting, index = some_list(dice, [34] * rows), some_setting(dice), dice.below(16)
        for k in (0, 20) if rows < 25 else (0, 25):
            cut(setting, index, k, whole)
    for sizes in ([34, 34], [34, 34, 0], [28, 1], [28, 2], [28, 5], [73, 34], [0] * 6, [0] * 7, [0] * 13,
                  [1] * 7, [4] * 5, [31, 34], [32, 33], [33, 34]):
        for k in (1, 2, 3):
            cut(some_setting(dice), dice.below(16), k, some_list(dice, sizes))
    for index in (0, 14, 15):                   # the index wraps
        cut(some_setting(dice), index, 1, some_list(dice, [34] * 18))
        cut(some_setting(dice), index, 2, some_list(dice, [100]))
    for magazine in range(1, 9):                # each setting's ends
        cut(Setting(magazine, dice.pick([0, 255, 0x0F, 0xF0]), dice.pick([0, 15])), 0, 1, some_list(dice, [5]))
    small = some_list(dice, [3, 4])
    good = Setting(1, 0xDF, 1)
    cut(good, 0, 3, b"", 0), cut(good, 15, 0, b""), rooms(good, 3, 2, small)
    # 16, then 13, then 1
    for payload in ([0, 0, 0, 0, 1], [9, 0, 0, 0, 1], [255, 0, 0, 0, 1], [1, 0, 16, 0, 1], [1, 0, 255, 0, 1],
                    [1, 0, 0, 16, 1], [1, 0, 0, 255, 1], [1, 0, 0, 0, 26], [1, 0, 0, 0, 255], [8, 255, 15, 15, 25]):
        for tail in (b"", small, small[:-1]):
            for room in (0, 2000):
                script.case(22, room, bytes(payload) + tail)
    for length in range(len(small)):            # not a list of whole records
        cut(good, 1, 1, small[:length], 0 if length % 2 else 500)
    for tail in (b"\x00", b"\x01\x00", b"\x01\x00\x00", b"\xff\xff", b"\xff\xff\x00\x00"):
        cut(good, 1, 1, small + tail)
    cut(good, 1, 1, b"\xe0\xff\x00\x00" + bytes(2046)), cut(good, 1, 1, b"\xe0\xff" + bytes(2047))
    cut(good, 0, 1, b"\x01\x00\x00\x00" * 5100) # needs more than 65,536 bytes
    for part, second in ((1, 0), (5, 0), (6, 0), (255, 0), (0, 1), (0, 2), (5, 1), (0, 255), (255, 255), (0x16, 0x16)):     # neither sent nor judged
        other = guide.record_of(guide.head_of(31, 3), dice.bytes(3), part, second)
        cut(good, 2, 1, other + small + other), cut(good, 2, 1, other[:-1]), rooms(good, 2, 1, other)
    for _ in range(8 * size):
        sizes = [dice.pick([0, 1, 2, 8, 16, 22, 30, 34, 35, 77, 150]) for _ in range(dice.between(1, 6))]
        cut(some_setting(dice), dice.below(16), dice.between(0, 25), some_list(dice, sizes))
