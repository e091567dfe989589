#!/usr/bin/env python3
"""How much it matters where code lies: bench/placed.py DIR PLACE ..

DIR has, for each PLACE, a program measure-PLACE in which the code of each side begins PLACE bytes
into a page, and desks c-desk-PLACE and our-desk-PLACE of that kind; and bench/make.py's files.
They run in turn, five rounds of each (or BENCH_ROUNDS), and of each contender at each place the best counts, in CPU
time. The last lines have the least and the most over all places, and our most over the other's least."""

import os
import pathlib
import re
import subprocess
import sys

START = os.environ.get("BENCH_START", "tests/start")
ROUNDS = int(os.environ.get("BENCH_ROUNDS", 5))
ROW = re.compile(r"\| (.*?) \| (.*?) \| (\S+) ns a \w+ \|")


def rows(program, folder):
    """What is measured, who does it, and nanoseconds a packet or block."""
    words = [START, program, folder / "dense.t42", folder / "both.t42", folder / "mixed.t42"]
    for what, who, cost in ROW.findall(subprocess.run(words, check=True, capture_output=True, text=True).stdout):
        yield what, who, float(cost)


def cost_of(desk, name):
    """A desk on a file: nanoseconds a packet, in CPU time."""
    with open(name, "rb") as source:
        child = subprocess.Popen([START, desk], stdin=source, stdout=subprocess.DEVNULL)
        _, status, used = os.wait4(child.pid, 0)
    if status:
        sys.exit(f"{desk}: status {status}")
    return (used.ru_utime + used.ru_stime) * 1e9 / (os.path.getsize(name) // 42)


def measured(folder, place):
    """(what, who) and nanoseconds a packet."""
    for what, who, cost in rows(folder / f"measure-{place}", folder):
        yield (what, who), cost
    for who in "c-desk", "our-desk":
        yield ("desk", who), cost_of(folder / f"{who}-{place}", folder / "many.t42")


def table(title, places, best, one, other):
    """Our cost beside the other's at each place."""
    print(f"\n| {title}: code begins at | {other[1]} | {one[1]} | times |\n|---|---|---|---|")
    for place in places:
        a, b = best[one][place], best[other][place]
        print(f"| {place} | {b:.2f} ns | {a:.2f} ns | {a / b:.2f} |")
    a, b = best[one].values(), best[other].values()
    print(f"| least and most | {min(b):.2f} to {max(b):.2f} ns | {min(a):.2f} to {max(a):.2f} ns | {min(a) / max(b):.2f} to {max(a) / min(b):.2f} |")


def main():
    folder, places, best = pathlib.Path(sys.argv[1]), sys.argv[2:], {}
    for _ in range(ROUNDS):
        for place in places:
            for key, cost in measured(folder, place):
                costs = best.setdefault(key, {})
                costs[place] = min(costs.get(place, cost), cost)
    for what in "packets, all of our page", "packets, one in four of our page":
        table(what, places, best, (what, "ours, `feed_all`"), (what, "libzvbi, vbi_pfc_demux_feed"))
    table("desk", places, best, ("desk", "our-desk"), ("desk", "c-desk"))


if __name__ == "__main__":
    main()
