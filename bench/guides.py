#!/usr/bin/env python3
"""Times `lawful` beside the desk: bench/guides.py

The captures are made by the model: the hotel's sample round and round, the largest guide that is lawful three times, and as many of the longest and of the smallest
messages as `lawful` keeps, twice. Each program runs on each capture in turn; the best of three runs counts, in CPU time, and the most memory. A run is ended
after two minutes. BENCH_START, or tests/start, starts them; both stand where rt builds them (tests/build desk lawful)."""

import pathlib
import subprocess
import sys
import tempfile
import time

sys.dont_write_bytecode = True
HERE = pathlib.Path(__file__).resolve().parent
sys.path[:0] = [str(HERE), str(HERE.parent / "tests"), str(HERE.parent / "tests" / "lawful")]

import captures
import desks
from cases.information import guide_of
from model.information import STORE
from model.listing import DESK
from samples import hotel

PACKETS, RUNS, LONG = 1_000_000, 3, 120


def made():
    """Each capture, with what it is."""
    own, once = guide_of(), hotel()[0]
    yield "the hotel's sample, round and round", once * (PACKETS * 42 // len(once))
    yield "the largest guide that is lawful, three times", captures.sent(DESK, captures.largest_lawful()) * 3
    for name, messages in (("longest", captures.longest_messages(STORE - len(own))), ("smallest", captures.smallest_messages((STORE - len(own)) // 12))):
        yield f"{len(messages)} of the {name} messages, twice", captures.sent(DESK, [own, *messages]) * 2


def run(program, capture):
    """What it prints last, its CPU seconds and memory; nothing where it takes too long."""
    with open(capture, "rb") as source, tempfile.TemporaryFile() as out:
        child = subprocess.Popen([desks.START, program], stdin=source, stdout=out, stderr=subprocess.DEVNULL)
        most, pid, ends = (0, 0), 0, time.monotonic() + LONG
        while not pid:
            most = desks.memory(child.pid, most)
            time.sleep(0.001)
            if time.monotonic() > ends:
                child.kill(), child.wait()
                return None
            pid, status, used = desks.os.wait4(child.pid, desks.os.WNOHANG)
        if status:
            sys.exit(f"{program}: status {status}")
        out.seek(0)
        return out.read().decode().split("\n")[-2:-1], used.ru_utime + used.ru_stime, most


def measure(name, capture):
    packets, told = capture.stat().st_size // 42, []
    last = [""]
    for program in ("lawful", "desk"):
        runs = [run(program, capture) for _ in range(RUNS)]
        if None in runs:
            told.append(f"over {LONG} s | | ")
            continue
        last = runs[0][0] if program == "lawful" else last
        told.append(f"{min(one[1] for one in runs):.2f} s | {max(one[2][0] for one in runs)} kB | {max(one[2][1] for one in runs)} kB")
    print(f"| {name}, {packets} packets | {' | '.join(told)} | {''.join(last)} |", flush=True)


def main():
    print("| capture | `lawful` | most memory | of it its own | `desk` | most memory | of it its own | counts |\n|---|---|---|---|---|---|---|---|", flush=True)
    with tempfile.TemporaryDirectory() as folder:
        capture = pathlib.Path(folder) / "capture.t42"
        for name, data in made():
            capture.write_bytes(data)
            measure(name, capture)


if __name__ == "__main__":
    main()
