#!/usr/bin/env python3
"""Times desks on one file: bench/desks.py FILE NAME=PROGRAM ..

A program is a path; BENCH_START, or tests/start, starts it. Each reads the file from standard
input and prints to a file, in turn with the others. The best of ten runs counts, in CPU time.
The outputs must be the same."""

import os
import pathlib
import subprocess
import sys
import tempfile
import time

START = os.environ.get("BENCH_START", "tests/start")
RUNS = 10


def memory(pid, before):
    """The most memory so far in kB: all pages, shared libraries' among them, and the program's own.
    The first only grows, so the last look before the end counts."""
    try:
        status = pathlib.Path(f"/proc/{pid}/status").read_text()
        return tuple(max(old, int(status.split(name)[1].split()[0])) for old, name in zip(before, ("VmHWM:", "RssAnon:")))
    except (OSError, IndexError):
        return before


def run(program, source, out):
    """CPU seconds and the most memory."""
    out.seek(0)
    out.truncate()
    child = subprocess.Popen([START, program], stdin=source, stdout=out)
    most, pid = (0, 0), 0
    while not pid:
        most = memory(child.pid, most)
        time.sleep(0.001)
        pid, status, used = os.wait4(child.pid, os.WNOHANG)
    if status:
        sys.exit(f"{program}: status {status}")
    return used.ru_utime + used.ru_stime, most


def main():
    name, *desks = sys.argv[1:]
    packets, printed = os.path.getsize(name) // 42, None
    named = [desk.split("=", 1) for desk in desks]
    best, most = {}, {}
    for _ in range(RUNS):
        for title, program in named:
            with open(name, "rb") as source, tempfile.TemporaryFile() as out:
                seconds, held = run(program, source, out)
                out.seek(0)
                text = out.read()
            printed = printed or text
            if text != printed:
                sys.exit(f"{title} prints otherwise")
            best[title] = min(best.get(title, seconds), seconds)
            most[title] = tuple(map(max, most.get(title, (0, 0)), held))
    first = best[named[0][0]]
    print(f"A file of {packets} packets:\n\n| desk | time | a packet | times the first | most memory | of it its own |\n|---|---|---|---|---|---|")
    for title, took in best.items():
        print(f"| {title} | {took * 1e3:.0f} ms | {took * 1e9 / packets:.0f} ns | {took / first:.2f} | {most[title][0]} kB | {most[title][1]} kB |")


if __name__ == "__main__":
    main()
