#!/usr/bin/env python3
"""Times `sheet add` beside the desk, on captures of some two million packets: bench/sheets.py

The captures are made by the model: 40 and 62 tables of up to three descriptors round and round, as they were sent, and with a bit flipped in about one byte of fifty. Each
program runs on each capture in turn, the sheet into a new file; the best of three runs counts, in CPU time. BENCH_START, or tests/start, starts them; both stand where rt builds
them (tests/build desk sheet)."""

import pathlib
import subprocess
import sys
import tempfile

sys.dont_write_bytecode = True
HERE = pathlib.Path(__file__).resolve().parent
sys.path[:0] = [str(HERE), str(HERE.parent / "tests")]

import desks
import samples
from cases.form import Dice
from cases.table import some_table
from model import table
from model.listing import DESK

MANY, RUNS, OF = 2_000_000, 3, 50


def rounds(dice, count):
    """Packets of so many tables, round and round, that fill a multiple of sixteen pages of 20, with other magazines' and another stream's between."""
    tables = [some_table(dice, most=3)._replace(network=n, block_no=0) for n in range(count)]
    records = [table.write_block(DESK.application, table.form_of(t)) for t in tables]
    for times in range(1, 200):
        if len(samples.packets_in(samples.guide.cut(DESK, 0, 20, b"".join(records * times)))) % (16 * 21) == 0:
            return b"".join(samples.aired(dice, records * times, 20))
    sys.exit("sheets.py: no number of rounds fills whole pages by sixteen")


def flipped(dice, data):
    """A bit of about one byte of fifty is another; never two of one byte."""
    noisy, at = bytearray(data), dice.below(2 * OF - 1)
    while at < len(noisy):
        noisy[at] ^= 1 << dice.below(8)
        at += 1 + dice.below(2 * OF - 1)
    return bytes(noisy)


def run(words, out):
    child = subprocess.Popen([desks.START, *words], stdin=subprocess.DEVNULL, stdout=out)
    most, pid = (0, 0), 0
    while not pid:
        most = desks.memory(child.pid, most)
        desks.time.sleep(0.001)
        pid, status, used = desks.os.wait4(child.pid, desks.os.WNOHANG)
    if status:
        sys.exit(f"{words[0]}: status {status}")
    return used.ru_utime + used.ru_stime, most[1]


def measure(folder, name, data):
    capture, day = folder / "capture.t42", folder / "day"
    capture.write_bytes(data)
    best, own = {}, {}
    for _ in range(RUNS):
        day.unlink(missing_ok=True)
        for program, words in (("sheet", ["sheet", "add", day, "1", capture]), ("desk", ["desk", capture])):
            with tempfile.TemporaryFile() as out:
                seconds, held = run(list(map(str, words)), out)
                out.seek(0)
                text = out.read(100) if program == "sheet" else b""
            best[program] = min(best.get(program, seconds), seconds)
            own[program] = max(own.get(program, 0), held)
            if program == "sheet":
                tables = text.split(b"tables=")[1].split()[0].decode()
    print(f"| {name}, {len(data) // 42} packets | {tables} | {best['sheet']:.2f} s | {best['desk']:.2f} s | {best['sheet'] / best['desk']:.2f} | {own['sheet']} kB, {own['desk']} kB |", flush=True)


def main():
    print("| capture | tables | `sheet add` | `desk` | times the desk | memory of its own |\n|---|---|---|---|---|---|", flush=True)
    for count in (40, 62):
        dice = Dice(count)
        once = rounds(dice, count)
        data = once * (MANY * 42 // len(once))
        with tempfile.TemporaryDirectory() as folder:
            measure(pathlib.Path(folder), f"{count} tables", data)
            measure(pathlib.Path(folder), f"{count} tables, a bit flipped in one byte of fifty", flipped(dice, data))


if __name__ == "__main__":
    main()
