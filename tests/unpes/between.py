#!/usr/bin/env python3
"""The packet between two files can't be written, and what comes after it could: tests/unpes/between.py FIRST EXPECTED SECOND
FIRST is a capture, EXPECTED what it carries, SECOND another. unpes goes through FIRST and then a pipe with a name; while it waits for
that, its output is filled up, and emptied again once it has told of the failure. Nothing may come behind what FIRST carries."""

import fcntl
import os
import subprocess
import sys
import tempfile

first, expected, second = sys.argv[1:]
whole = open(expected, "rb").read()


def filled(to):
    """How many bytes a pipe takes until it is full."""
    count = 0
    while True:
        try:
            count += os.write(to, b"\0")
        except BlockingIOError:
            return count


def taken(source, count):
    """So many bytes, or those that come before the end."""
    came = b""
    while len(came) < count:
        more = os.read(source, count - len(came))
        if not more:
            break
        came += more
    return came


with tempfile.TemporaryDirectory() as folder:
    later = os.path.join(folder, "later")
    os.mkfifo(later)
    read, write = os.pipe()
    fcntl.fcntl(write, fcntl.F_SETFL, fcntl.fcntl(write, fcntl.F_GETFL) | os.O_NONBLOCK)
    program = subprocess.Popen(["tests/start", "unpes", first, later], stdout=write, stderr=subprocess.PIPE)
    if taken(read, len(whole)) != whole:
        sys.exit("the first file's packets came otherwise")
    count = filled(write)
    os.close(write)
    opened = os.open(later, os.O_WRONLY)
    said = program.stderr.readline()
    taken(read, count)
    try:
        os.write(opened, open(second, "rb").read())
    except BrokenPipeError:
        pass
    os.close(opened)
    behind = taken(read, 1 << 30)
    said += program.stderr.read()
if behind:
    sys.exit(f"{len(behind)} bytes came behind a write that failed")
if said != b"unpes: standard output: Resource temporarily unavailable\n":
    sys.exit(f"said: {said!r}")
