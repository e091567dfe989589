#!/usr/bin/env python3
"""A read that fails after bytes came: tests/halted.py INPUT EXPECTED tests/start NAME WORD..
Runs the program on a pipe that has INPUT, is held open and doesn't wait. What is printed is EXPECTED, and the failure is the only thing told."""

import fcntl
import os
import subprocess
import sys

given, expected, *command = sys.argv[1:]
data = open(given, "rb").read()
read, write = os.pipe()
fcntl.fcntl(write, fcntl.F_SETPIPE_SZ, max(65536, len(data)))
fcntl.fcntl(read, fcntl.F_SETFL, fcntl.fcntl(read, fcntl.F_GETFL) | os.O_NONBLOCK)
assert os.write(write, data) == len(data)
program = subprocess.run(command, stdin=read, capture_output=True, timeout=20)
if program.stdout != open(expected, "rb").read():
    sys.exit(f"printed: {program.stdout[:200]!r}")
if program.stderr.decode() != f"{command[1]}: standard input: Resource temporarily unavailable\n":
    sys.exit(f"said: {program.stderr!r}")
