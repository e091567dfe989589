#!/usr/bin/env python3
"""A pipe that fills up and doesn't wait: tests/full.py INPUT EXPECTED PAUSE tests/start NAME..
Runs the program on INPUT with such a pipe as standard output, and reads it slowly, from so many seconds later on.
What comes is the first part of EXPECTED, less than all, and the failure is the only thing told."""

import fcntl
import os
import subprocess
import sys
import time

given, expected, pause, *command = sys.argv[1:]
read, write = os.pipe()
fcntl.fcntl(write, fcntl.F_SETFL, fcntl.fcntl(write, fcntl.F_GETFL) | os.O_NONBLOCK)
program = subprocess.Popen(command, stdin=open(given, "rb"), stdout=write, stderr=subprocess.PIPE)
os.close(write)
came = b""
time.sleep(float(pause))
while True:
    time.sleep(0.01)
    more = os.read(read, 4096)
    if not more:
        break
    came += more
said = program.stderr.read().decode()
whole = open(expected, "rb").read()
if not whole.startswith(came):
    sys.exit("what came isn't the first part of what was to come")
if len(came) == len(whole):
    sys.exit("the pipe never filled up")
if said != f"{command[1]}: standard output: Resource temporarily unavailable\n":
    sys.exit(f"said: {said!r}")
