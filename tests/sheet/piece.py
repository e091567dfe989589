#!/usr/bin/env python3
"""Whether a program prints in one piece: tests/sheet/piece.py FILE START WORD.. runs START WORD.. with a standard output that keeps its writes apart. There
has to be one, of the bytes of FILE."""

import pathlib
import socket
import subprocess
import sys

ours, its = socket.socketpair(socket.AF_UNIX, socket.SOCK_SEQPACKET)
with subprocess.Popen(sys.argv[2:], stdin=subprocess.DEVNULL, stdout=its) as program:
    its.close()
    pieces = list(iter(lambda: ours.recv(65536), b""))
if pieces != [pathlib.Path(sys.argv[1]).read_bytes()]:
    sys.exit(f"{len(pieces)} pieces, of {' '.join(str(len(piece)) for piece in pieces)} bytes")
