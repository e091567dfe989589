#!/usr/bin/env python3
"""Ends `sheet` at its writes and between them: tests/sheet/ended.py FOLDER OLD NEW START WORD.. where START WORD.. turns FOLDER/day from
OLD's bytes to NEW's. After each end the file is one of the two, never another; a temporary file is left only where a signal killed it.
Where calls of the system can be watched, also: the order of those by which the file is replaced, a read that fails in the middle of a capture (of `add`), and a
sheet that changes each time that the new one is written (where that is moved, each in the form that it is moved from)."""

import ctypes
import os
import pathlib
import platform
import resource
import signal
import subprocess
import sys
import time

folder, old, new = pathlib.Path(sys.argv[1]), *(pathlib.Path(name).read_bytes() for name in sys.argv[2:4])
command = sys.argv[4:]
task = next(word for word in command[1:] if word in ("add", "up", "down"))
OLD, NEW = b"stamp=%d\nkind=LI\nnetwork=255\nblock=0\n\n", b"stamp=%d\nmended=0\nkind=LI\nnetwork=255\nblock=0\n\n"
OTHER, MOVED = (OLD, NEW) if task == "up" else (NEW, OLD)                                        # another's sheet, and moved
TRACEME, GETREGS, SETREGS, SYSCALL = 0, 12, 13, 24                                             # of ptrace
READ, WRITE, CLOSE, FSYNC, RENAME, OPENAT = 0, 1, 3, 74, 82, 257                               # calls of the system
LIMIT = 60                                                                                     # seconds, after which nothing hangs on


def put_back():
    for path in folder.iterdir():
        path.unlink()
    (folder / "day").write_bytes(old)


def found(what):
    """Which of the two the sheet is."""
    now = (folder / "day").read_bytes() if (folder / "day").exists() else None
    if now not in (old, new):
        sys.exit(f"{what}: the sheet is neither the old one nor the new one")
    return "new" if now == new else "old"


def alone(what):
    others = [path.name for path in folder.iterdir() if path.name != "day"]
    if others:
        sys.exit(f"{what}: left {' '.join(others)}")


def limited(length, action):
    """The child may write files of so many bytes; the signal that says so is ignored, or kills."""
    def prepare():
        signal.signal(signal.SIGXFSZ, action)
        resource.setrlimit(resource.RLIMIT_CORE, (0, 0))
        resource.setrlimit(resource.RLIMIT_FSIZE, (length, length))
    return prepare


def at_each_write():
    """A file-size limit after every so many bytes, with its signal ignored and with its signal."""
    lengths = sorted({0, 1, 2, len(new) - 1, len(new), len(new) + 1, *range(0, len(new), max(1, len(new) // 40))})
    for action in (signal.SIG_IGN, signal.SIG_DFL):
        seen = set()
        for length in lengths:
            put_back()
            ran = subprocess.run(command, stdin=subprocess.DEVNULL, capture_output=True, preexec_fn=limited(length, action))
            what = f"a limit of {length} bytes, {'ignored' if action == signal.SIG_IGN else 'with its signal'}"
            seen.add(found(what))
            if action == signal.SIG_IGN:
                alone(what)
                lines = ran.stderr.decode().splitlines()
                if found(what) == "old" and not (len(lines) == 1 and lines[0].startswith("sheet: ") and not ran.stdout):
                    sys.exit(f"{what}: wrote {ran.stdout!r} and said {ran.stderr!r}")
        if seen != {"old", "new"}:
            sys.exit(f"limits from 0 to {len(new) + 1} bytes always left the {seen.pop()} sheet")


class Registers(ctypes.Structure):
    _fields_ = [(name, ctypes.c_ulonglong) for name in "r15 r14 r13 r12 rbp rbx r11 r10 r9 r8 rax rcx rdx rsi rdi orig_rax rip cs eflags rsp ss fs_base gs_base ds es fs gs".split()]


def watched():
    """The command under watch, before its first call, with what it writes and says in files; nothing where it can't be watched."""
    pid = os.fork()
    if pid == 0:
        os.dup2(os.open(os.devnull, os.O_RDWR), 0)
        for to, name in ((1, "wrote"), (2, "said")):
            os.dup2(os.open(folder.parent / f"watched.{name}", os.O_WRONLY | os.O_CREAT | os.O_TRUNC, 0o600), to)
        if libc.ptrace(TRACEME, 0, None, None) != 0:
            os._exit(99)
        signal.alarm(LIMIT)
        os.execv(command[0], command)
    return pid if os.WIFSTOPPED(os.waitpid(pid, 0)[1]) else None


def went_on(pid):
    """To its next call, or back from it; whether it is still there."""
    libc.ptrace(SYSCALL, pid, None, None)
    return os.WIFSTOPPED(os.waitpid(pid, 0)[1])


def at_each_call():
    """Killed at every call of the system, before it and after it."""
    seen, stop = [], 0
    while True:
        put_back()
        pid = watched()
        for _ in range(stop):
            if not went_on(pid):
                seen.append(found("to the end"))
                return None if seen[0] == "old" and seen[-1] == "new" else sys.exit("killed at every call: the sheet never changed")
        os.kill(pid, signal.SIGKILL)
        os.waitpid(pid, 0)
        seen.append(found(f"killed at call {stop}"))
        stop += 1


def calls(heed):
    """Runs it to the end. heed(call, first, back) hears each call's number and first argument, and back from it its answer as third: where that hands back a number
    the call isn't made, or its answer is that number. Hands back the calls, with their answers."""
    put_back()
    pid, seen, registers, is_back = watched(), [], Registers(), False
    while went_on(pid):
        libc.ptrace(GETREGS, pid, None, ctypes.byref(registers))
        if not is_back:
            number, first = registers.orig_rax, registers.rdi
        other = heed(number, first, ctypes.c_longlong(registers.rax).value if is_back else None)
        if other is not None:
            setattr(registers, "rax" if is_back else "orig_rax", ctypes.c_ulonglong(other).value)
            libc.ptrace(SETREGS, pid, None, ctypes.byref(registers))
        if is_back:
            seen.append((number, first, ctypes.c_longlong(registers.rax).value))
        is_back = not is_back
    return seen


def told():
    return tuple((folder.parent / f"watched.{name}").read_text() for name in ("wrote", "said"))


def in_order():
    """The new sheet is written, synced and closed, then renamed, then its folder synced, then its line printed."""
    seen = calls(lambda number, first, back: None)
    at = max(i for i, (number, _, _) in enumerate(seen) if number == RENAME)
    temp = next(first for number, first, back in reversed(seen[:at]) if number == FSYNC)
    folder_fd = next((first for number, first, back in seen[at:] if number == FSYNC and back == 0), None)
    steps = [(WRITE, temp), (FSYNC, temp), (CLOSE, temp), (RENAME, None), (FSYNC, folder_fd), (WRITE, 1)]
    left = list(steps)
    for number, first, back in seen:
        if left and number == left[0][0] and left[0][1] in (None, first) and back >= 0:
            left.pop(0)
    if left or folder_fd is None or any(number in (WRITE, FSYNC) and first == temp for number, first, back in seen[at:] if first != folder_fd):
        sys.exit(f"written, synced, closed, renamed, its folder synced, told: not in this order, but for {len(steps) - len(left)} of {len(steps)}: {seen}")


def fails_in_a_capture():
    """The second read of a capture fails. The first read of 65,520 bytes is the capture's."""
    state = {"fd": None, "now": False}

    def heed(number, first, back):
        if number != READ:
            return None
        if back is not None and state["now"]:
            state["now"] = False
            return -5
        if back is None and state["fd"] == first:
            state["now"], state["fd"] = True, -1
            return -1
        if back is not None and state["fd"] is None and back > 0 and back % 42 == 0:
            state["fd"] = first
        return None

    calls(heed)
    wrote, said = told()
    if found("a read that fails") != "old" or wrote or not said.startswith("sheet: ") or "it can't be read, and the sheet stays as it was: Input/output error" not in said:
        sys.exit(f"a read that fails in the middle of a capture: wrote {wrote!r} and said {said!r}")
    alone("a read that fails in the middle of a capture")


def changes_each_time(times):
    """Each time that the new sheet is synced, another sheet takes the old one's place, so many times."""
    state = {"times": 0}

    def heed(number, first, back):
        if number == FSYNC and back is not None and state["times"] < times:
            state["times"] += 1
            (folder.parent / "other").write_bytes(OTHER % state["times"])
            (folder.parent / "other").rename(folder / "day")
        return None

    calls(heed)
    alone(f"a sheet that changes {times} times")
    return (folder / "day").read_bytes(), *told()


def while_it_changes():
    day, wrote, said = changes_each_time(16)
    is_done = OTHER % 16 in day and day.count(b"stamp=") > 1 if task == "add" else day == MOVED % 16
    if not is_done or said or not wrote.endswith(f"bytes={len(day)}\n"):
        sys.exit(f"a sheet that changes 16 times: wrote {wrote!r} and said {said!r}")
    day, wrote, said = changes_each_time(17)
    if day != OTHER % 17 or wrote or not said.startswith(f"sheet: {folder}/day: it changed sixteen times meanwhile"):
        sys.exit(f"a sheet that changes 17 times: wrote {wrote!r} and said {said!r}")


def at_any_time():
    put_back()
    began = time.monotonic()
    subprocess.run(command, stdin=subprocess.DEVNULL, capture_output=True)
    took = time.monotonic() - began
    for turn in range(40):
        put_back()
        with subprocess.Popen(command, stdin=subprocess.DEVNULL, stdout=subprocess.DEVNULL, stderr=subprocess.DEVNULL) as running:
            time.sleep(took * turn / 35)
            running.kill()
        found(f"killed after {turn}/35 of its time")


libc = ctypes.CDLL(None, use_errno=True)
at_each_write()
at_any_time()
probe = watched() if pathlib.Path(command[0]).name != "start" and platform.machine() == "x86_64" else None
if probe is None:
    print("tests/sheet/ended.py: calls can't be watched here; killed at times only")
else:
    os.kill(probe, signal.SIGKILL)
    os.waitpid(probe, 0)
    at_each_call()
    in_order()
    if task == "add":
        fails_in_a_capture()
    while_it_changes()
put_back()
