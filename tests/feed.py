#!/usr/bin/env python3
"""Runs a command with an input or output that gives trouble, and ends with its status (128 and the number of a signal).

    tests/feed.py late FILE AT.. -- COMMAND      a non-blocking pipe gets FILE, with a pause before each byte numbered AT, and before its end
    tests/feed.py slow FILE AT.. -- COMMAND      the same by a blocking pipe
    tests/feed.py never -- COMMAND               a non-blocking pipe that gets nothing and is not closed
    tests/feed.py reset FILE -- COMMAND          a socket that gets FILE and is then reset: the read behind the last byte fails
    tests/feed.py full -- COMMAND                standard output is a non-blocking pipe that is full and is never read
    tests/feed.py drained -- COMMAND             the same, read after a pause; prints what came behind the filling
    tests/feed.py gone -- COMMAND                standard output is a pipe that nobody reads
    tests/feed.py ignored -- COMMAND             the same, with SIGPIPE ignored
    tests/feed.py tty -- COMMAND                 standard input is a terminal
"""
import os
import pty
import socket
import subprocess
import sys
import time

PAUSE = 0.15


def ended(child):
    status = child.wait()
    return status if status >= 0 else 128 - status


def fed(command, blocking, data, stops):
    """The data by a pipe, in pieces that end at the stops."""
    end, pipe = os.pipe()
    os.set_blocking(end, blocking)
    child = subprocess.Popen(command, stdin=end)
    os.close(end)
    sent = 0
    try:
        for stop in stops + [len(data)]:
            os.write(pipe, data[sent:stop])
            sent = stop
            time.sleep(PAUSE)
    except BrokenPipeError:
        pass
    os.close(pipe)
    return ended(child)


def never(command):
    end, pipe = os.pipe()
    os.set_blocking(end, False)
    status = ended(subprocess.Popen(command, stdin=end))
    os.close(pipe)
    return status


def reset(command, data):
    ours, theirs = socket.socketpair()
    theirs.send(b"x")  # which is not read: so closing resets
    ours.sendall(data)
    ours.close()
    return ended(subprocess.Popen(command, stdin=theirs))


def full(command, drains):
    end, pipe = os.pipe()
    os.set_blocking(pipe, False)
    filled = 0
    try:
        while True:
            filled += os.write(pipe, b"-" * 4096)
    except BlockingIOError:
        pass
    child = subprocess.Popen(command, stdout=pipe)
    os.close(pipe)
    if drains:
        time.sleep(PAUSE)
        with os.fdopen(end, "rb") as reader:
            sys.stdout.buffer.write(reader.read()[filled:])
    return ended(child)


def gone(command, ignored):
    end, pipe = os.pipe()
    os.close(end)
    return ended(subprocess.Popen(command, stdout=pipe, restore_signals=not ignored))


def tty(command):
    ours, theirs = pty.openpty()
    status = ended(subprocess.Popen(command, stdin=theirs))
    os.close(ours)
    return status


def main(words):
    at = words.index("--")
    (mode, *rest), command = words[:at], words[at + 1:]
    data = open(rest[0], "rb").read() if rest else b""
    if mode in ("late", "slow"):
        return fed(command, mode == "slow", data, [int(stop) for stop in rest[1:]])
    if mode == "reset":
        return reset(command, data)
    if mode in ("full", "drained"):
        return full(command, mode == "drained")
    if mode in ("gone", "ignored"):
        return gone(command, mode == "ignored")
    return {"never": never, "tty": tty}[mode](command)


if __name__ == "__main__":
    sys.exit(main(sys.argv[1:]))
