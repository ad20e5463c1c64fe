#!/usr/bin/env python3
"""Measures what metrics, an idle timeout and the log of connections cost a command.

    tools/bench/watched.py [PROGRAM]

One connection over TCP sends half sets and half gets, a value of 100 bytes each, without waiting for replies, and then the
same commands awaiting each reply. Instructions are those of the thread that serves, outside system calls, counted by
valgrind's callgrind as the difference of two runs, so that the start and the filling of the cache are left out. The threads
that serve metrics and count seconds work whether commands come or not, and are left out.

PROGRAM is the built program, crates/mcd/out/mcd by default.
"""
import pathlib
import re
import socket
import subprocess
import sys
import tempfile
import threading

from stdio import MIXES, TOP, filled, total

# How many commands the two runs have: without waiting for replies, and awaiting each.
PIPELINED, AWAITED = (1_000, 21_000), (1_000, 5_000)
MIX = "half gets, half sets"

# What is asked of the server beside serving, and how it is called.
WATCHED = [
    ("unwatched", []),
    ("--metrics", ["--metrics", "0"]),
    ("--idle-timeout", ["--idle-timeout", "600"]),
    ("--verbose", ["--verbose"]),
    ("all three", ["--metrics", "0", "--idle-timeout", "600", "--verbose"]),
]


def drained(line):
    while line.recv(1 << 18):
        pass


def exchanged(line, commands, awaits):
    """Sends the commands, and takes their replies."""
    line.sendall(b"".join(filled()))
    for _ in filled():
        line.recv(len(b"STORED\r\n"), socket.MSG_WAITALL)
    if awaits:
        for command in commands:
            line.sendall(command)
            # A reply comes in one piece: it is short, and written at once.
            line.recv(1 << 16)
        line.sendall(b"quit\r\n")
        drained(line)
        return
    reader = threading.Thread(target=drained, args=[line])
    reader.start()
    line.sendall(b"".join(commands) + b"quit\r\n")
    reader.join()


def served(program, folder, options, commands, awaits):
    """Serves the commands of one connection, and returns the instructions of the thread that served it."""
    for old in folder.glob("callgrind*"):
        old.unlink()
    valgrind = ["valgrind", "--tool=callgrind", "--separate-threads=yes", f"--callgrind-out-file={folder}/callgrind"]
    server = [program, "--listen", "127.0.0.1:0", "--shards", "1", "--seats", "1", "--connections", "1", *options]
    # Few open files are allowed, so that the server needs no more than valgrind leaves.
    process = subprocess.Popen(["sh", "-c", 'ulimit -n 1024; exec "$@"', "", *valgrind, *server], stderr=subprocess.PIPE, text=True)
    for line in process.stderr:
        if found := re.search(r"listening on 127\.0\.0\.1:(\d+)$", line):
            break
    rest = threading.Thread(target=process.stderr.read)
    rest.start()
    with socket.create_connection(("127.0.0.1", int(found[1]))) as line:
        exchanged(line, commands, awaits)
    if process.wait() != 0:
        raise SystemExit("the program failed under valgrind")
    rest.join()
    # The thread that served did the most, by far.
    return max(total(data) for data in folder.glob("callgrind*") if data.stat().st_size)


def instructions(program, folder, options, counts, awaits):
    command = dict(MIXES)[MIX]
    few, many = (served(program, folder, options, [command(i) for i in range(count)], awaits) for count in counts)
    return (many - few) / (counts[1] - counts[0])


def main():
    program = sys.argv[1] if sys.argv[1:] else str(TOP / "crates/mcd/out/mcd")
    with tempfile.TemporaryDirectory() as folder:
        for way, counts, awaits in (("pipelined", PIPELINED, False), ("awaited", AWAITED, True)):
            plain = None
            for name, options in WATCHED:
                found = instructions(program, pathlib.Path(folder), options, counts, awaits)
                plain = plain or found
                print(f"{way:10}{name:16}{found:10,.1f} instructions a command {100 * (found / plain - 1):+7.2f}%", flush=True)


if __name__ == "__main__":
    main()
