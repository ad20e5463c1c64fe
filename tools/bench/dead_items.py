#!/usr/bin/env python3
"""Measures what dead items cost those that live, and writes a line for each server.

    python3 -m tools.bench.dead_items [--memory 64m] [--live 100000] [--dead 300000] [--new 250000] [--size 50] [PROGRAM]

Stores live items, and beside them items that die after three seconds. Once these are dead it stores new ones, none of which is
asked for, and counts the live items that are left. A server that drops dead items first keeps all; one that drops the least recently
used first drops the live ones, which are the oldest. The same is measured of memcached, if it is installed, which has ten seconds
for its crawler before the new items come. PROGRAM is the built program, crates/mcd/out/mcd by default.
"""
import argparse
import shutil
import socket
import time

from tools.served import MCD, MIB, AnyServer

BATCH = 1_000
LIFE = 3
CRAWLER = 10


class Client(AnyServer):
    """A server, and a connection to it."""

    def __init__(self, words):
        super().__init__(words)
        self.line = socket.create_connection(("127.0.0.1", self.port))
        self.replies = self.line.makefile("rb")

    def store(self, name, count, exptime, size):
        """Stores items under keys of 16 bytes."""
        value = b"v" * size
        for first in range(0, count, BATCH):
            numbers = range(first, min(first + BATCH, count))
            self.line.sendall(b"".join(b"set %s:%011d 0 %d %d\r\n%s\r\n" % (name, it, exptime, size, value) for it in numbers))
            for _ in numbers:
                if self.replies.readline() != b"STORED\r\n":
                    raise SystemExit("an item isn't stored")

    def left(self, name, count):
        """How many of these items are there."""
        found = 0
        for first in range(0, count, BATCH):
            numbers = range(first, min(first + BATCH, count))
            self.line.sendall(b"".join(b"mg %s:%011d\r\n" % (name, it) for it in numbers))
            found += sum(self.replies.readline().startswith(b"HD") for _ in numbers)
        return found

    def stats(self):
        self.line.sendall(b"stats\r\n")
        lines = iter(self.replies.readline, b"END\r\n")
        return dict(it.decode().split()[1:3] for it in lines)


def measured(words, asked, pause):
    with Client(words) as it:
        it.store(b"live", asked.live, 0, asked.size)
        it.store(b"dead", asked.dead, LIFE, asked.size)
        time.sleep(LIFE + 1 + pause)
        it.store(b"new0", asked.new, 0, asked.size)
        stats, resident = it.stats(), it.resident() / MIB
        return (f"{it.left(b'live', asked.live):,} of {asked.live:,} live items left; {stats['curr_items']} items, {stats['evictions']} evicted, "
                f"{resident:.0f} MiB resident")


def main():
    reader = argparse.ArgumentParser(description="What dead items cost those that live.")
    reader.add_argument("program", nargs="?", default=MCD)
    reader.add_argument("--memory", default="64m")
    for name, value in (("--live", 100_000), ("--dead", 300_000), ("--new", 250_000), ("--size", 50)):
        reader.add_argument(name, type=int, default=value)
    asked = reader.parse_args()
    print("mcd:", measured([str(asked.program), "--drop-in", "--listen", "127.0.0.1:{port}", "--memory", asked.memory], asked, 0))
    if shutil.which("memcached"):
        megabytes = asked.memory.lower().removesuffix("b").removesuffix("m")
        words = ["memcached", "-l", "127.0.0.1", "-p", "{port}", "-m", megabytes, "-u", "nobody"]
        print("memcached:", measured(words, asked, CRAWLER))


if __name__ == "__main__":
    main()
