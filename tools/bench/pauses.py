#!/usr/bin/env python3
"""Measures how long a shard stops: the time without a reply at one connection, while another fills the shard and empties it.

    python3 -m tools.bench.pauses [--items 10000000] [--exptime 0] [--least 5] [PROGRAM]

Stores items with values of 10 bytes, each with this exptime, sends `flush_all`, and stores them again. Meanwhile a connection asks for `stats`, again
and again. A reply for which the server's threads run for more than `--least` milliseconds is a line: for how long it was awaited, for how
much of that they ran (so a busy machine doesn't count), and how many items there were then. PROGRAM is the built program, crates/mcd/out/mcd by default.
"""
import argparse
import os
import pathlib
import tempfile
import threading
import time

from tools import served
from tools.bench.side_by_side import build_load, sent

ITEM_BYTES = 512


def ran(files):
    """For how long the threads of these files have been running, in milliseconds."""
    return sum(int(os.pread(file, 100, 0).split()[0]) for file in files) / 1e6


class Watch(threading.Thread):
    """Asks for `stats`, again and again, and prints what takes long."""

    def __init__(self, server, least):
        super().__init__(daemon=True)
        self.line, self.least = served.Line(server.port, timeout=60), least
        tasks = pathlib.Path(f"/proc/{server.process.pid}/task").iterdir()
        self.files = [os.open(task / "schedstat", os.O_RDONLY) for task in tasks]
        self.phase, self.replies, self.is_over = "", 0, False

    def run(self):
        while not self.is_over:
            before, began, text = ran(self.files), time.monotonic(), b""
            self.line.send(b"stats\r\n")
            while not text.endswith(b"END\r\n"):
                text += self.line.socket.recv(1 << 16)
            took, ran_for = (time.monotonic() - began) * 1e3, ran(self.files) - before
            self.replies += 1
            if ran_for >= self.least:
                items = int(text.partition(b"STAT curr_items ")[2].split()[0])
                print(f"  {self.phase}: {took:,.1f} ms, running for {ran_for:,.1f}; {items:,} items", flush=True)


def main():
    reader = argparse.ArgumentParser(description="How long a shard stops.")
    for option, value in (("--items", 10_000_000), ("--exptime", 0), ("--least", 10)):
        reader.add_argument(option, type=int, default=value)
    reader.add_argument("program", nargs="?", default=served.MCD)
    asked = reader.parse_intermixed_args()
    served.MCD = asked.program
    with tempfile.TemporaryDirectory() as folder, served.Server("--drop-in", "--shards", 1, "--bytes", asked.items * ITEM_BYTES) as server:
        load = build_load(folder)
        options = ["--fill", "--pipeline", "1000", "--value-size", "10", "--exptime", str(asked.exptime), "--keys"]
        sent(load, server, [*options, "1000"])
        watch = Watch(server, asked.least)
        watch.phase = "filling"
        watch.start()
        sent(load, server, [*options, str(asked.items)])
        watch.phase = "flush_all"
        with served.Line(server.port, timeout=60) as line:
            line.ask(b"flush_all\r\n", b"OK\r\n")
        time.sleep(1)
        watch.phase = "filling again"
        sent(load, server, [*options, str(asked.items)])
        watch.is_over = True
        watch.join()
        print(f"{watch.replies:,} replies, {server.most_resident() / served.MIB:,.0f} MiB resident at most, {server.resident() / served.MIB:,.0f} at the end")


if __name__ == "__main__":
    main()
