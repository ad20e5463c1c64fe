#!/usr/bin/env python3
"""Measures how the time of `mcd --replay` grows with the number of events.

    tools/bench/replay.py [PROGRAM] [--seed N] [--rounds N]

Each file has three seats and two shards on rings of 4, and events of all ten kinds, made by the seed: short feeds of
sets, gets of one and of three keys, increments and flushes, and all that it takes to answer them, in any order. Of each
length the best of some rounds is printed: CPU seconds, CPU microseconds an event, how many of the events were done, and how
many bytes the report has. If the time is linear in the length, the microseconds stay the same.

PROGRAM is the built program, crates/mcd/out/mcd by default (`rt run` in crates/mcd builds it).
"""
import argparse
import pathlib
import random
import re
import resource
import subprocess
import tempfile

TOP = pathlib.Path(__file__).resolve().parent.parent.parent
LENGTHS = (12_500, 25_000, 50_000, 100_000)
SEATS, SHARDS = 3, 2
HEADER = f"sim {SEATS} {SHARDS} 1048576 4"

# How often each kind of event is in a file, out of 1,000.
KINDS = {"feed": 60, "take": 130, "send": 190, "pop": 220, "give": 140, "receive": 180, "hand": 70, "open": 8, "end": 1, "break": 1}


def command(rng):
    """A short command on one of a hundred keys, or on three of them, or on all."""
    key = f"key{rng.randrange(100)}"
    kind = rng.randrange(20)
    if kind < 8:
        return f"set {key} 0 0 5\r\n{rng.randrange(10_000, 100_000)}\r\n"
    if kind < 14:
        return f"get {key}\r\n"
    if kind < 16:
        return f"get {key} key{rng.randrange(100)} key{rng.randrange(100)}\r\n"
    if kind < 19:
        return f"incr {key} 3\r\n"
    return "flush_all\r\n"


def event(rng, moment):
    """A line of a file."""
    kind = rng.choices(list(KINDS), KINDS.values())[0]
    seat, shard = rng.randrange(SEATS), rng.randrange(SHARDS)
    if kind == "feed":
        text = "".join(command(rng) for _ in range(rng.randint(1, 4)))
        return f"feed {seat} {text.encode().hex()}"
    if kind == "take":
        return f"take {seat} {moment}"
    if kind == "pop":
        return f"pop {shard} {seat}"
    if kind == "give":
        return f"give {shard}"
    if kind == "receive":
        return f"receive {seat} {shard}"
    return f"{kind} {seat}"


def schedule(seed, length):
    """A file of `length` events; a second passes after each hundred of them."""
    rng = random.Random(seed)
    lines = [HEADER] + [f"open {seat}" for seat in range(SEATS)]
    lines += [event(rng, 1_000 + count // 100) for count in range(length - SEATS)]
    return "\n".join(lines).encode() + b"\n"


def spent():
    """The CPU seconds that ended children have spent, in the program and in the system."""
    used = resource.getrusage(resource.RUSAGE_CHILDREN)
    return used.ru_utime + used.ru_stime


def run(program, path, rounds):
    """The least CPU time of some rounds, and what the program printed."""
    best, report = None, b""
    for _ in range(rounds):
        began = spent()
        report = subprocess.run([program, "--replay", str(path)], stdout=subprocess.PIPE, check=True).stdout
        taken = spent() - began
        best = taken if best is None else min(best, taken)
    return best, report


def main():
    given = argparse.ArgumentParser(description=__doc__.splitlines()[0])
    given.add_argument("program", nargs="?", default=str(TOP / "crates/mcd/out/mcd"))
    given.add_argument("--seed", type=int, default=1)
    given.add_argument("--rounds", type=int, default=9)
    given = given.parse_args()
    print("| events | CPU seconds | CPU µs an event | done | bytes printed |")
    print("|---|---|---|---|---|")
    with tempfile.TemporaryDirectory() as folder:
        path = pathlib.Path(folder) / "events.schedule"
        for length in LENGTHS:
            path.write_bytes(schedule(given.seed, length))
            seconds, report = run(given.program, path, given.rounds)
            done = int(re.search(rb"done (\d+) idle \d+\n$", report)[1])
            print(f"| {length:,} | {seconds:.3f} | {seconds / length * 1e6:.2f} | {done:,} | {len(report):,} |")


if __name__ == "__main__":
    main()
