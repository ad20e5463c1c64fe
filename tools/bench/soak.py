#!/usr/bin/env python3
"""Runs mixed load against two servers for as long as is said, with checkers beside it that miss nothing.

    tools/bench/soak.py [--rest SECONDS] [--seed N] [SECONDS]     60 by default

One server has room for everything: there no item may get lost. The other is small and is flushed again and again: there
items may go, and nothing else. On both checkers on keys of their own (`soak_checker.py`) know each reply beforehand: none may
be lost, doubled, torn, late, foreign or out of date. Beside them other clients load the server, send noise, come and go, stall,
and are cut or killed in the middle of what they send and read. Memory that is resident may not grow after the first minute, or
the first third of a shorter run. With --rest each client rests so long between its rounds: so an hour's run leaves the machine
to others.
"""
import argparse
import multiprocessing
import pathlib
import random
import sys
import time

sys.path.insert(0, str(pathlib.Path(__file__).resolve().parents[2]))

from tools.bench.soak_checker import Checker  # noqa: E402
from tools.served import MIB, Line, Server, bounded, equal, needs_program, set_of  # noqa: E402

# How often a second memory is read.
LOOKS = 10


# Those beside the checkers.


def load(port, chance, _small):
    """Many keys of all sizes, stored and fetched in batches, and one line that asks for many."""
    with Line(port) as line:
        for _ in range(chance.randrange(1, 30)):
            keys = [b"load-%d" % chance.randrange(2000) for _ in range(chance.randrange(1, 100))]
            sent = b"".join(set_of(key, b"l" * chance.choice((1, 50, 500, 2000))) if chance.random() < 0.3 else b"get %s\r\n" % key for key in keys)
            line.send(sent + b"get " + b" ".join(keys) + b"\r\nmn\r\n")
            end = b""
            while not end.endswith(b"END\r\nMN\r\n"):
                got = line.socket.recv(1 << 18)
                if not got:
                    raise AssertionError("lost: the connection of the load ends")
                end = (end + got)[-16:]


def kill(port, chance, _small):
    """Killed in the middle of a block, of a line, or of replies."""
    for _ in range(20):
        line = Line(port)
        line.send(chance.choice((b"set load-1 0 0 9000\r\n" + b"t" * 4000, b"get load-1 loa", b"get load-1\r\n" * 300, b"flush")))
        if chance.random() < 0.5:
            line.socket.settimeout(0.01)
            try:
                line.socket.recv(100)
            except OSError:
                pass
        line.reset()


def noise(port, chance, _small):
    """Bytes at random, and lines with faults."""
    for _ in range(10):
        with Line(port) as line:
            try:
                line.send(chance.randbytes(chance.randrange(3000)) + b"\r\nset a b c d\r\nget\r\nms x\r\nma \0\r\n")
                line.end()
                line.rest()
            except OSError:
                pass  # it may be closed before it has sent all


def come_and_go(port, chance, _small):
    for _ in range(50):
        with Line(port) as line:
            if chance.random() < 0.7:
                line.ask(b"mn\r\n", b"MN\r\n")


def stall(port, chance, _small):
    """Stops in the middle of a block, and leaves replies unread, and goes on after a while."""
    block, asked = set_of(b"stalled-%d" % chance.randrange(10), b"s" * 5000), 2000
    place = chance.randrange(len(block))
    with Line(port) as line:
        line.send(block[:place])
        time.sleep(chance.random())
        line.ask(block[place:], b"STORED\r\n")
        line.send(b"mn\r\n" * asked)
        time.sleep(chance.random())
        equal(line.read(4 * asked), b"MN\r\n" * asked)


def cut(port, chance, _small):
    """Ends what it sends in the middle of a command: those before it are answered, and no more."""
    command = chance.choice((set_of(b"cut", b"c" * 100), b"get load-1 load-2\r\n", b"flush_all\r\n"))
    with Line(port) as line:
        line.send(b"mn\r\n" + command[: chance.randrange(1, len(command) - 1)])
        line.end()
        equal(line.rest(), b"MN\r\n")


def flush(port, chance, small):
    """On the small server alone: flushes, now and soon, and large values that drive others out."""
    if not small:
        return time.sleep(0.1)
    with Line(port) as line:
        line.ask(chance.choice((b"flush_all\r\n", b"flush_all 1\r\n", b"flush_all -1\r\n")), b"OK\r\n")
        for number in range(10):
            line.ask(set_of(b"large-%d" % number, b"L" * 300_000), b"STORED\r\n")
    time.sleep(0.05)


ACTS = (load, load, load, kill, noise, come_and_go, stall, cut, flush)


class Pace:
    """How long a client goes on, and how long it rests after each of its rounds."""

    def __init__(self, seconds, rest):
        self.until, self.rest = time.monotonic() + seconds, rest

    def goes_on(self):
        time.sleep(self.rest)
        return time.monotonic() < self.until


def check(port, pace, seed, name, may_vanish):
    """Runs a checker, and says how many commands it checked."""
    checker = Checker(port, name, may_vanish, seed)
    while pace.goes_on():
        checker.round()
    return f"{checker.count} commands of the {name.decode()} checker are answered as they must be"


def disturb(port, pace, seed, small):
    """Disturbs, and says how often."""
    chance, count = random.Random(seed), 0
    while pace.goes_on():
        chance.choice(ACTS)(port, chance, small)
        count += 1
    return f"{count} times another client was served, or cut, or gone"


def reported(given, run, *its):
    """Runs a client, and returns whether it found what it must, and what it says."""
    try:
        given.put((True, run(*its)))
    except Exception as why:
        given.put((False, f"{type(why).__name__}: {why}"))


def begun(server, small, pace, seed):
    """Starts the clients of one server; returns them, and where they report."""
    given = multiprocessing.Queue()
    runs = [(check, seed + at, name, small) for at, name in enumerate((b"first", b"second"))]
    runs += [(disturb, seed + at, small) for at in (10, 11)]
    clients = [multiprocessing.Process(target=reported, args=(given, run, server.port, pace, *its), daemon=True) for run, *its in runs]
    for client in clients:
        client.start()
    return clients, given


def memory_of(servers, seconds):
    """What is resident of each server, again and again."""
    seen, until = [[] for _ in servers], time.monotonic() + seconds
    while time.monotonic() < until:
        for server, found in zip(servers, seen):
            found.append(server.resident())
        time.sleep(1 / LOOKS)
    return seen


def is_flat(seen):
    """Whether no more is resident after the first minute than until then, or hardly more. Of a shorter run the first third counts."""
    first = min(60 * LOOKS, len(seen) // 3)
    return max(seen[first:]) < 1.25 * max(seen[:first]) + 8 * MIB


def judged(what, server, found, clients, given):
    """Of one server, what its clients report, how much memory it took, and whether it still runs: each with whether it holds."""
    for _ in clients:
        holds, note = given.get(timeout=60)
        yield holds, f"{what}: {note}"
    yield is_flat(found), f"{what}: memory stays ({min(found) / MIB:.0f} to {max(found) / MIB:.0f} MiB, at the end {found[-1] / MIB:.0f})"
    yield server.is_running(), f"{what}: the server still runs, and took {server.cpu_seconds():.0f} s of a processor"


def soak(seconds, rest=0, seed=7):
    pace = Pace(seconds, rest)
    with Server("--seats", 8, "--bytes", 128 * MIB) as roomy, Server("--seats", 8, "--bytes", MIB) as small:
        of_roomy, of_small = begun(roomy, False, pace, seed), begun(small, True, pace, seed + 100)
        in_roomy, in_small = memory_of((roomy, small), seconds)
        return [*judged("roomy", roomy, in_roomy, *of_roomy), *judged("small", small, in_small, *of_small)]


def main():
    parser = argparse.ArgumentParser(description=__doc__.splitlines()[0])
    parser.add_argument("seconds", nargs="?", type=float, default=60)
    parser.add_argument("--rest", type=float, default=0)
    parser.add_argument("--seed", type=int, default=7)
    given = parser.parse_args()
    needs_program()
    bounded(int(given.seconds) + 300)
    found = soak(given.seconds, given.rest, given.seed)
    print(*(f"{'ok' if holds else 'FAILED'} soak, {note}" for holds, note in found), sep="\n")
    return 0 if all(holds for holds, _ in found) else 1


if __name__ == "__main__":
    sys.exit(main())
