"""The soak (tools/bench/soak.py), and that its checker sees the faults that it looks for: they are put in, by a proxy that spoils one
reply, or by a stranger who changes the checker's items.
"""
import socket
import threading
import time

import pytest

from tools.bench import soak as soaking
from tools.bench.soak_checker import KEYS, Checker
from tools.served import Line, Server, set_of

fails_with = pytest.mark.fails_with


# After `AT_LINE` lines of replies the fault comes, at a line that is longer than `LENGTH` bytes.
AT_LINE, LENGTH = 300, 12

# What a proxy makes of that line, of the one before it, and of one long before it.
SPOILED = {
    "dropped": lambda line, before, old: [before],
    "doubled": lambda line, before, old: [before, line, line],
    "torn": lambda line, before, old: [before, line[:6] + bytes([line[6] ^ 1]) + line[7:]],
    "shortened": lambda line, before, old: [before, line[:6] + line[7:]],
    "exchanged": lambda line, before, old: [line, before],
    "foreign": lambda line, before, old: [before, old],
}


def relay(source, target):
    """Passes on what comes, until either side has gone."""
    try:
        while got := source.recv(1 << 16):
            target.sendall(got)
        target.shutdown(socket.SHUT_WR)
    except OSError:
        pass


def relay_spoiled(server, client, spoil):
    """Passes on the replies, piece by piece. Of a piece with a line as is looked for that line is spoiled, once."""
    count, old = 0, None
    try:
        while got := server.recv(1 << 16):
            lines = got.splitlines(keepends=True)
            count += len(lines)
            old = old or next((line for line in lines if len(line) > LENGTH), None)
            place = next((at for at in range(1, len(lines)) if len(lines[at]) > LENGTH and lines[at] not in (lines[at - 1], old)), None)
            if spoil and count > AT_LINE and place:
                lines[place - 1 : place + 1] = spoil(lines[place], lines[place - 1], old)
                spoil = None
            client.sendall(b"".join(lines))
    except OSError:
        pass


def spoils(server, client, spoil, honest=relay_spoiled):
    """Spoils a reply even if none is to be spoiled."""
    honest(server, client, spoil or SPOILED["torn"])


class LooksAway(Checker):
    """A checker that asks for nothing."""

    def round(self):
        time.sleep(0.1)


class Proxy:
    """A proxy between one client and the server, which spoils one of the replies."""

    def __init__(self, port, spoil):
        self.listener = socket.create_server(("127.0.0.1", 0))
        self.port = self.listener.getsockname()[1]
        threading.Thread(target=self.serve, args=(port, spoil), daemon=True).start()

    def serve(self, port, spoil):
        client, _ = self.listener.accept()
        server = socket.create_connection(("127.0.0.1", port))
        threading.Thread(target=relay, args=(client, server), daemon=True).start()
        relay_spoiled(server, client, spoil)


def sees(port, seconds=8):
    """What a checker that runs for so long says of the fault that it sees, if it sees one."""
    checker, until = Checker(port, b"it", False, 1, timeout=4), time.monotonic() + seconds
    try:
        while time.monotonic() < until:
            checker.round()
    except Exception as why:
        return f"{type(why).__name__}: {why}"
    return None


@fails_with(("Checker", "LooksAway"))
def test_spoiled_replies_are_seen():
    for name, spoil in SPOILED.items():
        with Server() as server:
            assert sees(Proxy(server.port, spoil).port), f"a reply that was {name} wasn't seen"


@fails_with(("relay_spoiled", "spoils"))
def test_an_honest_proxy_is_seen_as_one():
    with Server() as server:
        fault = sees(Proxy(server.port, None).port, seconds=2)
    assert not fault, fault


def strangers(port, change):
    """Waits until the checker has stored items, and changes them."""
    keys = [b"it-%d" % number for number in range(KEYS)]
    time.sleep(0.7)
    with Line(port) as line:
        line.send(b"".join(change(key) for key in keys) + b"quit\r\n")
        line.rest()


@fails_with(("Checker", "LooksAway"))
def test_strangers_are_seen():
    """A stranger removes the checker's items, writes others under its keys, lets them expire, counts its counter up, flushes."""
    changes = {
        "removed": lambda key: b"delete %s\r\n" % key,
        "foreign": lambda key: set_of(key, b"foreign"),
        "lengthened": lambda key: b"append %s 0 0 1\r\n+\r\n" % key,
        "expired": lambda key: b"touch %s -1\r\n" % key,
        "counted twice": lambda key: b"incr it-count 1\r\n",
        "flushed": lambda key: b"flush_all\r\n",
    }
    for name, change in changes.items():
        with Server() as server:
            stranger = threading.Thread(target=strangers, args=(server.port, change))
            stranger.start()
            found = sees(server.port)
            stranger.join()
            assert found, f"items that were {name} weren't seen"


@fails_with("drops connections", "changes a byte", "takes 1 MiB a connection")
def test_a_short_soak():
    assert [note for holds, note in soaking.soak(6) if not holds] == []


def test_the_soak_beside_them(soak):
    if not soak:
        pytest.skip("no soak runs beside the tests (--soak SECONDS)")
    print(soak.stdout.read().decode())
    assert soak.wait() == 0
