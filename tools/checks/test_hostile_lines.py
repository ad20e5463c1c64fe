"""Connections that behave badly: half-closed, slow, silent, too many, and reset in the middle."""
import random
import threading
import time

import pytest

from tools.served import MIB, STORED, Line, Server, hit_of, set_of

fails_with = pytest.mark.fails_with


@fails_with("closes both ways")
def test_half_closed_connections_get_all_replies(server):
    for tail, wanted in ((b"", b""), (b"get", b""), (b"set b 0 0 5\r\nab", b""), (b"get a\n", hit_of(b"a", b"x" * 9))):
        with Line(server.port) as line:
            line.send(set_of(b"a", b"x" * 9) + b"get a\r\n" * 3000 + tail)
            line.end()
            assert line.rest() == STORED + hit_of(b"a", b"x" * 9) * 3000 + wanted


@fails_with("changes a byte")
def test_replies_are_read_a_byte_at_a_time(server):
    wanted = STORED + hit_of(b"a", bytes(range(256)) * 4) * 20 + b"MN\r\n"
    with Line(server.port, room=2048) as line:
        line.send(set_of(b"a", bytes(range(256)) * 4) + b"get a\r\n" * 20 + b"mn\r\nquit\r\n")
        found = b""
        while got := line.socket.recv(1):
            found += got
        assert found == wanted


@fails_with("changes a byte")
def test_commands_come_a_byte_at_a_time(server):
    value = b"x" * 300
    wanted = STORED + hit_of(b"a", value) + b"VA 300\r\n" + value + b"\r\n"
    with Line(server.port) as line:
        for byte in set_of(b"a", value) + b"get a\r\nmg a v\r\n":
            line.send(bytes([byte]))
        assert line.read(len(wanted)) == wanted


@fails_with("gathers replies")
def test_a_slow_reader_holds_little_memory(count=64):
    """64 MiB of replies are due to a client that doesn't read; then it reads all. One value of 1 MiB, asked for again and
    again, is shared by its replies; small values, which a client asks for without end, are held back by its own sending."""
    value = bytes(range(256)) * 4096
    wanted = hit_of(b"big", value)
    with Server("--seats", 4) as server:
        with Line(server.port) as line:
            line.ask(set_of(b"big", value) + set_of(b"small", b"s" * 100), b"STORED\r\nSTORED\r\n")
            before = server.resident()
            line.send(b"get big\r\n" * count)
            grown = most_of(server, 2) - before
            for _ in range(count):
                assert line.read(len(wanted)) == wanted
        assert grown <= 8 * MIB, f"{grown / MIB:.0f} MiB more are held for it"
        reads_small_replies_late(server, before)
    print(f"{grown / MIB:.1f} MiB more")


def most_of(server, seconds):
    """The most that is resident at any moment of the next `seconds` seconds."""
    until, most = time.monotonic() + seconds, 0
    while time.monotonic() < until:
        most = max(most, server.resident())
        time.sleep(0.05)
    return most


def reads_small_replies_late(server, before):
    count, wanted = 500_000, hit_of(b"small", b"s" * 100)
    with Line(server.port) as line, Line(server.port) as other:
        sender = threading.Thread(target=line.send, args=(b"get small\r\n" * count,), daemon=True)
        sender.start()
        grown = most_of(server, 2) - before
        assert grown <= 8 * MIB, f"{grown / MIB:.0f} MiB more are held for small replies"
        other.ask(b"mn\r\n", b"MN\r\n")
        for _ in range(count // 1000):
            assert line.read(len(wanted) * 1000) == wanted * 1000
        sender.join()


@fails_with("drops connections")
def test_two_hundred_connections_take_turns_on_four_seats():
    with Server("--seats", 4) as server:
        for first in (0, 100):
            lines = [Line(server.port) for _ in range(100)]
            for number, line in enumerate(lines, first):
                line.send(set_of(b"turn%d" % number, b"%d" % number) + b"get turn%d\r\n" % number)
            for number, line in enumerate(lines, first):
                wanted = STORED + hit_of(b"turn%d" % number, b"%d" % number)
                assert line.read(len(wanted)) == wanted
                line.close()


@fails_with("has one seat")
def test_silent_connections_keep_their_seats_alone():
    """Three of four seats are held by clients that say nothing or stop in the middle; the fourth serves on."""
    with Server("--seats", 4) as server:
        held = [Line(server.port) for _ in range(3)]
        for line, said in zip(held, (b"", b"get a", b"set a 0 0 10\r\nabc")):
            line.send(said)
        for _ in range(20):
            with Line(server.port) as line:
                line.ask(set_of(b"b", b"x") + b"get b\r\nget a\r\n", STORED + hit_of(b"b", b"x") + b"END\r\n")
        for line, said, wanted in zip(held, (b"mn\r\n", b"\r\n", b"defghij\r\n"), (b"MN\r\n", b"END\r\n", STORED)):
            line.ask(said, wanted)
            line.close()


@fails_with("resets")
def test_a_client_quits_amid_what_it_sends(server):
    for _ in range(20):
        with Line(server.port) as line:
            line.send(b"mn\r\nquit\r\n" + b"get a\r\n" * 40_000)
            assert line.rest() == b"MN\r\n"


@fails_with("drops connections")
def test_what_came_before_a_reset_is_stored(server, count=40):
    """Each client sends a set without a reply and resets its connection, which doesn't take back what it has sent."""
    for number in range(count):
        line = Line(server.port)
        line.send(b"set k%d 0 0 1 noreply\r\nv\r\n" % number)
        line.reset()
    wanted = b"".join(b"VALUE k%d 0 1\r\nv\r\n" % number for number in range(count)) + b"END\r\n"
    asked = b"get " + b" ".join(b"k%d" % number for number in range(count)) + b"\r\n"
    deadline, found = time.monotonic() + 10, b""
    while found != wanted and time.monotonic() < deadline:
        with Line(server.port) as line:
            line.send(asked)
            line.end()
            found = line.rest()
    assert found == wanted


def counts_up(port, until, faults):
    """The checker beside the kills: its own key is stored, counted up and read, and must have the value that the replies reported."""
    try:
        with Line(port) as line:
            line.ask(set_of(b"checked", b"0"), STORED)
            number = 0
            while not until.is_set():
                number += 1
                text = b"%d" % number
                value = text * 50
                line.ask(b"incr checked 1\r\nget checked\r\n" + set_of(b"other", value) + b"get other\r\n",
                         text + b"\r\n" + hit_of(b"checked", text) + STORED + hit_of(b"other", value))
            faults.append(None if number > 10 else f"only {number} rounds")
    except Exception as why:
        faults.append(f"{type(why).__name__}: {why}")


def killed(port, kind):
    """One client that is reset in the middle of a line, a block, its replies, or a batch that is under way."""
    line = Line(port)
    if kind == 0:
        line.send(b"set torn 0 0 100000\r\n" + b"t" * random.randrange(50_000))
    elif kind == 1:
        line.send(b"get big\r\n" * 8)
        line.read(random.randrange(1, 100_000))
    elif kind == 2:
        line.send(b"get big big big" + b" big" * random.randrange(5))
    else:
        line.send(b"".join(set_of(b"k%d" % number, b"v") + b"get k%d big\r\n" % number for number in range(200)))
    line.reset()


@fails_with("stores torn blocks", "changes a byte")
def test_a_thousand_clients_are_killed(count=1000):
    """Beside them a checker loses nothing; no seat is lost, and no torn block is stored."""
    until, faults = threading.Event(), []
    with Server("--seats", 8) as server:
        with Line(server.port) as line:
            line.ask(set_of(b"big", b"b" * MIB), STORED)
        checker = threading.Thread(target=counts_up, args=(server.port, until, faults))
        checker.start()
        try:
            for number in range(count):
                killed(server.port, number % 4)
        finally:
            until.set()
            checker.join()
        assert faults == [None]
        lines = [Line(server.port) for _ in range(8)]
        for line in lines:
            line.ask(b"get torn\r\nmn\r\n", b"END\r\nMN\r\n")
        for line in lines:
            line.close()


# How connections end that leave their seat: what is sent, what comes, and what the client does then.
LEAVINGS = [
    (b"mn\r\nquit\r\n", b"MN\r\n", Line.rest), (b"mn\r\n", b"MN\r\n", Line.close), (b"", b"", Line.close), (b"", b"", Line.reset),
    (b"set a 0 0 10\r\nhalf", b"", Line.reset), (b"get a", b"", Line.end), (b"get a\r\nmn\r\n", b"END\r\nMN\r\n", Line.reset),
    (b"get " + b"k" * 70_000 + b"\r\n", b"CLIENT_ERROR line too long\r\n", Line.close),
]


@fails_with("loses its seats", "drops connections")
def test_each_seat_serves_one_client_after_another(count=4000):
    """However each of them leaves: both seats are there at the end, and so is the server. One that loses a seat after so many clients, or
    after one that leaves in a certain way, serves none of the last two, or one of them."""
    with Server("--seats", 2) as server:
        for number in range(count):
            sent, wanted, leaves = LEAVINGS[number % len(LEAVINGS)]
            with Line(server.port, timeout=30) as line:
                line.ask(sent, wanted)
                leaves(line)
        lines = [Line(server.port, timeout=30) for _ in range(2)]
        for line in lines:
            line.ask(b"mn\r\n", b"MN\r\n")
        for line in lines:
            line.close()
        assert server.is_running()


@fails_with("ends a connection after a gigabyte", "changes a byte")
def test_one_connection_carries_more_than_a_gigabyte(count=136):
    """Each way: values of 8 MiB are stored and read. A count of bytes of 30 bits would be at its end."""
    value = random.Random(2).randbytes(8 * MIB)
    wanted = hit_of(b"a", value)
    with Server("--value-limit", "8m", "--memory", "64m") as server, Line(server.port) as line:
        for _ in range(count):
            line.ask(set_of(b"a", value), STORED)
            line.send(b"get a\r\n")
            assert line.read(len(wanted)) == wanted
