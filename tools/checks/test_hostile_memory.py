"""How much memory clients can make the server take. The bounds are those of the table in docs/SECURITY.md.

Beside the faults that stand in for the program five were built into the program itself. A form that takes 768 bytes more for each
key let `lines_of_32766_keys_are_bounded` find 2,266 MiB and `the_sum_holds_for_all_together` 658; a shard that keeps the items that
were replaced let `unread_replies_hold_what_they_show` find 50 MiB where all replies had been read; a line that keeps the room in
which its replies waited let `written_replies_leave_their_lines` find 9; room for 8 MiB for each open block let
`open_blocks_take_little_address_space` find 512; and a line whose room isn't renewed let `a_long_line_leaves_no_room_behind` find 128.
"""
import os
import re
import time

import pytest

from tools.served import MIB, STORED, TOP, Line, Server, hit_of, set_of

fails_with = pytest.mark.fails_with

SEATS = 64
BUDGET = 4 * MIB
SHARDS = 2
VALUE_LIMIT = MIB


def term(name):
    """The number in the second column of a row of the table."""
    text = (TOP / "docs/SECURITY.md").read_text()
    return float(re.search(rf"^\| {name} \| ([\d.]+) ", text, re.M)[1])


def served():
    return Server("--seats", SEATS, "--shards", SHARDS, "--bytes", BUDGET)


def grown(server, sends):
    """How much more is resident at most once each of 64 connections has sent its bytes; and they are all still there."""
    before, lines = server.resident(), [Line(server.port) for _ in range(SEATS)]
    for number, line in enumerate(lines):
        line.send(sends(number))
    wait_until_still(server)
    most = server.most_resident() - before
    for line in lines:
        line.reset()
    return most


def wait_until_still(server):
    """Until no processor time was taken for a while, and at most 20 seconds."""
    until, before = time.monotonic() + 20, -1
    while server.cpu_seconds() != before and time.monotonic() < until:
        before = server.cpu_seconds()
        time.sleep(0.3)


def within(most, bound):
    print(f"{most / MIB:.1f} of {bound / MIB:.1f} MiB")
    assert most <= bound


@fails_with("takes 64 MiB")
def test_an_idle_server_is_small():
    with Server("--seats", 64, "--shards", 16) as server:
        wait_until_still(server)
        within(server.most_resident(), term("program") * MIB)


@fails_with("takes 1 MiB a connection")
def test_lines_without_end_are_bounded():
    with served() as server:
        within(grown(server, lambda _: b"k" * 65_535), SEATS * term("line") * MIB)


@fails_with("takes 1 MiB a connection")
def test_announced_gigabytes_are_not_held():
    with served() as server:
        within(grown(server, lambda _: b"set k 0 0 4294967295\r\n" + b"v" * 200_000), SEATS * term("line") * MIB)


@fails_with("takes 4 MiB for what is open")
def test_open_blocks_take_little_address_space():
    """What is taken and not written to isn't resident, but counts if the system limits what is taken (ulimit -v)."""
    with served() as server:
        lines = [Line(server.port) for _ in range(SEATS)]
        for line in lines:
            line.ask(set_of(b"k", b"v" * 1000), STORED)
        before = server.taken()
        for line in lines:
            line.send(b"set k 0 0 1000\r\n" + b"v" * 500)
        wait_until_still(server)
        within(server.taken() - before, SEATS * term("line") * MIB)
        for line in lines:
            line.ask(b"v" * 500 + b"\r\n", STORED)
            line.close()


@fails_with("takes 4 MiB for what is open")
def test_a_long_line_leaves_no_room_behind():
    """Each of 16 connections sends a line of 8 MiB, and stays: of its room no more than that of a short line is kept."""
    with Server("--seats", 16, "--line-limit", "8m") as server:
        lines = [Line(server.port) for _ in range(16)]
        for line in lines:
            line.ask(b"mn\r\n", b"MN\r\n")
        before = server.resident()
        for line in lines:
            line.ask(b"mn" + b" " * (8 * MIB - 3) + b"\n", b"MN\r\n")
        wait_until_still(server)
        within(server.resident() - before, 16 * term("line") * MIB)


@fails_with("takes 4 MiB for what is open")
def test_a_line_of_keys_leaves_no_room_behind():
    """Each of 16 connections requests 30,000 keys at once, and stays: the room of its pieces is freed."""
    with Server("--seats", 16, "--line-limit", "1m") as server:
        lines = [Line(server.port) for _ in range(16)]
        for line in lines:
            line.ask(b"mn\r\n", b"MN\r\n")
        before = server.resident()
        for line in lines:
            line.ask(b"get" + b" key" * 30_000 + b"\r\n", b"END\r\n")
        wait_until_still(server)
        within(server.resident() - before, 24 * MIB)


@fails_with("takes 1 MiB a connection")
def test_one_connection_after_another_takes_what_one_does():
    """Of each four one sends a line without end, one a block that is cut short, one a value, and one requests a line of keys."""
    keys = b"get " + b" ".join(b"%04x" % it for it in range(13_000)) + b"\r\n"
    with served() as server:
        before = server.resident()
        for number in range(200):
            value = set_of(b"v%d" % (number % 7), b"v" * 500_000)
            for asked, wanted in (b"x" * 65_000, b""), (b"set cut 0 0 1000000\r\n" + b"v" * 900_000, b""), (value, STORED), (keys, b"END\r\n"):
                with Line(server.port) as line:
                    line.ask(asked, wanted)
        bound = (term("line") + term("commands")) * MIB + term("value") * VALUE_LIMIT + SHARDS * BUDGET
        within(server.most_resident() - before, bound)


@fails_with("takes 4 MiB a connection")
def test_values_but_for_a_byte_are_bounded():
    with served() as server:
        bound = SEATS * (term("line") * MIB + term("value") * VALUE_LIMIT)
        within(grown(server, lambda number: b"set k%d 0 0 %d\r\n" % (number, VALUE_LIMIT) + b"v" * (VALUE_LIMIT + 1)), bound)


@fails_with("takes 64 MiB a connection")
def test_lines_of_32766_keys_are_bounded():
    with served() as server:
        with Line(server.port) as line:
            line.ask(set_of(b"k", b"x" * 1000), STORED)
        within(grown(server, lambda _: b"get" + b" k" * 32_766 + b"\n"), SEATS * (term("line") + term("commands") + term("text")) * MIB)


# A server whose clients share 64 MiB, and 500 clients.
SHARED, SHARING, CLIENTS = 64 * MIB, ("--seats", 600, "--memory", "64m", "--client-memory", "64m"), 500
REFUSED = b"SERVER_ERROR out of memory\r\n"


def is_served(line, number):
    """A client beside the others stores and gets a value."""
    value = b"%d" % number
    line.ask(set_of(value, value) + b"get " + value + b"\r\n", STORED + hit_of(value, value))


def leave(server, beside, lines, before):
    """Once they have left, what they held is free again, ten seconds later at the latest."""
    for line in lines:
        line.reset()
    bound, until, number = before + 32 * MIB + len(lines) * 12 * 1024, time.monotonic() + 10, 0
    while server.resident() > bound and time.monotonic() < until:
        number += 1
        is_served(beside, number)
        time.sleep(0.02)
    within(server.resident() - before, bound - before)


@fails_with("ignores the memory of clients")
def test_open_blocks_share_the_memory_of_clients():
    """Each of 500 clients sends a value of 1 MiB but for its last byte. Those for which there is no memory are refused at the end."""
    with Server(*SHARING) as server, Line(server.port) as beside:
        is_served(beside, 0)
        before, lines = server.resident(), []
        for number in range(CLIENTS):
            lines.append(Line(server.port))
            lines[-1].send(b"set k%d 0 0 %d\r\n" % (number, MIB) + b"v" * MIB + b"\r")
            if number % 50 == 0:
                is_served(beside, number)
        wait_until_still(server)
        within(server.most_resident() - before, SHARED + CLIENTS * term("line") * MIB)
        # One of those that came first has memory, and the last has none.
        lines[0].ask(b"\n", STORED)
        lines[-1].ask(b"\n", REFUSED)
        is_served(beside, CLIENTS)
        leave(server, beside, lines, before)
        beside.ask(set_of(b"large", b"v" * MIB), STORED)


@fails_with("ignores the memory of clients")
def test_replies_that_nobody_reads_share_the_memory_of_clients():
    """Each of 12 clients asks for 16 MiB of short values at a time, and reads nothing. Some are closed, and the others wait."""
    with Server(*SHARING) as server, Line(server.port) as beside:
        beside.ask(set_of(b"v", b"x" * 2_000), STORED)
        before, lines = server.resident(), []
        for number in range(12):
            lines.append(Line(server.port))
            lines[-1].send(b"get" + b" v" * 8_000 + b"\r\n")
            wait_until_still(server)
            is_served(beside, number)
        within(server.most_resident() - before, SHARED + term("text") / 8 * MIB)
        leave(server, beside, lines, before)


def fill(line, budget):
    """Stores the smallest items that there are, twice as many as there is room for."""
    count, most = 2 * budget // 69, 10_000
    for first in range(0, count, most):
        line.ask(b"".join(b"ms %04x 1 q\r\n1\r\n" % number for number in range(first, first + most)) + b"mn\r\n", b"MN\r\n")


@fails_with("takes 64 MiB a connection")
def test_small_items_take_few_times_their_cost():
    with Server("--seats", 16, "--shards", SHARDS, "--bytes", BUDGET) as server, Line(server.port) as line:
        before = server.resident()
        fill(line, SHARDS * BUDGET)
        within(server.most_resident() - before, term("items") * SHARDS * BUDGET)


def waiting(server, stores, keys, turn, asked):
    """A connection that asked for items of 1 MiB each, which are new for it, and reads nothing."""
    for key in keys:
        stores.ask(set_of(key, bytes([65 + turn]) * MIB), STORED)
    line = Line(server.port)
    line.send(asked)
    wait_until_still(server)
    return line


@fails_with("takes 16 MiB a connection", "changes a byte")
def test_unread_replies_hold_what_they_show():
    """Items that were replaced since they were fetched stay until their replies are read, and they are right; then they go."""
    keys = [b"v%d" % number for number in range(6)]
    with Server("--seats", 16, "--shards", SHARDS, "--bytes", BUDGET) as server, Line(server.port) as stores:
        before = server.resident()
        lines = [waiting(server, stores, keys, turn, b"get " + b" ".join(keys) + b"\r\n") for turn in range(8)]
        within(server.most_resident() - before, (1 + 8) * SHARDS * BUDGET + 9 * term("line") * MIB)
        for turn, line in enumerate(lines):
            wanted = b"".join(b"VALUE %s 0 %d\r\n%s\r\n" % (key, MIB, bytes([65 + turn]) * MIB) for key in keys) + b"END\r\n"
            assert line.read(len(wanted)) == wanted
            line.close()
        wait_until_still(server)
        within(server.resident() - before, 4 * SHARDS * BUDGET)


def test_written_replies_leave_their_lines():
    """Each of 63 connections takes windows of replies, each longer than the last: the room in which they waited doesn't stay with it.
    A window of short replies comes first, since what is kept of each open command stays resident."""
    reply = b"VALUE k 0 500\r\n" + b"x" * 500 + b"\r\nEND\r\n"
    with served() as server, Line(server.port) as stores:
        stores.ask(set_of(b"k", b"x" * 500), STORED)
        lines = [Line(server.port) for _ in range(SEATS - 1)]
        for line in lines:
            line.ask(b"get m\r\n" * 250, b"END\r\n" * 250)
        before = server.resident()
        for count in (16, 32, 64, 128, 250):
            for line in lines:
                line.ask(b"get k\r\n" * count, reply * count)
        wait_until_still(server)
        within(server.resident() - before, 2 * MIB)


@fails_with("takes 64 MiB a connection")
def test_the_sum_holds_for_all_together():
    """Each seat but one holds a line of as many keys as there may be, whose reply shows items that were replaced since and isn't
    read. Then the smallest items fill the shards."""
    seats, values = 16, [b"v%d" % number for number in range(6)]
    asked = b"get " + b" ".join(values) + b" k" * 32_740 + b"\r\n"
    with Server("--seats", seats, "--shards", SHARDS, "--bytes", BUDGET) as server, Line(server.port) as stores:
        lines = [waiting(server, stores, values, turn, asked) for turn in range(seats - 1)]
        fill(stores, SHARDS * BUDGET)
        within(server.most_resident(), bound_of(seats, SHARDS * BUDGET))
        for line in lines:
            line.reset()


def environment_of_the_unit():
    """The environment in which packaging/mcd.service starts the program."""
    line = re.search(r"^Environment=(MALLOC_.*)$", (TOP / "packaging/mcd.service").read_text(), re.M)
    return {**os.environ, **dict(it.split("=") for it in (line[1].split() if line else []))}


@fails_with(("packaging/mcd.service", r"\nEnvironment=MALLOC_.*", ""))
def test_what_clients_held_is_returned_to_the_system():
    """Each of 200 clients sends a line of keys, and each of 200 a block that lacks its last byte. Little stays once they have left."""
    sent = b"get" + b" key" * 30_000 + b"\r\n", b"set k 0 0 1048576\r\n" + b"v" * MIB
    with Server("--drop-in", "--memory", "64m", env=environment_of_the_unit()) as server:
        wait_until_still(server)
        before = server.resident()
        for each in sent:
            lines = [Line(server.port) for _ in range(200)]
            for line in lines:
                line.send(each)
            wait_until_still(server)
            for line in lines:
                line.reset()
        wait_until_still(server)
        within(server.resident() - before, 64 * MIB)


def bound_of(seats, budgets):
    """The sum of docs/SECURITY.md."""
    seat = (term("line") + term("commands") + term("text")) * MIB + term("value") * VALUE_LIMIT + budgets
    return term("program") * MIB + term("items") * budgets + seats * seat
