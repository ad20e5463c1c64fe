"""Many clients: thousands at once, of which some stall and some never read; some that ask now and then; and many thousands of
connections one after another. A client that isn't answered in time fails the check.
"""
import asyncio
import random
import resource
import time

import pytest

from tools.served import MIB, STORED, Line, Server, hit_of, set_of

fails_with = pytest.mark.fails_with

# As many clients as there may be seats, or as many as files may be open here: each is one of ours, and one of the server's.
MAX_FILES = resource.getrlimit(resource.RLIMIT_NOFILE)[1]
CROWD = 4096 if MAX_FILES == resource.RLIM_INFINITY else min(4096, MAX_FILES - 256)
ROUNDS = 6

# So long a reply may take, in seconds.
PATIENCE = 30


@pytest.fixture
def sizes(request):
    """How many connections come one after another, and how many seconds some clients ask once a second."""
    if request.config.getoption("long"):
        return 1_000_000, 300
    return (2_000, 5) if request.config.getoption("seen_to_fail") else (20_000, 15)


async def connected(port):
    reader, writer = await asyncio.open_connection("127.0.0.1", port)
    return reader, writer


async def asked(reader, writer, sent, wanted):
    """Sends it, and expects this reply in time; the seconds that it took."""
    began = time.monotonic()
    writer.write(sent)
    assert await asyncio.wait_for(reader.readexactly(len(wanted)), PATIENCE) == wanted
    return time.monotonic() - began


async def stalls(port, number, until):
    """Stops in the middle of a block until all others were served, and then gets its reply."""
    reader, writer = await connected(port)
    writer.write(b"set stalled%d 0 0 1000\r\n" % number + b"s" * random.randrange(1000))
    await until.wait()
    writer.close()
    return 0


async def never_reads(port, _number, until):
    """Asks for a megabyte of replies, and reads none of them."""
    _, writer = await connected(port)
    writer.write(b"get large\r\n" * 64)
    await until.wait()
    writer.transport.abort()
    return 0


async def asks(port, number, _until):
    """Stores and reads a value of its own, with pauses; the longest that a reply took."""
    reader, writer = await connected(port)
    key, longest = b"crowd%d" % number, 0
    for turn in range(ROUNDS):
        await asyncio.sleep(random.random() * 2)
        value = b"%d" % turn * random.randrange(1, 400)
        took = await asked(reader, writer, set_of(key, value) + b"get %s\r\n" % key, STORED + hit_of(key, value))
        longest = max(longest, took)
    writer.close()
    return longest


async def crowd(port):
    """A tenth of the clients stall, a tenth never read; the longest that a reply to one of the others took."""
    until = asyncio.Event()
    kinds = [stalls, never_reads, *[asks] * 8]
    tasks = [asyncio.ensure_future(kinds[number % 10](port, number, until)) for number in range(CROWD)]
    try:
        return max(await asyncio.gather(*[task for number, task in enumerate(tasks) if number % 10 > 1]))
    finally:
        until.set()
        await asyncio.gather(*tasks, return_exceptions=True)


@fails_with("has few seats")
def test_four_thousand_clients_at_once_are_answered():
    resource.setrlimit(resource.RLIMIT_NOFILE, (MAX_FILES, MAX_FILES))
    with Server("--seats", CROWD) as server:
        with Line(server.port) as line:
            line.ask(set_of(b"large", b"l" * 16_384), STORED)
        longest = asyncio.run(crowd(server.port))
        print(f"{CROWD} clients, {longest:.1f} s the longest, {server.most_resident() / MIB:.0f} MiB")
        with Line(server.port) as line:
            line.ask(b"get stalled0\r\nmn\r\n", b"END\r\nMN\r\n")


async def asks_now_and_then(port, number, seconds):
    reader, writer = await connected(port)
    await asyncio.sleep(number / 64)
    longest, key = 0, b"now%d" % number
    for turn in range(seconds):
        value = b"%d" % turn
        took = await asked(reader, writer, set_of(key, value) + b"get %s\r\n" % key, STORED + hit_of(key, value))
        longest = max(longest, took)
        await asyncio.sleep(1)
    writer.close()
    return longest


async def some_now_and_then(port, seconds):
    return max(await asyncio.gather(*[asks_now_and_then(port, number, seconds) for number in range(64)]))


@fails_with("drops connections")
def test_clients_that_ask_once_a_second_are_answered(server, sizes):
    """All threads of the server sleep between their commands."""
    longest = asyncio.run(some_now_and_then(server.port, sizes[1]))
    print(f"{longest * 1000:.0f} ms the longest, {sizes[1]} s")


def one_connection(port, number):
    """Stores and reads a value, and leaves: by an end, by `quit` or by a reset."""
    key, value = b"one%d" % (number % 1000), b"%d" % number
    with Line(port) as line:
        line.ask(set_of(key, value) + b"get %s\r\n" % key, STORED + hit_of(key, value))
        if number % 3 == 1:
            line.send(b"quit\r\n")
            assert line.rest() == b""
        elif number % 3 == 2:
            line.reset()


@fails_with("takes 4 KiB a connection")
def test_connections_one_after_another_take_nothing_that_stays(server, sizes):
    """What is resident after the first thousand is resident after all, within a megabyte."""
    for number in range(1000):
        one_connection(server.port, number)
    before = server.resident()
    for number in range(1000, sizes[0]):
        one_connection(server.port, number)
    grown = server.resident() - before
    print(f"{sizes[0]} connections, {grown / MIB:.2f} MiB more")
    assert grown <= MIB
