"""No connection waits forever beside another one (docs/PROOFS.md): a client that awaits each reply, beside one that
sends commands without end, and beside some that hardly read their replies.

Both ask the same shard, so that its worker has a full lane beside one with a single piece. In each round the client's 99th
percentile is taken alone and beside the load; the median of the rounds beside the load is at most ten times the median of those
alone, and each of its replies comes and is its own. The load must be one: it has at least 20,000 replies a second. Where the
machine is busy with other work, the system's time slices come between: so the rounds are run up to three times, and the first
time in which the bound holds decides. A wrong or a missing reply fails at once.

The same beside one that sends commands that no shard is asked for. Its seat always finds something to do, and the shard of the same thread
has its turns all the same: a reply comes within a tenth of a second, where it takes some milliseconds.

Then the same beside eight clients that ask for values of 64 KiB and read a few bytes now and then: their replies wait, and take
nothing from the others. The bound is three times, though on a quiet machine it is hardly more than alone.
"""
import functools
import multiprocessing
import signal
import socket
import statistics
import time

import pytest

from tools.served import Line, Server

ROUNDS, COMMANDS = 5, 3000

# How many times as long the 99th percentile may be beside the load.
MAX_TIMES = 10

# How often the rounds are run until the bound holds.
ATTEMPTS = 3

# The fewest replies a second with which the load is one.
MIN_RATE = 20_000

# That bound, beside clients that hardly read.
MAX_TIMES_UNREAD = 3

# The most microseconds of the 99th percentile beside commands that no shard is asked for.
LATEST = 100_000

# The number of clients that hardly read.
SLOW = 8

KEY = b"fairness"
STORED, VALUE = b"set %s 0 0 5\r\nvalue\r\n" % KEY, b"VALUE %s 0 5\r\nvalue\r\nEND\r\n" % KEY
ASKED = b"get %s\r\n" % KEY
LARGE = b"set large 0 0 65536\r\n%s\r\n" % (b"l" * 65536)
BATCH = 4096


def sends_without_end(port, replies, ends, asked=ASKED, reply=VALUE):
    """Sends a command as fast as it is taken, and reads the replies as they come. It never waits for its last command."""
    signal.signal(signal.SIGTERM, signal.SIG_DFL)
    line = socket.create_connection(("127.0.0.1", port))
    line.setblocking(False)
    batch, rest, count = asked * BATCH, b"", 0
    while not ends.is_set():
        if not rest:
            rest = batch
        moved = False
        try:
            rest = rest[line.send(rest):]
            moved = True
        except BlockingIOError:
            pass
        try:
            count += len(line.recv(1 << 18))
            moved = True
        except BlockingIOError:
            pass
        if not moved:
            time.sleep(0.0001)
        replies.value = count // len(reply)


def hardly_reads(port, replies, ends):
    """Asks for large values, and reads a few bytes of the replies a hundred times a second, each time of all its connections."""
    signal.signal(signal.SIGTERM, signal.SIG_DFL)
    lines = [socket.create_connection(("127.0.0.1", port)) for _ in range(SLOW)]
    for line in lines:
        line.send(b"get large\r\n" * 200)
    while not ends.is_set():
        for line in lines:
            replies.value += len(line.recv(512))
        time.sleep(0.01)


def percentile(times):
    """The 99th of a hundred, in microseconds."""
    return sorted(times)[len(times) * 99 // 100] / 1000


def asks(line, commands):
    """Awaits the reply to each of `commands` commands, and returns how long each took, in nanoseconds."""
    times = []
    for _ in range(commands):
        began = time.perf_counter_ns()
        line.send(ASKED)
        found = line.read(len(VALUE))
        times.append(time.perf_counter_ns() - began)
        if found != VALUE:
            raise AssertionError(f"{found!r:.80} in place of the value")
    return times


def beside(port, commands, others):
    """The client's 99th percentile beside the others, and how much a second they had of their replies meanwhile."""
    replies, ends = multiprocessing.Value("Q", 0), multiprocessing.Event()
    load = multiprocessing.Process(target=others, args=(port, replies, ends), daemon=True)
    load.start()
    try:
        with Line(port) as line:
            asks(line, 200)
            # On a busy machine the others may begin later than all of this client's commands would take.
            until = time.monotonic() + 10
            while not replies.value and time.monotonic() < until:
                asks(line, 10)
            before, began = replies.value, time.perf_counter()
            taken = percentile(asks(line, commands))
            return taken, (replies.value - before) / (time.perf_counter() - began)
    finally:
        ends.set()
        load.join(10)
        load.kill()


def alone(port, commands):
    with Line(port) as line:
        asks(line, 200)
        return percentile(asks(line, commands))


def measured(port, others):
    """The medians of the rounds: the client's 99th percentile alone and beside the others, and what they had a second."""
    pairs = []
    for number in range(ROUNDS):
        quiet, (loaded, rate) = alone(port, COMMANDS), beside(port, COMMANDS, others)
        print(f"round {number}: 99 of 100 within {quiet:.0f} µs alone, {loaded:.0f} µs beside {rate:,.0f} a second", flush=True)
        pairs.append((quiet, loaded, rate))
    return [statistics.median(column) for column in zip(*pairs)]


@pytest.fixture(scope="module")
def port():
    with Server("--seats", 2 + SLOW, "--shards", 1) as server:
        with Line(server.port) as line:
            line.ask(STORED + LARGE, b"STORED\r\n" * 2)
        yield server.port


def test_beside_a_load(port):
    for _ in range(ATTEMPTS):
        quiet, loaded, rate = measured(port, sends_without_end)
        if rate >= MIN_RATE and loaded <= MAX_TIMES * quiet:
            break
    assert rate >= MIN_RATE
    assert loaded <= MAX_TIMES * quiet


def test_beside_one_that_asks_no_shard(port):
    _quiet, loaded, rate = measured(port, functools.partial(sends_without_end, asked=b"mn\r\n", reply=b"MN\r\n"))
    assert rate >= MIN_RATE
    assert loaded <= LATEST


def test_beside_slow_readers(port):
    for _ in range(ATTEMPTS):
        quiet, loaded, _rate = measured(port, hardly_reads)
        if loaded <= MAX_TIMES_UNREAD * quiet:
            break
    assert loaded <= MAX_TIMES_UNREAD * quiet
