"""What clients see of a key is linearizable: one order in time explains all replies (docs/PROTOCOL.md).

Sixty connections write and read few keys, each awaiting its reply, and note by one clock when each command began and ended.
Some keys are registers (set, add, gets, cas, delete), some are counters (set, incr, add, delete). `linearizable_checker.py`
then decides for each key whether some order explains what was seen. Then faults are put into the recorded histories, and the
checker must refuse each. Over memory the connections are lines that the threads of `mc_trials history` serve, and their clock
is one counter.
"""
import multiprocessing
import random
import select
import signal
import socket
import subprocess
import time

import pytest

from tools.bench.linearizable_checker import Call, Refused, check, rule_of, values_of_uniques
from tools.served import TOP, WITH_US, Server

LIMIT_SECONDS = 300
COMMANDS, SEED = 300_000, 1
CONNECTIONS = 60
PROCESSES = 2
REGISTERS, COUNTERS = 10, 6
SHARDS = 2

# The program that serves lines over memory.
TRIALS = TOP / "crates/mc_trials/out/mc_trials"

# How often each command is chosen, of a register and of a counter.
OF_REGISTER = ("get",) * 6 + ("gets",) * 4 + ("set",) * 4 + ("cas",) * 4 + ("add",) * 2 + ("delete",) * 2
OF_COUNTER = ("get",) * 6 + ("incr",) * 8 + ("set",) * 2 + ("add",) * 2 + ("delete",) * 1


class Client:
    """A connection with one command under way, and what it has seen."""

    def __init__(self, port, number, chance):
        self.socket = socket.create_connection(("127.0.0.1", port))
        self.socket.setsockopt(socket.IPPROTO_TCP, socket.TCP_NODELAY, 1)
        self.number, self.chance, self.count = number, chance, 0
        self.uniques = {}  # the cas unique that this client saw last, of each key
        self.came = b""
        self.calls = []  # the key and the call

    def fresh(self, is_counter):
        """A value that no client stores twice. Those of counters lie far apart."""
        self.count += 1
        stamp = self.number * 1_000_000 + self.count
        return str(stamp * 1_000_000) if is_counter else f"v{stamp}"

    def choose(self):
        place = self.chance.randrange(REGISTERS + COUNTERS)
        is_counter = place >= REGISTERS
        kind = self.chance.choice(OF_COUNTER if is_counter else OF_REGISTER)
        if kind == "cas" and place not in self.uniques:
            kind = "gets"
        given = None
        if kind in ("set", "add"):
            given = self.fresh(is_counter)
        elif kind == "cas":
            given = (self.uniques[place], self.fresh(is_counter))
        elif kind == "incr":
            given = self.chance.randrange(1, 1000)
        return place, kind, given

    def begin(self):
        """Sends a command. It began before its first byte left."""
        self.place, self.kind, self.given = self.choose()
        text = text_of(self.place, self.kind, self.given)
        self.began = time.monotonic_ns()
        self.socket.sendall(text)

    def take(self):
        """Reads what came; True if the reply is whole. It ended after its last byte came."""
        got = self.socket.recv(4096)
        if not got:
            raise AssertionError("lost: the connection ends")
        self.came += got
        if not self.came.endswith(b"END\r\n" if self.kind in ("get", "gets") else b"\r\n"):
            return False
        ended, reply = time.monotonic_ns(), reply_of(self.kind, self.came)
        self.came = b""
        if self.kind == "gets" and reply:
            self.uniques[self.place] = reply[1]
        self.calls.append((self.place, Call(self.began, ended, self.number, self.kind, self.given, reply)))
        return True


def text_of(place, kind, given):
    key = f"linear-{place}"
    if kind == "cas":
        unique, value = given
        return f"cas {key} 0 0 {len(value)} {unique}\r\n{value}\r\n".encode()
    if kind in ("set", "add"):
        return f"{kind} {key} 0 0 {len(given)}\r\n{given}\r\n".encode()
    return (f"incr {key} {given}\r\n" if kind == "incr" else f"{kind} {key}\r\n").encode()


def reply_of(kind, came):
    """A value, a value with its unique, None if the key is absent, or the word of the reply."""
    words = came.decode().split()
    if kind in ("get", "gets"):
        return None if words == ["END"] else words[4] if kind == "get" else (words[5], words[4])
    if kind == "incr":
        return None if words == ["NOT_FOUND"] else words[0]
    return words[0]


def drive(port, first, count, commands, seed):
    """The `count` connections of one process, which await each reply, until `commands` commands are answered."""
    chance = random.Random(seed + first)
    clients = {}
    poll = select.epoll()
    for number in range(first, first + count):
        client = Client(port, number, chance)
        clients[client.socket.fileno()] = client
        poll.register(client.socket, select.EPOLLIN)
    for client in clients.values():
        client.begin()
    left, open_ones = commands - count, count
    while open_ones:
        for number, _ in poll.poll(30) or [(None, None)]:
            if number is None:
                raise AssertionError("lost: no reply comes")
            client = clients[number]
            if client.take():
                if left > 0:
                    left -= 1
                    client.begin()
                else:
                    open_ones -= 1
    return [call for client in clients.values() for call in client.calls]


def as_worker():
    """A process of a pool ends by SIGTERM, without a message."""
    signal.signal(signal.SIGTERM, signal.SIG_DFL)


def recorded(port, commands, seed):
    """The history of each key, of the connections of all processes."""
    share, each = CONNECTIONS // PROCESSES, commands // PROCESSES
    with multiprocessing.Pool(PROCESSES, as_worker) as pool:
        parts = pool.starmap(drive, [(port, number * share, share, each, seed) for number in range(PROCESSES)])
    return by_key(call for part in parts for call in part)


def by_key(calls):
    """The history of each key, of calls with their keys."""
    histories = [[] for _ in range(REGISTERS + COUNTERS)]
    for place, call in calls:
        histories[place].append(call)
    return histories


def calls_in_memory(commands, seed):
    """The history of each key, of lines over memory."""
    words = ["history", CONNECTIONS, SHARDS, commands // CONNECTIONS, seed]
    ran = subprocess.run([*WITH_US, TRIALS, *map(str, words)], capture_output=True, text=True, timeout=LIMIT_SECONDS)
    if ran.returncode != 0 or not ran.stdout.startswith("line 0\n"):
        raise AssertionError(f"mc_trials ends with {ran.returncode}: {ran.stdout[:80]}{ran.stderr[:200]}")
    return by_key(calls_of(ran.stdout.splitlines()))


def calls_of(rows):
    """The calls, with their keys, from the rows: `line NUMBER`, then each call of that line."""
    for row in rows:
        asked, bar, reply = row.partition("|")
        began, *words = asked.split()
        if not bar:
            client = int(words[0])
            continue
        ended, kind, key, *words = words
        given = {"set": words[-1:], "add": words[-1:], "incr": map(int, words), "cas": [tuple(words[-2:])]}.get(kind, [None])
        call = Call(int(began), int(ended), client, kind, *given, reply_of(kind, reply.encode()))
        yield int(key.removeprefix("linear-")), call


# Faults, put into a history that was recorded. Each returns a history that no order explains, or None if there is no place
# for it.

def writers(history):
    """The call that stored each value."""
    values = values_of_uniques(history)
    rules = ((call, rule_of(call, values)) for call in history)
    return {rule.then: call for call, rule in rules if rule.changes and rule.then is not None}


def replaced(history, call, **changed):
    return [one._replace(**changed) if one is call else one for one in history]


def old_value_after_a_set(history):
    """A set is answered before its piece ran: a get that begins after the reply still reads the value before it."""
    stored_by = writers(history)
    stores = sorted((call for call in history if call.kind == "set"), key=lambda call: call.begin)
    for call in history:
        before = stored_by.get(call.reply) if call.kind == "get" and call.reply else None
        for store in stores if before else []:
            if before.end < store.begin and store.begin + 1 < call.begin < store.end:
                return replaced(history, store, end=call.begin - 1)
    return None


def older_item(history):
    """A get is answered from an older item, after a newer one was stored and read."""
    stored_by = writers(history)
    newest_end = sorted(stored_by.items(), key=lambda entry: entry[1].end)
    for call in history:
        now = stored_by.get(call.reply) if call.kind == "get" and call.reply else None
        if now and now.end < call.begin:
            for value, store in newest_end:
                if store.end >= now.begin:
                    break
                return replaced(history, call, reply=value)
    return None


def found_after_a_delete(history):
    """A delete is answered before it is done: a get that begins after the reply still finds the value."""
    stored_by = writers(history)
    gone = [call for call in history if call.kind == "delete" and call.reply == "DELETED"]
    for delete in gone:
        for call in history:
            before = stored_by.get(call.reply) if call.kind == "get" and call.reply else None
            if before and before.end < delete.begin and delete.begin + 1 < call.begin < delete.end:
                return replaced(history, delete, end=call.begin - 1)
    return None


def lost_count(history):
    """An incr is lost: two of them return the same number."""
    counts = [call for call in history if call.kind == "incr" and call.reply]
    for call in counts:
        for other in counts:
            if other is not call and int(other.reply) - other.given == int(call.reply):
                return replaced(history, other, reply=str(int(other.reply) - call.given))
    return None


FAULTS = (old_value_after_a_set, older_item, found_after_a_delete, lost_count)


def refusal(history):
    """Why the checker refuses the history; None if it doesn't."""
    try:
        check(history)
    except Refused as why:
        return str(why)
    return None


@pytest.fixture(scope="module", params=["sockets", "memory"])
def histories(request):
    """The history of each key, over sockets and over memory."""
    if request.param == "memory":
        return calls_in_memory(COMMANDS, SEED)
    with Server("--seats", CONNECTIONS, "--shards", SHARDS) as server:
        return recorded(server.port, COMMANDS, SEED)


@pytest.fixture(scope="module")
def refusals(histories):
    """Why the checker refuses the history of each key, if it does."""
    with multiprocessing.Pool(initializer=as_worker) as pool:
        return pool.map(refusal, histories)


def test_all_commands_are_answered(histories):
    assert sum(map(len, histories)) >= COMMANDS - CONNECTIONS


@pytest.mark.parametrize("place", range(REGISTERS + COUNTERS))
def test_each_key_is_linearizable(refusals, place):
    assert refusals[place] is None


@pytest.mark.parametrize("put_in", FAULTS)
def test_each_fault_is_refused(histories, refusals, put_in):
    """Each fault is put into the first history that has a place for it. Without it these histories are linearizable."""
    altered = next(filter(None, map(put_in, (history for history, why in zip(histories, refusals) if not why))), None)
    assert altered is not None and refusal(altered)
