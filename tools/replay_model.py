"""A small model of the server, moved by one event at a time, for `tools/checks/test_replays.py`. It has the rings, the hands of the workers
and the slots, which the definitions of the proof leave out, and knows some commands alone.
"""
from hypothesis import strategies as st

VERSION = b"VERSION 1.6.0-sharded\r\n"


def place(key, shards):
    """The shard of a key: FNV-1a of 32 bits."""
    value = 2166136261
    for byte in key:
        value = (value ^ byte) * 16777619 % 2**32
    return value % shards


class Command:
    """A command: its bytes, its pieces (shard, operation), and how its reply is made of their answers."""

    def __init__(self, text, pieces, reply, last=False):
        self.text, self.pieces, self.reply, self.last = text, pieces, reply, last


KEYS = [b"a", b"b", b"c", b"d", b"e"]


@st.composite
def commands(draw, shards):
    """A command on one of a few keys."""
    key = draw(st.sampled_from(KEYS))
    at = place(key, shards)
    quiet = draw(st.sampled_from([False] * 6 + [True]))
    hidden = (lambda answers: b"") if quiet else (lambda answers: answers[0])
    tail = b" noreply" if quiet else b""
    kind = draw(st.sampled_from(["get", "get", "set", "set", "incr", "delete", "flush", "other"]))
    if kind == "set":
        value = draw(st.sampled_from([b"7", b"", b"18446744073709551615", b"x y", b"10"]))
        return Command(b"set %s 0 0 %d%s\r\n%s\r\n" % (key, len(value), tail, value), [(at, ("set", key, value))], hidden)
    if kind == "get":
        keys, name = draw(st.lists(st.sampled_from(KEYS), min_size=1, max_size=4)), draw(st.sampled_from([b"get", b"gets"]))
        pieces = [(place(one, shards), (name.decode(), one)) for one in keys]
        return Command(b"%s %s\r\n" % (name, b" ".join(keys)), pieces, lambda answers: b"".join(answers) + b"END\r\n")
    if kind == "incr":
        return Command(b"incr %s 3%s\r\n" % (key, tail), [(at, ("incr", key))], hidden)
    if kind == "delete":
        return Command(b"delete %s%s\r\n" % (key, tail), [(at, ("delete", key))], hidden)
    if kind == "flush":
        return Command(b"flush_all\r\n", [(shard, ("flush",)) for shard in range(shards)], lambda answers: b"OK\r\n")
    text, reply = draw(st.sampled_from([(b"mn\r\n", b"MN\r\n"), (b"bogus\r\n", b"ERROR\r\n"), (b"version\r\n", VERSION)]))
    return Command(text, [], lambda answers: reply)


QUIT = Command(b"quit\r\n", [], lambda answers: b"", last=True)


class Shard:
    """Items by key, each a value and a unique, and the number of uniques given."""

    def __init__(self, index, shards):
        self.index, self.shards, self.given, self.items = index, shards, 0, {}

    def store(self, key, value):
        self.items[key] = (value, self.index + 1 + self.shards * self.given)
        self.given += 1

    def answer(self, op):
        """Runs an operation; the text of its answer."""
        if op[0] == "flush":
            self.items.clear()
            return b""
        key, item = op[1], self.items.get(op[1])
        if op[0] == "set":
            self.store(key, op[2])
            return b"STORED\r\n"
        if op[0] in ("get", "gets"):
            if item is None:
                return b""
            unique = b" %d" % item[1] if op[0] == "gets" else b""
            return b"VALUE %s 0 %d%s\r\n%s\r\n" % (key, len(item[0]), unique, item[0])
        if item is None:
            return b"NOT_FOUND\r\n"
        if op[0] == "delete":
            del self.items[key]
            return b"DELETED\r\n"
        if not item[0].isdigit():
            return b"CLIENT_ERROR cannot increment or decrement non-numeric value\r\n"
        number = b"%d" % ((int(item[0]) + 3) % 2**64)
        self.store(key, number)
        return number + b"\r\n"


class Connection:
    """A connection: the commands that it was fed, those taken, their pieces, and the answers that came."""

    def __init__(self, number, seat):
        self.number, self.seat = number, seat
        self.commands, self.taken, self.pieces, self.answers = [], [], [], {}
        self.sent = self.received = self.handed = 0
        self.ended = self.broken = False
        self.out = b""

    def all_taken(self):
        return len(self.taken) == len(self.commands)

    def has_turn(self):
        """Whether the first command that isn't handed out has all its answers."""
        if self.handed == len(self.taken):
            return False
        return all((self.handed, part) in self.answers for part in range(len(self.taken[self.handed][0].pieces)))

    def at_rest(self):
        if self.broken:
            return self.sent == len(self.pieces) == self.received
        return self.all_taken() and self.sent == len(self.pieces) and self.handed == len(self.taken)

    def closed(self):
        last = bool(self.taken) and self.taken[-1][0].last
        return last or (self.ended and self.all_taken())


class World:
    """The whole server, moved by one event at a time: each event answers whether it was done."""

    def __init__(self, seats, shards, ring, window):
        self.seats, self.shards, self.ring, self.window = seats, shards, ring, window
        self.stores = [Shard(index, shards) for index in range(shards)]
        self.at = [None] * seats
        self.connections, self.log = [], []
        self.hands = [None] * shards
        self.pieces = {(c, s): [] for c in range(seats) for s in range(shards)}
        self.replies = {(c, s): [] for c in range(seats) for s in range(shards)}

    def open(self, c):
        old = self.at[c]
        if old is not None and not (old.at_rest() and (old.closed() or old.broken)):
            return False
        self.at[c] = Connection(len(self.connections), c)
        self.connections.append(self.at[c])
        return True

    def may_feed(self, c):
        """Whether a feed is enabled and no free choice is left to it: every byte before it is in a command taken."""
        one = self.at[c]
        return one is not None and not one.ended and not one.broken and one.all_taken() and not one.closed()

    def feed(self, c, commands):
        self.at[c].commands.extend(commands)
        return True

    def take(self, c, moment):
        one = self.at[c]
        if one is None or one.broken or one.closed() or one.all_taken() or len(one.taken) - one.handed >= self.window:
            return False
        ticket, command = len(one.taken), one.commands[len(one.taken)]
        one.taken.append((command, moment))
        one.pieces.extend((ticket, part, s, op, moment) for part, (s, op) in enumerate(command.pieces))
        return True

    def send(self, c):
        one = self.at[c]
        if one is None or one.sent == len(one.pieces):
            return False
        piece = one.pieces[one.sent]
        lane = self.pieces[c, piece[2]]
        if len(lane) == self.ring:
            return False
        lane.append((one, piece))
        one.sent += 1
        return True

    def pop(self, s, c):
        if self.hands[s] is not None or not self.pieces[c, s]:
            return False
        one, (ticket, part, _, op, moment) = self.pieces[c, s].pop(0)
        self.hands[s] = (one, ticket, part, self.stores[s].answer(op))
        self.log.append((s, one.number, ticket, part, moment))
        return True

    def give(self, s):
        if self.hands[s] is None or len(self.replies[self.hands[s][0].seat, s]) == self.ring:
            return False
        self.replies[self.hands[s][0].seat, s].append(self.hands[s])
        self.hands[s] = None
        return True

    def receive(self, c, s):
        if not self.replies[c, s]:
            return False
        one, ticket, part, answer = self.replies[c, s].pop(0)
        one.answers[ticket, part] = answer
        one.received += 1
        return True

    def hand(self, c):
        one = self.at[c]
        if one is None or one.broken or not one.has_turn():
            return False
        while one.has_turn():
            command = one.taken[one.handed][0]
            one.out += command.reply([one.answers[one.handed, part] for part in range(len(command.pieces))])
            one.handed += 1
        return True

    def end(self, c):
        return self.mark(c, "ended")

    def cut(self, c):
        return self.mark(c, "broken")

    def mark(self, c, what):
        """Makes the connection on the seat ended or broken, if there is one that isn't yet."""
        one = self.at[c]
        if one is None or getattr(one, what):
            return False
        setattr(one, what, True)
        return True

    def report(self, done, idle):
        """What the program must report of it."""
        lines = [f"conn {one.number} seat {one.seat} {one.out.hex() or '-'}" for one in self.connections]
        lines += ["log " + " ".join(map(str, entry)) for entry in self.log]
        return "\n".join(lines + [f"done {done} idle {idle}"]) + "\n"
