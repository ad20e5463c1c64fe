"""A client that checks a server by keys of its own: it stores, reads, counts, appends, removes and lets expire, by classic and
meta commands in batches, and knows each reply beforehand. `tools/bench/soak.py` runs some of them beside clients that disturb.
"""
import random
import time

from tools.served import Line, set_of

BATCH = 40
KEYS = 60

# No more than this is sent before replies are read: both ways of a connection hold it, so that nobody waits for the other.
MAX_SENT = 50_000


class Checker:
    """A client that knows what each of its keys holds, and each reply beforehand."""

    def __init__(self, port, name, may_vanish, seed, timeout=60):
        self.line = Line(port, timeout)
        self.replies = self.line.socket.makefile("rb")
        self.name, self.may_vanish = name, may_vanish
        self.chance = random.Random(seed)
        self.held = {}  # what each key holds
        self.brief = {}  # keys that expire, and from when on they must be gone
        self.count = 0

    def value(self, key):
        """A value that names its key and its command; no two are the same."""
        stamp = b"%s/%d/" % (key, self.count)
        size = self.chance.choice((0, 10, 100, 100, 1000, 1000, 3000, 40_000))
        return stamp + self.chance.randbytes(max(0, size - len(stamp)))

    def next(self):
        """The next command, and what reads its reply."""
        self.count += 1
        key = b"%s-%d" % (self.name, self.chance.randrange(KEYS))
        kind = self.chance.choice((self.set, self.get, self.get, self.append, self.delete, self.add, self.meta_set, self.meta_get,
                                   self.meta_get, self.counts, self.expires, self.quietly))
        return kind(key)

    def round(self):
        sent, readers = b"", []
        while len(readers) < BATCH and len(sent) < MAX_SENT:
            command, reader = self.next()
            sent += command
            readers.append(reader)
        self.line.send(sent)
        for reader in readers:
            reader()

    # What is read.

    def line_got(self):
        line = self.replies.readline()
        if not line.endswith(b"\r\n"):
            raise AssertionError(f"lost: the connection ends with {line!r}")
        return line[:-2]

    def expects(self, wanted):
        found = self.line_got()
        if found != wanted:
            raise AssertionError(f"{found!r:.120} in place of {wanted!r:.120}")

    def block(self, key, size):
        """A value of `size` bytes, and that it is the key's."""
        found = self.replies.read(size + 2)
        held = self.held.get(key)
        if held is None:
            raise AssertionError(f"{key!r} holds {found!r:.80} and should hold nothing")
        if found != held + b"\r\n":
            raise AssertionError(f"torn, foreign or out of date: {key!r} holds {found!r:.80} ({size}) in place of {held!r:.80} ({len(held)})")

    def misses(self, key):
        """The key was missed. If it can't have been evicted, it was lost: a fault."""
        if self.held.pop(key, None) is not None and not self.may_vanish:
            raise AssertionError(f"lost: {key!r}")

    def if_present(self, key, found, present, absent, then):
        """One of two replies: the one of a present key, and then that happens, or the one of an absent key."""
        if found == absent:
            self.misses(key)
        elif found == present and key in self.held:
            then()
        else:
            raise AssertionError(f"{found!r:.120} in place of {present if key in self.held else absent!r}")

    # The commands. Each returns its bytes, and what reads its reply and keeps account.

    def set(self, key):
        value = self.value(key)

        def reads():
            self.expects(b"STORED")
            self.held[key] = value

        return set_of(key, value), reads

    def get(self, key):
        def reads():
            found = self.line_got()
            if found == b"END":
                return self.misses(key)
            word, its, flags, size = found.split(b" ")
            if (word, its, flags) != (b"VALUE", key, b"0"):
                raise AssertionError(f"{found!r:.120} in reply to a get of {key!r}")
            self.block(key, int(size))
            self.expects(b"END")

        return b"get %s\r\n" % key, reads

    def append(self, key):
        more = b"+%d" % self.count

        def reads():
            def joined():
                self.held[key] += more

            self.if_present(key, self.line_got(), b"STORED", b"NOT_STORED", joined)

        return b"append %s 0 0 %d\r\n%s\r\n" % (key, len(more), more), reads

    def delete(self, key):
        return b"delete %s\r\n" % key, lambda: self.if_present(key, self.line_got(), b"DELETED", b"NOT_FOUND", lambda: self.held.pop(key))

    def add(self, key):
        value = self.value(key)

        def reads():
            found = self.line_got()
            if found == b"STORED":
                self.misses(key)
                self.held[key] = value
            elif found != b"NOT_STORED" or key not in self.held:
                raise AssertionError(f"{found!r:.120} in reply to an add of {key!r}")

        return b"add %s 0 0 %d\r\n%s\r\n" % (key, len(value), value), reads

    def meta_set(self, key):
        value, opaque = self.value(key), b"%d" % self.count

        def reads():
            self.expects(b"HD O%s k%s s%d" % (opaque, key, len(value)))
            self.held[key] = value

        return b"ms %s %d O%s k s\r\n%s\r\n" % (key, len(value), opaque, value), reads

    def meta_get(self, key):
        opaque = b"%d" % self.count

        def reads():
            found, tail = self.line_got(), b" O%s k%s" % (opaque, key)
            if found == b"EN" + tail:
                return self.misses(key)
            size = found.split(b" ")[1]
            if found != b"VA %s%s" % (size, tail):
                raise AssertionError(f"{found!r:.120} in place of a reply that ends with {tail!r}")
            self.block(key, int(size))

        return b"mg %s v O%s k\r\n" % (key, opaque), reads

    def counts(self, _key):
        """A counter, which must count each of its commands once."""
        key = b"%s-count" % self.name

        def reads():
            found, number = self.line_got(), int(self.held.get(key, b"-1")) + 1
            self.if_present(key, found, b"%d" % number, b"NOT_FOUND", lambda: self.held.update({key: b"%d" % number}))
            if self.line_got() == b"STORED":
                self.misses(key)
                self.held[key] = b"0"

        return b"incr %s 1\r\nadd %s 0 0 1\r\n0\r\n" % (key, key), reads

    def expires(self, _key):
        """A brief item is stored, or one that was is read: it must be gone after its second and a little more."""
        key = b"%s-brief-%d" % (self.name, self.count % 5)
        # (a key that is stored again has no time until its reply is read: a get behind it in the same batch may find it)
        until = self.brief.pop(key, None)
        if until and until < time.time():
            return b"get %s\r\n" % key, lambda: self.expects(b"END")

        def reads():
            self.expects(b"STORED")
            self.brief[key] = time.time() + 2.5

        return b"set %s 0 1 1\r\nx\r\n" % key, reads

    def quietly(self, key):
        """A set without reply, whose value the next get of the key shows."""
        value = self.value(key)
        return set_of(key, value).replace(b"\r\n", b" noreply\r\n", 1), lambda: self.held.update({key: value})
