"""The Python clients pymemcache, pylibmc and python-memcache (Debian's packages) and a plain socket, each with the same methods."""
import socket
import threading

LARGE = 2 << 20  # bytes of a value that is too large


class Client:
    """What the checks ask, by the calls that the clients share. Keys and values of the checks are bytes."""

    expire = "time"  # how the client calls an exptime

    def name(self, key):
        """A key as the client takes it."""
        return key.decode()

    def set(self, key, value, expire=0):
        return bool(self.client.set(self.name(key), value, **{self.expire: expire}))

    def get(self, key):
        return self.client.get(self.name(key))

    def get_many(self, keys):
        return {key.encode(): value for key, value in self.client.get_multi([self.name(key) for key in keys]).items()}

    def swap(self, key, value):
        """Swaps by a unique that is late, and then by one that isn't."""
        _, unique = self.client.gets(self.name(key))
        self.client.set(self.name(key), b"between")
        first = self.client.cas(self.name(key), value, unique)
        return first, self.client.cas(self.name(key), value, self.client.gets(self.name(key))[1])

    def incr(self, key, by):
        return self.client.incr(self.name(key), by)

    def decr(self, key, by):
        return self.client.decr(self.name(key), by)

    def touch(self, key, expire):
        return bool(self.client.touch(self.name(key), expire))

    def delete(self, key):
        return bool(self.client.delete(self.name(key)))

    def add(self, key, value):
        return bool(self.client.add(self.name(key), value))

    def replace(self, key, value):
        return bool(self.client.replace(self.name(key), value))

    def append(self, key, value):
        return bool(self.client.append(self.name(key), value))

    def flood(self, count):
        """Many sets, without replies if the client can."""
        for number in range(count):
            self.set_silently(b"flood%d" % (number % 100), b"%d" % number)

    def set_silently(self, key, value):
        """Sets without a reply if the client can."""
        self.client.set(self.name(key), value, **self.silently)

    silently = {}
    refusals = ()  # how the client reports that the server refused a command

    def is_refused(self, key, value):
        """Whether the client reports that the value was not stored."""
        try:
            return not self.set(key, value)
        except self.refusals:
            return True

    def flush(self):
        self.client.flush_all()

    def stats(self):
        """What the server counts, by memcached's names."""
        return named(self.client.get_stats()[0][1])

    def close(self):
        self.client.disconnect_all()


class Pymemcache(Client):
    expire = "expire"
    silently = {"noreply": True}

    def __init__(self, port, host="127.0.0.1"):
        from pymemcache.client.base import Client as Base
        from pymemcache.exceptions import MemcacheServerError

        self.client = Base((host, port), default_noreply=False, timeout=30, connect_timeout=30)
        self.refusals = MemcacheServerError

    def name(self, key):
        return key

    def get_many(self, keys):
        return self.client.get_many(keys)

    def version(self):
        return self.client.version()

    def stats(self):
        return named(self.client.stats())

    def close(self):
        self.client.close()


class Pylibmc(Client):
    def __init__(self, port, host="127.0.0.1"):
        import pylibmc

        self.client = pylibmc.Client([f"{host}:{port}"], binary=False, behaviors={"cas": True, "tcp_nodelay": True})
        self.refusals = pylibmc.Error


class Memcache(Client):
    silently = {"noreply": True}

    def __init__(self, port, host="127.0.0.1"):
        import memcache

        self.client = memcache.Client([f"{host}:{port}"], cache_cas=True, socket_timeout=30, server_max_value_length=2 * LARGE)

    def swap(self, key, value):
        # The client keeps the cas uniques itself, by the bytes of the key.
        name = key.decode()
        self.client.gets(name)
        unique = self.client.cas_ids[key]
        self.client.set(name, b"between")
        self.client.cas_ids[key] = unique
        first = bool(self.client.cas(name, value))
        self.client.gets(name)
        return first, bool(self.client.cas(name, value))


class Socket(Client):
    """The classic commands over a plain socket, so that the checks run where no client is installed."""

    def __init__(self, port, host="127.0.0.1"):
        self.line = socket.create_connection((host, port), timeout=30)
        self.replies = self.line.makefile("rb")

    def close(self):
        self.line.close()

    def reply_to(self, sent):
        """The line that these bytes are answered by."""
        self.line.sendall(sent)
        return self.replies.readline().rstrip(b"\r\n")

    def stored(self, verb, key, value, expire=0, tail=b""):
        return self.reply_to(b"%s %s 0 %d %d%s\r\n%s\r\n" % (verb, key, expire, len(value), tail, value)) == b"STORED"

    def set(self, key, value, expire=0):
        return self.stored(b"set", key, value, expire)

    def add(self, key, value):
        return self.stored(b"add", key, value)

    def replace(self, key, value):
        return self.stored(b"replace", key, value)

    def append(self, key, value):
        return self.stored(b"append", key, value)

    def found(self, verb, keys):
        """The items that are found: the words behind each key, and the value."""
        items, words = {}, self.reply_to(verb + b" " + b" ".join(keys) + b"\r\n").split()
        while words[0] == b"VALUE":
            items[words[1]] = words[3:], self.replies.read(int(words[3]) + 2)[:-2]
            words = self.replies.readline().split()
        assert words == [b"END"]
        return items

    def get(self, key):
        return self.get_many([key]).get(key)

    def get_many(self, keys):
        return {key: value for key, (_, value) in self.found(b"get", keys).items()}

    def swap(self, key, value):
        late = self.found(b"gets", [key])[key][0][1]
        self.set(key, b"between")
        first = self.stored(b"cas", key, value, tail=b" " + late)
        return first, self.stored(b"cas", key, value, tail=b" " + self.found(b"gets", [key])[key][0][1])

    def incr(self, key, by):
        return self.reply_to(b"incr %s %d\r\n" % (key, by))

    def decr(self, key, by):
        return self.reply_to(b"decr %s %d\r\n" % (key, by))

    def touch(self, key, expire):
        return self.reply_to(b"touch %s %d\r\n" % (key, expire)) == b"TOUCHED"

    def delete(self, key):
        return self.reply_to(b"delete %s\r\n" % key) == b"DELETED"

    def set_silently(self, key, value):
        self.line.sendall(b"set %s 0 0 %d noreply\r\n%s\r\n" % (key, len(value), value))

    def version(self):
        return self.reply_to(b"version\r\n").removeprefix(b"VERSION ")

    def flood(self, count):
        self.line.sendall(b"".join(b"set flood%d 0 0 %d noreply\r\n%d\r\n" % (number % 100, len(str(number)), number) for number in range(count)))

    def flush(self):
        assert self.reply_to(b"flush_all\r\n") == b"OK"

    def stats(self):
        found, words = {}, self.reply_to(b"stats\r\n").split()
        while words[0] == b"STAT":
            found[words[1]] = words[2]
            words = self.replies.readline().split()
        assert words == [b"END"]
        return named(found)


def named(stats):
    """Counts by name, where a client has them as text, bytes or numbers."""
    text = {plain(name): plain(count) for name, count in stats.items()}
    return {name: int(count) if count.isdigit() else count for name, count in text.items()}


def plain(word):
    return word.decode() if isinstance(word, bytes) else str(word)


class Plain:
    """A plain socket that sends bytes and reads as many as are wanted."""

    def __init__(self, port):
        self.line = socket.create_connection(("127.0.0.1", port), timeout=30)

    def asked(self, sent, wanted):
        sender = threading.Thread(target=self.line.sendall if sent else bytes, args=(sent,))
        sender.start()
        found = b""
        while len(found) < len(wanted):
            got = self.line.recv(1 << 16)
            if not got:
                break
            found += got
        sender.join()
        assert found == wanted
