"""The program, a server of it that ends with its test, and plain connections to it."""
import contextlib
import os
import pathlib
import re
import select
import shutil
import signal
import socket
import struct
import subprocess
import sys
import time

TOP = pathlib.Path(__file__).resolve().parent.parent
MCD = os.environ.get("MCD") or str(TOP / "crates/mcd/out/mcd")
MIB = 1 << 20
STORED, TOO_LARGE = b"STORED\r\n", b"SERVER_ERROR object too large for cache\r\n"
NO_OP, NO_OP_REPLY = b"mn\r\n", b"MN\r\n"

# The seconds for which a connection waits for a reply by default.
PATIENCE = 60

# A server ends with the test that started it, even if that is killed.
WITH_US = ["setpriv", "--pdeathsig", "KILL"] if shutil.which("setpriv") else []


def mcd(*options):
    """The words of a command that runs the program."""
    return [MCD, *map(str, options)]


def run(*options, given=b"", timeout=60, **streams):
    """Runs the program to its end over this input."""
    return subprocess.run(mcd(*options), **{"input": given, "stdout": subprocess.PIPE, "stderr": subprocess.PIPE, **streams}, timeout=timeout)


def ended(*options, **streams):
    """The status with which the program ends without input, and its text on both outputs."""
    ran = run(*options, timeout=30, **streams)
    return ran.returncode, (ran.stdout or b"").decode(), ran.stderr.decode()


def started(words, **streams):
    """Starts a program without input, whose streams are dropped but for those given."""
    quiet = {"stdin": subprocess.DEVNULL, "stdout": subprocess.DEVNULL, "stderr": subprocess.DEVNULL}
    return subprocess.Popen([*WITH_US, *words], **{**quiet, **streams})


@contextlib.contextmanager
def running(words, **streams):
    """A program that ends with the `with` block."""
    with started(words, **streams) as process:
        try:
            yield process
        finally:
            process.kill()


def free_port():
    with socket.socket() as it:
        it.bind(("127.0.0.1", 0))
        return it.getsockname()[1]


def is_up(port):
    """Whether a server listens at the port soon."""
    until = time.monotonic() + 20
    while time.monotonic() < until:
        with contextlib.suppress(OSError), socket.create_connection(("127.0.0.1", port), timeout=5):
            return True
        time.sleep(0.05)
    return False


def bounded(seconds):
    """Raises an error after `seconds` seconds, and at SIGTERM and SIGHUP, so that each `finally` runs."""

    def stop(number, _frame):
        raise SystemExit(f"FAILED: not ended after {seconds} seconds" if number == signal.SIGALRM else "FAILED: ended by a signal")

    for number in (signal.SIGALRM, signal.SIGTERM, signal.SIGHUP):
        signal.signal(number, stop)
    signal.alarm(seconds)


def equal(found, wanted):
    if found != wanted:
        raise AssertionError(f"{found!r:.160} in place of {wanted!r:.160}")


# The line of a server that listens, at further places too.
LISTENING = re.compile(r"mcd \S+: (?:native rules|memcached's rules), \d+ threads, \d+ MiB, listening on 127\.0\.0\.1:(\d+)((?:, \S+)*)\n")


class Process:
    """A server's process, which ends with the `with` block."""

    def __init__(self, words, **streams):
        self.process = started(words, **streams)

    def __enter__(self):
        return self

    def __exit__(self, *_why):
        self.stop()

    def stop(self):
        self.process.kill()
        self.process.wait()

    def is_running(self):
        return self.process.poll() is None

    def status_word(self, name):
        """A number of kilobytes that the system reports of the process, in bytes."""
        text = pathlib.Path(f"/proc/{self.process.pid}/status").read_text()
        return int(re.search(rf"^{name}:\s+(\d+)", text, re.M)[1]) * 1024

    def resident(self):
        return self.status_word("VmRSS")

    def taken(self):
        """The address space, of which not all need be resident."""
        return self.status_word("VmSize")

    def most_resident(self):
        return self.status_word("VmHWM")

    def cpu_seconds(self):
        fields = pathlib.Path(f"/proc/{self.process.pid}/stat").read_text().rpartition(")")[2].split()
        return (int(fields[11]) + int(fields[12])) / os.sysconf("SC_CLK_TCK")


class AnyServer(Process):
    """A server of mcd's or another's, at a free port of this machine: `{port}` in the words that start it."""

    def __init__(self, words):
        self.port = free_port()
        super().__init__([str(word).format(port=self.port) for word in words])
        if not is_up(self.port):
            self.stop()
            raise SystemExit(f"{words[0]} doesn't listen")


class Server(Process):
    """A running mcd with these options, on a port that the system chose. The words `before` start it, if there are any."""

    def __init__(self, *options, before=(), **streams):
        # Unbuffered: who waits for a further line by select misses none that was read ahead.
        super().__init__([*before, *mcd("--listen", "127.0.0.1:0", *options)], stderr=subprocess.PIPE, bufsize=0, **streams)
        # What it says before it listens: where its metrics are, if it serves them.
        self.before = []
        while not (found := LISTENING.fullmatch(line := self.line_said())):
            if not line:
                self.stop()
                raise AssertionError(f"the server says {self.before} and no address that it listens on")
            self.before.append(line.rstrip("\n"))
        self.port = int(found[1])
        self.further = found[2].split(", ")[1:]

    def line_said(self):
        """The next line on standard error, or nothing if none comes."""
        ready, _, _ = select.select([self.process.stderr], [], [], 30)
        return self.process.stderr.readline().decode() if ready else ""

    def stop(self):
        super().stop()
        self.process.stderr.close()


class Line:
    """A plain connection."""

    def __init__(self, port, timeout=None, room=None):
        self.socket = socket.socket()
        if room:
            self.socket.setsockopt(socket.SOL_SOCKET, socket.SO_RCVBUF, room)
        self.socket.settimeout(timeout or PATIENCE)
        self.socket.connect(("127.0.0.1", port))
        self.socket.setsockopt(socket.IPPROTO_TCP, socket.TCP_NODELAY, 1)

    def __enter__(self):
        return self

    def __exit__(self, *_why):
        self.close()

    def send(self, sent):
        self.socket.sendall(sent)

    def read(self, count):
        """The next `count` bytes, fewer if the stream ends."""
        found = bytearray()
        while len(found) < count:
            got = self.socket.recv(min(count - len(found), 1 << 18))
            if not got:
                break
            found += got
        return bytes(found)

    def rest(self):
        """What comes until the stream ends."""
        found = bytearray()
        while got := self.socket.recv(1 << 18):
            found += got
        return bytes(found)

    def ask(self, sent, wanted):
        """Sends what fits into the buffers on the way, and expects this reply."""
        self.send(sent)
        equal(self.read(len(wanted)), wanted)

    def waits(self):
        """Nothing comes as long as its timeout lasts: fails if something does, or the stream ends."""
        try:
            raise AssertionError(f"a connection that was to wait has got {self.read(4)!r}")
        except TimeoutError:
            pass

    def end(self):
        """No more is sent."""
        self.socket.shutdown(socket.SHUT_WR)

    def reset(self):
        """Closes the connection by a reset."""
        self.socket.setsockopt(socket.SOL_SOCKET, socket.SO_LINGER, struct.pack("ii", 1, 0))
        self.socket.close()

    def close(self):
        self.socket.close()


def set_of(key, value, flags=0):
    return b"set %s %d 0 %d\r\n%s\r\n" % (key, flags, len(value), value)


def hit_of(key, value, flags=0):
    return b"VALUE %s %d %d\r\n%s\r\nEND\r\n" % (key, flags, len(value), value)


def needs_program():
    if not os.access(MCD, os.X_OK):
        sys.exit(f"FAILED: there is no program {MCD}; `rt ci`, or `rt run` in crates/mcd, builds it")
