"""Stands in for mcd with one fault put in, so that `pytest --seen-to-fail` can see which tests find it.

    python3 -m tools.checks.faulty FAULT PROGRAM [WORD ..]     FAULT is a key of STATUSES, INPUTS, CALLS, SIGNALS, TEXTS, LINES
                                                                below, or of PAGES (faulty_pages.py), PROGRAM the real one

With a fault of LINES, calls that serve connections go through a proxy of this process, so what a check reads of the memory of the server is its.
"""
import os
import re
import signal
import socket
import struct
import subprocess
import sys
import threading
import time

from tools.served import MIB, WITH_US, started

# Memory that is never given back.
KEPT = []

TORN = b"set torn 0 0 100000\r\n"

# Faults of the status with which the program ends.
STATUSES = {"ends with 0": 0, "ends with 1": 1, "is another process": 0}


def crashes(whole, _first):
    if 255 in whole:
        os.kill(os.getpid(), signal.SIGSEGV)
    return whole


def forgets(whole, _first):
    """What ends with the first letter of `mn` loses the line before it too. No row does, but cuts of rows do."""
    return whole[: whole.rfind(b"\n", 0, len(whole) - 2) + 1] if whole.endswith(b"\nm") else whole


# Faults of what it makes of its input, if that is standard input.
INPUTS = {
    "reads once": lambda whole, first: first,
    "reads a line end more": lambda whole, first: whole + b"\r\n",
    "forgets a command before a cut": forgets,
    "crashes at a byte 255": crashes,
}


class Honest:
    """Passes on what comes on one connection, both ways. The faults below change one of its steps."""

    at_once = 64
    at_start = 0
    # Whether it accepts no more once a signal asks the program to end.
    closes = True

    def __init__(self, client, server, number):
        self.client, self.server, self.number = client, server, number
        self.sent = bytearray()

    def up(self, got):
        self.server.sendall(got)

    def down(self, got):
        self.client.sendall(got)

    def client_ends(self):
        self.server.shutdown(socket.SHUT_WR)

    def server_ends(self):
        self.client.shutdown(socket.SHUT_WR)

    def passes(self, source, step, ends):
        try:
            while got := source.recv(1 << 16):
                step(got)
        except OSError:
            pass
        try:
            ends()
        except OSError:
            pass

    def serve(self):
        upwards = threading.Thread(target=self.passes, args=(self.client, self.up, self.client_ends), daemon=True)
        upwards.start()
        self.passes(self.server, self.down, self.server_ends)
        upwards.join()
        self.client.close()
        self.server.close()


class ClosesBothWays(Honest):
    def client_ends(self):
        self.server.close()
        self.client.close()


class ChangesAByte(Honest):
    def down(self, got):
        self.client.sendall(got[:3] + bytes([got[3] ^ 1]) + got[4:] if len(got) > 3 else got)


class DropsConnections(Honest):
    def serve(self):
        if self.number % 20 == 19:
            self.client.close()
        else:
            super().serve()


class HasOneSeat(Honest):
    at_once = 1


class LosesSeats(Honest):
    """Of two seats one is lost after a thousand connections, and then the other."""

    at_once = 2

    def serve(self):
        super().serve()
        if self.number % 1000 == 999:
            threading.Event().wait()


class EndsAfterAGigabyte(Honest):
    passed = 0

    def up(self, got):
        self.passed += len(got)
        if self.passed > 1 << 30:
            raise OSError
        super().up(got)


class AcceptsToTheEnd(Honest):
    closes = False


class GathersReplies(Honest):
    """Takes all replies from the server, however many its client leaves unread."""

    def down(self, got):
        self.sent += got
        if not hasattr(self, "writer"):
            self.writer = threading.Thread(target=self.write, daemon=True)
            self.writer.start()

    def write(self):
        at = 0
        while True:
            if at < len(self.sent):
                at += self.client.send(bytes(self.sent[at : at + 4096]))
            else:
                time.sleep(0.001)


class Resets(Honest):
    def server_ends(self):
        self.client.setsockopt(socket.SOL_SOCKET, socket.SO_LINGER, struct.pack("ii", 1, 0))
        self.client.close()


class StoresTornBlocks(Honest):
    def up(self, got):
        self.sent += got
        super().up(got)

    def client_ends(self):
        if self.sent.startswith(TORN):
            self.server.sendall(b"t" * (len(TORN) + 100_000 - len(self.sent)) + b"\r\n")
        super().client_ends()


class TakesForWhatIsOpen(Honest):
    """Takes 4 MiB more if a piece ends within a line or a block, once for each connection."""

    def up(self, got):
        if not self.sent and not got.endswith(b"\n"):
            KEPT.append(b"x" * (4 * MIB))
            self.sent += b"seen"
        super().up(got)


class SlowForChosenKeys(Honest):
    def up(self, got):
        if b"cqhmya" in got:
            time.sleep(0.06)
        super().up(got)


class EndsSoon(Honest):
    def serve(self):
        threading.Timer(2, lambda: self.server.shutdown(socket.SHUT_RDWR)).start()
        super().serve()


class AsksMore(Honest):
    """Sends a command of its own first, whose reply it keeps for itself."""

    def serve(self):
        self.server.sendall(b"mn\r\n")
        self.server.recv(4, socket.MSG_WAITALL)
        super().serve()


class Spins(Honest):
    def __init__(self, *given):
        super().__init__(*given)
        threading.Thread(target=self.spin, daemon=True).start()

    def spin(self):
        while True:
            pass


def takes(mebibytes, at_start=0):
    """The fault that each connection takes so much memory more, or the server at its start."""

    class Takes(Honest):
        def __init__(self, *given):
            super().__init__(*given)
            KEPT.append(b"x" * int(mebibytes * MIB))

    Takes.at_start = at_start
    return Takes


# Faults of how connections are served.
LINES = {
    "none": Honest, "closes both ways": ClosesBothWays, "changes a byte": ChangesAByte, "drops connections": DropsConnections,
    "has one seat": HasOneSeat, "gathers replies": GathersReplies, "resets": Resets, "stores torn blocks": StoresTornBlocks,
    "slow for chosen keys": SlowForChosenKeys, "keeps its port": Honest, "takes 64 MiB": takes(0, 64),
    "takes 1 MiB a connection": takes(1), "takes 4 MiB a connection": takes(4), "takes 16 MiB a connection": takes(16),
    "takes 64 MiB a connection": takes(64), "takes 4 KiB a connection": takes(1 / 256), "counts a connection twice": Honest,
    "takes 4 MiB for what is open": TakesForWhatIsOpen, "spins": Spins, "loses its seats": LosesSeats,
    "ends a connection after a gigabyte": EndsAfterAGigabyte, "accepts to the end": AcceptsToTheEnd,
    "ends a connection after two seconds": EndsSoon, "asks more than its clients": AsksMore, "lets vanished clients be": Honest,
}

# The signals that end a program in order if they are blocked, and one that ends nothing then.
ENDING = {signal.SIGTERM, signal.SIGINT}
BLOCKED = ENDING | {signal.SIGHUP}


def listener(fault):
    made = socket.socket()
    if fault != "keeps its port":
        made.setsockopt(socket.SOL_SOCKET, socket.SO_REUSEADDR, 1)
    return made


def serve(fault, program, words):
    """Serves through the real program, which listens on a port of its own."""
    at = words.index("--listen") + 1
    host, port = words[at].split(":")
    front = listener(fault)
    front.bind((host, int(port)))
    front.listen(128)
    real = started([program, *words[:at], "127.0.0.1:0", *words[at + 1 :]], stderr=subprocess.PIPE)
    while "listening" not in (line := real.stderr.readline().decode()):
        print(line, end="", file=sys.stderr)
    said, _, behind = line.rpartition(":")
    KEPT.append(b"x" * (LINES[fault].at_start * MIB))
    print(f"{said}:{front.getsockname()[1]}", file=sys.stderr, flush=True)
    threading.Thread(target=accept_all, args=(fault, front, int(behind)), daemon=True).start()
    if ENDING <= signal.pthread_sigmask(signal.SIG_BLOCK, []):
        threading.Thread(target=pass_on, args=(LINES[fault], front, real), daemon=True).start()
    return real.wait()


def pass_on(kind, front, real):
    """Passes on a signal that asks the program to end."""
    number = signal.sigwait(ENDING)
    if kind.closes:
        front.shutdown(socket.SHUT_RDWR)
    real.send_signal(number)


def accept_all(fault, front, behind):
    kind = LINES[fault]
    seats, number = threading.Semaphore(kind.at_once), 0
    while True:
        seats.acquire()
        try:
            client, _ = front.accept()
        except OSError:
            return
        client.setsockopt(socket.SOL_SOCKET, socket.SO_KEEPALIVE, fault != "lets vanished clients be")
        one = kind(client, socket.create_connection(("127.0.0.1", behind)), number)
        number += 1
        threading.Thread(target=lambda it=one: (it.serve(), seats.release()), daemon=True).start()


def converse(fault, program, words):
    """One conversation over standard input and output, whose input is what the fault makes of it."""
    first = whole = os.read(0, 1 << 16)
    while got := os.read(0, 1 << 16):
        whole += got
    return subprocess.run([*WITH_US, program, *words], input=INPUTS[fault](whole, first)).returncode


def few_seats(words):
    """The words with 1% of the seats."""
    if "--seats" in words:
        at = words.index("--seats") + 1
        words[at] = str(max(1, int(words[at]) // 100))
    return words


def without(names):
    """A fault that ignores these options, each with its value."""

    def call(words):
        kept, skips = [], False
        for place, word in enumerate(words):
            if skips:
                skips = False
            elif word in names:
                skips = place + 1 < len(words) and not words[place + 1].startswith("-")
            elif not any(re.fullmatch(rf"{name}\d+", word) for name in names):
                kept.append(word)
        return kept

    return call


def elsewhere(words):
    """The words with another host at which it listens."""
    for place, word in enumerate(words[:-1]):
        if word in ("--listen", "-l"):
            port = re.search(r"(?:^|:)(\d+)$", words[place + 1])
            words[place + 1] = f"127.0.0.9:{port[1]}" if port else "127.0.0.9"
    return words


def everywhere(words):
    """The words with all addresses of the machine if they name none."""
    return words if "--listen" in words else [*words, "--listen", "0.0.0.0:11211"]


def with_fixed_clock(words):
    return [*words, "--at", "1000"] if "--stdio" in words and "--at" not in words else words


def refuses_capitals(words):
    if any(re.fullmatch(r"\d+[kmg]?b?", word, re.I) and word != word.lower() for word in words):
        sys.exit(2)
    return words


def says_at_once(words):
    print("mcd: listening", file=sys.stderr, flush=True)
    return words


def instead(name, value):
    """A fault that takes the option for having this value."""
    return lambda words: [*without([name])(words), name, value]


# Faults of how the program is called.
CALLS = {
    "has few seats": few_seats, "listens elsewhere": elsewhere, "refuses capital letters": refuses_capitals, "listens before it does": says_at_once,
    "ignores the port": without(["--port", "-p"]), "ignores the number of seats": without(["--seats", "-c"]),
    "ignores a value limit": without(["--value-limit", "-I"]),
    "ignores that it is to be verbose": without(["--verbose", "-v"]), "ignores that it is to plan": without(["--plan"]),
    "ignores the rules of memcached": without(["--drop-in"]), "ignores a line limit": without(["--line-limit"]),
    "ignores a budget": without(["--bytes", "--memory"]),
    "ignores the number of shards": without(["--shards"]), "ignores the moment": without(["--at"]),
    "never lets clients end it": without(["--enable-shutdown", "-A"]),
    "has memcached's rules": lambda words: [*words, "--drop-in"], "lets each client end it": lambda words: [*words, "-A"],
    "ignores the window": without(["--window"]),
    "ignores the memory of clients": instead("--client-memory", "16g"),
    "ignores the idle timeout": without(["--idle-timeout"]),
    "ignores the mode of a socket": without(["--unix-mask", "-a"]),
    "ignores the number of connections": without(["--connections"]), "serves no metrics": without(["--metrics"]),
    "has a clock that never moves": with_fixed_clock,
    "listens at each address": everywhere,
    "has two shards": instead("--shards", "2"), "cuts connections off at once": instead("--drain", "0"), "drains for an hour": instead("--drain", "3600"),
}


def unblocks(program, words):
    signal.pthread_sigmask(signal.SIG_UNBLOCK, BLOCKED)
    os.execv(program, [program, *words])


def blocks(program, words):
    signal.pthread_sigmask(signal.SIG_BLOCK, BLOCKED)
    os.execv(program, [program, *words])


def keeps(program, words):
    """The program gets no signal that this process gets."""
    signal.pthread_sigmask(signal.SIG_BLOCK, BLOCKED)
    return subprocess.run([*WITH_US, program, *words]).returncode


# Faults of which signals reach it, and how.
SIGNALS = {"unblocks its signals": unblocks, "blocks its signals": blocks, "gets no signal": keeps}


def times(factor):
    """A fault of the plan: each figure is this many times as large."""
    return lambda text: re.sub(r"(?m)^  (\d+) MiB", lambda it: f"  {int(int(it[1]) * factor)} MiB", text)


# Faults of a line that it prints.
TEXTS = {
    "warns of nothing": lambda text: "" if "warning" in text else text,
    "names the native rules alone": lambda text: text.replace("memcached's rules", "native rules"),
    "counts open files otherwise": lambda text: re.sub(r"needs \d+ open files", "needs 30 open files", text), "plans a third": times(1 / 3),
    "plans ten times as much": times(10),
    "changes what it replays": lambda text: re.sub(r"0a$", "0b", text, flags=re.M),
}


def prints(change, program, words):
    """Runs the program, whose lines are changed on both streams."""
    real = subprocess.Popen([*WITH_US, program, *words], stdin=subprocess.DEVNULL, stdout=subprocess.PIPE, stderr=subprocess.PIPE, text=True)

    def passes(source, out):
        for line in source:
            out.write(change(line))
            out.flush()

    errors = threading.Thread(target=passes, args=(real.stderr, sys.stderr))
    errors.start()
    passes(real.stdout, sys.stdout)
    errors.join()
    return real.wait()


def prints_where_it_plans(fault, program, words):
    """The faults of the plan change no line of a server, which is the process that is started."""
    if "plan" in fault and "--plan" not in words:
        os.execv(program, [program, *words])
    return prints(TEXTS[fault], program, words)


def one_fewer(words):
    """The words with a connection fewer, if they name more than one."""
    if "--connections" in words:
        at = words.index("--connections") + 1
        words[at] = str(max(1, int(words[at]) - 1))
    return words


def main():
    fault, program, *words = sys.argv[1:]
    if fault in INPUTS:
        return converse(fault, program, words)
    if fault in CALLS:
        os.execv(program, [program, *CALLS[fault](words)])
    if fault in ("counts otherwise", "serves half a page", "has another head on its page"):
        # What this takes of the memory isn't there for the other faults.
        from tools.checks.faulty_pages import serve_pages

        return serve_pages(fault, program, words)
    if fault in SIGNALS:
        return SIGNALS[fault](program, words)
    if fault in TEXTS:
        return prints_where_it_plans(fault, program, words)
    if fault in STATUSES:
        subprocess.run([*WITH_US, program, *words])
        return STATUSES[fault]
    if "--listen" not in words:
        os.execv(program, [program, *words])
    return serve(fault, program, one_fewer(words) if fault == "counts a connection twice" else words)


if __name__ == "__main__":
    sys.exit(main())
