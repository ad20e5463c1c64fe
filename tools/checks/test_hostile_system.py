"""What the system does to the server: files run out, the listener is lost, clients say nothing; and what the server takes of it."""
import ctypes
import errno
import os
import resource
import socket
import time

import pytest

from tools.served import MIB, Line, Server

fails_with = pytest.mark.fails_with

# The number of pidfd_getfd on x86-64 (pidfd_getfd(2)).
PIDFD_GETFD = 438

ASKED, ANSWERED = b"mn\r\n", b"MN\r\n"
TOO_MANY = b"ERROR Too many open connections\r\n"


def sockets_of(server):
    """The sockets of a running server, as this process shares them. One that the server closes meanwhile is left out."""
    known = os.pidfd_open(server.process.pid)
    try:
        for name in os.listdir(f"/proc/{server.process.pid}/fd"):
            try:
                if not os.readlink(f"/proc/{server.process.pid}/fd/{name}").startswith("socket:"):
                    continue
                found = ctypes.CDLL(None, use_errno=True).syscall(PIDFD_GETFD, known, int(name), 0)
                if found < 0:
                    raise OSError(ctypes.get_errno(), "pidfd_getfd")
            except OSError as failed:
                if failed.errno in (errno.ENOENT, errno.EBADF):
                    continue
                raise
            with socket.socket(fileno=found) as shared:
                yield shared
    finally:
        os.close(known)


def is_listening(shared):
    return shared.getsockopt(socket.SOL_SOCKET, socket.SO_ACCEPTCONN) == 1


def idle_seconds(server, seconds=3):
    """The processor time that the server takes in `seconds` seconds."""
    before = server.cpu_seconds()
    time.sleep(seconds)
    return server.cpu_seconds() - before


@fails_with("spins")
def test_an_idle_server_takes_no_processor_time():
    """Each thread sleeps: those of free seats, of connections that say nothing, and of shards that nobody asks."""
    with Server("--seats", 16, "--shards", 4) as server:
        lines = [Line(server.port) for _ in range(8)]
        for line in lines:
            line.ask(b"get a b c d\r\n", b"END\r\n")
        time.sleep(0.5)
        took = idle_seconds(server)
        for line in lines:
            line.ask(ASKED, ANSWERED)
            line.close()
    assert took <= 0.05
    print(f"{took:.2f} s of processor time in 3 s")


@fails_with("is another process")
def test_connections_wait_for_open_files():
    """Where no more files may be open, connections wait until two are closed, one of which is left; the accepting thread looks now and then."""
    with Server("--seats", 16) as server:
        first = Line(server.port)
        first.ask(ASKED, ANSWERED)
        used = len(os.listdir(f"/proc/{server.process.pid}/fd"))
        resource.prlimit(server.process.pid, resource.RLIMIT_NOFILE, (used + 2, used + 2))
        second = Line(server.port)
        second.ask(ASKED, ANSWERED)
        extra = Line(server.port)
        extra.ask(ASKED, ANSWERED)
        third = Line(server.port, timeout=0.5)
        third.send(ASKED)
        third.waits()
        took = idle_seconds(server)
        first.close()
        extra.close()
        third.socket.settimeout(30)
        assert third.read(len(ANSWERED)) == ANSWERED
        second.ask(ASKED, ANSWERED)
        second.close()
        third.close()
    assert took <= 0.5
    print(f"{took:.2f} s of processor time in 3 s")


def is_served(port):
    with Line(port) as line:
        line.send(ASKED)
        return line.read(len(ANSWERED)) == ANSWERED


@fails_with("is another process")
def test_open_files_that_run_out_refuse_by_memcacheds_rules():
    """Where no more files may be open, each further connection is answered and closed, as if no seat were free."""
    with Server("--seats", 16, "--drop-in") as server:
        with Line(server.port) as first, Line(server.port) as second:
            first.ask(ASKED, ANSWERED)
            second.ask(ASKED, ANSWERED)
            used = len(os.listdir(f"/proc/{server.process.pid}/fd"))
            resource.prlimit(server.process.pid, resource.RLIMIT_NOFILE, (used, used))
            for _ in range(20):
                with Line(server.port, timeout=10) as refused:
                    assert refused.rest() == TOO_MANY
            took = idle_seconds(server)
            first.ask(ASKED, ANSWERED)
        deadline = time.monotonic() + 30
        while not (again := is_served(server.port)) and time.monotonic() < deadline:
            time.sleep(0.1)
    print(f"{took:.2f} s of processor time in 3 s")
    assert again and took <= 0.05


def replied(line):
    """Returns the reply to the one command of a connection, or nothing if it was closed."""
    try:
        return line.read(len(ANSWERED))
    except ConnectionResetError:
        return b""


@fails_with("is another process", "spins")
def test_connections_that_find_no_memory_are_closed():
    """Each is served or closed, threads sleep, and others are served. Once there is memory, all are.
    Each reserves address space for a line of 8 MiB, of which there is little."""
    with Server("--seats", 64, "--line-limit", "8m") as server, Line(server.port) as first:
        first.ask(ASKED, ANSWERED)
        most = server.taken() + 36 * MIB
        resource.prlimit(server.process.pid, resource.RLIMIT_AS, (most, resource.RLIM_INFINITY))
        lines = [Line(server.port, timeout=10) for _ in range(32)]
        for line in lines:
            line.send(ASKED)
        found = [replied(line) for line in lines]
        took = idle_seconds(server)
        first.ask(ASKED, ANSWERED)
        resource.prlimit(server.process.pid, resource.RLIMIT_AS, (resource.RLIM_INFINITY, resource.RLIM_INFINITY))
        for line in lines:
            line.close()
        again = [Line(server.port) for _ in range(60)]
        for line in again:
            line.ask(ASKED, ANSWERED)
            line.close()
    print(f"{found.count(b'')} of {len(found)} closed, {took:.2f} s of processor time in 3 s")
    assert set(found) == {ANSWERED, b""} and took <= 0.5


@fails_with("ends with 0")
def test_a_lost_listener_ends_the_program():
    """No more connections can come: those that are served are served to their end, and then the program says so."""
    with Server("--seats", 4) as server:
        line = Line(server.port)
        line.ask(ASKED, ANSWERED)
        for shared in sockets_of(server):
            if is_listening(shared):
                shared.shutdown(socket.SHUT_RDWR)
        time.sleep(0.3)
        assert server.is_running()
        line.ask(ASKED, ANSWERED)
        line.close()
        assert (server.process.wait(timeout=30), server.process.stderr.read()) == (1, b"mcd: cannot listen\n")


@fails_with("is another process")
def test_replies_are_not_gathered_by_the_system(server):
    """Each connection has TCP_NODELAY set."""
    with Line(server.port) as first, Line(server.port) as second:
        for line in (first, second):
            line.ask(ASKED, ANSWERED)
        nodelay = [it.getsockopt(socket.IPPROTO_TCP, socket.TCP_NODELAY) != 0 for it in sockets_of(server) if not is_listening(it)]
        assert nodelay == [True, True]


@fails_with("has one seat")
def test_one_that_quits_and_stays_leaves_its_seat():
    """Its replies are read to their end, but it doesn't close: the next client is served soon, and not only after it."""
    with Server("--seats", 1) as server, Line(server.port) as first:
        first.ask(ASKED + b"quit\r\n", ANSWERED)
        assert first.rest() == b""
        with Line(server.port, timeout=10) as second:
            second.ask(ASKED, ANSWERED)
