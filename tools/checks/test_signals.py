"""Where SIGTERM and SIGINT are blocked, one of them ends the server in order: it accepts no further connection, answers what it has
taken, and ends with status 0.
"""
import contextlib
import pathlib
import signal
import subprocess
import threading
import time

import pytest

from tools.served import LISTENING, MIB, NO_OP, NO_OP_REPLY, STORED, Line, Server, hit_of, mcd, running, set_of

fails_with = pytest.mark.fails_with
BLOCKING = ["env", "--block-signal=TERM,INT,HUP"]
IN_ORDER = "mcd: stopped by a signal, all replies written"
CUT_OFF = "mcd: stopped by a signal, connections cut off (--drain)"

# It looks for a signal four times a second, and waits half a second for the end of a peer's bytes; a busy machine takes longer.
SOON = 4


def blocked(*options):
    return Server(*options, before=BLOCKING)


def request_end(server, number=signal.SIGTERM):
    server.process.send_signal(number)
    return time.monotonic()


def ends(server, last, began, within=SOON):
    """The server ends in time, with status 0, and its last line is this one."""
    status = server.process.wait(timeout=30)
    took = time.monotonic() - began
    assert (status, server.process.stderr.read().decode().splitlines()[-1:]) == (0, [last])
    assert took < within
    return took


def ends_once_read(server, line, wanted, last, began):
    """The connection gets all of these replies, and then the server ends with this last line."""
    found = line.rest()
    assert (len(found), found == wanted) == (len(wanted), True)
    line.close()
    ends(server, last, began, within=20)


@fails_with("unblocks its signals", "gets no signal")
def test_each_signal_ends_it_in_order():
    """Even if a client has sent half a command, and one nothing at all."""
    for number in (signal.SIGTERM, signal.SIGINT):
        with blocked() as server, Line(server.port) as idle, Line(server.port) as half, Line(server.port) as silent:
            idle.ask(set_of(b"a", b"x") + b"get a\r\n", STORED + hit_of(b"a", b"x"))
            half.ask(NO_OP, NO_OP_REPLY)
            half.send(b"set b 0 0 10\r\nhalf")
            time.sleep(0.2)
            began = request_end(server, number)
            # An end of their bytes, and no reset.
            assert [line.rest() for line in (idle, half, silent)] == [b"", b"", b""]
            for line in (idle, half, silent):
                line.close()
            ends(server, IN_ORDER, began)


@contextlib.contextmanager
def unread_replies(started, drain):
    """A server, started so, that drains for so long, a connection that has read none of the replies to what it sent, and those replies."""
    value = b"v" * (8 * MIB)
    with started("--value-limit", "8m", "--memory", "64m", "--drain", drain) as server, Line(server.port, room=4096) as line:
        line.ask(set_of(b"a", value), STORED)
        line.send(8 * b"get a\r\n")
        time.sleep(0.5)
        yield server, line, 8 * hit_of(b"a", value)


@fails_with("unblocks its signals", "cuts connections off at once")
def test_what_was_taken_is_answered():
    """Replies that find no room on the way wait until their client takes them."""
    with unread_replies(blocked, 20) as (server, line, wanted):
        began = request_end(server)
        time.sleep(1)
        assert server.is_running()
        ends_once_read(server, line, wanted, IN_ORDER, began)


@fails_with("cuts connections off at once", "drains for an hour")
def test_one_that_takes_nothing_is_cut_off():
    with unread_replies(blocked, 3) as (server, _, _):
        took = ends(server, CUT_OFF, request_end(server), within=3 + SOON)
        assert 3 <= took
        print(f"after {took:.1f} s")


@fails_with("unblocks its signals", "gets no signal")
def test_one_that_asks_without_end_gets_whole_replies():
    with blocked() as server, Line(server.port) as line:
        found, stop = bytearray(), threading.Event()

        def ask():
            try:
                while not stop.is_set():
                    line.send(NO_OP)
                    got = line.socket.recv(4096)
                    if not got:
                        return
                    found.extend(got)
            except OSError:
                pass

        asking = threading.Thread(target=ask)
        asking.start()
        time.sleep(0.5)
        took = ends(server, IN_ORDER, request_end(server))
        stop.set()
        asking.join()
        assert len(found) > 0 and bytes(found) == NO_OP_REPLY * (len(found) // len(NO_OP_REPLY))
        print(f"{len(found) // len(NO_OP_REPLY)} replies, after {took:.1f} s")


@fails_with("accepts to the end", "unblocks its signals")
def test_no_further_connection_is_accepted():
    """While one is still served."""
    value = b"v" * (8 * MIB)
    with blocked("--value-limit", "8m", "--memory", "64m", "--drain", 4) as server, Line(server.port, room=4096) as line:
        line.ask(set_of(b"a", value), STORED)
        line.send(8 * b"get a\r\n")
        time.sleep(0.5)
        request_end(server)
        time.sleep(1)
        assert server.is_running()
        try:
            Line(server.port).close()
        except ConnectionRefusedError:
            return
        raise AssertionError("a connection is accepted")


@fails_with("unblocks its signals", "gets no signal")
def test_it_ends_while_one_waits_for_a_seat():
    with blocked("--seats", 1) as server, Line(server.port) as line, Line(server.port) as other:
        line.ask(NO_OP, NO_OP_REPLY)
        other.send(NO_OP)
        time.sleep(0.2)
        began = request_end(server)
        assert line.rest() == b""
        line.close()
        ends(server, IN_ORDER, began)


@fails_with("unblocks its signals", "gets no signal")
def test_it_ends_where_nobody_came():
    with blocked("--metrics", 0, "--verbose", "--idle-timeout", 9) as server:
        ends(server, IN_ORDER, request_end(server))


@fails_with("unblocks its signals")
def test_a_hang_up_ends_nothing():
    with blocked() as server, Line(server.port) as line:
        line.ask(set_of(b"a", b"x"), STORED)
        server.process.send_signal(signal.SIGHUP)
        time.sleep(1)
        line.ask(b"get a\r\n", hit_of(b"a", b"x"))


@fails_with("blocks its signals")
def test_one_that_is_not_blocked_ends_at_once(server):
    server.process.send_signal(signal.SIGTERM)
    assert server.process.wait(timeout=30) == (-signal.SIGTERM)


@fails_with("unblocks its signals")
def test_so_does_the_first_process():
    """As in a container: a signal that is not blocked would be dropped there."""
    words = ["unshare", "--pid", "--fork", "--kill-child", "--mount-proc", *BLOCKING, *mcd("--listen", "127.0.0.1:0")]
    with running(words, stderr=subprocess.PIPE) as process:
        if not LISTENING.fullmatch(process.stderr.readline().decode()):
            pytest.skip("no namespace of its own here")
        children = pathlib.Path(f"/proc/{process.pid}/task/{process.pid}/children").read_text().split()
        subprocess.run(["kill", "-TERM", *children], check=True)
        assert (process.wait(timeout=30), process.stderr.read().decode().splitlines()[-1:]) == (0, [IN_ORDER])
