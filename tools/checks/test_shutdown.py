"""By memcached's rules and with --enable-shutdown, a client's `shutdown` ends the server in order, as a blocked SIGTERM does: it
accepts no further connection, answers what it has taken, and ends with status 0. Without the option the command is refused.
"""
import time

import pytest

from tools.checks.test_signals import BLOCKING, ends, ends_once_read, unread_replies
from tools.served import NO_OP, NO_OP_REPLY, STORED, Line, Server, hit_of, set_of

fails_with = pytest.mark.fails_with
IN_ORDER = "mcd: stopped by a client's shutdown, all replies written"
CUT_OFF = "mcd: stopped by a client's shutdown, connections cut off (--drain)"

REFUSED = b"ERROR: shutdown not enabled\r\n"
NO_MODE = b"CLIENT_ERROR invalid shutdown mode\r\n"
UNKNOWN = b"ERROR\r\n"
FORMS = (b"shutdown\r\n", b"shutdown graceful\r\n", b"  shutdown  \r\n", b"shutdown\n")
OTHER_MODES = (b"shutdown x\r\n", b"shutdown noreply\r\n", b"shutdown Graceful\r\n", b"shutdown graceful x\r\n", b"shutdown" + b" a" * 30 + b"\r\n")


def obedient(*options, **how):
    return Server("--drop-in", "--enable-shutdown", *options, **how)


def request_end(line, command=FORMS[0]):
    line.send(command)
    return time.monotonic()


@fails_with("never lets clients end it", "ignores the rules of memcached")
def test_each_form_ends_it_in_order():
    """Its client gets nothing but the end of the connection, as others do, also amid a command; whether signals are blocked or not."""
    for number, form in enumerate(FORMS):
        before = BLOCKING if number % 2 else ()
        with Server("--drop-in", "-A", before=before) as server, Line(server.port) as line, Line(server.port) as idle, Line(server.port) as half:
            idle.ask(NO_OP, NO_OP_REPLY)
            half.ask(NO_OP, NO_OP_REPLY)
            half.send(b"set b 0 0 10\r\nhalf")
            time.sleep(0.2)
            began = request_end(line, form)
            assert [it.rest() for it in (line, idle, half)] == [b"", b"", b""], form
            for it in (line, idle, half):
                it.close()
            ends(server, IN_ORDER, began)


@fails_with("never lets clients end it", "ignores the rules of memcached")
def test_what_comes_before_it_is_answered_and_nothing_after_it():
    with obedient() as server, Line(server.port) as line, Line(server.port) as other:
        other.ask(NO_OP, NO_OP_REPLY)
        began = request_end(line, set_of(b"a", b"x") + b"get a\r\n" + FORMS[1] + set_of(b"a", b"y") + b"get a\r\n")
        assert line.rest() == STORED + hit_of(b"a", b"x")
        line.close()
        # Another connection is served until it has nothing more to say.
        assert other.rest() == b""
        other.close()
        ends(server, IN_ORDER, began)


@fails_with("lets each client end it", "ignores the rules of memcached")
def test_it_is_refused_where_clients_may_not_end_it():
    with Server("--drop-in") as server, Line(server.port) as line:
        for form in FORMS + OTHER_MODES:
            line.ask(form, REFUSED)
        line.ask(b"".join(FORMS) + NO_OP, len(FORMS) * REFUSED + NO_OP_REPLY)
        time.sleep(1)
        line.ask(NO_OP, NO_OP_REPLY)
        assert server.is_running()


@fails_with("never lets clients end it", "ignores the rules of memcached")
def test_other_modes_end_nothing():
    with obedient() as server, Line(server.port) as line:
        for form in OTHER_MODES:
            line.ask(form, NO_MODE)
        line.ask(b"SHUTDOWN\r\nshutdowns\r\n", 2 * UNKNOWN)
        time.sleep(1)
        line.ask(NO_OP, NO_OP_REPLY)
        assert server.is_running()


@fails_with("has memcached's rules", "warns of nothing")
def test_natively_there_is_none():
    """The option is ignored with a warning."""
    with Server("--enable-shutdown") as server, Line(server.port) as line:
        assert server.line_said() == "mcd: warning: --enable-shutdown is ignored without --drop-in\n"
        for form in FORMS + OTHER_MODES:
            line.ask(form, UNKNOWN)
        time.sleep(1)
        line.ask(NO_OP, NO_OP_REPLY)
        assert server.is_running()


@fails_with("never lets clients end it", "cuts connections off at once")
def test_what_others_were_owed_is_written():
    """And meanwhile no further connection is accepted."""
    with unread_replies(obedient, 20) as (server, line, wanted), Line(server.port) as other:
        began = request_end(other)
        assert other.rest() == b""
        time.sleep(1)
        assert server.is_running()
        with pytest.raises(ConnectionRefusedError):
            Line(server.port)
        ends_once_read(server, line, wanted, IN_ORDER, began)


@fails_with("never lets clients end it", "drains for an hour")
def test_one_that_takes_nothing_is_cut_off():
    with unread_replies(obedient, 3) as (server, _, _), Line(server.port) as other:
        took = ends(server, CUT_OFF, request_end(other), within=3 + 4)
        assert 3 <= took


@fails_with("never lets clients end it", "ignores that it is to be verbose")
def test_the_log_has_its_reason():
    with obedient("--verbose") as server, Line(server.port) as line:
        request_end(line)
        assert "opened" in server.line_said()
        assert "client sent shutdown; 1 command, 10 bytes read, 0 bytes written" in server.line_said()
