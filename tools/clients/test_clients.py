"""Drives the server by the clients that people use, by native rules and with `--drop-in`. Where a client sees the two differ, there is
a test of each.

A client that isn't installed is skipped (tools/installed.py installs them). The scripts in other languages, and for Django, print
`ok NAME` or `FAILED NAME: WHY` for each of their checks.

They fail for a server that keeps nothing, tears values, leaves out replies, serves a 65th connection beside 64 or never answers. The
tests of what differs fail for a server that follows the other rules; those of `--drop-in` hold for memcached 1.6.18.
"""
import base64
import os
import pathlib
import re
import shutil
import socket
import subprocess
import time

import pytest

from tools.clients.clients import LARGE, Memcache, Plain, Pylibmc, Pymemcache, Socket
from tools.served import Server

CLIENT_SECONDS = 100


def of(*kinds):
    """A test of these clients."""
    return pytest.mark.parametrize("it", kinds, indirect=True)


own, drop_in = (pytest.mark.parametrize("rules", [it], indirect=True) for it in ("own", "drop-in"))


@pytest.fixture(scope="module", params=["own", "drop-in"])
def rules(request):
    return request.param


@pytest.fixture(scope="module")
def port(rules):
    """The port of a server that follows these rules, and still runs when its tests have ended."""
    with Server("--seats", 64, *["--drop-in"] * (rules == "drop-in")) as server:
        yield server.port
        assert server.is_running()


@pytest.fixture(params=[Socket, Pymemcache, Pylibmc, Memcache])
def it(request, port):
    """A client. Each test has a connection of its own, so that one that fails spoils no other."""
    try:
        made = request.param(port)
    except ImportError as why:
        pytest.skip(str(why))
    yield made
    made.close()


def test_stores_and_fetches(it):
    assert it.set(b"a", b"one")
    assert it.get(b"a") == b"one"
    assert it.get(b"never stored"[:5]) is None


def test_fetches_2000_keys(it):
    keys = [b"many%04d" % number for number in range(2000)]
    for key in keys:
        it.set(key, b"value of " + key)
    assert it.get_many(keys) == {key: b"value of " + key for key in keys}


@drop_in
def test_fetches_20000_keys_at_once(it):
    """Keys of 30 bytes, which some clients put into one line."""
    keys = [b"lots%026d" % number for number in range(20_000)]
    for key in keys:
        it.set(key, key[-5:])
    assert it.get_many(keys) == {key: key[-5:] for key in keys}


def test_compares_and_swaps(it):
    it.set(b"swapped", b"first")
    assert it.swap(b"swapped", b"last") == (False, True)
    assert it.get(b"swapped") == b"last"


def test_counts(it):
    it.set(b"count", b"40")
    assert int(it.incr(b"count", 2)) == 42
    assert int(it.decr(b"count", 50)) == 0


def test_expires(it):
    it.set(b"brief", b"x", 2)
    assert it.get(b"brief") == b"x"
    it.set(b"touched", b"y", 2)
    assert it.touch(b"touched", 100)
    time.sleep(3.1)
    assert it.get(b"brief") is None
    assert it.get(b"touched") == b"y"


def test_deletes_adds_and_replaces(it):
    it.set(b"gone", b"x")
    assert it.delete(b"gone")
    assert it.get(b"gone") is None
    assert it.add(b"gone", b"new")
    assert not it.add(b"gone", b"newer")
    assert it.replace(b"gone", b"newest")
    assert it.append(b"gone", b"!")
    assert it.get(b"gone") == b"newest!"


def test_keeps_large_values(it):
    for size in (1, 1000, 65_536, 1_000_000):
        value = bytes(number * 7 % 251 for number in range(1000)) * (size // 1000 + 1)
        assert it.set(b"large", value[:size])
        assert it.get(b"large") == value[:size]


def test_takes_a_flood(it):
    it.flood(20_000)
    assert it.get(b"flood99") == b"19999"


def test_forgets_all(it):
    it.set(b"a", b"one")
    it.flush()
    assert it.get(b"a") is None


@own
def test_too_large_a_value_leaves_the_old_one(it):
    it.set(b"replaced", b"old")
    assert it.is_refused(b"replaced", b"v" * LARGE)
    assert it.get(b"replaced") == b"old"


@drop_in
def test_too_large_a_value_removes_the_old_one(it):
    it.set(b"replaced", b"old")
    assert it.is_refused(b"replaced", b"v" * LARGE)
    assert it.get(b"replaced") is None


@drop_in
@of(Socket, Pymemcache, Memcache)
def test_noreply_hides_that_a_value_is_too_large(it):
    it.set_silently(b"silent", b"v" * LARGE)
    assert it.set(b"next", b"x")
    assert it.get(b"next") == b"x"


@own
@of(Socket, Pymemcache, Memcache)
def test_noreply_shows_that_a_value_is_too_large(it):
    """The next command gets the line as its reply, and the one after it the reply of that one."""
    it.set_silently(b"silent", b"v" * LARGE)
    assert it.is_refused(b"next", b"x")


@of(Socket, Pymemcache, Memcache)
def test_exptime_minus_1_is_gone_at_once(it):
    it.set(b"dead", b"x", -1)
    assert it.get(b"dead") is None


@drop_in
@of(Pylibmc)
def test_exptime_minus_1_of_pylibmc_is_gone_at_once(it):
    test_exptime_minus_1_is_gone_at_once(it)


@own
@of(Pylibmc)
def test_exptime_minus_1_is_the_year_2106(it):
    """For a client that sends 4294967295 in its place."""
    it.set(b"dead", b"x", -1)
    assert it.get(b"dead") == b"x"


@drop_in
@of(Socket, Pymemcache, Memcache)
def test_exptime_4294967295_is_gone_at_once(it):
    it.set(b"dead", b"x", 4294967295)
    assert it.get(b"dead") is None


@own
@of(Socket, Pymemcache, Memcache)
def test_exptime_4294967295_is_the_year_2106(it):
    it.set(b"dead", b"x", 4294967295)
    assert it.get(b"dead") == b"x"


@drop_in
def test_stats_counts_commands(it):
    """One set, a hit, two misses, and what was taken away, beside what was counted before."""
    before = it.stats()
    it.set(b"counted", b"12")
    it.incr(b"counted", 1)
    for key in (b"counted", b"uncounted", b"uncounted"):
        it.get(key)
    it.delete(b"counted")
    it.delete(b"counted")
    grown = {name: count - before[name] for name, count in it.stats().items() if isinstance(count, int)}
    wanted = {"cmd_set": 1, "cmd_get": 3, "get_hits": 1, "get_misses": 2, "incr_hits": 1, "delete_hits": 1, "delete_misses": 1}
    assert {name: grown[name] for name in wanted if name in grown} == {name: count for name, count in wanted.items() if name in grown}
    assert {"cmd_set", "cmd_get", "get_hits", "get_misses"} <= grown.keys()


@drop_in
def test_stats_has_the_version_of_memcached(it):
    assert it.stats()["version"] == "1.6.18"


@drop_in
@of(Socket)
def test_reset_sets_the_counts_to_0(it):
    it.set(b"kept", b"x")
    assert it.reply_to(b"stats reset\r\n") == b"RESET"
    counts = it.stats()
    assert (counts["cmd_set"], counts["get_hits"], counts["total_items"], counts["curr_items"] > 0) == (0, 0, 0, True)


@own
def test_stats_is_no_command(it):
    """A client sees no counts, or an error."""
    try:
        counts = it.stats()
    except Exception:
        return
    assert counts == {}


@own
@of(Socket, Pymemcache)
def test_version_is_that_of_mcd(it):
    assert it.version() == b"1.6.0-sharded"


@drop_in
@of(Socket, Pymemcache)
def test_version_is_that_of_memcached(it):
    assert it.version() == b"1.6.18"


def test_binary_keys_by_base64(port):
    it = Plain(port)
    for key in (b"\0\r\n \xff", bytes(range(186))):
        word = base64.b64encode(key)
        it.asked(b"ms %s 3 b\r\nabc\r\nmg %s b k v\r\nmd %s b\r\nmg %s b v\r\n" % (word, word, word, word),
                 b"HD\r\nVA 3 k%s b\r\nabc\r\nHD\r\nEN\r\n" % word)


def test_pipelines_10000_commands(port):
    it = Plain(port)
    count = 10_000
    it.asked(b"set p 0 0 1\r\n0\r\n" + b"incr p 1\r\nmg p v\r\n" * count,
             b"STORED\r\n" + b"".join(b"%d\r\nVA %d\r\n%d\r\n" % (n, len(str(n)), n) for n in range(1, count + 1)))


def test_half_closes(port):
    it = Plain(port)
    it.line.sendall(b"set h 0 0 1\r\nx\r\nget h\r\n")
    it.line.shutdown(socket.SHUT_WR)
    it.asked(b"", b"STORED\r\nVALUE h 0 1\r\nx\r\nEND\r\n")
    assert it.line.recv(10) == b""


def test_quits_with_the_last_reply(port):
    it = Plain(port)
    it.line.sendall(b"mn\r\nquit\r\n" + b"get a\r\n" * 20_000)
    found = b""
    while got := it.line.recv(1 << 16):
        found += got
    assert found == b"MN\r\n"


def sixty_four_connections(port):
    """As many as there are seats, each of which was served."""
    lines = [Plain(port) for _ in range(64)]
    for number, it in enumerate(lines):
        it.asked(b"set s%d 0 0 2\r\n%02d\r\nget s%d\r\n" % (number, number, number),
                 b"STORED\r\nVALUE s%d 0 2\r\n%02d\r\nEND\r\n" % (number, number))
    return lines


def await_seats(port, count):
    """Returns once that many new connections are served at once."""
    for _ in range(100):
        try:
            for it in [Plain(port) for _ in range(count)]:
                it.asked(b"mn\r\n", b"MN\r\n")
            return
        except (AssertionError, OSError):
            time.sleep(0.05)
    raise AssertionError("no seat is free again")


@own
def test_serves_64_at_once_and_then_the_65th(port):
    lines = sixty_four_connections(port)
    waits = Plain(port)
    waits.line.sendall(b"mn\r\n")
    waits.line.settimeout(0.3)
    try:
        raise AssertionError(f"a 65th connection was served beside 64: {waits.line.recv(10)!r}")
    except TimeoutError:
        pass
    lines[7].line.close()
    waits.line.settimeout(30)
    waits.asked(b"", b"MN\r\n")


@drop_in
def test_serves_64_at_once_and_refuses_the_65th(port):
    lines = sixty_four_connections(port)
    refused = Plain(port)
    refused.asked(b"", b"ERROR Too many open connections\r\n")
    assert refused.line.recv(10) == b""
    lines[7].asked(b"mn\r\n", b"MN\r\n")
    lines[7].line.close()
    await_seats(port, 1)
    # The tests that follow need seats too.
    for it in lines:
        it.line.close()
    await_seats(port, 32)


LARGE_PARTS = b"set joined 0 0 1000000\r\n%b\r\n" % (b"v" * 1_000_000), b" 100000\r\n%b\r\n" % (b"x" * 100_000)


@drop_in
def test_a_joined_value_that_is_too_large_is_not_stored(port):
    first, more = LARGE_PARTS
    Plain(port).asked(first + b"append joined 0 0" + more + b"ms joined" + more.replace(b"\r", b" MA k\r", 1) + b"mg joined s\r\n",
                      b"STORED\r\nNOT_STORED\r\nNS kjoined\r\nHD s1000000\r\n")


@own
def test_a_joined_value_that_is_too_large_is_an_error(port):
    first, more = LARGE_PARTS
    Plain(port).asked(first + b"append joined 0 0" + more + b"ms joined" + more.replace(b"\r", b" MA k\r", 1) + b"mg joined s\r\n",
                      b"STORED\r\n" + b"SERVER_ERROR object too large for cache\r\n" * 2 + b"HD s1000000\r\n")


META_LINES = b"set m 5 100 1\r\nx\r\nms m 1 ME c\r\ny\r\nmg m u h\r\nmg m h\r\nmd m I\r\nmg m\r\nmg m\r\n"


@drop_in
def test_meta_replies_are_those_of_memcached(port):
    Plain(port).asked(META_LINES, b"STORED\r\nNS c0\r\nHD h0\r\nHD h0\r\nHD\r\nHD X W\r\nHD Z X\r\n")


@own
def test_meta_replies_are_those_of_mcd(port):
    Plain(port).asked(META_LINES, b"STORED\r\nNS\r\nCLIENT_ERROR invalid flag\r\nHD h0\r\nHD\r\nHD W X\r\nHD X Z\r\n")


@drop_in
def test_noreply_hides_a_bad_data_chunk(port):
    Plain(port).asked(b"set chunk 0 0 1 noreply\r\nxyzmn\r\n", b"MN\r\n")


@own
def test_noreply_shows_a_bad_data_chunk(port):
    Plain(port).asked(b"set chunk 0 0 1 noreply\r\nxyzmn\r\n", b"CLIENT_ERROR bad data chunk\r\nMN\r\n")


# The scripts of other clients: how each is run, and what succeeds where its client is there.
SCRIPTS = {
    "django": (["/usr/bin/python3", "checks_django.py"], ["/usr/bin/python3", "-c", "import django, pymemcache, pylibmc"]),
    "php-sessions": (["php", "checks_session.php"], ["php", "-r", "new Memcached();"]),
    "php": (["php", "checks.php"], ["php", "-r", "new Memcached();"]),
    "perl": (["perl", "checks_stats.pl"], ["perl", "-MCache::Memcached", "-e", "1"]),
    "perl-fast": (["perl", "checks.pl"], ["perl", "-MCache::Memcached::Fast", "-e", "1"]),
}

# What clients check and mcd doesn't do, each with the reason; all else that they check must hold.
LEFT_OUT = {
    ("own", "ascii stat"): "natively mcd has no `stats`",
    ("own", "ascii verbosity"): "memccapable expects no reply to the malformed `verbosity noreply`; here an error line is always shown",
    ("own", "pylibmc takes_a_timeout_of_0"): "pylibmc sends -1 as 4294967295, which is the year 2106 here (docs/PROTOCOL.md)",
}


def ran(words, **more):
    if not shutil.which(words[0]):
        pytest.skip(f"no {words[0]} here")
    return subprocess.run(words, stdin=subprocess.DEVNULL, capture_output=True, text=True, errors="replace", timeout=CLIENT_SECONDS, **more)


def failed(rules, checks):
    """The checks, by their names and whether they hold, that should hold and don't; they are printed."""
    print(*(f"{'ok' if holds else 'FAILED'} {name}" for name, holds in checks), sep="\n")
    return [name for name, holds in checks if not holds and not any(name.startswith(left) for by, left in LEFT_OUT if by == rules)]


@pytest.mark.parametrize("script", SCRIPTS)
def test_the_checks_of_a_script(rules, port, script):
    words, probe = SCRIPTS[script]
    if ran(probe).returncode:
        pytest.skip(f"no client for {script} here")
    found = ran([*words, "127.0.0.1", str(port)], cwd=pathlib.Path(__file__).parent, env={**os.environ, "MCD_RULES": rules})
    checks = [(name, state == "ok") for state, name in re.findall(r"^(ok|FAILED) (.*)", found.stdout, re.M)]
    assert failed(rules, checks) == []
    assert checks and found.returncode == 0, found.stderr[-300:]


def test_memccapable(rules, port):
    found = ran(["memccapable", "-a", "-h", "127.0.0.1", "-p", str(port)])
    # A test that fails says so on standard error, so there is nothing behind its name on standard output.
    checks = [(name, bool(passes)) for name, passes in re.findall(r"(ascii(?: \w+)+) {2,}(\[pass\])?", found.stdout)]
    assert failed(rules, checks) == []
    assert len(checks) >= 20


@pytest.mark.parametrize("test", ["get", "set"])
def test_memcslap(port, test):
    assert ran(["memcslap", f"--servers=127.0.0.1:{port}", "--concurrency=8", "--execute-number=1000", f"--test={test}"]).returncode == 0


@drop_in
def test_memcstat_shows_the_counts(port):
    shown = dict(re.findall(r"\t ?(\w+): (\S+)", ran(["memcstat", f"--servers=127.0.0.1:{port}"]).stdout))
    assert {"version", "threads", "cmd_get", "limit_maxbytes"} <= shown.keys() and shown["version"] == "1.6.18"
