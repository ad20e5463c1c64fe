"""Each option, by a row that differs if it is ignored, and the texts of errors.

What is expected follows from the rules of docs/PROTOCOL.md: what an item costs, on which shard a key is, which cas uniques a shard
assigns.
"""
import os
import pathlib
import random
import socket
import subprocess
import tempfile
import time

import pytest

from tools.checks.test_hostile_bytes import rows, spoken
from tools.replay_model import place
from tools.served import MIB, STORED, TOO_LARGE, TOP, Line, Server, ended, hit_of, mcd, run, running, set_of

fails_with = pytest.mark.fails_with

# So long it takes at most until what must not happen would have happened, in seconds.
A_WHILE = 0.5


def over_stdio(options, given):
    ran = run("--stdio", "--at", 1000, *options, given=given)
    assert (ran.returncode, ran.stderr) == (0, b"")
    return ran.stdout


def all_of(line):
    """What comes until the connection is closed, even if its peer hadn't read all that was sent."""
    found = b""
    try:
        while got := line.socket.recv(1 << 18):
            found += got
    except ConnectionResetError:
        pass
    return found


def over_tcp(options, given, length):
    """The first `length` bytes of the output, and what comes behind them."""
    with Server(*options) as server, Line(server.port) as line:
        line.send(given)
        found = line.read(length)
        line.end()
        return found + all_of(line)


def row(options, given, wanted):
    """The input must give this output by both ways to serve."""
    assert over_stdio(options.split(), given) == wanted
    assert over_tcp(options.split(), given, len(wanted)) == wanted


@fails_with("ignores a value limit")
def test_a_value_limit_of_1024():
    given = set_of(b"a", b"x" * 1024) + b"append a 0 0 1\r\nx\r\n" + set_of(b"a", b"x" * 1025) + b"mn\r\n"
    for size in ("1024", "1k"):
        row(f"--value-limit {size}", given, STORED + 2 * TOO_LARGE + b"MN\r\n")


@fails_with("ignores a value limit", "changes a byte")
def test_values_of_2_mib():
    """Their bytes don't repeat, so that one that is written twice, left out or exchanged is seen."""
    value = random.Random(1).randbytes(2 * MIB)
    given = set_of(b"a", value) + 2 * b"get a\r\n" + b"mn\r\n"
    row("--value-limit 4194304", given, STORED + 2 * hit_of(b"a", value) + b"MN\r\n")
    row("--value-limit 4m", set_of(b"a", value) + b"mn\r\n", STORED + b"MN\r\n")


@fails_with("changes a byte", "ends with 1")
def test_values_of_each_length():
    """Short ones are copied into the text of their replies, longer ones are written from where they are; a few fill what the system has room
    for. Each is asked for twice at once, and by itself."""
    for length in (0, 1, 511, 512, 1023, 1024, 1025, 4096, 16_384, 65_535, 65_536, 262_144, MIB):
        value = random.Random(length).randbytes(length)
        given = set_of(b"a", value) + b"get a a\r\nmn\r\nmg a v\r\n"
        hit = hit_of(b"a", value)
        row("", given, STORED + hit[:-5] + hit + b"MN\r\nVA %d\r\n%s\r\n" % (length, value))


LINE_TOO_LONG = b"CLIENT_ERROR line too long\r\n"


def line_of(length):
    """A command in a line of `length` bytes, its line end among them."""
    return b"mn" + b" " * (length - 3) + b"\n"


def longest_line(options, limit):
    """A line of `limit` bytes is read, and nothing is read behind one that is a byte longer."""
    row(options, line_of(limit) + b"mn\n" + line_of(limit + 1) + b"mn\n", 2 * b"MN\r\n" + LINE_TOO_LONG)


@fails_with("ignores a line limit")
def test_the_longest_line():
    for limit in ("2048", "2k"):
        longest_line(f"--line-limit {limit}", 2048)
        longest_line(f"--drop-in --line-limit {limit}", 2048)
    longest_line("", 65536)
    longest_line("--drop-in", MIB)
    longest_line("--line-limit 8m", 8 * MIB)


# Inputs that the two rules read otherwise: what is answered by the server's own, and by memcached's.
BOTH = [
    (b"version\r\n", b"VERSION 1.6.0-sharded\r\n", b"VERSION 1.6.18\r\n"),
    (b"set a 0 4294967295 1\r\nx\r\nmg a\r\n", STORED + b"HD\r\n", STORED + b"EN\r\n"),
    (b"get\r\nmn\r\n", b"CLIENT_ERROR bad command line format\r\nMN\r\n", b"ERROR\r\nMN\r\n"),
    (b"verbosity noreply\r\nmn\r\n", b"CLIENT_ERROR bad command line format\r\nMN\r\n", b"MN\r\n"),
    (b"touch a 0 x\r\n", b"CLIENT_ERROR bad command line format\r\n", b"NOT_FOUND\r\n"),
    (b"mg a P L\r\n", b"CLIENT_ERROR invalid flag\r\n", b"EN\r\n"),
]


@fails_with("ignores the rules of memcached")
def test_memcacheds_rules():
    for given, own, memcacheds in BOTH:
        row("", given, own)
        row("--drop-in", given, memcacheds)


# How connections of other protocols begin: HTTP as curl and browsers send it, memcached's binary protocol, TLS; and what is answered
# by native rules, where no more is sent.
FOREIGN = [
    (b"GET / HTTP/1.1\r\nHost: a\r\nUser-Agent: curl/8.0\r\nAccept: */*\r\n\r\n", 5 * b"ERROR\r\n"),
    (b"POST /a HTTP/1.1\r\nHost: a\r\n\r\nset a 0 0 1\r\nx\r\n", 3 * b"ERROR\r\n" + STORED),
    *((b"%s /a HTTP/1.1\r\n" % method, b"ERROR\r\n") for method in (b"HEAD", b"PUT", b"DELETE", b"OPTIONS", b"PATCH", b"TRACE")),
    (b"\x80\x0b" + bytes(22) + b"\r\n", b"ERROR\r\n"),
    (b"\x16\x03\x01\x02\0\x01\0\x01\xfc\x03\x03\r\n", b"ERROR\r\n"),
]

# These begin much like them, and are lines by both rules.
ALMOST_FOREIGN = [
    (b"get /key\r\n", b"END\r\n"), (b"GET a\r\n", b"ERROR\r\n"), (b"\x16\x02\r\n", b"ERROR\r\n"),
    (b"mn\r\nGET / HTTP/1.1\r\n", b"MN\r\nERROR\r\n"),
]


@fails_with("ignores the rules of memcached")
def test_another_protocol():
    """By memcached's rules it is closed at once and without a byte, and while the client could send more."""
    with Server() as own, Server("--drop-in") as memcacheds:
        for given, wanted in FOREIGN:
            with Line(own.port) as line:
                line.send(given)
                line.end()
                assert line.rest() == wanted
            with Line(memcacheds.port, timeout=10) as line:
                line.send(given)
                assert all_of(line) == b"", given
        for server in (own, memcacheds):
            for given, wanted in ALMOST_FOREIGN:
                with Line(server.port) as line:
                    line.ask(given, wanted)
        # Nothing of what they sent was run.
        with Line(memcacheds.port) as line:
            line.ask(b"get a\r\n", b"END\r\n")


@fails_with("ignores the rules of memcached")
def test_the_worked_rows_by_memcacheds_rules():
    """Each row through the program; if one has a second output it is that of memcached's rules."""
    for name, options, given, wanted in rows(drop_in=True):
        assert spoken(options, given) == wanted, name


def sets_of(count, keys):
    return b"".join(set_of(key, b"v" * count) for key in keys)


def values_of(count, keys):
    return b"".join(b"VALUE %s 0 %d\r\n%s\r\n" % (key, count, b"v" * count) for key in keys) + b"END\r\n"


@fails_with("ignores a budget")
def test_a_budget_of_1024():
    """An item costs its key, its value and 64: two of 300 bytes fit beside each other, the third drives out the first."""
    given = sets_of(300, [b"a", b"c", b"e"]) + b"get a c e\r\n" + sets_of(960, [b"a"]) + sets_of(959, [b"a"]) + b"get a c e\r\n"
    wanted = 3 * STORED + values_of(300, [b"c", b"e"]) + TOO_LARGE + STORED + values_of(959, [b"a"])
    for options in ("--bytes 1024", "--bytes 1k", "--memory 2048", "--memory 2k", "--shards 2 --memory 2049"):
        row(options, given, wanted)


def one_mebibyte_more(options):
    """A value of 1 MiB less 65 and one byte costs the budget of 1 MiB with a key of one byte; a byte more is too large."""
    row(options, set_of(b"a", b"v" * (MIB - 65)) + b"mn\r\n", STORED + b"MN\r\n")
    row(options, set_of(b"a", b"v" * (MIB - 64)) + b"mn\r\n", TOO_LARGE + b"MN\r\n")


@fails_with("ignores a budget")
def test_a_budget_of_1_mib():
    for options in ("--bytes 1m", "--memory 2m", "--memory 3m --shards 3"):
        one_mebibyte_more(options)


@fails_with("ignores a budget")
def test_the_budget_by_default():
    """16 MiB for each shard by default; `stats` shows what all shards together may hold."""
    for options, mebibytes in (("", 32), ("--shards 3", 48), ("--memory 8m", 8), ("--bytes 1m", 2), ("--bytes 1m --shards 5", 5)):
        wanted = b"STAT limit_maxbytes %d\r\n" % (mebibytes * MIB)
        assert wanted in over_stdio(["--drop-in", *options.split()], b"stats\r\n"), options
        with Server("--drop-in", *options.split()) as server, Line(server.port) as line:
            line.send(b"stats\r\nquit\r\n")
            assert wanted in line.rest(), options


def uniques(shards, keys):
    """What sets of these keys and a `gets` of each give: shard s of S assigns the uniques s+1, s+1+S, s+1+2S and so on."""
    given, expected = {}, b""
    for key in keys:
        shard = place(key, shards)
        expected += b"VALUE %s 0 1 %d\r\nx\r\nEND\r\n" % (key, shard + 1 + shards * given.get(shard, 0))
        given[shard] = given.get(shard, 0) + 1
    return expected


@fails_with("ignores the number of shards")
def test_each_number_of_shards():
    # In this order no two numbers of shards give the same uniques.
    keys = [b"a", b"c", b"e", b"b", b"d", b"f", b"g"]
    given = b"".join(set_of(key, b"x") for key in keys) + b"".join(b"gets %s\r\n" % key for key in keys)
    found = {shards: uniques(shards, keys) for shards in (1, 2, 3, 16)}
    assert len(set(found.values())) == len(found)
    for shards, wanted in found.items():
        row(f"--shards {shards}", given, len(keys) * STORED + wanted)


# In a network of its own, where nothing else listens; who isn't root becomes it there.
ALONE = ["unshare", "--net", *([] if os.geteuid() == 0 else ["--map-root-user"]), "sh", "-c", 'ip link set lo up; exec "$0" "$@"']


def socket_address(found):
    """Of IPv4, as /proc/net/tcp writes it: the bytes of the address from last to first, and the port."""
    host, port = found.split(":")
    return f"{socket.inet_ntoa(bytes.fromhex(host)[::-1])}:{int(port, 16)}"


def listened_at(process):
    """Where sockets listen in the network of the process, by the system's tables: those of IPv6 are no address of IPv4."""
    tables = [pathlib.Path(f"/proc/{process.pid}/net/{name}").read_text().splitlines()[1:] for name in ("tcp", "tcp6")]
    there, sixes = ([row.split()[1] for row in table if row.split()[3] == "0A"] for table in tables)
    return sorted(map(socket_address, there)) + sixes


def one_listens_at(words, said, wanted):
    """The program with these words says where it listens, and listens there alone."""
    with running([*ALONE, *mcd(*words)], stderr=subprocess.PIPE) as process:
        for line in said:
            assert process.stderr.readline().decode().rstrip("\n").rpartition(", ")[2] == line
        assert listened_at(process) == sorted(wanted)


@fails_with("listens elsewhere", "listens at each address", "serves no metrics")
def test_it_listens_at_its_addresses_alone():
    """At the address that is given, or by default at 127.0.0.1:11211; and the metrics at theirs."""
    if subprocess.run([*ALONE, "true"], capture_output=True).returncode != 0:
        pytest.skip("no network of its own is to be had here")
    default, given = "127.0.0.1:11211", "127.0.0.2:11311"
    one_listens_at([], [f"listening on {default}"], [default])
    one_listens_at(["--drop-in", "--seats", "4"], [f"listening on {default}"], [default])
    one_listens_at(["--listen", given], [f"listening on {given}"], [given])
    one_listens_at(["--listen", "0.0.0.0:11311"], ["listening on 0.0.0.0:11311"], ["0.0.0.0:11311"])
    for word, metrics in (("11212", "127.0.0.1:11212"), ("127.0.0.3:11213", "127.0.0.3:11213")):
        one_listens_at(["--metrics", word], [f"metrics {metrics}", f"listening on {default}"], [default, metrics])


@fails_with("ignores the moment")
def test_each_moment():
    """What a time that is given as a second since 1970 leaves of an item: `--at` says which second it is."""
    given = b"set a 0 4000000100 1\r\nx\r\nmg a t\r\n"
    for at, left in ((1000, 3_999_999_100), (4_000_000_000, 100), (4_000_000_099, 1)):
        ran = run("--stdio", "--at", at, given=given)
        assert (ran.returncode, ran.stdout) == (0, STORED + b"HD t%d\r\n" % left), at


@fails_with("ignores the number of connections", "counts a connection twice")
def test_so_many_connections():
    """The program ends with the last of as many connections as are given, and takes no further one."""
    for count in (1, 3):
        with Server("--connections", count) as server:
            for number in range(count):
                assert server.is_running(), number
                with Line(server.port) as line:
                    line.ask(b"mn\r\nquit\r\n", b"MN\r\n")
                    assert line.rest() == b""
            assert server.process.wait(timeout=30) == 0


@fails_with("ignores the number of seats", "has one seat")
def test_two_seats():
    """The third client waits until one of the two seats is free."""
    with Server("--seats", 2) as server:
        with Line(server.port) as first, Line(server.port) as second, Line(server.port, timeout=A_WHILE) as third:
            for line in (first, second):
                line.ask(b"mn\r\n", b"MN\r\n")
            third.send(b"mn\r\n")
            third.waits()
            first.close()
            third.socket.settimeout(60)
            assert third.read(4) == b"MN\r\n"


TOO_MANY = b"ERROR Too many open connections\r\n"


def served_soon(port):
    """A connection that is served, once a seat is free."""
    end = time.monotonic() + 10
    while True:
        line = Line(port, timeout=10)
        try:
            line.send(b"mn\r\n")
            found = line.read(4)
        except (BrokenPipeError, ConnectionResetError):
            found = b""
        if found == b"MN\r\n":
            return line
        line.close()
        assert found in (b"", b"ERRO") and time.monotonic() < end
        time.sleep(0.01)


def files_of(server):
    return len(list(pathlib.Path(f"/proc/{server.process.pid}/fd").iterdir()))


def refused(port, sent):
    """What a connection that is one too many gets, whatever it sends."""
    with Line(port, timeout=10) as line:
        try:
            line.send(sent)
        except (BrokenPipeError, ConnectionResetError):
            pass
        return all_of(line)


@fails_with("ignores the number of seats")
def test_too_many_connections():
    """By memcached's rules a third client is refused at once beside two, and one is served once a seat is free."""
    with Server("--drop-in", "--seats", 2, "--verbose") as server:
        with served_soon(server.port) as first, served_soon(server.port) as second:
            for sent in (b"", b"mn\r\n", b"set a 0 0 1\r\nx\r\n"):
                assert refused(server.port, sent) == TOO_MANY, sent
            first.ask(b"get a\r\n", b"END\r\n")
            second.close()
            with served_soon(server.port):
                assert refused(server.port, b"") == TOO_MANY
        # Those that were refused hold nothing: a crowd of them leaves no file open.
        with served_soon(server.port) as first, served_soon(server.port) as second:
            before = files_of(server)
            for _ in range(300):
                assert refused(server.port, b"") == TOO_MANY
            for line in (first, second):
                line.ask(b"mn\r\n", b"MN\r\n")
            assert files_of(server) == before


# A client that asks for these and doesn't read holds up the server amid the first reply, which no buffer on the way has room for.
HELD_UP = b"get a\r\nget b\r\nget c\r\n"
LARGE = 8 * MIB

# What is stored for it: `a` without an expiry, `b` and `c` for two seconds.
SHORT_LIVED = set_of(b"a", b"v" * LARGE) + b"set b 0 2 1\r\nx\r\nset c 0 2 1\r\ny\r\n"


def replies_by_window(window):
    """Commands are taken as long as the window has room: what is taken before the first reply is out finds `b` and `c` alive."""
    alive = [hit_of(key, value) if place < window else b"END\r\n" for place, (key, value) in enumerate([(b"b", b"x"), (b"c", b"y")], 1)]
    return hit_of(b"a", b"v" * LARGE) + b"".join(alive)


def held_up_over_tcp(options, wanted):
    with Server(*options) as server, Line(server.port, room=4096) as line:
        line.ask(SHORT_LIVED, 3 * STORED)
        line.send(HELD_UP)
        time.sleep(3.2)
        assert line.read(len(wanted)) == wanted


def held_up_over_stdio(options, wanted):
    with running(mcd("--stdio", *options), stdin=subprocess.PIPE, stdout=subprocess.PIPE) as process:
        process.stdin.write(SHORT_LIVED)
        process.stdin.flush()
        assert process.stdout.read(len(3 * STORED)) == 3 * STORED
        process.stdin.write(HELD_UP)
        process.stdin.flush()
        time.sleep(3.2)
        assert process.communicate(timeout=30)[0] == wanted


@fails_with("ignores the window")
def test_each_window():
    for window in (1, 2, 256):
        options = ["--value-limit", "8m", "--bytes", "64m", "--window", str(window)]
        wanted = replies_by_window(window)
        held_up_over_tcp(options, wanted)
        held_up_over_stdio(options, wanted)


@fails_with("has a clock that never moves")
def test_the_clock_goes_on():
    """Without `--at` an item that lives a second is gone after two."""
    with running(mcd("--stdio"), stdin=subprocess.PIPE, stdout=subprocess.PIPE) as process:
        process.stdin.write(b"set a 0 1 1\r\nx\r\nset b 0 0 1\r\ny\r\n")
        process.stdin.flush()
        assert process.stdout.read(len(2 * STORED)) == 2 * STORED
        time.sleep(2.1)
        out, _ = process.communicate(b"get a\r\nget b\r\n", timeout=30)
        assert out == b"END\r\n" + hit_of(b"b", b"y")


@fails_with("has a clock that never moves")
def test_the_clock_shows_the_year():
    """An expiry as a second since 1970: one in a thousand seconds is to come, one of a thousand seconds ago is past."""
    now = int(time.time())
    given = b"set a 0 %d 1\r\nx\r\nset b 0 %d 1\r\ny\r\nget a\r\nget b\r\n" % (now + 1000, now - 1000)
    ran = run("--stdio", given=given)
    assert (ran.returncode, ran.stdout) == (0, 2 * STORED + hit_of(b"a", b"x") + b"END\r\n")


@fails_with("has a clock that never moves")
def test_a_wall_clock_that_is_set_moves_no_expiry():
    """Neither an hour forward nor two back ends an item with a life of a minute, nor keeps one with a life of a second."""
    with tempfile.TemporaryDirectory() as folder:
        shim, offset = pathlib.Path(folder) / "set_wall.so", pathlib.Path(folder) / "offset"
        subprocess.run(["cc", "-O1", "-shared", "-fPIC", "-o", shim, TOP / "tools/checks/set_wall.c", "-ldl"], check=True)
        offset.write_text("0")
        moved = {**os.environ, "LD_PRELOAD": str(shim), "WALL_OFFSET": str(offset)}
        with running(mcd("--stdio"), stdin=subprocess.PIPE, stdout=subprocess.PIPE, env=moved) as process:
            def ask(sent, wanted):
                process.stdin.write(sent)
                process.stdin.flush()
                assert process.stdout.read(len(wanted)) == wanted

            ask(b"set long 0 60 1\r\nx\r\n", STORED)
            offset.write_text("3600")
            ask(b"get long\r\n", hit_of(b"long", b"x"))
            ask(b"set short 0 1 1\r\ny\r\n", STORED)
            offset.write_text("-3600")
            time.sleep(2.1)
            ask(b"get short\r\n", b"END\r\n")
            ask(b"get long\r\n", hit_of(b"long", b"x"))


WITH_STDIO = "--stdio, which takes only --at, --shards, --bytes, --memory, --memory-limit, --value-limit, --line-limit, --window and --drop-in"
NUMBER = "expects a number from {0} to {1}, not '{2}'"
SIZE = "expects a size from {0} to {1} bytes, such as 64k, 64m or 4g, not '{2}'"
TWO_BUDGETS = "use only one of --bytes (for each shard), --memory and --memory-limit (for all shards)"
ITEMS = "there is no option --items: limit the items of each shard by --bytes"

# Calls, and their messages after `mcd: `.
FAULTS = [
    ("--items 5", ITEMS), ("--items 5 --replay x --shards 2", ITEMS),
    *((f"--replay x --{name} 2", f"--{name} can't be used with --replay, which takes no other option")
      for name in ("at", "listen", "shards", "seats", "bytes", "memory", "value-limit", "line-limit", "window", "client-memory", "connections", "idle-timeout",
                   "metrics", "port", "memory-limit", "udp-port", "user", "pidfile")),
    *((f"--replay x --{name}", f"--{name} can't be used with --replay, which takes no other option")
      for name in ("stdio", "verbose", "drop-in", "plan", "daemon", "enable-shutdown")),
    *((f"--stdio --{name} 2", f"--{name} can't be used with {WITH_STDIO}")
      for name in ("listen", "seats", "client-memory", "connections", "idle-timeout", "metrics", "port", "udp-port", "user", "pidfile")),
    *((f"--stdio --{name}", f"--{name} can't be used with {WITH_STDIO}") for name in ("verbose", "plan", "daemon", "enable-shutdown")),
    ("--at 5", "--at needs --stdio"), ("--at 5 --seats 65537", "--at needs --stdio"),
    ("--bytes 64k --memory 1m", TWO_BUDGETS),
    ("--seats 65537", "--seats " + NUMBER.format(1, 65536, "65537")), ("--seats 2k", "--seats " + NUMBER.format(1, 65536, "2k")),
    ("--shards 0", "--shards " + NUMBER.format(1, 64, "0")), ("--window 4097", "--window " + NUMBER.format(1, 4096, "4097")),
    ("--connections 0", "--connections " + NUMBER.format(1, 4294967295, "0")),
    ("--idle-timeout 0", "--idle-timeout " + NUMBER.format(1, 31536000, "0")),
    ("--idle-timeout 31536001", "--idle-timeout " + NUMBER.format(1, 31536000, "31536001")),
    ("--stdio --at x", "--at " + NUMBER.format(0, 18446744073709551615, "x")),
    ("--bytes 1023", "--bytes " + SIZE.format(1024, 68719476736, "1023")),
    ("--bytes 65g", "--bytes " + SIZE.format(1024, 68719476736, "65g")),
    ("--bytes 1kk", "--bytes " + SIZE.format(1024, 68719476736, "1kk")),
    ("--bytes 18014398509481985k", "--bytes " + SIZE.format(1024, 68719476736, "18014398509481985k")),
    ("--memory 2047", "--memory " + SIZE.format(2048, 4398046511104, "2047")),
    ("--memory 4097g", "--memory " + SIZE.format(2048, 4398046511104, "4097g")),
    ("--memory 193g --shards 3", "--memory " + SIZE.format(3072, 206158430208, "193g")),
    ("--value-limit 9m", "--value-limit " + SIZE.format(1024, 8388608, "9m")),
    ("--client-memory 15m", "--client-memory " + SIZE.format(16777216, 1099511627776, "15m")),
    ("--client-memory 1025g", "--client-memory " + SIZE.format(16777216, 1099511627776, "1025g")),
    ("--line-limit 2047", "--line-limit " + SIZE.format(2048, 8388608, "2047")),
    ("--line-limit 8388609", "--line-limit " + SIZE.format(2048, 8388608, "8388609")),
    ("--drop-in --line-limit 1k", "--line-limit " + SIZE.format(2048, 8388608, "1k")),
]


@fails_with("ends with 0", "ends with 1")
def test_each_fault_of_the_command_line():
    for call, text in FAULTS:
        assert ended(*call.split()) == (2, "", f"mcd: {text}\n"), call


# Calls of which a word is no option, or an option that can't be used so; and what the text must name.
WORDS = [
    ("--nope", "--nope"), ("nope", "nope"), ("--stdio nope", "nope"), ("--seats 1 --seats 2", "--seats"), ("--stdio --stdio", "--stdio"),
    ("--listen", "--listen"), ("--replay", "--replay"), ("--stdio --at", "--at"), ("--shards", "--shards"), ("--stdio=yes", "yes"),
    ("--drop-in --drop-in", "--drop-in"),
]


@fails_with("ends with 0", "ends with 1")
def test_each_fault_of_a_word():
    for call, word in WORDS:
        status, out, errors = ended(*call.split())
        assert (status, out, errors[:7], word in errors.splitlines()[0]) == (2, "", "error: ", True), call


@fails_with("ends with 0")
def test_what_cannot_be_read_is_reported():
    status, out, errors = ended("--replay", "no-such-file")
    first, second = errors.splitlines()
    assert (status, out, first) == (1, "", "mcd: cannot read the file")
    assert second.startswith("mcd: --replay no-such-file: ")
    assert "No such file" in second
    folder = os.open("/", os.O_RDONLY)
    try:
        ran = subprocess.run(mcd("--stdio"), stdin=folder, capture_output=True, timeout=30)
        assert (ran.returncode, ran.stdout, ran.stderr) == (1, b"", b"mcd: cannot read\n")
    finally:
        os.close(folder)


@fails_with("ends with 0")
def test_what_cannot_be_written_is_reported():
    with tempfile.NamedTemporaryFile("w", suffix=".schedule") as file, open("/dev/full", "wb") as full:
        file.write("sim 1 1 1024 1\nopen 0\n")
        file.flush()
        for words in (["--replay", file.name], ["--version"], ["--help"]):
            assert ended(*words, stdout=full) == (1, "", "mcd: cannot write\n"), words[0]
        ran = subprocess.run(mcd("--stdio"), input=b"mn\r\n", stdout=full, stderr=subprocess.PIPE, timeout=30)
        assert (ran.returncode, ran.stderr) == (1, b"mcd: cannot write\n")


@fails_with("ends with 0")
def test_a_taken_address_is_reported(server):
    address = f"127.0.0.1:{server.port}"
    status, out, errors = ended("--listen", address)
    first, second = errors.splitlines()
    assert (status, out, first) == (1, "", "mcd: cannot listen")
    assert second.startswith(f"mcd: --listen {address}: Address already in use")


def limited(limit, *words):
    """The words of a call under a limit of the system."""
    return ["sh", "-c", f'ulimit {limit}; exec "$0" "$@"', *mcd("--listen", "127.0.0.1:0", *words)]


@fails_with("counts open files otherwise")
def test_few_open_files_are_reported():
    """Where fewer may be open than all seats need, the program says so and goes on."""
    with running(limited("-n 20", "--seats", "30"), stderr=subprocess.PIPE) as process:
        port = int(process.stderr.readline().rpartition(b":")[2])
        assert process.stderr.readline() == b"mcd: warning: --seats 30 needs 46 open files, but only 20 are allowed (ulimit -n)\n"
        with Line(port) as line:
            line.ask(b"mn\r\n", b"MN\r\n")


def ended_under(limit, *words):
    """The status of a call under a limit, and its last message."""
    ran = subprocess.run(limited(limit, *words), stdin=subprocess.DEVNULL, stderr=subprocess.PIPE, timeout=30)
    return ran.returncode, ran.stderr.decode().splitlines()[-2:]


@fails_with("ends with 0")
def test_what_the_system_refuses_is_reported():
    """Without the open files that the threads need, and without memory."""
    assert ended_under("-n 8", "--shards", "16") == (1, ["mcd: cannot start a thread", "mcd: --shards 16 needs 16 threads, and three open files each"])
    status, errors = ended_under("-v 100000", "--shards", "16", "--seats", "4096")
    assert (status, errors[-1]) == (1, "mcd: out of memory")
