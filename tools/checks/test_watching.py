"""What an operator sees: idle connections that are closed, a line for each connection, metrics, and the page.

What is expected is counted here from what the clients send and get. The text of the metrics is read by promtool, of Debian's
prometheus, too if it is installed.
"""
import contextlib
import multiprocessing
import os
import pathlib
import random
import re
import resource
import select
import shutil
import socket
import subprocess
import tempfile
import threading
import time
import urllib.error
import urllib.request

import pytest

from tools.served import LISTENING, MIB, NO_OP, NO_OP_REPLY, STORED, Line, Server, ended, hit_of, mcd, running, set_of

fails_with = pytest.mark.fails_with

# As many dead connections as there may be seats, or as many as files may be open here: each is one of ours, and one of the server's.
MAX_FILES = resource.getrlimit(resource.RLIMIT_NOFILE)[1]
DEAD = 4096 if MAX_FILES == resource.RLIM_INFINITY else min(4096, MAX_FILES - 256)

# With a limit of one second a connection is closed after one to three, and a busy machine may take longer.
LATEST = 10


def seconds_until_closed(line):
    """How long it takes until the server closes the connection, which sends nothing before."""
    began = time.monotonic()
    line.socket.settimeout(LATEST)
    try:
        assert line.rest() == b""
    except ConnectionResetError:
        pass
    return time.monotonic() - began


@fails_with("ignores the idle timeout")
def test_an_idle_client_is_closed():
    with Server("--idle-timeout", 1) as server, Line(server.port) as line:
        line.ask(NO_OP, NO_OP_REPLY)
        took = seconds_until_closed(line)
        assert 0.9 < took
        print(f"after {took:.1f} s")


@fails_with("ignores the idle timeout")
def test_one_that_never_sent_is_closed():
    with Server("--idle-timeout", 1) as server, Line(server.port) as line:
        seconds_until_closed(line)


@fails_with("ends a connection after two seconds")
def test_one_that_sends_stays():
    with Server("--idle-timeout", 2) as server, Line(server.port) as line:
        for _ in range(20):
            line.ask(NO_OP, NO_OP_REPLY)
            time.sleep(0.4)


@fails_with("ends a connection after two seconds")
def test_none_is_closed_unasked(server):
    with Line(server.port) as line:
        time.sleep(4)
        line.ask(NO_OP, NO_OP_REPLY)


@fails_with("ignores the idle timeout")
def test_one_amid_a_block_is_closed():
    with Server("--idle-timeout", 1) as server, Line(server.port) as line:
        line.send(b"set a 0 0 10\r\nhalf")
        seconds_until_closed(line)


@fails_with("ignores the idle timeout")
def test_one_that_takes_nothing_is_closed():
    """Its replies find no room on the way; the seat is free all the same."""
    with Server("--idle-timeout", 1, "--seats", 1, "--value-limit", "8m", "--memory", "64m") as server:
        with Line(server.port, room=4096) as line:
            line.ask(set_of(b"a", b"v" * (8 * MIB)), STORED)
            line.send(8 * b"get a\r\n")
            with Line(server.port, timeout=LATEST) as other:
                other.ask(NO_OP, NO_OP_REPLY)


@fails_with("ignores the idle timeout")
def test_dead_connections_free_their_seats():
    resource.setrlimit(resource.RLIMIT_NOFILE, (MAX_FILES, MAX_FILES))
    # They are all there before the first one is given up.
    with Server("--idle-timeout", 5, "--seats", DEAD) as server:
        dead = [Line(server.port) for _ in range(DEAD)]
        try:
            with Line(server.port, timeout=60) as line:
                began = time.monotonic()
                line.ask(NO_OP, NO_OP_REPLY)
                print(f"{DEAD} of them; the next one waited {time.monotonic() - began:.1f} s")
        finally:
            for line in dead:
                line.close()


SEATS = ["mcd: all seats are taken", "mcd: a seat is free again"]


def logged_by(server, wanted, but=SEATS):
    """The next `wanted` lines on standard error, but for these."""
    found = []
    while len(found) < wanted:
        ready, _, _ = select.select([server.process.stderr], [], [], 30)
        assert bool(ready)
        line = server.process.stderr.readline().decode().rstrip()
        if line not in but:
            found.append(line)
    return found


@fails_with("ignores that it is to be verbose")
def test_each_connection_is_reported():
    with Server("--verbose", "--seats", 1) as server:
        with Line(server.port) as line:
            port = line.socket.getsockname()[1]
            line.ask(b"set a 0 0 1\r\nx\r\nget a\r\nget b\r\n", b"STORED\r\nVALUE a 0 1\r\nx\r\nEND\r\nEND\r\n")
            line.send(b"quit\r\n")
            assert line.rest() == b""
        assert logged_by(server, 2) == [f"mcd: 127.0.0.1:{port} on seat 0: opened",
                                        f"mcd: 127.0.0.1:{port} on seat 0: client quit; 4 commands, 36 bytes read, 34 bytes written"]


@fails_with("ignores that it is to be verbose")
def test_a_client_of_a_unix_socket_is_reported():
    with tempfile.TemporaryDirectory() as folder, Server("--verbose", "--seats", 1, "--listen", f"unix:{folder}/mcd") as server:
        with socket.socket(socket.AF_UNIX) as line:
            line.connect(f"{folder}/mcd")
            line.sendall(b"mn\r\nquit\r\n")
            assert line.recv(100) == NO_OP_REPLY
            assert logged_by(server, 2) == ["mcd: unix on seat 0: opened",
                                            "mcd: unix on seat 0: client quit; 2 commands, 10 bytes read, 4 bytes written"]


@fails_with("ignores that it is to be verbose")
def test_each_connection_has_one_seat():
    """While others are free: it is logged once, and all that it sends and gets passes that seat, however it is cut."""
    value = random.Random(1).randbytes(MIB)
    asked, answered = set_of(b"a", value) + b"get a\r\n", STORED + hit_of(b"a", value)
    with Server("--verbose", "--seats", 4) as server:
        for _ in range(3):
            with Line(server.port) as line:
                port = line.socket.getsockname()[1]
                for at in range(0, len(asked), MIB // 8):
                    line.send(asked[at : at + MIB // 8])
                    time.sleep(0.01)
                found = line.read(len(answered))
                assert (len(found), found == answered) == (len(answered), True)
            logged = [re.sub(r"on seat \d+", "on a seat", it) for it in logged_by(server, 2)]
            assert logged == [f"mcd: 127.0.0.1:{port} on a seat: opened",
                              f"mcd: 127.0.0.1:{port} on a seat: closed by client; 2 commands, {len(asked)} bytes read, {len(answered)} bytes written"]


@fails_with("ignores that it is to be verbose")
def test_one_that_breaks_is_reported():
    with Server("--verbose", "--seats", 1) as server:
        line = Line(server.port)
        port = line.socket.getsockname()[1]
        line.ask(NO_OP, NO_OP_REPLY)
        line.reset()
        assert logged_by(server, 2)[1] == f"mcd: 127.0.0.1:{port} on seat 0: read failed; 1 command, 4 bytes read, 4 bytes written"


@fails_with("ignores the idle timeout")
def test_one_that_is_idle_is_reported():
    with Server("--verbose", "--idle-timeout", 1, "--seats", 1) as server, Line(server.port) as line:
        port = line.socket.getsockname()[1]
        line.ask(NO_OP, NO_OP_REPLY)
        assert logged_by(server, 2)[1] == f"mcd: 127.0.0.1:{port} on seat 0: idle timeout; 1 command, 4 bytes read, 4 bytes written"


def end_of(options, sent):
    """Why a connection ended that sent this and no more, and what was counted of such ends."""
    with Watched("--verbose", "--seats", 1, *options) as server:
        with Line(server.port) as line:
            line.send(sent)
            line.end()
            try:
                line.rest()
            except ConnectionResetError:
                pass
        found = re.fullmatch(r"mcd: 127\.0\.0\.1:\d+ on seat 0: (.*?); .*", logged_by(server, 2)[1])
        counted = re.findall(r'^mcd_connections_ended_total\{reason="(\w+)"\} (\d+)$', server.metrics(), re.M)
        assert [reason for reason, _ in counted] == ["binary", "http", "tls", "line_too_long", "idle", "failed", "refused_memory"]
        return found[1], {reason for reason, count in counted if count != "0"}


# What a client sends, with which options, why its connection ends, and what counts that.
ENDS = [
    ([], b"mn\r\n", "closed by client", set()),
    ([], b"", "closed by client", set()),
    ([], b"mn\r\nquit\r\n", "client quit", set()),
    (["--drop-in"], b"quit\r\nmn\r\n", "client quit", set()),
    ([], b"get " + b"k" * 70_000 + b"\r\nmn\r\n", "line too long", {"line_too_long"}),
    (["--drop-in"], b"mn\r\nget " + b"k" * 1_100_000, "line too long", {"line_too_long"}),
    (["--line-limit", "2k"], b"mn\r\nget " + b"k" * 3_000 + b"\r\n", "line too long", {"line_too_long"}),
    (["--drop-in"], b"\x80\x0a" + 22 * b"\0", "speaks the binary protocol", {"binary"}),
    (["--drop-in"], b"GET / HTTP/1.1\r\nHost: x\r\n\r\n", "speaks HTTP", {"http"}),
    (["--drop-in"], b"\x16\x03\x01\x02\x00\x01\x00\x01\xfc\x03\x03", "speaks TLS", {"tls"}),
]


@fails_with("ignores the rules of memcached")
def test_each_reason_is_logged_and_counted():
    for options, sent, why, counted in ENDS:
        assert (sent[:9], *end_of(options, sent)) == (sent[:9], why, counted), options


@fails_with("ignores that it is to be verbose")
def test_all_seats_taken_is_reported():
    """Once, however many wait, and once one is free again."""
    with Server("--verbose", "--seats", 2) as server:
        lines = [Line(server.port) for _ in range(4)]
        for line in lines[:2]:
            line.ask(NO_OP, NO_OP_REPLY)
        time.sleep(0.5)
        for line in lines:
            line.close()
        logged = [line for line in logged_by(server, 10, []) if line in SEATS]
        assert logged[:2] == SEATS


@fails_with("ignores that it is to be verbose")
def test_the_journal_gets_priorities():
    with Server("--verbose", env={**os.environ, "JOURNAL_STREAM": "8:12345"}) as server:
        with Line(server.port) as line:
            line.ask(NO_OP, NO_OP_REPLY)
        logged = logged_by(server, 2)
        assert [re.sub(r":\d+ on seat \d+", "", line) for line in logged] == ["<6>127.0.0.1: opened",
                                                                              "<6>127.0.0.1: closed by client; 1 command, 4 bytes read, 4 bytes written"]


@fails_with("ignores that it is to be verbose")
def test_no_line_is_lost_at_2000_connections_a_second():
    """Standard error is read as it comes."""
    rounds, found = 6000, bytearray()
    with Server("--verbose", "--drop-in") as server:
        def read():
            while got := os.read(server.process.stderr.fileno(), 1 << 16):
                found.extend(got)
                if found.count(b"\n") >= 2 * rounds or b"dropped" in found:
                    return
        reading = threading.Thread(target=read)
        reading.start()
        began = time.monotonic()
        for it in range(rounds):
            Line(server.port).close()
            time.sleep(max(0, began + it / 2000 - time.monotonic()))
        rate = rounds / (time.monotonic() - began)
        reading.join(timeout=30)
        assert (found.count(b": opened\n"), found.count(b"closed by client"), found.count(b"dropped")) == (rounds, rounds, 0)
        print(f"{rate:.0f} connections a second")


@fails_with("lets vanished clients be")
def test_vanished_clients_are_asked_for(server):
    """The system's table has a timer of the kind 2 for a socket that is kept alive (proc(5), /proc/net/tcp)."""
    with Line(server.port) as line:
        line.ask(NO_OP, NO_OP_REPLY)
        port = line.socket.getsockname()[1]
        ends = f"0100007F:{server.port:04X} 0100007F:{port:04X}"
        table = pathlib.Path("/proc/net/tcp").read_text().splitlines()
        assert [row.split()[5][:2] for row in table if ends in row] == ["02"]


@fails_with("ignores that it is to be verbose")
def test_what_finds_no_room_is_counted():
    """Nobody reads standard error: the server goes on, and says later how many lines were dropped."""
    rounds = 2000
    with Server("--verbose", "--seats", 1) as server:
        for _ in range(rounds):
            with Line(server.port) as line:
                line.ask(NO_OP + b"quit\r\n", NO_OP_REPLY)
                assert line.rest() == b""
        logged, dropped, until = 0, 0, time.monotonic() + 120
        while logged + dropped < 2 * rounds:
            assert time.monotonic() < until
            if not select.select([server.process.stderr], [], [], 1)[0]:
                # What was dropped last is shown with the next line.
                with Line(server.port) as line:
                    line.ask(NO_OP, NO_OP_REPLY)
                rounds += 1
            elif (said := server.line_said().rstrip()) not in SEATS:
                found = re.fullmatch(r"mcd: log lines dropped: (\d+)", said)
                logged, dropped = logged + (not found), dropped + int(found[1] if found else 0)
        assert dropped > 0
        print(f"{logged} logged, {dropped} dropped")


@fails_with("ignores that it is to be verbose")
def test_an_accept_that_fails_is_reported():
    words = ["prlimit", "--nofile=24:24", *mcd("--listen", "127.0.0.1:0", "--verbose", "--seats", "64")]
    lines = []
    with running(words, stderr=subprocess.PIPE, bufsize=0) as process:
        try:
            port = int(LISTENING.fullmatch(process.stderr.readline().decode())[1])
            lines = [Line(port) for _ in range(40)]
            while select.select([process.stderr], [], [], 30)[0] and (line := process.stderr.readline()):
                if line == b"mcd: accept failed: Too many open files (os error 24)\n":
                    return
            raise AssertionError("no failed accept is logged")
        finally:
            for line in lines:
                line.close()


class Watched(Server):
    """A server that serves metrics, on a port that the system chose."""

    def __init__(self, *options, where="0", before=()):
        super().__init__("--metrics", where, *options, before=before)
        found = re.fullmatch(r"metrics 127\.0\.0\.1:(\d+)", self.before[0])
        self.metrics_port = int(found[1])

    def get(self, path, method="GET"):
        asked = urllib.request.Request(f"http://127.0.0.1:{self.metrics_port}{path}", method=method)
        try:
            with urllib.request.urlopen(asked, timeout=30) as answer:
                return answer.status, answer.headers, answer.read()
        except urllib.error.HTTPError as error:
            return error.code, error.headers, error.read()

    def metrics(self):
        status, headers, body = self.get("/metrics")
        assert (status, headers["Content-Type"]) == (200, "text/plain; version=0.0.4; charset=utf-8")
        return body.decode()

    def values(self):
        return {name: int(value) for name, value in re.findall(r"^([a-z_]+) (\d+)$", self.metrics(), re.M)}


def eventually(check, wanted):
    """The server counts a connection that has ended a moment after its client sees it."""
    deadline = time.monotonic() + 30
    while (found := check()) != wanted and time.monotonic() < deadline:
        time.sleep(0.05)
    assert found == wanted


@fails_with("counts otherwise")
def test_each_counter_follows_a_conversation():
    asked, answered = b"set a 0 0 1\r\nx\r\nget a\r\n", b"STORED\r\nVALUE a 0 1\r\nx\r\nEND\r\n"
    names = ["memcached_current_connections", "memcached_connections_total", "memcached_read_bytes_total",
             "memcached_written_bytes_total", "mcd_commands_total", "mcd_connections_broken_total", "mcd_accepts_failed_total"]
    with Watched("--shards", 3, "--bytes", "1m", "--seats", 9) as server:
        def found():
            values = server.values()
            return [values[name] for name in names]
        values = server.values()
        assert [values[it] for it in ("memcached_up", "memcached_limit_bytes", "memcached_max_connections", "mcd_shards")] == [1, 3 * MIB, 9, 3]
        assert found() == [0, 0, 0, 0, 0, 0, 0]
        with Line(server.port) as one, Line(server.port) as other:
            one.ask(asked, answered)
            other.ask(asked, answered)
            eventually(found, [2, 2, 2 * len(asked), 2 * len(answered), 4, 0, 0])
        eventually(found, [0, 2, 2 * len(asked), 2 * len(answered), 4, 0, 0])
        line = Line(server.port)
        line.ask(NO_OP, NO_OP_REPLY)
        eventually(found, [1, 3, 2 * len(asked) + 4, 2 * len(answered) + 4, 5, 0, 0])
        line.reset()
        eventually(found, [0, 3, 2 * len(asked) + 4, 2 * len(answered) + 4, 5, 1, 0])
        before = server.values()["memcached_uptime_seconds"]
        time.sleep(2)
        assert 1 <= server.values()["memcached_uptime_seconds"] - before <= 10


def ask_on(port, rounds):
    """Awaits each reply, so that each is a read and a write of its own."""
    with Line(port) as line:
        for _ in range(rounds):
            line.ask(NO_OP, NO_OP_REPLY)


def counted_at_once(clients, rounds):
    """What is counted while all threads serve clients at once, each of which awaits so many replies."""
    names = ["memcached_read_bytes_total", "memcached_written_bytes_total", "mcd_commands_total", "memcached_current_connections"]
    with Watched("--shards", 4) as server:
        running = [multiprocessing.Process(target=ask_on, args=(server.port, rounds)) for _ in range(clients)]
        for it in running:
            it.start()
        for it in running:
            it.join()
        assert [it.exitcode for it in running] == clients * [0]
        wanted = [clients * rounds * len(NO_OP), clients * rounds * len(NO_OP_REPLY), clients * rounds, 0]
        eventually(lambda: [server.values()[name] for name in names], wanted)


@fails_with("asks more than its clients", "counts otherwise")
def test_no_count_is_lost():
    """Each thread counts by itself: if two added to one counter, what one of them adds would now and then be lost. Seats that all count
    as those of the first thread were found by every second of these servers."""
    for _ in range(4):
        counted_at_once(8, 10_000)


# The figure of a curve: its title, its newest point, its limit, its greatest point, and the number at the top of its axis.
FIGURE = re.compile(r"<figcaption><b>([^<]+)</b> ([^<]*?)(?: of ([^<]+?))? <small>(?:peak ([^<]+))?</small></figcaption>"
                    r'<div class="plot"><span class="top">([^<]+)</span>')


def page_of(server):
    return server.get("/")[2].decode()


def figures(server):
    """What the page shows of each curve, by its title."""
    return {title: tuple(shown) for title, *shown in FIGURE.findall(page_of(server))}


@fails_with("counts otherwise")
def test_the_page_shows_what_is_counted():
    """Its first sample is of the start, and one comes every five seconds: the newest point of a curve is the number beside its title."""
    with Watched("--seats", 1009, "--memory", "64m") as server, Line(server.port) as line, Line(server.port) as other:
        assert list(figures(server)) == ["Requests", "Hit ratio", "Items", "Memory of items", "Evictions", "Connections", "Read from clients",
                                         "Written to clients"]
        line.ask(b"".join(set_of(b"key:%012d" % it, b"v" * 100) for it in range(12_345)), 12_345 * STORED)
        other.ask(NO_OP, NO_OP_REPLY)

        def found():
            shown = figures(server)
            return [shown[it] for it in ("Items", "Memory of items", "Connections")]
        eventually(found, [("12,345", "", "12,345", "12,345"), ("2.1 MiB", "64.0 MiB", "2.1 MiB", "64.0 MiB"), ("2", "1,009", "2", "1,009")])


@fails_with("counts otherwise")
def test_the_page_has_a_peak():
    """It stays if the number falls."""
    with Watched("--seats", 9) as server:
        with Line(server.port) as line, Line(server.port) as other:
            line.ask(NO_OP, NO_OP_REPLY)
            other.ask(NO_OP, NO_OP_REPLY)
            eventually(lambda: figures(server)["Connections"], ("2", "9", "2", "9"))
        eventually(lambda: figures(server)["Connections"], ("0", "9", "2", "9"))


@fails_with("counts otherwise")
def test_the_hit_ratio_is_a_percentage():
    """Of the gets in five seconds; if nothing is requested the curve has a gap, and no number."""
    with Watched("--drop-in") as server, Line(server.port) as line:
        def found():
            page = page_of(server)
            shown = {title: values for title, *values in FIGURE.findall(page)}
            return [shown["Requests"][0], *shown["Hit ratio"], re.search(r'"Hit ratio">.*?<path class="curve" d="([^"]*)"', page, re.S)[1]]
        eventually(found, ["0/s", "n/a", "", "", "100%", ""])
        line.ask(b"set a 0 0 1\r\nx\r\n" + 15 * b"get a\r\n" + 5 * b"get b\r\n",
                 STORED + 15 * b"VALUE a 0 1\r\nx\r\nEND\r\n" + 5 * b"END\r\n")
        eventually(found, ["4/s", "75%", "", "75%", "100%", "M600,25h0"])
        eventually(found, ["0/s", "n/a", "", "75%", "100%", "M595,25h0"])


@fails_with("serves half a page")
def test_the_page_has_axes_and_limits():
    """Each curve has its times, and those with a limit a line for it, at the top if nothing exceeds it."""
    with Watched() as server:
        page = page_of(server)
        assert (page.count("<span>10 min ago</span><span>5 min ago</span><span>now</span>"), page.count('class="axes" d="M0,0V100H600V0')) == (8, 8)
        drawn = re.findall(r'aria-label="([^"]+)"><path class="axes" [^>]*/><path class="limit" d="([^"]*)"', page)
        assert drawn == [("Memory of items", "M0,0H600"), ("Connections", "M0,0H600")]


@fails_with("has another head on its page")
def test_the_page_names_its_server():
    """By its machine, and the port that clients use."""
    name = f"{socket.gethostname()}:"
    with Watched() as server:
        page = page_of(server)
        assert f"<title>{name}{server.port} mcd</title>" in page and f" on {name}{server.port}</h1>" in page


@fails_with("has another head on its page")
def test_the_page_loads_nothing_else():
    """It has no script, loads nothing, and follows the dark mode of its browser."""
    with Watched() as server:
        page = page_of(server)
        assert ("<script" in page, "@import" in page, "url(" in page, re.findall(r'(?:src|href)="([^"]*)', page)) == (False, False, False, ["/metrics"])
        assert "@media (prefers-color-scheme: dark)" in page and 'name="color-scheme" content="light dark"' in page


@fails_with("counts otherwise")
def test_the_page_shows_the_process():
    """By what the system says of it beside."""
    with Watched() as server, Line(server.port) as line:
        line.ask(NO_OP, NO_OP_REPLY)
        before = server.resident()
        shown = dict(re.findall(r"<dt>([^<]+)</dt><dd>([^<]+)</dd>", page_of(server)))
        assert list(shown) == ["Uptime", "Connections", "Shards", "Process memory", "CPU time", "Open files"]
        assert (shown["Connections"], shown["Shards"]) == ("1 accepted, 0 waiting", "2")
        memory = float(re.fullmatch(r"([\d,]+\.\d) MiB", shown["Process memory"])[1]) * MIB
        assert before - 2 * MIB < memory < server.resident() + 2 * MIB
        assert re.fullmatch(r"\d+(?: of [\d,]+)?", shown["Open files"]) is not None


@fails_with("counts otherwise")
def test_the_process_is_measured():
    """By what the system says of it beside."""
    began = time.time()
    with Watched() as server, Line(server.port) as line:
        for _ in range(5000):
            line.ask(NO_OP, NO_OP_REPLY)
        # /proc is read once a second.
        time.sleep(1.1)
        before, used = server.resident(), server.cpu_seconds()
        values = server.values()
        shown = float(re.search(r"^process_cpu_seconds_total (\d+\.\d\d)$", server.metrics(), re.M)[1])
        # More may be taken in between.
        assert before - MIB < values["process_resident_memory_bytes"] < server.resident() + MIB
        assert 0 < used <= shown <= used + 1
        assert -2 < values["process_start_time_seconds"] - began < 2


@fails_with("counts otherwise")
def test_open_files_are_counted():
    """Those of clients among them, however many names the system returns at a time."""
    with Watched() as server:
        def counted():
            return server.values()["process_open_fds"]
        first = counted()
        assert abs(first - len(os.listdir(f"/proc/{server.process.pid}/fd"))) <= 2
        lines = [Line(server.port) for _ in range(300)]
        try:
            for line in lines:
                line.ask(NO_OP, NO_OP_REPLY)
            eventually(counted, first + 300)
        finally:
            for line in lines:
                line.close()
        eventually(counted, first)


@fails_with("counts otherwise")
def test_the_most_open_files_are_the_limit():
    """The one that the process has now."""
    with Watched(before=["prlimit", "--nofile=1234:4321"]) as server:
        assert server.values()["process_max_fds"] == 1234
        subprocess.run(["prlimit", "--pid", str(server.process.pid), "--nofile=4000:"], check=True)
        eventually(lambda: server.values()["process_max_fds"], 4000)


@fails_with("counts otherwise")
def test_those_who_wait_are_counted():
    """Connections beyond the seats wait in the system's queue, and leave it one by one; who waits at another port isn't counted."""
    with Watched("--seats", 2) as server, socket.create_server(("127.0.0.1", 0)) as other, Line(other.getsockname()[1]):
        def found():
            values = server.values()
            return [values["memcached_current_connections"], values["mcd_connections_waiting"]]
        assert found() == [0, 0]
        lines = []
        try:
            for there in range(1, 6):
                lines.append(Line(server.port))
                eventually(found, [min(there, 2), max(there - 2, 0)])
            for waiting in (2, 1, 0):
                lines.pop(0).close()
                eventually(found, [2, waiting])
        finally:
            for line in lines:
                line.close()
        eventually(found, [0, 0])


@fails_with("counts otherwise")
def test_those_who_wait_anywhere_are_counted():
    """At the second address too, and at a port of both addresses once."""
    with Watched("--seats", 1, "--listen", "127.0.0.1:0") as server:
        ports = [server.port, int(server.further[0].rpartition(":")[2])]
        lines = []
        try:
            for there, port in enumerate((ports[0], ports[0], ports[1], ports[1], ports[1])):
                lines.append(Line(port))
                eventually(lambda: server.values()["mcd_connections_waiting"], there)
        finally:
            for line in lines:
                line.close()


@fails_with("counts otherwise")
def test_those_who_are_refused_are_counted():
    """By memcached's rules: in the metrics, and by `stats`, which shows the same of all connections."""
    with Watched("--drop-in", "--seats", 2) as server, Line(server.port) as first, Line(server.port) as second:
        for line in (first, second):
            line.ask(NO_OP, NO_OP_REPLY)
        eventually(lambda: refused_at_once(server.port), True)
        eventually(lambda: refused_at_once(server.port), True)
        eventually(lambda: server.values()["mcd_connections_rejected_total"] >= 2, True)
        shown, values = stats_of(first), server.values()
        assert int(shown[b"rejected_connections"]) == values["mcd_connections_rejected_total"]
        assert (int(shown[b"curr_connections"]), int(shown[b"total_connections"]), int(shown[b"max_connections"])) == (2, 2, 2)


def stats_of(line):
    """What `stats` shows, by name."""
    line.send(b"stats\r\n")
    text = b""
    while not text.endswith(b"END\r\n"):
        text += line.socket.recv(1 << 16)
    return dict(re.findall(rb"STAT (\w+) (\S+)\r\n", text))


def refused_at_once(port):
    with Line(port) as line:
        return line.rest() == b"ERROR Too many open connections\r\n"


# What is asked, what is answered, and which counts that moves: the kind of command and what came of it.
ASKED = [
    (b"set a 0 0 1\r\n7\r\n", STORED, "set hit"),
    (b"add a 0 0 1\r\nx\r\n", b"NOT_STORED\r\n", "set miss"),
    (b"ms b 1\r\nx\r\n", b"HD\r\n", "set hit"),
    (b"get a\r\n", b"VALUE a 0 1\r\n7\r\nEND\r\n", "get hit"),
    (b"mg b\r\n", b"HD\r\n", "get hit"),
    (b"mg nothing\r\n", b"EN\r\n", "get miss"),
    (b"get nothing\r\n", b"END\r\n", "get miss"),
    (b"cas a 0 0 1 999999\r\nx\r\n", b"EXISTS\r\n", "cas badval"),
    (b"cas nothing 0 0 1 1\r\nx\r\n", b"NOT_FOUND\r\n", "cas miss"),
    (b"ms b 1 C999999\r\nx\r\n", b"EX\r\n", "cas badval"),
    (b"touch a 0\r\n", b"TOUCHED\r\n", "touch hit"),
    (b"gat 0 nothing\r\n", b"END\r\n", "touch miss"),
    (b"mg b T0\r\n", b"HD\r\n", "touch hit"),
    (b"incr a 1\r\n", b"8\r\n", "incr hit"),
    (b"incr nothing 1\r\n", b"NOT_FOUND\r\n", "incr miss"),
    (b"ma a MD\r\n", b"HD\r\n", "decr hit"),
    (b"decr nothing 1\r\n", b"NOT_FOUND\r\n", "decr miss"),
    (b"md b\r\n", b"HD\r\n", "delete hit"),
    (b"delete b\r\n", b"NOT_FOUND\r\n", "delete miss"),
]


@fails_with("counts otherwise")
def test_each_command_is_counted_by_what_came_of_it():
    with Watched("--shards", 1) as server, Line(server.port) as line:
        def found():
            shown = re.findall(r'^memcached_commands_total\{command="(\w+)",status="(\w+)"\} (\d+)$', server.metrics(), re.M)
            return {f"{command} {status}": int(count) for command, status, count in shown if count != "0"}
        wanted = {}
        for asked, answered, counted in ASKED:
            line.ask(asked, answered)
            wanted[counted] = wanted.get(counted, 0) + 1
            eventually(found, wanted)
        line.ask(b"flush_all\r\n", b"OK\r\n")
        eventually(found, {**wanted, "flush hit": 1})


@fails_with("counts otherwise")
def test_items_and_evictions_are_reported():
    """Items of 16 bytes of key, 100 of value and 64 beside them, in two shards of 1 MiB."""
    names = ["memcached_current_items", "memcached_current_bytes", "memcached_items_evicted_total", "mcd_out_of_memory_total"]
    with Watched("--shards", 2, "--bytes", "1m") as server, Line(server.port) as line:
        def found():
            values = server.values()
            return [values[name] for name in names]
        line.ask(b"".join(set_of(b"key:%012d" % it, b"v" * 100) for it in range(1000)), 1000 * STORED)
        eventually(found, [1000, 180_000, 0, 0])
        line.ask(b"delete key:%012d\r\n" % 7, b"DELETED\r\n")
        eventually(found, [999, 179_820, 0, 0])
        line.ask(b"".join(set_of(b"key:%012d" % it, b"v" * 100) for it in range(1000, 20000)), 19000 * STORED)
        fits = MIB // 180
        eventually(found, [2 * fits, 2 * fits * 180, 19_999 - 2 * fits, 0])
        by_shard = dict(re.findall(r'^(mcd_shard_\w+\{shard="\d"\}) (\d+)$', server.metrics(), re.M))
        assert [by_shard[f'mcd_shard_{name}{{shard="{shard}"}}'] for name in ("items", "bytes", "out_of_memory_total")
                for shard in (0, 1)] == [str(it) for it in (fits, fits, fits * 180, fits * 180, 0, 0)]
        assert sum(int(by_shard[f'mcd_shard_evicted_total{{shard="{shard}"}}']) for shard in (0, 1)) == 19_999 - 2 * fits


@fails_with("counts otherwise")
def test_expired_items_and_values_too_large_are_reported():
    """Three items expire, one of which was fetched, and five that are stored later look at two each. The metrics and `stats` show the same."""
    with Watched("--drop-in", "--shards", 1, "--value-limit", 2048) as server, Line(server.port) as line:
        line.ask(b"".join(b"set dead:%d 0 1 1\r\nx\r\n" % it for it in range(3)) + b"get dead:1\r\n", 3 * STORED + b"VALUE dead:1 0 1\r\nx\r\nEND\r\n")
        time.sleep(2.1)
        line.ask(b"".join(set_of(b"live:%d" % it, b"x") for it in range(5)), 5 * STORED)
        for name in (b"set live:0 0 0", b"ms live:1"):
            line.ask(name + b" 2049\r\n" + 2049 * b"v" + b"\r\n", b"SERVER_ERROR object too large for cache\r\n")
        names = ["mcd_items_expired_total", "mcd_values_too_large_total", "memcached_items_evicted_total"]
        eventually(lambda: [server.values()[name] for name in names], [3, 2, 0])
        shown = stats_of(line)
        assert [int(shown[name]) for name in (b"reclaimed", b"expired_unfetched", b"store_too_large")] == [3, 2, 2]
        line.ask(b"stats reset\r\n", b"RESET\r\n")
        eventually(lambda: [server.values()[name] for name in names], [0, 0, 0])


@fails_with("serves half a page")
def test_the_version_is_the_programs():
    version = ended("--version")[1]
    with Watched() as server:
        assert f'memcached_version{{version="{version.split()[1]}"}} 1\n' in server.metrics()


@fails_with("serves half a page")
def test_promtool_reads_the_text():
    if not shutil.which("promtool"):
        pytest.skip("no promtool here")
    with Watched() as server:
        ran = subprocess.run(["promtool", "check", "metrics"], input=server.metrics(), capture_output=True, text=True, timeout=60)
        assert (ran.returncode, ran.stdout, ran.stderr) == (0, "", "")


@fails_with("serves half a page")
def test_the_other_pages():
    with Watched() as server:
        assert (server.get("/healthz")[0], server.get("/healthz")[2]) == (200, b"ok\n")
        status, headers, body = server.get("/")
        assert (status, headers["Content-Type"], body.count(b"<svg"), b"<script" in body) == (200, "text/html; charset=utf-8", 8, False)
        assert server.get("/metrics", "HEAD")[::2] == (200, b"")
        assert (server.get("/nothing")[0], server.get("/metrics", "POST")[0]) == (404, 405)


@fails_with("serves no metrics")
def test_they_are_served_to_this_machine_alone():
    for where in ("0", ":0", "127.0.0.1:0"):
        with Watched(where=where) as server:
            assert server.get("/healthz")[0] == 200


@fails_with("ends with 0")
def test_a_taken_address_is_reported():
    with Watched() as server:
        status, _, said = ended("--listen", "127.0.0.1:0", "--metrics", server.metrics_port)
        errors = said.splitlines()
        assert (status, errors[-2], "listening" in said) == (1, "mcd: cannot listen", False)
        assert errors[-1].startswith(f"mcd: --metrics {server.metrics_port}: Address already in use")


def slowest_of(server, stop):
    """The longest that one command took until `stop` is set, in seconds."""
    slowest = 0
    with Line(server.port) as line:
        while not stop.is_set():
            began = time.monotonic()
            line.ask(NO_OP, NO_OP_REPLY)
            slowest = max(slowest, time.monotonic() - began)
    return slowest


def bad_http(port):
    """Half requests, no requests, headers without end, and many connections that stay open."""
    kept = []
    for sent in (b"GET /metr", b"\0\xff" * 500, b"GET / HTTP/1.1\r\nHost: x\r\n", b"POST / HTTP/1.1\r\nContent-Length: 99999999\r\n\r\nx"):
        kept.append(socket.create_connection(("127.0.0.1", port)))
        kept[-1].sendall(sent)
    with socket.create_connection(("127.0.0.1", port)) as large:
        try:
            large.sendall(b"GET / HTTP/1.1\r\nX: " + b"a" * MIB)
            large.settimeout(10)
            large.recv(1 << 16)
        except (ConnectionResetError, BrokenPipeError):
            pass
    kept += [socket.create_connection(("127.0.0.1", port)) for _ in range(1000)]
    return kept


@fails_with("serves no metrics")
def test_bad_http_harms_nobody():
    with Watched() as server:
        stop, found = threading.Event(), []
        asking = threading.Thread(target=lambda: found.append(slowest_of(server, stop)))
        asking.start()
        kept = []
        try:
            kept = bad_http(server.metrics_port)
            assert server.get("/healthz")[0] == 200
        finally:
            stop.set()
            asking.join()
            for it in kept:
                it.close()
        assert server.is_running() and found[0] < 1
        print(f"a command took {found[0] * 1000:.0f} ms at most")


def pipelines(port, stop):
    """Asks for the page 600 times at once, and again after the connection ends."""
    while not stop.is_set():
        try:
            with socket.create_connection(("127.0.0.1", port), timeout=2) as line:
                line.sendall(b"GET / HTTP/1.1\r\nHost: x\r\n\r\n" * 600)
                while not stop.is_set() and line.recv(1 << 18):
                    pass
        except OSError:
            pass


def seconds_to_probe(server):
    began = time.monotonic()
    assert server.get("/healthz")[0] == 200
    return time.monotonic() - began


@fails_with("answers late")
def test_who_pipelines_keeps_no_probe_out():
    """A client has one answer a turn, however many requests it has sent: a probe waits for one of each."""
    with Watched() as server:
        stop = threading.Event()
        asking = [threading.Thread(target=pipelines, args=(server.metrics_port, stop)) for _ in range(16)]
        try:
            for it in asking:
                it.start()
            time.sleep(0.5)
            slowest = max(seconds_to_probe(server) for _ in range(8))
        finally:
            stop.set()
            for it in asking:
                it.join()
    print(f"a probe took {slowest:.2f} s at most")
    assert slowest < 5


def bytes_read(server):
    text = pathlib.Path(f"/proc/{server.process.pid}/io").read_text()
    return int(re.search(r"^rchar: (\d+)", text, re.M)[1])


def next_answer(line):
    """Reads one answer of a connection of HTTP that stays open."""
    found = line.recv(1 << 18)
    while b"\r\n\r\n" not in found:
        found += line.recv(1 << 18)
    head, _, body = found.partition(b"\r\n\r\n")
    length = int(re.search(rb"content-length: (\d+)", head, re.I)[1])
    while len(body) < length:
        body += line.recv(1 << 18)


@fails_with("is another process")
def test_the_systems_tables_are_read_once_a_second():
    """They may be long. 500 answers one after another read them as often as seconds pass."""
    with Watched() as server, socket.create_connection(("127.0.0.1", server.metrics_port), timeout=30) as line:
        asked = b"GET /metrics HTTP/1.1\r\nHost: x\r\n\r\n"
        tables = [pathlib.Path(f"/proc/{server.process.pid}/{name}") for name in ("net/tcp", "net/tcp6", "stat")]
        long = 2 * sum(len(it.read_text()) for it in tables)
        before, began = bytes_read(server), time.monotonic()
        for _ in range(500):
            line.sendall(asked)
            next_answer(line)
        passed = time.monotonic() - began
        assert bytes_read(server) - before <= 500 * len(asked) + (passed + 2) * long
        before = bytes_read(server)
        time.sleep(1.1)
        line.sendall(asked)
        next_answer(line)
        assert bytes_read(server) > before


def seconds_of_answers(server, line, count=300):
    """The processor time of the server for so many answers of one connection."""
    before = server.cpu_seconds()
    for _ in range(count):
        line.sendall(b"GET /metrics HTTP/1.1\r\nHost: x\r\n\r\n")
        next_answer(line)
    return server.cpu_seconds() - before


def seconds_by_sockets(_server, _line):
    """What would be if each answer read the system's tables."""
    return len(pathlib.Path("/proc/net/tcp").read_text()) / MIB


@fails_with(("seconds_of_answers", "seconds_by_sockets"))
def test_long_tables_make_no_answer_slow():
    """Only listening sockets are kept of the tables, and looked at for each answer: 8,000 sockets of others cost nothing more."""
    with Watched() as server, socket.create_connection(("127.0.0.1", server.metrics_port), timeout=30) as line, contextlib.ExitStack() as kept:
        alone = seconds_of_answers(server, line)
        listener = kept.enter_context(socket.create_server(("127.0.0.1", 0), backlog=128))
        for _ in range(4_000):
            kept.enter_context(socket.create_connection(listener.getsockname()))
            kept.enter_context(listener.accept()[0])
        time.sleep(1.1)
        beside = seconds_of_answers(server, line)
    print(f"{alone:.2f} s of processor time for 300 answers, {beside:.2f} s beside 8,000 sockets")
    assert beside <= alone + 0.15


@fails_with("is another process")
def test_metrics_are_served_where_no_file_is_left():
    """One client at a time finds a file, though the cache's clients hold all and more wait. A silent one is replaced by the next."""
    with Watched("--seats", 64) as server:
        lines = [Line(server.port)]
        try:
            lines[0].ask(NO_OP, NO_OP_REPLY)
            most = len(os.listdir(f"/proc/{server.process.pid}/fd")) + 1
            resource.prlimit(server.process.pid, resource.RLIMIT_NOFILE, (most, most))
            lines += [Line(server.port) for _ in range(8)]
            lines[1].ask(NO_OP, NO_OP_REPLY)
            for _ in range(4):
                assert server.get("/healthz")[0] == 200
            values = server.values()
            assert values["process_open_fds"] == most and values["mcd_accepts_failed_total"] > 0
            with socket.create_connection(("127.0.0.1", server.metrics_port)):
                time.sleep(0.5)
                assert server.get("/healthz")[0] == 200
        finally:
            for line in lines:
                line.close()


def connects_and_leaves(port, sent, stop):
    """Connects again and again, and leaves at once."""
    while not stop.is_set():
        with contextlib.suppress(OSError), socket.create_connection(("127.0.0.1", port), timeout=1) as line:
            line.sendall(sent)
        time.sleep(0.002)


def probed(server):
    """Whether a probe that comes now is answered soon."""
    with contextlib.suppress(OSError), socket.create_connection(("127.0.0.1", server.metrics_port), timeout=5) as line:
        line.sendall(b"GET /healthz HTTP/1.1\r\nHost: x\r\n\r\n")
        return line.recv(100).startswith(b"HTTP/1.1 200 OK")
    return False


@pytest.mark.parametrize("rules", [(), ("--drop-in",)])
@fails_with("answers late")
def test_a_crowd_keeps_no_probe_out_where_no_file_is_left(rules):
    """The cache's clients hold all files and more wait, while others connect and leave at both ports: a file for metrics remains."""
    with Watched("--seats", 64, *rules) as server, contextlib.ExitStack() as kept:
        kept.enter_context(Line(server.port)).ask(NO_OP, NO_OP_REPLY)
        most = len(os.listdir(f"/proc/{server.process.pid}/fd")) + 2
        resource.prlimit(server.process.pid, resource.RLIMIT_NOFILE, (most, most))
        for _ in range(8):
            kept.enter_context(Line(server.port))
        stop = threading.Event()
        places = [(server.metrics_port, b"")] * 4 + [(server.port, NO_OP)] * 2
        crowd = [threading.Thread(target=connects_and_leaves, args=(*place, stop)) for place in places]
        try:
            for it in crowd:
                it.start()
            time.sleep(4)
            during = [probed(server) for _ in range(8)]
        finally:
            stop.set()
            for it in crowd:
                it.join()
        assert during == [True] * 8 and probed(server)
