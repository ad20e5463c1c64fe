"""Starts the program as memcached is started, at each kind of address, and with sizes in each form; and compares `--plan` with what
the process takes.

What memcached's letters mean is in its man page, the options of its service in Debian's /etc/memcached.conf.
"""
import contextlib
import os
import pathlib
import re
import select
import socket
import stat
import subprocess
import tempfile
import time

import pytest

from tools.served import MIB, STORED, TOO_LARGE, Line, Server, ended, free_port, hit_of, mcd, run, running, set_of

fails_with = pytest.mark.fails_with

# The lines of Debian 12's /etc/memcached.conf that are no comments.
DEBIANS = """
-d
logfile /var/log/memcached.log
-m 64
-p 11211
-u memcache
-l 127.0.0.1
-P /var/run/memcached/memcached.pid
"""


@contextlib.contextmanager
def listening(*words, before=()):
    """The words start a server; where it says that it listens, and its lines on standard error so far. Those before start it, if there
    are any."""
    said = []
    with running([*before, *mcd(*words)], stderr=subprocess.PIPE, bufsize=0) as process:
        while select.select([process.stderr], [], [], 0.3 if any("listening" in line for line in said) else 10)[0]:
            if not (line := process.stderr.readline().decode()):
                break
            said.append(line.rstrip("\n"))
        where = next((found[1] for line in said if (found := re.search(r", listening on (.+)$", line))), None)
        yield where, said


def serves_at(host, port):
    with socket.create_connection((host, port), timeout=10) as line:
        line.sendall(b"mn\r\n")
        assert line.recv(100) == b"MN\r\n"


def words_of_the_wrapper(conf):
    """The options as Debian's systemd-memcached-wrapper hands them to memcached; it leaves out -d, -h and what begins without a dash."""
    lines = [re.sub(r"(?<!\\)#[^#]*", "", line).strip() for line in conf.splitlines()]
    return " ".join(line for line in lines if line.startswith("-") and not re.match("-[dh]", line)).split()


@fails_with("ignores the port", "warns of nothing")
def test_debians_options():
    """Word by word, but for a port that is free here; with and without what the wrapper leaves out."""
    for words in (words_of_the_wrapper(DEBIANS), [word for line in DEBIANS.splitlines() if line.startswith("-") for word in line.split()]):
        port = free_port()
        words[words.index("-p") + 1] = str(port)
        with listening("--drop-in", *words) as (where, said):
            assert where == f"127.0.0.1:{port}"
            assert f"mcd {version()}: memcached's rules, 2 threads, 64 MiB, listening on 127.0.0.1:{port}" in said
            assert any(line.startswith("mcd: warning: --daemon, --user and --pidfile are ignored") for line in said)
            serves_at("127.0.0.1", port)


@fails_with("ignores the port", "ignores the number of seats", "ignores a value limit", "ignores that it is to be verbose")
def test_each_letter():
    """Each letter does what its long option does."""
    port = free_port()
    with listening("-p", str(port), "-l", "127.0.0.1", "-m", "96", "-t", "3", "-c", "5", "-I", "2k", "-U", "0", "-v") as (where, said):
        assert (where, said[0]) == (f"127.0.0.1:{port}", f"mcd {version()}: native rules, 3 threads, 96 MiB, listening on 127.0.0.1:{port}")
        with Line(port) as line:
            line.ask(set_of(b"a", b"x" * 2048) + set_of(b"a", b"x" * 2049), STORED + TOO_LARGE)
    for words in (["-c", "1"], ["-c1"], ["--seats", "1"]):
        with Server(*words) as server, Line(server.port) as first, Line(server.port, timeout=0.5) as second:
            first.ask(b"mn\r\n", b"MN\r\n")
            second.send(b"mn\r\n")
            second.waits()
    with Server("-v") as server, Line(server.port) as line:
        line.ask(b"mn\r\n", b"MN\r\n")
        assert "opened" in server.line_said()


def version():
    return ended("--version")[1].split()[1]


NUMBER = "expects a number from {0} to {1}, not '{2}'"
TWO_BUDGETS = "use only one of --bytes (for each shard), --memory and --memory-limit (for all shards)"

# Calls, and what is said of them behind `mcd: `.
FAULTS = [
    ("-U 11211", "--udp-port " + NUMBER.format(0, 0, "11211")), ("-p 0", "--port " + NUMBER.format(1, 65535, "0")),
    ("-p 65536", "--port " + NUMBER.format(1, 65535, "65536")), ("-p x", "--port " + NUMBER.format(1, 65535, "x")),
    ("-m 0", "--memory-limit " + NUMBER.format(1, 4194304, "0")), ("-m 64m", "--memory-limit " + NUMBER.format(1, 4194304, "64m")),
    ("-m 65537 -t 1", "--memory-limit " + NUMBER.format(1, 65536, "65537")),
    ("-c 0", "--seats " + NUMBER.format(1, 65536, "0")), ("-t 65", "--shards " + NUMBER.format(1, 64, "65")),
    ("-m 64 --memory 64m", TWO_BUDGETS), ("-m 64 --bytes 64k", TWO_BUDGETS), ("-m 64 --memory 64m --bytes 64k", TWO_BUDGETS),
    *((f"-s mcd.socket -a {word}", f"--unix-mask expects an octal mode from 0 to 777, not '{word}'") for word in ("778", "1000", "8", "rwx", "0x1ff", "u=rwx")),
    ("--stdio -s mcd.socket", "--unix-socket can't be used with --stdio, which takes only --at, --shards, --bytes, --memory, --memory-limit, --value-limit, "
                              "--line-limit, --window and --drop-in"),
    ("--replay a -A", "--enable-shutdown can't be used with --replay, which takes no other option"),
    ("--replay a -a 700", "--unix-mask can't be used with --replay, which takes no other option"),
]


@fails_with("ends with 0", "ends with 1")
def test_each_fault_of_a_letter():
    """The option, the word and the range are named, and nothing listens."""
    for call, text in FAULTS:
        assert ended(*call.split()) == (2, "", f"mcd: {text}\n"), call
    for call, word in (("-p 1 -p 2", "--port"), ("-m", "--memory-limit"), ("-c 1 --seats 2", "--seats"), ("-k", "-k"), ("-vv", "--verbose")):
        status, out, said = ended(*call.split())
        assert (status, out, said[:7], word in said.splitlines()[0]) == (2, "", "error: ", True), call


@fails_with("listens elsewhere", "ignores the port")
def test_each_address():
    """A port alone, a host alone, both, IPv6 with and without brackets, and a name."""
    for words, host, said_host in (
        (["--listen", "{}"], "127.0.0.1", "127.0.0.1"), (["--listen", ":{}"], "127.0.0.1", "127.0.0.1"),
        (["--listen", "127.0.0.1:{}"], "127.0.0.1", "127.0.0.1"), (["--listen", "127.0.0.1", "--port", "{}"], "127.0.0.1", "127.0.0.1"),
        (["--port", "{}"], "127.0.0.1", "127.0.0.1"), (["--listen", "[::1]:{}"], "::1", "[::1]"), (["--listen", "[::1]", "--port", "{}"], "::1", "[::1]"),
        (["-l", "::1", "-p", "{}"], "::1", "[::1]"), (["--listen", "0.0.0.0:{}"], "127.0.0.1", "0.0.0.0"), (["--listen", "[::]:{}"], "127.0.0.1", "[::]"),
        (["--listen", "127.0.0.1:{}", "--port", "1"], "127.0.0.1", "127.0.0.1"), (["--listen", "localhost:{}"], "localhost", None),
    ):
        if ":" in host and not socket.has_ipv6:
            continue
        port = free_port()
        with listening(*(word.format(port) for word in words)) as (where, _):
            assert (where is not None and where.endswith(f":{port}")) and said_host in (None, (where or "").rpartition(":")[0]), words
            serves_at(host, port)


@fails_with("listens elsewhere")
def test_several_places():
    """However often `--listen` is given, and with commas in it; it names them in their order, and serves at each."""
    for words, hosts in (
        (["-l", "127.0.0.1,127.0.0.2", "-p", "{0}"], ("127.0.0.1:{0}", "127.0.0.2:{0}")),
        (["--listen", "127.0.0.2", "--listen", "127.0.0.1", "--port", "{0}"], ("127.0.0.2:{0}", "127.0.0.1:{0}")),
        (["--listen", "{0},127.0.0.3:{1}", "-l", "[::1]:{1}", "-l", "{2}"], ("127.0.0.1:{0}", "127.0.0.3:{1}", "[::1]:{1}", "127.0.0.1:{2}")),
    ):
        ports = [free_port() for _ in range(3)]
        wanted = [host.format(*ports) for host in hosts]
        with listening(*(word.format(*ports) for word in words)) as (where, _):
            assert where == ", ".join(wanted)
            # One after another, and in turns: none waits for another.
            for address in wanted + wanted[::-1] + wanted:
                host, _, port = address.rpartition(":")
                serves_at(host.strip("[]"), int(port))


# With a table of hosts of its own; who isn't root becomes it there.
WITH_HOSTS = ["unshare", "--mount", *([] if os.geteuid() == 0 else ["--map-root-user"]), "sh", "-c", 'mount --bind "$0" /etc/hosts; exec "$@"']

# A name of three addresses that this machine has, of which one comes twice, and of one that it doesn't have.
HOSTS = "127.0.0.2 several\n127.0.0.1 several\n127.0.0.1 several\n192.0.2.1 several\n127.0.0.3 several\n192.0.2.1 elsewhere\n"


@fails_with("listens elsewhere")
def test_a_name_of_several_addresses():
    """It listens at each address of the name that this machine has; one that is in use, or that there is none, is a fault."""
    with tempfile.NamedTemporaryFile("w") as hosts:
        hosts.write(HOSTS)
        hosts.flush()
        before = [*WITH_HOSTS, hosts.name]
        if subprocess.run([*before, "grep", "-q", "several", "/etc/hosts"], capture_output=True).returncode != 0:
            pytest.skip("no table of hosts of its own is to be had here")
        port = free_port()
        with listening("--listen", f"several:{port}", before=before) as (where, _):
            assert sorted(where.split(", ")) == [f"127.0.0.{it}:{port}" for it in (1, 2, 3)]
            for address in where.split(", "):
                serves_at(address.rpartition(":")[0], port)
        with socket.socket() as taken:
            taken.bind(("127.0.0.3", port))
            taken.listen()
            for name, reason in (("several", "Address already in use"), ("elsewhere", "Cannot assign requested address")):
                ran = subprocess.run([*before, *mcd("--listen", f"{name}:{port}")], stdin=subprocess.DEVNULL, capture_output=True, text=True, timeout=30)
                first, second = ran.stderr.splitlines()
                assert (ran.returncode, first, second.startswith(f"mcd: --listen {name}:{port}: {reason}")) == (1, "mcd: cannot listen", True), name


def asked_at(path, given, length):
    """The first bytes of what is answered at the path of a Unix socket."""
    with socket.socket(socket.AF_UNIX) as line:
        line.settimeout(30)
        line.connect(path)
        line.sendall(given)
        found = b""
        while len(found) < length and (got := line.recv(1 << 18)):
            found += got
        return found


@fails_with("ignores the mode of a socket")
def test_a_unix_socket():
    """At a path alone, or beside addresses; for this user alone, or by the mode that is given."""
    value = b"v" * 300_000
    large, hit = set_of(b"a", value), hit_of(b"a", value)
    with tempfile.TemporaryDirectory() as folder:
        path, other = f"{folder}/mcd", f"{folder}/other"
        for words, wanted, mode in (
            (["-s", path], f"unix:{path}", 0o700), (["--unix-socket", path, "-a", "770"], f"unix:{path}", 0o770),
            (["--listen", f"unix:{path}", "--unix-mask", "0666"], f"unix:{path}", 0o666),
            (["-l", f"unix:{path},unix:{other}"], f"unix:{path}, unix:{other}", 0o700),
            (["-l", "127.0.0.1:{0}", "-s", path], "127.0.0.1:{0}, unix:" + path, 0o700),
            (["-l", f"unix:{path},127.0.0.1", "-p", "{0}", "-a", "0"], f"unix:{path}, 127.0.0.1:{{0}}", 0),
        ):
            port = free_port()
            with listening(*(word.format(port) for word in words)) as (where, _):
                assert where == wanted.format(port)
                assert oct(stat.S_IMODE(os.stat(path).st_mode)) == oct(mode), words
                assert asked_at(path, b"mn\r\n" + large + b"get a\r\n", 12 + len(hit)) == b"MN\r\n" + STORED + hit
                if "127" in wanted:
                    # The items are the same ones.
                    with Line(port) as line:
                        line.ask(b"get a\r\n", hit)
            # It stays there, and the next server replaces it: nobody listens at it.
            assert stat.S_ISSOCK(os.stat(path).st_mode)


@fails_with("ignores the rules of memcached")
def test_memcacheds_rules_at_a_path():
    """Another protocol is closed without a byte, and what its client sends besides isn't read."""
    with tempfile.TemporaryDirectory() as folder:
        path = f"{folder}/mcd"
        with listening("-s", path, "--drop-in"):
            for given in (b"GET / HTTP/1.1\r\n\r\n", b"\x80\x0b" + bytes(22), b"\x16\x03\x01\x02\0\x01"):
                try:
                    assert asked_at(path, given, 1) == b"", given
                except ConnectionResetError:
                    # What the client sent wasn't read.
                    pass
            assert asked_at(path, b"mn\r\n", 4) == b"MN\r\n"


def standard_descriptors(server):
    """What the descriptors 0 to 2 of a process are."""
    return [os.readlink(f"/proc/{server.pid}/fd/{number}") for number in range(3)]


@fails_with("is another process")
def test_closed_standard_descriptors_are_no_sockets():
    """Each is an empty file that can only be read: what is logged reaches no client, and what is printed fails."""
    shut = ["sh", "-c", 'exec "$0" "$@" <&- >&- 2>&-', *mcd()]
    with tempfile.TemporaryDirectory() as folder:
        path = f"{folder}/socket"
        with running([*shut, "-s", path, "--verbose"]) as process:
            for _ in range(300):
                if os.path.exists(path):
                    break
                time.sleep(0.1)
            assert asked_at(path, b"mn\r\n", 4) == b"MN\r\n"
            assert standard_descriptors(process) == ["/dev/null"] * 3
    assert subprocess.run([*shut, "--version"], timeout=30).returncode == 1


@fails_with("ends with 0")
def test_a_path_in_use():
    """Neither a socket at which somebody listens is replaced, nor any other file; and the fault names the option and the path."""
    with tempfile.TemporaryDirectory() as folder:
        taken, file, far = f"{folder}/taken", f"{folder}/file", f"{folder}/no-folder/mcd"
        pathlib.Path(file).write_text("kept")
        with listening("-s", taken):
            for words, option, reason in (
                (["-s", taken], f"--unix-socket {taken}", "Address already in use"),
                (["-l", f"unix:{taken}"], f"--listen unix:{taken}", "Address already in use"),
                (["-s", file], f"--unix-socket {file}", "Address already in use"), (["-s", far], f"--unix-socket {far}", "No such file or directory"),
                (["-s", "x" * 108], "--unix-socket " + "x" * 108, "path must be shorter than SUN_LEN"), (["-l", "unix:"], "--listen unix:", "invalid"),
            ):
                status, out, said = ended(*words)
                lines = said.splitlines()
                assert (status, out, lines[0], len(lines)) == (1, "", "mcd: cannot listen", 2), words
                assert lines[1].startswith(f"mcd: {option}: ") and reason in lines[1]
            assert asked_at(taken, b"mn\r\n", 4) == b"MN\r\n"
        assert pathlib.Path(file).read_text() == "kept"


@fails_with("listens before it does", "ends with 0")
def test_a_fault_comes_before_it_listens():
    """Neither an address that can't be bound nor one of the metrics lets it say that it listens."""
    with Server() as server:
        taken = str(server.port)
        for words, option in (
            (["--listen", taken], f"--listen 127.0.0.1:{taken}"), (["-l", "127.0.0.1", "-p", taken], f"--listen 127.0.0.1:{taken}"),
            (["-l", "127.0.0.2,127.0.0.1,127.0.0.3", "-p", taken], f"--listen 127.0.0.1:{taken}"),
            (["-l", "127.0.0.1:0", "-l", taken], f"--listen 127.0.0.1:{taken}"),
            (["--listen", "127.0.0.1:0", "--metrics", taken], f"--metrics {taken}"),
        ):
            status, out, said = ended(*words)
            lines = said.splitlines()
            assert (status, out, lines[0], len(lines)) == (1, "", "mcd: cannot listen", 2)
            assert lines[1].startswith(f"mcd: {option}: Address already in use")
    status, out, said = ended("--listen", "no-such-host.invalid")
    assert (status, out, said.splitlines()[0], "--listen no-such-host.invalid:11211: " in said) == (1, "", "mcd: cannot listen", True)


@fails_with("names the native rules alone")
def test_the_line_at_the_start():
    with Server("--drop-in", "--memory", "8m", "--shards", "4") as server:
        assert server.before == []
    with listening("--listen", "127.0.0.1:0", "--memory", "2k") as (where, said):
        assert said[0] == f"mcd {version()}: native rules, 2 threads, 0 MiB, listening on {where}"
    with listening("--listen", "127.0.0.1:0", "--drop-in", "--memory", "3m", "--shards", "3") as (where, said):
        assert said[:1] == [f"mcd {version()}: memcached's rules, 3 threads, 3 MiB, listening on {where}"]


@fails_with("refuses capital letters", "ignores a value limit")
def test_each_form_of_a_size():
    """The largest value is 2 KiB in each form."""
    for size in ("2048", "2k", "2K", "2kb", "2KB", "2Kb", "2048b", "2048B"):
        ran = run("--stdio", "--value-limit", size, given=set_of(b"a", b"x" * 2048) + set_of(b"a", b"x" * 2049))
        assert (ran.returncode, ran.stdout) == (0, STORED + TOO_LARGE), size
    for size, mebibytes in (("64M", 64), ("64mb", 64), ("1G", 1024), ("1GB", 1024), ("64MB", 64)):
        assert f", {mebibytes} MiB, " in ended("--plan", "--memory", size)[1], size
    for size in ("2bk", "2kbb", "b", "kb", "k", "2t", "2 k", "-2k", "2.5k"):
        status, _, said = ended(f"--value-limit={size}")
        assert (status, f"not '{size}'" in said) == (2, True), size


@fails_with("has two shards")
def test_as_many_shards_as_the_memory_needs():
    """A shard has 64 GiB at most; if --shards is given it is kept, and what doesn't fit is refused."""
    for words, shards, share in (
        ("--memory 4g", 2, 2048), ("--memory 128g", 2, 65536), ("--memory 129g", 3, 44032), ("--memory 4096g", 64, 65536),
        ("-m 131073", 3, 43691), ("--memory 129g --shards 4", 4, 33024), ("--shards 5", 5, 16), ("--bytes 1m", 2, 1),
    ):
        status, out, _ = ended("--plan", *words.split())
        assert (status, f", {shards} threads, " in out, f"each shard holds up to {share} MiB of items" in out) == (0, True, True), words
    for call, most in (("--memory 129g --shards 2", 137438953472), ("--memory 4097g", 4398046511104)):
        status, _, said = ended(*call.split())
        assert (status, f"to {most} bytes, " in said) == (2, True), call


@fails_with("warns of nothing")
def test_a_value_that_no_shard_has_room_for():
    """It is warned of, and the warning is right: so much is stored, and no byte more."""
    with listening("--listen", "127.0.0.1:0", "--memory", "4k") as (where, said):
        assert said[1:] == ["mcd: warning: --value-limit is 1048576, but no shard can hold a value above 1983 bytes: raise --memory"]
        with Line(int(where.rpartition(":")[2])) as line:
            line.ask(set_of(b"a", b"x" * 1983) + set_of(b"a", b"x" * 1984), STORED + TOO_LARGE)
    for words in (["--memory", "4k", "--value-limit", "1983"], ["--bytes", "2m"], []):
        with listening("--listen", "127.0.0.1:0", *words) as (where, said):
            assert len(said) == 1, words


def planned(words):
    """What the plan says: MiB at the start, with connections, and for each length of an item without and with an expiry."""
    status, out, _ = ended("--plan", *words)
    assert status == 0
    start, connected = (int(re.search(rf"^  (\d+) MiB {when}$", out, re.M)[1]) for when in ("at startup", "with a connection on each seat"))
    full = re.findall(r"^  (\d+) MiB when full of items of (\d+) bytes \(key and value\); (\d+) MiB if each has an expiry$", out, re.M)
    return start, connected, {int(length): (int(never), int(expiring)) for never, length, expiring in full}


def filled_by(port, length, cost, expires):
    """Sets items of this length, key and value, until twice `cost` bytes are spent; or with expiries, as many as fit, six times over."""
    value, rounds, fit = b"v" * (length - 16), 6 if expires else 2, cost // (length + 64)
    with Line(port) as line:
        for first in range(0, rounds * fit, 2000):
            numbers = (it % fit if expires else it for it in range(first, first + 2000))
            line.send(b"".join(b"set %016d 0 %d %d noreply\r\n%s\r\n" % (it, 3600 * expires, len(value), value) for it in numbers))
        line.ask(b"mn\r\n", b"MN\r\n")


# The options, the length of an item, whether it has an expiry, and how many connections are opened. In one row with expiries the queue
# has just doubled.
SIZES = [
    ("--memory 64m", 32, False, 0), ("--memory 64m --shards 4", 128, False, 0), ("--memory 192m", 1024, False, 0),
    ("--memory 128m --seats 4000", 16384, False, 400), ("--memory 16m --shards 8 --seats 500", 32, False, 400),
    ("--memory 64m", 32, True, 0), ("--memory 432m --seats 16", 1024, True, 0), ("--memory 128m --seats 4000", 16384, True, 400),
]


@fails_with("plans a third", "plans ten times as much")
def test_the_plan_is_kept():
    """What the process takes is no more than planned, and no less than half of it but for 24 MiB: at its start, and full."""
    notes = []
    for options, length, expires, connections in SIZES:
        words = options.split()
        start, connected, full = planned(words)
        with Server(*words, "--drop-in") as server:
            with Line(server.port) as line:
                # The threads have started once one answers.
                line.ask(b"mn\r\n", b"MN\r\n")
            at_start = server.resident() / MIB
            assert at_start <= start + 1 and at_start >= start / 2 - 4, options
            lines = [Line(server.port) for _ in range(connections)]
            for line in lines:
                line.ask(b"mn\r\n", b"MN\r\n")
            memory = int(re.search(r"--memory (\d+)m", options)[1]) * MIB
            filled_by(server.port, length, memory, expires)
            resident = server.resident() / MIB
            for line in lines:
                line.close()
        most = full[length][expires]
        notes.append(f"{resident:.0f} of {most}")
        assert resident <= most + 1 and resident >= most / 2 - 24, (options, length, expires)
    print("; ".join(notes) + " MiB")


@fails_with("ignores that it is to plan", "ends with 1")
def test_the_plan_prints_alone():
    """It starts nothing, even if the address is taken, and refuses what a server refuses."""
    with Server() as server:
        status, out, said = ended("--plan", "--listen", str(server.port), "--memory", "4g", "--seats", "2000")
        assert (status, out.splitlines()[0], said) == (0, f"mcd {version()}: native rules, 2 threads, 4096 MiB, 2000 seats", "")
    assert ended("--plan", "--seats", "0")[0] == 2
    with open("/dev/full", "wb") as full:
        ran = run("--plan", stdout=full)
        assert (ran.returncode, ran.stderr) == (1, b"mcd: cannot write\n")
