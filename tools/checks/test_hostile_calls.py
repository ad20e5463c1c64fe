"""How the program is called: its messages, and the status with which it ends."""
import socket
import subprocess
import time

import pytest

from tools.served import LISTENING, TOP, Line, Server, ended, mcd, run, running

fails_with = pytest.mark.fails_with

# Addresses that aren't one, or can't be listened on (192.0.2.1 is nobody's: RFC 5737).
# Places where it can't listen. One that names no port is reported with that of memcached.
NO_ADDRESSES = ["nonsense:1", ":", "256.0.0.1:1", "127.0.0.1:99999", "127.0.0.1:-1", "192.0.2.1:1", "unix:", "unix:/nonexistent/x"]
WITHOUT_PORT = ["nonsense", "", "256.0.0.1"]

FAULTY_CALLS = [
    "--seats 0", "--seats 65537", "--seats 1 --seats 2", "--seats 1x", "--shards 0", "--shards 65", "--bytes 1023",
    "--bytes 68719476737", "--value-limit 1023", "--value-limit 8388609", "--line-limit 2047", "--line-limit 8388609", "--window 0", "--window 4097",
    "--client-memory 16777215", "--client-memory 1025g",
    "--connections 0", "--connections 4294967296", "--listen", "--nope", "nope", "--at 3", "--stdio --seats 2",
    "--stdio --listen 127.0.0.1:0", "--stdio --connections 1", "--stdio --at x",
    "--replay", "--replay x --seats 2", "--replay x --stdio", "--replay x --bytes 1024",
]


def is_refused_address(address, shown=None):
    """The program reports that it can't listen, and why it can't listen there."""
    status, out, errors = ended("--listen", address)
    first, _, second = errors.partition("\n")
    assert (status, out, first) == (1, "", "mcd: cannot listen"), address
    assert second.startswith(f"mcd: --listen {shown or address}: ") and second.count("\n") == 1


@fails_with("ends with 0")
def test_a_taken_port_is_refused(server):
    is_refused_address(f"127.0.0.1:{server.port}")
    with Line(server.port) as line:
        line.ask(b"mn\r\n", b"MN\r\n")


@fails_with("ends with 0")
def test_what_is_no_address_is_refused():
    for address in NO_ADDRESSES:
        is_refused_address(address, {":": "127.0.0.1:"}.get(address))
    for address in WITHOUT_PORT:
        is_refused_address(address, f"{address}:11211")


@fails_with("ends with 0", "ends with 1")
def test_faults_of_the_command_line_end_with_2():
    for call in FAULTY_CALLS:
        status, out, errors = ended(*call.split())
        assert (status, out, bool(errors)) == (2, "", True), call


@fails_with("ends with 0")
def test_a_file_that_cannot_be_read_is_reported():
    for file in (TOP / "examples/no such file", TOP / "examples"):
        status, out, errors = ended("--replay", str(file))
        first, _, reason = errors.partition("\n")
        assert (status, out, first) == (1, "", "mcd: cannot read the file"), file
        assert reason.startswith(f"mcd: --replay {file}: ")


@fails_with("ends with 0")
def test_a_replay_that_cannot_be_written_is_reported():
    for file in sorted(TOP.glob("examples/*.schedule")):
        with open("/dev/full", "wb") as full:
            ran = run("--replay", file, stdout=full)
        assert (ran.returncode, ran.stderr) == (1, b"mcd: cannot write\n"), file


@fails_with("ends with 1")
def test_help_ends_with_0():
    status, out, errors = ended("--help")
    assert (status, "--listen" in out, errors) == (0, True, "")


def leaves(port, number):
    """A client that ends, quits, or is reset in the middle of a block."""
    with Line(port) as line:
        line.ask(b"mn\r\n", b"MN\r\n")
        if number % 3 == 1:
            line.ask(b"quit\r\n", b"")
        elif number % 3 == 2:
            line.send(b"set torn 0 0 10\r\nabc")
            line.reset()


@fails_with("ends with 1", "counts a connection twice")
def test_so_many_connections_and_then_status_0():
    """Each connection counts once, however it ends: before the last the server goes on, and then it ends."""
    for count, seats in ((1, 1), (1, 4), (1, 64), (3, 1), (3, 4), (3, 64), (200, 1), (200, 4), (200, 64)):
        with Server("--connections", count, "--seats", seats) as server:
            for number in range(count - 1):
                leaves(server.port, number)
            with Line(server.port) as last:
                last.ask(b"mn\r\n", b"MN\r\n")
                time.sleep(0.1)
                assert server.is_running()
                last.ask(b"mn\r\nquit\r\n", b"MN\r\n")
            assert (server.process.wait(timeout=30), server.process.stderr.read()) == (0, b""), (count, seats)


@fails_with("counts a connection twice")
def test_the_last_connections_are_served_to_their_end():
    with Server("--connections", 4, "--seats", 4) as server:
        lines = [Line(server.port) for _ in range(4)]
        for line in lines:
            line.ask(b"mn\r\n", b"MN\r\n")
        for line in lines[:3]:
            line.close()
        time.sleep(0.3)
        assert server.is_running()
        lines[3].ask(b"mn\r\n", b"MN\r\n")
        lines[3].close()
        assert server.process.wait(timeout=30) == 0


@fails_with("keeps its port")
def test_a_port_is_free_again_at_once(server):
    with Line(server.port) as line:
        line.ask(b"mn\r\n", b"MN\r\n")
        port = server.port
        server.process.kill()
        server.process.wait()
        with running(mcd("--listen", f"127.0.0.1:{port}"), stderr=subprocess.PIPE) as again:
            assert int(LISTENING.fullmatch(again.stderr.readline().decode())[1]) == port
            socket.create_connection(("127.0.0.1", port), timeout=30).close()
