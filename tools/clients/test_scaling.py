"""Three servers behind nutcracker (twemproxy), of which one is killed: the others serve on.

The configuration is examples/nutcracker.yml with other ports. That a server which is still there must be the one that serves was
seen once by ending all three: the last three tests failed.
"""
import contextlib
import re
import shutil
import time

import pytest

from tools.clients.clients import Socket
from tools.served import TOP, free_port, is_up, mcd, running

KEYS = 1000


def driven(port, what):
    """Sets or gets all keys by one server or proxy, on one connection after another if one breaks; how many it could."""
    it, done = None, 0
    for number in range(KEYS):
        key, value = b"scaled%d" % number, b"value of %d" % number
        try:
            it = it or Socket(port)
            done += it.set(key, value) if what == "set" else it.get(key) == value
        except (OSError, AssertionError, IndexError):
            it = None
    return done


def configured(path, proxy, ports):
    text = (TOP / "examples/nutcracker.yml").read_text().replace("22121", str(proxy))
    for port, ours in zip(("11211", "11212", "11213"), ports):
        text = re.sub(rf"\b{port}\b", str(ours), text)
    path.write_text(text)


@pytest.fixture(scope="module")
def servers(tmp_path_factory):
    """The processes of three servers, their ports, and the port of the proxy before them."""
    if not shutil.which("nutcracker"):
        pytest.skip("no nutcracker here")
    folder, ports, proxy = tmp_path_factory.mktemp("proxy"), [free_port() for _ in range(3)], free_port()
    configured(folder / "nutcracker.yml", proxy, ports)
    words = ["nutcracker", "-c", str(folder / "nutcracker.yml"), "-o", str(folder / "log"), "-s", str(free_port())]
    with contextlib.ExitStack() as stack:
        processes = [stack.enter_context(running(mcd("--listen", f"127.0.0.1:{port}", "--seats", 64))) for port in ports]
        stack.enter_context(running(words))
        assert all(is_up(port) for port in [*ports, proxy])
        yield processes, ports, proxy


@pytest.fixture(scope="module")
def shares(servers):
    """How many of the keys that were stored through the proxy each server has."""
    _, ports, proxy = servers
    assert driven(proxy, "set") == KEYS
    return [driven(port, "get") for port in ports]


@pytest.fixture(scope="module")
def left(servers, shares):
    """How many of the keys are found once one server is gone."""
    processes, _, proxy = servers
    processes[1].kill()
    processes[1].wait()
    driven(proxy, "get")  # meets the server that is gone, which the proxy then leaves out
    time.sleep(0.5)
    return driven(proxy, "get")


def test_every_key_is_found_through_the_proxy(servers, shares):
    assert driven(servers[2], "get") == KEYS


def test_each_key_is_on_one_server_and_each_server_has_its_share(shares):
    assert sum(shares) == KEYS and min(shares) > KEYS // 30


def test_the_keys_of_the_other_two_are_still_found(shares, left):
    assert left >= shares[0] + shares[2] - KEYS // 20


def test_every_key_can_be_stored_again(servers, left):
    assert driven(servers[2], "set") == KEYS


def test_every_key_is_found_again(servers, left):
    assert driven(servers[2], "get") == KEYS
