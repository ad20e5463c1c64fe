"""Keys that an attacker chose: a million of the same hash by which keys are spread over shards, beside a million at random."""
import itertools
import statistics
import time

import pytest

from tools.served import MIB, Line, Server

fails_with = pytest.mark.fails_with

KEYS = 1 << 20
BATCH = 1 << 14

# Twenty places, and for each two words that lead from one state of the hash to one other: whichever words are taken, the keys have
# one hash. They were found by a search for birthdays, 2^16 words or so for a place.
PAIRS = """
vxs3s8/gpn8bd 7gmiyy/uojgba zexk81/eka7sp l6gojw/j9gz0a znbj89/23qtid ncgf44/re1haa d540e4/emgxop bz2hz8/bf9qtf l4rbw1/6kvmua
wf54wx/y9gk1b owtzx9/ucel1a sub591/eu13ba c5wrv0/f57tra 8c8rqv/7bm90a kdlgbz/h3z9ae 9ksucx/s8w83d kok25x/gk2kmb on27b7/1i3kfa
d1nnm0/l1742p u75466/cqhmya
"""


def fnv(data):
    """32-bit FNV-1a."""
    state = 0x811C9DC5
    for byte in data:
        state = (state ^ byte) * 0x01000193 & 0xFFFFFFFF
    return state


def keys_of(pairs, step=1):
    """The keys that have one word of each pair, or each `step`-th of them, in batches."""
    keys = itertools.islice(map(b"".join, itertools.product(*pairs)), 0, KEYS, step)
    while batch := list(itertools.islice(keys, BATCH)):
        yield batch


def others_of(pairs):
    """As many pairs of as long words, whose keys have hashes of all kinds."""
    return [(first, second[::-1].upper()) for first, second in pairs]


def seconds_of(line, keys, command):
    """The time that a command of each of these keys takes."""
    sent = b"".join([command % key for key in keys]) + b"mn\r\n"
    began = time.monotonic()
    line.send(sent)
    while not line.socket.recv(1 << 18).endswith(b"MN\r\n"):
        pass
    return (time.monotonic() - began) / len(keys)


def compared(what, lines, kinds, step, command):
    """Sends batches of both kinds by turns, each to its own server, and compares what a command takes in the median."""
    took = [[], []]
    for batches in zip(*(keys_of(pairs, step) for pairs in kinds)):
        for line, keys, found in zip(lines, batches, took):
            found.append(seconds_of(line, keys, command))
    chosen, other = map(statistics.median, took)
    note = f"{what} {chosen * 1e6:.1f} µs, at random {other * 1e6:.1f}"
    assert chosen <= 2 * other, f"chosen keys cost more than twice: {note}"
    return note


@fails_with("slow for chosen keys")
def test_keys_of_one_hash_cost_no_more():
    """A million sets that say nothing, and then gets of each fourth key, whose hits say two letters. A map that spread its items
    by the hash of the shards would take hours here."""
    chosen = [pair.encode().split(b"/") for pair in PAIRS.split()]
    kinds = [chosen, others_of(chosen)]
    hashes = [len({fnv(key) for key in next(keys_of(pairs, 999))}) for pairs in kinds]
    assert hashes[0] == 1 and hashes[1] >= 1000, f"the keys are not as meant, but of {hashes} hashes"
    options = ("--shards", 2, "--bytes", 512 * MIB)
    with Server(*options) as ours, Server(*options) as theirs, Line(ours.port) as one, Line(theirs.port) as other:
        note = [compared("set", (one, other), kinds, 1, b"ms %s 1 q\r\nv\r\n"), compared("get", (one, other), kinds, 4, b"mg %s q\r\n")]
        print("; ".join(note))
