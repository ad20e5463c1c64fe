"""Runs replay files through `mcd --replay` and compares what it prints: the worked files, examples/NAME.schedule, each with
examples/NAME.expected; files with a bad line; and random schedules with a small model (`tools/replay_model.py`). Each of these ends
with rounds of all events, after which every connection must be at rest.
"""
import itertools
import typing

import hypothesis
import pytest
from hypothesis import strategies as st

from tools import served
from tools.replay_model import QUIT, World, commands

fails_with = pytest.mark.fails_with

# A file, and the number of its first bad line.
BAD = [
    ("", 1), ("\n", 1), ("sim 1 1 1024 1025\n", 1), ("sim 1 1 1024 1 1024\n", 1), ("sim 1 1 1024 1 drop-in\n", 1), ("sim 1 1 1024 1 1024 1 own\n", 1),
    ("sim 1 1 1024 1 1024 1 drop-in drop-in\n", 1), ("sim 1 1 1024 1 1024 1 2047\n", 1), ("sim 1 1 1024 1 1024 1 8388609 drop-in\n", 1),
    ("sim 1 1 1024 1 1024 1 2048 own\n", 1), ("sim 1 1 1024 1 1024 1 drop-in 2048\n", 1), ("sim 1 1 1024 1 1024 1 2048 drop-in 1\n", 1),
    ("sim 1 1 1024 1\n\n", 2),
    ("sim 1 1 1024 1\nopen 0\nopen 1\n", 3), ("sim 1 1 1024 1\nopen 0\nfeed 0 6\n", 3), ("sim 1 1 1024 1\ncall 0\n", 2),
    ("sim 1 1 1024 1\nopen  0\n", 2), ("sim 1 1 1024 1\ntake 0 18446744073709551616\n", 2),
]


def replayed(folder, text):
    """The status of the program over a file with this text, and what it writes on both outputs."""
    (folder / "a.schedule").write_bytes(text)
    ran = served.run("--replay", folder / "a.schedule")
    return ran.returncode, ran.stdout, ran.stderr


class Schedule(typing.NamedTuple):
    """The text of a schedule, what it must print, and whether every connection is at rest at its end."""

    text: bytes
    wanted: bytes
    rests: bool


class Plan:
    """A schedule as it grows: its lines, the world that they lead to, and how many of its events were done."""

    def __init__(self, seats, shards, ring, window):
        self.world = World(seats, shards, ring, window)
        self.lines = [f"sim {seats} {shards} 1048576 {ring} 1048576 {window}"]
        self.done = 0

    def event(self, name, *numbers):
        was_done = getattr(self.world, "cut" if name == "break" else name)(*numbers)
        self.lines.append(" ".join([name, *map(str, numbers)]))
        self.done += was_done
        return was_done

    def feed(self, c, fed):
        if self.world.may_feed(c):
            self.lines.append(f"feed {c} " + b"".join(command.text for command in fed).hex())
            self.done += self.world.feed(c, fed)

    def round(self):
        """All events that take, send, run and hand out, once; whether one was done."""
        seats, shards = range(self.world.seats), range(self.world.shards)
        moved = [self.event("take", c, 2000) for c in seats] + [self.event("send", c) for c in seats]
        moved += [self.event("pop", s, c) for s in shards for c in seats] + [self.event("give", s) for s in shards]
        moved += [self.event("receive", c, s) for c in seats for s in shards] + [self.event("hand", c) for c in seats]
        return any(moved)


@st.composite
def schedules(draw):
    """A random schedule that ends at rest."""
    seats, shards = draw(st.integers(1, 4)), draw(st.integers(1, 3))
    plan = Plan(seats, shards, draw(st.integers(1, 3)), draw(st.sampled_from([1, 2, 3, 256])))
    for seat in range(seats):
        plan.event("open", seat)
    name, c, s, moment = st.just, st.integers(0, seats - 1), st.integers(0, shards - 1), st.integers(1000, 1003)
    fed = st.tuples(st.lists(commands(shards), min_size=1, max_size=5), st.sampled_from([*[[]] * 9, [QUIT]])).map(itertools.chain.from_iterable).map(list)
    feed, take, send = st.tuples(name("feed"), c, fed), st.tuples(name("take"), c, moment), st.tuples(name("send"), c)
    pop, give, receive = st.tuples(name("pop"), s, c), st.tuples(name("give"), s), st.tuples(name("receive"), c, s)
    last = st.tuples(st.sampled_from(["hand"] * 16 + ["open"] * 16 + ["end", "break"]), c)
    kinds = [feed] * 4 + [take] * 5 + [send] * 5 + [pop] * 4 + [give] * 3 + [receive] * 3 + [last] * 4
    some_kind = st.integers(0, len(kinds) - 1)
    for _ in range(draw(st.integers(20, 200))):
        kind, *given = draw(kinds[draw(some_kind)])
        (plan.feed if kind == "feed" else plan.event)(*([] if kind == "feed" else [kind]), *given)
    while plan.round():
        pass
    resting = all(one is None or one.at_rest() for one in plan.world.at)
    idle = len(plan.lines) - 1 - plan.done
    return Schedule("\n".join(plan.lines).encode() + b"\n", plan.world.report(plan.done, idle).encode(), resting)


@fails_with("changes what it replays")
@pytest.mark.parametrize("path", sorted((served.TOP / "examples").glob("*.schedule")), ids=lambda path: path.stem)
def test_a_worked_file(path, tmp_path):
    assert replayed(tmp_path, path.read_bytes())[:2] == (0, path.with_suffix(".expected").read_bytes())


@fails_with("ends with 0")
@pytest.mark.parametrize(("text", "line"), BAD)
def test_a_bad_line(text, line, tmp_path):
    assert replayed(tmp_path, text.encode()) == (1, b"", f"mcd: line {line}: bad event\n".encode())


@fails_with("changes what it replays")
@hypothesis.settings(max_examples=500)
@hypothesis.given(schedules())
def test_random_schedules(tmp_path, schedule):
    assert schedule.rests
    assert replayed(tmp_path, schedule.text)[:2] == (0, schedule.wanted)
