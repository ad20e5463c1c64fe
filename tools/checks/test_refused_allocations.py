"""Runs each test that is written for it with its first allocation refused, then with its second, and so on, until a run meets no
refusal. The tests are those that `rt ci`, or `rt test` in their crates, has just built: crates/NAME/out/NAME_tests.

The tests of what takes no memory are run so with all allocations from the first on refused, then with all from the
second on, and so on: in the last such run every call that they test finds none. It fails if such a run fails, and
if a test makes fewer allocations than it must: then the test no longer reaches what takes memory.

Then the program itself is run so over one line, with a window of one, so that the allocations of a command come before those of
the next. Where one is refused before anything was read, the program reports so and ends; later on, the reply
of just one command is the memory line, the other replies are those of the same line without that command, and a later allocation
is never that of an earlier command. Each command that needs memory has its turn. Where the program asks again, or does without,
all replies are as with memory.
"""
import os
import subprocess

import pytest

from tools.served import TOP, run

# Each test that holds whichever allocation is refused, and how many allocations it makes at least.
TESTS = [
    ("mc_protocol_tests", "wire::memory_is_the_only_other_fault", 2),
    ("mc_protocol_tests", "command::a_line_without_memory_is_given_up", 25),
    ("mc_protocol_tests", "reader::a_refused_allocation_gives_up_one_command", 8),
    ("mc_protocol_tests", "store::memory_may_be_refused_once", 50),
    ("mc_protocol_tests", "store::memory_may_be_refused_while_the_table_grows", 120),
    ("mc_connection_tests", "split::a_refused_allocation_refuses_one_plan", 30),
    ("mc_connection_tests", "join::a_hit_copies_no_value", 5),
    ("mc_connection_tests", "conn::a_refused_allocation_gives_up_one_command", 4),
    ("mc_serving_tests", "sim::a_refused_allocation_gives_up_one_command", 40),
    ("mc_serving_tests", "sim::a_worker_takes_no_memory", 8),
    ("mc_serving_tests", "settle::a_refused_allocation_stops_it", 40),
    ("mc_serving_tests", "line::a_refused_allocation", 37),
    ("mc_serving_tests", "start::a_refused_start", 20),
]

# The tests of what takes no memory once all that it needs was made, and how many allocations that takes at least.
WITHOUT_MEMORY = [
    ("mc_protocol_tests", "wire::faults_of_words_take_no_memory", 0),
    ("mc_protocol_tests", "wire::short_keys_take_no_memory", 0),
    ("mc_serving_tests", "without_memory::words_numbers_and_items", 3),
    ("mc_serving_tests", "without_memory::lines_without_a_key_and_skipped_blocks", 1),
    ("mc_serving_tests", "without_memory::operations_on_a_present_key", 10),
    ("mc_serving_tests", "without_memory::rings_that_have_room", 4),
    ("mc_serving_tests", "without_memory::a_connection_whose_commands_are_taken", 8),
]

# What the program is run over: each command, and whether it takes memory. The keys are longer than those that take none.
A, C = b"a" * 39, b"c" * 39
COMMANDS = [
    (b"set %s 7 0 2\r\nhi\r\n" % A, True), (b"get %s b\r\n" % A, True), (b"append %s 0 0 1\r\ny\r\n" % A, True),
    (b"incr %s 1\r\n" % A, True), (b"ms %s 1 c\r\nz\r\n" % C, True), (b"mg %s v\r\n" % C, True), (b"get %s %s\r\n" % (C, C), True),
    (b"flush_all\r\n", True), (b"mn\r\n", False), (b"get a\r\n", False), (b"get %s\r\n" % A, True),
]
OPTIONS = ["--stdio", "--at", 1000, "--window", 1, "--shards", 2, "--bytes", 1024]
MEMORY_LINE = b"SERVER_ERROR out of memory\r\n"

# No test makes as many allocations as this: one that seems to never ends.
MOST = 5_000
SECONDS = 60
REFUSED = b"an allocation was refused"


@pytest.fixture(scope="module")
def refusing(tmp_path_factory):
    """What the environment has of the library that refuses, which is built from its C source."""
    made = tmp_path_factory.mktemp("shim") / "refuse_nth.so"
    subprocess.run(["cc", "-O1", "-shared", "-fPIC", "-o", made, TOP / "tools/checks/refuse_nth.c", "-ldl"], check=True)
    return {"LD_PRELOAD": str(made)}


def runs(program, test, refusing):
    """Runs the test with each allocation refused in turn, and returns how many it makes, or what failed."""
    for nth in range(1, MOST):
        environment = {**os.environ, **refusing, "REFUSE_NTH": str(nth)}
        ran = subprocess.run([program, test], capture_output=True, timeout=SECONDS, env=environment)
        if ran.returncode != 0:
            said = (ran.stdout + ran.stderr).decode(errors="replace").strip()
            return nth, f"fails with its allocation {nth} refused: {said[-300:]}"
        if REFUSED not in ran.stderr:
            return nth - 1, None
    return MOST, f"still allocates after {MOST} allocations"


def replies_to(commands, environment=None):
    """What the program answers to these commands, and how it ends: its status, and its messages."""
    ran = run(*OPTIONS, given=b"".join(commands) + b"quit\r\n", env=environment)
    return ran.stdout, ran.returncode, ran.stderr.replace(REFUSED + b"\n", b""), REFUSED in ran.stderr


def given_up(place):
    """What the program answers where the command of this place found no memory."""
    commands = [command for command, _ in COMMANDS]
    before = replies_to(commands[:place])[0]
    without = replies_to(commands[:place] + commands[place + 1 :])[0]
    return before + MEMORY_LINE + without.removeprefix(before)


def program_runs(refusing):
    """Runs the program with each allocation refused in turn, and returns how many it makes, or what failed."""
    wanted = {given_up(place): place for place, (_, takes) in enumerate(COMMANDS) if takes}
    whole = replies_to([it for it, _ in COMMANDS])[:3]
    met = [-1]
    for nth in range(1, MOST):
        found, status, errors, was_refused = replies_to([it for it, _ in COMMANDS], {**os.environ, **refusing, "REFUSE_NTH": str(nth)})
        if not was_refused:
            missed = sorted(set(wanted.values()) - set(met))
            fault = f"never meets a refusal at the commands {missed}" if missed else None
            return nth - 1, fault if (found, status, errors) == whole else f"answers {found!r:.200} with all allocations"
        if (found, status, errors) == whole:
            continue
        place = -1 if (found, status, errors) == (b"", 1, b"mcd: out of memory\n") else wanted.get(found)
        if place is None or place < met[-1] or place >= 0 and (status, errors) != (0, b""):
            return nth, f"ends with {status} and {errors!r:.80} and answers {found!r:.200} with its allocation {nth} refused"
        met.append(place)
    return MOST, f"still allocates after {MOST} allocations"


@pytest.mark.parametrize(("crate", "test", "least"), TESTS)
def test_one_allocation_is_refused(refusing, crate, test, least):
    count, fault = runs(TOP / f"crates/{crate}/out/{crate}_tests", test, refusing)
    assert fault is None
    assert count >= least


@pytest.mark.parametrize(("crate", "test", "least"), WITHOUT_MEMORY)
def test_all_allocations_are_refused_from_one_on(refusing, crate, test, least):
    test_one_allocation_is_refused({**refusing, "REFUSE_REST": "1"}, crate, test, least)


def test_the_program_answers_as_it_must(refusing):
    count, fault = program_runs(refusing)
    assert fault is None
    print(f"{count} allocations")
