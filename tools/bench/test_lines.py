"""Lines in memory, served by real threads (crates/mc_trials): each line takes just its replies, and each round ends; and the trials
that the program has print what they print on any number of cores.
"""
import os
import subprocess

import pytest

from tools.bench.lines import PROGRAM, SECONDS, TOP, run

LINES, COMMANDS, ROUNDS = 8, 125_000, 20


@pytest.mark.parametrize("number", range(ROUNDS))
def test_each_line_takes_its_replies(number):
    commands, seconds, _ = run("threads", LINES, 4, COMMANDS, 256)
    print(f"{commands} commands over {LINES} lines in {seconds:.2f} s")


def test_the_trials_on_one_core():
    one = str(min(os.sched_getaffinity(0)))
    ran = subprocess.run(["taskset", "-c", one, PROGRAM], capture_output=True, text=True, timeout=SECONDS)
    assert (ran.returncode, ran.stdout) == (0, (TOP / "crates/mc_trials/stdout").read_text())
