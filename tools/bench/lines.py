#!/usr/bin/env python3
"""Loads of lines in memory, served by real threads and by a single one: commands a second, and processor time a command.

    tools/bench/lines.py [ROUNDS]         the figures, medians of ROUNDS rounds (5 by default)

The program is crates/mc_trials/out/mc_trials, as `rt ci` or `cd crates/mc_trials && rt run` builds it. Nine of ten commands
are gets that hit, the others sets; values have 32 bytes. A batch is what one read returns: 256 commands, or one at a time. The
time is that between the first command and the last reply, threads' start and end with it; the processor time is that of the
whole process meanwhile, by proc_pid_stat(5), in steps of 10 ms.
"""
import pathlib
import statistics
import subprocess
import sys

TOP = pathlib.Path(__file__).resolve().parent.parent.parent
PROGRAM = TOP / "crates/mc_trials/out/mc_trials"

# How long a load may take: one that stops never ends by itself.
SECONDS = 300

LINES, SHARDS, BATCHES = (1, 2, 4, 8), (1, 2, 4), (256, 1)

# How many commands a load has in all: fewer if each waits for the reply before it.
COMMANDS = {256: 1_000_000, 1: 200_000}

# The clock ticks of a second by which the system counts processor time.
TICKS = 100


class Wrong(Exception):
    """A load did not end, or some line did not take its replies."""


def ticks(stat):
    """The processor time of a process, by the system's line on it: what it spent itself and what the system spent for it."""
    fields = stat.rpartition(")")[2].split()
    return int(fields[11]) + int(fields[12])


def run(*words):
    """Serves one load. Returns its commands, and the seconds and the processor's seconds that it took."""
    try:
        ran = subprocess.run([PROGRAM, *map(str, words)], capture_output=True, text=True, timeout=SECONDS)
    except subprocess.TimeoutExpired:
        raise Wrong(f"{words}: no end after {SECONDS} s") from None
    figures = dict(line.split(" ", 1) for line in ran.stdout.splitlines() if " " in line)
    if ran.returncode != 0 or figures.get("wrong") != "0":
        raise Wrong(f"{words}: {ran.stdout[:200]}{ran.stderr[:200]}")
    spent = (ticks(figures["after"]) - ticks(figures["before"])) / TICKS
    return int(figures["commands"]), int(figures["nanoseconds"]) / 1e9, spent


def row(rounds, name, *words):
    """Prints the medians of some rounds of one load."""
    ran = [run(*words) for _ in range(rounds)]
    rate = statistics.median(commands / seconds for commands, seconds, _ in ran)
    spent = statistics.median(spent / commands for commands, _, spent in ran)
    print(f"| {name} | {rate:,.0f} | {1e6 / rate:.2f} | {1e6 * spent:.2f} |", flush=True)


def figures(rounds):
    print("| load | commands a second | µs a command | processor µs a command |\n|---|---|---|---|")
    for batch in BATCHES:
        kind = f"{batch} a read" if batch > 1 else "one at a time"
        commands = COMMANDS[batch]
        for shards in SHARDS:
            row(rounds, f"alone, {shards} shards, {kind}", "alone", shards, commands, batch)
        for lines in LINES:
            for shards in SHARDS:
                row(rounds, f"{lines} lines, {shards} shards, {kind}", "threads", lines, shards, commands // lines, batch)


def main():
    if not PROGRAM.is_file():
        sys.exit(f"{PROGRAM} is not built: `cd crates/mc_trials && rt run`")
    figures(*map(int, sys.argv[1:] or [5]))


if __name__ == "__main__":
    main()
