#!/usr/bin/env python3
"""Proves the program with what it needs of the crates below it, builds it and starts it.

    tools/start.py [--jobs N] [-- OPTION ..]   the options are mcd's: -- --listen 127.0.0.1:11211, say
    tools/start.py --try                       compiles it before any proof, and shows its version

All is proved as the modules of two crates, a library and the program (two_crates.py), by N processes: one for each core, and for
4 GiB of memory, by default. A line shows how many functions of how many of a crate are checked. What was checked is
kept, so one that was stopped goes on where it was. Nothing is built that isn't proved: where something isn't, what the prover says
is shown, and nothing starts. The program is then crates/mcd/out/mcd, and while no file changes a later start begins at once.
"""
import argparse
import contextlib
import hashlib
import os
import re
import shutil
import subprocess
import sys
import time

from sources import LIST, TOP
from two_crates import TwoCrates

PROGRAM = "mcd"
OUT = TOP / "crates" / PROGRAM / "out"
ASIDE = OUT / "two"
MADE = ASIDE / "made"
BYTES_A_PROCESS = 4 * 1024**3

# How a line of `rt` begins and ends that shows how far it is; which of its lines, and how many, are shown where it fails.
SO_FAR, CHECKED = "so far: ", "functions checked"
FAULT = re.compile(r"error|not proved|killed|No space")
SHOWN = 40


def room():
    """How many processes there is room for on this machine."""
    memory = os.sysconf("SC_PAGE_SIZE") * os.sysconf("SC_PHYS_PAGES")
    return max(1, min(len(os.sched_getaffinity(0)), memory // BYTES_A_PROCESS))


def sum_of(crates):
    """A sum of all that the program is made of: the toolchain and each file."""
    total = hashlib.sha256(subprocess.run(["rt", "version"], capture_output=True, check=True).stdout)
    for name in crates.names:
        for place, text in crates.files(name).items():
            total.update(f"{name}/{place}\n{len(text)}\n{text}".encode())
    return total.hexdigest()


def minutes(seconds):
    return f"{int(seconds) // 60}:{int(seconds) % 60:02}"


@contextlib.contextmanager
def written(crates):
    """The folders of the crates, written aside. Their list of crates is removed again: `rt ci` accepts no second one in the repository."""
    try:
        yield crates.write(ASIDE)
    finally:
        (ASIDE / LIST).unlink(missing_ok=True)


def run(words, folder, begun, label):
    """Runs `rt` in the folder of a crate, and shows how far it is; whether it succeeded. If it didn't, what it said is shown."""
    said = []
    with subprocess.Popen(words, cwd=folder, stdout=subprocess.PIPE, stderr=subprocess.STDOUT, text=True, errors="replace") as rt:
        for line in map(str.rstrip, rt.stdout):
            said.append(line)
            if line.startswith(SO_FAR) and line.endswith(CHECKED):
                print(f"{minutes(time.monotonic() - begun)} {label}: {line.removeprefix(SO_FAR)}", flush=True)
    if rt.returncode:
        faults = [it for it in said if FAULT.search(it)] or said
        print(*faults[-SHOWN:], f"{PROGRAM} is not proved and built, so nothing starts", sep="\n")
    return rt.returncode == 0


def build(folders, jobs):
    """Proves the crates and builds the program; whether it is built."""
    begun = time.monotonic()
    for number, folder in enumerate(folders, 1):
        label = f"{folder.name}, crate {number} of {len(folders)}"
        print(f"{minutes(time.monotonic() - begun)} {label}, is proved by {jobs} processes", flush=True)
        words = ["run", "--jobs", str(jobs), "--", "--version"] if folder.name == PROGRAM else ["lib", "--jobs", str(jobs)]
        if not run(["rt", *words], folder, begun, label):
            return False
    (folders[-1] / "out" / PROGRAM).replace(OUT / PROGRAM)
    print(f"{minutes(time.monotonic() - begun)} all is proved, and {PROGRAM} is built", flush=True)
    return True


def main():
    parser = argparse.ArgumentParser(description=__doc__, formatter_class=argparse.RawDescriptionHelpFormatter)
    parser.add_argument("--jobs", type=int, default=room())
    parser.add_argument("--try", action="store_true", dest="tries")
    parser.add_argument("options", nargs="*")
    asked = parser.parse_args()
    if not shutil.which("rt"):
        sys.exit("there is no `rt` here, the command of the Rattle toolchain")
    crates = TwoCrates(PROGRAM)
    if asked.tries:
        with written(crates) as folders:
            return subprocess.run(["rt", "try", "--", "--version"], cwd=folders[-1]).returncode
    made = sum_of(crates)
    if not (OUT / PROGRAM).exists() or not MADE.exists() or MADE.read_text(encoding="utf-8") != made:
        with written(crates) as folders:
            if not build(folders, asked.jobs):
                return 1
        MADE.write_text(made, encoding="utf-8")
    os.execv(OUT / PROGRAM, [PROGRAM, *asked.options])


if __name__ == "__main__":
    sys.exit(main())
