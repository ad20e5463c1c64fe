#!/usr/bin/env python3
"""Shows where the time of a check was spent, by the times of the files that it kept.

    tools/bench/proof_times.py CRATE [--rows N]    of a crate that `rt check --jobs 1` proved from nothing (rm -rf its out/ before)
    tools/bench/proof_times.py FOLDER [--rows N]   of what another check by one process kept in a folder

A check by one process writes a file for each part of a function as soon as it has judged it: its steps (Lts), its compiled form
(Mir, Code), that form and contract belong together (Tie), its layout, its proof. So a part took the time since the file before.
A small file after a long time begins a batch, which first reads what it needs; that is counted as reading. Named are the functions
whose proofs took longest: there a goal is searched for long, and an answer written out takes next to nothing.

`rt check` takes over what another copy of the repository on this machine has proved. Where there is one, use `rattle check` with an
`--incremental` folder of its own. An answer's own time is counted as Answers; after a run over few changes the times mean little.
"""
import argparse
import collections
import pathlib
import sys

sys.path.insert(0, str(pathlib.Path(__file__).resolve().parents[2]))

from tools.sources import TOP  # noqa: E402

ENDING, PROOF, READING = ".oantt", "Proof", "reading"
MIN_PARTS = 100

# What a check writes beside each file.
BESIDE = f"*.decls{ENDING}"

BYTES_OF_A_START, SECONDS_OF_A_START = 3000, 3.0


def kept_files(place):
    """The files that a check kept, in the order in which they were written."""
    folder = TOP / "crates" / place / "out" / "incremental"
    files = [it for it in (folder if folder.is_dir() else pathlib.Path(place)).rglob(f"*{ENDING}") if not it.match(BESIDE)]
    return sorted((it.stat().st_mtime, it.stat().st_size, it.name.removesuffix(ENDING)) for it in files)


def parts(files):
    """Of each file but the first: its name, its seconds and its bytes."""
    for (before, _, _), (written, size, name) in zip(files, files[1:]):
        yield name, written - before, size


def main():
    parser = argparse.ArgumentParser(description=__doc__, formatter_class=argparse.RawDescriptionHelpFormatter)
    parser.add_argument("place")
    parser.add_argument("--rows", type=int, default=20)
    asked = parser.parse_args()
    files = kept_files(asked.place)
    if len(files) < MIN_PARTS:
        sys.exit(f"{asked.place}: no check has kept anything there")
    seconds, size, proofs = collections.Counter(), collections.Counter(), []
    for name, took, length in parts(files):
        library, *path = name.split(".")
        begins = length < BYTES_OF_A_START and took > SECONDS_OF_A_START
        kind = READING if begins else path[-1] if path and library.endswith("-proofs") else "definitions"
        seconds[kind] += took
        size[kind] += length
        if kind == PROOF:
            proofs.append((took, ".".join(path[:-1])))
    print("seconds  megabytes")
    for kind, took in seconds.most_common(asked.rows):
        print(f"{took:7.1f} {size[kind] / 1e6:10.1f}  {kind}")
    print("\nthe longest proofs, in seconds")
    for took, name in sorted(proofs, reverse=True)[: asked.rows]:
        print(f"{took:7.2f}  {name}")


if __name__ == "__main__":
    main()
