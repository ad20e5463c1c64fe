#!/usr/bin/env python3
"""Fails if a file of the repository depends on something outside it.

The repository must read whole to someone who has nothing else: no path of the machine that it was
written on, no folder beside the repository, and no rule cited by its number in a paper that the reader
doesn't have. Rules are restated where they are used, or under docs/.
"""
import pathlib
import re
import subprocess
import sys

TOP = pathlib.Path(__file__).resolve().parent.parent.parent
SELF = pathlib.Path(__file__).resolve()

# What may not be in a file, and what to report of it.
FORBIDDEN = [
    (re.compile(r"(?<![\w.~-])/(?:opt|work|tmp|root|home)/[a-z]"), "a path of a machine"),
    (re.compile(r"\.\./(?:\.\./)*(?:shared|\.library)\b"), "a folder beside the repository"),
    (re.compile(r"\b(?:scope|promises|requests|tables|protocol-corners|rattle-lessons)\.md\b"), "a paper that the reader doesn't have"),
    # `SpellsFront rules 0 ..`: by these rules, behind no command.
    (re.compile(r"\b(?!rules 0\b)(?:paper|demand|request|rule|corner|row|claim|issue|task|stage)s? #?\d+(?:\.\d+)*\b", re.I), "a rule by its number"),
    (re.compile(r"(?<!RFC \d{4}, )\bsections? \d+(?:\.\d+)*\b", re.I), "a section by its number (only of an RFC that is named, as in 'RFC 4648, section 4')"),
    (re.compile(r"\b(?:D1?\d|D2[01]|R1?\d\.\d|T[1-5])\b(?= |,|\.|:|\))"), "a rule by its number"),
]

# Data of tests and of stored runs is not prose.
DATA_FOLDERS = {"data"}
DATA_SUFFIXES = {".in", ".out", ".edit"}
DATA_NAMES = {"stdin", "stdout", "args", "status"}


def tracked_files():
    listed = subprocess.run(
        ["git", "ls-files", "-z", "--cached", "--others", "--exclude-standard"],
        cwd=TOP, check=True, capture_output=True,
    ).stdout
    return [TOP / name.decode() for name in listed.split(b"\0") if name]


def quoted_away(line):
    """The line without what is in quotes or backquotes: protocol examples may hold any text."""
    return re.sub(r'b?"[^"]*"|`[^`]*`', '""', line)


def main():
    faults = 0
    for path in tracked_files():
        if path == SELF or path.parent.name in DATA_FOLDERS or path.suffix in DATA_SUFFIXES or path.name in DATA_NAMES or not path.is_file():
            continue
        try:
            text = path.read_text(encoding="utf-8")
        except UnicodeDecodeError:
            continue
        for number, line in enumerate(text.splitlines(), 1):
            for pattern, what in FORBIDDEN:
                shown = line if "path" in what or "folder" in what or "paper" in what else quoted_away(line)
                if pattern.search(shown):
                    print(f"{path.relative_to(TOP)}:{number}: {what}: {line.strip()[:120]}")
                    faults += 1
    if faults:
        print(f"{faults} places depend on something outside the repository")
        return 1
    return 0


if __name__ == "__main__":
    sys.exit(main())
