#!/usr/bin/env python3
"""Draws how the crates depend on one another, from crates.txt, and checks that docs/ARCHITECTURE.md shows it so and names each.

    tools/checks/crates.py            prints the picture
    tools/checks/crates.py --write    puts it into docs/ARCHITECTURE.md
    tools/checks/crates.py --check    fails if that page has another picture, or has no row for a crate, or if a line of
                                      crates.txt lists a crate that no file of its crate names

A crate depends on those that an arrow leads to, and on all that these depend on; crates of the kit are left out. Each line is one
layer higher than what its crates depend on.
"""
import pathlib
import re
import sys

sys.path.insert(0, str(pathlib.Path(__file__).resolve().parents[2]))

from tools.sources import TOP, below, files, libraries, text_of  # noqa: E402

PAGE = TOP / "docs/ARCHITECTURE.md"
BEGIN, END = "<!-- tools/checks/crates.py -->\n", "<!-- end -->\n"


def read():
    """Each crate of the repository with those of the repository that its line names."""
    named = libraries()
    return {name: {it for it in its if it in named} for name, its in named.items()}


def unnamed():
    """The crates whose lines list a crate of the repository that no file of theirs names."""
    found = []
    for name, its in read().items():
        words = {word for it in files(crate=name) for word in re.findall(r"\bmc_\w+", text_of(it))}
        found += [f"{name} lists {it}, which it names nowhere: take it out of crates.txt" for it in sorted(its - words)]
    return found


def reduced(crates):
    """Each crate with those alone that it doesn't depend on by way of another."""
    return {name: sorted(it for it in its if not any(it in below(other, crates) for other in its)) for name, its in crates.items()}


def height(crates, name):
    return 1 + max((height(crates, it) for it in crates[name]), default=-1)


def picture():
    crates = read()
    dependencies = reduced(crates)
    layers = {}
    for name in sorted(crates):
        layers.setdefault(height(crates, name), []).append(name)
    lines = [f"{name} -> {', '.join(dependencies[name])}" if dependencies[name] else name for layer in sorted(layers, reverse=True) for name in layers[layer]]
    widest = max(len(line.split(" -> ")[0]) for line in lines)
    rows = [f"{line.split(' -> ')[0]:>{widest}}" + (f" ──> {line.split(' -> ')[1]}" if " -> " in line else "") for line in lines]
    return "```\n" + "\n".join(rows) + "\n```\n"


def main():
    if sys.argv[1:] not in ([], ["--write"], ["--check"]):
        sys.exit(__doc__)
    page = PAGE.read_text()
    head, _, rest = page.partition(BEGIN)
    drawn, _, tail = rest.partition(END)
    if sys.argv[1:] == ["--write"]:
        PAGE.write_text(head + BEGIN + picture() + END + tail)
    elif sys.argv[1:] == []:
        print(picture(), end="")
    else:
        rows = {name for line in page.splitlines() if line.startswith("| `") for name in re.findall(r"`(\w+)`", line.split("|")[1])}
        missing = sorted(set(read()) - rows)
        if unused := unnamed():
            print(*unused, sep="\n")
            return 1
        if drawn != picture() or missing:
            print("docs/ARCHITECTURE.md shows other crates than crates.txt: run tools/checks/crates.py --write",
                  *[f"and add a row for {name}" for name in missing], sep="\n")
            return 1
    return 0


if __name__ == "__main__":
    sys.exit(main())
