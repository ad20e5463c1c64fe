#!/usr/bin/env python3
"""Checks that no line is too wide: of definitions and lemmas (.antt) 120 columns, of a clause in the code (.rt) 100.

    tools/checks/width.py            fails if a line is wider, and names each
    tools/checks/width.py --write    breaks such lines first, and lays their files out by the kit's formatter
    tools/checks/width.py .. TREE    of another copy of the repository

A line is broken where the fewest brackets are open: behind the sign of a definition, before an arrow, between terms. What is in a
list of its own then has a line for each of its parts. An import of many names becomes several of the same module. A break that the
formatter refuses, or by which the words of a file would change, isn't made.
"""
import argparse
import concurrent.futures
import pathlib
import re
import shutil
import subprocess
import sys

sys.path.insert(0, str(pathlib.Path(__file__).resolve().parents[2]))

from tools.sources import clause_spans  # noqa: E402

TOP = pathlib.Path(__file__).resolve().parent.parent.parent
COLUMNS = {".antt": 120, ".rt": 100}
OPEN, CLOSE = "([{", ")]}"
SIGN = re.compile(r'"(?:[^"\\]|\\.)*"|\S')
# Before these a line begins best, and behind those it ends best: in a clause of the code the signs end the line.
SIGNS = ["→", "×", "⊎", "∙", "++", "≡", "↔"]
BEFORE = ["| ", *(f"{it} " for it in SIGNS)]
BEHIND = [" in", " ↦"]
LISTED = (";", ",")
NEAREST = 24


def formatter():
    return pathlib.Path(shutil.which("rt") or "rt").resolve().parent / "rattle"


def clause_lines(lines):
    """The numbers of the lines of a source that are a clause's, from 0."""
    return {number for first, end in clause_spans(lines) for number in range(first, end)}


def wide(file, text):
    """The numbers of the lines that are too wide, from 0."""
    lines = text.split("\n")
    if file.suffix == ".antt":
        return [n for n, line in enumerate(lines) if len(line) > COLUMNS[".antt"] and not is_text(line, COLUMNS[".antt"])]
    # the layout keeps what a field promises and its proof on one line
    return [n for n in sorted(clause_lines(lines)) if len(lines[n].partition(" by {")[0]) > COLUMNS[".rt"]]


def is_text(line, columns):
    """Whether a line is a text in quotes, with at most what follows its end, or the import of one name: neither can be broken."""
    found = re.match(r' *(?:codes )?"(?:[^"\\]|\\.)*"\S*|use [^,]*\{[^,]*\}', line)
    return bool(found) and found[0] == line.rstrip() and len(line) > columns


def places(line, columns, is_clause):
    """Where a line may be broken, the best place first: the numbers of the spaces."""
    indent = len(line) - len(line.lstrip())
    depth, quoted, found, opened = 0, False, [], []
    for at, sign in enumerate(line):
        if sign == '"':
            quoted = not quoted
        if quoted:
            continue
        if line.startswith(" -- ", at):
            break
        if sign in OPEN:
            depth += 1
            opened.append(at)
        elif sign in CLOSE:
            depth -= 1
            if opened:
                opened.pop()
        elif sign == " " and at > indent and line[at + 1 :].strip():
            before, behind = line[:at], line[at + 1 :]
            # not between a name and its type, nor behind a bracket or before one that closes
            if before.rstrip().endswith(("λ", "(", "[", "use", "pub", "abbrev", "record", "let", "elim", "rw", "at", "ghost", "ensures", "requires")):
                if not before.rstrip().endswith(("(", "[")):
                    continue
            if behind[0] in "{)]},;:." and not (behind[0] == "{" and not before.endswith("record")):
                continue
            if is_clause:
                is_good = before.endswith(tuple(f" {it}" for it in SIGNS))
            else:
                is_good = before.endswith((*BEHIND, " =") if depth <= 0 else tuple(BEHIND)) or behind.startswith(tuple(BEFORE))
            rank = 0 if depth > 0 and before.endswith(LISTED) else 1 if is_good else 2
            is_head = before.endswith(" =") and depth <= 0 and not line.lstrip().startswith(("let ", "pub let"))
            is_near = at - indent < NEAREST and not is_head
            found.append((at > columns, is_near and at <= columns, max(depth, 0), not is_head, rank, -at if at <= columns else at, at))
    return [it[-1] for it in sorted(found)]


def imported(line, columns):
    """An import of many names, as several lines."""
    head, _, rest = line.partition("{")
    names, _, tail = rest.partition("}")
    out, kept = [], []
    for name in [it.strip() for it in names.split(",") if it.strip()]:
        if kept and len(f"{head}{{{', '.join([*kept, name])}}}{tail}") > columns:
            out.append(f"{head}{{{', '.join(kept)}}}{tail}")
            kept = []
        kept.append(name)
    return [*out, f"{head}{{{', '.join(kept)}}}{tail}"]


def filled(lines):
    """The lines of a file, whose comments keep to the width: what a wide line says goes on to the end of its sentence or of the comment."""
    out, number = [], 0
    while number < len(lines):
        head = re.match(r" *--(?= )", lines[number])
        if not head or len(lines[number]) <= COLUMNS[".antt"]:
            out.append(lines[number])
            number += 1
            continue
        said = lines[number][head.end() :].split()
        while not said[-1].endswith((".", ":")) and number + 1 < len(lines) and lines[number + 1].startswith(head[0] + " "):
            number += 1
            said += lines[number][head.end() :].split()
        number, kept = number + 1, ""
        for word in said:
            if kept and len(f"{head[0]} {kept} {word}") > COLUMNS[".antt"]:
                out.append(f"{head[0]} {kept}")
                kept = word
            else:
                kept = f"{kept} {word}".strip()
        out.append(f"{head[0]} {kept}")
    return out


def split(line, columns, tried, is_antt):
    """The lines that a wide line becomes, or None if there is no place to break it that wasn't tried."""
    text = line.strip()
    if is_antt and text.startswith("--"):
        return None
    if is_antt and re.match(r"(?:pub )?use .*\.\{[^}]*\}$", text):
        return imported(line, columns) if tried.get(text, 0) == 0 else None
    of = places(line, columns, not is_antt)
    number = tried.get(text, 0)
    if number >= min(len(of), 12):
        return None
    at, indent = of[number], len(line) - len(line.lstrip())
    return [line[:at].rstrip(), " " * (indent + 4) + line[at + 1 :].lstrip()]


def words(text):
    """The words of a file: of its imports, each name by itself; of its comments; and of its code, without what a layout adds to lists."""
    listed = re.findall(r"^ *(?:pub )?(?:ghost )?use (\S+?)\{([^}]*)\}", text, re.M)
    names = sorted(f"{path}{name.strip()}" for path, named in listed for name in named.split(",") if name.strip())
    text = re.sub(r"^ *(?:pub )?(?:ghost )?use \S+?\{[^}]*\};?\n", "", text, flags=re.M)
    comments = [it for line in re.findall(r"^ *--(.*)", text, re.M) for it in line.split()]
    found = SIGN.findall(re.sub(r"^ *--.*", "", text, flags=re.M))
    found = [it for n, it in enumerate(found) if not (it in ",;" and n + 1 < len(found) and found[n + 1] in CLOSE)]
    return names, comments, [it for n, it in enumerate(found) if not (it == "|" and n and found[n - 1] == "[")]


def laid_out(file, text, program):
    """The text in the formatter's layout; or None and the line that it refuses."""
    file.write_text(text, encoding="utf-8")
    ran = subprocess.run([program, "fmt", "--write", file], capture_output=True, text=True, check=False)
    if ran.returncode == 0:
        return file.read_text(encoding="utf-8"), None
    at = re.search(r":(\d+):\d+:", ran.stdout + ran.stderr)
    return None, int(at[1]) - 1 if at else 0


def narrow(file, program):
    """Breaks the wide lines of a file; whether any is left."""
    begin = text = file.read_text(encoding="utf-8")
    is_antt, columns, tried, wanted = file.suffix == ".antt", COLUMNS[file.suffix], {}, words(text)
    if is_antt:
        text = "\n".join(filled(text.split("\n")))
    for _ in range(60):
        lines, out, broken = text.split("\n"), [], []
        for number, line in enumerate(lines):
            made = split(line, columns, tried, is_antt) if number in set(wide(file, text)) else None
            if made and made != [line]:
                broken.append((len(out), len(out) + len(made), line.strip()))
                out += made
            else:
                out.append(line)
        if not broken:
            break
        new, refused = laid_out(file, "\n".join(out), program)
        if new is None or words(new) != wanted:
            # the break nearest above the line that is refused is the one to make elsewhere
            near = [it for it in broken if new is None and it[0] <= refused + 1] or broken
            for _, _, line in near[-1:] if new is None else broken:
                tried[line] = tried.get(line, 0) + 1
            continue
        for _, _, line in broken:
            # what the layout joined again is broken elsewhere the next time
            if any(it.strip() == line for it in new.split("\n")):
                tried[line] = tried.get(line, 0) + 1
        text = new
    file.write_text(text if words(text) == wanted else begin, encoding="utf-8")
    return bool(wide(file, text))


def sources(top):
    for pattern in "crates/*/specs/**/*.antt", "crates/*/proofs/**/*.antt", "crates/*/src/**/*.rt":
        yield from sorted(top.glob(pattern))


def main():
    parser = argparse.ArgumentParser(description=__doc__, formatter_class=argparse.RawDescriptionHelpFormatter)
    parser.add_argument("tree", nargs="?", default=TOP, type=pathlib.Path)
    parser.add_argument("--write", action="store_true")
    asked = parser.parse_args()
    files = [it for it in sources(asked.tree) if wide(it, it.read_text(encoding="utf-8"))]
    if asked.write:
        with concurrent.futures.ThreadPoolExecutor(3) as pool:
            list(pool.map(lambda it: narrow(it, formatter()), files))
    count = 0
    for file in files:
        text = file.read_text(encoding="utf-8")
        for number in wide(file, text):
            count += 1
            print(f"{file.relative_to(asked.tree)}:{number + 1}: a line of {len(text.splitlines()[number])} columns, of {COLUMNS[file.suffix]} at most")
    return 1 if count else 0


if __name__ == "__main__":
    sys.exit(main())
