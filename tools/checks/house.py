#!/usr/bin/env python3
"""Checks six rules of lemmas, imports and documents.

    tools/checks/house.py            fails if a rule is broken, and names each place (the gate does this)
    tools/checks/house.py --counts   how many clauses and lemmas there are, crate by crate

1. A lemma that another file cites has a comment directly above it, which says in a sentence what it says.
2. Something cites each lemma, but for worked rows and those inside a block (`module _ .. where`).
3. No two lemmas say the same.
4. A file uses each definition and lemma that it imports.
5. No crate but those of tests makes a source of random bytes: no clause says where a secret is drawn from, so there is one source only.
6. A paragraph of the documents (a line outside tables and blocks of code) has at most 600 characters.

The width of lines is checked by width.py.
"""
import argparse
import collections
import pathlib
import re
import sys

sys.path.insert(0, str(pathlib.Path(__file__).resolve().parents[2]))

from tools.sources import COMMENT, CRATES, TOP, clause_spans, files, imports, text_of, without_comments  # noqa: E402

CHARACTERS = 600
TACTIC = re.compile(r"\bproofs(?:::\w+)*::([\w-]+)")
LEMMA = re.compile(r" *pub (?:(?:unfoldable|abbrev) )?([^\s:(){}]+) :|(?:unfoldable|abbrev) pub ([^\s:(){}]+) :")
HEAD = re.compile(r"^(?:unfoldable |abbrev )?(?:pub )?(?:unfoldable |abbrev )?([^\s:(){}]+) :", re.M)
STATED = re.compile(r"^(?:pub )?([^\s:(){}]+) : (.*\n(?:[ \t]+.*\n)*)", re.M)
BOUND = re.compile(r"[({]([^(){}:]+) :|λ ([^.()]+)\.")
# A line that imports anything.
IMPORTING = re.compile(r"^(?:pub(?:\(\w+\))? )?(?:ghost )?use [^;\n]*?(?:;|\n|\{[^}]*\};?)", re.M)
SEPARATORS = re.compile(r"[\s(){}\[\],;.:]+")
WORKED_ROWS = re.compile(r"Rows|Corners|Crossing")
DOCUMENTS = ["docs/*.md", "README.md", "CONTRIBUTING.md", "tools/README.md"]
# These answer what the prover asks of one function: their names are its own.
ANSWERS = {"Proof.antt", "Invariants.antt", "Answers.antt"}


def crate_of(file):
    """The name of the crate that a file is of."""
    return file.relative_to(CRATES).parts[0]


def clauses():
    """The crate of each clause."""
    for file in files("src"):
        yield from (crate_of(file) for _ in clause_spans(text_of(file).splitlines()))


def cited():
    """The names that other files import, with their modules, and those that a tactic names."""
    names, by_tactics = set(), set()
    for file in files("proofs"):
        names |= {(module, there) for _, module, there, _ in imports(text_of(file))}
    for file in files("src"):
        by_tactics |= set(TACTIC.findall(text_of(file)))
    return names, by_tactics


def lemmas():
    """The lemmas that other files cite: the file, the line, the name, and whether a sentence is above it."""
    names, by_tactics = cited()
    for file in files("proofs"):
        if file.name in ANSWERS:
            continue
        crate, _, *path = file.relative_to(CRATES).with_suffix("").parts
        module = ".".join(["Rattle", crate, "proofs", *path])
        lines = text_of(file).splitlines()
        for number, line in enumerate(lines):
            if found := LEMMA.match(line):
                name = found[1] or found[2]
                if (module, name) in names or name in by_tactics:
                    yield file, number + 1, name, number > 0 and lines[number - 1].lstrip().startswith("--")


def is_of_lemmas(file):
    """Whether a file has lemmas that are stated for others: not answers to the prover, and not worked rows."""
    return file.suffix == ".antt" and "specs" not in file.parts and file.name not in ANSWERS and not WORKED_ROWS.search(file.stem)


def uncited():
    """The lemmas that nothing cites, but for worked rows: the file, the line and the name."""
    texts = {file: without_comments(file) for file in files()}
    words = collections.Counter(word for said in texts.values() for word in SEPARATORS.split(said))
    for file, text in texts.items():
        if not is_of_lemmas(file):
            continue
        # a lemma's own lines begin with its name, but for the first, which may say before it how it is seen
        own = collections.Counter(re.findall(r"^(?:(?:pub|abbrev|unfoldable) )*([^\s:(){}]+)", text, re.M))
        for found in HEAD.finditer(text):
            if words[found[1]] <= own[found[1]]:
                yield file, text.count("\n", 0, found.start()) + 1, found[1]


def without_names(statement):
    """What a lemma says, with numbers for the names that it binds."""
    names = dict.fromkeys(name for found in BOUND.finditer(statement) for name in (found[1] or found[2]).split())
    for number, name in enumerate(names):
        statement = re.sub(rf"(?<![\w.'-]){re.escape(name)}(?![\w'-])", f"#{number}", statement)
    return " ".join(statement.split())


def stated_twice():
    """The lemmas that say what another one says: the file, the line, the name, and the other."""
    said = {}
    for file in filter(is_of_lemmas, files("proofs")):
        text = without_comments(file)
        for found in STATED.finditer(text):
            other = said.setdefault(without_names(found[2]), f"{found[1]} of {file.relative_to(CRATES)}")
            if other != f"{found[1]} of {file.relative_to(CRATES)}":
                yield file, text.count("\n", 0, found.start()) + 1, found[1], other


def is_used(name, text):
    """Whether a text has a name; of an operator, the signs between what it joins."""
    if "◌" in name or name == "[]":
        return all(part in text for part in name.split("◌"))
    return bool(re.search(rf"(?<![\w'-]){re.escape(name)}(?![\w'-])", text))


def unused_imports():
    """The definitions and lemmas that a file imports and doesn't use: the file, the line and the name."""
    for file in files():
        text = text_of(file)
        rest = COMMENT.sub("", IMPORTING.sub("", text))
        for start, _, _, name in imports(text):
            if not text.startswith("pub", start) and not is_used(name, rest):
                yield file, text.count("\n", 0, start) + 1, name


def sources():
    """The sources of random bytes that are no test's: the file and the line."""
    for file in files("src"):
        text = text_of(file)
        for found in re.finditer(r"\bRandomSource\s+for\b", text):
            if not crate_of(file).endswith("_tests"):
                yield file, text.count("\n", 0, found.start()) + 1


def paragraphs():
    """The paragraphs of the documents: the file, the line, and the text."""
    for file in [file for pattern in DOCUMENTS for file in sorted(TOP.glob(pattern))]:
        is_code = False
        for number, line in enumerate(text_of(file).splitlines(), 1):
            if line.lstrip().startswith("```"):
                is_code = not is_code
            elif line and not is_code and not line.lstrip().startswith("|"):
                yield file, number, line


def findings():
    """How many clauses and lemmas each crate has, and the places where a rule is broken."""
    counts, faults = collections.defaultdict(lambda: [0, 0]), []
    for crate in clauses():
        counts[crate][0] += 1
    for file, number, name, is_explained in lemmas():
        counts[crate_of(file)][1] += 1
        if not is_explained:
            faults.append(f"{file.relative_to(TOP)}:{number}: {name} is cited elsewhere, and no sentence is above it")
    for file, number, name in uncited():
        faults.append(f"{file.relative_to(TOP)}:{number}: nothing cites {name}")
    for file, number, name, other in stated_twice():
        faults.append(f"{file.relative_to(TOP)}:{number}: {name} says what {other} says")
    for file, number, name in unused_imports():
        faults.append(f"{file.relative_to(TOP)}:{number}: imports {name}, which nothing there uses")
    for file, number in sources():
        faults.append(f"{file.relative_to(TOP)}:{number}: a source of random bytes, outside the crates of tests")
    for file, number, line in paragraphs():
        if len(line) > CHARACTERS:
            faults.append(f"{file.relative_to(TOP)}:{number}: a paragraph of {len(line)} characters, of {CHARACTERS} at most")
    return counts, faults


def main():
    parser = argparse.ArgumentParser(description=__doc__, formatter_class=argparse.RawDescriptionHelpFormatter)
    parser.add_argument("--counts", action="store_true")
    counts, faults = findings()
    if parser.parse_args().counts:
        for crate, (of_clauses, of_lemmas) in sorted(counts.items()):
            print(f"{crate}: {of_clauses} clauses, {of_lemmas} lemmas that other files cite")
    for fault in faults:
        print(fault)
    return 1 if faults else 0


if __name__ == "__main__":
    sys.exit(main())
