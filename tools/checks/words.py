#!/usr/bin/env python3
"""Fails if a document, a comment or a text of Python uses a word for which the field has a better one.

    tools/checks/words.py          checks the documents in PLAIN, the comments of all crates but those in LEFT, and the files in TOOLS
    tools/checks/words.py FILE ..  checks these files

Of documents only prose is checked, without `code` and without blocks of code. Of sources (.rt, .antt) and scripts the comments are
checked, those on lines of their own; of Python the comments, the doc strings, the texts of several words, and the names that are
defined. A comment or a doc string must not begin with "The same", which a generated page would show without its context.
"""
import ast
import io
import pathlib
import re
import sys
import tokenize

TOP = pathlib.Path(__file__).resolve().parent.parent.parent

# The documents that are held to the list. docs/TRUSTED.md has the comments of the definitions, which are checked where they are.
PLAIN = [
    "README.md", "CONTRIBUTING.md", "tools/README.md", "docs/PROTOCOL.md", "docs/OPERATING.md", "docs/CLIENTS.md", "docs/REPLAY.md",
    "docs/PROOFS.md", "docs/ARCHITECTURE.md", "docs/BENCHMARKS.md", "docs/SECURITY.md", "docs/SCALING.md", "docs/DECISIONS.md",
    "packaging/mcd.1",
]

# The crates whose comments aren't held to the list yet.
LEFT: list[str] = []

# Python, scripts and programs in C.
TOOLS = ["*.py", "tools/**/*.py", "packaging/*.py", "tools/**/*.p[hl]*", "tools/**/*.c", "packaging/mcd.[bds]*", "packaging/deb",
         "packaging/oci", "packaging/scripts/*"]

# What not to write, and what to write for it.
BETTER = {
    r"tells?|told|telling": "report, return, show, notify, log",
    r"lets? go|letting go": "drop, free",
    r"stands?(?! (?:in )?for\b)|stood|standing": "is, depends on",
    r"goes(?! (?:out|back|on|into))": "is evicted, expires, is deleted, is removed, returns",
    r"who(?:ever)? runs": "operator",
    r"where nothing is said|where it isn't said": "by default",
    r"a hundredth": "p99",
    r"reckon(?:s|ed|ing)?": "calculate, estimate",
    r"for good": "permanently, forever",
    r"anew|afresh": "again",
    r"looks? in vain": "spin",
    r"was (?:wanted|asked for)": "(say what holds)",
    r"by (?:its|the server's|our) own rules": "natively, by native rules",
    r"rous(?:e|es|ed|ing)": "wake",
}

# What is right in a lemma, of functions and numbers, and nowhere else.
BETTER_IN_TEXT = {
    r"gives": "return, assign, make, send, have",
    r"lies|lay": "is",
    r"wants": "need, require",
    r"whoever": "the caller, the client, the thread that",
    r"(?:bytes?|words?|nothing|text|line end|index|colon) behind (?:it|them|the|a|another)": "after",
}

# What not to begin a comment with.
BEGINNINGS = {r"(?<!.)the same": "say what it is"}

# What a comment on a line of its own begins with.
SIGNS = {".rt": "//[/!]?", ".antt": "--", ".php": "//"}

# Exceptions: the file, a piece of the line, and why.
RIGHT: list[tuple[str, str, str]] = [
    ("packaging/test_packaging.py", "/multi-user.target.wants/", "a folder of systemd"),
]

# What has the words themselves.
HERE = "tools/checks/words.py"


def prose(text):
    """The lines of a document that are prose, without their code."""
    in_code = False
    for number, line in enumerate(text.splitlines(), 1):
        if line.startswith("```"):
            in_code = not in_code
        elif not in_code:
            yield number, re.sub(r"`[^`]*`|\[[^\]]*\]\([^)]*\)", "", line)


def comments(text, sign):
    """The comments of a source, each in one line without its code, with the number of its first line."""
    kept = None
    for number, line in enumerate([*text.splitlines(), ""], 1):
        found = re.match(rf"\s*({sign})( .*)?$", line)
        if kept and not (found and found[1] == kept[1]):
            yield kept[0], in_one_line(kept[2])
            kept = None
        if found:
            kept = kept or (number, found[1], [])
            kept[2].append((found[2] or "").strip())


def in_one_line(lines):
    """These lines as one, without their code."""
    return re.sub(r"`[^`]*`", "", " ".join(lines)).strip()


def explained(text):
    """The comments and the doc strings of a Python module, with the numbers of their first lines."""
    yield from comments(text, "#")
    for token in tokenize.generate_tokens(io.StringIO(text).readline):
        if token.type == tokenize.COMMENT and token.line[: token.start[1]].strip():
            yield token.start[0], in_one_line([token.string.lstrip("# ")])
    for node in ast.walk(ast.parse(text)):
        if isinstance(node, (ast.Module, ast.ClassDef, ast.FunctionDef)) and (said := ast.get_docstring(node)):
            yield node.body[0].lineno, in_one_line(said.splitlines())


def written(text):
    """The texts of several words in a Python module, and the names that it defines, as words."""
    for node in ast.walk(ast.parse(text)):
        if isinstance(node, (ast.ClassDef, ast.FunctionDef)):
            yield node.lineno, node.name.replace("_", " ")
        elif isinstance(node, ast.arg):
            yield node.lineno, node.arg.replace("_", " ")
        elif isinstance(node, ast.Name) and isinstance(node.ctx, ast.Store):
            yield node.lineno, node.id.replace("_", " ")
        elif isinstance(node, ast.Constant) and isinstance(node.value, str) and " " in node.value:
            yield node.lineno, in_one_line(node.value.splitlines())


def commented(text):
    """The comments of a program in C."""
    for found in re.finditer(r"/\*(.*?)\*/", text, re.S):
        yield text.count("\n", 0, found.start()) + 1, in_one_line(found[1].splitlines())


def sources():
    """The sources of the crates that aren't in LEFT, and the files in TOOLS."""
    for crate in sorted((TOP / "crates").iterdir()):
        for folder, ending in ("src", "rt"), ("specs", "antt"), ("proofs", "antt"):
            if crate.name not in LEFT:
                yield from sorted(str(it.relative_to(TOP)) for it in (crate / folder).rglob(f"*.{ending}"))
    for pattern in TOOLS:
        yield from sorted(str(it.relative_to(TOP)) for it in TOP.glob(pattern))


def pieces(name):
    """What is checked of a file, with numbers of lines."""
    text, ending = (TOP / name).read_text(encoding="utf-8"), pathlib.Path(name).suffix
    if ending == ".py":
        return [*explained(text), *(written(text) if name != HERE else [])]
    if ending in SIGNS:
        return comments(text, SIGNS[ending])
    if ending == ".c":
        return commented(text)
    return prose(text) if ending in (".md", ".1") else comments(text, "#")


def words_for(name):
    """The words that are checked in a file."""
    more = {} if name.endswith(".antt") else BETTER_IN_TEXT
    return BETTER | more | (BEGINNINGS if name.endswith((".rt", ".antt", ".py")) else {})


def faults(name):
    for number, line in pieces(name):
        for word, better in words_for(name).items():
            for found in re.finditer(rf"\b(?:{word})\b", line, re.I):
                if not any(name == file and piece in line for file, piece, _ in RIGHT):
                    yield f"{name}:{number}: `{found[0]}`: {better}"


def unused():
    """The exceptions that excuse nothing any more."""
    for file, piece, _ in RIGHT:
        if not any(piece in line for _, line in pieces(file)):
            yield f"{HERE}: nothing in {file} has \"{piece}\""


def main():
    found = [it for name in sys.argv[1:] or [*PLAIN, *sources()] for it in faults(name)]
    found += [] if sys.argv[1:] else unused()
    print(*found, sep="\n", end="\n" if found else "")
    return 1 if found else 0


if __name__ == "__main__":
    sys.exit(main())
