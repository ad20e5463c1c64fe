#!/usr/bin/env python3
"""Fails if a document names a file, a heading or an option of mcd that doesn't exist, or code a record of docs/DECISIONS.md.

    tools/checks/links.py          checks README.md, CONTRIBUTING.md, tools/README.md and docs/*.md, and the citations of all files
    tools/checks/links.py FILE ..  checks these documents

A file is named by a link, by its path or name in `code` or in a block of code, or as NAME.md in prose. Paths begin at the top of the
repository, beside the document, or in a crate's folder (../../); what a build makes (out/) isn't looked for. In the documents
for developers the names of functions and types in `code` are looked for in the sources. A heading is named by
the anchor of a link, or in quotes after a document's name. The options of a command that runs mcd are compared with those that have
a text in its help.
"""
import functools
import pathlib
import re
import subprocess
import sys

TOP = pathlib.Path(__file__).resolve().parent.parent.parent
PAGES = sorted((TOP / "docs").glob("*.md"))
DOCUMENTS = ["README.md", "CONTRIBUTING.md", "tools/README.md", *(f"docs/{it.name}" for it in PAGES)]
CODE = re.compile(r"^```[^\n]*\n(.*?)^```|`([^`\n]+)`", re.M | re.S)
LINK = re.compile(r"\]\((?!\w+:)([^)#\s]*)(?:#([^)\s]+))?\)")
NAMED = re.compile(r"(?<![\w/.-])(?:[\w.-]+/)*[A-Z_]+\.md(?![\w/])")
QUOTED = re.compile(r"((?:[\w-]+/)*[A-Z_]+\.md), \"([^\"]+)\"")
# The name of a source, without its folder.
SOURCE = re.compile(r"[a-z]\w*\.(?:py|php|pl|rt|antt|c)")
# A file of a user's own application, and a word of the kit's.
FOREIGN = {"settings.py", "start_lib"}
# The documents whose names of functions and types are looked for in the sources, and such a name.
DEVELOPERS = ["README.md", "CONTRIBUTING.md", "tools/README.md", "docs/ARCHITECTURE.md", "docs/DECISIONS.md", "docs/PROOFS.md"]
NAME = re.compile(r"(?<![\w-])[A-Za-z]\w*(?:_\w+|[a-z][A-Z]\w*)(?![\w*-])")
SOURCES = {".rt", ".antt", ".py", ".c", ".php", ".pl", ".txt", ".edit"}
# A record of docs/DECISIONS.md, and where one is cited, perhaps in a comment of several lines.
RECORD = re.compile(r"^- \*\*([A-Z]\d+)\.", re.M)
CITED = re.compile(r"DECISIONS\.md,(?:\s|//[/!]?|--|#)*([A-Z]\d+)\b")
# Words in a path that hold the place of any name.
ANY = re.compile(r"\b(NAME|MODULE|FUNCTION|CRATE|WHAT_IT_DOES)\b")
# An option of the help: its name, its letter if it has one, and its text, which isn't empty.
OPTION = re.compile(r'\(\s*"([a-z-]+)",\s*(?:None|Some\(\'(\w)\'\)),\s*"[^"]*",\s*"[^"]')
COMMAND = re.compile(r"(?:^|[\s/])(?:mcd|tools/start\.py --) ((?:[^\n|;&#`]|\\\n)*)", re.M)


def there(document, path):
    """Whether a path leads to a file, from the top of the repository or from the document; behind `::`, to a test in it."""
    pattern, _, test = ANY.sub("*", path).removeprefix("../../").rstrip("/").partition("::")
    found = [it for folder in (TOP, document.parent) for it in folder.glob(pattern)]
    return any(f"def {test}(" in it.read_text(encoding="utf-8") for it in found) if test else bool(found)


def is_path(document, word):
    """Whether a word of code is a path of the repository that no build makes."""
    first, slash, rest = word.partition("/")
    in_folder = any((it / first).is_dir() for it in (TOP, document.parent))
    return bool(slash and rest and first and in_folder and "out" not in rest.split("/"))


@functools.cache
def tracked():
    """The files of the repository."""
    listed = subprocess.run(["git", "ls-files", "-z"], cwd=TOP, capture_output=True, text=True, check=True).stdout
    return [TOP / name for name in listed.split("\0") if name]


@functools.cache
def known_names():
    """The words of the sources, and of their paths."""
    texts = (it.read_text(encoding="utf-8") for it in tracked() if it.suffix in SOURCES and it.is_file())
    return {word for text in (*texts, *map(str, tracked())) for word in re.findall(r"[A-Za-z_]\w+", text)}


def unknown_names(text):
    """The names of functions and types in `code` that no source has."""
    named = {name for _, words in CODE.findall(text) for name in NAME.findall(words)}
    return sorted(named - known_names() - FOREIGN)


def unknown_records():
    """The citations of records that docs/DECISIONS.md doesn't have."""
    records = set(RECORD.findall((TOP / "docs/DECISIONS.md").read_text(encoding="utf-8")))
    for file in tracked():
        if file.suffix in (".rt", ".antt", ".py", ".md", ".txt") and file.is_file():
            cited = set(CITED.findall(file.read_text(encoding="utf-8")))
            yield from (f"{file.relative_to(TOP)}: docs/DECISIONS.md has no record {it}" for it in sorted(cited - records))


def headings(page):
    """The headings of a page."""
    return re.findall(r"^#+ (.*)$", page.read_text(encoding="utf-8"), re.M)


def anchor(heading):
    return re.sub(r"[^\w -]", "", heading.lower()).replace(" ", "-")


def unnamed_options(text):
    """The options of commands that run mcd which its help doesn't have."""
    options = OPTION.findall((TOP / "crates/mc_options/src/program.rt").read_text(encoding="utf-8"))
    known = {"--help", "-h", *(f"--{name}" for name, _ in options), *(f"-{letter}" for _, letter in options)}
    for command in COMMAND.findall(text):
        yield from sorted(set(re.findall(r"(?<!\S)--?[a-zA-Z][a-z-]*", command)) - known)


def faults(name):
    document = TOP / name
    text = document.read_text(encoding="utf-8")
    code = "\n".join(block or word for block, word in CODE.findall(text))
    words = [it.rstrip(".,:;") for it in re.split(r"[\s\"'=()\[\]]+", code)]
    paths = {it for it in words if is_path(document, it)} | set(NAMED.findall(text)) | {it for it, _ in LINK.findall(text) if it}
    yield from (f"{name}: there is no {path}" for path in sorted(paths) if not there(document, path))
    sources = {it for it in words if SOURCE.fullmatch(it)} - {it.name for it in tracked()} - FOREIGN
    yield from (f"{name}: there is no {it}" for it in sorted(sources))
    for page, heading in LINK.findall(text):
        target = document.parent / page if page else document
        if heading and target.exists() and heading not in map(anchor, headings(target)):
            yield f"{name}: {page or name} has no heading #{heading}"
    for page, heading in QUOTED.findall(text):
        if (TOP / page).exists() and heading not in headings(TOP / page):
            yield f'{name}: {page} has no heading "{heading}"'
    if name in DEVELOPERS:
        yield from (f"{name}: no source has {it}" for it in unknown_names(text))
    yield from (f"{name}: mcd has no option {option}" for option in unnamed_options(code))


def main():
    found = [it for name in sys.argv[1:] or DOCUMENTS for it in faults(name)]
    found += [] if sys.argv[1:] else unknown_records()
    print(*found, sep="\n", end="\n" if found else "")
    return 1 if found else 0


if __name__ == "__main__":
    sys.exit(main())
