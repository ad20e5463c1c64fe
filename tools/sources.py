"""The one reader of the repository's sources: crates.txt, and the code (.rt), the definitions and the lemmas (.antt) of its crates."""
import functools
import pathlib
import re

TOP = pathlib.Path(__file__).resolve().parent.parent
CRATES = TOP / "crates"
LIST = "crates.txt"

# What a crate is made of: the folders, and the endings of their files.
PARTS = {"src": ".rt", "specs": ".antt", "proofs": ".antt"}

COMMENT = re.compile(r"--.*|//.*")
# A line that imports definitions or lemmas: the module, and their names in a list, or one name after `as`.
IMPORT = re.compile(r"^(?:pub )?(?:ghost )?use (Rattle\.[^\s{;]+?)(?:\.\{([^}]*)\}| as (\S+?))?;?$", re.M)


def lines():
    """The line of each crate, by its name, lowest first."""
    found = text_of(TOP / LIST).splitlines()
    return {named[0]: line for line in found if (named := re.match(r"\w+", line))}


def libraries():
    """The libraries that each crate's line names, of the repository or of the kit."""
    return {name: line.partition(":")[2].split() for name, line in lines().items()}


def below(name, libraries):
    """The crates of the repository that a crate uses, by themselves or by way of others: each behind those that it uses."""
    found = {}
    for it in libraries[name]:
        if it in libraries and it not in found:
            found |= dict.fromkeys([*below(it, libraries), it])
    return list(found)


@functools.cache
def text_of(file):
    return file.read_text(encoding="utf-8")


@functools.cache
def files(*parts, crate="*"):
    """The files of these parts of a crate, or of all, in order."""
    return [file for part in parts or PARTS for file in sorted(CRATES.glob(f"{crate}/{part}/**/*{PARTS[part]}"))]


def without_comments(file):
    return COMMENT.sub("", text_of(file))


def imports(text):
    """What a text imports: where, the module, the name there or `*` for all of it, and the name here."""
    for found in IMPORT.finditer(text):
        place, names, alias = found.groups()
        for name in (names or "").split(","):
            if there := name.partition(" as ")[0].strip():
                yield found.start(), place, there, name.rpartition(" as ")[2].strip()
        if alias:
            yield found.start(), place, "*", alias


def head_of(line):
    """What the checker calls the block that begins so, and the type: `impl From<A> for B<'_, C>` is `B+CFromA`, of `B`."""
    head = re.sub(r"\bwhere\b.*|\{.*|\w+::", "", line)
    own, head = re.match(r"(?:pub )?(?:impl|trait)\b(<(?:[^<>]|<[^<>]*>|->)*>)?(.*)", head).groups()
    parameters = re.findall(r"(?:^<|, *)(\w+)", own or "")
    trait, _, of = (head if line.startswith("impl") else head.partition(":")[0]).rpartition(" for ")

    def words(text):
        return [it for it in re.findall(r"'?\w+", text) if it[0] != "'" and it not in parameters]

    return "+".join(words(of)) + "".join(words(trait)), (words(of) or [""])[0]


class Source:
    """The functions of a crate, as `rt fmt` lays them out: each ends with a brace below its first letter."""

    def __init__(self, crate):
        self.functions, self.modules = [], {}
        texts = {it.relative_to(crate).as_posix(): text_of(it).splitlines() for it in files("src", crate=crate.name)}
        for file, lines in texts.items():
            module = [it for it in re.sub(r"^src/|(/mod)?\.rt$", "", file).split("/") if it not in ("lib", "main")]
            for line in lines:
                if found := re.match(r"(?:pub(?:\(.*?\))? )?(?:struct|enum) (\w+)", line):
                    self.modules[found[1]] = module
            self.modules[file] = module
        for file, lines in texts.items():
            self.read(file, lines)

    def read(self, file, lines):
        block = []
        for number, line in enumerate(lines, 1):
            if re.match(r"impl\b|(pub )?trait\b", line):
                # the head may be of several lines
                end = next((it for it in range(number - 1, len(lines)) if "{" in lines[it]), number - 1)
                name, of = head_of(" ".join(it.strip() for it in lines[number - 1 : end + 1]))
                # the functions of a type are where the type is
                block = [*self.modules.get(of, self.modules[file]), name]
            elif line.startswith("}"):
                block = []
            if found := re.match(r"( *)(?:pub(?:\(.*?\))? )?(?:const )?(?:unsafe )?fn (\w+)", line):
                stop = next((it for it in range(number, len(lines)) if re.match(found[1] + r"(\}|\S.*;$)", lines[it])), number)
                text = "\n".join(lines[number - 1 : stop + 1])
                # its attributes are above it, and the checker names the first line of them
                first = next((it + 2 for it in range(number - 2, -1, -1) if re.match(r" *($|\S.*[;{]$|\}|///)", lines[it])), 1)
                path = "::".join([*(block or self.modules[file]), found[2]])
                self.functions.append({"file": file, "first": first, "last": stop + 1, "name": found[2], "text": text, "path": path})

    def at(self, file, line):
        """The functions that have this line."""
        return [it for it in self.functions if it["file"] == file and it["first"] <= line <= it["last"]]

    def edited(self, changes):
        """The one function that these changes are in, or None."""
        found = [self.at(file, line) for file, line, _, _ in changes]
        paths = {it[-1]["path"] for it in found if it}
        return found[0][-1] if all(found) and len(paths) == 1 else None

    def callers(self, names):
        """The names of the functions that call one of these, by themselves or through others."""
        found = set(names)
        while True:
            called = re.compile(r"\b(?:" + "|".join(map(re.escape, found)) + r")\b")
            more = {it["name"] for it in self.functions if it["name"] not in found and called.search(it["text"])} if found else set()
            if not more:
                return found
            found |= more


# Where a clause begins: `requires`, `ensures`, or what a trait or type promises under `ghost`.
CLAUSE = re.compile(r"(?:ensures\*?|requires\*?)\b|ghost (?!use\b)\w+(?: =|:) ")


def clause_spans(lines):
    """The clauses of a source: the number of the first line of each, from 0, and of the line behind its last."""
    number = 0
    while number < len(lines):
        first, number = number, number + 1
        if not CLAUSE.match(lines[first].strip()):
            continue
        left = lines[first].count("{") - lines[first].count("}")
        while left > 0 and number < len(lines):
            left += lines[number].count("{") - lines[number].count("}")
            number += 1
        yield first, number
