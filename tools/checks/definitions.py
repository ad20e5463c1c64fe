#!/usr/bin/env python3
"""Lists what the public theorems rest on: the contracts that state them, the definitions and Rust types that these name, and
the constants, each with the lines that a reader has to check.

    tools/checks/definitions.py            prints the tables
    tools/checks/definitions.py --write    puts them into docs/TRUSTED.md
    tools/checks/definitions.py --check    fails if docs/TRUSTED.md has others, or if a contract that README.md or docs/PROOFS.md
                                      quotes is not the one in the code (the gate does this)

A definition is counted where a theorem reaches it, through others or alone, and comes after those that it depends on; so is a
type, and what its fields or its model name. Lines of imports, comments and attributes are not counted. What is private inside a
type that has a model isn't reached: clauses see its model alone.
"""
import functools
import pathlib
import re
import sys

sys.path.insert(0, str(pathlib.Path(__file__).resolve().parents[2]))

from tools import sources  # noqa: E402
from tools.sources import CRATES, TOP, files, imports  # noqa: E402

PAGE = TOP / "docs/TRUSTED.md"
QUOTING = [TOP / "README.md", TOP / "docs/PROOFS.md"]
BEGIN, END = "<!-- tools/checks/definitions.py -->\n", "<!-- end -->\n"

# The functions whose contracts are the theorems: the headline, the laws of progress and order, what ties the simulator to
# them, one line, real threads over doors, lines in memory, streams and sockets, replay files and the command line.
THEOREMS = [
    ("mc_model/src/laws.rt", ["every_schedule"]),
    ("mc_laws/src/progress.rt", ["never_stuck", "all_comes_to_rest", "fair_runs_come_to_rest", "what_is_tried_is_fair", "none_waits_forever",
                                 "bytes_are_taken_at_rest"]),
    ("mc_laws/src/order.rt", ["what_was_handed_out_ran_before", "keys_are_linearizable"]),
    ("mc_laws/src/settling.rt", ["settle"]),
    ("mc_sim/src/sim.rt", ["new", "connections", "fed", "handed", "log", "step", "run"]),
    ("mc_server/src/serve.rt", ["serve_one"]),
    ("mc_serve/src/serving.rt", ["serve"]),
    ("mc_serve/src/over.rt", ["serve_over"]),
    ("mc_serve/src/streams.rt", ["serve_streams"]),
    ("mc_serve/src/tcp.rt", ["serve_tcp"]),
    ("mc_replay/src/schedule.rt", ["read_schedule"]),
    ("mc_replay/src/run.rt", ["replay"]),
    ("mc_options/src/options.rt", ["read_options"]),
]

# The inside of these isn't reached. That a simulator is in a world is only ever said of the worlds to which its events lead:
# it begins in the empty one, each step leads on from whichever it is in, and what it shows is that world's. So any relation
# of which this is proved does as well.
SEALED = {("mc_sim/specs/Stands.antt", "Stands"), ("mc_sim/src/sim.rt", "Sim")}

WORD = re.compile(r"[^\W\d]\w*(?:-\w+)*'*")


def text_of(file):
    return sources.text_of(CRATES / file)


def code_of(crate):
    """The files of a crate's code."""
    return [it.relative_to(CRATES).as_posix() for it in files("src", crate=crate)]


@functools.cache
def type_file(crate, name):
    """The file of a crate that declares this type or trait, and whether others see it."""
    for file in code_of(crate):
        if found := re.search(rf"^(pub )?(?:pub\(.*?\) )?(?:struct|enum|trait) {name}\b", text_of(file), re.M):
            return file, bool(found[1])
    return None, False


@functools.cache
def value_of(name):
    """The value of a constant, even if it is named after another one."""
    for file in (it for crate in crate_order() for it in code_of(crate)):
        if found := re.search(rf"^(?:pub(?:\(.*?\))? )?const {name}: \w+ = (.*);$", text_of(file), re.M):
            return found[1] if found[1][0].isdigit() else value_of(found[1]) or found[1]
    return None


@functools.cache
def crate_order():
    """The crates, lowest first."""
    return list(sources.lines())


def public_types(said, file):
    """The public types of this repository that a piece of a file of code names."""
    crates = [file.split("/")[0], *re.findall(r"^use (mc_\w+)::", text_of(file), re.M)]
    for kind in sorted(set(re.findall(r"(?<=[\[(<&:,+ =])[A-Z]\w+", re.sub(r"^ +[A-Z]\w*", "", said, flags=re.M)))):
        found = next((there for there, is_seen in (type_file(crate, kind) for crate in crates) if there and is_seen), None)
        if found:
            yield found, kind


def brought(text):
    """What a file brings in of the repository: each name, with the place that it comes from and its name there."""
    for _, place, there, here in imports(text):
        if place.startswith("Rattle.mc_"):
            crate, path = re.match(r"Rattle\.(\w+)\.(?:specs\.)?(.*)", place).groups()
            yield here, (crate, path, there)


def of_the_kit(text):
    """The words of the standard library and the kit's crates that a file brings in, each with its crate."""
    for _, place, there, here in imports(text):
        if not place.startswith("Rattle.mc_"):
            yield here, (place.split(".")[1], here if there == "*" else there)


class Reached:
    """What the theorems reach: definitions and types as (file, name), constants and the kit's words by name."""

    def __init__(self):
        self.contracts, self.definitions, self.types, self.constants, self.files, self.kit = {}, {}, {}, {}, {}, set()

    # ---- definitions

    def declared(self, file):
        """The declarations of a file of definitions: the lines of each by its name, and the names that stand for it."""
        if file not in self.files:
            lines_of, owner, name = {}, {}, None
            for line in text_of(file).splitlines():
                if found := re.match(r"(?:abbrev |pub |record |data |unfoldable )*([^\s:(]+)", line):
                    name = None if line.startswith(("use ", "pub use ", "--", "mod ", "pub mod ", "module ")) else found[1]
                    is_data = " data " in f" {line}"
                if name and line.strip() and not line.strip().startswith("--"):
                    lines_of.setdefault(name, []).append(line)
                    owner[name] = name
                    if is_data and (found := re.match(r"  (\w+) :", line)):
                        owner.setdefault(found[1], name)
            self.files[file] = lines_of, owner
        return self.files[file]

    def define(self, file, name):
        """Reaches a definition of a file, and what it names."""
        lines_of, owner = self.declared(file)
        name = owner.get(name)
        if name is None or (file, name) in self.definitions:
            return
        self.definitions[file, name] = len(lines_of[name])
        if (file, name) not in SEALED:
            self.names_in("\n".join(lines_of[name]), file)

    def names_in(self, said, file):
        """Reaches what a piece of a file of definitions, or a clause, names."""
        there, kit = dict(brought(text_of(file))), dict(of_the_kit(text_of(file)))
        for name in WORD.findall(re.sub(r"--.*", "", said)):
            if name in kit:
                self.kit.add(kit[name])
            if name in there:
                self.reach(*there[name], said, name)
            elif file.endswith(".antt"):
                self.define(file, name)

    def reach(self, crate, path, name, said, alias):
        """Reaches what is at a place: a definition, a type or a constant of Rust's."""
        if name == "*":
            for further in re.findall(rf"\b{alias}\.([\w.]+)", said):
                first, _, second = further.partition(".")
                self.reach(crate, path, second or first, said, "")
            if not path.startswith("declared"):
                return
        if path.startswith("declared"):
            self.declared_in_rust(crate, path.removeprefix("declared").lstrip(".").split("."), name)
            return
        for end in (path, path.rpartition(".")[0]):
            file = f"{crate}/specs/{end.replace('.', '/')}.antt"
            if end and (CRATES / file).is_file():
                self.define(file, name)
                return

    # ---- types and constants of Rust

    def declared_in_rust(self, crate, path, name):
        if path[-1:] == ["TheVariants"]:
            path, name = path[:-1], ""
        if path[-1:] == ["TheConstants"]:
            self.constants[name] = f"{crate}/src/{'/'.join(path[:-1] or ['lib'])}.rt"
            return
        kind = next((it for it in reversed([*path, name]) if it[:1].isupper() and type_file(crate, it)[0]), None)
        if kind:
            self.type(type_file(crate, kind)[0], kind)

    def type(self, file, name):
        """Reaches a type or a trait: what it says, or its model if it has one, and the types that this names."""
        if (file, name) in self.types or (file, name) in SEALED:
            return
        said = re.search(rf"^(?:pub(?:\(.*?\))? )?(?:struct|enum|trait) {name}\b(?:[^\n]*;$|.*?^\}}|[^\n]*\}}$)", text_of(file), re.M | re.S)[0]
        if model := re.search(rf"^impl(?:<[^\n]*>)? Model for {name}\b.*?^\}}", text_of(file), re.M | re.S):
            said = model[0]
        lines = [it for it in said.splitlines() if it.strip() and not re.match(r" *(//|#)", it)]
        self.types[file, name] = len(lines)
        self.names_in("\n".join(it for it in lines if re.search(r"ghost|ensures|requires|λ", it)), file)
        for there, further in public_types("\n".join(lines), file):
            self.type(there, further)

    # ---- theorems

    def theorem(self, file, name):
        """Reaches what the contract of a function names, and the types of its signature."""
        said = re.search(rf"^( *)pub fn {name}\b.*?(?=^\1\{{)", text_of(file), re.M | re.S)[0]
        self.contracts.setdefault(file, {})[name] = sum(1 for it in said.splitlines() if not it.strip().startswith("//"))
        self.names_in(said, file)
        for there, kind in public_types(said, file):
            self.type(there, kind)


def what_for(file):
    """What a file of definitions is for: its first sentence."""
    said = " ".join(it[3:] for it in re.match(r"(?:-- .*\n)*", text_of(file))[0].splitlines())
    return re.match(r".*?\.(?= |$)|.*", said)[0].rstrip(".")


def in_order(files):
    """Files of definitions in an order in which each comes after those that it depends on."""
    found = []

    def put(file):
        below = sorted({f"{crate}/specs/{path.replace('.', '/')}.antt" for _, (crate, path, _) in brought(text_of(file))} & set(files))
        for it in below if file not in found else []:
            put(it)
        if file not in found:
            found.append(file)

    for file in sorted(files, key=lambda it: (crate_order().index(it.split("/")[0]), it)):
        put(file)
    return found


def by_file(found):
    """For each file the names that were reached, and their lines together."""
    files = {}
    for (file, name), lines in found.items():
        files.setdefault(file, []).append((name, lines))
    return {file: ([name for name, _ in files[file]], sum(lines for _, lines in files[file])) for file in files}


def reached_by(theorems):
    reached = Reached()
    for file, names in theorems:
        for name in names:
            reached.theorem(file, name)
    return reached


def by_theorem():
    """For each file of theorems, how many lines its contracts have, and how many of definitions and types they rest on."""
    for file, names in sorted(THEOREMS, key=lambda it: it[0] != "mc_serve/src/tcp.rt"):
        alone = reached_by([(file, names)])
        lines = [sum(it.values()) for it in (alone.contracts[file], alone.definitions, alone.types)]
        yield f"| `{file}`: {', '.join(f'`{it}`' for it in names)} | {' | '.join(map(str, lines))} |"


def tables():
    """The tables, as they are in the page."""
    reached = reached_by(THEOREMS)
    said = ["| contracts of the theorems | lines | of definitions behind them | of types |", "|---|---|---|---|", *by_theorem()]
    said += ["", "| definitions | lines | what for |", "|---|---|---|"]
    definitions, types = by_file(reached.definitions), by_file(reached.types)
    said += [f"| `{file}` | {definitions[file][1]} | {what_for(file)} |" for file in in_order(definitions)]
    said += ["", "| types | lines |", "|---|---|"]
    order = sorted(types, key=lambda it: (crate_order().index(it.split("/")[0]), it))
    said += [f"| `{file}`: {', '.join(f'`{it}`' for it in sorted(types[file][0]))} | {types[file][1]} |" for file in order]
    said += ["", "| constants | value |", "|---|---|"]
    said += [f"| `{name}` (`{file}`) | {value_of(name)} |" for name, file in sorted(reached.constants.items())]
    said += ["", "| words of the kit | |", "|---|---|"]
    for crate in sorted({it for it, _ in reached.kit}, key=lambda it: (it != "std", it)):
        said.append(f"| `{crate}` | {', '.join(f'`{name}`' for it, name in sorted(reached.kit) if it == crate)} |")
    counted = [sum(sum(it.values()) for it in reached.contracts.values()), sum(reached.definitions.values()), sum(reached.types.values())]
    said += ["", f"In all {counted[0]} lines of contracts, {counted[1]} of definitions in {len(definitions)} files, {counted[2]} of"
             f" {len(reached.types)} types, and {len(reached.constants)} constants; {len(reached.kit)} words of the kit.", ""]
    return "\n".join(said)


def quotes(page):
    """The functions whose contracts a page quotes, each with its clauses."""
    blocks = re.findall(r"^```rust\n(.*?)^```$", page.read_text(encoding="utf-8"), re.M | re.S)
    return [" ".join(function.split()) for block in blocks for function in block.strip().split("\n\n")]


def misquoted():
    """The quotes that the code doesn't have, word for word but for where its lines end."""
    code = " ".join(word for file in files("src") for word in sources.text_of(file).split())
    return [(page, quote) for page in QUOTING for quote in quotes(page) if quote not in code]


def main():
    found = tables()
    if not sys.argv[1:]:
        print(found, end="")
        return 0
    front, _, rest = PAGE.read_text(encoding="utf-8").partition(BEGIN)
    there, _, back = rest.partition(END)
    if sys.argv[1:] == ["--write"]:
        PAGE.write_text(front + BEGIN + found + END + back, encoding="utf-8")
        return 0
    if there != found:
        print("docs/TRUSTED.md has other tables of what the theorems rest on: run tools/checks/definitions.py --write, and read what changed")
    wrong = misquoted()
    for page, quote in wrong:
        print(f"{page.relative_to(TOP)} quotes a contract that the code doesn't have: {quote:.80}")
    return 1 if wrong or there != found else 0


if __name__ == "__main__":
    sys.exit(main())
