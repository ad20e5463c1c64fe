"""Writes the program and the crates that it depends on as two crates, whose modules they are: a library, and the program.

Crate by crate the prover reads again what is below each, and a crate waits for all that it depends on. As one crate, what is proved
late reads the whole proofs of all that it calls, with all that these read; of a library below it reads a part. So two are proved
in less time than one crate or many (docs/DECISIONS.md). Paths change, the names of definitions and lemmas, and all modules can be seen.
What mc_wire itself says, and what others say of it:

    crate::key::Key              becomes    crate::mc_wire::key::Key
    mc_wire::Key                            crate::mc_wire::Key in the library, mcd_lower::mc_wire::Key in the program
    Rattle.mc_wire.specs.Words              Rattle.mcd_lower.specs.mc_wire.Words

Some of what the program doesn't call is left out: worked rows, what serves lines in memory, and what is there for tests. No
body and no clause of anything else changes, and if the program calls what is left out, the two crates don't compile.
"""
import re
import shutil
import sys

from sources import LIST, PARTS, TOP, below, files, libraries, text_of

# The crates that are written into the library. All others are written into the program.
LOWER = "mcd_lower"
OF_LOWER = """
    mc_poll mc_telemetry mc_wire mc_budget mc_cells mc_command mc_sizes mc_fast mc_reader mc_item mc_store mc_reply mc_split mc_ring mc_join
    mc_conn mc_model mc_worker
""".split()

# The files of a library that name the others.
ROOTS = {"src": "lib.rt", "specs": "Lib.antt", "proofs": "Lib.antt"}

# How the root of a crate says by which tactic its goals are proved.
TACTIC = "#![tactic(auto)]\n"

# Files that the program doesn't need, by the beginnings of their names: worked rows, what runs a list of operations on a shard,
# and what serves lines in memory.
UNUSED = re.compile(
    r"""(
      \w+/proofs/(\w*Rows\w*|Corners) | mc_model/proofs/Crossing
    | mc_store/(src/shard/running | proofs/shard/Shard/run_all)
    | mc_serve/(src/over | specs/Over | proofs/(over|One))
    | mc_net/(src/single_source | specs/One | proofs/(single_source|Sent))
    )\b""",
    re.X,
)

# A line of a source file, or of a root of definitions or lemmas, that declares a module or passes on what it has.
NAMED = re.compile(r"^(?:pub )?(?:mod|use) (\w+)(?:::.*)?;?\n", re.M)

# What is derived for tests and for other users of a crate, and the types of which the program compares or shows values.
FOR_TESTS = {"Debug", "PartialEq", "Eq", "Error"}
COMPARED = {"Kind", "Readiness", "Stepped", "StoreMode"}
SHOWN = {"OptionError"}

# A type with its derives: these, the attributes below, the line that names it, and the rest of it.
DERIVED = re.compile(r"^#\[derive\(([\w, ]+)\)\]\n((?:#\[.*\]\n)*)((?:pub(?:\(\w+\))? )?(?:struct|enum) (\w+).*(?:;|\{\}|\{\n(?:.*\n)*?\})$)", re.M)


def is_unused(crate, part, place):
    return bool(UNUSED.match(f"{crate}/{part}/{place}"))


def without_unused_derives(text):
    """A source file whose types derive what the program uses of them."""

    def kept(found):
        derives, attributes, rest, name = found.groups()
        needed = {"Debug", "Error"} if name in SHOWN else {"PartialEq", "Eq"} if name in COMPARED else set()
        derives = [it for it in derives.split(", ") if it not in FOR_TESTS or it in needed]
        if "Error" not in derives:
            attributes, rest = (re.sub(r"^ *#\[error\(.*\)\]\n", "", it, flags=re.M) for it in (attributes, rest))
        return f"#[derive({', '.join(derives)})]\n{attributes}{rest}" if derives else f"{attributes}{rest}"

    text = DERIVED.sub(kept, text)
    return text if re.search(r"derive\(.*\bError\b", text) else text.replace("use thiserror::Error;\n", "")


class TwoCrates:
    """A program with the crates below it, as they are written into two: a library, and the program that depends on it."""

    def __init__(self, program):
        self.program = program
        self.libraries = libraries()
        needed = below(program, self.libraries)
        self.crates = [it for it in self.libraries if it in needed]
        self.names = [LOWER, program]
        self.home = {it: LOWER if it in OF_LOWER else program for it in [*self.crates, program]}
        self.any = "|".join(self.crates)
        self.check()

    def check(self):
        """Ends the program if a crate of the library depends on one that isn't in it."""
        for crate in OF_LOWER:
            for it in self.libraries[crate]:
                if self.home.get(it) == self.program:
                    sys.exit(f"{crate} depends on {it}, which two_crates.py writes into the program")

    def of_kit(self, name):
        """The libraries of the kit that a written crate and what it depends on use."""
        used = (it for crate, home in self.home.items() if name == self.program or home == name for it in self.libraries[crate])
        return list(dict.fromkeys(it for it in used if it not in self.libraries))

    def code(self, text, crate):
        """A source file of a crate."""

        def root(found):
            return "crate" if self.home[found] == self.home[crate] else self.home[found]

        text = without_unused_derives(text)
        if crate != self.program:
            # What a crate passes on of a module of its own is named by its place there, so all modules can be seen.
            text = re.sub(r"^mod ", "pub mod ", text.replace(TACTIC, ""), flags=re.M)
            text = re.sub(r"\bcrate::(?!specs::|proofs::)", f"crate::{crate}::", text)
            text = re.sub(r"\bcrate::(specs|proofs)::", rf"crate::\1::{crate}::", text)
        text = re.sub(rf"(?<![\w:.])({self.any})::(specs|proofs)::", lambda it: f"{root(it[1])}::{it[2]}::{it[1]}::", text)
        text = re.sub(rf"(?<![\w:.])({self.any})::", lambda it: f"{root(it[1])}::{it[1]}::", text)
        return self.named(text)

    def named(self, text):
        """A text with the names of definitions and lemmas as the written crates have them."""
        text = re.sub(
            rf"\bRattle\.({self.any})\.specs\.(declared|contracts)\.",
            lambda it: f"Rattle.{self.home[it[1]]}.specs.{it[2]}.{it[1]}.",
            text,
        )
        return re.sub(rf"\bRattle\.({self.any})\.(specs|proofs)\.", lambda it: f"Rattle.{self.home[it[1]]}.{it[2]}.{it[1]}.", text)

    def files_of(self, crate):
        """Each file of a crate: where it is in the one that it is written into, and its text."""
        for part, ending in PARTS.items():
            root, folder = ROOTS[part], TOP / "crates" / crate / part
            for file in files(part, crate=crate):
                place = file.relative_to(folder)
                if is_unused(crate, part, place):
                    continue
                below_it = "" if str(place) == root else f"{place.with_suffix('')}/"
                text = NAMED.sub(lambda found: "" if is_unused(crate, part, below_it + found[1]) else found[0], text_of(file))
                text = self.code(text, crate) if part == "src" else self.named(text)
                if crate == self.program:
                    yield f"{part}/{place}", text
                elif str(place) == root:
                    yield f"{part}/{crate}{ending}", text
                else:
                    yield f"{part}/{crate}/{place}", text

    def files(self, name):
        """The files of a written crate by their places."""
        crates = [it for it in self.crates if self.home[it] == name]
        files = {place: text for it in crates for place, text in self.files_of(it)}
        if name == self.program:
            files |= dict(self.files_of(name))
            modules = "".join(f"mod {it};\n" for it in crates)
            files["src/main.rt"] = files["src/main.rt"].replace(TACTIC, f"{TACTIC}\n{modules.rstrip()}", 1)
        else:
            modules = "".join(f"pub mod {it};\n" for it in crates)
            files["src/lib.rt"] = f"//! The lower crates of {self.program}, as modules of one.\n{TACTIC}\n{modules}"
        declared = "".join(f"pub mod {it}\n" for it in crates if f"specs/{it}.antt" in files)
        files["specs/Lib.antt"] = files.get("specs/Lib.antt", "") + declared
        self.look_for_unused(files)
        return files

    def look_for_unused(self, files):
        """Ends the program if a file names definitions or lemmas that are left out: only a proof would show it."""
        for place, text in files.items():
            for part, crate, module in re.findall(r"\bRattle\.\w+\.(specs|proofs)\.(\w+)\.(\w+)", text):
                if is_unused(crate, part, module):
                    sys.exit(f"{place} names {module} of {crate}/{part}, which two_crates.py leaves out")

    def write(self, folder):
        """Writes the crates into a folder, as a repository of their own; the folder of each, the lower one first."""
        for name in self.names:
            to = folder / "crates" / name
            for part in PARTS:
                shutil.rmtree(to / part, ignore_errors=True)
            for place, text in self.files(name).items():
                (to / place).parent.mkdir(parents=True, exist_ok=True)
                (to / place).write_text(text, encoding="utf-8")
        lines = (f"{LOWER}: {' '.join(self.of_kit(LOWER))}\n", f"{self.program}: {LOWER} {' '.join(self.of_kit(self.program))}\n")
        (folder / LIST).write_text("".join(lines), encoding="utf-8")
        shutil.copy(TOP / "HANDLES", folder / "HANDLES")
        return [folder / "crates" / it for it in self.names]
