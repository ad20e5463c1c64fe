#!/usr/bin/env python3
"""Tries wrong bodies, and reads for what the prover refuses each.

    tools/checks/wrong_bodies.py --applies           only whether the edits fit the text that they change, and how many there are
    tools/checks/wrong_bodies.py [CRATE ..]          tries all edits of these crates, or of all; CRATE/FOLDER/EDIT is one edit of a crate
    tools/checks/wrong_bodies.py --gate [CRATE ..]   tries what .ci/run tries beside `rt ci`: the classic faults, and one other edit
                                                     for each function
    tools/checks/wrong_bodies.py --minutes N --least M ..   once N minutes are over and M edits tried, begins no further group of
                                                     edits; what is left then is counted as not tried
    tools/checks/wrong_bodies.py --counts            what is known so far, and nothing tried

`rt ci` tries each edit of must-fail/ by itself, over the whole crate, which it proves once more for them. That costs some 60
processor seconds an edit, so must-fail/ has what no function has to itself: wrong constants, definitions and laws. This script
tries those of classic-faults/ and wrong-bodies/, and of must-fail/ if asked, many at a time: an edit changes one
function, so the edits of different functions are made at once, and just these functions and those that they call are looked at.
What the prover says of a function is said of its edit. An edit that isn't refused so, and one that changes more than one function
or what is in none, is tried by itself over the whole crate.

An edit shows something only if it is refused for what a contract says. So the checker's words are read: which goals it left
open, of which function, or which lines of the proof files it refused. Each edit is of one kind, the best that its words give:

    contract   what the edited function ensures, or what its type promises, isn't met; or a caller's, if it has no contract
    loop       what a loop keeps, or its measure, isn't met
    call       a call that the edit wrote or changed has a `requires` that isn't met
    lemma      a lemma or a worked row that the proofs depend on is false: so for constants
    safety     an index, a sum or a cast isn't safe                                                              (a fault)
    elsewhere  the function that is refused is neither the edited one nor calls it                               (a fault)
    other call a call that the edit doesn't name has a `requires` that isn't met                                 (a fault)
    name       a proof file names what the edit took away: change a value and keep the call                      (a fault)
    unread     the edit doesn't compile, or its check ended otherwise                                            (a fault)
    proved     the crate is proved with it                                                                       (a fault)

The libraries below a crate are those that `rt ci`, `rt check` or `rt lib` left in out/; what no edit changes is taken from what
`rt check` kept there of the crate itself, if it did. What was found is kept in a file (--kept FILE; out/wrong-bodies.json), edit by
edit, so a run that was stopped goes on where it was. An edit is tried again where it or its crate has changed since. N crates are
worked on at a time (--jobs N), each on a copy.
"""
import argparse
import concurrent.futures
import hashlib
import json
import os
import pathlib
import re
import shutil
import subprocess
import sys
import tempfile
import threading
import time

sys.path.insert(0, str(pathlib.Path(__file__).resolve().parents[2]))

from tools.sources import PARTS, TOP, Source, below, libraries  # noqa: E402

CLASSIC, OTHER, ALONE = "classic-faults", "wrong-bodies", "must-fail"
BYTES_A_CHECK = 4 * 1024**3
COUNTED = ["contract", "loop", "call", "lemma"]
FAULTS = ["safety", "elsewhere", "other call", "name", "unread", "proved"]

# The words of the checker: a goal that it left open, a line that it refused, and the end of a check that came to the proofs.
OPEN_GOAL = re.compile(r"note: (?:\./)?src/(\S+?)\.rt:(\d+):\d+: it is not proved that .*?(?:\(`([^`]+)`\)|$)")
NOT_FOUND = re.compile(r"fn \w+::(\S+): no proof: [^;]*(?:;[^;]*)?`search` did not prove ([^;]*)")
REFUSED_LINE = re.compile(r"(?:\./)?proofs/(\S+?)\.antt:\d+:\d+: error: (?:`([^`]*)`)?(.*)")
NO_NAME = re.compile(r"has no field|is not in scope|has no `|was not admitted|which was rejected")
# If a check is of one function, its closures are counted beside it.
ENDED = re.compile(r"^(logic=not-proved|only=(\d+) proved=(?!\2\b)\d+)", re.M)
PROVED = re.compile(r"^(logic=proved|only=(\d+) proved=\2)\b", re.M)
UNREAD = re.compile(r"^(?:\./)?(?:src|specs)/\S+:\d+:\d+: error", re.M)
SAFETY = re.compile(r"(index|slice|overflow|division|remainder|cast|shift|unreachable)")


# ---- edits and the functions that they change


def crates():
    return sorted(it for it in TOP.glob("crates/*") if it.is_dir())


def edits_in(crate, *folders):
    return [edit for folder in folders for edit in sorted(crate.glob(f"{folder}/*.edit"))]


def pairs_of(edit):
    """The texts that an edit changes: the file in its crate, the old text, the new one."""
    file, old = None, None
    for line in edit.read_text().splitlines():
        if line.startswith("file: "):
            file = line.removeprefix("file: ")
        elif line.startswith("old: "):
            old = line.removeprefix("old: ")
        elif line.startswith("new:") and old is not None:
            yield file, old, line.removeprefix("new:").removeprefix(" ")


def applied(edit, texts=None):
    """The texts of the files that an edit changes, over those given, and each change as the file, its line and both texts; or why it
    doesn't fit. No text has more than one line, so the lines stay where they are."""
    crate, texts, changes = edit.parent.parent, dict(texts or {}), []
    for file, old, new in pairs_of(edit):
        if file not in texts:
            texts[file] = (crate / file).read_text() if (crate / file).is_file() else ""
        if texts[file].count(old) != 1:
            return None, f"its text occurs {texts[file].count(old)} times in the file"
        changes.append((file, texts[file].count("\n", 0, texts[file].index(old)) + 1, old, new))
        texts[file] = texts[file].replace(old, new)
    return ((texts, changes), None) if changes else (None, "it changes nothing")


def stale(edits):
    """Prints the edits that don't fit, and returns how many."""
    faults = [(edit, applied(edit)[1]) for edit in edits]
    for edit, fault in faults:
        if fault:
            print(f"{name_of(edit)}: {fault}")
    return sum(fault is not None for _, fault in faults)


def name_of(edit):
    return edit.relative_to(TOP / "crates").as_posix().removesuffix(".edit")


def digest(edit):
    """What a result belongs to: the edit, and the texts of its crate."""
    crate, sum_of = edit.parent.parent, hashlib.sha256(edit.read_bytes())
    for file in sorted(it for part in PARTS for it in crate.glob(f"{part}/**/*") if it.is_file()):
        sum_of.update(file.relative_to(crate).as_posix().encode() + file.read_bytes())
    return sum_of.hexdigest()[:16]


# ---- for what an edit is refused


def kind_of_goal(goal, changes, is_on_changed_line):
    """Of which kind a goal is, by the checker's name for it."""
    if re.match(r"returns|invariant_of", goal):
        return "contract"
    if goal.startswith("loop"):
        return "loop"
    if SAFETY.match(goal):
        return "safety"
    if call := re.match(r"(.*?)-requires", goal):
        named = [it for it in re.split(r"[-\W]+", call[1]) if it]
        texts = " ".join(old + " " + new for _, _, old, new in changes)
        is_named = named and re.search(rf"\b{re.escape(named[-1])}\b", texts)
        return "call" if is_on_changed_line or is_named else "other call"
    return "lemma"


def reasons(words, source, changes):
    """What the checker said, line by line: of which kind it is, and the name of the function that it is of, if it is of one."""
    changed = {(file, line) for file, line, _, _ in changes}
    for line in words.splitlines():
        if found := OPEN_GOAL.match(line):
            file, place = f"src/{found[1]}.rt", int(found[2])
            of = [it["name"] for it in source.at(file, place)]
            # a line that was cut has no name of the goal
            kinds = {"what the function ensures": "returns", "`invariant` of the struct": "invariant_of", "loop": "loop"}
            goal = found[3] or next((kinds[it] for it in kinds if it in line), "")
            yield kind_of_goal(goal, changes, (file, place) in changed), of[-1] if of else ""
        elif found := NOT_FOUND.match(line):
            for goal in re.findall(r"`([^`]+)`", found[2]):
                yield kind_of_goal(goal, changes, False), found[1].split("::")[-1]
        elif found := REFUSED_LINE.match(line):
            of = found[1].split("/")[-2] if re.search(r"/(Answers|Proof|Invariants)$", found[1]) else ""
            if NO_NAME.search(found[3]):
                yield "name", of
            else:
                yield kind_of_goal(found[2] if of and found[2] else "", changes, False), of


def judged(words, source, changes):
    """Of which kind the edit is, by what the checker said of it."""
    if not ENDED.search(words) or UNREAD.search(words):
        return "proved" if PROVED.search(words) else "unread"
    edited = {it["name"] for file, line, _, _ in changes for it in source.at(file, line)}
    near, found = source.callers(edited), []
    for kind, of in reasons(words, source, changes):
        is_far = edited and of and of not in near
        found.append("elsewhere" if is_far and kind != "name" else kind)
    return min(found, key=[*COUNTED, *FAULTS].index) if found else "unread"


def said_of(words, function):
    """The lines of what the checker said that are of one function, and the end."""
    own, folder = [], function["path"].replace("::", "/")
    for line in words.splitlines():
        goal, found, refused = OPEN_GOAL.match(line), NOT_FOUND.match(line), REFUSED_LINE.match(line)
        is_own = goal and f"src/{goal[1]}.rt" == function["file"] and function["first"] <= int(goal[2]) <= function["last"]
        is_own = is_own or found and found[1] == function["path"] or refused and refused[1].rpartition("/")[0] == folder
        if is_own or ENDED.match(line) or UNREAD.match(line):
            own.append(line)
    return "\n".join(own)


# ---- trying


def groups_of(edits, source):
    """The edits in groups, as the texts that a group makes and its edits with the function of each: no two of a group change one
    function. Those that change what is in no function come in none."""
    groups = []
    for edit in edits:
        function = source.edited(applied(edit)[0][1])
        if function is None:
            continue
        for group in groups:
            fits = function["path"] not in group["of"] and applied(edit, group["texts"])[0]
            if fits:
                break
        else:
            group, fits = {"texts": {}, "of": {}}, applied(edit)[0]
            groups.append(group)
        group["texts"] = fits[0]
        group["of"][function["path"]] = edit, function
    return groups


class Copy:
    """A copy of a crate in which edits are tried, by the prover as `rt` calls it, over the libraries that are built."""

    def __init__(self, room, name):
        self.crate, self.folder, self.kept = TOP / "crates" / name, pathlib.Path(room) / name, pathlib.Path(room) / f"{name}-kept"
        kit, needs = pathlib.Path(os.path.realpath(shutil.which("rt"))).parent.parent, libraries()
        built = {it: TOP / "crates" / it / "out/rlib" / f"{it}.rlib" for it in below(name, needs)}
        if lacking := [it for it, library in built.items() if not library.is_dir()]:
            sys.exit(f"{name}: {lacking[0]} isn't built: run rt lib in its folder")
        for part in PARTS:
            if (self.crate / part).is_dir():
                shutil.copytree(self.crate / part, self.folder / part)
        if (self.crate / "out/incremental").is_dir():
            # what an edit doesn't change is taken from what the crate's own check proved
            shutil.copytree(self.crate / "out/incremental", self.kept)
        root = "src/main.rt" if (self.crate / "src/main.rt").is_file() else "src/lib.rt"
        self.words = [f"{kit}/bin/rattle", "check", "--crate-name", name, root, "-L", f"dependency={kit}/rlibs", "--links", f"{name}="]
        for it in ["std", *needs[name]]:
            self.words += ["--extern", f"{it}={built[it] if it in built else f'{kit}/rlibs/{it}.rlib'}"]
        for library in built.values():
            self.words += ["-L", f"dependency={library.parent}"]
        self.words += ["--antt-project", f"{kit}/rattle/logic/antt-project.json", "--logic-built", f"{kit}/logic_built"]
        self.words += ["--jobs", "1", "--incremental", str(self.kept)]

    def check(self, texts, paths):
        """What the checker says of the crate with these texts: of these functions, or if there are none, of all."""
        try:
            for file, text in texts.items():
                (self.folder / file).write_text(text)
            only = [word for path in paths for word in ("--only", path)]
            ran = subprocess.run([*self.words, *only], cwd=self.folder, stdin=subprocess.DEVNULL, stdout=subprocess.PIPE, stderr=subprocess.STDOUT, check=False)
            return ran.stdout.decode(errors="replace")
        finally:
            for file in texts:
                shutil.copy(self.crate / file, self.folder / file)

    def __enter__(self):
        return self

    def __exit__(self, *_):
        shutil.rmtree(self.folder)
        shutil.rmtree(self.kept, ignore_errors=True)

    def result(self, edit, words, source):
        kind = judged(words, source, applied(edit)[0][1])
        messages = [it[:400] for it in words.splitlines() if OPEN_GOAL.match(it) or ": error" in it or ": no proof" in it]
        return {"digest": digest(edit), "kind": kind, "said": messages[:12]}

    def tried(self, edits, is_over):
        """Each edit with what was found of it, until it is said to be over. One that isn't refused among others is tried by itself
        all the same: it may be the one that a contract lets through."""
        source, left, looked_at = Source(self.crate), list(edits), []
        for group in groups_of(edits, source):
            if is_over():
                break
            looked_at += [edit for edit, _ in group["of"].values()]
            words = self.check(group["texts"], group["of"])
            for edit, function in group["of"].values():
                found = self.result(edit, said_of(words, function), source)
                if found["kind"] in COUNTED:
                    left.remove(edit)
                    yield edit, found
        for edit in left:
            if edit in looked_at or not is_over():
                yield edit, self.alone(edit, source)

    def alone(self, edit, source):
        """What is found of an edit by itself: of the edited function alone, and of the whole crate if that is proved."""
        (texts, changes), _ = applied(edit)
        function = source.edited(changes)
        for paths in ([[function["path"]]] if function else []) + [[]]:
            found = self.result(edit, self.check(texts, paths), source)
            if found["kind"] in COUNTED:
                break
        return found


def report(edits, known):
    """Prints the edits that show nothing and how many there are of each kind, and returns the status."""
    kinds = {edit: known[name_of(edit)]["kind"] for edit in edits if known.get(name_of(edit), {}).get("digest") == digest(edit)}
    for edit, kind in kinds.items():
        if kind in FAULTS:
            print(f"{name_of(edit)}: {kind}: {' | '.join(known[name_of(edit)]['said'][:2])[:300]}")
    print(", ".join(f"{kind} {list(kinds.values()).count(kind)}" for kind in COUNTED + FAULTS if kind in kinds.values()))
    faults = sum(kind in FAULTS for kind in kinds.values())
    print(f"{len(kinds) - faults} wrong bodies refused for what a contract says, {faults} not, {len(edits) - len(kinds)} not tried")
    return 1 if faults else 0


def try_all(edits, known, given):
    """Tries the edits that aren't known yet, crate by crate, and keeps what is found of each."""
    keeping, until, tried = threading.Lock(), time.monotonic() + 60 * given.minutes, []

    def is_over():
        return time.monotonic() > until and len(tried) >= given.least

    def of_crate(name, room):
        own = [it for it in edits if it.parent.parent.name == name and known.get(name_of(it), {}).get("digest") != digest(it)]
        if not own or is_over():
            return
        with Copy(room, name) as copy:
            for edit, found in copy.tried(own, is_over):
                with keeping:
                    tried.append(edit)
                    known[name_of(edit)] = found
                    given.kept.parent.mkdir(exist_ok=True)
                    given.kept.write_text(json.dumps(known, indent=1))
                    print(f"{name_of(edit)}: {found['kind']}", flush=True)

    names = sorted({it.parent.parent.name for it in edits}, key=lambda name: -sum(it.parent.parent.name == name for it in edits))
    with tempfile.TemporaryDirectory(prefix="wrong-bodies-") as room, concurrent.futures.ThreadPoolExecutor(given.jobs) as pool:
        for done in concurrent.futures.as_completed([pool.submit(of_crate, name, room) for name in names]):
            done.result()


def of_the_gate(crate):
    """What this script tries of a crate in the gate: the classic faults, and one of the other edits for each function."""
    groups = groups_of(edits_in(crate, OTHER), Source(crate))
    return edits_in(crate, CLASSIC) + [edit for group in groups[:1] for edit, _ in group["of"].values()]


def in_the_gate():
    """How many wrong bodies the gate tries: what `rt ci` tries alone, and what this script does."""
    return sum(len([*edits_in(it, ALONE), *of_the_gate(it)]) for it in crates())


def arguments():
    reader = argparse.ArgumentParser(description=__doc__, formatter_class=argparse.RawDescriptionHelpFormatter)
    reader.add_argument("names", nargs="*")
    for word in ("--applies", "--gate", "--counts"):
        reader.add_argument(word, action="store_true")
    reader.add_argument("--minutes", type=float, default=float("inf"))
    reader.add_argument("--least", type=int, default=0)
    reader.add_argument("--kept", type=pathlib.Path, default=TOP / "out/wrong-bodies.json")
    memory = os.sysconf("SC_PAGE_SIZE") * os.sysconf("SC_PHYS_PAGES")
    reader.add_argument("--jobs", type=int, default=max(1, min(len(os.sched_getaffinity(0)), memory // BYTES_A_CHECK)))
    return reader.parse_args()


def main():
    given = arguments()

    def is_named(edit):
        return not given.names or edit.parent.parent.name in given.names or name_of(edit) in given.names

    edits = [edit for it in crates() for edit in edits_in(it, CLASSIC, OTHER, ALONE) if is_named(edit)]
    if not edits:
        sys.exit("no such edits")
    if stale(edits):
        return 1
    if given.gate:
        edits = [edit for it in crates() for edit in of_the_gate(it) if is_named(edit)]
    print(f"{len(edits)} wrong bodies fit the text that they change", flush=True)
    if given.applies:
        if not given.names:
            print(f"the gate tries {in_the_gate()} of them")
        return 0
    known = json.loads(given.kept.read_text()) if given.kept.is_file() else {}
    if not given.counts:
        try_all(edits, known, given)
    return report(edits, known)


if __name__ == "__main__":
    sys.exit(main())
