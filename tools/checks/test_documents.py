"""Runs the commands that the documents show, and compares what they print with the block below them. A block that no test runs is
listed with its reason. The snippets of docs/CLIENTS.md are run by packaging/test_packaging.py."""
import re
import shutil
import subprocess

import pytest

from tools import served
from tools.served import Server

# A copy of the repository with an edit takes its place where the tests are seen to fail.
TOP = served.TOP

fails_with = pytest.mark.fails_with

DOCUMENTS = ["README.md", "CONTRIBUTING.md", "docs/OPERATING.md", "docs/REPLAY.md", "docs/SCALING.md"]
LANGUAGES = {"sh", "python"}

# The beginnings of the blocks that no test here runs.
NOT_RUN = {
    "python3 tools/start.py": "proves the whole program; the gate tries it with --try, and runs itself",
    "cd crates/mc_protocol_tests": "takes minutes; `rt ci` runs these tests",
    "for port in 11211": "tools/clients/test_scaling.py starts such servers behind the proxy",
}


def blocks(document):
    """The language and the text of each block, in order."""
    return re.findall(r"^```(\w*)\n(.*?)^```", (TOP / document).read_text(), re.M | re.S)


def block_with(document, words):
    """The block that holds these words, and what is shown below it."""
    found = blocks(document)
    (place,) = [place for place, (_, text) in enumerate(found) if words in text]
    return found[place][1], found[place + 1][1] if place + 1 < len(found) else ""


def printed(words, given=None):
    """What a command prints that succeeds, with line ends of text."""
    ran = subprocess.run(words, input=given, cwd=TOP, capture_output=True, text=True, timeout=120)
    assert ran.returncode == 0, ran.stderr
    return ran.stdout.replace("\r\n", "\n")


@fails_with(("README.md", r"(?m)^VALUE a 0 2$", "VALUE a 0 3"), ("README.md", r"get a\\r\\n", r"get b\\r\\n"))
def test_the_readmes_example_prints_what_is_shown():
    if not shutil.which("nc"):
        pytest.skip("no nc here")
    command, shown = block_with("README.md", "nc -q 1")
    with Server("--drop-in") as server:
        assert printed(["sh", "-ec", command.replace("11211", str(server.port))]) == shown


@fails_with(("docs/REPLAY.md", r"done 13 idle 1", "done 13 idle 2"))
def test_the_replay_prints_what_is_shown():
    command, shown = block_with("docs/REPLAY.md", "--replay")
    assert printed(["sh", "-ec", command]) == shown


@fails_with(("docs/OPERATING.md", r"--memory 64m\n", "--memory 64q\n"), ("docs/OPERATING.md", r"get a\\r\\n", r"get b\\r\\n"))
def test_the_first_commands_of_an_operator_succeed():
    command, _ = block_with("docs/OPERATING.md", "--stdio --memory 64m")
    lines = [it for it in command.splitlines() if it != "packaging/deb" or shutil.which("dpkg-deb")]
    assert "VALUE a 0 2\nhi\n" in printed(["sh", "-ec", "\n".join(lines)])


@fails_with(("docs/SCALING.md", r"behaviors=", "behaviours="))
def test_the_client_of_several_servers_is_made():
    if subprocess.run(["/usr/bin/python3", "-c", "import pylibmc"], capture_output=True, timeout=60).returncode:
        pytest.skip("no pylibmc here")
    command, _ = block_with("docs/SCALING.md", "import pylibmc")
    assert printed(["/usr/bin/python3", "-"], command) == ""


@fails_with(("docs/REPLAY.md", r"(?m)\A", "```sh\nfalse\n```\n"))
def test_each_block_is_run_or_left_out_for_a_reason():
    run = {block_with(*it)[0] for it in [
        ("README.md", "nc -q 1"), ("docs/REPLAY.md", "--replay"), ("docs/OPERATING.md", "--stdio --memory 64m"), ("docs/SCALING.md", "import pylibmc")]}
    shown = [text for document in DOCUMENTS for language, text in blocks(document) if language in LANGUAGES]
    assert [text for text in shown if text not in run and not text.startswith(tuple(NOT_RUN))] == []
