"""What all tests share: a server, a limit of time, the soak beside the hostile ones, and the faults with which each is seen to fail.

    pytest FILE::NAME                   one test
    pytest --seen-to-fail [FILE ..]     each test once more for each fault of its marker `fails_with`, with which it must fail

A fault is the name of one of tools/checks/faulty.py, which then replaces the program; an edit of what the test reads, as a file,
a pattern and what replaces it; or a name of the test's module and the name that replaces it.
"""
import re
import shutil
import signal
import subprocess
import sys

import hypothesis
import pytest

from tools import served
from tools.checks.faulty import LINES

# The examples that hypothesis makes are the same ones in each run. A server's time is no matter of its own deadlines.
hypothesis.settings.register_profile("gate", derandomize=True, deadline=None, suppress_health_check=hypothesis.HealthCheck.all())
hypothesis.settings.load_profile("gate")

# What tests of files and the scripts that they start read of the repository.
READ = ["packaging", "docs", "tools", "README.md", "crates/mcd/src", "crates/mcd/out/mcd"]

# The clients of the soak beside other tests rest so long between their rounds, in seconds: these need the machine too.
REST = 0.2


def pytest_addoption(parser):
    parser.addoption("--seen-to-fail", action="store_true", help="put in the faults that each test looks for")
    parser.addoption("--soak", type=float, metavar="SECONDS", help="run tools/bench/soak.py beside the tests")
    parser.addoption("--long", action="store_true", help="a million connections one after another, and five minutes of slow ones")


def pytest_collection_modifyitems(items):
    items.sort(key=lambda it: it.name == "test_the_soak_beside_them")


def pytest_generate_tests(metafunc):
    if not metafunc.config.getoption("seen_to_fail"):
        return
    faults = [fault for marker in metafunc.definition.iter_markers("fails_with") for fault in marker.args]
    found = [pytest.param(it, id=str(it), marks=pytest.mark.xfail(strict=True)) for it in faults]
    if LINES.keys() & set(faults):
        found.append(pytest.param("none", id="a proxy without fault"))
    metafunc.parametrize("fault", found or [pytest.param("", marks=pytest.mark.skip("no fault is put in"))], indirect=True)


def faulty_program(folder, fault):
    """A program that is the real one with this fault. No shell: it needs more open files than one of the tests leaves."""
    program = folder / "mcd"
    words = [sys.executable, "-m", "tools.checks.faulty", fault, served.MCD]
    path = f"os.environ['PYTHONPATH'] = {str(served.TOP)!r}"
    program.write_text(f"#!{sys.executable}\nimport os, sys\n{path}\nos.execv({words[0]!r}, {words!r} + sys.argv[1:])\n")
    program.chmod(0o755)
    return str(program)


def edited_copy(folder, file, pattern, instead):
    """A copy of what tests read, with one edit, in which `git` finds the commits of this repository."""
    for name in READ:
        (folder / name).parent.mkdir(parents=True, exist_ok=True)
        if (served.TOP / name).is_dir():
            shutil.copytree(served.TOP / name, folder / name, ignore=shutil.ignore_patterns("out", "__pycache__"))
        else:
            shutil.copy2(served.TOP / name, folder / name)
    (folder / ".git").write_text(f"gitdir: {served.TOP / '.git'}\n")
    text, count = re.subn(pattern, instead, (folder / file).read_text())
    if not count:
        pytest.exit(f"nothing in {file} is {pattern}")
    (folder / file).write_text(text)
    return folder


@pytest.fixture(autouse=True)
def fault(request, monkeypatch, tmp_path):
    """Puts the fault in, if there is one."""
    put_in = getattr(request, "param", None)
    if put_in is None:
        return
    monkeypatch.setattr(served, "PATIENCE", 5)
    if isinstance(put_in, str):
        monkeypatch.setattr(served, "MCD", faulty_program(tmp_path, put_in))
    elif len(put_in) == 2:
        monkeypatch.setattr(request.module, put_in[0], getattr(request.module, put_in[1]))
    else:
        monkeypatch.setattr(request.module, "TOP", edited_copy(tmp_path / "copy", *put_in))


@pytest.fixture(autouse=True)
def in_time(request):
    """Ends a test that hangs."""
    served.bounded(3600 if request.config.getoption("long") else 900)
    yield
    signal.alarm(0)


@pytest.fixture
def server():
    """A server with the options by default."""
    with served.Server() as it:
        yield it


@pytest.fixture(scope="session", autouse=True)
def soak(request):
    """The soak that runs beside all tests, if it is to."""
    served.needs_program()
    if not (seconds := request.config.getoption("soak")):
        yield None
        return
    words = [sys.executable, served.TOP / "tools/bench/soak.py", "--rest", str(REST), str(seconds)]
    with subprocess.Popen(words, stdin=subprocess.DEVNULL, stdout=subprocess.PIPE) as it:
        yield it
        it.terminate()
