"""The Python of the repository: unknown and unused names, and its layout. Ruff checks it if it is installed, else Debian's pyflakes and
pycodestyle do. pyproject.toml has the rules.
"""
import importlib.util
import shutil
import subprocess
import sys

import pytest

from tools.served import TOP


@pytest.fixture(scope="session", autouse=True)
def soak():
    """In place of the one of conftest.py, which needs the program: sources can be checked before it is built."""


@pytest.mark.fails_with(("tools/served.py", "import time\n", "import time\nimport abc\n"), ("tools/served.py", "MIB = 1 << 20", "MIB = 1 <<20"))
def test_style():
    listed = subprocess.run(["git", "ls-files", "*.py"], cwd=TOP, capture_output=True, text=True, check=True).stdout.split()
    files = [it for it in listed if (TOP / it).is_file()]
    if shutil.which("ruff"):
        assert subprocess.run(["ruff", "check", *files], cwd=TOP).returncode == 0
        return
    for words in (["pyflakes"], ["pycodestyle", "--max-line-length=160", "--ignore=W503,E203"]):
        if not importlib.util.find_spec(words[0]):
            pytest.skip(f"no {words[0]} here")
        ran = subprocess.run([sys.executable, "-m", *words, *files], cwd=TOP, capture_output=True, text=True)
        assert ran.stdout.splitlines() == []
