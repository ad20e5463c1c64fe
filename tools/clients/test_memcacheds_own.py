"""memcached's own tests, against mcd with `--drop-in`. A minute.

The sources of memcached 1.6.18 are fetched from Debian, or are in the folder that the variable MEMCACHED_SOURCES names. Where they
can't be had, or there is no perl, the tests are skipped.

Each test starts the server as `memcached-debug`, by memcached's options. Here that is as_memcached.py, which starts mcd. What moves
memcached's clock waits instead.

OTHERWISE has the assertions that mcd doesn't fulfil, with the reason; docs/PROTOCOL.md has those differences that a client sees.
One of them that holds is a failure too, so that the list stays true. Not run are the tests of what mcd doesn't have: the binary
protocol, TLS, SASL, UDP, storage on disk, the proxy, `watch`, `slabs`, `lru_crawler`, `shutdown`, and a memory
limit that changes or refuses; and those that read little else than `stats` of memcached's own memory, threads and connections.

Without `--drop-in` two of six files that were tried failed, as they should: `cas` and `metaget`.
"""
import concurrent.futures
import contextlib
import hashlib
import io
import os
import pathlib
import re
import shutil
import signal
import subprocess
import sys
import tarfile
import urllib.request

import pytest

from tools.clients.as_memcached import SHARDS
from tools.served import TOP, WITH_US

SOURCES = "https://deb.debian.org/debian/pool/main/m/memcached/memcached_1.6.18.orig.tar.xz"
SUM = "35872bd25f8d29d7cc2072d23e74344530891bfd0aa4f4f64184a8ae7291164b"
FETCH_SECONDS, TEST_SECONDS = 30, 120

# Each test, the longest first.
TESTS = """
    getset unixsocket chunked-items expirations idle-timeout issue_41 flush-all issue_14 evictions issue_22 issue_163 metaget cas issue_183
    touch getandtouch lru bogus-commands flags incrdecr issue_104 issue_108 issue_152 issue_192 issue_3 issue_42 issue_61 issue_68
    issue_70 malicious-commands multiversioning noreply quit strtol-testing
""".split()

TEXT = "what follows CLIENT_ERROR"
STATS = "a line of stats that memcached has of itself"
OTHERWISE = {
    "flush-all": {22: TEXT, **dict.fromkeys([25, 26, 27], "-F, which forbids flush_all")},
    "idle-timeout": {1: STATS, 9: STATS},
    "issue_152": {2: TEXT},
    "issue_163": {4: STATS},
    "issue_183": {5: "reclaimed, of an item that flush_all removed"},
    "issue_22": {43: "stats items", 84: "stats items"},
    "issue_3": {2: TEXT},
    "issue_42": {11: "stats slabs"},
    "issue_61": {7: STATS},
    "malicious-commands": {**dict.fromkeys([1, 2], "HTTP is closed by a reset"), 3: "DELETE without a path is read as a line"},
    "metaget": {3: "me", 4: "me", 123: "the flag I of ms"},
    "strtol-testing": {2: "slabs reassign"},
}

# Tests that count what is evicted of a memory that isn't divided: their server has one shard, the others what mcd has by itself.
OF_ONE_SHARD = {"lru"}

CLOCK = re.compile(r'print \$sock "debugtime \$move\\r\\n";\n\s*<\$sock>;')
PLAN = re.compile(r"^1\.\.(\d+)", re.M)
ASSERTION = re.compile(r"^(not )?ok (\d+)(.*)", re.M)


def fetched(folder):
    """Unpacks memcached's sources there; why that couldn't be done, if so."""
    try:
        with urllib.request.urlopen(SOURCES, timeout=FETCH_SECONDS) as answer:
            packed = answer.read()
    except OSError as fault:
        return f"{SOURCES}: {fault}"
    if hashlib.sha256(packed).hexdigest() != SUM:
        return f"{SOURCES} has another sum"
    with tarfile.open(fileobj=io.BytesIO(packed)) as archive:
        archive.extractall(folder)
    return None


def prepare(sources, folder):
    """A folder in which the tests run: with them, with the server that they start, and with `timedrun`, by which they start it."""
    shutil.copytree(sources / "t", folder / "t")
    library = folder / "t/lib/MemcachedTest.pm"
    text, changed = CLOCK.subn("select undef, undef, undef, $move + 1.05;", library.read_text())
    if changed != 1:
        pytest.fail(f"{sources} isn't memcached 1.6.18")
    library.write_text(text)
    us = " ".join([f"PYTHONPATH={TOP}", "exec", *WITH_US, sys.executable, "-m", "tools.clients.as_memcached", '"$@"'])
    for name, line in {"memcached-debug": us, "timedrun": 'shift; exec "$@"'}.items():
        (folder / name).write_text(f"#!/bin/sh\n{line}\n")
        (folder / name).chmod(0o755)


def output_of(name, folder):
    """What a test prints, on both streams. It ends with its servers, at the latest after TEST_SECONDS."""
    shards = {SHARDS: "1"} if name in OF_ONE_SHARD else {}
    streams = {"stdin": subprocess.DEVNULL, "stdout": subprocess.PIPE, "stderr": subprocess.PIPE, "text": True, "errors": "replace"}
    words = [*WITH_US, "perl", "-It/lib", "-I.", f"t/{name}.t"]
    with subprocess.Popen(words, cwd=folder, env={**os.environ, **shards}, start_new_session=True, **streams) as perl:
        try:
            return perl.communicate(timeout=TEST_SECONDS)
        except subprocess.TimeoutExpired:
            os.killpg(perl.pid, signal.SIGKILL)
            return perl.communicate()
        finally:
            with contextlib.suppress(ProcessLookupError):
                os.killpg(perl.pid, signal.SIGKILL)


def run(name, folder):
    """How many assertions of a test hold, how many are answered otherwise as OTHERWISE says, and what failed."""
    output, why = output_of(name, folder)
    otherwise, held, failed = OTHERWISE.get(name, {}), set(), []
    for refused, number, what in ASSERTION.findall(output):
        if not refused:
            held.add(int(number))
        elif int(number) not in otherwise:
            failed.append(f"{name} {number}{what}")
    failed += [f"{name} {number}: it holds, so OTHERWISE shouldn't have it" for number in held & set(otherwise)]
    plan = PLAN.search(output)
    if not plan or len(ASSERTION.findall(output)) != int(plan[1]):
        failed.append(f"{name} wasn't run to its end: {why[-300:]}")
    return len(held), len(otherwise), failed


@pytest.fixture(scope="module")
def results(tmp_path_factory):
    """What comes of each test. Some are run at a time."""
    folder, sources = tmp_path_factory.mktemp("memcached"), os.environ.get("MEMCACHED_SOURCES")
    refused = None if sources else fetched(folder)
    if refused or not shutil.which("perl"):
        pytest.skip(refused or "no perl here")
    prepare(pathlib.Path(sources) if sources else next(folder.glob("memcached-*")), folder)
    with concurrent.futures.ThreadPoolExecutor(len(os.sched_getaffinity(0))) as at_once:
        yield {name: at_once.submit(run, name, folder) for name in TESTS}


@pytest.mark.parametrize("name", TESTS)
def test_a_file_of_memcached(results, name):
    held, otherwise, failed = results[name].result()
    print(f"{held} assertions hold, {otherwise} are answered otherwise")
    assert failed == []
