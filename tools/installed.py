#!/usr/bin/env python3
"""Installs what the tests need from Debian, as far as that can be done in two minutes: pytest and hypothesis, the clients and tools
that they drive, and memcached. A test whose client isn't there is skipped.

    tools/installed.py
"""
import os
import shutil
import subprocess
import time

SECONDS = 120
QUIET = {"stdin": subprocess.DEVNULL, "stdout": subprocess.DEVNULL, "stderr": subprocess.DEVNULL}

# Debian's packages, each with a command that succeeds if it is there.
PACKAGES = {
    **{f"python3-{name}": ["/usr/bin/python3", "-c", f"import {module}"] for name, module in [
        ("pytest", "pytest"), ("hypothesis", "hypothesis"), ("pymemcache", "pymemcache"), ("pylibmc", "pylibmc"), ("memcache", "memcache"),
        ("django", "django"), ("pyflakes", "pyflakes"), ("pycodestyle", "pycodestyle")]},
    "php-cli": ["php", "-v"], "php-memcached": ["php", "-r", "new Memcached();"],
    "libcache-memcached-perl": ["perl", "-MCache::Memcached", "-e", "1"],
    "libcache-memcached-fast-perl": ["perl", "-MCache::Memcached::Fast", "-e", "1"],
    "netcat-openbsd": ["nc.openbsd", "-h"], "libmemcached-tools": ["memccapable", "-h"],
    "nutcracker": ["nutcracker", "--version"], "memcached": ["memcached", "--version"],
}


def succeeds(words, until, **environment):
    """Whether the command succeeds before that moment."""
    try:
        return subprocess.run(words, timeout=max(0.1, until - time.monotonic()), env={**os.environ, **environment}, **QUIET).returncode == 0
    except (OSError, subprocess.TimeoutExpired):
        return False


def main():
    until = time.monotonic() + SECONDS
    missing = [package for package, probe in PACKAGES.items() if not succeeds(probe, until)]
    if not missing or not shutil.which("apt-get") or os.geteuid() != 0:
        return
    fast = ["-q", "-o", "Acquire::Retries=0", "-o", "Acquire::http::Timeout=10", "-o", "DPkg::Lock::Timeout=10"]
    get = ["apt-get", "install", "-y", "--no-install-recommends", *fast]
    if succeeds(["apt-get", "update", *fast], until) and not succeeds([*get, *missing], until, DEBIAN_FRONTEND="noninteractive"):
        for package in missing:
            succeeds([*get, package], until, DEBIAN_FRONTEND="noninteractive")


if __name__ == "__main__":
    main()
