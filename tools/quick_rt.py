#!/usr/bin/env python3
"""Runs the kit's `rt`, and has it sum up the files of each crate once.

    ../../tools/quick_rt.py check|lib|run|test ..   in a crate's folder, as `rt check` and so on

`rt` sums up the files of all crates below one to see whether they have changed, and does so again for each way that leads down to a
crate. There are thousands of ways from the upper crates, so that takes it minutes there before the prover begins. What is proved,
built and kept is as `rt` leaves it.
"""
import functools
import importlib.machinery
import os
import runpy
import shutil
import sys

RT = os.path.realpath(shutil.which("rt"))


def quicken(module):
    """Changes the crate of `rtlib`. A kit whose crate has no such method runs as it is."""
    crate = getattr(module, "Crate", None)
    if hasattr(crate, "stamp"):
        crate.stamp = functools.cache(crate.stamp)


class Loader(importlib.machinery.SourceFileLoader):
    """Loads a module of the kit as it is, but for that."""

    def exec_module(self, module):
        super().exec_module(module)
        quicken(module)


# One kit's `rt` imports `rtlib`, which is beside it; another's loads it again by this loader.
sys.dont_write_bytecode = True
sys.path.insert(0, os.path.dirname(RT))
import rtlib  # noqa: E402 (the kit's module)

quicken(rtlib)
importlib.machinery.SourceFileLoader = Loader
sys.argv[0] = RT
runpy.run_path(RT, run_name="__main__")
