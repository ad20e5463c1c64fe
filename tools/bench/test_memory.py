"""Resident memory while the lengths of values change over time: what the C library's heap loses by it."""
import argparse

from tools import served
from tools.bench.memory import Cache, most_while_lengths_change
from tools.bench.side_by_side import build_load

MEGABYTES = 64

# The most that resident memory may be, in budgets: 2.48 were measured.
BOUND = 2.6


def test_memory_stays_in_bounds_while_lengths_change(tmp_path):
    asked = argparse.Namespace(load=build_load(tmp_path), program=served.MCD)
    with Cache("mcd", asked, MEGABYTES) as cache:
        most = most_while_lengths_change(cache, MEGABYTES)
    print(f"{most:.2f} of {BOUND} budgets")
    assert most <= BOUND
