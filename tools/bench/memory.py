#!/usr/bin/env python3
"""Measures how much memory items take: of mcd, and of memcached if it is installed, in the same run.

    python3 -m tools.bench.memory items [--key 16] [--exptime 0] [--rounds 1] [--only mcd]     bytes an item, by the length of its value
    python3 -m tools.bench.memory full        resident memory of a server that is full, by the length of its values, without expiries and with them
    python3 -m tools.bench.memory churn       resident memory by budget while values around 120 bytes are stored
    python3 -m tools.bench.memory shift       the same while the lengths change: eight phases, or twenty random ones with `--seed N`
    python3 -m tools.bench.memory hits        the hit ratio of a cache that takes 256 MiB in all

`--memory` is the budget in MiB. One shard or thread each; keys of 24 bytes by zipf but for `items`; lengths of values are lognormal.
load.c sends the commands and checks the replies. PROGRAM, behind all options, is the built program, else crates/mcd/out/mcd.
"""
import argparse
import math
import random
import shutil
import tempfile

from tools.bench.side_by_side import build_load, sent
from tools.served import MIB, TOP, AnyServer

# The lengths of values of which `items` measures, and how many items of each.
LENGTHS = {10: 500_000, 16: 500_000, 100: 500_000, 300: 500_000, 1_000: 200_000, 1_024: 200_000, 16_384: 20_000}
# The phases of `shift`: the median of the lengths and their sigma.
PHASES = [(120, 1.0), (120, 1.0), (600, 1.0), (40, 1.0), (120, 1.0), (120, 0.3), (2_000, 0.5), (120, 1.0)]
# What an item costs beside its value, with a key of 24 bytes.
COST = 88
TARGET = 256


class Cache(AnyServer):
    """A server of one shard or thread, whose items may take `megabytes` MiB, and the load generator."""

    def __init__(self, name, asked, megabytes):
        words = {
            "mcd": [asked.program, "--drop-in", "-l", "127.0.0.1:{port}", "--shards", "1", "--seats", "8", "--memory", f"{megabytes * MIB:.0f}"],
            "memcached": ["memcached", "-l", "127.0.0.1", "-p", "{port}", "-U", "0", "-t", "1", "-u", "nobody", "-c", "64", "-m", f"{megabytes:.0f}"],
        }
        super().__init__(words[name])
        self.load = asked.load

    def sent(self, **options):
        words = [f"--{name.replace('_', '-')}={value}" for name, value in options.items() if value is not True]
        return sent(self.load, self, ["--pipeline", "1000", *words, *(f"--{name}" for name, value in options.items() if value is True)])

    def stores(self, median, sigma, sets, keys=2_000_000, theta=0.9, seed=0, key_size=24):
        """Sets of keys by zipf, each with a length of its own."""
        self.sent(zipf=True, sets=1, keys=keys, theta=theta, sigma=sigma, value_size=median, requests=sets, seed=seed, key_size=key_size)


def bytes_an_item(name, asked, length, count):
    """How a server with room for all grows for each item; before that it has a thousandth of them."""
    with Cache(name, asked, 4096) as cache:
        options = {"fill": True, "value_size": length, "key_size": asked.key, "exptime": asked.exptime}
        cache.sent(keys=1_000, **options)
        before = cache.resident()
        for _ in range(asked.rounds):
            cache.sent(keys=count, **options)
        return (cache.resident() - before) / (count - 1_000)


def items(name, asked):
    found = (f"{length:,}: {bytes_an_item(name, asked, length, count):,.0f}" for length, count in LENGTHS.items())
    print(f"{name}: bytes an item with a key of {asked.key}, by the length of its value:", "; ".join(found), flush=True)


def full(name, asked):
    """As many items as fit are stored six times over, in a random order."""
    for length in (16, 100, 1_024, 16_384):
        fit = asked.memory * MIB // (16 + length + 64)
        for exptime in (0, 100_000):
            with Cache(name, asked, asked.memory) as cache:
                cache.sent(fill=True, keys=fit, value_size=length, exptime=exptime)
                cache.sent(sets=1, keys=fit, value_size=length, exptime=exptime, requests=5 * fit)
                print(f"{name}: {fit:,} values of {length:,}, exptime {exptime:,}: {cache.resident() / MIB:.0f} MiB resident", flush=True)


def churn(name, asked):
    with Cache(name, asked, asked.memory) as cache:
        for millions in (1, 2, 3):
            cache.stores(120, 1.0, 1_000_000, theta=0.99, seed=millions)
            print(f"{name}: {millions} million sets: {cache.resident() / MIB / asked.memory:.2f} budgets resident", flush=True)


def phases(seed, megabytes):
    """What each phase stores: eight of 3 million sets, or random ones of two and a half budgets."""
    for number, (median, sigma) in enumerate(PHASES if seed is None else []):
        yield {"median": median, "sigma": sigma, "sets": 3_000_000, "seed": number}
    some = random.Random(seed)
    for number in range(0 if seed is None else 20):
        median, sigma = int(10 * 2 ** (some.random() * 10)), some.choice((0.1, 0.3, 0.6, 1.0))
        sets = int(2.5 * megabytes * MIB / (median * math.exp(sigma * sigma / 2) + COST))
        yield {
            "median": median, "sigma": sigma, "sets": max(300_000, sets), "keys": max(200_000, int(3e8 / (median + 100))),
            "theta": some.choice((0.7, 0.9, 0.99)), "key_size": some.choice((16, 24, 36, 60)), "seed": number,
        }


def shift(name, asked):
    with Cache(name, asked, asked.memory) as cache:
        print(f"{name}: median length: budgets resident:", end="")
        for phase in phases(asked.seed, asked.memory):
            cache.stores(**phase)
            print(f" {phase['median']}: {cache.resident() / MIB / asked.memory:.2f}", end="", flush=True)
        print(f"; at most {cache.most_resident() / MIB / asked.memory:.2f}", flush=True)


def hit_ratio(name, asked, megabytes):
    """What is resident once 6 million keys were asked for and stored if they weren't there, and the hit ratio of the last 2 million."""
    with Cache(name, asked, megabytes) as cache:
        options = {"zipf": True, "sets": 0, "aside": True, "keys": 3_000_000, "theta": 0.99, "sigma": 1.0, "value_size": 120, "key_size": 24}
        cache.sent(requests=4_000_000, seed=1, **options)
        counted = cache.sent(requests=2_000_000, seed=2, **options)
        return cache.resident() / MIB, counted["hits"] / (counted["hits"] + counted["misses"])


def hits(name, asked):
    megabytes = TARGET * 0.8
    for _ in range(5):
        resident, ratio = hit_ratio(name, asked, megabytes)
        print(f"{name}: a budget of {megabytes:.0f} MiB: {resident:.1f} MiB resident, hit ratio {ratio:.4f}", flush=True)
        if abs(resident / TARGET - 1) < 0.005:
            break
        megabytes = round(megabytes * TARGET / resident)


def most_while_lengths_change(cache, megabytes):
    """The most budgets resident over all phases, each of which stores four budgets, at least 100,000 items."""
    for number, (median, sigma) in enumerate(PHASES):
        sets = 4 * megabytes * MIB / (median * math.exp(sigma * sigma / 2) + COST)
        cache.stores(median, sigma, max(100_000, int(sets)), seed=number)
    return cache.most_resident() / MIB / megabytes


MEASURES = {it.__name__: it for it in (items, full, churn, shift, hits)}


def main():
    reader = argparse.ArgumentParser(description="How much memory items take.")
    reader.add_argument("measure", choices=MEASURES)
    for option, value in (("--key", 16), ("--exptime", 0), ("--rounds", 1), ("--seed", None), ("--memory", None)):
        reader.add_argument(option, type=int, default=value)
    reader.add_argument("--only", choices=("mcd", "memcached"))
    reader.add_argument("program", nargs="?", default=TOP / "crates/mcd/out/mcd", type=str)
    asked = reader.parse_intermixed_args()
    asked.memory = asked.memory or (64 if asked.measure == "full" or asked.seed is not None else 128)
    names = [asked.only] if asked.only else ["mcd"] if not shutil.which("memcached") else ["mcd", "memcached"]
    with tempfile.TemporaryDirectory() as folder:
        asked.load = build_load(folder)
        for name in names:
            MEASURES[asked.measure](name, asked)


if __name__ == "__main__":
    main()
