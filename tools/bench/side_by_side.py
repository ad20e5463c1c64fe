#!/usr/bin/env python3
"""Measures mcd and memcached side by side over TCP on loopback, and writes a table and a plot.

    python3 -m tools.bench.side_by_side [--rounds 5] [--seconds 3] [--seats 1024] [--only WORD] [--folder docs/benchmarks] [PROGRAM]

Each round starts both servers again, fills them with all keys, and runs every workload on the one and then on the
other; the next round begins with the other. tools/bench/load.c sends the requests and checks every reply. Printed are
medians over the rounds: requests a second, CPU microseconds a request of the server (from /proc), the ratio of mcd to
memcached of both, and the latencies that half of the requests, 99 of 100 and 999 of 1,000 don't pass. A workload of
more connections than mcd has seats is left out. PROGRAM is the built program, crates/mcd/out/mcd by default.
"""
import argparse
import contextlib
import json
import pathlib
import re
import shutil
import statistics
import subprocess
import tempfile

from tools.served import TOP, AnyServer

# A workload: its name, and the words for the load generator. 100,000 keys of 16 bytes, values of 100, a tenth sets.
WORKLOADS = [
    ("1 connection", "--connections 1"),
    ("4 connections", "--connections 4"),
    ("16 connections", "--connections 16 --threads 2"),
    ("32 connections", "--connections 32 --threads 2"),
    ("64 connections", "--connections 64 --threads 2"),
    ("256 connections", "--connections 256 --threads 2"),
    ("1,024 connections", "--connections 1024 --threads 2"),
    ("64 connections, pipeline 8", "--connections 64 --threads 2 --pipeline 8"),
    ("16 connections, pipeline 32", "--connections 16 --threads 2 --pipeline 32"),
    ("16 connections, pipeline 32, mg and ms", "--connections 16 --threads 2 --pipeline 32 --meta"),
    ("16 connections, pipeline 8, 90% sets", "--connections 16 --threads 2 --pipeline 8 --sets 0.9"),
    ("16 connections, get of 100 keys", "--connections 16 --threads 2 --multiget 100 --sets 0"),
    ("16 connections, 64 KiB values", "--connections 16 --threads 2 --keys 1000 --value-size 65536"),
]


def build_load(folder):
    """The load generator, built in this folder."""
    made = f"{folder}/load"
    subprocess.run(["cc", "-O2", "-std=gnu11", "-o", made, TOP / "tools/bench/load.c", "-lpthread", "-lm"], check=True)
    return made


def sent(load, server, words):
    ran = subprocess.run([load, "--port", str(server.port), *words], capture_output=True, text=True)
    if ran.returncode != 0:
        raise SystemExit(f"a reply was wrong: {ran.stderr.strip()} {ran.stdout.strip()}")
    return json.loads(ran.stdout)


def sample(load, server, words, seconds):
    """Requests a second, CPU microseconds a request, and the latencies in microseconds."""
    spread = [word for word in words if word.startswith("--keys") or word.startswith("--value-size")]
    places = [words.index(word) for word in spread]
    sent(load, server, ["--fill", "--connections", "4", *(it for at in places for it in words[at:at + 2])])
    before = server.cpu_seconds()
    figures = sent(load, server, [*words, "--seconds", str(seconds)])
    cpu = (server.cpu_seconds() - before) * 1e6 / figures["requests"]
    return figures["rate"], cpu, figures["p50_us"], figures["p99_us"], figures["p999_us"]


def workloads(given):
    """The workloads that are asked for, and that mcd has seats for."""
    for workload, words in WORKLOADS:
        if int(re.search(r"--connections (\d+)", words)[1]) <= given.seats and given.only in workload:
            yield workload, words


def measure(given, load):
    servers = {
        "mcd": [given.program, "--listen", "127.0.0.1:{port}", "--shards", "2", "--seats", str(given.seats), "--bytes", "536870912"],
        "memcached": [shutil.which("memcached"), "-l", "127.0.0.1", "-p", "{port}", "-t", "2", "-m", "1024", "-c", "8192", "-u", "root"],
    }
    found = {}
    for number in range(given.rounds):
        names = list(servers) if number % 2 == 0 else list(servers)[::-1]
        with contextlib.ExitStack() as stack:
            running = {name: stack.enter_context(AnyServer(servers[name])) for name in names}
            for workload, words in workloads(given):
                for name in names:
                    found.setdefault((workload, name), []).append(sample(load, running[name], words.split(), given.seconds))
        print(f"round {number + 1} of {given.rounds}", flush=True)
    return found


def medians(found, workload, name):
    return [statistics.median(one[place] for one in found[workload, name]) for place in range(5)]


def rows(found):
    for workload in dict.fromkeys(workload for workload, _ in found):
        ours, theirs = medians(found, workload, "mcd"), medians(found, workload, "memcached")
        yield workload, ours, theirs, ours[0] / theirs[0], ours[1] / theirs[1]


def table(found):
    """Two tables: rates and CPU with their ratios, and latencies."""
    rates = [
        "| workload | mcd: requests/s, CPU µs | memcached: the same | requests/s, mcd to memcached | CPU, mcd to memcached |",
        "|---|---|---|---|---|",
    ]
    latencies = ["", "| workload | mcd: p50, p99, p99.9 in µs | memcached: the same |", "|---|---|---|"]
    for workload, ours, theirs, rate, cpu in rows(found):
        rates.append(f"| {workload} | {ours[0]:,.0f}, {ours[1]:.2f} | {theirs[0]:,.0f}, {theirs[1]:.2f} | {rate:.2f} | {cpu:.2f} |")
        texts = [", ".join(f"{it:,.0f}" for it in one[2:]) for one in (ours, theirs)]
        latencies.append(f"| {workload} | {texts[0]} | {texts[1]} |")
    return "\n".join(rates + latencies) + "\n"


def plot(found, folder):
    """Bars of the ratios of CPU a request and of requests a second, by gnuplot if it is installed."""
    if not shutil.which("gnuplot"):
        return
    data = "\n".join(f'"{workload}" {rate:.3f} {cpu:.3f}' for workload, _, _, rate, cpu in rows(found))
    script = f"""
        set terminal svg size 940,480 font "sans,12" background rgb "white"
        set rmargin at screen 0.84
        set output "{folder}/side-by-side.svg"
        set style data histograms
        set style fill solid 0.8
        set yrange [0:*]
        set ylabel "mcd to memcached"
        set xtics rotate by -25
        set grid ytics
        set key top left
        $Data << EOD
{data}
EOD
        plot 1 with lines lc "gray" title "", $Data using 3:xtic(1) title "CPU a request (lower is better)", \\
        "" using 2 title "requests a second (higher is better)"
    """
    subprocess.run(["gnuplot"], input=script, text=True, check=True)


def main():
    parser = argparse.ArgumentParser(description=__doc__.splitlines()[0])
    parser.add_argument("--rounds", type=int, default=5)
    parser.add_argument("--seconds", type=float, default=3)
    parser.add_argument("--seats", type=int, default=1024)
    parser.add_argument("--only", default="")
    parser.add_argument("--folder", type=pathlib.Path, default=TOP / "docs/benchmarks")
    parser.add_argument("program", nargs="?", default=str(TOP / "crates/mcd/out/mcd"))
    given = parser.parse_args()
    with tempfile.TemporaryDirectory() as folder:
        found = measure(given, build_load(folder))
    given.folder.mkdir(parents=True, exist_ok=True)
    (given.folder / "side-by-side.md").write_text(table(found))
    plot(found, given.folder)
    print(table(found))


if __name__ == "__main__":
    main()
