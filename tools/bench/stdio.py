#!/usr/bin/env python3
"""Measures `mcd --stdio` on pipelined commands, on one core.

    tools/bench/stdio.py [PROGRAM]             commands and megabytes a second, beside `wc -l` on the same bytes
    tools/bench/stdio.py --count [PROGRAM]     instructions a command of each mix, and bytes of memory an item
    tools/bench/stdio.py --profile [PROGRAM]   instructions a command by function, of the mix that `--mix` names

Instructions are those outside system calls, counted by valgrind's callgrind as the difference of two runs, so that
the start and the filling of the cache are left out: all keys are stored before anything is counted. With --count the
same is measured of memcached (one worker thread, over a socket), if it is installed.

PROGRAM is the built program, crates/mcd/out/mcd by default (`rt run` in crates/mcd builds it).
"""
import argparse
import pathlib
import re
import shutil
import signal
import socket
import subprocess
import tempfile
import threading
import time

TOP = pathlib.Path(__file__).resolve().parent.parent.parent
KEYS = 5_000
RUNS = 3
VALUE = b"v" * 100


def key(number):
    """A key of 32 bytes; the numbers are spread over all keys."""
    return b"key:%028d" % (number * 7919 % KEYS)


def filled():
    return [b"set %s 0 0 100\r\n%s\r\n" % (key(i), VALUE) for i in range(KEYS)]


def set_of(i):
    return b"set %s 0 0 100\r\n%s\r\n" % (key(i), VALUE)


def get_of(i):
    return b"get %s\r\n" % key(i)


# The mixes: a name, and the ith command.
MIXES = [
    ("mn", lambda i: b"mn\r\n"),
    ("get hit", get_of),
    ("get miss", lambda i: b"get none%s\r\n" % key(i)),
    ("set", set_of),
    ("set with an expiry", lambda i: b"set %s 0 1000 100\r\n%s\r\n" % (key(i), VALUE)),
    ("half gets, half sets", lambda i: set_of(i) if i % 2 else get_of(i)),
    ("mg v", lambda i: b"mg %s v\r\n" % key(i)),
    ("ms", lambda i: b"ms %s 100\r\n%s\r\n" % (key(i), VALUE)),
    ("get of 100 keys", lambda i: b"get " + b" ".join(key(100 * i + k) for k in range(100)) + b"\r\n"),
]


def small_commands(count):
    """Half sets and half gets, of keys of 32 bytes and values of 100."""
    yield from filled()
    for i in range(count):
        yield set_of(i) if i % 2 else get_of(i)


def large_commands(count):
    """Sets and gets of values of 1 MiB."""
    value = b"v" * 1_048_576
    for i in range(count // 2):
        yield b"set big%d 0 0 1048576\r\n%s\r\n" % (i % 4, value)
        yield b"get big%d\r\n" % (i % 4)


def on_one_core(command):
    return (["taskset", "-c", "0"] if shutil.which("taskset") else []) + command


def seconds(command, path):
    best = None
    for _ in range(RUNS):
        with open(path, "rb") as stdin:
            began = time.perf_counter()
            subprocess.run(on_one_core(command), stdin=stdin, stdout=subprocess.DEVNULL, check=True)
            taken = time.perf_counter() - began
        best = taken if best is None else min(best, taken)
    return best


def measure(program, folder):
    for name, commands, count in (("100-byte values", small_commands, 1_000_000), ("1 MiB values", large_commands, 400)):
        path = folder / "input"
        with open(path, "wb") as out:
            out.writelines(commands(count))
        size = path.stat().st_size
        ours = seconds([program, "--stdio", "--at", "1000"], path)
        theirs = seconds(["wc", "-l"], path)
        print(f"{name}: {count} commands, {size / 1e6:.1f} MB in")
        print(f"  mcd --stdio  {ours:6.3f} s  {count / ours:12,.0f} commands/s  {size / 1e6 / ours:8.1f} MB/s")
        print(f"  wc -l        {theirs:6.3f} s  {'':12}             {size / 1e6 / theirs:8.1f} MB/s")


def callgrind(data, command, **how):
    # With at most 1,024 open files: of these valgrind keeps 12, and memcached must be asked for just the rest.
    limited = ["sh", "-c", 'ulimit -n 1024; exec "$@"', ""]
    whole = [*limited, "valgrind", "--tool=callgrind", f"--callgrind-out-file={data}", *command]
    return subprocess.Popen(whole, stderr=subprocess.DEVNULL, **how)


def mcd_run(program, folder, commands):
    """Runs the program on the commands, and returns callgrind's file."""
    path, data = folder / "input", folder / "callgrind"
    path.write_bytes(b"".join(filled() + commands))
    with open(path, "rb") as stdin:
        if callgrind(data, [program, "--stdio", "--at", "1000"], stdin=stdin, stdout=subprocess.DEVNULL).wait() != 0:
            raise SystemExit("the program failed under valgrind")
    return data


def connected(place):
    """A connection to the server at this place, once it listens."""
    line = socket.socket(socket.AF_UNIX)
    for _ in range(200):
        try:
            line.connect(str(place))
            break
        except OSError:
            time.sleep(0.1)
    return line


def memcached_run(program, folder, commands):
    """Runs memcached on the commands, over a socket, and returns callgrind's file."""
    data, place = folder / "callgrind", folder / "socket"
    place.unlink(missing_ok=True)
    server = callgrind(data, [program, "-t", "1", "-m", "256", "-c", "1012", "-u", "root", "-s", str(place)], stdout=subprocess.DEVNULL)
    line = connected(place)
    sender = threading.Thread(target=lambda: line.sendall(b"".join(filled() + commands) + b"quit\r\n"))
    sender.start()
    while line.recv(1 << 16):
        pass
    sender.join()
    server.send_signal(signal.SIGTERM)
    server.wait()
    return data


def total(data):
    """All instructions that callgrind counted."""
    found = re.search(r"^(?:totals|summary): (\d+)", data.read_text(errors="replace"), re.M)
    return int(found[1])


def instructions(run, program, folder, command):
    """Instructions a command of a mix, as the difference of two runs."""
    few, many = 200, 2_200
    before = total(run(program, folder, [command(i) for i in range(few)]))
    after = total(run(program, folder, [command(i) for i in range(many)]))
    return (after - before) / (many - few)


def memory_of(process):
    found = re.search(r"^VmRSS:\s+(\d+)", pathlib.Path(f"/proc/{process.pid}/status").read_text(), re.M)
    return int(found[1]) * 1024


def grown(process, asked):
    """How a server grows for each of 500,000 items with keys of 16 bytes and values of 100."""
    items = 500_000
    asked(b"")
    before = memory_of(process)
    for first in range(0, items, 1000):
        asked(b"".join(b"set k%015d 0 0 100 noreply\r\n%s\r\n" % (i, VALUE) for i in range(first, first + 1000)))
    return (memory_of(process) - before) / items


def until_noop(write, read):
    """A call that sends commands with a noop behind them, and reads until that is answered."""
    def asked(commands):
        write(commands + b"mn\r\n")
        text = b""
        while not text.endswith(b"MN\r\n"):
            text = (text + read(1 << 16))[-16:]

    return asked


def mcd_bytes(program):
    server = subprocess.Popen(
        [program, "--stdio", "--bytes", "1073741824"], stdin=subprocess.PIPE, stdout=subprocess.PIPE, bufsize=0,
    )
    found = grown(server, until_noop(server.stdin.write, server.stdout.read))
    server.stdin.close()
    server.wait()
    return found


def memcached_bytes(program, folder):
    place = folder / "socket"
    place.unlink(missing_ok=True)
    server = subprocess.Popen([program, "-t", "1", "-m", "1024", "-u", "root", "-s", str(place)], stdout=subprocess.DEVNULL)
    line = connected(place)
    found = grown(server, until_noop(line.sendall, line.recv))
    line.close()
    server.kill()
    server.wait()
    return found


def count(program, folder):
    other = shutil.which("memcached")
    print(f"{'instructions a command':24}{'mcd':>12}{'memcached' if other else '':>12}")
    for name, command in MIXES:
        ours = instructions(mcd_run, program, folder, command)
        theirs = f"{instructions(memcached_run, other, folder, command):12,.0f}" if other else ""
        print(f"{name:24}{ours:12,.0f}{theirs}", flush=True)
    theirs = f"{memcached_bytes(other, folder):12,.0f}" if other else ""
    print(f"{'bytes an item':24}{mcd_bytes(program):12,.0f}{theirs}")


def by_function(data):
    listed = subprocess.run(["callgrind_annotate", data], capture_output=True, text=True, check=True).stdout
    table = {}
    for line in listed.splitlines():
        found = re.match(r"\s*([\d,]+) \(\s*[\d.]+%\)\s+(\S.*)", line)
        if found:
            table[found[2].split("[")[0].strip()] = int(found[1].replace(",", ""))
    return table


def profile(program, folder, mix):
    few, many = 200, 4_200
    command = dict(MIXES)[mix]
    before = by_function(mcd_run(program, folder, [command(i) for i in range(few)]))
    after = by_function(mcd_run(program, folder, [command(i) for i in range(many)]))
    rows = sorted(((after[name] - before.get(name, 0)) / (many - few), name) for name in after)
    for per_command, name in reversed(rows[-40:]):
        print(f"{per_command:9.1f}  {name}")


def main():
    parser = argparse.ArgumentParser(description=__doc__.splitlines()[0])
    parser.add_argument("--count", action="store_true")
    parser.add_argument("--profile", action="store_true")
    parser.add_argument("--mix", choices=list(dict(MIXES)), default="half gets, half sets")
    parser.add_argument("program", nargs="?", default=str(TOP / "crates/mcd/out/mcd"))
    given = parser.parse_args()
    with tempfile.TemporaryDirectory() as folder:
        if given.profile:
            profile(given.program, pathlib.Path(folder), given.mix)
        else:
            work = count if given.count else measure
            work(given.program, pathlib.Path(folder))


if __name__ == "__main__":
    main()
