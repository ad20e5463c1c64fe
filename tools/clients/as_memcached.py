"""Starts mcd with `--drop-in` by memcached's options: with those that have a counterpart, without the others."""
import os
import re
import sys

from tools.served import mcd

# What memcached is started with by default: its address, its port and its memory in MiB.
USUAL = {"-l": "127.0.0.1", "-p": "11211", "-m": "64"}
IDLE = re.compile(r"idle_timeout=(\d+)")
SHARDS = "MCD_TEST_SHARDS"


def words_for(words):
    """The words of mcd for those of memcached."""
    given = {**USUAL, **{word: value for word, value in zip(words, words[1:]) if word in USUAL}}
    place = f"--unix-socket={words[words.index('-s') + 1]}" if "-s" in words else f"--listen={given['-l']}:{given['-p']}"
    made = mcd("--drop-in", place, f"--memory={given['-m']}m")
    if SHARDS in os.environ:
        made.append(f"--shards={os.environ[SHARDS]}")
    idle = IDLE.search(" ".join(words))
    return [*made, f"--idle-timeout={idle[1]}"] if idle else made


if __name__ == "__main__":
    command = mcd("--help") if "-h" in sys.argv else words_for(sys.argv[1:])
    os.execv(command[0], command)
