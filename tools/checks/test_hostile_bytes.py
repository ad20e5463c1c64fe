"""The bytes of the worked rows, cut and altered at every place, over `mcd --stdio`."""
import concurrent.futures
import fcntl
import os
import re
import subprocess

import hypothesis
import pytest
from hypothesis import strategies as st

from tools.served import TOP, mcd, run

fails_with = pytest.mark.fails_with

ROWS = TOP / "crates/mc_rows/data/rows.txt"
REPLACED_BY = (0, 10, 13, 32, 255)
PIECES = (1, 2, 3, 7)

# A row with more input than this is cut and altered near its ends alone.
SMALL = 600
FRONT, BACK = 19, 6

# These rows are altered at every place; all rows are cut at every place.
ALTERED = [
    "no-op in pieces", "set and gets", "empty value", "block without line end", "longest key", "many-key get",
    "many-key get and flush_all", "arithmetic", "quiet and noreply", "quit", "recache and stale marks", "compare and swap",
    "meta arithmetic", "base64 keys", "largest value", "unfinished block", "refusals",
]

LINE_LIMIT = 65_536

# The place of the count of a data block among the words of a line, by the line's name; and the names of meta lines with flags.
COUNT_AT = {name: 4 for name in (b"set", b"add", b"replace", b"append", b"prepend", b"cas")} | {b"ms": 2}
META = ([b"mg"], [b"ms"], [b"md"], [b"ma"])

# The most programs that run at a time.
AT_ONCE = 2


def unescaped(text):
    """The bytes that a field of the file of rows stands for."""
    text = re.sub(r"\{(\d+)\*((?:\\\}|[^}])*)\}", lambda it: it[2] * int(it[1]), text)
    plain = {"r": "\r", "n": "\n", "t": "\t"}
    text = re.sub(r"\\(x[0-9a-fA-F]{2}|.)", lambda it: chr(int(it[1][1:], 16)) if it[1][0] == "x" else plain.get(it[1], it[1]), text)
    return text.encode("latin-1")


def rows(drop_in=False):
    """Each row: its name, the options that it is run with, its input and its output; by memcached's rules or by the server's own."""
    for line in ROWS.read_text(encoding="latin-1").splitlines():
        if line and not line.startswith("#"):
            name, moment, budget, given, wanted, *memcacheds = line.split("\t")
            budget, _, limit = budget.partition("/")
            options = ["--stdio", "--at", moment, "--bytes", budget, *(["--value-limit", limit] if limit else [])]
            if drop_in:
                options, wanted = [*options, "--drop-in", "--line-limit", str(LINE_LIMIT)], memcacheds[0] if memcacheds else wanted
            yield name, options, unescaped(given), unescaped(wanted)


def spoken(options, given, piece=None):
    """The output for this input: whole, or in pieces of `piece` bytes, each of which is one read of the program (a pipe of
    packets). The program must end with status 0 and print no message."""
    if piece is None:
        ran = run(*options, given=given)
        assert (ran.returncode, ran.stderr) == (0, b"")
        return ran.stdout
    reading, writing = os.pipe2(os.O_DIRECT)
    fcntl.fcntl(writing, fcntl.F_SETPIPE_SZ, 1 << 20)
    with subprocess.Popen(mcd(*options), stdin=reading, stdout=subprocess.PIPE) as process:
        os.close(reading)
        try:
            for first in range(0, len(given), piece):
                os.write(writing, given[first : first + piece])
        except BrokenPipeError:
            pass  # it has quit
        os.close(writing)
        found = process.stdout.read()
    assert process.returncode == 0
    return found


def commands_in(given):
    """The lines of the commands that are whole in this input, each with its block, up to the last one that is read."""
    first = 0
    while first < len(given):
        end = given.find(b"\n", first, first + LINE_LIMIT) + 1
        if end == 0:
            if len(given) - first >= LINE_LIMIT:
                yield given[first : first + LINE_LIMIT]
            return
        line = given[first:end].removesuffix(b"\n").removesuffix(b"\r")
        words = [word for word in line.split(b" ") if word]
        count = words[COUNT_AT[words[0]]] if words and len(words) > COUNT_AT.get(words[0], len(words)) else b""
        if re.fullmatch(rb"[0-9]{1,20}", count) and int(count) < 2**32:
            end += int(count) + 2
        if end > len(given):
            return
        yield line
        if words[:1] == [b"quit"]:
            return
        first = end


def may_be_silent(line):
    """Whether this line may ask for no reply: by its name, by `noreply`, or by the flag `q` of a meta line."""
    words = [word for word in line.split(b" ") if word]
    return words[:1] == [b"quit"] or words[-1:] == [b"noreply"] or words[:1] in META and any(word[:1] == b"q" for word in words[2:])


def replies_in(text):
    """How many whole replies a text is made of, or None if it ends within one. What a get shows goes on to its last line."""
    count, at, is_open = 0, 0, False
    while at < len(text):
        end = text.find(b"\r\n", at)
        words = text[at:end].split(b" ")
        at = end + 2
        if words[0] in (b"VALUE", b"VA") and end >= 0:
            at += int(words[3 if words[0] == b"VALUE" else 1]) + 2
        if end < 0 or at > len(text) or text[at - 2 : at] != b"\r\n":
            return None
        is_open = words[0] == b"VALUE"
        count += not is_open
    return None if is_open else count


def is_replied(name, place, given, found):
    """Each command that is whole in this input has its reply, but for those that may be silent, and nothing else is written."""
    lines = list(commands_in(given))
    least = sum(not may_be_silent(line) for line in lines)
    count = replies_in(found)
    assert count is not None and least <= count <= len(lines), f"{name}, cut at {place}: {found!r:.200} are not {least} to {len(lines)} whole replies"


def places(given):
    if len(given) <= SMALL:
        return range(len(given))
    return [*range(FRONT), *range(len(given) - BACK, len(given))]


def all_hold(check, cases):
    """Runs the check on each case, some at a time, and returns how many there are."""
    with concurrent.futures.ThreadPoolExecutor(AT_ONCE) as pool:
        return sum(1 for _ in pool.map(lambda case: check(*case), cases))


def is_cut(name, options, given, wanted, place):
    found = spoken(options, given[:place])
    assert wanted.startswith(found), f"{name}, cut at {place}: {found!r:.200} is no beginning of {wanted!r:.200}"
    is_replied(name, place, given[:place], found)


@fails_with("reads a line end more", "forgets a command before a cut")
def test_every_row_is_cut_at_every_byte():
    """The output of a front is a beginning of the output of all: whole replies, one for each command that is whole in it."""
    cases = []
    for name, options, given, wanted in rows():
        assert spoken(options, given) == wanted, name
        is_replied(name, len(given), given, wanted)
        cases += [(name, options, given, wanted, place) for place in places(given)]
    print(f"{all_hold(is_cut, cases)} runs")


@fails_with("reads once")
def test_every_row_is_fed_in_pieces():
    count = 0
    for name, options, given, wanted in rows():
        for piece in PIECES:
            if len(given) <= SMALL:
                assert spoken(options, given, piece) == wanted, (name, piece)
                count += 1
    print(f"{count} runs")


def is_altered(name, options, given, place):
    """What the program says before the altered command stays, and two cuttings give the same."""
    piece = PIECES[place % len(PIECES)] if len(given) <= SMALL else 5_000
    before = spoken(options, given[:place])
    assert spoken(options, given[:place], piece) == before, (name, place)
    for number, byte in enumerate(REPLACED_BY, place):
        altered = given[:place] + bytes([byte]) + given[place + 1 :]
        found = spoken(options, altered)
        assert found.startswith(before), f"{name}, {byte} at {place}: {found!r:.200} doesn't begin with {before!r:.200}"
        piece = PIECES[number % len(PIECES)] if len(given) <= SMALL else 5_000
        assert spoken(options, altered, piece) == found, (name, byte, place)


@fails_with("crashes at a byte 255", "reads once")
def test_every_byte_is_replaced():
    cases = [(name, options, given, place) for name, options, given, _ in rows() if name in ALTERED for place in places(given)]
    assert sorted({case[0] for case in cases}) == sorted(ALTERED)
    print(f"{all_hold(is_altered, cases) * len(REPLACED_BY)} alterations")


# Words of the protocol, and bytes at random.
WORD = st.sampled_from([b"get", b"set", b"ms", b"mg", b"ma", b"md", b"mn", b"incr", b"a", b"b", b"0", b"1", b"3", b"-1", b"noreply", b"q", b"v", b"k", b"\r\n",
                        b"\r\n", b"\r\n", b"\n", b"abc\r\n", b"4294967295", b"flush_all", b"gat", b"cas", b"YQ==", b"T1", b"C1", b"O12345", b"\0"])
LENGTH = st.integers(0, 400)
WORDS = LENGTH.flatmap(lambda size: st.lists(WORD, min_size=size, max_size=size)).map(lambda words: b" ".join(words).replace(b" \r\n ", b"\r\n"))
BYTES = LENGTH.flatmap(lambda size: st.binary(min_size=size, max_size=size))


@fails_with("crashes at a byte 255", "reads once")
@hypothesis.settings(max_examples=400)
@hypothesis.given(WORDS | BYTES, st.integers(1, 9))
def test_noise_is_survived(given, piece):
    """Whole and in pieces of one read each it is answered alike."""
    options = ["--stdio", "--at", "1000"]
    assert spoken(options, given, piece) == spoken(options, given)
