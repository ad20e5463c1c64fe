"""Sends the same random commands to mcd and to memcached 1.6, and compares their replies one by one.

Classic and meta commands on a few keys, well formed and not, each followed by a `mg` of a key that nothing is under, so that
the end of its reply is known. A difference that docs/PROTOCOL.md names is counted under its name there, and its keys are removed
on both servers, so that it has no later effect. Any other difference fails: forty commands of a stream of 3,000
did, before their differences were on that page. With `--drop-in` what the page says is gone then is no
difference that it names, and the commands have more of what memcached takes. Uniques count differently on the two servers and are
compared by whether they are there; seconds may differ by one, since the servers' clocks don't tick together.

With `--drop-in` what `stats` counts is compared too, command by command: how much each counter grew that both servers have. A
difference that the section "Statistics" names is counted under its name. Where replies differ, counters aren't compared. Each
kind of command is sent alone, and what it lets each counter grow by is compared with a table (counted.py) on both servers. Where
there is no memcached (Debian's package), mcd alone is compared with the table.

memcached's own replies to a stream differ now and then from run to run. So a stream that shows a difference is sent once more, to
new servers, and fails if it shows it at the same command twice.
"""
import collections
import contextlib
import re
import shutil
import socket
import time

import hypothesis
import pytest
from hypothesis import strategies as st

from tools.clients import counted
from tools.served import TOP, Server, free_port, is_up, running

# The fewest commands that are sent for each seed, by each of the rules.
COMMANDS = 20_000

KEYS = [b"apple", b"pear", b"n1", b"n2", b"key:with:colons", b"\xc3\xa4pfel"]
ENCODED = {b"YXBwbGU=": b"apple", b"cGVhcg==": b"pear", b"bjE=": b"n1"}
TOO_LARGE = 1024 * 1024 + 1
# No item is under this key: the reply to this command ends that of the command before it.
FENCE, FENCE_REPLY = b"mg nothing Othe-end\r\n", b"EN Othe-end\r\n"

# What `stats` shows of the server, and of its traffic, which the commands that read it are a part of.
OF_SERVER = {
    "pid", "uptime", "time", "max_connections", "curr_connections", "total_connections", "rejected_connections", "bytes_read", "bytes_written",
}
# What it counts by itself on one of the servers: what is held, when memcached's own threads remove what is dead.
NOT_COUNTED = {"limit_maxbytes", "bytes", "curr_items", "evictions", "reclaimed", "expired_unfetched", "threads"} | OF_SERVER


class Peer:
    """A connection to one of the two servers. `known` has its counters if nothing was asked since they were read."""

    def __init__(self, port):
        self.socket = socket.create_connection(("127.0.0.1", port), timeout=20)
        self.socket.setsockopt(socket.IPPROTO_TCP, socket.TCP_NODELAY, 1)
        self.known = None

    def send(self, *texts):
        self.socket.sendall(b"".join(text + FENCE for text in texts))

    def replies(self, count):
        """What the server answers to so many texts: all that comes before the reply to the fence behind each."""
        kept = b""
        while not (kept.endswith(FENCE_REPLY) and kept.count(FENCE_REPLY) == count):
            if not (got := self.socket.recv(1 << 20)):
                break
            kept += got
        return (kept.split(FENCE_REPLY) + [b""] * count)[:count]

    def ask(self, text):
        self.known = None
        self.send(text)
        return self.replies(1)[0]

    def counters(self):
        """What `stats` shows, by name."""
        if self.known is None:
            self.known = shown_counters(self.ask(b"stats\r\n"))
        return self.known

    def unique(self, key):
        """The unique of the item under this key, or one that no item has."""
        shown = re.fullmatch(rb"HD c(\d+)\r\n", self.ask(b"mg " + key + b" c\r\n"))
        return shown[1] if shown else b"4000000000"


def shown_counters(text):
    return {name.decode(): int(value) for name, value in re.findall(rb"STAT (\w+) (\d+)\r\n", text)}


class Sent(bytes):
    """A command, in which `<unique>` is the place of the unique of the item that it names. Long ones are shown shortened."""

    def __repr__(self):
        return shown(self)

    def to(self, peer):
        """The command for one of the servers."""
        if b"<unique>" not in self:
            return self
        _, key, *flags = self.partition(b"\r\n")[0].split(b" ")
        return self.replace(b"<unique>", peer.unique(key + (b" b" if b"b" in flags else b"")))

    def keys(self):
        """The keys that it names, or all of them."""
        words = [ENCODED.get(word, word) for word in self.partition(b"\r\n")[0].split(b" ")]
        return [key for key in KEYS if key in words] or KEYS


def joined(*parts):
    """These parts one after another, which are texts, choices of texts, or strategies of texts."""
    return st.tuples(*(it if isinstance(it, st.SearchStrategy) else st.sampled_from([it] if isinstance(it, bytes) else it) for it in parts)).map(b"".join)


# What makes texts of the parts of an example: named, since hypothesis looks up the source of a lambda each time.
def stored(head, value, last, behind):
    return b"%b %d%b\r\n%b%b" % (head, len(value), last, value, behind)


def stored_by_meta(named, value, rest, behind):
    return b"ms %b %d%b%b\r\n%b%b" % (named[0], len(value), named[1], rest, value, behind)


def without_block(name, named, rest):
    return b"%b %b%b%b\r\n" % (name, *named, rest)


def of_key(line, key):
    return line.replace(b"%b", key)


def with_block(head, value, last, behind=b"\r\n"):
    """A storage line and its block."""
    return st.builds(stored, head, value, joined(last), joined(behind))


KEY = st.sampled_from(KEYS)
NUMBER = st.one_of(*map(st.just, (b"0", b"1", b"7", b"99", b"18446744073709551615")), st.integers(0, 2**32 - 1).map(b"%d".__mod__))
EXPTIME = [b"0", b"0", b"0", b"1000", b"2592000", b"-1", b"2592001", b"4000000000", b"4294967295"]
VALUE = st.one_of(*map(st.just, (b"5", b"", b"10", b"99", b"abc", b"18446744073709551615", b"a\r\nb")), st.integers(1, 199).map(b"x".__mul__))
BEHIND = [*[b"\r\n"] * 9, b"xy"]
UNIQUE, OTHER = b"<unique>", b"4000000001"
# A key as a meta command has it, plain or in base64, with the flag that says so.
META_KEY = st.sampled_from([*[(key, b"") for key in KEYS] * 9, *[(text, b" b") for text in ENCODED] * 2])
TOKENS = {b"O": [b"77", b"o" * 31], b"N": [b"0", b"30"], b"R": [b"20", b"0"], b"T": [b"0", b"100", b"-1"], b"F": [b"0", b"9"], b"D": [b"1", b"10"],
          b"J": [b"0", b"13"]}

# Lines with a fault, none of which announces a block, and more that memcached reads in another way, or refuses by another line.
LONG_KEY, LONG_TOKEN = b"k" * 251, b"O" + b"o" * 33
BROKEN = [b"", b"nonsense", b"GET %b", b"get", b"gat 0", b"delete", b"delete %b 7", b"incr %b", b"incr %b x", b"incr %b -1", b"touch %b", b"touch %b x",
          b"get " + LONG_KEY, b"delete " + LONG_KEY, b"incr " + LONG_KEY + b" 1", b"set %b", b"set", b"cas %b 0 0", b"verbosity", b"flush_all x", b"mg",
          b"mg %b v v", b"mg %b !", b"mg " + LONG_KEY + b" v", b"md", b"ma", b"ms", b"ms %b", b"ma %b Dx", b"ma %b MX", b"mg %b " + LONG_TOKEN,
          b"ma %b " + LONG_TOKEN, b"mg YQ= b v", b"gets", b"set %b 0 0 x", b"ms %b x"]
BROKEN_BY_MEMCACHED = [
    b"set %b 0 0 2147483647", b"set %b 0 0 -1", b"ms %b 2147483647", b"ms %b -1", b"cas %b 0 0 1", b"set %b 0 0 x noreply", b"incr %b x noreply",
    b"touch %b x noreply", b"delete %b 7 noreply", b"incr %b 1 2 noreply", b"touch %b 0 0 0", b"touch %b 0 another", b"delete %b another", b"gat x %b",
    b"verbosity noreply", b"verbosity x", b"verbosity 1 2 3", b"flush_all -1 another", b"version 1", b"mn 1", b"delete " + LONG_KEY + b" noreply",
    b"get %b " + LONG_KEY, b"shutdown", b"shutdown graceful", b"shutdown %b noreply"]


def flags(letters, most, drop_in):
    """Fewer than `most` of these flags, each with a token if it takes one, in any order. Memcached takes P and L, for a proxy, with each command."""
    pool = [b" " + bytes([it]) + token for it in letters + b"PL" * drop_in for token in TOKENS.get(bytes([it]), [b""])]
    return st.lists(st.sampled_from(pool), unique_by=lambda it: it[1], max_size=most - 1).map(b"".join)


def meta(name, *rest):
    """A meta command that has no block."""
    return st.builds(without_block, st.just(name), META_KEY, joined(*rest))


def broken(lines):
    return st.builds(of_key, st.sampled_from([line + b"\r\n" for line in lines]), KEY)


def too_large(drop_in, noreply):
    """Values that are too large, and large ones to which more is joined than there is room for."""
    value, large, more = b"v" * TOO_LARGE, b"v" * (TOO_LARGE - 1000), b"x" * 2000
    yield from [with_block(joined([b"set ", b"set ", b"add ", b"replace ", b"append "], KEY, b" 0 0"), st.just(value), noreply)] * 5
    yield from [with_block(joined(b"ms ", KEY), st.just(value), [b"", *[b" ME", b" MA", b" MR"] * drop_in])] * 2
    if drop_in:
        joins = joined([b"append %b 0 0 2000", b"prepend %b 0 0 2000"], noreply) | st.sampled_from([b"ms %b 2000 MA c q", b"ms %b 2000 k MP"])
        texts = joined(b"set %%b 3 0 %d\r\n%b\r\n" % (len(large), large), joins, b"\r\n" + more + b"\r\nmg %b s f\r\n")
        yield from [st.builds(of_key, texts, KEY)] * 3


def commands(drop_in):
    """A command, of each kind as often as the kind is in the list."""
    noreply = [b"", b"", b"", b" noreply", *[b" another"] * drop_in]
    compared, end = [b"", b"", b"", b" C" + UNIQUE, b" C" + OTHER, b" C0"], b"\r\n"
    keys = st.lists(KEY.map(b" ".__add__), min_size=1, max_size=3).map(b"".join)
    read = [joined([b"get", b"gets", b"get"], keys, end)] * 7 + [joined([b"gat ", b"gats "], EXPTIME, keys, end)] * 5
    stores = with_block(joined([b"set ", b"set ", b"set ", b"add ", b"replace ", b"append ", b"prepend "], KEY, b" ", [b"0", b"5", b"4294967295"],
                               b" ", EXPTIME),
                        VALUE, noreply, BEHIND)
    compares = with_block(joined(b"cas ", KEY, b" 3 0"), VALUE, joined(b" ", [UNIQUE, OTHER], noreply))
    modes = [b"", b"", b"", b" ME", b" MA", b" MP", b" MR", b" MS"]
    meta_stores = st.builds(stored_by_meta, META_KEY, VALUE, joined(flags(b"kOqcFT" + b"IN" * drop_in, 5, drop_in), modes, compared), joined(BEHIND))
    kinds = [
        *[stores] * 12, *[compares] * 2, *read,
        *[joined([b"incr ", b"decr "], KEY, b" ", NUMBER, noreply, end)] * 4,
        *[joined(b"delete ", KEY, [b"", b"", b" 0"], noreply, end)] * 3,
        *[joined(b"touch ", KEY, b" ", EXPTIME, noreply, end)] * 3,
        joined([b"version", b"verbosity 1", b"verbosity 1 noreply", b"mn", b"flush_all -1 noreply"], end),
        *[meta(b"mg", flags(b"vcfshltkqONRT" + b"u" * drop_in, 6, drop_in))] * 12,
        *[meta_stores] * 10,
        *[meta(b"md", flags(b"kOqIT", 4, drop_in), compared[1:])] * 6,
        *[meta(b"ma", flags(b"kOqvctDNJT", 6, drop_in), [b"", b" MI", b" MD", b" M+", b" M-"], compared)] * 6,
        *[broken(BROKEN)] * 2, broken(BROKEN_BY_MEMCACHED if drop_in else BROKEN), st.one_of(*too_large(drop_in, noreply)),
    ]
    return st.integers(0, len(kinds) - 1).flatmap(kinds.__getitem__).map(Sent)


def comparable(reply):
    """A reply without what differs by its nature: uniques, and the second in which it was given."""
    lines = reply.split(b"\r\n")
    return [re.sub(rb"^(VALUE \S+ \d+ \d+) \d+$", rb"\1 #", re.sub(rb"(?<= )c[1-9]\d*(?= |$)", b"c#", line)) for line in lines]


def seconds(lines):
    """These lines without their times, and the times."""
    times = [int(it) for line in lines for it in re.findall(rb"(?<= )t(-?\d+)(?= |$)", line)]
    return [re.sub(rb"(?<= )t-?\d+(?= |$)", b"t", line) for line in lines], times


def is_same(ours, theirs):
    (mine, my_times), (others, other_times) = seconds(comparable(ours)), seconds(comparable(theirs))
    return mine == others and len(my_times) == len(other_times) and all(abs(a - b) <= 1 for a, b in zip(my_times, other_times))


# What docs/PROTOCOL.md names as a difference: its name there, what the command looks like, and what our reply and memcached's
# look like. Where no replies are given, a later command may be the first to show it, so each such command counts.
LONG_EXPTIME = rb"(?<= )(4000000000|4294967295)(?= |$)"
FAULT = rb"(CLIENT_ERROR [^\r]*|ERROR)\r\n"
NAMED = [
    ("exptimes have 64 bits", rb"(set|add|replace|cas|touch|gats?) .*" + LONG_EXPTIME + b".*", None),
    ("too large a value leaves the old one", rb"(set|add|replace|ms) .*\b%d\b.*" % TOO_LARGE, None),
    ("too large to append", rb"(append|prepend) .*\b%d\b.*" % TOO_LARGE, None),
    ("`t` of an item that is dead at once", rb"m[ga] .* t.*", (rb".* t0.*", rb".* t42949\d{5}.*")),
    ("`T` beside `N`", rb"m[ga] .*( N.* T| T.* N).*", None),
    ("`T` of a number that gets longer", rb"ma .* T.*", None),
    ("a key that was stored in base64", rb"m[sga] .* b( .*)?", None),
    ("a token of `O` that is too long", rb"ma .* O\S{32,}.*", None),
    ("`ma` with `C0`", rb"ma .* C0", None),
    ("`version`", rb"version", (rb"VERSION .*", rb"VERSION .*")),
    ("errors are shown in spite of noreply", rb".* noreply", (FAULT, rb"")),
    ("error texts", rb".*", (rb"CLIENT_ERROR [^\r]*\r\n", rb"CLIENT_ERROR [^\r]*\r\n")),
    ("`gat` without a key", rb"gats? \S+", (rb"(CLIENT_ERROR bad command line format|ERROR)\r\n", rb"END\r\n")),
    ("too few words", rb".*", (rb"CLIENT_ERROR bad command line format\r\n", rb"ERROR\r\n")),
    ("`C` of `ms` in other modes", rb"ms .*M[APRE].* C.*", (rb"CLIENT_ERROR bad command line format\r\n", rb".*")),
    ("`C` without an item", rb"ms .*M[AP].* C.*", (rb"NF.*", rb"NS.*")),
    ("`C` of an empty value", rb"ma .* C.*", (rb"EX.*", rb"CLIENT_ERROR cannot increment .*")),
    ("`c` where `ms` stored nothing", rb"ms .* c.*", (rb"(EX|NF|NS)( [^\r]*)?\r\n", rb"(EX|NF|NS) [^\r]*c0.*\r\n")),
    ("quiet `md` and `ma`", rb"m[da] .* q.*", (rb"", rb"(NF|HD).*\r\n")),
    ("quiet `md` and `ma`", rb"ma .* q.*", (rb"VA .*", rb"")),
    ("`t` beside `T` and `N`", rb"m[ga] .* t.*", (rb".* t-?\d+.*", rb".* t-?\d+.*")),
    ("`R` beside `T`", rb"mg .*( R.* T| T.* R).*", (rb"(HD|VA).*", rb"(HD|VA).*")),
]


# Those that are gone where mcd follows memcached's rules.
GONE = ["exptimes have 64 bits", "too large a value leaves the old one", "`version`", "errors are shown in spite of noreply", "too few words",
        "`C` of `ms` in other modes", "too large to append", "`c` where `ms` stored nothing", "`ma` with `C0`", "the order of marks"]
# Those that replies show, beside the command.
NAMES = [*dict.fromkeys(name for name, _, _ in NAMED), "the order of marks", "what counts as a use", "numbers aren't padded"]


def named(drop_in):
    """The differences that are named, and are there."""
    return [it for it in NAMED if not (drop_in and it[0] in GONE)]


def difference(drop_in, asked, ours, theirs):
    """The name of the first difference that this command and its replies show."""
    line = asked.partition(b"\r\n")[0]
    for name, command, replies in named(drop_in):
        if re.fullmatch(command, line) and (replies is None or all(re.fullmatch(it, reply, re.DOTALL) for it, reply in zip(replies, (ours, theirs)))):
            return name
    ordered = theirs if drop_in else in_our_order(theirs)
    if is_same(ours, ordered):
        return "the order of marks"
    if is_same(without_use(ours), without_use(ordered)):
        return "what counts as a use"
    return None


def in_our_order(reply):
    """memcached's reply with its marks in the order of ours."""
    return re.sub(rb" X W(?=\r)", b" W X", re.sub(rb" Z X(?=\r)", b" X Z", reply))


def without_use(reply):
    """A reply without what it shows of the item's last use."""
    return re.sub(rb"(?<= )([hl])\d+(?=[ \r])", rb"\1", reply)


def unmarked(reply):
    """A reply without the marks of a stale item and of who is to make it again."""
    return re.sub(rb" [WXZ](?=[ \r])", b"", reply)


def is_padded(theirs, keys):
    """Whether memcached keeps a number under one of these keys with spaces behind it."""
    return any(re.fullmatch(rb"VALUE \S+ \d+ \d+\r\n\d+ +\r\nEND\r\n", theirs.ask(b"get " + key + b"\r\n")) for key in keys)


def differs_later(drop_in, asked):
    """The name of a difference that this command makes and that its own reply need not show."""
    line = asked.partition(b"\r\n")[0]
    return next((name for name, command, replies in named(drop_in) if replies is None and re.fullmatch(command, line)), None)


# What docs/PROTOCOL.md names of the counters: its name there, what the command looks like, what both reply, and the counters that
# memcached lets grow by one more.
STATS_NAMED = [
    ("too large a value", rb"(add|replace|append|prepend|cas) .*", rb"(SERVER_ERROR object too large .*)?", {"store_too_large"}),
    ("a bad data chunk", rb"(set|add|replace|append|prepend|cas|ms) .*", rb"(CLIENT_ERROR bad data chunk\r\n)?.*", {"cmd_set"}),
    ("a number that gets longer", rb"(incr|decr|ma) .*", rb".*", {"total_items"}),
    ("a refused `flush_all`", rb"flush_all .*", rb"(CLIENT_ERROR .*)?", {"cmd_flush"}),
    ("keys in front of a bad one", rb"gets? .*", rb"CLIENT_ERROR .*", {"cmd_get", "get_hits", "get_misses"}),
    ("keys in front of a bad one", rb"gats? .*", rb"CLIENT_ERROR .*", {"cmd_touch", "touch_hits", "touch_misses"}),
    ("a token of `O` that is too long", rb"mg .* O\S{32,}.*", rb"CLIENT_ERROR .*", {"cmd_get", "get_misses"}),
]


# Why each of them stays.
REASONS = {
    "exptimes have 64 bits": "natively the server keeps the number that was sent",
    "too large a value leaves the old one": "natively a refused command changes nothing",
    "too large to append": "natively the line has the reason",
    "`t` of an item that is dead at once": "no time is left, so it is 0",
    "`T` beside `N`": "an item that N makes has the time of N",
    "`T` of a number that gets longer": "memcached makes a new item, which loses T",
    "a key that was stored in base64": "a key is its bytes, and how it was spelled isn't kept",
    "a token of `O` that is too long": "a refused line changes and counts nothing",
    "`version`": "natively the server has its own",
    "errors are shown in spite of noreply": "natively no error is hidden",
    "error texts": "one text for each kind of fault",
    "`gat` without a key": "a line without a key has too few words",
    "too few words": "natively the name is known, and the line is wrong",
    "`C` of `ms` in other modes": "natively C is for mode S",
    "`C` without an item": "NF in each mode",
    "`C` of an empty value": "the unique is compared before the value is read",
    "`ma` with `C0`": "natively each unique is compared",
    "`c` where `ms` stored nothing": "natively no unique is shown if there is none",
    "quiet `md` and `ma`": "protocol.txt hides HD and NF, and shows requested values",
    "`t` beside `T` and `N`": "the time after the command, in whatever order the flags are",
    "`R` beside `T`": "the time before the command, in whatever order the flags are",
    "the order of marks": "natively W is first",
    "what counts as a use": "each use is noted, in its own second",
    "numbers aren't padded": "a number has its digits alone",
    "too large a value": "the line is refused before a shard is asked",
    "a bad data chunk": "the line is refused before a shard is asked",
    "a number that gets longer": "it stays the same item",
    "a refused `flush_all`": "the line is refused before a shard is asked",
    "keys in front of a bad one": "the line is refused as a whole",
}


def grown_from(before, after):
    """By how much each counter grew, but for those that stayed."""
    return {name: after[name] - before[name] for name in after if name in before and after[name] != before[name]}


def counts_differ(asked, reply, ours, theirs):
    """The name of the difference between what a command let grow; `None` if there is none, and if none is named the counters."""
    more = {name: theirs.get(name, 0) - ours.get(name, 0) for name in {*ours, *theirs}}
    more = {name: by for name, by in more.items() if by}
    line = asked.partition(b"\r\n")[0]
    for name, command, answer, counters in STATS_NAMED:
        if set(more) <= counters and min(more.values(), default=0) > 0 and re.fullmatch(command, line) and re.fullmatch(answer, reply, re.DOTALL):
            return name
    return f"counters: {more}" if more else None


@contextlib.contextmanager
def memcached(*options):
    """memcached with these options at a port; none if it isn't installed."""
    if not shutil.which("memcached"):
        yield None
        return
    port = free_port()
    with running(["memcached", "-u", "nobody", "-l", "127.0.0.1", "-p", str(port), "-m", "64", "-t", "1", *options]):
        assert is_up(port)
        yield port


@pytest.fixture(scope="module")
def page():
    return (TOP / "docs/PROTOCOL.md").read_text()


def test_the_page_names_each_difference(page):
    assert [name for name in REASONS if f"**{name}**" not in page] == []


def test_each_difference_has_its_reason():
    assert {*NAMES, *(it[0] for it in STATS_NAMED), *(name for name, _ in counted.BESIDE.values())} == {*REASONS}


def test_the_page_says_which_are_gone(page):
    assert sorted(name for name in NAMES if re.search(rf"^\| .*\*\*{re.escape(name)}\*\*.*\| gone[^|]*\|$", page, re.M)) == sorted(GONE)


@pytest.fixture(scope="module")
def both():
    """A connection to mcd with `--drop-in`, and one to memcached if it is there; and the counters that both have."""
    with Server("--drop-in") as ours, memcached() as port:
        peers = [Peer(ours.port), *([Peer(port)] if port else [])]
        yield peers, set.intersection(*(set(peer.counters()) for peer in peers)) - NOT_COUNTED


@pytest.mark.parametrize("row", counted.ROWS, ids=lambda row: row[0])
def test_a_kind_of_command_counts_as_in_memcached(both, row):
    """What a row of counted.py lets the counters grow by, of mcd, and of memcached if it is there."""
    peers, names = both
    found = [counted.growth(peer, row) for peer in peers]
    grown = [{name: by for name, by in growth.items() if name in names} for _, growth in found]
    assert grown == [dict(counted.grown_by(words)) for words in counted.wanted(row)][: len(peers)]
    assert is_same(found[0][0], found[-1][0]) or difference(True, row[2], found[0][0], found[-1][0]) is not None


def server_shown(port, process):
    """What `stats` shows of a server: its names, and by how much connections and traffic grew while another client came and stayed."""
    peer = Peer(port)
    began = peer.ask(b"stats\r\n")
    other = Peer(port)
    sent = b"mn\r\n" + FENCE
    other.socket.sendall(sent)
    got = other.replies(1)[0]
    ended = peer.ask(b"stats\r\n")
    first, last = shown_counters(began), shown_counters(ended)
    grown = {name: last[name] - first[name] for name in ("curr_connections", "total_connections", "bytes_read", "bytes_written")}
    grown["bytes_read"] -= len(sent) + len(b"stats\r\n" + FENCE)
    grown["bytes_written"] -= len(began) + len(got) + 2 * len(FENCE_REPLY)
    shown = {
        **grown,
        "pid": last["pid"] == process.pid,
        "time": abs(last["time"] - time.time()) <= 2,
        "uptime": last["uptime"] <= 60,
        "max_connections": last["max_connections"],
        "rejected_connections": last["rejected_connections"],
        "CPU time": len(re.findall(rb"STAT rusage_(?:user|system) \d+\.\d{6}\r\n", ended)),
    }
    return [name.decode() for name in re.findall(rb"STAT (\w+) ", ended)], shown


@pytest.mark.skipif(not shutil.which("memcached"), reason="memcached isn't installed")
def test_stats_shows_the_server_as_memcached_does():
    """The names of the process, its connections and its traffic, in memcached's order, and the same numbers."""
    # One thread, as memcached's below: it has counted what it wrote before it reads the next command.
    with Server("--drop-in", "-c", "64", "-t", "1") as ours:
        names, shown = server_shown(ours.port, ours.process)
    port = free_port()
    with running(["memcached", "-u", "nobody", "-l", "127.0.0.1", "-p", str(port), "-c", "64", "-t", "1"]) as process:
        assert is_up(port)
        theirs, wanted = server_shown(port, process)
    assert [name for name in theirs if name in names] == names
    assert shown == wanted


@pytest.mark.skipif(not shutil.which("memcached"), reason="memcached isn't installed")
@pytest.mark.parametrize("delay", [1, 2])
def test_flush_all_is_as_early_as_memcacheds(delay):
    """After `flush_all 1` no server has the item, and after `flush_all 2` none has it a second later."""
    with servers(True) as peers:
        # A second has just begun: at its end a server would be late.
        time.sleep(1 - time.time() % 1)
        for peer in peers:
            peer.ask(b"set k 0 0 1\r\n5\r\nflush_all %d\r\n" % delay)
        time.sleep(delay - 0.9)
        assert [peer.ask(b"get k\r\n") for peer in peers] == [b"END\r\n"] * 2


def all_of(port, sent):
    """What a server answers until it ends the connection."""
    with socket.create_connection(("127.0.0.1", port), timeout=20) as asked:
        asked.sendall(sent)
        found = b""
        while got := asked.recv(1 << 16):
            found += got
    return found


def refuses(port):
    """Whether a server that ends refuses connections within 20 seconds."""
    end = time.monotonic() + 20
    while time.monotonic() < end:
        try:
            socket.create_connection(("127.0.0.1", port), timeout=1).close()
        except OSError:
            return True
        time.sleep(0.05)
    return False


@pytest.mark.fails_with("never lets clients end it")
@pytest.mark.skipif(not shutil.which("memcached"), reason="memcached isn't installed")
@pytest.mark.parametrize("form", [b"shutdown", b"shutdown graceful", b" shutdown "])
def test_shutdown_ends_both(form):
    """Where clients may end them: both refuse other modes, answer what comes before, and nothing behind."""
    sent = b"shutdown x\r\nshutdown noreply\r\nshutdown graceful x\r\nset a 0 0 1\r\nx\r\nget a\r\n" + form + b"\r\nget a\r\n"
    with Server("--drop-in", "-A") as ours, memcached("-A") as port:
        assert all_of(ours.port, sent) == all_of(port, sent)
        assert ours.process.wait(timeout=20) == 0
        assert refuses(port)


@pytest.mark.fails_with("changes a byte")
@pytest.mark.skipif(not shutil.which("memcached"), reason="memcached isn't installed")
@pytest.mark.parametrize("drop_in", [False, True], ids=["own", "drop-in"])
@pytest.mark.parametrize("seed", [1, 2, 3])
def test_random_commands(seed, drop_in):
    """How often each named difference was met is printed."""
    met, count, command = collections.Counter(), 0, commands(drop_in)
    with servers(drop_in) as peers:

        @hypothesis.seed(seed)
        @hypothesis.settings(max_examples=COMMANDS // 50)
        @hypothesis.given(st.integers(1, 120).flatmap(lambda size: st.lists(command, min_size=size, max_size=size)))
        def check(texts):
            nonlocal count
            count += len(texts)
            if unnamed := compare(drop_in, *peers, texts, met):
                with servers(drop_in) as others:
                    again = compare(drop_in, *others, texts, collections.Counter())
                assert {number: what for number, what in unnamed.items() if number in again} == {}

        check()
    print(*(f"{times:6} times: {name} ({REASONS[name]})" for name, times in met.most_common()), sep="\n")
    assert count >= COMMANDS


@contextlib.contextmanager
def servers(drop_in):
    """A connection to each of two new servers."""
    with memcached() as port, Server(*["--drop-in"] * drop_in) as ours:
        yield Peer(ours.port), Peer(port)


def compare(drop_in, ours, theirs, texts, met):
    """Sends these commands to both servers, on which nothing is under their keys: what differs by nothing that is named, by the number
    of the command. What is named is counted."""
    unnamed, counted_up = {}, set()
    forget(KEYS, ours, theirs)
    for number, text in enumerate(texts):
        mine, other = text.to(ours), text.to(theirs)
        name = one_compared(drop_in, ours, theirs, text.keys(), mine, other, counted_up)
        if re.match(rb"(incr|decr|ma) ", text):
            counted_up.update(text.keys())
        if name is None:
            continue
        if name.startswith(("reply", "counters")):
            unnamed[number] = f"{shown(mine)} and memcached's {shown(other)}: {name}"
        else:
            met[name] += 1
        forget(text.keys(), ours, theirs)
        counted_up.difference_update(text.keys())
    return unnamed


def forget(keys, *peers):
    for peer in peers:
        peer.ask(b"".join(b"delete " + key + b" noreply\r\n" for key in keys))


def one_compared(drop_in, ours, theirs, keys, mine, other, counted_up):
    """The name of the difference that one command shows, if any: `reply ..` or `counters ..` if none is named. Of the keys in
    `counted_up` memcached may have a new item, without the marks of the one before."""
    my_reply, other_reply, grown = both_asked(drop_in, ours, theirs, mine, other)
    name = differs_later(drop_in, mine)
    if re.match(rb"(incr|decr|ma) ", mine):
        if is_padded(theirs, keys):
            name = "numbers aren't padded"
        ours.ask(b"".join(b"get " + key + b"\r\n" for key in keys))
    if name is None and is_same(my_reply, other_reply):
        return counts_differ(mine, my_reply, *grown) if drop_in else None
    name = name or difference(drop_in, mine, my_reply, other_reply)
    if name is None and counted_up.intersection(keys) and is_same(unmarked(my_reply), unmarked(other_reply)):
        name = "a number that gets longer"
    return name or f"reply: {shown(my_reply)}\n      {shown(other_reply)}"


def both_asked(drop_in, ours, theirs, mine, other):
    """What both servers answer to one command, and by how much each counter grew that both have."""
    if not drop_in:
        return ours.ask(mine), theirs.ask(other), None
    before = [peer.counters() for peer in (ours, theirs)]
    ours.send(mine, b"stats\r\n")
    theirs.send(other, b"stats\r\n")
    (my_reply, my_stats), (other_reply, other_stats) = ours.replies(2), theirs.replies(2)
    ours.known, theirs.known = shown_counters(my_stats), shown_counters(other_stats)
    names = ours.known.keys() & theirs.known.keys() - NOT_COUNTED
    grown = [{name: by for name, by in grown_from(*it).items() if name in names} for it in zip(before, (ours.known, theirs.known))]
    return my_reply, other_reply, grown


def shown(text):
    return repr(bytes(text[:120])) + (f" and {len(text) - 120} more" if len(text) > 120 else "")
