"""How much each kind of command lets each counter of `stats` grow: as memcached 1.6.18 counts, and as mcd does with `--drop-in`.

A row has a name, what is sent before, what is sent then, and the counters that grow by one with that; `name:N` grows by N. All keys
are `k` and `none`, and nothing is under them before. `<unique>` stands for the unique of `k`. `BESIDE` names the rows in which
memcached counts more than mcd: what it counts beside that, and the name of the difference in docs/PROTOCOL.md, "Statistics".
"""
import collections
import re

TOO_LARGE = 1024 * 1024 + 1
LONG = b"v" * (TOO_LARGE - 1)
SET = b"set k 5 0 1\r\n5\r\n"
TEXT = b"set k 5 0 3\r\nabc\r\n"
NINE = b"set k 5 0 1\r\n9\r\n"
DEAD = b"set k 5 -1 1\r\n5\r\n"
FULL = b"set k 5 0 %d\r\n%b\r\n" % (len(LONG), LONG)
OTHER = b"4000000001"
BAD_KEY = b"k" * 251
LONG_TOKEN = b" O" + b"o" * 33 + b"\r\n"


def block(line, value=b"7"):
    """A storage line, whose count of bytes is `%d`, and its block."""
    return line % len(value) + b"\r\n" + value + b"\r\n"


ROWS = [
    # Reading.
    ("get", SET, b"get k none k\r\n", "cmd_get:3 get_hits:2 get_misses"),
    ("gets", SET, b"gets k none\r\n", "cmd_get:2 get_hits get_misses"),
    ("get of an expired item", DEAD, b"get k\r\n", "cmd_get get_misses"),
    ("gat", SET, b"gat 0 k none\r\n", "cmd_touch:2 touch_hits touch_misses"),
    ("touch", SET, b"touch k 0\r\n", "cmd_touch touch_hits"),
    ("touch of no item", b"", b"touch k 0\r\n", "cmd_touch touch_misses"),
    ("mg", SET, b"mg k v\r\n", "cmd_get get_hits"),
    ("mg of no item", b"", b"mg k v\r\n", "cmd_get get_misses"),
    ("mg of no item, quiet", b"", b"mg k v q\r\n", "cmd_get get_misses"),
    ("mg T", SET, b"mg k T30\r\n", "cmd_touch touch_hits"),
    ("mg T of no item", b"", b"mg k T30\r\n", "cmd_get get_misses"),
    ("mg N", SET, b"mg k N30\r\n", "cmd_get get_hits"),
    ("mg N that makes an item", b"", b"mg k N30\r\n", "cmd_get get_hits total_items"),
    ("mg N T that makes an item", b"", b"mg k N30 T30\r\n", "cmd_touch touch_hits total_items"),
    ("a bad key behind others", SET, b"get k none %b\r\n" % BAD_KEY, ""),
    ("a bad key behind others, of gat", SET, b"gat 0 k none %b\r\n" % BAD_KEY, ""),
    ("mg with too long a token", SET, b"mg k" + LONG_TOKEN, ""),
    ("mg of no item, with too long a token", b"", b"mg k" + LONG_TOKEN, ""),
    ("mg N that makes an item, with too long a token", b"", b"mg k N30" + LONG_TOKEN, ""),
    # Storing.
    ("set", b"", block(b"set k 0 0 %d"), "cmd_set total_items"),
    ("set over an item", SET, block(b"set k 0 0 %d"), "cmd_set total_items"),
    ("set, without a reply", b"", block(b"set k 0 0 %d noreply"), "cmd_set total_items"),
    ("add", b"", block(b"add k 0 0 %d"), "cmd_set total_items"),
    ("add over an item", SET, block(b"add k 0 0 %d"), "cmd_set"),
    ("replace", SET, block(b"replace k 0 0 %d"), "cmd_set total_items"),
    ("replace of no item", b"", block(b"replace k 0 0 %d"), "cmd_set"),
    ("append", SET, block(b"append k 0 0 %d"), "cmd_set total_items"),
    ("append to no item", b"", block(b"append k 0 0 %d"), "cmd_set"),
    ("prepend", SET, block(b"prepend k 0 0 %d"), "cmd_set total_items"),
    ("cas", SET, block(b"cas k 0 0 %d <unique>"), "cmd_set cas_hits total_items"),
    ("cas of another unique", SET, block(b"cas k 0 0 %d " + OTHER), "cmd_set cas_badval"),
    ("cas of no item", b"", block(b"cas k 0 0 %d " + OTHER), "cmd_set cas_misses"),
    ("ms", b"", block(b"ms k %d"), "cmd_set total_items"),
    ("ms ME over an item", SET, block(b"ms k %d ME"), "cmd_set"),
    ("ms MR of no item", b"", block(b"ms k %d MR"), "cmd_set"),
    ("ms MA", SET, block(b"ms k %d MA"), "cmd_set total_items"),
    ("ms C", SET, block(b"ms k %d C<unique>"), "cmd_set cas_hits total_items"),
    ("ms C of another unique", SET, block(b"ms k %d C" + OTHER), "cmd_set cas_badval"),
    ("ms C of no item", b"", block(b"ms k %d C" + OTHER), "cmd_set cas_misses"),
    ("ms MR C", SET, block(b"ms k %d MR C<unique>"), "cmd_set cas_hits total_items"),
    ("ms MR C of another unique", SET, block(b"ms k %d MR C" + OTHER), "cmd_set cas_badval"),
    ("ms ME C over an item", SET, block(b"ms k %d ME C" + OTHER), "cmd_set"),
    *((f"ms M{mode} C", SET, block(b"ms k %%d M%b C<unique>" % mode.encode()), "cmd_set total_items") for mode in "AP"),
    *((f"ms M{mode} C of another unique", SET, block(b"ms k %%d M%b C%b" % (mode.encode(), OTHER)), "cmd_set") for mode in "AP"),
    *((f"ms M{mode} C of no item", b"", block(b"ms k %%d M%b C%b" % (mode.encode(), OTHER)), "cmd_set") for mode in "AP"),
    ("a bad data chunk", SET, b"set k 0 0 1\r\nxyz", ""),
    ("a bad data chunk of ms", SET, b"ms k 1\r\nxyz", ""),
    # Values that are too large.
    ("too large a value of set", SET, block(b"set k 0 0 %d", LONG + b"v"), "store_too_large"),
    ("too large a value of set, without a reply", SET, block(b"set k 0 0 %d noreply", LONG + b"v"), "store_too_large"),
    ("too large a value of set, of no item", b"", block(b"set k 0 0 %d", LONG + b"v"), "store_too_large"),
    ("too large a value of add", b"", block(b"add k 0 0 %d", LONG + b"v"), ""),
    ("too large a value of ms", SET, block(b"ms k %d", LONG + b"v"), "store_too_large"),
    ("too large a value of ms, of no item", b"", block(b"ms k %d", LONG + b"v"), "store_too_large"),
    ("append of what becomes too large", FULL, block(b"append k 0 0 %d"), "cmd_set"),
    ("ms MA of what becomes too large", FULL, block(b"ms k %d MA"), "cmd_set"),
    # Deleting and flushing.
    ("delete", SET, b"delete k\r\n", "delete_hits"),
    ("delete of no item", b"", b"delete k\r\n", "delete_misses"),
    ("delete of an expired item", DEAD, b"delete k\r\n", "delete_misses"),
    ("md", SET, b"md k\r\n", "delete_hits"),
    ("md of no item", b"", b"md k\r\n", "delete_misses"),
    ("md C", SET, b"md k C<unique>\r\n", "delete_hits"),
    ("md C of another unique", SET, b"md k C" + OTHER + b"\r\n", "delete_misses"),
    ("md I", SET, b"md k I\r\n", ""),
    ("md I of no item", b"", b"md k I\r\n", "delete_misses"),
    ("md I C of another unique", SET, b"md k I C" + OTHER + b"\r\n", "delete_misses"),
    ("flush_all", SET, b"flush_all\r\n", "cmd_flush"),
    ("flush_all, without a reply", SET, b"flush_all noreply\r\n", "cmd_flush"),
    ("flush_all, twice", SET, b"flush_all\r\nflush_all 0\r\n", "cmd_flush:2"),
    ("a refused flush_all", SET, b"flush_all x\r\n", ""),
    # Counting.
    ("incr", SET, b"incr k 1\r\n", "incr_hits"),
    ("incr of no item", b"", b"incr k 1\r\n", "incr_misses"),
    ("incr of a text", TEXT, b"incr k 1\r\n", ""),
    ("incr to more digits", NINE, b"incr k 1\r\n", "incr_hits"),
    ("decr", SET, b"decr k 1\r\n", "decr_hits"),
    ("decr of no item", b"", b"decr k 1\r\n", "decr_misses"),
    ("decr of a text", TEXT, b"decr k 1\r\n", ""),
    ("ma", SET, b"ma k\r\n", "incr_hits"),
    ("ma of no item", b"", b"ma k\r\n", "incr_misses"),
    ("ma of a text", TEXT, b"ma k\r\n", ""),
    ("ma to more digits", NINE, b"ma k\r\n", "incr_hits"),
    ("ma with too long a token", SET, b"ma k" + LONG_TOKEN, ""),
    ("ma of no item, with too long a token", b"", b"ma k" + LONG_TOKEN, ""),
    ("ma C", SET, b"ma k C<unique>\r\n", "incr_hits"),
    ("ma C of another unique", SET, b"ma k C" + OTHER + b"\r\n", ""),
    ("ma MD", SET, b"ma k MD\r\n", "decr_hits"),
    ("ma MD of no item", b"", b"ma k MD\r\n", "decr_misses"),
    ("ma N", SET, b"ma k N0\r\n", "incr_hits"),
    ("ma N that makes an item", b"", b"ma k N0\r\n", "total_items"),
    ("ma MD N that makes an item", b"", b"ma k MD N0\r\n", "total_items"),
    # What counts as nothing.
    ("mn, version, verbosity, and no command", SET, b"mn\r\nversion\r\nverbosity 1\r\nnonsense k\r\nmg k !\r\nget\r\n", ""),
]

# What memcached counts beside that, by the rows' names.
BESIDE = {
    "a bad data chunk": ("a bad data chunk", "cmd_set"),
    "a bad data chunk of ms": ("a bad data chunk", "cmd_set"),
    "too large a value of add": ("too large a value", "store_too_large"),
    "incr to more digits": ("a number that gets longer", "total_items"),
    "ma to more digits": ("a number that gets longer", "total_items"),
    "a refused flush_all": ("a refused `flush_all`", "cmd_flush"),
    "mg of no item, with too long a token": ("a token of `O` that is too long", "cmd_get get_misses"),
    "mg N that makes an item, with too long a token": ("a token of `O` that is too long", "total_items"),
    "ma with too long a token": ("a token of `O` that is too long", "incr_hits"),
    "ma of no item, with too long a token": ("a token of `O` that is too long", "incr_misses"),
    "a bad key behind others": ("keys in front of a bad one", "cmd_get:2 get_hits get_misses"),
    "a bad key behind others, of gat": ("keys in front of a bad one", "cmd_touch:2 touch_hits touch_misses"),
}


def grown_by(words):
    """By how much each counter grows that these words name."""
    counters = collections.Counter()
    for word in words.split():
        name, _, by = word.partition(":")
        counters[name] += int(by or 1)
    return counters


def wanted(row):
    """What a row lets the counters of mcd grow by, and those of memcached."""
    name, _, _, grown = row
    return grown, f"{grown} {BESIDE[name][1]}" if name in BESIDE else grown


def growth(peer, row):
    """What the server answers to what a row sends, and by how much each counter grew."""
    _, before, sent, _ = row
    peer.ask(b"delete k noreply\r\n" + before)
    sent = re.sub(b"<unique>", lambda _: peer.unique(b"k"), sent)
    first = peer.counters()
    reply = peer.ask(sent)
    last = peer.counters()
    # After what is sent, and after each `stats`, a key that isn't there is read.
    fences = {"cmd_get": 2, "get_misses": 2}
    grown = {name: last[name] - first[name] - fences.get(name, 0) for name in last if name in first}
    return reply, {name: by for name, by in grown.items() if by}
