"""Decides whether the history of a key is linearizable: whether there is one order of its commands in which each gets the reply
that it got, and in which a command that ended before another began comes before it. `tools/bench/test_linearizable.py` records them.

A history is a list of `Call`s. What a call asks of the key's value, and what it makes of it, follows from its command and its
reply (`rule_of`); values that clients store are all different, so a cas unique stands for the value that was read with it.

The search follows the begins and ends of calls in the order of time. It keeps each pair of a value that the key may hold
and the calls under way that have taken effect by then (Lowe, "Testing for linearizability", 2017). A call that changes nothing
takes effect as soon as it can, and one that changes the value no sooner than some end needs it.
"""
import collections

# What a call asks of the value before it.
ANY, IS, OTHER, ABSENT, PRESENT = range(5)

# The most pairs that are followed at one time; if there are more the history isn't decided.
MAX_PAIRS = 100_000

Call = collections.namedtuple("Call", "begin end client kind given reply")

# What a call needs and does: which value, and whether and to what it changes it. An absent value is None.
Rule = collections.namedtuple("Rule", "asks value changes then")


class Refused(Exception):
    """The history is not linearizable, or could not be decided."""


def values_of_uniques(history):
    """The value that was read with each cas unique. One unique has one value, and one value one unique."""
    values, uniques = {}, {}
    for call in history:
        if call.kind == "gets" and call.reply is not None:
            value, unique = call.reply
            if values.setdefault(unique, value) != value or uniques.setdefault(value, unique) != unique:
                raise Refused(f"the unique {unique} and the value {value} do not belong together: {call}")
    return values


def rule_of(call, values):
    """What the call's reply says of the value before it and after it."""
    kind, given, reply = call.kind, call.given, call.reply
    if kind == "get":
        return Rule(ABSENT if reply is None else IS, reply, False, None)
    if kind == "gets":
        return Rule(ABSENT if reply is None else IS, reply and reply[0], False, None)
    if kind == "set" and reply == "STORED":
        return Rule(ANY, None, True, given)
    if kind == "add":
        return Rule(ABSENT, None, True, given) if reply == "STORED" else Rule(PRESENT, None, False, None)
    if kind == "delete":
        return Rule(PRESENT, None, True, None) if reply == "DELETED" else Rule(ABSENT, None, False, None)
    if kind == "incr":
        return Rule(ABSENT, None, False, None) if reply is None else Rule(IS, str(int(reply) - given), True, reply)
    if kind == "cas":
        old = values[given[0]]
        found = {"STORED": Rule(IS, old, True, given[1]), "EXISTS": Rule(OTHER, old, False, None), "NOT_FOUND": Rule(ABSENT, None, False, None)}
        return found[reply]
    raise Refused(f"no such reply is foreseen: {call}")


def may(rule, value):
    asks = rule.asks
    if asks == ANY:
        return True
    if asks == IS:
        return value == rule.value
    if asks == ABSENT:
        return value is None
    return value is not None and (asks == PRESENT or value != rule.value)


class Search:
    """The pairs of a value and a set of calls (one bit each) that have taken effect, at a moment of the history."""

    def __init__(self):
        self.pairs = {(None, 0)}
        self.under_way = {}  # the bit of each call that has begun and not ended, and its rule

    def settled(self, value, done):
        """The pair, if calls that change nothing have taken effect if they can."""
        for bit, rule in self.under_way.items():
            if not rule.changes and not done & bit and may(rule, value):
                done |= bit
        return value, done

    def begins(self, bit, rule):
        self.under_way[bit] = rule
        if not rule.changes:
            self.pairs = {(value, done | bit if may(rule, value) else done) for value, done in self.pairs}

    def ends(self, bit):
        """The call has taken effect by now."""
        changing = [(other, rule) for other, rule in self.under_way.items() if rule.changes]
        found, seen, open_pairs = set(), set(self.pairs), list(self.pairs)
        while open_pairs:
            value, done = open_pairs.pop()
            if done & bit:
                found.add((value, done & ~bit))
                continue
            for other, rule in changing:
                if not done & other and may(rule, value):
                    pair = self.settled(rule.then, done | other)
                    if pair not in seen:
                        seen.add(pair)
                        open_pairs.append(pair)
            if len(seen) > MAX_PAIRS:
                raise Refused(f"not decided: more than {MAX_PAIRS} pairs")
        del self.under_way[bit]
        self.pairs = found


def in_time(history):
    """The begins and ends of calls in the order of time; if two are at once the begin comes first."""
    marks = [(call.begin, 0, number) for number, call in enumerate(history)]
    marks += [(call.end, 1, number) for number, call in enumerate(history)]
    return sorted(marks)


def check(history):
    """Returns how many pairs there were at most; raises Refused if the history is not linearizable."""
    values, search, most = values_of_uniques(history), Search(), 1
    free, bits = [], {}
    for _, is_end, number in in_time(history):
        if not is_end:
            bits[number] = free.pop() if free else 1 << len(bits)
            search.begins(bits[number], rule_of(history[number], values))
            continue
        bit = bits.pop(number)
        search.ends(bit)
        free.append(bit)
        most = max(most, len(search.pairs))
        if not search.pairs:
            raise Refused(f"no order explains {history[number]}")
    return most
