#!/usr/bin/env python3
"""Reads a model file by the grammar of docs/FORMAT.md, and says how it is refused.

    reference.py FILE ..      prints a line for each file: `lawful`, or the message's words, as `at byte 44: negative`

It shares nothing with the program but that page. It reads a file in three passes: bytes, syntax, names. The first two stop at the first
fault. The third lists every fault of names and answers the least one, by place and then by the refusal's number."""
import re, sys
from fractions import Fraction

RESERVED = b"variables dd enddd action endaction cost reward discount tolerance horizon".split()
LETTER = rb"[A-Za-z_]"
NUMBERS = {"bad byte": 1, "expected": 2, "not a number": 3, "too fine": 4, "too large": 5, "negative": 6, "too many": 7, "left out": 8,
           "unknown name": 9, "twice": 10, "missing branch": 11, "missing variable": 12, "primed name": 13}
LIMITS = {"variables": 100, "values": 64, "tests": 256, "actions": 64, "dds": 4096, "name bytes": 64, "nesting": 300}


class Refused(Exception):
    """A refusal: its place, its kind, and what a kind is more exact about (the want, or what there is too much of)."""

    def __init__(self, at, kind, more=""):
        self.at, self.kind, self.more = at, kind, more

    def key(self):
        return self.at, NUMBERS[self.kind]

    def __str__(self):
        return "at byte %d: %s" % (self.at, (self.kind + " " + self.more).strip())


def tokens_of(data):
    """The tokens, each with its first byte's place, and the file's end as a last one."""
    found, i = [], 0
    while i < len(data):
        if data[i:i + 2] == b"//":
            end = data.find(b"\n", i)
            i = len(data) if end < 0 else end
        elif data[i] in b" \t\r\n":
            i += 1
        elif data[i] in b"()[]":
            found.append((data[i:i + 1], i))
            i += 1
        elif 0x20 <= data[i] <= 0x7E:
            start = i
            while i < len(data) and 0x20 < data[i] <= 0x7E and data[i] not in b"()[]" and data[i:i + 2] != b"//":
                i += 1
            found.append((data[start:i], start))
        else:
            raise Refused(i, "bad byte")
    return found + [(None, len(data))]


def decimal(word):
    """The exact value of a word, or None where it is no decimal."""
    form = re.fullmatch(rb"([+-]?)([0-9]*)(?:\.([0-9]*))?(?:[eE]([+-]?[0-9]{1,2}))?", word)
    if not form or not (form[2] or form[3]):
        return None
    digits = form[2] + (form[3] or b"")
    if len(digits.strip(b"0")) > 38:
        return None
    value = Fraction(int(digits)) / 10 ** len(form[3] or b"") * Fraction(10) ** int(form[4] or 0)
    return -value if form[1] == b"-" else value


def number(word, at, places, whole=1, most=None, least=None):
    """The word's value in units of 10^-places. It is divisible by `whole`, at most `most` and at least `least`, where these are given."""
    value = decimal(word)
    if value is None:
        raise Refused(at, "not a number")
    units = value * 10 ** places
    if units.denominator != 1 or units % whole:
        raise Refused(at, "too fine")
    if abs(units) > 10 ** 30 or (most is not None and units > most):
        raise Refused(at, "too large")
    if least is not None and units < least:
        raise Refused(at, "negative")
    return int(units)


class Reader:
    """The syntax pass. It keeps what was read as nested tuples, each name with its place."""

    def __init__(self, data):
        self.tokens, self.i = tokens_of(data), 0
        self.variables, self.sections, self.tests = [], [], 0
        self.counts = {"action": 0, "dd": 0}

    # tokens

    def peek(self):
        return self.tokens[self.i][0]

    def at(self):
        return self.tokens[self.i][1]

    def next(self):
        self.i += 1
        return self.tokens[self.i - 1]

    def is_word(self):
        return self.peek() is not None and self.peek() not in (b"(", b")", b"[", b"]")

    def expected(self, want):
        raise Refused(self.at(), "expected", want)

    def take(self, token, want):
        if self.peek() != token:
            self.expected(want)
        return self.next()[1]

    def count(self, what, n):
        if n > LIMITS[what]:
            raise Refused(self.at(), "too many", what)

    # names: the first byte, then the length, then the rest

    def name(self, want, first, rest, reserved=(), primed=False):
        if not self.is_word() or not re.match(first, self.peek()):
            self.expected(want)
        word = self.peek()
        own = word[:-1] if primed and word.endswith(b"'") else word
        self.count("name bytes", len(own))
        if not re.fullmatch(first + rest + b"*", own) or own in reserved:
            self.expected(want)
        return word

    def a_name(self):
        return self.name("name", LETTER, rb"[A-Za-z0-9_-]", RESERVED)

    def a_value(self, want):
        return self.name(want, rb"[A-Za-z0-9_]", rb"[A-Za-z0-9_.-]")

    # the file

    def file(self):
        self.take(b"(", "variables")
        self.take(b"variables", "variables")
        self.variable()
        while self.peek() == b"(":
            self.variable()
        self.take(b")", "close")
        while self.section():
            pass
        return self

    def variable(self):
        self.take(b"(", "open")
        self.a_name()
        self.count("variables", len(self.variables) + 1)
        name, values = self.next(), []
        while True:
            self.a_value("close" if values else "value")
            self.count("values", len(values) + 1)
            self.tests += 1 if values else 0
            self.count("tests", self.tests)
            values.append(self.next())
            if not self.is_word():
                break
        self.take(b")", "close")
        self.variables.append((name, values))

    def section(self):
        word, at = self.tokens[self.i]
        seen = {section[0] for section in self.sections}
        if word is None:
            if not {b"action", b"reward", b"discount"} <= seen or not {b"tolerance", b"horizon"} & seen:
                self.expected("section")
            return False
        if word in (b"init", b"unnormalized"):
            raise Refused(at, "left out")
        if word == b"(" and self.tokens[self.i + 1][0] == b"observations":
            raise Refused(self.tokens[self.i + 1][1], "left out")
        if word not in (b"dd", b"action", b"reward", b"discount", b"tolerance", b"horizon"):
            self.expected("section")
        self.next()
        self.sections.append((word, at) + getattr(self, word.decode())())
        return True

    def dd(self):
        self.a_name()
        self.counts["dd"] += 1
        self.count("dds", self.counts["dd"])
        name = self.next()
        tree = self.tree(1, "dd")
        self.take(b"enddd", "enddd")
        return name, tree

    def action(self):
        self.a_name()
        self.counts["action"] += 1
        self.count("actions", self.counts["action"])
        name, items = self.next(), []
        while self.peek() != b"endaction":
            word, at = self.tokens[self.i]
            if word == b"cost":
                self.next()
                items.append((word, at, self.part()))
                continue
            if word == b"observe":
                raise Refused(at, "left out")
            self.a_name()
            self.next()
            items.append((word, at, self.tree(1, "table")))
        return name, items, self.next()[1]

    def reward(self):
        return (self.part(),)

    def discount(self):
        return self.setting(6, 999_999)

    def tolerance(self):
        return self.setting(9)

    def horizon(self):
        return self.setting(0, 1000)

    def setting(self, places, most=None):
        if not self.is_word():
            self.expected("number")
        number(*self.tokens[self.i], places, most=most, least=0)
        return (self.next(),)

    def part(self):
        if self.peek() != b"[":
            return [self.tree(1, "reward")]
        self.next()
        if self.peek() in (b"*", b"-", b"max"):
            raise Refused(self.at(), "left out")
        self.take(b"+", "plus")
        trees = [self.tree(1, "reward")]
        while self.peek() == b"(":
            trees.append(self.tree(1, "reward"))
        self.take(b"]", "close")
        return trees

    def tree(self, depth, purpose):
        if self.peek() != b"(":
            self.expected("open")
        self.count("nesting", depth)
        self.next()
        if self.is_word() and re.match(rb"[0-9+.-]", self.peek()):
            units = number(*self.tokens[self.i], 12, whole=1000 if purpose == "reward" else 1, least=0 if purpose == "table" else None)
            self.next()
            self.take(b")", "close")
            return "leaf", units
        word = self.name("name", LETTER, rb"[A-Za-z0-9_-]", RESERVED, primed=True)
        at = self.next()[1]
        if self.peek() == b")" and not word.endswith(b"'"):
            self.next()
            return "use", word, at
        if self.peek() != b"(":
            self.expected("open" if word.endswith(b"'") else "close")
        branches = []
        while self.peek() == b"(":
            self.next()
            self.a_value("value")
            value = self.next()
            branches.append((value, self.tree(depth + 1, purpose)))
            self.take(b")", "close")
        self.take(b")", "close")
        return "branch", word, at, branches


class Dd:
    """What a use asks of a decision diagram: its leaves, the variables whose next value it tests, its nesting. All as written."""

    def __init__(self):
        self.negative = self.fine = False
        self.primed, self.nesting = set(), 1


class Names:
    """The names pass: a list of all faults."""

    def __init__(self, read):
        self.faults, self.order, self.values, self.dds = [], {}, {}, {}
        self.variables(read.variables)
        actions, seen = set(), set()
        for section in read.sections:
            word, at = section[:2]
            if word == b"dd":
                self.dd(*section[2:])
            elif word == b"action":
                if section[2][0] in actions:
                    self.fault(section[2][1], "twice")
                actions.add(section[2][0])
                self.action(*section[3:])
            else:
                if word in seen:
                    self.fault(at, "twice")
                seen.add(word)
                if word == b"reward":
                    for tree in section[2]:
                        self.tree(tree, 0, "reward", None, Dd())

    def fault(self, at, kind, more=""):
        self.faults.append(Refused(at, kind, more))

    def variables(self, variables):
        for (name, at), values in variables:
            if name in self.order:
                self.fault(at, "twice")
            known = {}
            for value, place in values:
                if value in known:
                    self.fault(place, "twice")
                known[value] = place
            self.order.setdefault(name, len(self.order))
            self.values.setdefault(name, set(known))

    def dd(self, name, tree):
        about = Dd()
        about.nesting = self.tree(tree, 0, "dd", None, about)
        if name[0] in self.dds:
            self.fault(name[1], "twice")
        self.dds.setdefault(name[0], about)

    def action(self, items, end):
        tables, costs = set(), 0
        for word, at, what in items:
            if word == b"cost":
                costs += 1
                if costs > 1:
                    self.fault(at, "twice")
                for tree in what:
                    self.tree(tree, 0, "reward", None, Dd())
                continue
            if word not in self.order:
                self.fault(at, "unknown name")
            elif word in tables:
                self.fault(at, "twice")
            tables.add(word)
            self.tree(what, 0, "table", self.order.get(word), Dd())
        if set(self.order) - tables:
            self.fault(end, "missing variable")

    def may_be_primed(self, var, purpose, own):
        return purpose == "dd" or (purpose == "table" and (own is None or var >= own))

    def tree(self, tree, above, purpose, own, about):
        """The nesting of a tree that stands in `above` branches. What it holds is noted in `about`."""
        if tree[0] == "leaf":
            about.negative |= tree[1] < 0
            about.fine |= tree[1] % 1000 != 0
            return 1
        if tree[0] == "use":
            return self.use(tree[1], tree[2], above, purpose, own, about)
        _, word, at, branches = tree
        primed = word.endswith(b"'")
        name = word[:-1] if primed else word
        var = self.order.get(name)
        if var is None:
            self.fault(at, "unknown name")
        else:
            if primed and not self.may_be_primed(var, purpose, own):
                self.fault(at, "primed name")
            if primed:
                about.primed.add(var)
            self.branch_values(name, at, branches)
        return 1 + max(self.tree(kid, above + 1, purpose, own, about) for _, kid in branches)

    def branch_values(self, name, at, branches):
        stood = set()
        for (value, place), _ in branches:
            if value not in self.values[name]:
                self.fault(place, "unknown name")
            elif value in stood:
                self.fault(place, "twice")
            stood.add(value)
        if self.values[name] - stood:
            self.fault(at, "missing branch")

    def use(self, word, at, above, purpose, own, about):
        used = self.dds.get(word)
        if used is None:
            self.fault(at, "unknown name")
            return 1
        if purpose == "reward" and used.fine:
            self.fault(at, "too fine")
        if purpose == "table" and used.negative:
            self.fault(at, "negative")
        if above + used.nesting > LIMITS["nesting"]:
            self.fault(at, "too many", "nesting")
        if any(not self.may_be_primed(var, purpose, own) for var in used.primed):
            self.fault(at, "primed name")
        about.negative |= used.negative
        about.fine |= used.fine
        about.primed |= used.primed
        return used.nesting


def refusal(data):
    """How the file is refused, or None where it is lawful."""
    try:
        read = Reader(data).file()
    except Refused as refused:
        return refused
    return min(Names(read).faults, key=Refused.key, default=None)


def message(data):
    refused = refusal(data)
    return "lawful" if refused is None else str(refused)


if __name__ == "__main__":
    sys.setrecursionlimit(10_000)
    for file in sys.argv[1:]:
        with open(file, "rb") as opened:
            print(message(opened.read()))
