#!/usr/bin/env python3
"""What comes of a small model, computed on plain tables by the rules of docs/RULES.md.

    reference.py FILE [--turns N] [--span X]      prints the text that `spudd solve FILE` has to print, or its message
    reference.py --all                            writes NAME.result beside each NAME.spudd of this folder, with the options of NAME.options

It shares nothing with the solver but those rules: whole numbers of Python, one entry for each state, no diagrams. It reads lawful
files alone and refuses nothing but too many states, a sum or a reward that the rules refuse."""
import functools, hashlib, itertools, os, re, sys
from fractions import Fraction

P = 10 ** 12            # one, as a probability
ONE = 10 ** 6           # one, as a discount


def tokens(data):
    text = re.sub(rb"//[^\n]*", b" ", data).decode("ascii")
    return re.findall(r"[()\[\]]|[^\s()\[\]]+", text)


def units(word, places):
    """A decimal as a whole number of units of 10^-places."""
    m = re.fullmatch(r"([+-]?)(\d*)\.?(\d*)(?:[eE]([+-]?\d+))?", word)
    value = Fraction(int((m[2] + m[3]) or "0")) / 10 ** len(m[3])
    value *= Fraction(10) ** int(m[4] or 0)
    scaled = value * 10 ** places * (-1 if m[1] == "-" else 1)
    assert scaled.denominator == 1, word
    return scaled.numerator


class Model:
    def __init__(self, data):
        self.digest = hashlib.sha256(data).hexdigest()
        self.words, self.i = tokens(data), 0
        self.names, self.values, self.dds, self.actions = [], [], {}, []
        self.take("("), self.take("variables")
        while self.peek() == "(":
            self.take("(")
            self.names.append(self.next())
            self.values.append([])
            while self.peek() != ")":
                self.values[-1].append(self.next())
            self.take(")")
        self.take(")")
        while self.i < len(self.words):
            section = self.next()
            if section == "dd":
                name = self.next()
                self.dds[name] = self.tree()
                self.take("enddd")
            elif section == "action":
                self.action()
            elif section == "reward":
                self.reward = self.part()
            elif section == "discount":
                self.discount = units(self.next(), 6)
            elif section == "tolerance":
                self.tolerance = units(self.next(), 9)
            else:
                self.next()                                     # a horizon
        if not hasattr(self, "tolerance"):
            self.tolerance = 0

    @functools.cached_property
    def states(self):
        return list(itertools.product(*[range(len(v)) for v in self.values]))

    def peek(self):
        return self.words[self.i]

    def next(self):
        self.i += 1
        return self.words[self.i - 1]

    def take(self, word):
        assert self.next() == word, word

    def action(self):
        name, tables, cost = self.next(), {}, []
        while self.peek() != "endaction":
            item = self.next()
            if item == "cost":
                cost = self.part()
            else:
                tables[self.names.index(item)] = self.tree()
        self.take("endaction")
        self.actions.append((name, [tables[i] for i in range(len(self.names))], cost))

    def part(self):
        if self.peek() == "(":
            return [self.tree()]
        self.take("["), self.take("+")
        trees = []
        while self.peek() != "]":
            trees.append(self.tree())
        self.take("]")
        return trees

    def tree(self):
        """A number, or ('branch', variable, primed, subtrees by value); a name is replaced by its tree."""
        self.take("(")
        word = self.next()
        if self.peek() == ")":
            self.take(")")
            return units(word, 12) if re.match(r"[0-9+.-]", word) else self.dds[word]
        primed = word.endswith("'")
        var = self.names.index(word.rstrip("'"))
        kids = {}
        while self.peek() != ")":
            self.take("(")
            value = self.values[var].index(self.next())
            kids[value] = self.tree()
            self.take(")")
        self.take(")")
        return ("branch", var, primed, [kids[v] for v in range(len(self.values[var]))])


def value_of(tree, s, t):
    while isinstance(tree, tuple):
        _, var, primed, kids = tree
        tree = kids[(t if primed else s)[var]]
    return tree


def probability(m, a, s, i, v, rest):
    return value_of(m.actions[a][1][i], s, s[:i] + (v,) + rest)


def reward(m, a, s):
    total = sum(value_of(x, s, s) for x in m.reward) - sum(value_of(x, s, s) for x in m.actions[a][2])
    return total // 1000


def floor(n, d):
    return n // d


def ceiling(n, d):
    return -(-n // d)


def check_sums(m):
    for a in range(len(m.actions)):
        for i, values in enumerate(m.values):
            for s in m.states:
                for rest in itertools.product(*[range(len(v)) for v in m.values[i + 1:]]):
                    total = sum(probability(m, a, s, i, v, rest) for v in range(len(values)))
                    if total != P:
                        return (a, i, s, total)


def expectation(m, divide, w, a, s):
    """The variables are summed out in file order, and the sum is rounded after each."""
    e = dict(w)
    for i, values in enumerate(m.values):
        later = list(itertools.product(*[range(len(v)) for v in m.values[i + 1:]]))
        e = {rest: divide(sum(probability(m, a, s, i, v, rest) * e[(v,) + rest] for v in range(len(values))), P) for rest in later}
    return e[()]


def bounds(m, w):
    def bound(divide, a, s):
        return reward(m, a, s) + divide(m.discount * expectation(m, divide, w, a, s), ONE)
    numbers = range(len(m.actions))
    low = {s: [bound(floor, a, s) for a in numbers] for s in m.states}
    high = {s: [bound(ceiling, a, s) for a in numbers] for s in m.states}
    return low, high


def merged(ranges, span):
    values, ordered = {}, sorted(set(ranges.values()))
    while ordered:
        low, high = ordered[0]
        group = [ordered.pop(0)]
        while ordered and max(high, ordered[0][1]) <= low + span:
            high = max(high, ordered[0][1])
            group.append(ordered.pop(0))
        for pair in group:
            values[pair] = (low + high) // 2
    return {s: values[pair] for s, pair in ranges.items()}


def solve(m, turns, span):
    w = {s: max(reward(m, a, s) for a in range(len(m.actions))) for s in m.states}
    for k in range(turns + 1):
        low, high = bounds(m, w)
        most_low = {s: max(low[s]) for s in m.states}
        most_high = {s: max(high[s]) for s in m.states}
        residual = max([0] + [max(most_high[s] - w[s], w[s] - most_low[s]) for s in m.states])
        done = 2 * residual * ONE <= m.tolerance * (ONE - m.discount)
        if done or k == turns:
            break
        w = merged({s: (most_low[s], most_high[s]) for s in m.states}, span)
    policy = {s: low[s].index(most_low[s]) for s in m.states}
    at = next(s for s in m.states if residual in (most_high[s] - w[s], w[s] - most_low[s]))
    above = most_high[at] - w[at] == residual
    action = high[at].index(most_high[at]) if above else policy[at]
    return k, done, w, policy, residual, at, above, action


def number(n, places=9):
    digits = str(abs(n)).rjust(places + 1, "0")
    return ("-" if n < 0 else "") + digits[:-places] + "." + digits[-places:]


def nodes(m, table, leaf):
    """The distinct subtrees of the reduced tree, each at its first completion."""
    lines, numbers = [], {}

    def add(key, text):
        if key not in numbers:
            numbers[key] = len(lines)
            lines.append("%d %s" % (len(lines), text))
        return numbers[key]

    def visit(var, prefix):
        if var == len(m.names):
            return add(("leaf", table[prefix]), "leaf " + leaf(table[prefix]))
        kids = [visit(var + 1, prefix + (v,)) for v in range(len(m.values[var]))]
        if len(set(kids)) == 1:
            return kids[0]
        return add((var, tuple(kids)), "branch %s %s" % (m.names[var], " ".join(map(str, kids))))

    visit(0, ())
    return lines


def too_many_states(m):
    """The first product of leading variables' numbers of values that passes 4,096."""
    product = 1
    for values in m.values:
        product *= len(values)
        if product > 4096:
            return product
    return None


def text_of(m, k, done, w, policy, residual, at, above, action):
    value = nodes(m, w, number)
    plan = nodes(m, policy, lambda a: m.actions[a][0])
    lines = ["spd result 2", "model " + m.digest, "status " + ("done" if done else "limit"), "turn %d" % k, "residual " + number(residual),
             "at %s %s %s" % (place(m, at), "above" if above else "below", m.actions[action][0]),
             "error " + number(ceiling(residual * ONE, ONE - m.discount)),
             "value %d" % len(value), *value, "policy %d" % len(plan), *plan, "end"]
    return "\n".join(lines) + "\n"


def outcome(data, turns=10000, span=0):
    """The exit status, the message and the text of `spudd solve` on a lawful file, solved over tables."""
    m = Model(data)
    product = too_many_states(m)
    if product:
        return 13, "too many states: %d or more" % product, ""
    wrong = check_sums(m)
    if wrong:
        a, i, s, total = wrong
        return 6, "sum of action %s, variable %s at %s is %s" % (m.actions[a][0], m.names[i], place(m, s), number(total, 12)), ""
    for a in range(len(m.actions)):
        for s in m.states:
            if abs(reward(m, a, s)) > 10 ** 18:
                return 7, "reward of action %s at %s is %s" % (m.actions[a][0], place(m, s), number(reward(m, a, s))), ""
    found = solve(m, turns, span)
    done, residual = found[1], found[4]
    return (0, "", text_of(m, *found)) if done else (8, "turn limit reached, residual " + number(residual), text_of(m, *found))


def place(m, s):
    return " ".join("%s=%s" % (n, m.values[i][s[i]]) for i, n in enumerate(m.names))


def options(words):
    turns, span = 10000, 0
    for word, value in zip(words[::2], words[1::2]):
        if word == "--turns":
            turns = int(value)
        elif word == "--span":
            span = units(value, 9)
    return turns, span


def read(file):
    with open(file, "rb") as opened:
        return opened.read()


def main():
    if sys.argv[1:] == ["--all"]:
        here = os.path.dirname(os.path.abspath(__file__))
        for name in sorted(os.listdir(here)):
            if name.endswith(".spudd"):
                base = os.path.join(here, name[:-6])
                words = read(base + ".options").decode().split() if os.path.exists(base + ".options") else []
                with open(base + ".result", "w") as out:
                    out.write(outcome(read(base + ".spudd"), *options(words))[2])
        return
    status, message, text = outcome(read(sys.argv[1]), *options(sys.argv[2:]))
    sys.stdout.write(text)
    if message:
        print(message, file=sys.stderr)


if __name__ == "__main__":
    main()
