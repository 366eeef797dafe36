#!/usr/bin/env python3
"""What building and backing up the models of this folder has to give, by their definitions on plain tables.

    expected.py ../../crates/spd_stage_rows/src        writes models.rt, expected.rt and parts.rt there; then run `rt fmt` in the crate

It reads a model and computes its bounds as tests/small/reference.py does, and shares nothing with the solver. A function is one leaf
for each present and next state; its test tree tests, variable by variable, the next value and then the present one, each value but
the last."""
import itertools, os, sys

HERE = os.path.dirname(os.path.abspath(__file__))
sys.path.insert(0, os.path.join(HERE, "..", "small"))
import reference as r

TITLES = {
    "keep": "A variable that its only action keeps.",
    "mix": "A die that is thrown anew, with probabilities that are rounded thirds.",
    "die": "A die that its only action keeps.",
    "sixteen": "Four variables that their only action keeps, with a reward of its own for each of the sixteen states.",
    "coffee": "A robot fetches coffee; rain makes it wet.",
    "arc": "A variable that takes the next value of the one after it.",
}

PARTED = ("mix", "coffee", "arc")


def tree(sizes, f):
    """The reduced test tree of a function of the present and the next state."""
    def rec(i, primed, s, t):
        if i == len(sizes):
            return ("leaf", f(s, t))
        kids = [rec(i, False, s, t + (v,)) if primed else rec(i + 1, True, s + (v,), t) for v in range(sizes[i])]
        rest = kids[-1]
        for v in range(sizes[i] - 2, -1, -1):
            rest = rest if kids[v] == rest else ("test", (i, primed, v), kids[v], rest)
        return rest
    return rec(0, True, (), ())


def subtrees(trees):
    """How many distinct subtrees some trees have."""
    seen, numbers = {}, set()

    def number(x):
        key = x if x[0] == "leaf" else ("test", x[1], number(x[2]), number(x[3]))
        return seen.setdefault(key, len(seen))

    for x in trees:
        number(x)
    return len(seen)


def backup_functions(m, a, w):
    """The functions of backing up an action where the value w follows, each a function of the present and the next state."""
    n = len(m.values)
    sizes = [len(v) for v in m.values]
    functions = [lambda s, t: w[t]]
    for divide in (r.floor, r.ceiling):
        e = {(s, t): w[t] for s in m.states for t in m.states}
        for i in range(n):
            def at(s, t, v, e=e, i=i):
                return e[s, t[:i] + (v,) + t[i + 1:]]

            def product(s, t, v, at=at, i=i):
                return r.probability(m, a, s, i, v, t[i + 1:]) * at(s, t, v)

            for v in range(sizes[i]):
                functions.append(lambda s, t, at=at, v=v: at(s, t, v))
                functions.append(lambda s, t, product=product, v=v: product(s, t, v))
                functions.append(lambda s, t, product=product, v=v: sum(product(s, t, u) for u in range(v + 1)))
            e = {(s, t): divide(sum(product(s, t, v) for v in range(sizes[i])), r.P) for s in m.states for t in m.states}
            functions.append(lambda s, t, e=e: e[s, t])
        later = {s: divide(m.discount * e[s, (0,) * n], r.ONE) for s in m.states}
        functions.append(lambda s, t, later=later: later[s])
        functions.append(lambda s, t, later=later: r.reward(m, a, s) + later[s])
    return functions


def tree_functions(m, x):
    """The functions of a tree of the model: of a number it is the constant; of a branch those of its subtrees, and for each of the
    variable's values the branch from that value on, which is the last subtree elsewhere."""
    if not isinstance(x, tuple):
        return [lambda s, t: x]
    _, var, primed, kids = x
    functions = [f for kid in kids for f in tree_functions(m, kid)]
    for least in range(len(kids)):
        functions.append(lambda s, t, least=least: r.value_of(kids[-1] if (t if primed else s)[var] < least else x, s, t))
    return functions


def part_functions(m, parts):
    """Those of a reward or of a cost: of its parts, the sums of the first ones, and the whole sum in units of 10^-9."""
    functions = [f for x in parts for f in tree_functions(m, x)]
    for n in range(len(parts) + 1):
        functions.append(lambda s, t, n=n: sum(r.value_of(x, s, t) for x in parts[:n]))
    return functions + [lambda s, t: sum(r.value_of(x, s, t) for x in parts) // 1000]


def building_functions(m):
    """The functions of building a model's parts. A decision diagram that is named stands in each tree that names it."""
    functions = [lambda s, t: 0, lambda s, t: r.P]
    for a, (_, tables, cost) in enumerate(m.actions):
        for i, values in enumerate(m.values):
            functions += tree_functions(m, tables[i])
            for v in range(len(values)):
                functions.append(lambda s, t, a=a, i=i, v=v: r.probability(m, a, s, i, v, t[i + 1:]))
                functions.append(lambda s, t, a=a, i=i, v=v: sum(r.probability(m, a, s, i, u, t[i + 1:]) for u in range(v + 1)))
        functions += part_functions(m, cost) + [lambda s, t, a=a: r.reward(m, a, s)]
        functions.append(lambda s, t, a=a: max(r.reward(m, b, s) for b in range(a + 1)))
    return functions + part_functions(m, m.reward)


def bound(m, a, w, divide):
    return {s: r.reward(m, a, s) + divide(m.discount * r.expectation(m, divide, w, a, s), r.ONE) for s in m.states}


def listed(sizes, slots, f):
    """The nodes of the reduced diagram of a function, each at its first completion. A slot is a variable, and whether its next value."""
    lines, numbers = [], {}

    def add(key, text):
        if key not in numbers:
            numbers[key] = len(lines)
            lines.append(text)
        return numbers[key]

    def visit(at, values):
        if at == len(slots):
            return add(("leaf", f(values)), "Leaf(%d)" % f(values))
        var, primed = slots[at]
        kids = [visit(at + 1, values + (v,)) for v in range(sizes[var])]
        if len(set(kids)) == 1:
            return kids[0]
        return add((at, tuple(kids)), "%s(%d, &[%s])" % ("Next" if primed else "Now", var, ", ".join(map(str, kids))))

    visit(0, ())
    return lines


def present(m, table):
    sizes = [len(v) for v in m.values]
    return listed(sizes, [(i, False) for i in range(len(sizes))], lambda s: table[s])


def mixed(m, f):
    sizes = [len(v) for v in m.values]
    return listed(sizes, [(i, p) for i in range(len(sizes)) for p in (True, False)], lambda p: f(p[1::2], p[0::2]))


def second(m):
    """A value of no meaning with many digits: a number of the first, third and last variable."""
    def number(s):
        k = s[0] + 3 * s[min(2, len(s) - 1)] + 5 * s[-1]
        return (k - 4) * 333333337 * (1 if k % 2 else 7)
    return {s: number(s) for s in m.states}


def first(m):
    return {s: max(r.reward(m, a, s) for a in range(len(m.actions))) for s in m.states}


def array(lines):
    return "&[" + ", ".join(lines) + "]"


def main():
    out = sys.argv[1]
    models = ["//! Model files. Those of `tests/stages`, from which they are written by its script."]
    wanted = ["//! What backing up gives, by the definitions on plain tables: written by the script in `tests/stages`.",
              "use crate::wanted::Want::{self, Leaf, Now};", "use crate::wanted::Backed;", "use crate::models;"]
    parted = ["//! What models are built into, by the definitions on plain tables: written by the script in `tests/stages`.",
              "use crate::wanted::Want::{Leaf, Next, Now};", "use crate::wanted::Parts;", "use crate::{expected, models};"]
    for name in TITLES:
        data = r.read(os.path.join(HERE, name + ".spudd"))
        m = r.Model(data)
        sizes = [len(v) for v in m.values]
        upper = name.upper()
        text = data.decode().rstrip("\n").replace("\\", "\\\\").replace('"', '\\"')
        models.append("/// " + TITLES[name])
        models.append("pub const %s: &str = \"%s\";" % (upper, text))
        rows = []
        for title, w in (("start", first(m)), ("second value", second(m))):
            values = "%s_%s" % (upper, "START" if title == "start" else "SECOND")
            wanted.append("/// The value at the start." if title == "start" else "/// Another value.")
            wanted.append("%sconst %s: &[Want] = %s;" % ("pub " if title == "start" and name in PARTED else "", values, array(present(m, w))))
            for a, (action, _, _) in enumerate(m.actions):
                functions = backup_functions(m, a, w)
                nodes = subtrees(tree(sizes, f) for f in functions)
                print(name, title, action, nodes, "nodes", file=sys.stderr)
                rows.append("Backed { what: \"%s: %s, %s\", file: models::%s, action: %d, value: %s, lo: %s, hi: %s, nodes: %d }" % (
                    name, action, title, upper, a, values, array(present(m, bound(m, a, w, r.floor))), array(present(m, bound(m, a, w, r.ceiling))), nodes))
        wanted.append("/// Backups of each action, where the value at the start follows, and where another one does.")
        wanted.append("pub const %s: &[Backed] = &[%s];" % (upper, ", ".join(rows)))
        if name == "mix":
            trees = [tree(sizes, f) for f in building_functions(m) + backup_functions(m, 0, first(m)) + [lambda s, t: first(m)[s]]]
            wanted.append("/// The number of nodes of the functions of building, of the value at the start, and of the first action's backup where it follows.")
            wanted.append("pub const MIX_NODES: u32 = %d;" % subtrees(trees))
        if name in PARTED:
            weights = []
            for a in range(len(m.actions)):
                for i in range(len(sizes)):
                    for v in range(sizes[i]):
                        weights.append(array(mixed(m, lambda s, t, a=a, i=i, v=v: r.probability(m, a, s, i, v, t[i + 1:]))))
            rewards = [array(present(m, {s: r.reward(m, a, s) for s in m.states})) for a in range(len(m.actions))]
            parted.append("/// " + TITLES[name])
            parted.append("pub const %s: Parts = Parts { file: models::%s, sizes: &%s, discount: %d, weights: &[%s], rewards: &[%s], start: expected::%s_START };" % (
                upper, upper, sizes, m.discount, ", ".join(weights), ", ".join(rewards), upper))
    for name, lines in (("models.rt", models), ("expected.rt", wanted), ("parts.rt", parted)):
        with open(os.path.join(out, name), "w") as file:
            file.write("\n".join(lines) + "\n")


main()
