#!/usr/bin/env python3
"""Writes what `spudd solve examples/boot.spudd` has to print, and shares nothing with the program but docs/RULES.md.

    expected.py FILE        FILE is examples/boot.spudd

Of the 2^40 states only how many servers are down matters, so 41 values stand for all. Rounding is that of the rules: a server that stays as it is adds
none, and just one server changes in a step."""
import hashlib, sys

SERVERS, UNIT, MILLION, ONE = 40, 10 ** 9, 10 ** 6, 10 ** 12
DISCOUNT, TOLERANCE, COST, TRIED = 950_000, UNIT // 10, UNIT // 50, (9 * ONE // 10, ONE // 10)
ACTIONS = ("wait", "start")
COUNTS = range(SERVERS + 1)


def ceil_div(n, d):
    return -(-n // d)


def number(n):
    return "%d.%09d" % (n // UNIT, n % UNIT)


def reward(down, action):
    return (UNIT if down == 0 else 0) - (COST if action else 0)


def expected(value, down, action, div):
    if action == 0 or down == 0:
        return value[down]
    return div(TRIED[0] * value[down - 1] + TRIED[1] * value[down], ONE)


def bounds(value):
    """For each number of servers that are down, the lower and the upper bounds of both actions."""
    low = [[reward(d, a) + DISCOUNT * expected(value, d, a, int.__floordiv__) // MILLION for a in (0, 1)] for d in COUNTS]
    high = [[reward(d, a) + ceil_div(DISCOUNT * expected(value, d, a, ceil_div), MILLION) for a in (0, 1)] for d in COUNTS]
    return low, high


def solve():
    value = [max(reward(d, 0), reward(d, 1)) for d in COUNTS]
    for turn in range(10_001):
        low, high = bounds(value)
        above = [max(high[d]) - value[d] for d in COUNTS]
        below = [value[d] - max(low[d]) for d in COUNTS]
        residual = max([0] + above + below)
        if 2 * residual * MILLION <= TOLERANCE * (MILLION - DISCOUNT):
            return turn, value, low, high, above, below, residual
        value = [(max(low[d]) + max(high[d])) // 2 for d in COUNTS]


def diagram(leaf):
    """The nodes of a function of how many servers are down, in order of first completion."""
    nodes, known, numbers = [], {}, {}

    def visit(server, down):
        if (server, down) not in numbers:
            if server > SERVERS:
                node = "leaf " + leaf(down)
            else:
                kids = visit(server + 1, down), visit(server + 1, down + 1)
                if kids[0] == kids[1]:
                    numbers[server, down] = kids[0]
                    return kids[0]
                node = "branch s%d %d %d" % (server, *kids)
            if node not in known:
                known[node] = len(nodes)
                nodes.append(node)
            numbers[server, down] = known[node]
        return numbers[server, down]

    visit(1, 0)
    return ["%d" % len(nodes)] + ["%d %s" % pair for pair in enumerate(nodes)]


def main(path):
    with open(path, "rb") as file:
        digest = hashlib.sha256(file.read()).hexdigest()
    turn, value, low, high, above, below, residual = solve()
    policy = [low[d].index(max(low[d])) for d in COUNTS]
    # The first state with so many servers down has the last ones down.
    worst = next(d for d in COUNTS if residual in (above[d], below[d]))
    side, action = ("above", high[worst].index(max(high[worst]))) if above[worst] == residual else ("below", policy[worst])
    state = " ".join("s%d=%s" % (i, "down" if i > SERVERS - worst else "up") for i in range(1, SERVERS + 1))
    lines = ["spd result 2", "model " + digest, "status done", "turn %d" % turn, "residual " + number(residual), "at %s %s %s" % (state, side, ACTIONS[action]),
             "error " + number(ceil_div(residual * MILLION, MILLION - DISCOUNT))]
    for title, leaf in (("value", lambda d: number(value[d])), ("policy", lambda d: ACTIONS[policy[d]])):
        count, *nodes = diagram(leaf)
        lines += ["%s %s" % (title, count)] + nodes
    print("\n".join(lines + ["end"]))


if __name__ == "__main__":
    if len(sys.argv) != 2:
        sys.exit(__doc__)
    main(sys.argv[1])
