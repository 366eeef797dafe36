#!/usr/bin/env python3
"""Runs the program's two ways to solve a model, on diagrams and over tables, on the same files, and compares what they answer.

    run.py PROGRAM        prints each case that isn't as it has to be; exits 1 where there is one

What has to hold: `solve` writes, byte for byte, what `plain` writes, with the same message and status, whatever the span, the turn limit, the
number of workers and the size of the memo tables are. A node limit is told in building or in a turn, and one node more is enough where one
less isn't. Models that no table can hold are solved too, with the lines that are worked out beside them below."""
import glob, hashlib, os, re, subprocess, sys, tempfile, time

sys.dont_write_bytecode = True
ROOT = os.path.dirname(os.path.dirname(os.path.dirname(os.path.abspath(__file__))))
SPANS = ("0", "0.000000001", "0.5", "100")
TURNS = ("0", "1", "3")
# numbers of workers, and sizes of memo tables
TABLES = (("1", "1"), ("2", "65536"), ("4", "8388608"), ("4", "1"), ("7", "65536"), ("64", "1"), ("64", "8388608"))

# Four variables that keep their values, and a reward for each state: 1 to 16.
FOUR = "(variables (a yes no) (b yes no) (c yes no) (d yes no))\naction stay\n" + "".join(
    "%s (%s (yes (%s' (yes (1)) (no (0)))) (no (%s' (yes (0)) (no (1)))))\n" % (v, v, v, v) for v in "abcd"
) + "endaction\nreward " + (
    "(a (yes (b (yes (c (yes (d (yes (1)) (no (2)))) (no (d (yes (3)) (no (4)))))) (no (c (yes (d (yes (5)) (no (6)))) (no (d (yes (7)) (no (8)))))))) "
    "(no (b (yes (c (yes (d (yes (9)) (no (10)))) (no (d (yes (11)) (no (12)))))) (no (c (yes (d (yes (13)) (no (14)))) (no (d (yes (15)) (no (16)))))))))\n"
) + "discount 0.5\ntolerance 1\n"


def kept(name, values="yes no"):
    """The table of a variable that keeps its value."""
    words = values.split()
    branch = lambda v: "(%s (%s' %s))" % (v, name, " ".join("(%s (%d))" % (w, w == v) for w in words))
    return "%s (%s %s)" % (name, name, " ".join(branch(v) for v in words))


def forty():
    """Forty variables that keep their values: 2^40 states. The reward looks at the first."""
    names = ["x%d" % i for i in range(1, 41)]
    return "(variables %s)\naction stay\n%s\nendaction\nreward (x1 (yes (1)) (no (0)))\ndiscount 0.5\ntolerance 0.1\n" % (
        " ".join("(%s yes no)" % n for n in names), "\n".join(kept(n) for n in names))


def nine():
    """Nine actions on a ring of three machines: action i restarts machine i % 3 with another chance and cost each."""
    names = ["m0", "m1", "m2"]
    text = "(variables %s)\n" % " ".join("(%s up down)" % n for n in names)
    for k in range(9):
        text += "action do%d\n" % k
        for i, n in enumerate(names):
            before = names[i - 1]
            if k % 3 == i:
                p = 90 + k
                tree = "(%s' (up (0.%02d)) (down (0.%02d)))" % (n, p, 100 - p)
            else:
                tree = "(%s (up (%s (up (%s' (up (0.9)) (down (0.1)))) (down (%s' (up (0.%d)) (down (0.%d)))))) (down (%s' (up (0.0%d)) (down (0.%02d)))))" % (
                    n, before, n, n, 60 + k, 40 - k, n, k + 1, 99 - k)
            text += "%s %s\n" % (n, tree)
        text += "cost (0.%02d)\nendaction\n" % (k + 1)
    return text + "reward [+ (m0 (up (1)) (down (0))) (m1 (up (1)) (down (0))) (m2 (up (0.5)) (down (0)))]\ndiscount 0.9\ntolerance 0.1\n"


def levels():
    """All levels that a model may have: 100 variables with 256 tests of their values, and as many of their next values, and a table that is a chain
    through all of them. 56 variables have four values, 44 have three. The first is set where all others have, and come to, their first value."""
    sizes = [4] * 56 + [3] * 44
    names = ["v%d" % i for i in range(100)]
    words = [" ".join("abcd"[:s]) for s in sizes]
    choice = lambda name, size, first, other: "(%s (a (%s)) %s)" % (name, first, " ".join("(%s (%s))" % (w, other) for w in "bcd"[:size - 1]))
    text = "(variables %s)\n" % " ".join("(%s %s)" % pair for pair in zip(names, words))
    text += "dd stays %s enddd\n" % kept("v0", words[0])[3:]
    text += "dd set (v0' (a (0.9)) (b (0.1)) (c (0)) (d (0))) enddd\n"
    below = "set"
    for i in reversed(range(1, 100)):
        text += "dd n%d %s enddd\n" % (i, choice(names[i] + "'", sizes[i], below, "stays"))
        below = "n%d" % i
    for i in reversed(range(100)):
        text += "dd p%d %s enddd\n" % (i, choice(names[i], sizes[i], below, "stays"))
        below = "p%d" % i
    text += "action turn\nv0 (p0)\n%s\nendaction\n" % "\n".join(kept(n, w) for n, w in list(zip(names, words))[1:])
    return text + "reward [+ %s %s]\ndiscount 0.5\ntolerance 0.1\n" % (choice("v0", 4, "1", "0"), choice("v99", 3, "2", "0"))


class Runs:
    def __init__(self, program, folder):
        self.program, self.folder, self.cases, self.failed = program, folder, 0, 0

    def file(self, name, text):
        path = os.path.join(self.folder, name)
        with open(path, "w") as f:
            f.write(text)
        return path

    def run(self, *words):
        done = subprocess.run([self.program, *words], stdin=subprocess.DEVNULL, capture_output=True)
        return done.returncode, done.stdout.decode("utf-8", "replace"), done.stderr.decode("utf-8", "replace")

    def told(self, case, found, wanted):
        self.cases += 1
        if found != wanted:
            self.failed += 1
            print("FAILED  %s\n  found  %r\n  wanted %r" % (case, found, wanted))

    def holds(self, case, found, what):
        self.cases += 1
        if not found:
            self.failed += 1
            print("FAILED  %s: %s" % (case, what))


def both_ways(runs, files, few=()):
    """`solve` and `plain` on each file, with its own options, with every span and turn limit; and any workers and memo tables. The files of `few`,
    which take `plain` long, go to turn 3 at most."""
    for path in list(files) + list(few):
        own = open(path[:-7] + ".options").read().split() if os.path.exists(path[:-7] + ".options") else []
        own += ["--turns", "3"] if path in few else []
        without = lambda name: [w for i, w in enumerate(own) if w != name and (i == 0 or own[i - 1] != name)]
        sets = [own] + [without("--span") + ["--span", s] for s in SPANS] + [without("--turns") + ["--turns", t] for t in TURNS]
        sets += [["--span", s, "--turns", t] for s, t in zip(SPANS[1:], TURNS)]
        for options in sets:
            runs.told("%s %s" % (path, " ".join(options)), runs.run("solve", path, *options), runs.run("plain", path, *options))
        base = runs.run("solve", path, *own)
        for workers, memo in TABLES:
            found = runs.run("solve", path, *own, "--workers", workers, "--memo", memo)
            runs.told("%s --workers %s --memo %s" % (path, workers, memo), found, base)


def node_limits(runs, path):
    """At each limit the model is solved, or the message names the limit and a stage; stages don't fall as limits rise. Finds, by halving, the
    greatest limit that is too small for each stage, and sees that the next one is enough for it."""
    solved = 1 << 30
    wanted = runs.run("solve", path)
    known = {}

    def stage(limit):
        if limit not in known:
            status, text, errors = runs.run("solve", path, "--nodes", str(limit))
            case = "%s --nodes %d" % (path, limit)
            if status == 9:
                said = re.fullmatch(r"node limit (\d+) passed in (building|turn (\d+))\n", errors)
                runs.holds(case, said and int(said.group(1)) == limit and text == "", repr((text, errors)))
                known[limit] = -1 if not said or said.group(3) is None else int(said.group(3))
            else:
                runs.told(case, (status, text, errors), wanted)
                known[limit] = solved
        return known[limit]

    greatest, low, high = {}, 16, 16
    while stage(high) != solved:
        high *= 2
    while stage(low) != solved:
        # The greatest limit with the stage that is told at `low`.
        now, below, above = stage(low), low, high
        while above - below > 1:
            middle = (below + above) // 2
            below, above = (middle, above) if stage(middle) == now else (below, middle)
        greatest[now], low = below, above
    limits = sorted(known)
    runs.holds(path, all(known[x] <= known[y] for x, y in zip(limits, limits[1:])), "a stage comes again at a higher limit")
    runs.holds(path, greatest and max(greatest) >= 0, "never too small")
    print("        %s: greatest limits that are too small: %s; solved with %s" % (os.path.basename(path), ", ".join(
        "%s %d" % ("building" if s < 0 else "turn %d" % s, n) for s, n in sorted(greatest.items())), low))


def main():
    program = os.path.abspath(sys.argv[1])
    with tempfile.TemporaryDirectory() as folder:
        runs = Runs(program, folder)
        small = sorted(glob.glob(os.path.join(ROOT, "tests/small/*.spudd")))
        four = runs.file("four.spudd", FOUR)
        ring = runs.file("nine.spudd", nine())
        examples = [p for p in sorted(glob.glob(os.path.join(ROOT, "examples/*.spudd"))) if runs.run("plain", p, "--turns", "0")[0] != 13]
        both_ways(runs, small + [four, ring], examples)

        # Nine actions, four workers: one text.
        texts = {runs.run("solve", ring, "--workers", "4") for _ in range(200)}
        runs.told("200 runs of nine actions with 4 workers", len(texts), 1)

        # Node limits.
        runs.told("16 nodes", runs.run("solve", four, "--nodes", "16"), (9, "", "node limit 16 passed in building\n"))
        runs.told("128 nodes", runs.run("solve", four, "--nodes", "128"), (9, "", "node limit 128 passed in turn 0\n"))
        for path in [four] + [p for p in small if os.path.basename(p) in ("four-values.spudd", "mixed.spudd", "costs.spudd", "four-variables.spudd")]:
            node_limits(runs, path)

        # 2^40 states.
        path = runs.file("forty.spudd", forty())
        head = "spd result 2\nmodel %s\n" % hashlib.sha256(open(path, "rb").read()).hexdigest()
        at = " ".join("x%d=yes" % i for i in range(1, 41))
        text = head + (
            "status done\nturn 5\nresidual 0.015625000\nat %s above stay\nerror 0.031250000\nvalue 3\n0 leaf 1.968750000\n1 leaf 0.000000000\n2 branch x1 0 1\n"
            "policy 1\n0 leaf stay\nend\n" % at)
        begun = time.time()
        runs.told("2^40 states", runs.run("solve", path), (0, text, ""))
        runs.holds("2^40 states", time.time() - begun < 1, "%.2f s" % (time.time() - begun))
        runs.told("2^40 states over tables", runs.run("plain", path)[0], 13)

        # All levels, with 4 workers.
        path = runs.file("levels.spudd", levels())
        status, text, errors = runs.run("solve", path, "--workers", "4", "--turns", "2", "--nodes", "8388608")
        runs.holds("512 levels", status in (0, 8) and text.startswith("spd result 2\n"), "%d %r" % (status, errors))

        print("%d cases, %d failed" % (runs.cases, runs.failed))
        sys.exit(1 if runs.failed else 0)


main()
