#!/usr/bin/env python3
"""How long `check` takes on large certificates, and how much memory.

    large.py PROGRAM FOLDER             writes a model file and four certificates of about 100 MB to FOLDER, checks each, and prints the time and the
                                        greatest memory; exits 1 where one takes more than 10 s or 4 GB, or has another verdict than it has to have
    large.py --results PROGRAM RUN ..   solves each RUN, a model file with the options of `solve` in one word, and prints the time and the greatest
                                        memory of solving it and of checking its result, with the same --nodes and --memo

The certificates are lawful and none is reduced. All but the last one hold. What the solver writes is far smaller: it is the reader that has to take
whatever somebody wrote. Times are those of the processor; memory below some 15 MB is that of this script, which starts the program."""
import os, shlex, subprocess, sys, tempfile, time

VARIABLES = 100
# The tree of `tree` branches on the first variables and on the last one, which are so many.
TREE_DEPTH = 21
# How many nodes the root of `unreached` doesn't reach: leaves, and branches on two of them.
UNREACHED_LEAVES, UNREACHED_BRANCHES = 2_600_000, 1_300_000
# How many nodes `copies` has of each variable's node.
COPIES = 2 ** 15
# The most seconds and bytes that a check may take.
SECONDS, BYTES = 10, 4 * 10 ** 9
# Nodes of a block that is written at a time.
BLOCK = 4096


def model():
    """A file of variables that keep their values. A step is worth 1 where the first one is up, and 0.5 where the last one is; so its value is twice that."""
    numbers = range(1, VARIABLES + 1)
    keep = ["dd keep%d (s%d (up (s%d' (up (1)) (down (0)))) (down (s%d' (up (0)) (down (1))))) enddd" % (k, k, k, k) for k in numbers]
    return "\n".join([
        "(variables %s)" % " ".join("(s%d up down)" % k for k in numbers), *keep,
        "action keep %s endaction" % " ".join("s%d (keep%d)" % (k, k) for k in numbers),
        "reward [+ (s1 (up (1)) (down (0))) (s%d (up (0.5)) (down (0)))]" % VARIABLES, "discount 0.5", "tolerance 0.1", ""])


def state(words):
    """A state in words, of the variables' values."""
    return " ".join("s%d=%s" % (k, word) for k, word in enumerate(words, 1))


def write_certificate(path, count, value):
    """A certificate with a value of so many nodes, whose lines are those of the texts of `value`."""
    with open(path, "w", encoding="ascii") as out:
        out.write("spd result 1\nstatus done\nturn 0\nresidual 0\nat %s above keep\nerror 0\nvalue %d\n" % (state(["up"] * VARIABLES), count))
        for text in value:
            out.write(text)
        out.write("policy 1\n0 leaf keep\nend\n")


def lines(template, first, count, *kids):
    """The lines of so many nodes from number `first` on, in blocks. A line is the template of the node's number and of each function of it in `kids`."""
    for start in range(first, first + count, BLOCK):
        numbers = range(start, min(start + BLOCK, first + count))
        yield (template * len(numbers)) % tuple(x for k in numbers for x in (k, *(kid(k) for kid in kids)))


def subtree(depth, words, offsets):
    """Adds the lines of a whole tree of so many variables to `words`, each with a place for its numbers, and to `offsets` those numbers. A leaf is `@`.
    Answers the number of its root."""
    kids = () if depth == 0 else (subtree(depth - 1, words, offsets), subtree(depth - 1, words, offsets))
    variable = VARIABLES if depth == 1 else TREE_DEPTH - depth + 1
    offsets.extend((len(words), *kids))
    words.append("%%d branch s%d %%d %%d\n" % variable if kids else "%d leaf @\n")
    return len(words) - 1


def tree_of(last):
    """A whole binary tree, each node behind its kids: of the first variables and of the last one, each with the value `up` first. The last leaf is `last`."""
    # Subtrees of half the variables differ in their leaves and in their first node's number alone.
    low, words, offsets = TREE_DEPTH // 2, [], []
    subtree(low, words, offsets)
    template, pairs, count = "".join(words).replace("%", "%%").replace("@", "%s"), 2 ** (low - 1), 2 ** (TREE_DEPTH - low)
    up, down, end = (template % leaves for leaves in (("3", "2") * pairs, ("1", "0") * pairs, ("1", "0") * (pairs - 1) + ("1", last)))
    first, roots = 0, []
    for number in range(count):
        kind = up if 2 * number < count else (end if number == count - 1 else down)
        yield kind % tuple(first + offset for offset in offsets)
        first += len(words)
        roots.append((low, first - 1))
        while len(roots) > 1 and roots[-1][0] == roots[-2][0]:
            (height, right), (_, left) = roots.pop(), roots.pop()
            yield "%d branch s%d %d %d\n" % (first, TREE_DEPTH - height, left, right)
            roots.append((height + 1, first))
            first += 1


def unreached():
    """Leaves of different numbers, branches on the last variable of two of them each, and behind all these the value."""
    yield from lines("%d leaf %d.25\n", 0, UNREACHED_LEAVES, lambda k: k)
    yield from lines("%%d branch s%d %%d %%d\n" % VARIABLES, UNREACHED_LEAVES, UNREACHED_BRANCHES,
                     lambda k: 2 * (k - UNREACHED_LEAVES), lambda k: 2 * (k - UNREACHED_LEAVES) + 1)
    n = UNREACHED_LEAVES + UNREACHED_BRANCHES
    for k, number in enumerate((3, 2, 1, 0)):
        yield "%d leaf %d\n" % (n + k, number)
    yield "%d branch s%d %d %d\n%d branch s%d %d %d\n" % (n + 4, VARIABLES, n, n + 1, n + 5, VARIABLES, n + 2, n + 3)
    yield "%d branch s1 %d %d\n" % (n + 6, n + 4, n + 5)


def copies():
    """Of each variable but the first many nodes that are the same function twice over: one half where the first one is up, and one where it is down.
    Each goes on with two copies of the next one, so the root reaches all that stand some variables below it, on far more paths than could be gone."""
    for k, number in enumerate((3, 2, 1, 0)):
        yield "%d leaf %d\n" % (k, number)
    half = COPIES // 2
    # The last variable's copies: the first half goes on with the leaves 0 and 1, the second one with 2 and 3.
    yield from lines("%%d branch s%d %%d %%d\n" % VARIABLES, 4, COPIES, lambda k: (k - 4) // half * 2, lambda k: (k - 4) // half * 2 + 1)
    for variable in range(VARIABLES - 1, 1, -1):
        first = 4 + (VARIABLES - variable) * COPIES
        kid = lambda k, side: first - COPIES + (k - first) // half * half + (2 * ((k - first) % half) + side) % half
        yield from lines("%%d branch s%d %%d %%d\n" % variable, first, COPIES, lambda k: kid(k, 0), lambda k: kid(k, 1))
    first = 4 + (VARIABLES - 1) * COPIES
    yield "%d branch s1 %d %d\n" % (first, first - COPIES, first - half)


# The first state at which the last leaf of the tree counts: the variables that the tree doesn't follow have their first value.
LAST = state(["down"] * (TREE_DEPTH - 1) + ["up"] * (VARIABLES - TREE_DEPTH) + ["down"])

# The name, the number of nodes, their lines, and the line of the verdict.
TREE_NODES = 2 ** (TREE_DEPTH + 1) - 1
SHAPES = [
    ("tree", TREE_NODES, lambda: tree_of("0"), "yes"),
    ("unreached", UNREACHED_LEAVES + UNREACHED_BRANCHES + 7, unreached, "yes"),
    ("copies", 4 + (VARIABLES - 1) * COPIES + 1, copies, "yes"),
    ("last", TREE_NODES, lambda: tree_of("5"), "no %s below keep" % LAST),
]


def measured(words, output):
    """Runs words with standard output to a file. Answers the status, the message, the seconds on the clock, those of the processor, and the most bytes of
    memory."""
    began = time.monotonic()
    with open(output, "wb") as out, tempfile.TemporaryFile() as errors:
        child = subprocess.Popen(words, stdin=subprocess.DEVNULL, stdout=out, stderr=errors)
        _, status, usage = os.wait4(child.pid, 0)
        child.returncode = os.waitstatus_to_exitcode(status)
        errors.seek(0)
        message = errors.read().decode("latin-1").strip()
    return child.returncode, message, time.monotonic() - began, usage.ru_utime + usage.ru_stime, usage.ru_maxrss * 1024


def told(what, path, clock, processor, memory):
    size = os.path.getsize(path)
    print("%-60s %8.3f MB of text  %7.2f s  (%.2f s on the clock)  %6.0f MB" % (what, size / 1e6, processor, clock, memory / 1e6), flush=True)


def run_shapes(program, folder):
    failed = False
    file, cert, output = (os.path.join(folder, name) for name in ("large.spudd", "large.cert", "large.verdict"))
    with open(file, "w", encoding="ascii") as out:
        out.write(model())
    for name, count, value, verdict in SHAPES:
        write_certificate(cert, count, value())
        status, message, clock, processor, memory = measured([program, "check", file, cert], output)
        told("check of %s, %d nodes" % (name, count), cert, clock, processor, memory)
        with open(output, encoding="latin-1") as found:
            text = found.read()
        if (status, text) != (0 if verdict == "yes" else 11, verdict + "\n"):
            failed = True
            print("FAILED  %s: status %d, %s, %.300r in place of %.300r" % (name, status, message, text, verdict))
        if processor >= SECONDS or memory >= BYTES:
            failed = True
            print("FAILED  %s: more than %d s or %d bytes" % (name, SECONDS, BYTES))
    return failed


def run_results(program, runs):
    failed = False
    with tempfile.TemporaryDirectory() as folder:
        result, output = os.path.join(folder, "result"), os.path.join(folder, "verdict")
        for run in runs:
            file, *options = shlex.split(run)
            status, message, clock, processor, memory = measured([program, "solve", file, *options], result)
            told("solve %s: %s" % (os.path.basename(file), message or "done"), result, clock, processor, memory)
            if status not in (0, 8):
                continue
            pairs = [word for option in options for word in option.split("=", 1)]
            own = ["%s=%s" % (key, pairs[pairs.index(key) + 1]) for key in ("--nodes", "--memo") if key in pairs]
            status, message, clock, processor, memory = measured([program, "check", file, result, *own], output)
            told("check %s: %s" % (os.path.basename(file), message or "yes"), result, clock, processor, memory)
            failed = failed or status != 0
    return failed


def main(words):
    if words[:1] == ["--results"] and len(words) >= 3:
        return run_results(os.path.abspath(words[1]), words[2:])
    if len(words) == 2:
        return run_shapes(os.path.abspath(words[0]), words[1])
    sys.exit(__doc__)


if __name__ == "__main__":
    sys.exit(1 if main(sys.argv[1:]) else 0)
