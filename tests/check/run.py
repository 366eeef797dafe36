#!/usr/bin/env python3
"""The commands `check` and `upgrade` on the built program.

    run.py PROGRAM        prints each case that isn't as it has to be, and how many were run; exits 1 where there is one

The results of all models of examples/, tests/small/ and tests/stages/ hold. With a residual one unit smaller, and with another action at one
state that is worse there by more than the residual, they don't, and fail first where verdict.py says, which goes through all states. What
docs/FORMAT.md shows of a certificate made by hand is run too, and certificates that are missing, cut, refused, of another model, and wrong words."""
import glob, math, os, re, subprocess, sys, tempfile

sys.dont_write_bytecode = True
HERE = os.path.dirname(os.path.abspath(__file__))
ROOT = os.path.dirname(os.path.dirname(HERE))
sys.path.insert(0, HERE)
from verdict import Cert, Table, small

# The most states of a model whose states are gone through here.
STATES = 400

# The most other policies of a model that are tried.
POLICIES = 6

NO = "certificate does not hold\n"

# The options with which a model that isn't solved within the node limit is solved, and checked.
LARGE = {"network.spudd": (["--turns", "0"], ["--nodes", "8388608"])}


class Runs:
    """The program, run in a folder that has the files that are written to it and no other."""

    def __init__(self, program, folder):
        self.program, self.folder, self.number, self.failed = program, folder, 0, 0

    def write(self, name, text):
        with open(os.path.join(self.folder, name), "wb") as out:
            out.write(text if isinstance(text, bytes) else text.encode())

    def run(self, *words, given=b"", out=subprocess.PIPE):
        ran = subprocess.run([self.program, *words], cwd=self.folder, input=given, stdout=out, stderr=subprocess.PIPE)
        return ran.returncode, (ran.stdout or b"").decode("latin-1"), ran.stderr.decode("latin-1")

    def same(self, what, found, wanted):
        self.number += 1
        if found != wanted:
            self.failed += 1
            print("FAILED  %s: %.300r in place of %.300r" % (what, found, wanted))

    def verdict(self, what, text, wanted, words=(), newest=None):
        """What `check` says of a text for the file `model`, and `upgrade`, which writes it in its newest form where it holds."""
        self.write("cert", text)
        ends = (0, "") if wanted == "yes" else (11, NO)
        self.same("check of " + what, self.run("check", "model", "cert", *words), (ends[0], wanted + "\n", ends[1]))
        if newest is not None or wanted != "yes":
            told = newest if wanted == "yes" else wanted + "\n"
            self.same("upgrade of " + what, self.run("upgrade", "model", "cert", *words), (ends[0], told, ends[1]))


def run_model(runs, path):
    """The result of a model, and what differs from it a little. Says of how many states and policies."""
    name, own = os.path.basename(path), []
    if os.path.exists(path[:-6] + ".options"):
        own = open(path[:-6] + ".options").read().split()
    data = small.read(path)
    runs.write("model", data)
    solving, checking = LARGE.get(name, (own, []))
    result = runs.run("solve", "model", *solving, *checking)[1]
    if not result:
        return runs.same("solve %s" % name, result, "a result")
    cert = Cert(result)
    runs.verdict(name, result, "yes", checking, newest=result)
    runs.verdict(name + " in version 1", cert.of_version_1(), "yes", checking, newest=result)
    # The residual is reached at the place that `at` tells, and at none before it.
    if cert.residual > 0:
        runs.verdict(name + " with a smaller residual", cert.with_residual(cert.residual - 1), "no " + cert.field("at"), checking)
    if math.prod(len(values) for values in small.Model(data).values) > STATES:
        return
    table = Table(data, result)
    runs.same("verdict.py on " + name, table.verdict(), "yes")
    if cert.residual > 0:
        runs.same("verdict.py on %s with a smaller residual" % name, table.verdict(cert.residual - 1), "no " + cert.field("at"))
    others = list(table.worse())
    for policy in others[::max(1, len(others) // POLICIES)]:
        wanted = table.verdict(policy=policy)
        runs.verdict(name + " with a worse action", cert.with_policy(table.whole_tree(policy)), wanted)
    whole = cert.with_policy(table.whole_tree(table.policy))
    runs.verdict(name + " with a tree of all states", whole, "yes", newest=whole)


def by_hand(page):
    """The certificate that docs/FORMAT.md makes by hand, its newest form, and the tables of its changes."""
    part = page[page.index("### One made by hand"):page.index("## Query lines")]
    old, new = re.findall(r"^```\n(spd result .*?end\n)```$", part, re.M | re.S)
    verdicts = re.findall(r"^\| `([^`]*)` \| `([^`]*)` \| `((?:no|yes)[^`]*)` \|", part, re.M)
    refusals = re.findall(r"^\| `([^`]*)` \| `([^`]*)` \| `(certificate refused [^`]*)` \|", part, re.M)
    assert len(verdicts) >= 5 and len(refusals) >= 10, (verdicts, refusals)
    return old, new, verdicts, refusals


def changed(text, line, before):
    """A text with a line in place of the first one that is `before`."""
    assert "\n%s\n" % before in "\n" + text, before
    return ("\n" + text).replace("\n%s\n" % before, "\n%s\n" % line, 1)[1:]


def run_page(runs):
    """What docs/FORMAT.md shows of certificates, and each front of the one that is made there by hand."""
    with open(os.path.join(ROOT, "docs", "FORMAT.md"), encoding="utf-8") as page:
        old, new, verdicts, refusals = by_hand(page.read())
    runs.write("model", small.read(os.path.join(ROOT, "examples", "machine.spudd")))
    runs.verdict("the one made by hand", old, "yes", newest=new)
    runs.verdict("its newest form", new, "yes", newest=new)
    for line, before, verdict in verdicts:
        runs.verdict("the one with " + line, changed(old, line, before), verdict)
    for line, before, message in refusals:
        runs.write("cert", changed(old, line, before))
        for command in ("check", "upgrade"):
            runs.same("%s of the one with %s" % (command, line), runs.run(command, "model", "cert"), (10, "", message + "\n"))
    for length in range(len(old)):
        runs.write("cert", old[:length])
        wanted = (10, "", "certificate refused at byte %d: end\n" % length)
        runs.same("the first %d bytes" % length, runs.run("check", "model", "cert"), wanted)
    return old


# A variable that its only action keeps. Building it takes 9 nodes, and a check of its result 23.
KEEP = """(variables (x yes no))
action stay
x (x (yes (x' (yes (1)) (no (0)))) (no (x' (yes (0)) (no (1)))))
endaction
reward (x (yes (1)) (no (0)))
discount 0.5
tolerance 0.1
"""

# A certificate of it: at x=yes one more step of 1.96875 is worth 1 + 1.96875 / 2 = 1.984375.
KEPT = """spd result 1
status done
turn 5
residual 0.015625
at x=yes above stay
error 0.03125
value 3
0 leaf 1.96875
1 leaf 0
2 branch x 0 1
policy 1
0 leaf stay
end
"""


def run_mistakes(runs, hand):
    """Files that are missing or of another model, faults in their order, standard input, node limits and a full output."""
    os.mkdir(os.path.join(runs.folder, "folder"))
    runs.write("model", KEEP)
    runs.write("cert", KEPT)
    new = runs.run("upgrade", "model", "cert")[1]
    runs.write("new", new)
    # The same model in another file, files that are refused, and one with a sum and one with a reward that can't be.
    runs.write("other", "// kept\n" + KEEP)
    runs.write("short", "(variables (x yes no)) reward 5")
    runs.write("sum", KEEP.replace("(no (1))", "(no (0.5))"))
    runs.write("rich", KEEP.replace("reward (x (yes (1))", "reward (x (yes (1000000000.000000001))"))
    runs.write("cut", KEPT[:-1])
    # Another model's certificate is told before what is wrong with it.
    runs.write("newcut", new[:100])
    for command in ("check", "upgrade"):
        yes = "yes\n" if command == "check" else new

        def ends(words, status, text, message, given=b"", out=subprocess.PIPE):
            runs.same("%s %s" % (command, words), runs.run(command, *words.split(), given=given, out=out), (status, text, message))

        ends("model cert", 0, yes, "")
        ends("model new", 0, yes, "")
        ends("--memo 1 model --nodes=1000 cert", 0, yes, "")
        ends("model -", 0, yes, "", given=KEPT.encode())
        ends("- cert", 0, yes, "", given=KEEP.encode())
        ends("model -", 10, "", "certificate refused at byte 0: end\n")
        ends("- -", 2, "", "usage: word 2\n")
        ends("model model", 2, "", "usage: word 2\n")
        ends("model", 2, "", "usage: word 2\n")
        ends("model cert --turns 5", 2, "", "usage: word 3\n")
        ends("model missing", 3, "", "cannot open missing\n")
        ends("missing cert", 3, "", "cannot open missing\n")
        ends("missing gone", 3, "", "cannot open missing\n")
        ends("short missing", 5, "", "refused at byte 30: expected open\n")
        ends("sum missing", 3, "", "cannot open missing\n")
        ends("model folder", 3, "", "cannot read folder\n")
        ends("model /dev/zero", 4, "", "/dev/zero is too long\n")
        ends("/dev/zero cert", 4, "", "/dev/zero is too long\n")
        ends("other new", 16, "", "certificate is of another model\n")
        ends("other newcut", 16, "", "certificate is of another model\n")
        ends("sum new", 16, "", "certificate is of another model\n")
        ends("model newcut", 10, "", "certificate refused at byte 100: end\n")
        ends("model cut", 10, "", "certificate refused at byte %d: end\n" % (len(KEPT) - 1))
        ends("sum cut", 10, "", "certificate refused at byte %d: end\n" % (len(KEPT) - 1))
        ends("sum cert", 6, "", "sum of action stay, variable x at x=no is 0.500000000000\n")
        ends("rich cert", 7, "", "reward of action stay at x=yes is 1000000000.000000001\n")
        ends("model cert --nodes 16", 9, "", "node limit 16 passed in check\n")
        ends("model cert --nodes 23", 0, yes, "")
        with open("/dev/full", "wb") as full:
            ends("model cert", 12, "", "cannot write\n", out=full)
        ends("model no", 3, "", "cannot open no\n")
    # A certificate of version 1 may be of another file.
    runs.same("a text of version 1 with another file", runs.run("check", "other", "cert"), (0, "yes\n", ""))
    # One more step of 2.5 is worth 2.25.
    runs.write("no", KEPT.replace("0 leaf 1.96875", "0 leaf 2.5"))
    with open("/dev/full", "wb") as full:
        runs.same("no on a full device", runs.run("check", "model", "no", out=full), (12, "", "cannot write\n"))
    runs.same("no", runs.run("check", "model", "no"), (11, "no x=yes below stay\n", NO))
    runs.write("machine", small.read(os.path.join(ROOT, "examples", "machine.spudd")))
    runs.write("hand", hand)
    runs.same("building", runs.run("check", "machine", "hand", "--nodes", "16"), (9, "", "node limit 16 passed in building\n"))


def main():
    program = os.path.abspath(sys.argv[1])
    folders = [os.path.join(ROOT, folder, "*.spudd") for folder in ("examples", "tests/small", "tests/stages")]
    models = [path for folder in folders for path in sorted(glob.glob(folder))]
    with tempfile.TemporaryDirectory() as folder:
        runs = Runs(program, folder)
        for path in models:
            run_model(runs, path)
        run_mistakes(runs, run_page(runs))
        print("done    %d cases of certificates of %d models, %d failed" % (runs.number, len(models), runs.failed))
    sys.exit(1 if runs.failed else 0)


if __name__ == "__main__":
    main()
