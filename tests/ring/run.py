#!/usr/bin/env python3
"""The commands `gen` and `ring` on the built program: run.py PROGRAM.

The file of a ring is written here by the rule of docs/FORMAT.md alone, and each summary is held against what `solve` and `plain` tell of
that file."""

import os
import subprocess
import sys
import tempfile

SUMMARY_OF_TWO = """spd ring 2
status limit
turn 0
residual 1.710000000
at m1=up m2=up above noop
error 34.200000000
value 6
policy 5
end
"""


def keep(machine, left):
    chances = lambda up, down: "(%s' (up (%s)) (down (%s)))" % (machine, up, down)
    beside = "(%s (up %s) (down %s))" % (left, chances("0.9", "0.1"), chances("0.6", "0.4"))
    return "%s (%s (up %s) (down %s))\n" % (machine, machine, beside, chances("0.1", "0.9"))


def fix(machine):
    return "%s (%s' (up (1)) (down (0)))\n" % (machine, machine)


def file_of(count):
    machines = ["m%d" % (i + 1) for i in range(count)]
    keeps = [keep(machine, machines[i - 1]) for i, machine in enumerate(machines)]
    text = "(variables%s)\naction noop\n%sendaction\n" % ("".join(" (%s up down)" % m for m in machines), "".join(keeps))
    for i, machine in enumerate(machines):
        tables = keeps[:i] + [fix(machine)] + keeps[i + 1 :]
        text += "action reboot%d\n%scost (0.75)\nendaction\n" % (i + 1, "".join(tables))
    parts = "".join(" (%s (up (1)) (down (0)))" % m for m in machines)
    return text + "reward [+%s]\ndiscount 0.95\ntolerance 0.1\n" % parts


def summary_of(count, result):
    """The summary by the text of a result: without its digest, and of nodes their numbers alone."""
    lines = result.split("\n")
    kept = [line for line in lines[2:] if line.split(" ")[0] in ("status", "turn", "residual", "at", "error", "value", "policy", "end")]
    return "\n".join(["spd ring %d" % count] + kept) + "\n" if result else ""


def main():
    program, failed, number = os.path.abspath(sys.argv[1]), 0, 0
    with tempfile.TemporaryDirectory() as folder:

        def run(words, given=None, out=subprocess.PIPE):
            source = {"input": given.encode()} if given is not None else {"stdin": subprocess.DEVNULL}
            ran = subprocess.run([program, *words.split()], cwd=folder, stdout=out, stderr=subprocess.PIPE, **source)
            return ran.returncode, (ran.stdout or b"").decode(), ran.stderr.decode()

        def same(what, found, wanted):
            nonlocal failed, number
            number += 1
            if found != wanted or os.listdir(folder):
                failed += 1
                print("FAILED  %s: %.300r in place of %.300r" % (what, found, wanted))

        for count in (2, 3, 8, 10, 63):
            same("gen %d" % count, run("gen %d" % count), (0, file_of(count), ""))
        same("ring 2", run("ring 2 --turns 0"), (8, SUMMARY_OF_TWO, "turn limit reached, residual 1.710000000\n"))

        first = run("ring 8 --nodes 2000000 --turns 3")
        same("ring 8 once more", run("ring 8 --nodes 2000000 --turns 3"), first)
        same("ring 8 with four workers", run("ring 8 --nodes 2000000 --turns 3 --workers 4"), first)
        status, result, message = run("plain --turns 3 -", file_of(8))
        same("ring 8 against plain", first, (status, summary_of(8, result), message))

        for count in (2, 3, 4, 5, 6):
            for options in ("", "--turns 0", "--turns 5 --workers 4", "--turns 9 --span 0.5", "--turns 2 --nodes 16", "--turns 5 --nodes 300"):
                status, result, message = run("solve - " + options, file_of(count))
                same("ring %d %s" % (count, options), run("ring %d %s" % (count, options)), (status, summary_of(count, result), message))

        limited = (9, "", "node limit 262144 passed in turn 0\n")
        same("the file of 63 is read and built", run("solve - --turns 0", file_of(63)), limited)
        same("ring 63", run("ring 63 --turns 0"), limited)
        with open("/dev/full", "wb") as full:
            for words in ("gen 63", "ring 2"):
                same("%s on a full device" % words, run(words, out=full), (12, "", "cannot write\n"))
    print("done    %d cases of rings, %d failed" % (number, failed))
    sys.exit(1 if failed else 0)


if __name__ == "__main__":
    main()
