#!/usr/bin/env python3
"""Runs tools/show on results and compares what it prints with what is written here, worked out by hand.

    run.py        prints each case that isn't as it has to be; exits 1 where there is one"""
import os, subprocess, sys

here = os.path.dirname(os.path.abspath(__file__))
root = os.path.dirname(os.path.dirname(here))
MODEL = os.path.join(root, "examples", "machine.spudd")
NOTE = "%s shown by tools/show, which is not proved; what is proved is the result\n"
DONE = "%s status done, turn 70, residual 0.004982794, error 0.049827940\n"
LIMIT = "# status limit, turn 3, residual 1.000000000, error 2.000000000\n"
WHOLE = "tools/show: this is no whole result of spudd\n"


def text(name):
    with open(os.path.join(here, name)) as file:
        return file.read()


def long_result():
    """A result whose value tests 13 variables: 8,192 states."""
    nodes = ["0 leaf 0.000000000", "1 leaf 1.000000000", "2 branch v12 0 1"]
    nodes += ["%d branch v%d %d 1" % (number, 14 - number, number - 1) for number in range(3, 15)]
    at = " ".join("v%d=no" % i for i in range(13))
    return "\n".join(["spd result 2", "model " + "0" * 64, "status done", "turn 0", "residual 0.000000000", "at %s above wait" % at, "error 0.000000000",
                      "value 15", *nodes, "policy 1", "0 leaf wait", "end", ""])


# The words, standard input, the status, and standard output; where the status is 1, standard error.
CASES = [
    (["machine.result", "--model", MODEL], "", 0, NOTE % "#" + DONE % "#" + """value
  machine
    up: 89.615243844
    down: 78.131990255
policy
  machine
    up: wait
    down: repair
"""),
    (["machine.result", "--states", "--model", MODEL], "", 0, NOTE % "#" + DONE % "#" + """machine         value  policy
up       89.615243844  wait
down     78.131990255  repair
"""),
    (["--tree", "stairs.result"], "", 0, NOTE % "#" + LIMIT + """value
  a
    #0:
      c   (node 2)
        #0: 1.000000000
        #1: 2.000000000
    #1:
      b
        #0, #2: as at node 2
        #1: 3.000000000
policy
  wait
"""),
    (["-", "--states"], text("stairs.result"), 0, NOTE % "#" + LIMIT + """a   b   c         value  policy
#0  #0  #0  1.000000000  wait
#0  #0  #1  2.000000000  wait
#0  #1  #0  1.000000000  wait
#0  #1  #1  2.000000000  wait
#0  #2  #0  1.000000000  wait
#0  #2  #1  2.000000000  wait
#1  #0  #0  1.000000000  wait
#1  #0  #1  2.000000000  wait
#1  #1  #0  3.000000000  wait
#1  #1  #1  3.000000000  wait
#1  #2  #0  1.000000000  wait
#1  #2  #1  2.000000000  wait
"""),
    (["machine.result", "--dot"], "", 0, NOTE % "//" + DONE % "//" + """digraph result {
  subgraph cluster_value {
    label=value;
    value0 [label="89.615243844", shape=box];
    value1 [label="78.131990255", shape=box];
    value2 [label="machine", shape=ellipse];
    value2 -> value0 [label="#0"];
    value2 -> value1 [label="#1"];
  }
  subgraph cluster_policy {
    label=policy;
    policy0 [label="wait", shape=box];
    policy1 [label="repair", shape=box];
    policy2 [label="machine", shape=ellipse];
    policy2 -> policy0 [label="#0"];
    policy2 -> policy1 [label="#1"];
  }
}
"""),
    (["stairs.result", "--model", MODEL], "", 1, "tools/show: the result is of another model file\n"),
    (["-"], text("machine.result").replace("\nend\n", "\n"), 1, WHOLE),
    (["-"], text("machine.result").replace("2 branch machine 0 1", "2 branch machine 0 5"), 1, "tools/show: node 2 goes on with a later one\n"),
    (["-"], "", 1, WHOLE),
    (["-", "--states"], long_result(), 1, "tools/show: there are 8192 states, and a table has at most 4096; --tree and --dot show any number\n"),
]


def main():
    failed = False
    for words, given, status, want in CASES:
        ran = subprocess.run([os.path.join(root, "tools", "show"), *words], cwd=here, input=given, capture_output=True, text=True)
        found = (ran.returncode, ran.stderr if status else ran.stdout)
        if found != (status, want):
            failed = True
            print("FAILED  tools/show %s: %r in place of %r" % (" ".join(words), found, (status, want)))
    print("done    %d ways to show a result" % len(CASES))
    return 1 if failed else 0


if __name__ == "__main__":
    sys.exit(main())
