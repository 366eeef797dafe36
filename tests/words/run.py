#!/usr/bin/env python3
"""Runs the program on words of the command line, and compares its answer with the table below, which was worked out by hand from docs/FORMAT.md.

    run.py PROGRAM        prints each case that isn't as it has to be; exits 1 where there is one

There is no file in the folder where the program runs, and standard input is empty. So lawful words of a command that can be run end with
`cannot open NAME`, or, where the file is `-`, with the refusal of an empty file. Those of a command that can't be run yet end with `usage: word 0`."""
import os, subprocess, sys, tempfile

sys.dont_write_bytecode = True
RUN = ("solve", "plain", "check", "upgrade")

# The number of the word that can't stand, and the words. '' is an empty word.
USAGE = """
0
0 frob
0 frob m
0 Solve m
0 ''
0 --turns 5 solve m
0 -- solve m
0 - m
1 solve
1 solve ''
1 solve -x
1 solve --frob m
1 solve --frob=5 m
1 solve --Turns 5 m
1 solve --turn 5 m
1 solve -turns 5 m
1 solve --help
2 solve m n
2 solve m ''
2 solve m --frob
2 solve m --steps 5
2 solve m --rounds 5
2 solve m --sweeps 5
2 solve m --turns=
2 solve m --turns=x
2 solve m --turns=1000001
2 solve m --turns=-1
2 solve m --workers=0
2 solve m --workers=65
2 solve m --nodes=15
2 solve m --nodes=8388609
2 solve m --memo=0
2 solve m --memo=8388609
2 solve m --span=
2 solve m --span=-1
2 solve m --span=1e22
2 solve m --span=0.0000000001
2 solve m --span=x
3 solve --turns 5
2 solve --
2 solve -- ''
3 solve m --turns
3 solve m --turns ''
3 solve m --turns +5
3 solve m --turns 5.
3 solve m --turns 1e3
3 solve m --turns 00000000005
3 solve m --turns 1000001
3 solve m --turns 99999999999999999999
3 solve m --turns --nodes
3 solve m --workers 0
3 solve m --span --
3 solve m --span 1e-10
3 solve m --span .
5 solve m --nodes 16 --turns
4 solve m --nodes 16 --nodes 16
3 solve m --nodes=16 --nodes=16
4 solve m --turns 5 --turns=5
4 solve m --turns 5 n
3 solve --turns 5 -x
3 solve -- m n
3 solve -- m --turns 5
3 solve m -- n
3 solve m -- --turns
1 plain
2 plain m n
2 plain m --nodes 16
2 plain m --workers 2
2 plain m --memo 5
2 plain m --steps 5
3 plain m --turns
4 plain m --span 1 --span 1
1 check
1 check ''
1 check -m c
2 check m
2 check -
2 check - -
2 check m m
2 check m ''
2 check m -c
2 check m --cert c
2 check --nodes=16
3 check --nodes=16 m
4 check --nodes 16 m
3 check --nodes=16 m m
4 check m --memo 5 m
3 check -- m m
3 check -- - -
2 check --
3 check m --nodes
4 check m c --nodes
3 check m c d
4 check -- m c d
4 check -- m c --nodes
3 check m c --turns 5
2 check m --turns=5 c
1 check --turns=5 m c
3 check m c --span 1
3 check m c --workers 2
3 check m c --steps 5
4 check m c --nodes 5
4 check m c --nodes 15
3 check m c --nodes=8388609
3 check m c --nodes=
3 check m c --memo=0
4 check m c --memo x
5 check m c --nodes 16 --nodes 16
4 check m c --memo=1 --memo=1
1 upgrade
1 upgrade -m c
2 upgrade m
2 upgrade -
2 upgrade - -
2 upgrade m m
2 upgrade m ''
3 upgrade --nodes=16 m
3 upgrade -- m m
3 upgrade m c d
3 upgrade m c --turns 5
3 upgrade m c --span 1
3 upgrade m c --workers 2
4 upgrade m c --nodes 15
3 upgrade m c --nodes=8388609
3 upgrade m c --memo=0
5 upgrade m c --nodes 16 --nodes 16
4 upgrade m c --memo
1 gen
1 gen 1
1 gen 64
1 gen ''
1 gen 2.
1 gen +2
1 gen -2
1 gen two
2 gen 2 3
2 gen 2 --turns 5
1 ring
1 ring 1
1 ring 64
2 ring 2 3
2 ring 2 --steps 5
3 ring 2 --turns x
1 horizon
2 horizon m n
2 horizon m --turns 5
3 horizon m --steps 1001
3 horizon m --steps -1
2 horizon m --steps=
4 horizon m --steps 5 --steps 5
1 evaluate
2 evaluate m
2 evaluate m m
3 evaluate m c d
4 evaluate m c --rounds 1000001
4 evaluate m c --sweeps 0
4 evaluate m c --sweeps 1001
3 evaluate m c --span 1
3 evaluate m c --workers 2
3 evaluate m c --steps 5
1 bounded
2 bounded m
2 bounded m m
3 bounded m u v
3 bounded m u --span 1
3 bounded m u --rounds 1
1 ask
3 ask m q
2 ask -
2 ask m m a
4 ask m q m2 --frob
4 ask m q a q b
5 ask m q a r a
5 ask m q a r
2 ask m ''
3 ask m q ''
2 ask m --steps 5
"""

# The file that is opened first, `.` where there is none, and the words.
LAWFUL = """
m solve m
-m solve -- -m
m solve m --turns 5
m solve --turns 5 m
m solve --turns=5 m
m solve m --turns 0
m solve m --turns 1000000
m solve m --turns 0000000005
m solve m --workers 64 --nodes 8388608 --memo 8388608 --span 1e21 --turns 1
m solve m --workers=1 --nodes=16 --memo=1 --span=0 --turns=0
m solve m --span 0.000000001
m solve m --span +.5
m solve m --span -0
m solve --span=1e-9 -- m
m solve m --
m=n solve m=n
a/b solve a/b
m plain m
m plain m --turns 5 --span 1
m plain --span 1 m
--turns plain -- --turns
m check m c
- check - c
m check m -
m check m ./m
m check m c --nodes 16 --memo 5
m check m c --nodes=16 --memo=1
m check m --nodes=16 --memo=1 c
m check --nodes=16 --memo=1 m c
m check --memo 8388608 m --nodes 8388608 c
m check --nodes=16 -- m -c
-m check -- -m m
m upgrade m c
- upgrade - c
m upgrade m -
m upgrade m c --memo 5
m upgrade m c --nodes=16 --memo=1
m upgrade m --nodes=16 --memo=1 c
m upgrade --nodes=16 --memo=1 m c
m upgrade m --nodes 8388608 c --memo 8388608
-m upgrade -- -m --memo
m horizon m
m horizon m --steps 0
m horizon m --steps 1000 --nodes 16 --memo 1
m evaluate m c
m evaluate m c --rounds 1000000 --sweeps 1000 --turns 5 --nodes 16 --memo 1
m evaluate m c --rounds 0 --sweeps 1
m bounded m u
m bounded m u --turns 5 --nodes 16 --memo 1
m ask m
m ask m q a
m ask m - -
m ask m q q
m ask m q a r b
m ask m --workers 2 q --nodes 16 a
- ask - q a
"""

# Words that name no file, each with its status and its message.
RINGS = [
    ("gen 2", 0, ""),
    ("gen 63", 0, ""),
    ("gen 02", 0, ""),
    ("ring 2", 0, ""),
    ("ring 63 --workers 2 --nodes 16 --turns 5 --span 0 --memo 1", 9, "node limit 16 passed in building"),
]

CLIENTS = " ".join("q%d a%d" % (i, i) for i in range(64))


def cases():
    for line in USAGE.strip().split("\n"):
        place, *words = line.split()
        yield words, "usage: word " + place, 2
    for line in LAWFUL.strip().split("\n") + ["m ask m " + CLIENTS]:
        file, *words = line.split()
        if words[0] not in RUN:
            yield words, "usage: word 0", 2
        elif file == "-":
            yield words, "refused at byte 0: expected variables", 5
        else:
            yield words, "cannot open " + file, 3
    yield ("ask m " + CLIENTS + " q64").split(), "usage: word 130", 2
    yield ("ask m " + CLIENTS + " q64 a64").split(), "usage: word 130", 2


def ends(program, folder, words, status, message):
    """Whether words that name no file end so, whatever is written."""
    ran = subprocess.run([program, *words.split()], cwd=folder, stdin=subprocess.DEVNULL, capture_output=True)
    return (ran.returncode, ran.stderr.decode()) == (status, message + "\n" if message else "")


def main():
    program, failed, number = os.path.abspath(sys.argv[1]), False, 0
    with tempfile.TemporaryDirectory() as folder:
        for number, (words, message, status) in enumerate(cases(), 1):
            given = ["" if word == "''" else word for word in words]
            ran = subprocess.run([program, *given], cwd=folder, stdin=subprocess.DEVNULL, capture_output=True)
            found = ran.returncode, ran.stderr.decode("latin-1"), ran.stdout
            if found != (status, message + "\n", b"") or os.listdir(folder):
                failed = True
                print("FAILED  %s: %r in place of status %d, %r" % (" ".join(words), found, status, message))
        for words, status, message in RINGS:
            if not ends(program, folder, words, status, message):
                failed = True
                print("FAILED  %s: not status %d, %r" % (words, status, message))
    print("done    %d cases of words" % (number + len(RINGS)))
    sys.exit(1 if failed else 0)


if __name__ == "__main__":
    main()
