#!/usr/bin/env python3
"""Runs the program on the mistakes of cases.py and on wrong words, through a pipe and at a terminal.

    run.py PROGRAM        prints each case that isn't as it has to be, and how many were run; exits 1 where there is one
    run.py PROGRAM --pipe the same through a pipe alone
    run.py PROGRAM --show prints what a terminal shows of each

Through a pipe a mistake has just the stated line. At a terminal that line comes first; behind it come the file's name with line and column, the line with
a caret below the place, and a sentence that says what would mend it. Mistakes in a model file are those of `solve`, and those in a certificate of `check`;
`upgrade` has the same through a pipe."""
import os, pty, re, subprocess, sys, tempfile, threading

sys.dont_write_bytecode = True
sys.path.insert(0, os.path.dirname(os.path.abspath(__file__)))
import cases

# Words of the command line: the words, the status, the message, and what a terminal shows. `model` is a lawful file, `cert` a certificate of it, `folder` a
# folder.
WORDS = [
    ([], 2, "usage: word 0", ["A command is missing", "try 'spudd --help'"]),
    (["sovle", "model"], 2, "usage: word 0", ["`sovle` is no command. Is `solve` meant?", "try 'spudd --help'"]),
    (["model"], 2, "usage: word 0", ["`model` is no command", "try 'spudd --help'"]),
    (["solve"], 2, "usage: word 1", ["A FILE is missing"]),
    (["solve", "model", "more"], 2, "usage: word 2", ["`more` is one operand too many"]),
    (["solve", "model", "--turn", "5"], 2, "usage: word 2", ["Is `--turns` meant?"]),
    (["solve", "model", "--turns"], 2, "usage: word 3", ["`--turns` takes a value: 0 to 1000000"]),
    (["solve", "model", "--turns", "many"], 2, "usage: word 3", ["`many` is no value of `--turns`, which takes 0 to 1000000"]),
    (["solve", "model", "--nodes=1"], 2, "usage: word 2", ["16 to 8388608"]),
    (["plain", "model", "--nodes", "100"], 2, "usage: word 2", ["no option of `plain`"]),
    (["solve", "-m"], 2, "usage: word 1", ["A file whose name begins with `-` is given behind the word `--`"]),
    (["check"], 2, "usage: word 1", ["A FILE is missing"]),
    (["check", "model"], 2, "usage: word 2", ["A CERT is missing: the name of a certificate, or `-` for standard input."]),
    (["upgrade", "--nodes=16", "model"], 2, "usage: word 3", ["A CERT is missing"]),
    (["check", "model", "model"], 2, "usage: word 2", ["`model` stands twice: the model file and the certificate are two files."]),
    (["upgrade", "-", "-"], 2, "usage: word 2", ["`-` stands twice"]),
    (["check", "model", "cert", "more"], 2, "usage: word 3", ["`more` is one operand too many"]),
    (["check", "model", ""], 2, "usage: word 2", ["The name of a file isn't empty."]),
    (["check", "model", "cert", "--turns", "5"], 2, "usage: word 3", ["`--turns` is no option of `check`."]),
    (["upgrade", "model", "cert", "--workers=2"], 2, "usage: word 3", ["`--workers` is no option of `upgrade`."]),
    (["check", "model", "cert", "--nodes", "15"], 2, "usage: word 4", ["`15` is no value of `--nodes`, which takes 16 to 8388608"]),
    (["check", "model", "cert", "--node=16"], 2, "usage: word 3", ["Is `--nodes` meant?"]),
    (["chek", "model", "cert"], 2, "usage: word 0", ["`chek` is no command. Is `check` meant?"]),
    (["evaluate", "model", "cert"], 2, "usage: word 0", ["`evaluate` can't be run yet."]),
    (["gen"], 2, "usage: word 1", ["N is missing: a number of machines from 2 to 63"]),
    (["ring", "64"], 2, "usage: word 1", ["`64` can't stand here: the one operand is a number of machines from 2 to 63"]),
    (["solve", "\x1b[31mred", "more"], 2, "usage: word 2", ["`more` is one operand too many"]),
    (["solve", "missing"], 3, "cannot open missing", ["There is no such file or folder."]),
    (["solve", "folder"], 3, "cannot read folder", ["It is a folder."]),
    (["solve", "model/part"], 3, "cannot open model/part", ["A part of the path is a file and no folder."]),
    (["solve", "model", "--turns", "3"], 8, "turn limit reached, residual 5.797413507", ["at most 0.005.", "--turns 70"]),
    (["solve", "model", "--nodes", "16"], 9, "node limit 16 passed in building", ["try --nodes 64"]),
    (["solve", "-"], 5, "refused at byte 0: expected variables", ["  standard input, line 1, column 1", "A file begins with its variables"]),
    (["check", "model", "missing"], 3, "cannot open missing", ["There is no such file or folder."]),
    (["check", "model", "folder"], 3, "cannot read folder", ["It is a folder."]),
    (["check", "model", "/dev/zero"], 4, "/dev/zero is too long", ["A certificate has at most 268435456 bytes."]),
    (["check", "/dev/zero", "cert"], 4, "/dev/zero is too long", ["A model file has at most 4194304 bytes."]),
    (["check", "cert", "model"], 5, "refused at byte 0: expected variables", ["  cert, line 1, column 1", "A file begins with its variables"]),
    (["check", "model", "-"], 10, "certificate refused at byte 0: end", ["  standard input, line 1, column 1", "The certificate is cut off here"]),
    (["check", "model", "cert", "--nodes", "16"], 9, "node limit 16 passed in building", ["try --nodes 64"]),
]


# After how many turns the run that shows its progress ends.
TURNS = 1000

# What takes a line away at a terminal.
ERASE = b"\r\x1b[K"


class Program:
    """The program, run in a folder of its own."""

    def __init__(self, path):
        self.path, self.room = os.path.abspath(path), tempfile.TemporaryDirectory()
        self.folder = self.room.name
        os.mkdir(os.path.join(self.folder, "folder"))
        self.write("model", cases.MACHINE.encode())
        self.write("cert", cases.CERT.encode())

    def write(self, name, data):
        with open(os.path.join(self.folder, name), "wb") as out:
            out.write(data)

    def through_pipe(self, words):
        ran = subprocess.run([self.path, *words], cwd=self.folder, stdin=subprocess.DEVNULL, capture_output=True)
        return ran.returncode, ran.stdout, ran.stderr

    def at_terminal(self, words):
        """The status, standard output, and what a terminal got as standard error."""
        master, slave = pty.openpty()
        got = []

        def drain():
            while True:
                try:
                    piece = os.read(master, 65536)
                except OSError:
                    return
                if not piece:
                    return
                got.append(piece)

        thread = threading.Thread(target=drain)
        thread.start()
        ran = subprocess.run([self.path, *words], cwd=self.folder, stdin=subprocess.DEVNULL, stdout=subprocess.PIPE, stderr=slave)
        os.close(slave)
        thread.join()
        os.close(master)
        return ran.returncode, ran.stdout, b"".join(got).replace(b"\r\n", b"\n")


def place_of(data, at):
    """Line and column of a byte, counted from 1."""
    front = data[:at]
    return front.count(b"\n") + 1, at - (front.rfind(b"\n") + 1) + 1


class Report:
    def __init__(self):
        self.failed, self.number = False, 0

    def wrong(self, case, what):
        self.failed = True
        print("FAILED  %s: %s" % (case, what))

    def check(self, case, condition, what):
        if not condition:
            self.wrong(case, what)


def line_of(text):
    """A line of a text, or nothing where there is no text."""
    return text.encode() + b"\n" if text else b""


def check_pipe(report, case, ran, status, message):
    line = line_of(message)
    report.check(case, ran[0] == status, "status %d in place of %d through a pipe" % (ran[0], status))
    report.check(case, ran[2] == line, "%r in place of %r through a pipe" % (ran[2], line))


def check_terminal(report, case, ran, piped, message, shown):
    # A line of progress, where the machine is slow, is taken away before the message.
    text = ran[2].split(ERASE)[-1].decode("utf-8", "replace")
    report.check(case, ran[0] == piped[0] and ran[1] == piped[1], "another status or output at a terminal")
    if message is None:
        report.check(case, text == "", "%r at a terminal" % text)
        return
    report.check(case, text.startswith(message + "\n"), "the terminal begins with %r" % text[:60])
    report.check(case, not re.search("[\x00-\x09\x0b-\x1f\x7f]", text[len(message):]), "a control byte at a terminal")
    for part in shown:
        report.check(case, part in text, "the terminal doesn't show %r: %r" % (part, text))


def check_place(report, case, text, name, data, at):
    """The file's name with line and column, and a caret below the byte."""
    line, column = place_of(data, at)
    lines = text.split("\n")
    report.check(case, "  %s, line %d, column %d" % (name, line, column) in lines, "no line %d, column %d: %r" % (line, column, text))
    carets = [i for i, shown in enumerate(lines) if shown.strip() == "^"]
    if len(carets) != 1:
        return report.wrong(case, "no caret: %r" % text)
    above, place = lines[carets[0] - 1], lines[carets[0]].index("^")
    byte = data[at:at + 1]
    if b" " < byte <= b"~":
        report.check(case, above[place:place + 1] == byte.decode(), "the caret stands below %r: %r" % (above[place:], text))


def servers(count):
    """The model of examples/boot.spudd with so many servers, and a discount with which a run takes long."""
    numbers = range(1, count + 1)
    keep = ["dd keep%d (s%d (up (s%d' (up (1)) (down (0)))) (down (s%d' (up (0)) (down (1))))) enddd" % (k, k, k, k) for k in numbers]
    tried = []
    for k in numbers:
        tree = "(s%d (up (keep%d)) (down (s%d' (up (0.9)) (down (0.1)))))" % (k, k, k)
        for j in range(k - 1, 0, -1):
            tree = "(s%d (up %s) (down (keep%d)))" % (j, tree, k)
        tried.append("dd try%d %s enddd" % (k, tree))
    worth = "(1)"
    for k in reversed(numbers):
        worth = "(s%d (up %s) (down (0)))" % (k, worth)
    action = lambda name, word: "action %s %s endaction" % (name, " ".join("s%d (%s%d)" % (k, word, k) for k in numbers))
    variables = "(variables %s)" % " ".join("(s%d up down)" % k for k in numbers)
    return "\n".join([variables, *keep, *tried, action("wait", "keep"), action("start", "try"), "reward " + worth, "discount 0.999", "tolerance 0.001", ""]).encode()


def check_progress(program, report):
    """A run of 20 variables that takes more than a second: a terminal shows a line again and again, and at the end nothing is left of it."""
    program.write("model", servers(20))
    words = ["solve", "model", "--turns", str(TURNS)]
    report.number += 1
    status, output, got = program.at_terminal(words)
    case, lines = "progress of " + " ".join(words), got.split(ERASE)
    shown = [line for line in lines if re.fullmatch(rb"turn \d+, residual \d+\.\d{9}, \d+ nodes(, done at about turn \d+)?", line)]
    report.check(case, status == 8 and output.endswith(b"\nend\n"), "status %d" % status)
    report.check(case, len(shown) >= 2, "%d lines of progress: %r" % (len(shown), got[:300]))
    report.check(case, all(len(line) < 80 for line in shown), "a long line: %r" % shown[:1])
    report.check(case, lines[0] == b"" and lines[-1].startswith(b"turn limit reached, residual "), "something is left of the line: %r" % got[-300:])
    piped = program.through_pipe(words)
    report.check(case, piped[:2] == (status, output) and piped[2].count(b"\n") == 1, "another result through a pipe")


def run_case(program, report, mode, case, words, status, message, shown):
    """Runs words through a pipe, and at a terminal too where that is asked for. Answers what the pipe got, and the text of the terminal or nothing."""
    report.number += 1
    piped = program.through_pipe(words)
    check_pipe(report, case, piped, status, message)
    if mode == "--pipe":
        return piped, None
    ran = program.at_terminal(words)
    text = ran[2].decode("utf-8", "replace")
    if mode == "--show":
        print("== %s\n%s" % (case, text))
        return piped, None
    check_terminal(report, case, ran, piped, message, shown)
    return piped, text


def check_models(program, report, mode):
    for case, data, at, message, status, shown in cases.edits():
        program.write("model", data)
        text = run_case(program, report, mode, case, ["solve", "model"], status, message, shown)[1]
        if at is not None and text is not None:
            check_place(report, case, text, "model", data, at)
    program.write("model", cases.MACHINE.encode())


def check_certs(program, report, mode):
    for name, data, at, line, message, status, shown in cases.cert_edits():
        case = "certificate: " + name
        program.write("cert", data)
        piped, text = run_case(program, report, mode, case, ["check", "model", "cert"], status, message, shown)
        report.check(case, piped[1] == line_of(line), "%r in place of %r on standard output" % (piped[1], line))
        if at is not None and text is not None:
            check_place(report, case, text, "cert", data, at)
        if status > 0:
            upgraded = program.through_pipe(["upgrade", "model", "cert"])
            report.check(case, upgraded == piped, "`upgrade` ends with %r and `check` with %r" % (upgraded, piped))
    program.write("cert", cases.CERT.encode())


def main(path, mode):
    program, report = Program(path), Report()
    check_models(program, report, mode)
    check_certs(program, report, mode)
    for words, status, message, shown in WORDS:
        run_case(program, report, mode, " ".join(["spudd", *words]), words, status, message, shown)
    if mode == "":
        check_progress(program, report)
    print("done    %d mistakes" % report.number)
    return 1 if report.failed else 0


if __name__ == "__main__":
    if len(sys.argv) not in (2, 3) or sys.argv[2:] not in ([], ["--pipe"], ["--show"]):
        sys.exit(__doc__)
    sys.exit(main(sys.argv[1], sys.argv[2] if len(sys.argv) == 3 else ""))
