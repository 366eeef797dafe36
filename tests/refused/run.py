#!/usr/bin/env python3
"""Runs the program on the cases of cases.py, on each prefix of all.spudd, on the refused files that docs/FORMAT.md shows and on the examples, and
compares what comes with the references.

    run.py PROGRAM        prints a line for each case that isn't as it has to be, and how many were run; exits 1 where there is one

A refused file has status 5, one line on standard error, and nothing on standard output. What has to come of a lawful file is computed
by tests/small/reference.py. The program leaves no file behind."""
import importlib.util, math, os, re, subprocess, sys, tempfile

sys.dont_write_bytecode = True
here = os.path.dirname(os.path.abspath(__file__))


def load(name, file):
    spec = importlib.util.spec_from_file_location(name, os.path.join(here, file))
    module = importlib.util.module_from_spec(spec)
    spec.loader.exec_module(module)
    return module


refused, small, table = load("refused", "reference.py"), load("small", "../small/reference.py"), load("table", "cases.py")


def wanted(data, words=()):
    """The status, the message and the text that `solve` with these words has for a file."""
    refusal = refused.refusal(data)
    if refusal is not None:
        return 5, "refused " + str(refusal), ""
    return small.outcome(data, *small.options(words))


class Program:
    """The program, run in a folder of its own."""

    def __init__(self, path):
        self.path, self.folder = os.path.abspath(path), tempfile.TemporaryDirectory()

    def run(self, data, words=(), command="solve"):
        with open(os.path.join(self.folder.name, "model"), "wb") as out:
            out.write(data)
        ran = subprocess.run([self.path, command, "model", *words], cwd=self.folder.name, stdin=subprocess.DEVNULL, capture_output=True)
        message = ran.stderr.decode("latin-1")
        assert message == "" or (message.endswith("\n") and message.count("\n") == 1), message
        assert os.listdir(self.folder.name) == ["model"], os.listdir(self.folder.name)
        return ran.returncode, message.rstrip("\n"), ran.stdout.decode("latin-1")


class Report:
    def __init__(self):
        self.failed = False

    def compare(self, case, found, want):
        if found != want:
            self.failed = True
            print("FAILED  %s: status %d, %r, %d bytes, in place of status %d, %r, %d bytes" %
                  (case, found[0], found[1], len(found[2]), want[0], want[1], len(want[2])))


def run_cases(program, report):
    number = 0
    for number, (case, data, words) in enumerate(table.cases(), 1):
        refusal = refused.refusal(data)
        if words != (None if refusal is None else str(refusal)):
            report.failed = True
            print("FAILED  %s: the reference says %s, the table %s" % (case, refusal, words))
        want = wanted(data)
        if want[0] == 13:
            # More states than tables take: no reference computes what diagrams come to, but they aren't refused.
            report.compare("plain on " + case, program.run(data, (), "plain"), want)
            found = program.run(data)
            report.compare(case, found, found if found[0] in (0, 8, 9) else (0, "", ""))
        else:
            report.compare(case, program.run(data), want)
    print("done    %d files, refused and lawful" % number)


def run_prefixes(program, report):
    whole = small.read(os.path.join(here, "all.spudd"))
    for length in range(len(whole) + 1):
        data = whole[:length]
        refusal = refused.refusal(data)
        if refusal is not None and refusal.at < length and len(refused.tokens_of(data[refusal.at:])) > 2:
            report.failed = True
            print("FAILED  a prefix of %d bytes is refused before its last word" % length)
        report.compare("a prefix of %d bytes" % length, program.run(data), wanted(data))
    print("done    %d prefixes" % (len(whole) + 1))


def run_page(program, report):
    """The files that docs/FORMAT.md shows with their messages."""
    with open(os.path.join(here, "..", "..", "docs", "FORMAT.md"), encoding="utf-8") as page:
        shown = re.findall(r"^\| `(.*)` \| `(refused at byte .*)` \|$", page.read(), re.M)
    for file, message in shown:
        data = file.encode("utf-8")
        if "refused " + str(refused.refusal(data)) != message:
            report.failed = True
            print("FAILED  docs/FORMAT.md: the reference refuses %s %s" % (file, refused.refusal(data)))
        report.compare(file, program.run(data), (5, message, ""))
    print("done    %d files of docs/FORMAT.md" % len(shown))


def run_examples(program, report):
    """The examples: with few states what the reference computes; with more, that both commands print the same up to turn 3; and with more than tables
    take, that `plain` says so."""
    folder = os.path.join(here, "..", "..", "examples")
    for name in sorted(name for name in os.listdir(folder) if name.endswith(".spudd")):
        data = small.read(os.path.join(folder, name))
        states = math.prod(len(values) for values in small.Model(data).values)
        words = ("--turns", "3") if states > 100 else ()
        plain = program.run(data, words, "plain")
        want = wanted(data) if states <= 100 or states > 4096 else plain
        report.compare("plain on examples/" + name, plain, want)
        if states <= 4096:
            report.compare("solve on examples/" + name, program.run(data, words, "solve"), want)
    print("done    the examples")


def main():
    sys.setrecursionlimit(10_000)
    program, report = Program(sys.argv[1]), Report()
    run_cases(program, report)
    run_prefixes(program, report)
    run_page(program, report)
    run_examples(program, report)
    sys.exit(1 if report.failed else 0)


if __name__ == "__main__":
    main()
