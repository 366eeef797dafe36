#!/usr/bin/env python3
"""Changes lawful files at random, and compares what the program and the references answer.

    differ.py PROGRAM [SEED [COUNT]]      prints each file on which they differ, and keeps it as `differ-SEED-NUMBER` in the folder where it is run

A file is changed at the level of bytes, of words, or of whole groups in brackets, once or a few times. One change in two puts a word of the
file in another's place, so that names are at fault. Each file is solved for few turns."""
import glob, os, random, sys

sys.dont_write_bytecode = True
sys.path.insert(0, os.path.dirname(os.path.abspath(__file__)))
import run

WORDS = b"( ) [ ] + * - max dd enddd action endaction cost reward discount tolerance horizon variables init observe observations unnormalized".split() + \
    [b"0", b"1", b"-1", b"0.5", b"1e-3", b".", b"1e31", b"0.0000000001", b"0.9999999", b"1001", b"//", b"x", b"x'", b"yes", b"no", b"'", b"_", b"n" * 65, b"\x80", b"\x00"]
TURNS = ("--turns", "3")


def spans(data):
    """The tokens' places, and those of the groups in brackets."""
    try:
        tokens = run.refused.tokens_of(data)[:-1]
    except run.refused.Refused:
        return []
    found, open_ = [], []
    for word, at in tokens:
        found.append((at, at + len(word)))
        if word in (b"(", b"["):
            open_.append(at)
        elif word in (b")", b"]") and open_:
            found.append((open_.pop(), at + 1))
    return found


def is_word(data, place):
    return data[place[0]:place[0] + 1] not in (b"(", b")", b"[", b"]")


def renamed(data, places, pick):
    """A word of the file in the place of another: such a file is mostly at fault in its names."""
    words = [place for place in places if is_word(data, place)]
    (low, high), (first, last) = pick.choice(words), pick.choice(words)
    return data[:low] + data[first:last] + pick.choice([b"", b"", b"", b"'"]) + data[high:]


def changed(data, pick):
    places = spans(data)
    if any(is_word(data, place) for place in places) and pick.randrange(2):
        return renamed(data, places, pick)
    kind = pick.randrange(8)
    if kind == 0 or not places:
        at = pick.randrange(len(data) + 1)
        return data[:at] + pick.choice([b"", bytes([pick.randrange(256)]), pick.choice(WORDS)]) + data[at + pick.randrange(2):]
    low, high = pick.choice(places)
    if kind == 1:
        return data[:low] + data[high:]                                   # left out
    if kind == 2:
        return data[:high] + b" " + data[low:high] + data[high:]          # twice
    if kind == 3:
        return data[:low] + pick.choice(WORDS) + data[high:]              # another word
    if kind == 4:
        return data[:low]                                                 # cut off
    other = pick.choice(places)
    piece = data[other[0]:other[1]]
    if kind == 5:
        return data[:low] + piece + data[high:]                           # another piece of the file
    if kind == 6:
        return data[:low] + piece + b" " + data[low:]
    first, second = sorted([(low, high), other])
    if first[1] <= second[0]:                                             # two pieces in each other's places
        return data[:first[0]] + data[second[0]:second[1]] + data[first[1]:second[0]] + data[first[0]:first[1]] + data[second[1]:]
    return data


def main():
    sys.setrecursionlimit(10_000)
    program, seed, count = run.Program(sys.argv[1]), int((sys.argv + ["", "1"])[2] or 1), int((sys.argv + ["", "", "1000"])[3] or 1000)
    pick, report, kinds = random.Random(seed), run.Report(), {}
    files = [run.small.read(name) for name in sorted(glob.glob(os.path.join(run.here, "..", "small", "*.spudd")) + [os.path.join(run.here, "all.spudd")])]
    for number in range(count):
        data = pick.choice(files)
        for _ in range(pick.choice([1, 1, 1, 2, 3])):
            data = changed(data, pick)
        want = run.wanted(data, TURNS)
        kind = want[1].split(": ")[-1] if want[0] == 5 else "status %d" % want[0]
        kinds[kind] = kinds.get(kind, 0) + 1
        found = program.run(data, TURNS)
        if found != want:
            name = "differ-%d-%d" % (seed, number)
            report.compare(name, found, want)
            with open(name, "wb") as out:
                out.write(data)
    for kind, times in sorted(kinds.items(), key=lambda entry: -entry[1]):
        print("%6d %s" % (times, kind))
    sys.exit(1 if report.failed else 0)


if __name__ == "__main__":
    main()
