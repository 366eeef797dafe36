#!/usr/bin/env python3
"""Lawful model files of a given size, in five shapes, to measure how fast a file is read and in how much memory.

    make.py FOLDER [BYTES]            writes tree, actions, dds, comments and names into FOLDER, each of about BYTES bytes (4,194,304)
    make.py --measure PROGRAM FOLDER  prints the time and the memory of `solve` on each file there, and on files of a half and of a quarter

Each has more than 4,096 states, so that it is read and then answered with `too many states`: what is measured is the reading alone. Memory
below some 40 MB isn't told apart, since the system counts that of Python too, which starts the program."""
import os, subprocess, sys, time

LIMIT = 4_194_304
SHAPES = ("tree", "actions", "dds", "comments", "names")
END = "reward (0)\ndiscount 0.5\ntolerance 0.1\n"


def head(count, name="x%d", values="yes no"):
    names = [name % i for i in range(count)]
    return names, "(variables " + " ".join("(%s %s)" % (n, values) for n in names) + ")\n"


def action(name, tables):
    return "action %s\n%s\nendaction\n" % (name, "\n".join(tables))


def full_tree(names, leaves):
    """A tree that branches on one name after the other; so many leaves stand in order, a power of two of them."""
    row, depth = leaves, len(leaves).bit_length() - 1
    for name in reversed(names[:depth]):
        row = ["(%s (yes %s) (no %s))" % (name, row[k], row[k + 1]) for k in range(0, len(row), 2)]
    return row[0]


def tree(size):
    """One tree that takes nearly the whole file: a chain of branches on the last variable, from each of which a full tree on the others hangs."""
    names, start = head(13)
    start += action("a", ["%s (0.5)" % n for n in names])
    part = full_tree(names, ["(0.5)"] * 4096)
    whole, room = part, size - len(start) - len(END)
    while len(whole) + len(part) + 40 < room:
        whole = "(x12 (yes %s) (no %s))" % (whole, part)
    return start + END.replace("(0)", whole, 1)


def chain(names, size, first, yes="yes", no="no"):
    """A tree of about so many bytes: branches inside one another, on one name after the other."""
    whole, level = "(0.5)", first
    while True:
        longer = "(%s (%s %s) (%s (0.5)))" % (names[level % len(names)], yes, whole, no)
        if len(longer) > size or level == first + 290:
            return whole
        whole, level = longer, level + 1


def actions(size):
    """64 actions, whose tables share the file's bytes evenly."""
    names, start = head(13)
    room = (size - len(start) - len(END)) // (64 * 13) - 10
    return start + "".join(action("act%d" % k, ["%s %s" % (n, chain(names, room, k)) for n in names]) for k in range(64)) + END


def dds(size):
    """4,096 decision diagrams in rows of 128. Each is a full tree of uses of those in the row before."""
    names, start = head(13)
    lines, leaves = [], 8
    while leaves * 2 * 4096 * 30 < size:
        leaves *= 2
    for k in range(4096):
        uses = ["(diagram%d)" % ((k // 128 - 1) * 128 + (k * 31 + n * 7) % 128) if k >= 128 else "(0.5)" for n in range(leaves)]
        lines.append("dd diagram%d %s enddd" % (k, full_tree(names, uses)))
    return start + "\n".join(lines) + "\n" + action("a", ["%s (0.5)" % n for n in names]) + END.replace("(0)", "(diagram4095)", 1)


def comments(size):
    """A small model and comments of all kinds of bytes."""
    names, start = head(13)
    start += action("a", ["%s (0.5)" % n for n in names])
    room, line = size - len(start) - len(END), "// " + "()[] action x' \u00e9 " * 5 + "\n"
    return start + line * (room // len(line.encode("utf-8"))) + END


def names(size):
    """100 variables whose names have 64 bytes, and tables that test them."""
    yes, no = "yes" + "y" * 61, "no" + "n" * 62
    all_names, start = head(100, "v%03d" + "n" * 60, yes + " " + no)
    room = (size - len(start) - len(END)) // 100 - 80
    return start + action("a", ["%s %s" % (name, chain(all_names, room, i, yes, no)) for i, name in enumerate(all_names)]) + END


def padded(text, size):
    """Blanks at the end bring the file to its size."""
    data = text.encode("utf-8")
    assert len(data) <= size, len(data)
    return data + b"\n" * (size - len(data))


def write(folder, size):
    os.makedirs(folder, exist_ok=True)
    for shape in SHAPES:
        text = globals()[shape](size)
        print("%-9s %9d bytes before blanks" % (shape, len(text.encode("utf-8"))))
        with open(os.path.join(folder, "%s-%d.spudd" % (shape, size)), "wb") as out:
            out.write(padded(text, size))


def measure(program, folder):
    for size in (LIMIT // 4, LIMIT // 2, LIMIT):
        write(folder, size)
    for shape in SHAPES:
        for size in (LIMIT // 4, LIMIT // 2, LIMIT):
            file = os.path.join(folder, "%s-%d.spudd" % (shape, size))
            began = time.time()
            child = subprocess.Popen([os.path.abspath(program), "solve", file], stdout=subprocess.DEVNULL, stderr=subprocess.PIPE)
            message = child.stderr.read().decode("latin-1").strip()
            used = os.wait4(child.pid, 0)[2]
            print("%-9s %9d bytes  %6.3f s, of them %6.3f computing  %7d KB, %5.1f bytes a byte  %s" %
                  (shape, size, time.time() - began, used.ru_utime, used.ru_maxrss, used.ru_maxrss * 1024 / size, message))


def main():
    if sys.argv[1] == "--measure":
        measure(sys.argv[2], sys.argv[3])
    else:
        write(sys.argv[1], int((sys.argv + ["", str(LIMIT)])[2]) if len(sys.argv) > 2 else LIMIT)


if __name__ == "__main__":
    main()
