"""The verdict on a certificate, by a table of all states: docs/FORMAT.md's rule, computed with the tables of tests/small/reference.py.

It reads lawful certificates alone. Nothing of it comes from the program."""
import importlib.util, os, sys

sys.dont_write_bytecode = True
HERE = os.path.dirname(os.path.abspath(__file__))


def load(name, file):
    spec = importlib.util.spec_from_file_location(name, os.path.join(HERE, file))
    module = importlib.util.module_from_spec(spec)
    spec.loader.exec_module(module)
    return module


small = load("small", "../small/reference.py")


def leaf_at(m, lines, s):
    """The word of the leaf to which a list of nodes leads at a state."""
    words = lines[-1].split(" ")
    while words[1] == "branch":
        words = lines[int(words[3 + s[m.names.index(words[2])]])].split(" ")
    return words[2]


class Cert:
    """What a certificate's text tells: its lines before the diagrams, the residual in units, and the lines of each diagram."""

    def __init__(self, text):
        lines = text.split("\n")
        at = next(i for i, line in enumerate(lines) if line.startswith("value "))
        count = int(lines[at].split(" ")[1])
        self.head, self.value = lines[:at], lines[at + 1:at + 1 + count]
        at += 1 + count
        count = int(lines[at].split(" ")[1])
        self.policy = lines[at + 1:at + 1 + count]
        assert lines[at].startswith("policy ") and lines[at + 1 + count:] == ["end", ""], lines[at:]
        self.residual = small.units(self.field("residual"), 9)

    def field(self, name):
        return next(line for line in self.head if line.startswith(name + " "))[len(name) + 1:]

    def text(self):
        return "\n".join(self.head + ["value %d" % len(self.value), *self.value, "policy %d" % len(self.policy), *self.policy, "end", ""])

    def with_residual(self, units):
        """The text with another residual."""
        line = "residual " + self.field("residual")
        return self.text().replace("\n%s\n" % line, "\nresidual %s\n" % small.number(units), 1)

    def with_policy(self, lines):
        other = Cert(self.text())
        other.policy = lines
        return other.text()

    def of_version_1(self):
        """The text without the line that names the model's file."""
        assert self.head[0] == "spd result 2"
        return self.text().replace("\n".join(self.head[:2]), "spd result 1", 1)


class Table:
    """A model's states with a certificate's value and policy, and the bounds of each action where the value follows."""

    def __init__(self, data, text):
        self.m, self.cert = small.Model(data), Cert(text)
        self.w = {s: small.units(leaf_at(self.m, self.cert.value, s), 9) for s in self.m.states}
        names = [name for name, _, _ in self.m.actions]
        self.policy = {s: names.index(leaf_at(self.m, self.cert.policy, s)) for s in self.m.states}
        self.low, self.high = small.bounds(self.m, self.w)

    def verdict(self, residual=None, policy=None):
        """The line that `check` has to write, with another residual or another policy where one is given."""
        r = self.cert.residual if residual is None else residual
        policy = policy or self.policy
        for s in self.m.states:
            most = max(self.high[s])
            if most - self.w[s] > r:
                return self.failure(s, "above", self.high[s].index(most))
            if self.w[s] - self.low[s][policy[s]] > r:
                return self.failure(s, "below", policy[s])
        return "yes"

    def failure(self, s, side, action):
        return "no %s %s %s" % (small.place(self.m, s), side, self.m.actions[action][0])

    def worse(self):
        """The policies that differ at one state alone, where they choose an action that is worse there by more than the residual."""
        for s in self.m.states:
            for action in range(len(self.m.actions)):
                if self.w[s] - self.low[s][action] > self.cert.residual:
                    yield {**self.policy, s: action}

    def whole_tree(self, policy):
        """The nodes of a policy with a leaf for each state: a tree that isn't reduced."""
        m, lines = self.m, []

        def visit(state):
            var = len(state)
            if var == len(m.names):
                lines.append("%d leaf %s" % (len(lines), m.actions[policy[state]][0]))
            else:
                kids = [visit(state + (v,)) for v in range(len(m.values[var]))]
                lines.append("%d branch %s %s" % (len(lines), m.names[var], " ".join(map(str, kids))))
            return len(lines) - 1

        visit(())
        return lines
