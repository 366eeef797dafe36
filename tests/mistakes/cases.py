"""Mistakes that a new user makes in a model file or in a certificate, with what the program says of each.

`edits()` gives for each mistake in a model file its name, the file's bytes, the byte at which it is refused, the message through a pipe, the exit
status and some texts that a terminal shows besides. Most are edits of one lawful file: a text that stands there once, and what stands in its place.
A `@` in the new text marks the byte of the message and isn't part of the file. `cert_edits()` gives the same for a certificate of that file, and what
`check` writes to standard output."""
import hashlib

MACHINE = """(variables (machine up down))
action wait
machine (machine (up (machine' (up (0.9)) (down (0.1)))) (down (machine' (up (0)) (down (1)))))
endaction
action repair
machine (machine' (up (0.95)) (down (0.05)))
cost (2)
endaction
reward (machine (up (10)) (down (0)))
discount 0.9
tolerance 0.1
"""

DIE = """(variables (die one two three))
action mix
die (die' (one (0.3333)) (two (0.3333)) (three (0.3333)))
endaction
reward (die (one (1)) (two (0)) (three (0)))
discount 0.5
tolerance 0.1
"""

# The certificate that docs/FORMAT.md makes by hand. It holds.
CERT = """spd result 1
status limit
turn 0
residual 0.46
at machine=down above repair
error 4.6
value 3
0 leaf 90
1 leaf 78
2 branch machine 0 1
policy 3
0 leaf wait
1 leaf repair
2 branch machine 0 1
end
"""

REPAIR = "machine (machine' (up (0.95)) (down (0.05)))\ncost (2)\n"
REWARD = "reward (machine (up (10)) (down (0)))\n"
SUM = "sum of action repair, variable machine at machine=up is "

# The name, the old text, the new one, the words of the refusal, and what a terminal shows.
REFUSED = [
    ("a bracket missing", "(down (0.05)))\ncost", "(down (0.05))\n@cost", "expected close", ["A closing bracket is missing", "where 1 of those before it are open"]),
    ("a bracket missing at the end of a reward", "(down (0)))\n", "(down (0))\n@", "expected close", ["A closing bracket is missing"]),
    ("a bracket too many behind a reward", "(down (0)))\n", "(down (0)))@)\n", "expected section", ["one bracket too many"]),
    ("a bracket too many in an action", "(down (0.05)))\n", "(down (0.05)))@)\n", "expected name", ["one bracket too many"]),
    ("a cost without brackets", "cost (2)", "cost @2", "expected open", ["in brackets: `(2)`"]),
    ("a reward without brackets", "(up (10))", "(up @10)", "expected open", ["in brackets: `(10)`"]),
    ("a missing endaction", "endaction\naction", "@action", "expected name", ["`endaction` is missing before `action`"]),
    ("a missing endaction before the reward", "endaction\nreward", "@reward", "expected name", ["`endaction` is missing before `reward`"]),
    ("a missing variable name", "repair\nmachine (", "repair\n@(", "expected name", ["The name of a variable is missing before this tree"]),
    ("a missing action name", "action repair\nmachine (", "action\nmachine @(", "expected name", ["The name of a variable is missing before this tree"]),
    ("a discount in brackets", "discount 0.9", "discount @(0.9)", "expected number", ["without brackets: `discount 0.9`"]),
    ("a tolerance in brackets", "tolerance 0.1", "tolerance @(0.1)", "expected number", ["without brackets"]),
    ("a comment of a shell at the front", "(variables", "@# a machine\n(variables", "expected variables", ["A comment begins with `//`"]),
    ("a comment of a shell", "discount 0.9", "discount 0.9 @# a step", "expected section", ["A comment begins with `//`"]),
    ("a comment of C", "cost (2)", "@/* much */ cost (2)", "expected name", ["A comment begins with `//`"]),
    ("a comment of Lisp", "reward", "@; what it is worth\nreward", "expected section", ["A comment begins with `//`"]),
    ("an umlaut in a value", "(machine up down)", "(machine h\u00f6her down)".replace("\u00f6", "@\u00f6"), "bad byte", ["only ASCII stands"]),
    ("a no-break space", "cost (2)", "cost@\u00a0(2)", "bad byte", ["A no-break space"]),
    ("a typographic minus", "(down (0)))", "(down (@\u22125)))", "bad byte", ["A dash or minus that isn't `-`"]),
    ("quotes round a value", "(machine up down)", "(machine @\"up\" down)", "expected value", ["without quotation marks"]),
    ("quotes round an action", "action repair", "action @\"repair\"", "expected name", ["without quotation marks"]),
    ("commas between values", "(machine up down)", "(machine @up, down)", "expected value", ["parted by blanks"]),
    ("a misspelt value", REWARD, "reward (@machine (upp (10)) (down (0)))\n", "missing branch", ["Missing here: `up`", "`upp` is no value of `machine`"]),
    ("a value that isn't declared", REWARD, "reward (machine (up (10)) (down (0)) (@upp (1)))\n", "unknown name", ["`upp` is no value of `machine`. Its values are `up`, `down`. Is `up` meant?"]),
    ("a misspelt variable in a tree", REWARD, "reward (@machin (up (10)) (down (0)))\n", "unknown name", ["`machin` is no variable. The variables are `machine`. Is `machine` meant?"]),
    ("a misspelt variable in an action", "repair\nmachine (", "repair\n@mashine (", "unknown name", ["`mashine` is no variable. The variables are `machine`. Is `machine` meant?"]),
    ("a misspelt decision diagram", REWARD, "reward (@worth)\n", "unknown name", ["`worth` is no decision diagram that is declared before"]),
    ("a word of the format as a name", "(machine up down)", "(@cost up down)", "expected name", ["`cost` is a word of the format"]),
    ("an action twice", "action repair", "action @wait", "twice", ["`wait` stands a second time", "in line 2"]),
    ("a branch twice", REWARD, "reward (machine (up (10)) (down (0)) (@down (1)))\n", "twice", ["`down` stands a second time"]),
    ("a discount twice", "tolerance 0.1\n", "tolerance 0.1\n@discount 0.8\n", "twice", ["`discount` stands a second time", "in line 10"]),
    ("a prime in a reward", REWARD, "reward (@machine' (up (10)) (down (0)))\n", "primed name", ["`machine` without `'`"]),
    ("a prime at an item", "repair\nmachine (", "repair\n@machine' (", "expected name", ["stands behind its name without `'`"]),
    ("a fraction", "(up (0.95))", "(up (@19/20))", "not a number", ["A fraction is written as a decimal"]),
    ("a decimal comma", "discount 0.9", "discount @0,9", "not a number", ["a point, not a comma"]),
    ("a percent sign", "(up (0.95))", "(up (@95%))", "not a number", ["0.9 in place of 90%"]),
    ("an equals sign", "discount 0.9", "discount @= 0.9", "not a number", ["No sign stands"]),
    ("a colon", "tolerance 0.1", "@tolerance: 0.1", "expected section", ["No sign stands"]),
    ("a discount of 1", "discount 0.9", "discount @1", "too large", ["A discount is below 1"]),
    ("a discount with seven places", "discount 0.9", "discount @0.9999999", "too fine", ["at most 6 places"]),
    ("a probability below 0", "(down (0.05))", "(down (@-0.05))", "negative", ["A probability is at least 0"]),
    ("a missing branch", REWARD, "reward (@machine (up (10)))\n", "missing branch", ["Missing here: `down`"]),
    ("a missing tree", REPAIR + "endaction", "cost (2)\n@endaction", "missing variable", ["Here that of `machine` is missing"]),
    ("a branch without a value", REWARD, "reward (machine (@(10)) (down (0)))\n", "expected value", ["A branch begins with the name of a value"]),
    ("no discount", "discount 0.9\ntolerance 0.1\n", "tolerance 0.1\n@", "expected section", ["it lacks a discount"]),
    ("no tolerance", "discount 0.9\ntolerance 0.1\n", "discount 0.9\n@", "expected section", ["it lacks a tolerance or a horizon"]),
    ("no reward", REWARD + "discount 0.9\ntolerance 0.1\n", "discount 0.9\ntolerance 0.1\n@", "expected section", ["it lacks a reward"]),
    ("a capital letter", "action repair", "@Action repair", "expected section", ["Is `action` meant?"]),
    ("a plural", REWARD, "@rewards (machine (up (10)) (down (0)))\n", "expected section", ["Is `reward` meant?"]),
    ("a variable without values", "(machine up down)", "(machine@)", "expected value", ["A variable has one value at least"]),
    ("no variables", "(variables (machine up down))\n", "@", "expected variables", ["A file begins with its variables"]),
    ("a missing enddd", "reward", "dd worth (1)\n@reward", "expected enddd", ["one tree and then `enddd`"]),
    ("a start of another tool", "reward", "@init (machine (up (1)) (down (0)))\nreward", "left out", ["isn't taken"]),
]

# The name, the old text, the new one, the sum, and what a terminal shows.
SUMS = [
    ("a prime missing", "machine (machine' (up (0.95))", "machine (machine (up (0.95))", SUM + "1.900000000000", ["doesn't test `machine'`", "A `'` may be missing"]),
    ("one number for two values", "machine (machine' (up (0.95)) (down (0.05)))", "machine (1)", SUM + "2.000000000000", ["counts for each of the 2 values"]),
    ("a sum of 0.95", "(up (0.95)) (down (0.05))", "(up (0.9)) (down (0.05))", SUM + "0.950000000000", ["sum to exactly 1", "0.05 is missing"]),
    ("a sum above one", "(up (0.95)) (down (0.05))", "(up (0.95)) (down (0.5))", SUM + "1.450000000000", ["0.45 is too much"]),
    ("hundreds", "(up (0.95)) (down (0.05))", "(up (95)) (down (5))", SUM + "100.000000000000", ["probabilities are parts of one"]),
]

# What looks like a mistake and is none: the name, the old text and the new one.
LAWFUL = [
    ("a point in front", "(up (0.9)) (down (0.1))", "(up (.9)) (down (.1))"),
    ("an exponent", "tolerance 0.1", "tolerance 1e-1"),
    ("a reward below 0", "(down (0)))\n", "(down (-5)))\n"),
    ("sections in another order", "discount 0.9\ntolerance 0.1\n", "tolerance 0.1\ndiscount 0.9\n"),
    ("a comment with an umlaut", "discount 0.9", "discount 0.9 // f\u00fcr jeden Schritt"),
    ("ends of lines as elsewhere", "cost (2)\n", "cost (2)\r\n"),
]

# What is told of a word of a certificate, of its order and of its end.
MISSING = "A word is missing here"
NO_NAME = "no variable, value or action of this name"
NODE = "Here stands the next node"
ORDER = "A branch goes on with nodes above it in the list"
CUT = "The certificate is cut off here: its last line is `end`, with an LF."
ASCII = "A certificate is printable ASCII"
DECIMAL = "with a decimal from 0 to 10^21 of at most 9 places"
VALUES = "value 3\n0 leaf 90\n1 leaf 78\n2 branch machine 0 1\n"
LAST = "1 leaf repair\n2 branch machine 0 1\n"

# The name, the old text of the certificate, the new one, the words of the refusal, and what a terminal shows.
CERTS = [
    ("a tab", "status limit", "status@\tlimit", "bad byte", [ASCII, "no tab"]),
    ("a tab behind a line", "turn 0\n", "turn 0@\t\n", "bad byte", [ASCII]),
    ("a CR", "end\n", "end@\r\n", "bad byte", [ASCII, "no CR"]),
    ("an umlaut", "status limit", "stat@\u00fcs limit", "bad byte", [ASCII]),
    ("a typographic minus", "1 leaf 78", "1 leaf @\u221278", "bad byte", [ASCII]),
    ("a tab behind another mistake", "status limit\nturn 0", "status maybe\nturn@\t0", "bad byte", [ASCII]),
    ("cut off in a line", LAST + "end\n", "1 leaf rep@", "end", [CUT]),
    ("cut off behind a line", LAST + "end\n", "1 leaf repair\n@", "end", [CUT]),
    ("cut off behind the value", "policy 3\n0 leaf wait\n" + LAST + "end\n", "@", "end", [CUT]),
    ("an end without an LF", LAST + "end\n", LAST + "end@", "end", [CUT]),
    ("a misspelt variable", "1 leaf 78\n2 branch machine", "1 leaf 78\n2 branch @machin", "unknown name", [NO_NAME]),
    ("a misspelt variable in the place", "at machine=down", "at @machin=down", "unknown name", [NO_NAME, "in their order"]),
    ("a misspelt value", "machine=down", "@machine=broken", "unknown name", [NO_NAME]),
    ("a misspelt action", "0 leaf wait", "0 leaf @wiat", "unknown name", [NO_NAME]),
    ("a misspelt action in the place", "above repair", "above @Repair", "unknown name", [NO_NAME]),
    ("an action's number", "0 leaf wait", "0 leaf @0", "unknown name", [NO_NAME]),
    ("a place without `=`", "machine=down", "@machine down", "expected", ["Here stands `at`", "`variable=value`"]),
    ("a side that is none", "above repair", "@over repair", "expected", ["`above` or `below`"]),
    ("a residual with a comma", "residual 0.46", "residual @0,46", "number", ["Here stands `residual`", DECIMAL]),
    ("a residual of ten places", "residual 0.46", "residual @0.4600000001", "number", ["Here stands `residual`", DECIMAL]),
    ("a residual that is too large", "residual 0.46", "residual @1e22", "number", ["Here stands `residual`", DECIMAL]),
    ("a residual below 0", "residual 0.46", "residual @-0.46", "number", ["Here stands `residual`", DECIMAL]),
    ("a residual that is no number", "residual 0.46", "residual @inf", "number", ["Here stands `residual`", DECIMAL]),
    ("an error as a percentage", "error 4.6", "error @5%", "number", ["Here stands `error`", DECIMAL]),
    ("a turn with a point", "turn 0", "turn @0.0", "number", ["Here stands `turn`", "0 to 1000000"]),
    ("a leading zero", "turn 0", "turn @00", "number", ["Here stands `turn`"]),
    ("a leaf that is too large", "0 leaf 90", "0 leaf @1e16", "number", ["A leaf of the value is a decimal", "up to 10^15"]),
    ("a leaf that is a fraction", "0 leaf 90", "0 leaf @269/3", "number", ["A leaf of the value is a decimal"]),
    ("a leaf without a number", "0 leaf 90", "0 leaf@", "expected", [MISSING]),
    ("a kid below its branch", VALUES, "value 3\n0 branch machine @1 2\n1 leaf 90\n2 leaf 78\n", "order", [ORDER]),
    ("a kid that is its own branch", "1 leaf 78\n2 branch machine 0 1", "1 leaf 78\n2 branch machine 0 @2", "order", [ORDER]),
    ("a kid that branches on the same variable", VALUES, "value 4\n0 leaf 90\n1 leaf 78\n2 branch machine 0 1\n3 branch machine @2 1\n", "order", [ORDER]),
    ("a kid that is missing", "1 leaf 78\n2 branch machine 0 1", "1 leaf 78\n2 branch machine 0@", "expected", [MISSING]),
    ("a kid too many", "1 leaf 78\n2 branch machine 0 1", "1 leaf 78\n2 branch machine 0 1 @1", "expected", [NODE]),
    ("a kid's name", "1 leaf 78\n2 branch machine 0 1", "1 leaf 78\n2 branch machine @up 1", "number", ["the number of a node is digits"]),
    ("nodes from 1", VALUES, "value 3\n@1 leaf 90\n2 leaf 78\n3 branch machine 1 2\n", "expected", [NODE]),
    ("a count that is too small", VALUES + "policy", "value 2\n0 leaf 90\n1 leaf 78\n@2 branch machine 0 1\npolicy", "expected", ["`policy` with the number of nodes"]),
    ("a count that is too large", VALUES + "policy", VALUES.replace("3", "4") + "@policy", "expected", [NODE]),
    ("no count", "value 3", "value@", "expected", [MISSING]),
    ("no nodes", VALUES, "value @0\n", "number", ["Here stands `value`", "1 to 999999999"]),
    ("no policy", "policy 3\n0 leaf wait\n" + LAST, "@", "expected", ["`policy` with the number of nodes", "or `end`"]),
    ("another status", "status limit", "status @maybe", "expected", ["Here stands `status done` or `status limit`."]),
    ("a line that is missing", "turn 0\n", "@", "expected", ["Here stands `turn`"]),
    ("two spaces", "status limit", "status @ limit", "expected", [MISSING]),
    ("a space behind a line", "turn 0\n", "turn 0 @\n", "expected", [MISSING]),
    ("a blank at a line's beginning", "turn 0", "@ turn 0", "expected", [MISSING]),
    ("an empty line", "turn 0", "@\nturn 0", "expected", [MISSING]),
    ("a word too many", "residual 0.46", "residual 0.46 @exact", "expected", ["Here stands `residual`"]),
    ("a comment", "spd result 1", "@// by hand\nspd result 1", "expected", ["A certificate begins with the line `spd result 1` or `spd result 2`."]),
    ("a comment at the end", "end\n", "end\n@// by hand\n", "end", ["A certificate ends with the line `end`."]),
    ("another version", "result 1", "result @3", "expected", ["A certificate begins with the line"]),
    ("no file in version 2", "result 1\n", "result 2\n@", "expected", ["`model` with the SHA-256 of the model file"]),
    ("a short SHA-256", "result 1\n", "result 2\nmodel @f8db4172\n", "expected", ["64 digits"]),
]

# A certificate that doesn't hold: the name, the old text, the new one, and the line on standard output.
NO = [
    ("a residual that is too small", "residual 0.46", "residual 0.459999999", "no machine=down above repair"),
    ("a value that is too large", "0 leaf 90", "0 leaf 95", "no machine=up below wait"),
    ("a value that is too small", "0 leaf 90", "0 leaf 80", "no machine=up above wait"),
    ("the worse action", "1 leaf repair", "1 leaf wait", "no machine=down below wait"),
]

# What looks like a mistake in a certificate and is none.
HOLDS = [
    ("a residual with an exponent", "residual 0.46", "residual 1e3"),
    ("another turn", "turn 0", "turn 1000000"),
    ("an error that isn't computed", "error 4.6", "error 0"),
    ("another place", "at machine=down above repair", "at machine=up below wait"),
    ("equal kids", "1 leaf 78\n2 branch machine 0 1", "1 leaf 78\n2 branch machine 1 1\n3 branch machine 0 1"),
    ("a node that isn't reached", "0 leaf wait\n" + LAST, "0 leaf wait\n1 leaf repair\n2 branch machine 1 0\n3 branch machine 0 1\n"),
]


def changed(old, new, text=MACHINE):
    assert text.count(old) == 1, old
    return text.replace(old, new)


def with_count(text):
    """A certificate whose lines `value` and `policy` have the number of the lines behind them."""
    lines = text.split("\n")
    value, policy, end = (next(i for i, line in enumerate(lines) if line.startswith(word)) for word in ("value ", "policy ", "end"))
    lines[value], lines[policy] = "value %d" % (policy - value - 1), "policy %d" % (end - policy - 1)
    return "\n".join(lines)


def marked(text):
    """The bytes of a file, and the place of its mark."""
    data = text.encode("utf-8")
    at = data.index(b"@")
    return data[:at] + data[at + 1:], at


def edits():
    """Yields for each mistake: name, bytes, place or None, message, status, texts of a terminal."""
    for name, old, new, words, shown in REFUSED:
        data, at = marked(changed(old, new))
        yield name, data, at, "refused at byte %d: %s" % (at, words), 5, shown
    bom = b"\xef\xbb\xbf" + MACHINE.encode()
    yield "a byte order mark", bom, 0, "refused at byte 0: bad byte", 5, ["a byte order mark"]
    yield "UTF-16", MACHINE.encode("utf-16"), 0, "refused at byte 0: bad byte", 5, ["UTF-16"]
    yield "an empty file", b"", 0, "refused at byte 0: expected variables", 5, ["A file begins with its variables"]
    for name, old, new, message, shown in SUMS:
        yield name, changed(old, new).encode(), None, message, 6, shown
    yield "thirds", DIE.encode(), None, "sum of action mix, variable die at die=one is 0.999900000000", 6, ["0.0001 is missing", "0.333333333334"]
    for name, old, new in LAWFUL:
        yield name, changed(old, new).encode("utf-8"), None, None, 0, []


def named(data):
    """The certificate as one of version 2, of the model file with these bytes."""
    return changed("spd result 1\n", "spd result 2\nmodel %s\n" % hashlib.sha256(data).hexdigest(), CERT).encode()


def cert_edits():
    """Yields for each mistake in a certificate of MACHINE: name, bytes, place or None, line on standard output, message, status, texts of a terminal."""
    for name, old, new, words, shown in CERTS:
        data, at = marked(changed(old, new, CERT))
        yield name, data, at, "", "certificate refused at byte %d: %s" % (at, words), 10, shown
    crlf = CERT.replace("\n", "\r\n").encode()
    yield "ends of lines as elsewhere", crlf, 12, "", "certificate refused at byte 12: bad byte", 10, [ASCII]
    yield "an empty certificate", b"", 0, "", "certificate refused at byte 0: end", 10, [CUT]
    yield "a model file", MACHINE.encode(), 0, "", "certificate refused at byte 0: expected", 10, ["A certificate begins with the line"]
    own = MACHINE.encode()
    other = own + b"// another file\n"
    digests = [hashlib.sha256(data).hexdigest() for data in (other, own)]
    shown = ["below it that of model:", "\n    %s\n    %s\n" % tuple(digests), "Give the file that it is of."]
    yield "of another model file", named(other), None, "", "certificate is of another model", 16, shown
    yield "of another model file, and cut off", named(other)[:100], None, "", "certificate is of another model", 16, shown
    shown = ["one step more lies further from the value than the residual", "with a larger residual the same value and policy may hold"]
    for name, old, new, line in NO:
        yield name, changed(old, new, CERT).encode(), None, line, "certificate does not hold", 11, shown
    yield "its own model file", named(own), None, "yes", None, 0, []
    for name, old, new in HOLDS:
        yield name, with_count(changed(old, new, CERT)).encode(), None, "yes", None, 0, []
