"""Model files that are refused, each with the message's words, worked out by hand from docs/FORMAT.md.

In the text of a case a `@` marks the byte at which it is refused. The mark is taken out of the file. A case without a mark is lawful.
The last part holds model files that stand on a limit or at the edge of a rule and are lawful."""

HEAD = "(variables (x yes no))\n"
TWO = "(variables (x yes no) (y yes no))\n"
KEEP = "(x' (yes (1)) (no (0)))"
KEEP_Y = "(y' (yes (1)) (no (0)))"
ACTION = "action a\nx %s\nendaction\n" % KEEP
BOTH = "action a\nx %s y %s\nendaction\n" % (KEEP, KEEP_Y)
REWARD = "reward (x (yes (1)) (no (0)))\n"
REST = REWARD + "discount 0.5\ntolerance 0.1\n"
SETTINGS = "discount 0.5\ntolerance 0.1\n"
LONG = "n" * 64


def table(tree, variables=HEAD, rest=""):
    """A file whose only action has this table for x."""
    return variables + "action a\nx " + tree + rest + "\nendaction\n" + REST


def reward(part, head=HEAD):
    """A file with this reward."""
    return head + ACTION + "reward " + part + "\n" + SETTINGS


def dd(text, use=""):
    """A file with these decision diagrams and, in the reward, a use of one."""
    return HEAD + text + "\n" + ACTION + (("reward %s\n" % use) if use else REWARD) + SETTINGS


def nested(depth, inside):
    """A tree in which so many branches stand round `inside`."""
    return "(x (yes " * depth + inside + ") (no (0)))" * depth


def many(n, form):
    return " ".join(form % i for i in range(n))


def variables(n):
    return "(variables" + "".join(" (v%d a)" % i for i in range(n)) + ")"


def values(n):
    return " ".join("v%d" % i for i in range(n))


CASES = {
    "bad byte": [
        "@\x80", HEAD + "@\x00" + ACTION + REST, HEAD + ACTION + REST + "@\x7f", HEAD + "@\x0b" + ACTION + REST,
        "(variables (x y@\xe9s no))", "frob // \x80\n@\x01", HEAD + ACTION + "reward (x (ja (1)) (no (0)))\n@\x1b", "/@\x80",
    ],
    "expected variables": [
        "@", " // nothing\n@", "@variables (x yes no)", "@[variables", "(@variable (x yes no))", "(@(x yes no))", "(@", "(@Variables (x yes no))", "@)",
        "(@variables2 (x yes no))",
    ],
    "expected open": [
        "(variables @)", "(variables @x yes no)", "(variables @", "(variables @[x yes no])",
        HEAD + "dd d @0.5 enddd", HEAD + "dd d @", HEAD + "action a\nx @x\n", HEAD + "action a\nx @endaction", HEAD + "action a\ncost @5\n",
        HEAD + "reward @5", HEAD + "reward @", HEAD + "reward @)", HEAD + "reward [ + @]", HEAD + "reward [ + @5 ]", HEAD + "reward (x (yes @5))",
        HEAD + "action a\nx (x'@) endaction", HEAD + "action a\nx (x' @yes) endaction", HEAD + "action a\nx (x'@", HEAD + "action a\nx (x (yes @)",
    ],
    "expected close": [
        "(variables (x yes @(no)))", "(variables (x yes no@", "(variables (x yes @-no))", "(variables (x yes no) @y)", "(variables (x yes no)@",
        "(variables (x yes @n'o))", "(variables (x yes @[no))",
        HEAD + "reward (5 @6)", HEAD + "reward (5 @(yes (1)))", HEAD + "reward (5@", HEAD + "reward (x @yes)", HEAD + "reward (x@", HEAD + "reward (x @[yes (1)])",
        HEAD + "reward (x (yes (1) @(no (0))))", HEAD + "reward (x (yes (1) @no))", HEAD + "reward (x (yes (1)) @no)", HEAD + "reward (x (yes (1))@",
        HEAD + "reward [ + (1) @2 ]", HEAD + "reward [ + (1) @)", HEAD + "reward [ + (1)@", HEAD + "dd d (d @d) enddd",
    ],
    "expected name": [
        "(variables (@))", "(variables (@(x yes no)))", "(variables (@5 yes no))", "(variables (@-x yes no))", "(variables (x yes no) (@", "(variables (@x' yes no))",
        "(variables (@x.y yes no))", "(variables (@horizon yes no))", "(variables (@variables yes no))", "(variables (@cost yes no))",
        HEAD + "dd @(0)", HEAD + "dd @enddd (0) enddd", HEAD + "dd @", HEAD + "dd @5d (0) enddd", HEAD + "dd @d! (0) enddd",
        HEAD + "action\n@(x)", HEAD + "action @endaction", HEAD + "action@", HEAD + "action @action",
        HEAD + "action a\n@(x' (yes (1)))", HEAD + "action a\n@x' (x)", HEAD + "action a\n@", HEAD + "action a\n@reward (0)", HEAD + "action a\n@5 (0)\nendaction",
        HEAD + "reward (@)", HEAD + "reward (@(5))", HEAD + "reward (@'", HEAD + "reward (@dd)", HEAD + "reward (@horizon (yes (1)) (no (0)))", HEAD + "reward (@",
        HEAD + "action a\nx (@variables' (yes (1)))", HEAD + "action a\nx (@x'' (yes (1)))", HEAD + "reward (@*)", HEAD + "reward (@x.y)",
    ],
    "expected value": [
        "(variables (x @))", "(variables (x @(yes)))", "(variables (x @-yes no))", "(variables (x @", "(variables (x @.5 no))", "(variables (x @y!s no))",
        HEAD + "reward (x (@(1)))", HEAD + "reward (x (@))", HEAD + "reward (x (@", HEAD + "reward (x (@+yes (1)))", HEAD + "reward (x (@'yes' (1)))",
        HEAD + "action a\nx (x' (@y's (1)))",
    ],
    "expected section": [
        HEAD + "@", HEAD + "@(x)", HEAD + "@)", HEAD + "@enddd", HEAD + "@5", HEAD + "@Reward (0)", HEAD + "@cost (0)", HEAD + "@(",
        HEAD + REST + "@", HEAD + ACTION + SETTINGS + "@", HEAD + ACTION + REWARD + "tolerance 0.1\n@", HEAD + ACTION + REWARD + "discount 0.5@",
        HEAD + ACTION + REST + "@end", HEAD + ACTION + "@endaction\n" + REST, HEAD + "reward (0) @] " + ACTION, HEAD + "// reward (0)@",
        HEAD + "@variables (y yes no)",
    ],
    "expected plus": [
        HEAD + "reward [@", HEAD + "reward [ @(1) (2) ]", HEAD + "reward [ @plus (1) ]", HEAD + "reward [ @] ", HEAD + "reward [ @++ (1) ]", HEAD + "reward [ @min (1) ]",
        HEAD + "action a\ncost [ @/ (1) ]",
    ],
    "expected enddd": [
        HEAD + "dd d (0) @dd", HEAD + "dd d (0) @", HEAD + "dd d (0) @)", HEAD + "dd d (0) @enddd2", HEAD + "dd d (0) @(1) enddd", HEAD + "dd d (0) @endaction",
    ],
    "expected number": [
        HEAD + "discount @", HEAD + "discount @(0.5)", HEAD + "discount @)", HEAD + "tolerance @[", HEAD + "tolerance @", HEAD + "tolerance @(0)", HEAD + "horizon @(5)", HEAD + "horizon@",
        HEAD + "horizon @]",
    ],
    "not a number": [
        HEAD + "discount @half", HEAD + "tolerance @.", HEAD + "horizon @1e", HEAD + "horizon @ten", reward("(@5.5.5)"), reward("(@+)"), reward("(@-)"), reward("(@1e100)"),
        reward("(@--1)"), reward("(@5x)"), reward("(@.e1)"), table("(x' (yes (@1/2)) (no (0.5)))"), table("(x' (yes (@0x1)) (no (0)))"), reward("(@1'000)"),
        reward("(@1" + "0" * 37 + "1)"), HEAD + "discount @1e+", HEAD + "discount @0,5", reward("(@5yes (yes (1)))"), HEAD + "dd d (@1e1.5) enddd", HEAD + "tolerance @" + "1" * 39,
    ],
    "too fine": [
        table("(x' (yes (@0.1234567890123)) (no (0.8765432109877)))"), reward("(@0.0000000001)"), reward("(@1e-10)"), reward("[ + (1) (@-0.0000000001) ]"), HEAD + "discount @0.0000001",
        HEAD + "discount @0.9999999", HEAD + "tolerance @0.0000000001", HEAD + "tolerance @1e-10", HEAD + "horizon @0.5", HEAD + "horizon @1000.5", HEAD + "horizon @-0.5", HEAD + "horizon @5e-1",
        HEAD + "dd d (@0.0000000000001) enddd", HEAD + "action a\ncost (@0.0000000001)\n", reward("(@1000000000000000000.000000000001)"), HEAD + "discount @-1e-7",
        dd("dd d (0.0000000001) enddd", "(@d)"), dd("dd d (x (yes (0.0000000001)) (no (0))) enddd dd e (d) enddd", "(@e)"), dd("dd d (0.000000000001) enddd", "[ + (1) (@d) (d) ]"),
        HEAD + "dd d (1e-12) enddd\naction a\nx " + KEEP + " cost (x (yes (0)) (no (@d)))\nendaction\n" + REST,
    ],
    "too large": [
        HEAD + "discount @1", HEAD + "discount @1.0", HEAD + "discount @1e31", HEAD + "discount @-1e31", HEAD + "discount @1000000", HEAD + "horizon @1001", HEAD + "horizon @1e4", HEAD + "horizon @1e99",
        HEAD + "horizon @-1e31", HEAD + "tolerance @1e22", HEAD + "tolerance @-1e31", HEAD + "tolerance @1000000000000000000000.000000001", reward("(@1e19)"), reward("(@-1e19)"),
        reward("(@1000000000000000000.000000001)"), table("(x' (yes (@1e19)) (no (0)))"), table("(x' (yes (@-1e19)) (no (0)))"), HEAD + "dd d (@2e18) enddd", HEAD + "action a\ncost (@1e30)\n",
    ],
    "negative": [
        table("(x' (yes (@-0.5)) (no (1.5)))"), table("(x' (yes (1.5)) (no (@-0.5)))"), table("(@-1)"), HEAD + "discount @-0.5", HEAD + "discount @-1", HEAD + "discount @-1000",
        HEAD + "tolerance @-0.1", HEAD + "tolerance @-1e3", HEAD + "horizon @-1", HEAD + "horizon @-1001", HEAD + "horizon @-1e30",
        HEAD + "dd d (-1) enddd\naction a\nx (@d)\nendaction\n" + REST, HEAD + "dd d (x (yes (-1)) (no (1))) enddd dd e (x' (yes (d)) (no (0))) enddd\naction a\nx (@e)\nendaction\n" + REST,
        HEAD + "dd d (x' (yes (-0.000000000001)) (no (1))) enddd\naction a\nx (x (yes (@d)) (no (d)))\nendaction\n" + REST,
    ],
    "too many variables": [
        variables(100)[:-1] + " (@v100 a))", variables(100)[:-1] + " (@v0 a))", variables(100)[:-1] + " (@w", variables(100)[:-1] + " (@_ 5 6 7))",
    ],
    "too many values": [
        "(variables (x " + values(64) + " @v64))", "(variables (x " + values(64) + " @v0))", "(variables (y " + values(64) + ") (x " + values(64) + " @v64",
        "(variables (x a b c d e) " + many(3, "(v%d " + values(64) + ")") + " (y " + values(64) + " @v64))",
    ],
    "too many tests": [
        "(variables " + many(4, "(v%d " + values(64) + ")") + " (x " + values(5) + " @v5))", "(variables " + many(4, "(v%d " + values(64) + ")") + " (x a b c d) (y a b @c))",
        "(variables " + many(32, "(v%d " + values(9) + ")") + " (x a @b))", "(variables " + many(4, "(v%d " + values(64) + ")") + " (x a b c d e @f",
    ],
    "too many actions": [
        HEAD + many(64, "action a%d x (d) endaction") + " action @a64", HEAD + many(64, "action a%d endaction") + "\naction @a0 endaction", HEAD + many(64, "action a%d cost (0) endaction") + " reward (0) action @_",
    ],
    "too many dds": [
        HEAD + many(4096, "dd d%d (0) enddd") + " dd @d4096 (0) enddd", HEAD + many(4096, "dd d%d (0) enddd") + " dd @d0 (0) enddd", HEAD + many(4096, "dd d%d (0) enddd") + " " + ACTION + "dd @e",
    ],
    "too many name bytes": [
        "(variables (@" + LONG + "n yes no))", "(variables (x @" + LONG + "n no))", "(variables (x yes @" + LONG + "n))", HEAD + "dd @" + LONG + "n (0) enddd", HEAD + "action @" + LONG + "n",
        HEAD + "action a\n@" + LONG + "n (0)", HEAD + "reward (@" + LONG + "n)", HEAD + "action a\nx (@" + LONG + "n' (yes (1)))", HEAD + "reward (x (@" + LONG + "n (1)))",
        "(variables (@" + LONG + "* yes no))", "(variables (@" + LONG + "' yes no))", HEAD + "reward (@" + LONG + "'')", "(variables (x @5" + LONG + " no))", variables(100)[:-1] + " (@" + LONG + "n a))",
        "(variables (x " + values(64) + " @" + LONG + "n))",
    ],
    "too many nesting": [
        HEAD + "reward " + "(x (yes " * 300 + "@(0)", HEAD + "reward [ + " + "(x (yes " * 300 + "@(", HEAD + "action a\nx " + "(x' (yes " * 300 + "@(0)", HEAD + "dd d " + "(x (yes " * 300 + "@(d)",
        dd("dd d " + nested(299, "(0)") + " enddd", "(x (yes (@d)) (no (0)))"), dd("dd d " + nested(150, "(0)") + " enddd", nested(150, "(@d)")),
        dd("dd d " + nested(200, "(0)") + " enddd\ndd e " + nested(100, "(@d)") + " enddd"), dd("dd d " + nested(200, "(0)") + " enddd\ndd e " + nested(99, "(d)") + " enddd\ndd f (x (yes (@e)) (no (d))) enddd"),
        HEAD + "dd d " + nested(298, "(0)") + " enddd\naction a\nx (x (yes (d)) (no (x' (yes (@d)) (no (0)))))\nendaction\n" + REST,
    ],
    "left out": [
        HEAD + "@init", HEAD + "@unnormalized reward (0)", HEAD + "(@observations (o yes no))", HEAD + ACTION + "(@observations", HEAD + "action a\n@observe", HEAD + "action a\nx " + KEEP + " @observe o (0)",
        HEAD + "reward [ @* (1) (2) ]", HEAD + "reward [ @- (1) (2) ]", HEAD + "reward [ @max (1) (2) ]", HEAD + "action a\ncost [@max (1)]", HEAD + "reward [@*", HEAD + "reward [ @-]",
        HEAD + ACTION + REST + "@init", HEAD + ACTION + REST + "// init\n@unnormalized", HEAD + "( // observations\n@observations",
    ],
    "unknown name": [
        reward("(@y (yes (1)) (no (0)))"), reward("(@d)"), reward("(@x)"), reward("(x (yes (1)) (no (0)) (@ja (1)))"), reward("(x (no (0)) (@yes2 (0)) (yes (1)))"), reward("(x (yes (1)) (@Yes (0)) (no (0)))"),
        table("(@y' (yes (1)) (no (0)))"), table("(x' (@nein (0)) (yes (1)) (no (0)))"), HEAD + "action a\nx " + KEEP + " @y (0)\nendaction\n" + REST, HEAD + "action a\n@y (y' (yes (1)) (no (0)))\nendaction\n" + REST,
        dd("dd d (@d) enddd"), dd("dd d (@e) enddd\ndd e (0) enddd"), dd("dd d (x (yes (@y (yes (1)) (no (0)))) (no (0))) enddd"), HEAD + ACTION + "reward (@d)\ndd d (0) enddd\n" + SETTINGS,
        HEAD + "action a\nx " + KEEP + " cost (@fee)\nendaction\n" + REST, reward("(x (@no2 (0)) (no (0)) (yes (0)))"), reward("(x (no (1)) (@x (0)) (yes (2)))"), reward("(@a)"), reward("(@yes (x (1)))"),
        reward("[ + (x (yes (1)) (no (0))) (@z) ]"),
    ],
    "twice": [
        "(variables (x yes no) (@x yes no))\n" + ACTION + REST, "(variables (x yes @yes))\naction a x (0) endaction\n" + REST, "(variables (x yes no @yes no))\n" + ACTION + REST,
        "(variables (x yes no) (y a b @a))\n" + BOTH + REST, dd("dd d (0) enddd dd @d (1) enddd"), HEAD + ACTION + "action @a x (0) endaction\n" + REST, HEAD + ACTION + REST + "@reward (0)",
        HEAD + ACTION + REST + "@discount 0.5", HEAD + ACTION + REST + "@tolerance 5", HEAD + ACTION + REST + "horizon 5 @horizon 5", HEAD + ACTION + REWARD + "discount 0.5 horizon 3\n@horizon 4",
        HEAD + "action a\nx " + KEEP + " cost (1) @cost (2)\nendaction\n" + REST, HEAD + "action a\nx " + KEEP + " @x " + KEEP + "\nendaction\n" + REST,
        reward("(x (yes (1)) (@yes (0)) (no (0)))"), reward("(x (yes (1)) (no (0)) (@no (2)))"), table("(x' (yes (0.5)) (no (0.5)) (@yes (0)))"), reward("(x (no (0)) (yes (1)) (@yes (0)))"),
    ],
    "missing branch": [
        reward("(@x (yes (1)))"), reward("(@x (no (1)))"), table("(@x' (yes (1)))"), table("(x (yes (x' (yes (1)) (no (0)))) (no (@x' (no (1)))))"),
        "(variables (x a b c))\naction a x (@x' (a (0.5)) (c (0.5))) endaction\n" + REST, dd("dd d (x (yes (@x' (yes (1)))) (no (0))) enddd"),
        reward("(@x (yes (1)) (yes (2)))"), reward("(@x (ja (1)) (no (0)))"), reward("(@x (no2 (0)))"), reward("[ + (0) (@x (yes (d))) ]"), table("(@x' (no (1)))", TWO, " y " + KEEP_Y),
    ],
    "missing variable": [
        HEAD + "action a\n@endaction\n" + REST, HEAD + "action a\ncost (1)\n@endaction\n" + REST, TWO + "action a\nx " + KEEP + "\n@endaction\n" + REST, TWO + "action a\ny " + KEEP_Y + "\n@endaction\n" + REST,
        HEAD + ACTION + "action b @endaction\n" + REST, TWO + BOTH + "action b y " + KEEP_Y + " @endaction\n" + REST, TWO + "action a\n@endaction // all\n" + REST,
    ],
    "primed name": [
        reward("(@x' (yes (1)) (no (0)))"), reward("[ + (0) (x (yes (@x' (yes (1)) (no (0)))) (no (0))) ]"), HEAD + "action a\nx " + KEEP + " cost (@x' (yes (1)) (no (0)))\nendaction\n" + REST,
        TWO + "action a\nx " + KEEP + " y (@x' (yes (0.5)) (no (0.5)))\nendaction\n" + REST, TWO + "action a\ny (@x' (yes %s) (no %s)) x %s\nendaction\n" % (KEEP_Y, KEEP_Y, KEEP) + REST,
        "(variables (y yes no) (x yes no))\naction go\nx (@y' (yes (x' (yes (1)) (no (0)))) (no (x' (yes (0)) (no (1)))))\ny (y' (yes (1)) (no (0)))\nendaction\n" + REST,
        dd("dd d " + KEEP + " enddd", "(@d)"), dd("dd d " + KEEP + " enddd dd e (x (yes (d)) (no (0))) enddd", "[ + (0) (@e) ]"),
        TWO + "dd d " + KEEP + " enddd\naction a\nx (d) y (@d)\nendaction\n" + REST, TWO + "dd d (y' (yes (x' (yes (1)) (no (0)))) (no (0))) enddd\naction a\ny (@d) x (d)\nendaction\n" + REST,
        HEAD + "dd d (x (yes (x' (yes (1)) (no (1)))) (no (1))) enddd\naction a\nx (d) cost (@d)\nendaction\n" + REST,
    ],
}

# Which of two faults is told.
ORDER = {
    "bad byte": ["(frob @\x80", HEAD + "init @\x07", HEAD + ACTION + "reward (y (yes (1)))\n" + SETTINGS + "@\xff"],
    "expected section": [HEAD + ACTION + "reward (d)\n" + SETTINGS + "@more", "(variables (x yes yes))\n" + ACTION + REST + "@5"],
    "expected close": ["(variables (x yes yes) (x no no @(", HEAD + "reward (x (yes (d)) (ja (e)) @5)"],
    "expected variables": ["@frob (variables (x x))"],
    "expected name": ["(variables (@5" + LONG + "n yes no))", "(variables (@-" + LONG + " yes no))", variables(100)[:-1] + " (@5 a))", HEAD + "reward (@'" + LONG + ")"],
    "not a number": [HEAD + ACTION + "reward (y (yes (1)) (no (@1x)))\n" + SETTINGS],
    "too fine": [dd("dd d (x' (yes (0.0000000001)) (no (0))) enddd", "(@d)"), dd("dd d " + nested(299, "(-1e-12)") + " enddd", "(x (yes (@d)) (no (0)))")],
    "negative": [TWO + "dd d (x' (yes (-1)) (no (2))) enddd\naction a\nx (x' (yes (1)) (no (0))) y (@d)\nendaction\n" + REST],
    "too many nesting": [dd("dd d " + nested(298, "(x' (yes (0)) (no (0)))") + " enddd", "(x (yes (@d)) (no (0)))")],
    "unknown name": [reward("(@y' (ja (1)) (ja (0)))"), reward("(@z (yes (x' (yes (1)))))"), HEAD + "action a\n@y (0) y (0)\nendaction\nreward (d)\n" + SETTINGS],
    "twice": [HEAD + ACTION + REST + "@reward (y)", HEAD + ACTION + REST + "@tolerance 5 horizon 2 horizon 3", "(variables (x yes @yes yes))\n" + ACTION + REST],
    "missing branch": [reward("(@x (a (0)) (no (0)))"), reward("(@x' (yes (1)))"), TWO + "action a\nx " + KEEP + " y (@x' (no " + KEEP_Y + "))\nendaction\n" + REST],
    "too many name bytes": ["(variables (x " + values(64) + " @" + LONG + "n))", HEAD + many(64, "action a%d endaction") + " action @" + LONG + "n"],
}

LAWFUL = {
    "a comment first, last and without LF": "// \x80\x00\xff first\n" + HEAD + ACTION + REST + "// no LF at the end \x01\xfe",
    "a comment between each two tokens": (HEAD + ACTION + REST).replace(" ", " //c)(\n"),
    "a word that ends at a comment": (HEAD + ACTION + REST).replace("yes no))", "yes no//(\n))").replace("0.5\n", "0.5//\n"),
    "CR and LF": (HEAD + ACTION + REST).replace("\n", "\r\n"),
    "tabs, and no blank that could go": (HEAD + ACTION + REST).replace(") (", ")(").replace("\n", "\t").replace(" (", "("),
    "all on one line": (HEAD + ACTION + REST).replace("\n", " "),
    "names of 64 bytes": (HEAD + ACTION + REST).replace("x", LONG).replace("yes", "5" + LONG[1:]).replace("action a", "action " + "_" * 64),
    "names of each form": (HEAD + ACTION + REST).replace("x", "_a-Z_9-").replace("yes", "0.5-._").replace("no)", "NO)").replace("(no", "(NO").replace("action a", "action A-"),
    "values that are reserved words": (HEAD + ACTION + REST).replace("yes", "reward").replace("no)", "dd)").replace("(no", "(dd"),
    "names of the four kinds may be the same": "(variables (a a b))\ndd a (a (a (1)) (b (0))) enddd\naction a\na (a' (a (1)) (b (0)))\nendaction\nreward (a)\n" + SETTINGS,
    "words of sections that are left out, as names": (HEAD + ACTION + REST).replace("x", "init").replace("action a", "action observe"),
    "a section's name in another case": (HEAD + ACTION + REST).replace("x", "Reward"),
    "branches in any order": (HEAD + ACTION + REST).replace("(yes (1)) (no (0))", "(no (0)) (yes (1))"),
    "sections in another order": HEAD + "tolerance 0.1 " + REWARD + ACTION + "discount 0.5\n",
    "items in another order": TWO + "action a\ncost (0.5) y %s x %s\nendaction\n" % (KEEP_Y, KEEP) + REST,
    "a dd that nothing uses": dd("dd d (x' (yes (-1e-12)) (no (5))) enddd"),
    "a dd of a dd of a dd": dd("dd d (x (yes (1)) (no (0))) enddd dd e (d) enddd dd f (x (yes (e)) (no (d))) enddd", "(f)"),
    "a dd behind an action": HEAD + ACTION + "dd d (2) enddd\nreward (d)\n" + SETTINGS,
    "numbers of each form": HEAD + "action a\nx (x' (yes (.5)) (no (5e-1)))\nendaction\nreward (x (yes (+2.)) (no (-0)))\ndiscount 00.5\ntolerance 1E-1\n",
    "a number of 38 digits": HEAD + ACTION + "reward (x (yes (000000000.00000000000000000000000000000000000000000)) (no (1.00000000000000000000000000000000000000000000)))\n" + SETTINGS,
    "the finest numbers": HEAD + "action a\nx (x' (yes (0.000000000001)) (no (0.999999999999)))\nendaction\nreward (0.000000001)\ndiscount 0.000001\ntolerance 0.000000001\n",
    "a table with a number above one, that no state reaches": HEAD + "dd d (x (yes (x (no (5)) (yes (x' (yes (1)) (no (0)))))) (no " + KEEP + ")) enddd\naction a\nx (d)\nendaction\n" + REST,
    "a discount and a tolerance of 0": HEAD + ACTION + REWARD + "discount 0 tolerance 0",
    "the greatest discount": HEAD + ACTION + "reward (0)\ndiscount 0.999999\ntolerance 0\n",
    "the greatest tolerance": HEAD + ACTION + REWARD + "discount 0.5 tolerance 1e21",
    "a sum of one part": reward("[ + (x (yes (1)) (no (0))) ]"),
    "a sum whose brackets touch": reward("[+(1)(2)(-3)]"),
    "a cost of some parts": HEAD + "action a\nx " + KEEP + "\ncost [+ (0.25) (x (yes (0)) (no (0.5)))]\nendaction\n" + REST,
    "a variable of one value": "(variables (x only))\naction a\nx (x' (only (1)))\nendaction\nreward (5)\ndiscount 0.5\ntolerance 100\n",
    "a horizon and a tolerance": HEAD + ACTION + REST + "horizon 5\n",
    "a horizon of 0": HEAD + ACTION + REST + "horizon 0\n",
    "a horizon of 1,000": HEAD + ACTION + "horizon 1e3\n" + REST,
    "a horizon without a tolerance": HEAD + ACTION + "reward (0)\ndiscount 0.5\nhorizon 3.0\n",
    "100 variables": variables(100) + "\naction a " + many(100, "v%d (1)") + " endaction\nreward (0)\n" + SETTINGS,
    "64 values": "(variables (x " + values(64) + "))\naction a\nx (x' " + many(64, "(v%d (0.015625))") + ")\nendaction\nreward (0)\n" + SETTINGS,
    "256 tests": "(variables " + many(4, "(w%d " + values(64) + ")") + " (x " + values(5) + "))\naction a " + many(4, "w%d (0.015625)") + " x (0.2) endaction\nreward (0)\n" + SETTINGS,
    "64 actions": HEAD + many(64, "action a%d x " + KEEP.replace("%", "%%") + " endaction") + "\n" + REST,
    "4,096 dds": HEAD + many(4096, "dd d%d (0.5) enddd") + "\naction a x (d4095) endaction\n" + REST,
    "nesting of 300": reward(nested(299, "(0)")),
    "nesting of 300 through a name": dd("dd d " + nested(149, "(0)") + " enddd", nested(150, "(d)")),
    "nesting of 300 through two names": dd("dd d " + nested(100, "(0)") + " enddd dd e " + nested(99, "(d)") + " enddd", nested(100, "(e)")),
    "an arc to a later variable": TWO + "action a\nx (y' (yes %s) (no (x' (yes (0)) (no (1))))) y %s\nendaction\n" % (KEEP, KEEP_Y) + REST,
    "an arc through a dd": TWO + "dd d (y' (yes %s) (no (0.5))) enddd\naction a\nx (d) y %s\nendaction\n" % (KEEP, KEEP_Y) + REST,
    "a sum that isn't one": HEAD + "action a\nx (x' (yes (0.5)) (no (0.6)))\nendaction\n" + REST,
    "a reward above 10^9": reward("[ + (1000000000) (0.000000001) ]"),
}


def cases():
    """Each case as its name, its file's bytes, and the message's words, None where it is lawful."""
    for kinds in (CASES, ORDER):
        for words, texts in kinds.items():
            for number, text in enumerate(texts):
                assert text.count("@") == 1, (words, number, text.count("@"))
                data = text.encode("latin-1")
                at = data.index(b"@")
                title = words if kinds is CASES else words + ", before another fault"
                yield "%s, %d" % (title, number + 1), data[:at] + data[at + 1:], "at byte %d: %s" % (at, words)
    for name, text in LAWFUL.items():
        yield name, text.encode("latin-1"), None
