"""What armc-expand and the tools do with templates: each production, each refusal with its place, the page, random templates beside a second
expansion by plain recursion, and whole runs. Usage: tests/templates.py [PROGRAM] [NAME..], or PROGRAM COUNT [SEED] for so many random templates.
"""
import glob
import itertools
import operator
import os
import random
import re
import signal
import subprocess
import sys
import tempfile

import support
from support import SECONDS, TOOLS, call, differs, main, on_terminal, read, run, spent, till, to_full_device, tool_words, without_comments, write, write_all, wrong_refusal
from refusals import text_of
from armc_tools.expansion import Unknown, Written, expand, expanded_cases
from armc_tools.templates import RESERVED, Fault, value_of

# In the gate so many random templates are tried, and none may take longer than this.
RANDOM, LONGEST = 300, 30
HEAD = "protocol p\narray P { a b }\n"
UNKNOWN = HEAD + "for i in 0 .. 2 { rule r{i} { P: at x{i} -> a; } }\n"


def example(name):
    return support.example("templates", name)


def answer(text, **given):
    """What a template writes, without comments; or how it is refused."""
    try:
        return "".join(line + "\n" for line in expand("t.armct", text.encode(), given).text.splitlines() if not line.startswith("#"))
    except (Fault, Unknown) as fault:
        return f"template: {fault}"


# Each production: what stands in the place of the third line, and what is written for it.
PRODUCTIONS = (
    ("let n = 2 cell S{n} { x }", "cell S2 { x }"),
    ("let R = { x y } cell S { R z }", "cell S { x y z }"),
    ("let R = { } let Q = { R x } let T = Q cell S { T }", "cell S { x }"),
    ("let R = { for i in 0 .. 3 { x{i} } } cell S { R }", "cell S { x0 x1 x2 }"),
    ("for i in 1 .. 3 { cell S{i} { x } }", "cell S1 { x }\ncell S2 { x }"),
    ("for x in { u v } { cell S_{x} { x{x}1 } }", "cell S_u { xu1 }\ncell S_v { xv1 }"),
    ("let R = { u v } for x in R { for y in R { if x != y { cell S_{x}{y} { w } } } }", "cell S_uv { w }\ncell S_vu { w }"),
    ("for q in { a b } { if q != a { cell S_{q} { x } } if b == q { cell T_{q} { x } } if q == c { cell U { x } } }", "cell S_b { x }\ncell T_b { x }"),
    ("for i in 2 .. 2 { cell S { x } } for i in 3 .. 1 { cell S { x } } for x in { } { cell S { x } }", ""),
    ("for i in 0 .. 6 { if i % 2 == 1 { if i >= 3 { cell S{i} { x } } } }", "cell S3 { x }\ncell S5 { x }"),
    ("if 1 < 2 { if 2 <= 2 { if 3 > 2 { if 2 >= 2 { if 1 != 2 { if 2 == 2 { cell S { x } } } } } } }", "cell S { x }"),
    ("if 2 < 2 { cell A { x } } if 3 <= 2 { cell B { x } } if 2 > 2 { cell C { x } } if 1 >= 2 { cell D { x } }", ""),
    ("cell S{1 + 2 * 3 - 4 % 3 * (5 - 3)}_{(0 - 1) % 5}z { x }", "cell S5_4z { x }"),
    ("cell S{10 - 3 - 2} { x{ 2 * 3 % 4 } }", "cell S5 { x2 }"),
    ("cell C { u }\nchannel D { u }\nstack E { u }", "cell C { u }\nchannel D { u }\nstack E { u }"),
    ("cell S { let k = 2 let j = k + 1 x{j} }", "cell S { x3 }"),
    ("cell S { 0 } for i in 0 .. 1 { init { S: i; } }", "cell S { 0 }\ninit { S: 0; }"),
    ("init { } bad { }", "init { }\nbad { }"),
    ("init { P: empty; } init { P: for i in 0 .. 0 { a }; }", "init { P: empty; }\ninit { P: empty; }"),
    ("init { P: a a* b+ any any* any+ { a b } { a }* { }+; }", "init { P: a a* b+ any any* any+ { a b } { a }* { }+; }"),
    ("for i in 0 .. 2 { cell S{i} { x } } init { for i in 0 .. 2 { S{i}: x; } P: a; }", "cell S0 { x }\ncell S1 { x }\ninit { S0: x; S1: x; P: a; }"),
    ("bad { P: for i in 0 .. 2 { any* a } any*; }", "bad { P: any* a any* a any*; }"),
    ("rule r { } for i in 0 .. 2 { rule r{i} { P: at a -> b; } }", "rule r { }\nrule r0 { P: at a -> b; }\nrule r1 { P: at a -> b; }"),
    ("cell S { x } rule r { for q in { P } { q: at a -> b; } if 1 == 1 { S: set x -> x; } }", "cell S { x }\nrule r { P: at a -> b; S: set x -> x; }"),
    ("rule r { P: at a -> b when all left in { a } when some others in { for x in { a b } { x } } map { a -> b; }; }",
     "rule r { P: at a -> b when all left in { a } when some others in { a b } map { a -> b; }; }"),
    ("rule r { P: at a -> b for i in 0 .. 2 { when some right in { a } } if 1 > 2 { when all left in { } }; }",
     "rule r { P: at a -> b when some right in { a } when some right in { a }; }"),
    ("rule r { P: at a -> b map { { a b } -> a; }; } rule s { P: at a -> b map { any -> same; }; } rule t { P: at a -> b map { for x in { b } { x -> a; } }; }",
     "rule r { P: at a -> b map { a -> a; b -> a; }; }\nrule s { P: at a -> b map { a -> a; b -> b; }; }\nrule t { P: at a -> b map { b -> a; }; }"),
    ("rule r { P: at a -> b map { }; } rule s { P: at a -> b map { if 1 == 2 { a -> b; } }; }", "rule r { P: at a -> b; }\nrule s { P: at a -> b; }"),
    ("rule r { P: at { a b } -> same; }", "rule r_a { P: at a -> a; }\nrule r_b { P: at b -> b; }"),
    ("rule r { P: at any -> a when all left in { a }; }", "rule r_a { P: at a -> a when all left in { a }; }\nrule r_b { P: at b -> a when all left in { a }; }"),
    ("rule r { P: at a -> { a b }; }", "rule r_a { P: at a -> a; }\nrule r_b { P: at a -> b; }"),
    ("rule r { P: at { } -> a; }", ""),
    ("rule r { P: pair a { a b } -> b same; }", "rule r_a { P: pair a a -> b a; }\nrule r_b { P: pair a b -> b b; }"),
    ("rule r { P: ring { a b } { b a } -> a same; }",
     "rule r_a_b { P: ring a b -> a b; }\nrule r_a_a { P: ring a a -> a a; }\nrule r_b_b { P: ring b b -> a b; }\nrule r_b_a { P: ring b a -> a a; }"),
    ("rule r { P: two a b -> any a; }", "rule r_a { P: two a b -> a a; }\nrule r_b { P: two a b -> b a; }"),
    ("cell S { x y } rule r { S: set { x } -> y; P: at any -> b; }", "cell S { x y }\nrule r_x_a { S: set x -> y; P: at a -> b; }\nrule r_x_b { S: set x -> y; P: at b -> b; }"),
    ("cell S { x } rule r { S: set x -> same; P: pair a b -> same same; }", "cell S { x }\nrule r { S: set x -> x; P: pair a b -> a b; }"),
    ("channel C { m n } rule r { C: send any; } rule s { C: recv { n m }; }",
     "channel C { m n }\nrule r_m { C: send m; }\nrule r_n { C: send n; }\nrule s_n { C: recv n; }\nrule s_m { C: recv m; }"),
    ("stack K { m n } rule r { K: pop any push same m same; } rule s { K: pop m; } rule t { K: push for i in 0 .. 2 { n }; }",
     "stack K { m n }\nrule r_m { K: pop m push m m m; }\nrule r_n { K: pop n push n m n; }\nrule s { K: pop m; }\nrule t { K: push n n; }"),
    ("stack K { m } rule r { K: pop m push if 1 == 2 { m }; }", "stack K { m }\nrule r { K: pop m; }"),
    ("for x in { a b } { rule r_{x} { P: at { x }-> { a }when all left in{x}map{a->x;}; } }",
     "rule r_a_a_a { P: at a -> a when all left in { a } map { a -> a; }; }\nrule r_b_b_a { P: at b -> a when all left in { b } map { a -> b; }; }"),
    ("cell S{1}{2} { x{1}y{2}z } rule r{1} { P: at a -> b; }", "cell S12 { x1y2z }\nrule r1 { P: at a -> b; }"),
    ("cell {1}S { {1} {2}x {3}{4}y for i in 5 .. 6 { {i} } }\nrule {0}{1} { {1}S: set {2}x -> {3}{4}y; P: at a -> b map { {9 - 9}a -> {1 - 1}a; {9 - 9}b -> {0}; }; }",
     "cell 1S { 1 2x 34y 5 }\nrule 01 { 1S: set 2x -> 34y; P: at a -> b map { 0a -> 0a; 0b -> 0; }; }"),
    ("for x in { P } { init { {x}: a { {1}x {2} }* {1}{2}+ {1}; } rule r { {x}: pair {0} {1}a -> {2}b {3}; } }",
     "init { P: a { 1x 2 }* 12+ { 1 }; }\nrule r_0_3 { P: pair 0 1a -> 2b 3; }"),
    ("cell S { x } init{P:a;S:x;} rule r { P:at a->b when all left in{a}map{a->b;}; } # a comment", "cell S { x }\ninit { P: a; S: x; }\nrule r { P: at a -> b when all left in { a } map { a -> b; }; }"),
)
# The same with a head of language 2.
PRODUCTIONS_2 = (
    ("rule r { P: spawn any; } rule s { P: exit { b }; }", "rule r_a { P: spawn a; }\nrule r_b { P: spawn b; }\nrule s_b { P: exit b; }"),
    ("lossy channel C { m n } rule r { C: lose any; } rule s { C: lose m; } rule t { C: lose { for x in { m n } { x } }; }",
     "lossy channel C { m n }\nrule r { C: lose any; }\nrule s { C: lose m; }\nrule t { C: lose { m n }; }"),
)


def productions(_):
    """Each production, variables before the head, values that are given, and the grammar of the page in the examples above."""
    wrong = []
    for head, rows in ((HEAD, PRODUCTIONS), (HEAD.replace("protocol p", "protocol p language 2"), PRODUCTIONS_2)):
        for text, wanted in rows:
            wrong += differs(text, answer(f"{head}{text}\n"), f"{head}{wanted}\n" if wanted else head)
    text = "let n = 2 let m = n + 1 let R = { a } protocol p{n}_{m} let q = 7 array P { R x{q} }"
    for given, wanted in (({}, ("p2_3", "a x7")), ({"n": 5}, ("p5_6", "a x7")), ({"m": 0, "q": 1}, ("p2_0", "a x1")), ({"R": ("b", "c")}, ("p2_3", "b c x7")), ({"R": ()}, ("p2_3", "x7"))):
        wrong += differs(f"with {given}", answer(text, **given), f"protocol {wanted[0]}\narray P {{ {wanted[1]} }}\n")
    for given, wanted in (({"R": 1}, "R is a list of names in the template"), ({"n": ("a",)}, "n is a number in the template"),
                          ({"z": 1}, "the template has no variable z at its top, but n, m, R, q")):
        wrong += differs(f"with {given}", answer(text, **given), f"template: {wanted}")
    for word, wanted in (("n=3", ("n", 3)), ("R={a b}", ("R", ("a", "b"))), ("R={}", ("R", ())), ("n=", None), ("n=-1", None), ("3=3", None), ("n=1000000001", None),
                         ("n=99999999999", None), ("for=3", None), ("R={all}", None), ("R={a any}", None), ("R={a-b}", None), ("R={a", None), ("=3", None), ("n=3 ", None), (f"R={{{'a' * 33}}}", None)):
        wrong += differs(f"the value {word}", value_of(word), wanted)
    return wrong


def refusals(_):
    """Each row of the page's table and of tests/rows; that they have each refusal of the sources; and that none takes long."""
    rows = read("docs", "TEMPLATES.md") + read("tests", "rows", "templates.md")
    wrong, table = [], re.findall(r"^\| (.*) \| `(template: line \d+ column \d+: .*)` \|$", rows, re.M)
    for cell, told in table:
        began = spent()
        wrong += differs(cell, answer(HEAD + text_of(cell)), told)
        wrong += [f"{cell} takes {spent() - began:.1f} s of processor time"] if spent() - began > LONGEST else []
    # (the words of each message before its first value)
    messages = re.findall(r'(?:self\.fault|Fault)\([\w.\[\]]+, f?"((?:[^"{]|\{what\})+)', read(os.path.join(TOOLS, "armc_tools", "expansion.py")) + read(os.path.join(TOOLS, "armc_tools", "templates.py")))
    kept = ("too many bytes", "there is no section", "the template has more", "there are two values")
    shown = [told for _, told in table] + [message for message in messages if message.startswith(kept)]
    for message in set(messages):
        pattern = re.escape(message.strip()).replace(r"\{what\}", r"[a-z ]+")
        wrong += [] if any(re.search(pattern, told) for told in shown) else [f"no row has the refusal {message!r}"]
    wrong += differs("no section", answer("# nothing\nlet n = 0\nprotocol p\nfor i in 0 .. n { cell S { x } }\ninit { }\n"), "template: line 3 column 1: there is no section, and a protocol has at least one")
    long = "let L = { " + "n" * 32 + " } let R = { " + "L " * 256 + "}\ninit { P: { " + "R " * 130 + "}; }\n"
    wrong += differs("a text that is too long", answer(HEAD + long), "template: line 4 column 1: too many bytes: a protocol has at most 1048576")
    wrong += differs("a template that is too long", answer(" " * (1 << 20) + "x"), "template: line 1 column 1: the template has more than 1048576 bytes")
    comments = "".join(f"# {'c' * 1000}\n" for _ in range(1040)) + HEAD + "for i in 0 .. 256 { rule r{i} { } }\n"
    return wrong + differs("long comments", answer(comments), "template: line 1 column 1: too many bytes with the comments: a protocol has at most 1048576")


def page(_):
    """The page's templates write what stands below them, its example is the file, its list of examples is the folder, and its words are reserved."""
    text, wrong = read("docs", "TEMPLATES.md"), []
    blocks = [block for block in re.findall(r"^```\n(.*?)^```$", text, re.M | re.S) if re.search(r"^protocol \w", block, re.M)]
    for template, written in zip(blocks[::2], blocks[1::2]):
        wrong += differs(template, answer(template), without_comments(written))
    kept = read(example("permits.armct"))
    wrong += [] if kept.endswith(blocks[0]) else ["the first template of the page is not examples/templates/permits.armct"]
    told = expand("permits.armct", kept.encode(), {}).text
    wrong += differs("what the first template writes", told[told.index("# from"):], blocks[1])
    named = re.findall(r"^\| `(\w+)` \|", text.partition("## Examples")[2].partition("\n## ")[0], re.M)
    wrong += differs("the examples", sorted(named), sorted(os.path.basename(path)[:-6] for path in glob.glob(example("*.armct"))))
    language = re.search(r"The reserved words are (.*?)\.(?: |$)", read("docs", "LANGUAGE.md"), re.M)[1]
    more = re.search(r"The words (.*?) are reserved too", text)[1]
    wrong += differs("the reserved words", RESERVED, frozenset(re.findall(r"`(\w+)`", language + more)))
    listed = re.findall(r"\(\?!\(\?:([\w|]+)\)", read("editors", "textmate", "armct.tmLanguage.json"))[0].split("|")
    wrong += differs("the words of the TextMate file", frozenset(listed), RESERVED)
    grammar = re.search(r"^## Grammar$.*?^```\n(.*?)^```$", text, re.M | re.S)[1]
    unused = [word for word in re.findall(r'"([a-z]+)"', grammar) if word not in RESERVED]
    unmet = [word for word in sorted(RESERVED) if f'"{word}"' not in grammar]
    used = " ".join(row[0] for row in PRODUCTIONS + PRODUCTIONS_2) + HEAD
    untried = [word for word in re.findall(r'"([a-z]+)"', grammar) if word in RESERVED and not re.search(rf"\b{word}\b", used) and word != "language"]
    return wrong + [f"the grammar of the page: {words}" for words in (unused, unmet, untried) if words]


def places(_):
    """What armc refuses of a written protocol is told of the place in the template: the first letter of each word comes from its word."""
    wrong = []
    for path in sorted(glob.glob(example("*.armct"))):
        text = read(path)
        lines, written = text.splitlines(), expand(path, text.encode(), {})
        for number, line in enumerate(written.text.splitlines(), 1):
            for match in re.finditer(r"\w+|->|[{}:;*+]", "" if line.startswith("#") else line):
                place = written.place(number, match.start() + 1)
                # A word stands at its place, or a name that has it as its value or in a hole; a sign stands at the word that it belongs to.
                there = lines[place.line - 1][place.column - 1:]
                if match[0] in RESERVED and not there.startswith(match[0]) and match[0] not in ("push", "map", "empty", "language", "in", "channel"):
                    wrong.append(f"{os.path.basename(path)}: {match[0]} of line {number} is told at {there[:20]!r}")
                if not re.match(r"\w|[{:;*+>-]", there):
                    wrong.append(f"{os.path.basename(path)}: {match[0]} of line {number} is told at {there[:20]!r}")
    text = HEAD + "for i in 0 .. 2 { rule r{i} { P: at a -> x{i}; } }\n"
    written = expand("t.armct", text.encode(), {})
    return wrong + differs("an unknown letter", written.told("armc: protocol: line 5 column 22: unknown x0\n"), "template: line 3 column 42: unknown x0")


# The second expansion, by plain recursion over tokens.

def tokens_of(text):
    """The words and signs of a text, each with whether it stands right behind the one before."""
    found, end = [], 0
    for match in re.finditer(r"\s+|#[^\n]*|(\w+|->|\.\.|[=!<>]=|.)", text):
        if match[1]:
            found.append((match[1], match.start() == end))
            end = match.end()
    return found


def closing(tokens, at):
    """The number of the brace or parenthesis that closes the one before `at`."""
    depth = 1
    while depth:
        depth += {"{": 1, "(": 1, "}": -1, ")": -1}.get(tokens[at][0], 0)
        at += 1
    return at - 1


def computed(tokens, values):
    """The value of an expression of these tokens, by its last sign outside of parentheses that binds least."""
    for signs in (("+", "-"), ("*", "%")):
        depth = 0
        for at in range(len(tokens) - 1, -1, -1):
            depth += {")": 1, "(": -1}.get(tokens[at][0], 0)
            if depth == 0 and tokens[at][0] in signs:
                left, right = computed(tokens[:at], values), computed(tokens[at + 1:], values)
                return {"+": left + right, "-": left - right, "*": left * right}[tokens[at][0]] if tokens[at][0] != "%" else left - right * (left // right)
    if tokens[0][0] == "(":
        return computed(tokens[1:-1], values)
    return int(tokens[0][0]) if tokens[0][0].isdigit() else values[tokens[0][0]]


def side(tokens, values):
    """The value of a side of a comparison: a word that is no variable is a name."""
    word = tokens[0][0]
    return word if len(tokens) == 1 and not word.isdigit() and word not in values else computed(tokens, values)


def expression_end(tokens, at):
    """Where the expression that begins at this token ends."""
    while True:
        at = closing(tokens, at + 1) + 1 if tokens[at][0] == "(" else at + 1
        if at == len(tokens) or tokens[at][0] not in ("+", "-", "*", "%"):
            return at
        at += 1


def begins_name(tokens, at, listed):
    """Whether a name begins with the brace at this token: inside of a list, where a name is declared, before a colon, or where a word or a hole
    follows its end without a space."""
    end = closing(tokens, at + 1) + 1
    if listed or end == len(tokens) or (at and tokens[at - 1][0] in ("protocol", "cell", "array", "channel", "stack", "rule")):
        return listed or end < len(tokens)
    return tokens[end][0] == ":" or (tokens[end][1] and (tokens[end][0] == "{" or (re.match(r"\w", tokens[end][0]) and tokens[end][0] not in RESERVED)))


SIGNS = {"==": operator.eq, "!=": operator.ne, "<": operator.lt, "<=": operator.le, ">": operator.gt, ">=": operator.ge}


def flattened(tokens, values, given=None, listed=False):
    """The words of a template without variables, loops, conditions and holes: each pass of a loop goes over its tokens again."""
    return Flattening(tokens, values, given or {}, listed).found


class Flattening:
    """The words so far, where it is, the values of variables, and for each list that it is in its sign, the values before it, and whether it is one of names."""

    def __init__(self, tokens, values, given, listed):
        self.tokens, self.values, self.given, self.listed, self.at, self.outer, self.found = tokens, values, given, listed, 0, [], []
        steps = {"let": self.let, "for": self.loop, "if": self.condition}
        while self.at < len(tokens):
            word = self.word()
            is_name = self.is_plain(self.at) or (word == "{" and begins_name(tokens, self.at, self.in_names()))
            steps.get(word, self.name if is_name else self.sign)()

    def word(self):
        return self.tokens[self.at][0]

    def is_plain(self, at):
        return bool(re.match(r"\w", self.tokens[at][0])) and self.tokens[at][0] not in RESERVED

    def in_names(self):
        return self.outer[-1][2] if self.outer else self.listed

    def value(self, at):
        """The list or the number that begins at this token, and where it ends."""
        if self.tokens[at][0] == "{":
            end = closing(self.tokens, at + 1) + 1
            return tuple(flattened(self.tokens[at + 1:end - 1], self.values, None, True)), end
        end = expression_end(self.tokens, at)
        return computed(self.tokens[at:end], self.values), end

    def body(self, end):
        """The tokens in the braces that begin at this token, behind which it goes on."""
        self.at = closing(self.tokens, end + 1) + 1
        return self.tokens[end + 1:self.at - 1]

    def let(self):
        name = self.tokens[self.at + 1][0]
        value, self.at = self.value(self.at + 3)
        self.values = {**self.values, name: self.given[name] if not self.outer and name in self.given else value}

    def loop(self):
        name = self.tokens[self.at + 1][0]
        source, end = self.value(self.at + 3)
        if self.tokens[end][0] == "..":
            last, end = self.value(end + 1)
            source = range(source, last)
        body = self.body(end)
        for value in source:
            self.found += flattened(body, {**self.values, name: value}, None, self.in_names())

    def condition(self):
        left = expression_end(self.tokens, self.at + 1)
        right = expression_end(self.tokens, left + 1)
        # (names have the signs == and != alone)
        holds = SIGNS[self.tokens[left][0]](side(self.tokens[self.at + 1:left], self.values), side(self.tokens[left + 1:right], self.values))
        body = self.body(right)
        self.found += flattened(body, self.values, None, self.in_names()) if holds else []

    def name(self):
        """A name of pieces, of which some are computed in holes; alone it may be a variable."""
        begin, pieces, hole = self.word(), [], False
        while not pieces or (self.at < len(self.tokens) and self.tokens[self.at][1] and (self.word() == "{" or hole and self.is_plain(self.at))):
            hole = self.word() == "{"
            end = closing(self.tokens, self.at + 1) if hole else self.at
            pieces.append(str(computed(self.tokens[self.at + 1:end], self.values)) if hole else self.word())
            self.at = end + 1
        value = self.values.get(begin, begin) if len(pieces) == 1 and begin != "{" else "".join(pieces)
        self.found += value if isinstance(value, tuple) else [str(value)]

    def sign(self):
        """A sign or a reserved word. A variable is known to the end of the list that it stands in."""
        word = self.word()
        if word in ("{", ":"):
            block = word == ":" or self.found[-1:] in (["init"], ["bad"], ["map"]) or self.found[-2:-1] == ["rule"]
            self.outer.append((word, self.values, not block))
        elif word == "}" or (word == ";" and self.outer and self.outer[-1][0] == ":"):
            self.values = self.outer.pop()[1]
        elif word == "map":
            self.values = self.outer[-1][1]
        self.found.append(word)
        self.at += 1


def cut(words):
    """The words of the steps of a rule."""
    steps, depth = [[]], 0
    for word in words:
        depth += {"{": 1, "}": -1}.get(word, 0)
        if word == ";" and depth == 0:
            steps.append([])
        else:
            steps[-1].append(word)
    return steps[:-1]


def based(words, letters):
    """The letters that may stand in a place, whether it is a choice, and the words after it."""
    if words[0] == "any":
        return letters, True, words[1:]
    if words[0] == "{":
        return words[1:words.index("}")], True, words[words.index("}") + 1:]
    return words[:1], False, words[1:]


def entries(words, letters):
    """The words of a table with an entry for each letter."""
    if not words:
        return []
    lefts, _, rest = based(words, letters)
    return [word for left in lefts for word in (left, "->", left if rest[1] == "same" else rest[1], ";")] + entries(rest[3:], letters)


def ways(words, letters, lefts):
    """The ways to write the words of a move behind its word, each with the letters that were chosen; `lefts` are the letters before the arrow."""
    if not words or words[0] in ("when", "map", "push"):
        table = words.index("map") if "map" in words else len(words)
        told = entries(words[table + 2:-1], letters)
        last = [lefts[0] if word == "same" else word for word in words[:table]] + (["map", "{", *told, "}"] if told else [])
        return [([], [] if last == ["push"] else last)]
    if words[0] == "->":
        return [(names, ["->", *rest]) for names, rest in rights(words[1:], letters, lefts)]
    chosen, choice, rest = based(words, letters)
    return [([letter] * choice + names, [letter, *more]) for letter in chosen for names, more in ways(rest, letters, [*lefts, letter])]


def rights(words, letters, lefts):
    """The same behind the arrow, where a place has the letter of its place before it."""
    if not lefts:
        return ways(words, letters, [])
    chosen, choice, rest = ([lefts[0]], False, words[1:]) if words[0] == "same" else based(words, letters)
    return [([letter] * choice + names, [letter, *more]) for letter in chosen for names, more in rights(rest, letters, lefts[1:])]


def chosen_rules(name, steps, sections):
    """The rules that a rule with choices stands for: a name and the words of the steps."""
    if not steps:
        return [(name, [])]
    section, _, move, *words = steps[0]
    told = [([], words)] if move in ("lose", "push") else ways(words, sections.get(section, []), [])
    # (all that is chosen in the first steps goes slowest)
    return [(found, [section, ":", move, *more, ";", *rest]) for names, more in told for found, rest in chosen_rules("_".join([name, *names]), steps[1:], sections)]


def plain(text, given):
    """The words of the protocol that a template writes, by plain recursion."""
    words, found, sections, at = flattened(tokens_of(text), {}, given), [], {}, 0
    while at < len(words):
        if words[at] not in ("cell", "array", "channel", "stack", "init", "bad", "rule"):
            found, at = [*found, words[at]], at + 1
            continue
        begin = words.index("{", at)
        end = closing([(word, False) for word in words], begin + 1)
        if words[at] == "rule":
            for name, steps in chosen_rules(words[at + 1], cut(words[begin + 1:end]), sections):
                found += ["rule", name, "{", *steps, "}"]
        elif words[at] in ("init", "bad"):
            row = words[at:end + 1]
            found += [word for k, each in enumerate(row) for word in ([each, "empty"] if each == ":" and row[k + 1] == ";" else [each])]
        else:
            sections[words[at + 1]] = words[begin + 1:end]
            found += words[at:end + 1]
        at = end + 1
    return found


# Random templates.

MOVES = {"cell": ["set"], "array": ["at", "at", "pair", "ring", "two"], "channel": ["send", "recv"], "stack": ["pop", "push"]}


class Maker:
    """Makes a template at random: mostly one that can be written out, with variables, loops and conditions wherever they may stand."""

    def __init__(self, chance):
        self.chance, self.numbers, self.names, self.lists, self.count, self.sections, self.kinds = chance, [], [], [], 0, {}, {}

    def one(self, *choices):
        return self.chance.choice(choices)

    def fresh(self, stem):
        self.count += 1
        return f"{stem}{self.count}"

    def number(self, deep=2):
        if deep and self.chance.random() < 0.4:
            sign = self.one("+", "-", "*", "%")
            right = self.one("2", "3", "5") if sign == "%" else self.number(deep - 1)
            return self.one("{} {} {}", "({} {} {})").format(self.number(deep - 1), sign, right)
        return self.one(*self.numbers, "0", "1", "2", "3")

    def hole(self):
        return f"{{({self.number()}) % 3}}" if self.chance.random() < 0.5 or not self.names else f"{{{self.one(*self.names)}}}"

    def items(self, make, most=3, deep=2):
        """Items with loops, conditions and variables around them."""
        found = []
        for _ in range(self.chance.randint(1, most)):
            kind = self.chance.random() if deep else 1
            kept = len(self.numbers), len(self.names)
            if kind < 0.12:
                name = self.fresh("i")
                source = f"0 .. {self.number(1)}"
                self.numbers.append(name)
                found.append(f"for {name} in {source} {{ {self.items(make, 2, deep - 1)} }}")
            elif kind < 0.2:
                name = self.fresh("x")
                source = self.one(*self.lists, "{ u v }")
                self.names.append(name)
                found.append(f"for {name} in {source} {{ {self.items(make, 2, deep - 1)} }}")
            elif kind < 0.28:
                found.append(f"if {self.number()} {self.one('==', '!=', '<', '<=', '>', '>=')} {self.number()} {{ {self.items(make, 2, deep - 1)} }}")
            elif kind < 0.32:
                name, value = self.fresh("k"), self.number()
                self.numbers.append(name)
                found.append(f"let {name} = {value} {make()}")
            else:
                found.append(make())
            if kind < 0.28:
                del self.numbers[kept[0]:], self.names[kept[1]:]
        return " ".join(found)

    def scoped(self, make, *how):
        """Items whose variables are not known behind them."""
        kept = len(self.numbers), len(self.names)
        found = self.items(make, *how)
        del self.numbers[kept[0]:], self.names[kept[1]:]
        return found

    def letter(self, section=None):
        return self.one(*self.sections[section or self.section], f"y{self.hole()}", self.one(f"{self.hole()}y", f"{self.hole()}{self.hole()}")) if self.chance.random() < 0.98 else self.one("z", *self.names, *self.numbers, *self.lists)

    def base(self, same=False):
        kind = self.chance.random()
        return "any" if kind < 0.15 else "same" if same and kind < 0.3 else f"{{ {self.scoped(self.letter)} }}" if kind < 0.4 else self.letter()

    def declaration(self):
        name = self.fresh(self.one("S", "T")) + self.one("", "", "", self.hole())
        stems = self.chance.sample("abcd", 2)
        self.sections[name] = stems
        self.kinds[name] = self.one(*MOVES)
        return f"{self.kinds[name]} {name} {{ {' '.join(stems)} {self.one('for i in 0 .. 3 { y{i} }', 'y0 y1 y2')} 0y 1y 2y {{{self.number(0)}}}{{1}} {self.one('', 'for i in 0 .. 3 { {i}0 }')} }}"

    def touching(self, make):
        """Items that each name a section of their own, some of them under a condition or in a loop of one pass."""
        found = []
        for self.section in self.chance.sample(sorted(self.sections), self.chance.randint(0, min(len(self.sections), 2))):
            kind, item = self.chance.random(), make()
            name = self.fresh("i")
            found.append(f"if {self.number()} < 2 {{ {item} }}" if kind < 0.1 else f"for {name} in 1 .. {self.one('2', '2', '3')} {{ {item} }}" if kind < 0.2 else
                         f"for {name} in {{ {self.section} }} {{ {item.replace(self.section, name, 1)} }}" if kind < 0.25 else item)
        return " ".join(found)

    def part(self):
        atoms = "empty" if self.chance.random() < 0.1 else self.scoped(lambda: self.base() + self.one("", "", "*", "+"))
        return f"{self.section}: {atoms};"

    def guard(self):
        return f"when {self.one('all', 'some')} {self.one('left', 'right', 'others')} in {{ {self.scoped(self.letter)} }}"

    def entry(self):
        left = self.one(self.letter(), self.letter(), "any", f"{{ {self.letter()} {self.letter()} }}")
        return f"{left} -> {self.one(self.letter(), 'same')};"

    def move(self):
        word = self.one("at", "set", "pair", "ring", "two", "send", "recv", "pop", "push") if self.chance.random() < 0.1 else self.one(*MOVES[self.kinds[self.section]])
        if word in ("at", "set"):
            more = ""
            if word == "at":
                more = self.one("", " " + self.scoped(self.guard, 2, 1)) + self.one("", f" map {{ {self.scoped(self.entry, 2, 1)} }}")
            return f"{self.section}: {word} {self.base()} -> {self.base(True)}{more};"
        if word in ("pair", "ring", "two"):
            return f"{self.section}: {word} {self.base()} {self.base()} -> {self.base(True)} {self.base(True)};"
        push = self.scoped(lambda: self.letter() if word == "push" else self.one(self.letter(), "same"), 2, 1)
        if word == "pop":
            return f"{self.section}: pop {self.base()}{self.one('', f' push {push}')};"
        return f"{self.section}: push {push};" if word == "push" else f"{self.section}: {word} {self.base()};"

    def rule(self):
        inner = "".join(f"_{{{name}}}" for name in [*self.numbers, *self.names] if name[1:].isdigit() and name[0] in "ix")
        return f"rule {self.fresh('r')}{inner} {{ {self.touching(self.move)} }}"

    def template(self):
        lets = []
        for stem, kind in (("n", self.numbers), ("m", self.numbers), ("R", self.lists)):
            name = self.fresh(stem)
            lets.append(f"let {name} = {self.number() if kind is self.numbers else '{ ' + self.one('a b', 'c', 'a b c d') + ' }'}")
            kind.append(name)
        body = [self.scoped(self.declaration, 2, 1)]
        body += [f"init {{ {self.touching(self.part)} }}" for _ in range(self.chance.randint(0, 2))]
        body += [self.scoped(self.rule, 4) for _ in range(self.chance.randint(0, 3))]
        body += [f"bad {{ {self.touching(self.part)} }}" for _ in range(self.chance.randint(0, 2))]
        return "\n".join([*lets, f"protocol p{self.one('', self.hole())}", *body, ""])


def changed(text, chance):
    """The text with some words left out, doubled, swapped or replaced, or with a byte that does not belong there."""
    words = re.findall(r"\s+|\w+|->|\.\.|.", text)
    for _ in range(chance.randint(1, 3)):
        at, other = chance.randrange(len(words)), chance.randrange(len(words))
        kind = chance.random()
        if kind < 0.3:
            words[at] = ""
        elif kind < 0.5:
            words[at] += words[other]
        elif kind < 0.7:
            words[at], words[other] = words[other], words[at]
        elif kind < 0.95:
            words[at] = chance.choice([*sorted(RESERVED), "{", "}", "(", ")", ";", ":", "->", "..", "%", "*", "=", "==", "<", "1000000000", "0", "n1", "R3", "# "])
        else:
            words[at] += chance.choice("?\x00\xff.,'\"$")
    return "".join(words)


def random_template(number, seed):
    """A template, and the values that are given."""
    chance = random.Random(seed * 1_000_003 + number)
    maker = Maker(chance)
    text = maker.template()
    if chance.random() < 0.35:
        text = changed(text, chance)
    given = {"n1": chance.randint(0, 4)} if chance.random() < 0.3 else {}
    return text, given


def wrong_template(program, text, given):
    """What came of a template, and what is wrong with it: another end than a protocol or a refusal, other words than those of plain recursion,
    or a protocol that the program refuses otherwise than for its names."""
    began = spent()
    try:
        written = expand("t.armct", text.encode("latin-1"), given)
    except (Fault, Unknown) as fault:
        return "refused", differs("a refusal", bool(isinstance(fault, Unknown) or re.match(r"line \d+ column \d+: .", str(fault))), True)
    except Exception as fault:  # the test is that there is none
        return "broken", [f"{type(fault).__name__}: {fault}"]
    wrong = [f"it takes {spent() - began:.1f} s of processor time"] if spent() - began > LONGEST else []
    lines = [line for line in written.text.splitlines() if not line.startswith("#")]
    words = re.findall(r"\w+|->|[{}:;*+]", " ".join(lines))
    wrong += differs("words", words, plain(text, given))
    found = run([program, "show", "-"], input=written.text)
    if found.returncode:
        allowed = re.match(r"armc: protocol: line \d+ column \d+: (unknown|touched twice|wrong kind) ", found.stderr)
        return "refused by armc", wrong + differs("the program", bool(allowed) or found.stderr, True)
    return "accepted", wrong + differs("the layout", lines, found.stdout.splitlines())


def random_templates(program, count, seed=1):
    """How many came to which end, and what is wrong."""
    ends, wrong = {}, []
    for number in range(count):
        text, given = random_template(number, seed)
        end, lines = wrong_template(program, text, given)
        ends[end] = ends.get(end, 0) + 1
        wrong += [f"random template {number} of seed {seed}: {line}" for line in lines]
    few = [end for end in ("accepted", "refused", "refused by armc") if ends.get(end, 0) * 12 < count]
    return ends, wrong + ([f"of {count} random templates there are {ends}"] if few else [])


# Whole runs.

def expander(*words, **how):
    """How armc-expand ends, and what it prints."""
    return run(tool_words("armc-expand", *words), **how)


def runs(program):
    """Statuses and texts of armc-expand: files, pipes, a terminal, values, --check, --output, and what goes wrong."""
    path, wrong = example("permits.armct"), []
    written = expand(path, read(path).encode(), {"n": 1}).text
    asked = ["--program", program]
    with tempfile.TemporaryDirectory() as folder:
        refused, unknown, out = write_all(folder, {"refused.armct": HEAD + "rule r { P: at x{m} -> a; }\n", "unknown.armct": UNKNOWN, "out.armc": ""})
        for words, status, stdout, stderr in (
            ([path, "n=1"], 0, written, ""),
            ([*asked, "--check", path, "n=1"], 0, written, ""),
            ([path, "n=1", "--output", out], 0, "", ""),
            ([path, "--output", os.path.join(folder, "no", "x")], 8, "", "cannot be written"),
            ([], 3, "", "usage: "),
            (["--set", "n=1", path], 0, written, ""),
            ([path, "n=1", "n=2"], 3, "", "armc-expand: n is given two values\n"),
            ([path, "n=1", "--set", "n=2"], 3, "", "armc-expand: n is given two values\n"),
            ([path, "n"], 3, "", "'n' is no value: NAME=NUMBER or NAME={NAME ..}; usage: "),
            ([path, "R={a any}"], 3, "", "'R={a any}' is no value: any is a word of the language; usage: "),
            ([path, "m=1"], 3, "", "armc-expand: the template has no variable m at its top, but n\n"),
            ([path, "n={a}"], 3, "", "armc-expand: n is a number in the template\n"),
            ([os.path.join(folder, "nowhere")], 4, "", "armc-expand: read fault: "),
            ([refused], 5, "", "armc-expand: template: line 3 column 18: unknown variable m\n"),
            ([*asked, "--check", unknown], 5, "", "armc-expand: template: line 3 column 37: unknown x0\n"),
            (["--program", "/bin/true", "--check", path], 126, "", "does not answer as armc"),
        ):
            found = expander(*words)
            told = (found.returncode, found.stdout, stderr in found.stderr and bool(stderr) == bool(found.stderr), "Traceback" in found.stderr)
            wrong += differs(f"armc-expand {words}", told, (status, stdout, True, False))
        wrong += differs("--output", read(out), written)
        wrong += differs("what is refused by armc alone", expander(unknown).returncode, 0)
    wrong += wrong_refusal("an endless file", expander("/dev/zero"), 5, "more than 1048576 bytes")
    found = expander("-", "n=1", input=read(path))
    wrong += differs("standard input", (found.returncode, found.stdout), (0, written.replace("permits.armct", "-")))
    wrong += differs("a full device", to_full_device(tool_words("armc-expand", path)), (8, False))
    shown, status = on_terminal(tool_words("armc-expand", path, "n=1"))
    wrong += differs("a terminal", (status, shown), (0, written))
    piped = run(f"{sys.executable} {TOOLS}/armc-expand {path} | {program} show -", shell=True)
    return wrong + differs("a pipe", piped.stdout, answer(read(path))) + interrupts()


def interrupts():
    """A signal while the template is read ends it with 130."""
    wrong = []
    for number in (signal.SIGINT, signal.SIGTERM):
        process = subprocess.Popen(tool_words("armc-expand", "-"), stdin=subprocess.PIPE, stdout=subprocess.PIPE, stderr=subprocess.PIPE, text=True)
        # (it has taken over the signals, and sleeps, since it waits for the text)
        till(lambda: process.poll() is not None or re.search(r"^State:\tS.*^SigCgt:\t\w*[4-7c-f]\w{3}$", read(f"/proc/{process.pid}/status"), re.M | re.S))
        process.send_signal(number)
        out, err = process.communicate(timeout=SECONDS)
        wrong += differs("an interrupt", (process.returncode, out, err), (130, "", "\narmc-expand: interrupted\n"))
    return wrong


def tools(program):
    """The tools take a template with --set as they take the protocol that it writes, and tell its values."""
    path, wrong = example("counter.armct"), []
    with tempfile.TemporaryDirectory() as folder:
        protocol, unknown = write_all(folder, {"p.armc": expand(path, read(path).encode(), {"n": 4, "wraps": 0}).text, "unknown.armct": UNKNOWN})
        for tool, words in (("armc-walk", ["--random", "4", "--seed", "3"]), ("armc-coverage", ["--jobs", "2"]), ("armc-explain", []), ("armc-portfolio", ["--jobs", "1", "--one-order"])):
            one, two = call(program, tool, *words, "--set", "n=4", "--set", "wraps=0", path), call(program, tool, *words, protocol)
            wrong += differs(tool, (one.returncode, one.stdout), (two.returncode, two.stdout.replace("p.armc:", "counter.armct with n=4, wraps=0:")))
            if tool == "armc-portfolio":
                told = re.search(r"s: armc-expand (.*) \| armc (.*)$", one.stderr, re.M)
                again = told and run(f"{sys.executable} {TOOLS}/armc-expand {told[1]} | {program} {told[2]}", shell=True)
                wrong += differs("the told command line", again and again.stdout, one.stdout)
                wrong += judges(program, path, folder)
            for more, status, said in ((["--set", "k=1", path], 3, "the template has no variable k"), (["--set", "n", path], 3, "is no value"),
                                       (["--set", "n=1", protocol], 3, "--set is for a template"), ([unknown], 5, f"{tool}: template: line 3 column 37: unknown x0\n"),
                                       (["--set", "n=0", path], 5, f"{tool}: template: line"), ([os.path.join(folder, "no.armct")], 4, "read fault: ")):
                wrong += wrong_refusal(f"{tool} {more}", call(program, tool, *words, *more), status, said)
        wrong += hints(program, path, folder)
        page_of, picture = (os.path.join(folder, name) for name in ("p.html", "p.svg"))
        call(program, "armc-explain", "--set", "n=2", "--plain", "--html", page_of, "--svg", picture, path)
        wrong += [] if "counter.armct with n=2, wraps=1" in read(page_of) and "<b>rule</b> enter_0" in read(page_of) else ["the page of a template does not name its values"]
    return wrong


def hints(program, path, folder):
    """What armc-explain adds to its refusals: the values of the template, options that its head has, and how values are given."""
    permits = example("permits.armct")
    proof = call(program, "armc-portfolio", "--jobs", "1", "--one-order", "--set", "n=1", permits).stdout
    certificate, large = write_all(folder, {"certificate": proof, "large.armct": "# options: --method length\n" + read(path)})
    return [line for words, status, said in ((["--set", "n=3", permits, certificate], 7, "(permits.armct with n=3)\n"),
                                             (["--budget", "1", large], 2, "reached its budget (its head says `options: --method length`)\n"),
                                             ([path, "n=3"], 4, "read fault: n=3 (a value of a template is given by --set)\n"),
                                             ([path, "n=3", "n=4"], 3, "unrecognized arguments: n=4 (a value of a template is given by --set); usage: "))
            for line in wrong_refusal(f"armc-explain {words}", call(program, "armc-explain", *words), status, said)]


def judges(program, path, folder):
    """The command lines by which the portfolio says that its answer about deadlocks is judged can be run on a template."""
    found = call(program, "armc-portfolio", "--jobs", "1", "--one-order", "--deadlock", "--set", "n=2", path)
    told = re.search(r"valid by (.*)$", found.stderr, re.M)
    if not told:
        return [f"the portfolio tells no judge: {found.stderr[:300]!r}"]
    places = {"P": os.path.join(folder, "P"), "CERT": write(os.path.join(folder, "CERT"), found.stdout)}
    line = re.sub(r"\b(P|CERT)\b", lambda match: places[match[0]], told[1].replace("armc-", f"{sys.executable} {TOOLS}/armc-"))
    return differs(f"the told judge {told[1]}", run(line, shell=True).stdout, "valid\n")


# Templates for armc-check-folder, and the rows of the table that are due to them.
CASES = {
    "a.armct": "# options: --method length\n# values: n=1\n# expect: safe\n# options: --budget 500\n# values: n=2\n# expect: unsafe\nlet n = 0\nprotocol p\narray P { i c }\n"
               "init { P: i i*; }\nif n > 0 { rule enter { P: at i -> c if n == 1 { when all others in { i } }; } }\nbad { P: any* c any* c any*; }\n",
    "b.armct": "# expect: safe\nprotocol p\narray P { a b }\nbad { P: c; }\n",
    "c.armct": "# values: m=1\n# expect: safe\nlet n = 1\nprotocol p\narray P { a b }\n",
    "d.armct": "# expect: safe\nprotocol p\narray P { a a }\n",
    "e.armct": "# values: n\nprotocol p\narray P { a }\n",
    "f.armct": "# values: n=2\n# expect: safe\n# values: n=2\n# expect: unsafe\n# options: --budget 7\nlet n = 1\nprotocol p\narray P { a b }\nbad { P: b; }\n",
    "g.armct": "# expect: saf\nprotocol p\narray P { a b }\n",
    "h.armct": "# value: n=7\nlet n = 1\nprotocol p\narray P { a b }\n",
}
ROWS = [["a.armct n=1", "safe", "safe"], ["a.armct n=2", "unsafe", "unsafe"],
        ["b.armct", "safe", "no answer", "template: line 4 column 10: unknown c"],
        ["c.armct m=1", "an answer", "no answer", "template: line 1 column 3: the template has no variable m at its top, but n"],
        ["d.armct", "an answer", "no answer", "template: line 3 column 13: duplicate letter a, first at line 3 column 11"],
        ["e.armct", "an answer", "no answer", "template: line 1 column 3: 'n' is no value: NAME=NUMBER or NAME={NAME ..}"],
        ["f.armct n=2 (line 1)", "safe", "safe"], ["f.armct n=2 (line 3)", "unsafe", "safe"],
        ["g.armct", "an answer", "no answer", "'expect: saf' names no verdict: safe, unsafe, unknown"],
        ["h.armct", "an answer", "no answer", "template: line 1 column 3: 'value:' is no word of a head, but 'values:'"]]


def folders(program):
    """armc-check-folder: a row for each case of the head, options and expectations of each, given values, and refusals with their places."""
    with tempfile.TemporaryDirectory() as folder:
        paths = write_all(folder, CASES)
        report, wrong = os.path.join(folder, "report.xml"), []
        found = call(program, "check-folder", "--junit", report, folder)
        rows = [re.split(r"  +", line.replace(f"{folder}/", "").rstrip()) for line in found.stdout.splitlines()[1:-1]]
        told = [[row[0], row[1], row[2], row[4]] for row in rows]
        wrong += differs("a folder", (found.returncode, [row[:len(each)] for row, each in itertools.zip_longest(told, ROWS, fillvalue=[])]), (1, ROWS))
        wrong += [] if 'name="a.armct n=1"' in read(report) else ["the report does not name the values"]
        for path in paths[1:]:
            os.remove(path)
        found = call(program, "check-folder", "--set", "n=2", "--set", "m=3", folder)
        wrong += differs("given values", (found.returncode, "a.armct n=2" in found.stdout, "n=1" in found.stdout), (0, True, False))
        found = call(program, "check-folder", "--set", "n=2", paths[0])
        wrong += differs("a file", (found.returncode, "a.armct n=2" in found.stdout), (0, True))
        found = call(program, "check-folder", "--set", "n=2", "--set", "n=3", folder)
        wrong += differs("two values", (found.returncode, "given two values" in found.stderr), (2, True))
        found = call(program, "check-folder", "--set", "n=7", folder)
        wrong += differs("values without a case", (found.returncode, "(nothing)" in found.stdout), (2, True))
        found = call(program, "check-folder", "--set", "n", folder)
        wrong += differs("no values", (found.returncode, "is no value" in found.stderr), (2, True))
        # (the script alone, without the folder of modules)
        alone = write(os.path.join(folder, "check"), read(os.path.join(TOOLS, "check-folder")))
        found = run([sys.executable, alone, "--program", program, folder])
        wrong += differs("the script alone", (found.returncode, "templates need the folder armc_tools" in found.stdout), (1, True))
    return wrong


def heads(_):
    """What is kept of the comments in a head, and which values stand in the line that tells them."""
    text = "# One.\n# expect: safe\n# values: n=1\n# expect: unsafe\n# never: P.a\n# values: n=2 R={a b}\nlet n = 1\nlet m = n\nlet R = { a }\n# Not the head.\nprotocol p\narray P { R }\n"
    wrong = []
    for given, lines in (({}, ["# One.", "# expect: unsafe", "# never: P.a", "# from t.armct with n=1, R={a}"]),
                         ({"n": 2}, ["# One.", "# expect: safe", "# from t.armct with n=2, R={a}"]),
                         ({"n": 2, "R": ("a", "b")}, ["# One.", "# expect: safe", "# from t.armct with n=2, R={a b}"]),
                         ({"m": 5}, ["# One.", "# expect: safe", "# from t.armct with n=1, m=5, R={a}"])):
        found = expand("t.armct", text.encode(), given).text.splitlines()
        wrong += differs(f"the head with {given}", found[:found.index("protocol p")], lines)
    told = [(words, isinstance(each, Written)) for words, each in expanded_cases("t.armct", text.encode(), {})]
    wrong += differs("the cases", told, [(["n=1"], True), (["n=2", "R={a b}"], True)])
    twice = "# values: n=2\n# expect: safe\n# values: n=2\n# expect: unsafe\nlet n = 1\nprotocol p\narray P { a b }\n"
    for given in ({}, {"n": 2}):
        told = [(words, each.text.splitlines()[0]) for words, each in expanded_cases("t.armct", twice.encode(), given)]
        wrong += differs(f"equal values with {given}", told, [(["n=2", "(line 1)"], "# expect: safe"), (["n=2", "(line 3)"], "# expect: unsafe")])
    for line, why in (("values:", "'' is no value: NAME=NUMBER or NAME={NAME ..}"), ("values: n=2 n=3", "there are two values of n"),
                      ("values: R={a any}", "'R={a any}' is no value: any is a word of the language"), ("value: n=7", "'value:' is no word of a head, but 'values:'")):
        wrong += differs(line, answer(f"# {line}\n{text}"), f"template: line 1 column 3: {why}")
    told = expand("t.armct", f"{HEAD}init {{ }}\nrule r {{ P: at {{ }} -> a; }}\nbad {{ }}\n".encode(), {}).text.splitlines()[3:]
    wanted = ["# from t.armct:3", "init { }", "# from t.armct:4: no rule r (an empty set)", "# from t.armct:5", "bad { }"]
    return wrong + differs("where rows come from, and a rule of an empty set", told, wanted)


def windows(_):
    """What the templates of the sliding window write for the sizes that are kept."""
    wrong = []
    for name, given, kept in (("sliding_window", {"size": 2}, "patterns/sliding_window"), ("sliding_window_lossy", {"size": 2}, "window_lossy"),
                              ("sliding_window_lossy", {"size": 2, "numbers": 2}, "window_lossy_two_numbers")):
        text = without_comments(read("examples", f"{kept}.armc"))
        wrong += differs(f"{name} with {given}", answer(read(example(f"{name}.armct")), **given), text)
    return wrong


CHECKS = {
    "templates, productions": productions,
    "templates, refusals": refusals,
    "templates, page": page,
    "templates, places": places,
    "templates, heads": heads,
    "templates, sliding windows": windows,
    "templates, at random": lambda program: random_templates(program, RANDOM)[1],
    "armc-expand": runs,
    "tools with templates": tools,
    "armc-check-folder with templates": folders,
}

if __name__ == "__main__":
    if sys.argv[2:] and sys.argv[2].isdigit():
        found, lines = random_templates(os.path.abspath(sys.argv[1]), *map(int, sys.argv[2:4]))
        print("\n".join([*lines[:20], str(found)]))
        sys.exit(1 if lines else 0)
    sys.exit(main(CHECKS))
