"""A protocol and a certificate read from their texts as they are, after docs/LANGUAGE.md and docs/CERTIFICATES.md alone: nothing of it comes from
the program or from the other tools, so that a fault of these would be seen. A text is cut into words with their places, and read from the left.
"""
import collections
import re

from .program import Refused

RESERVED = frozenset("protocol language cell array channel stack lossy init rule bad any empty at pair ring two set send recv pop push spawn exit lose "
                     "when all some left right others in map".split())
STATES = 1_000_000
# What stands for a byte that no word has.
BAD_BYTE = "\0"

# A section by its kind, its name and its letters. Letters of rows and rules are pairs of the section's number and the letter.
Section = collections.namedtuple("Section", "kind name letters")
# A row has its line, and for each section that it names a list of atoms: sets of letters with a sign, `*`, `+` or none.
Row = collections.namedtuple("Row", "line parts")
Atom = collections.namedtuple("Atom", "letters sign")
# A rule has its line, its name, and a move for each section that it changes: a word and its letters, and of `at` the guards and the table.
Rule = collections.namedtuple("Rule", "line name moves")
Move = collections.namedtuple("Move", "word letters guards table")
Guard = collections.namedtuple("Guard", "quantifier region letters")
System = collections.namedtuple("System", "sections inits rules bads")

# An automaton: edges lead from a state and a letter to a state; SEPARATOR stands for the letter `|`. `kind` is safe or deadlock free.
Proof = collections.namedtuple("Proof", "kind states finals edges")
SEPARATOR = None

# Of each move but `at`: the kinds of sections that have it, and its layout; x stands for a letter, s for a set and x* for letters.
ARRAY, CHANNEL = ("array",), ("channel", "lossy channel")
MOVES = {
    "pair": (ARRAY, "x x -> x x"), "ring": (ARRAY, "x x -> x x"), "two": (ARRAY, "x x -> x x"), "spawn": (ARRAY, "x"), "exit": (ARRAY, "x"),
    "set": (("cell",), "x -> x"), "send": (CHANNEL, "x"), "recv": (CHANNEL, "x"), "lose": (("lossy channel",), "s"), "push": (("stack",), "x x*"),
    "pop": (("stack",), "x"),
}
LANGUAGE_TWO = ("spawn", "exit", "lose")


class Text:
    """The words and signs of a text with their places, taken from the left."""

    def __init__(self, text, what):
        self.what, self.words, self.at = what, [], 0
        for number, line in enumerate(text.split("\n"), 1):
            for found in re.finditer(r"#.*|([A-Za-z0-9_]+|->|[{}:;*+])|[ \t\r]+|(.)", line, re.S):
                if found[1] or found[2]:
                    self.words.append((found[1] or BAD_BYTE, number, found.start() + 1))
        self.end = ("", number, len(line) + 1)

    def refusal(self, why, line, column):
        return Refused(5 if self.what == "protocol" else 6, f"{self.what}: line {line} column {column}: {why}")

    def fail(self, why, back=0):
        _, line, column = (self.words[self.at - back:] + [self.end])[0]
        raise self.refusal(why, line, column)

    def line(self):
        return (self.words[self.at:] + [self.end])[0][1]

    def next(self, ahead=0):
        word = (self.words[self.at + ahead:] + [self.end])[0][0]
        if word == BAD_BYTE and not ahead:
            self.fail("bad byte")
        return word

    def took(self, *words):
        """Whether these words are next; they are taken then."""
        found = all(self.next(k) == word for k, word in enumerate(words))
        self.at += len(words) if found else 0
        return found

    def take(self, word):
        if not self.took(word):
            self.fail(f"unexpected token: must be {word}")

    def name(self, table=()):
        """A name that the table does not have."""
        word = self.next()
        if not re.fullmatch(r"\w{1,32}", word, re.A) or word in RESERVED:
            self.fail("unexpected token: must be a name")
        if word in table:
            self.fail(f"duplicate {word}")
        self.at += 1
        return word


class ProtocolReader:
    """Reads the parts of a protocol in their order."""

    def __init__(self, text):
        self.text, self.sections, self.two = Text(text, "protocol"), [], False

    def system(self):
        text = self.text
        text.take("protocol")
        text.name()
        self.two = text.took("language", "2")
        while (kind := self.kind()):
            self.section(kind)
        if not self.sections:
            text.fail("unexpected token: must be a section")
        inits, rules = self.rows("init"), []
        while text.next() == "rule":
            rules.append(self.rule([rule.name for rule in rules]))
        bads = self.rows("bad")
        if text.next():
            text.fail("unexpected token: must be the end")
        return System(self.sections, inits, rules, bads)

    def kind(self):
        if self.two and self.text.took("lossy", "channel"):
            return "lossy channel"
        return next((word for word in ("cell", "array", "channel", "stack") if self.text.took(word)), None)

    def section(self, kind):
        name, letters = self.text.name([section.name for section in self.sections]), []
        self.text.take("{")
        while not letters or not self.text.took("}"):
            letters.append(self.text.name(letters))
        self.sections.append(Section(kind, name, letters))

    def rows(self, word):
        found = []
        while self.text.next() == word:
            line = self.text.line()
            self.text.at += 1
            found.append(Row(line, self.parts(self.pattern, "duplicate")))
        return found

    def rule(self, names):
        line = self.text.line()
        self.text.at += 1
        name = self.text.name(names)
        return Rule(line, name, self.parts(self.move, "touched twice"))

    def parts(self, read, twice):
        """What stands in braces: for each section that is named what `read` gives of it; `twice` tells that one is named again."""
        found, numbers = {}, {section.name: k for k, section in enumerate(self.sections)}
        self.text.take("{")
        while not self.text.took("}"):
            name = self.text.name()
            if name not in numbers or numbers[name] in found:
                self.text.fail(f"{twice if name in numbers else 'unknown'} {name}", 1)
            self.text.take(":")
            found[numbers[name]] = read(numbers[name])
            self.text.take(";")
        return found

    def letter(self, k):
        word = self.text.name()
        if word not in self.sections[k].letters:
            self.text.fail(f"unknown {word}", 1)
        return k, word

    def letters(self, k):
        """The letters of a set, of `any`, or the one letter that stands there."""
        if self.text.took("any"):
            return frozenset((k, letter) for letter in self.sections[k].letters)
        return self.braces(k) if self.text.next() == "{" else frozenset([self.letter(k)])

    def braces(self, k):
        found = set()
        self.text.take("{")
        while not self.text.took("}"):
            found.add(self.letter(k))
        return frozenset(found)

    def pattern(self, k):
        if self.text.took("empty"):
            return []
        atoms = []
        while not atoms or self.text.next() != ";":
            letters = self.letters(k)
            atoms.append(Atom(letters, next((sign for sign in "*+" if self.text.took(sign)), "")))
        return atoms

    def move(self, k):
        word, kind = self.text.next(), self.sections[k].kind
        known = word == "at" or (word in MOVES and (self.two or word not in LANGUAGE_TWO))
        if not known:
            self.text.fail("unexpected token: must be a move")
        kinds, layout = (ARRAY, "x -> x") if word == "at" else MOVES[word]
        if kind not in kinds:
            self.text.fail(f"wrong kind {self.sections[k].name}", 2)
        self.text.at += 1
        letters = self.laid_out(k, layout)
        if word == "pop" and self.text.took("push"):
            letters += self.laid_out(k, "x x*")
        guards, table = (self.guards(k), self.table(k)) if word == "at" else ([], {})
        return Move(word, letters, guards, table)

    def laid_out(self, k, layout):
        found = []
        for each in layout.split():
            if each == "->":
                self.text.take("->")
            elif each == "s":
                found.append(self.letters(k))
            elif each == "x":
                found.append(self.letter(k))
            else:
                while self.text.next() != ";":
                    found.append(self.letter(k))
        return found

    def guards(self, k):
        found = []
        while self.text.took("when"):
            quantifier = next((word for word in ("all", "some") if self.text.took(word)), None) or self.text.fail("unexpected token: must be all or some")
            region = next((word for word in ("left", "right", "others") if self.text.took(word)), None) or self.text.fail("unexpected token: must be a region")
            self.text.take("in")
            found.append(Guard(quantifier, region, self.braces(k)))
        return found

    def table(self, k):
        found = {}
        if not self.text.took("map"):
            return found
        self.text.take("{")
        while not self.text.took("}"):
            before = self.letter(k)
            if before in found:
                self.text.fail(f"duplicate {before[1]}", 1)
            self.text.take("->")
            found[before] = self.letter(k)
            self.text.take(";")
        return found


def read_system(text):
    """The protocol of a text; where it is none, a refusal with status 5 and the place."""
    return ProtocolReader(text).system()


def read_properties(system, text):
    """The rows of each property of a text of properties, by name."""
    reader, found = ProtocolReader(""), {}
    reader.text, reader.sections = Text(text, "properties"), system.sections
    while reader.text.next() or not found:
        line = reader.text.line()
        reader.text.take("bad")
        found.setdefault(reader.text.name(), []).append(Row(line, reader.parts(reader.pattern, "duplicate")))
    return found


# Certificates

NUMBER, LETTER = r"(?:0|[1-9]\d*)", r"(?:\||\w{1,32}\.\w{1,32})"
HEADS = {"armc 1 safe": ("safe", 1), "armc 2 safe": ("safe", 2), "deadlock free": ("deadlock free", 1)}
OTHER_HEADS = {"armc 1 unsafe": "a run, and MONA judges automata", "deadlock": "a run, and MONA judges automata", "armc 1 unknown": "nothing to verify"}


class ProofReader:
    """Reads an automaton line by line; the first line with a fault is told."""

    def __init__(self, system, text):
        self.lines, self.at, self.text = text.split("\n"), 0, text
        self.letters = {f"{section.name}.{letter}": (k, letter) for k, section in enumerate(system.sections) for letter in section.letters}
        self.letters["|"] = SEPARATOR
        self.listed, self.finals, self.edges = [], set(), {}

    def need(self, holds, why):
        if not holds:
            raise Refused(6, f"certificate: line {self.at}: {why}")

    def line(self):
        self.at += 1
        self.need(self.at < len(self.lines), "truncated")
        return self.lines[self.at - 1]

    def fields(self, *layouts):
        line = self.line()
        self.need(any(re.fullmatch(layout, line, re.A) for layout in layouts), "bad line")
        return line.split(" ")

    def below(self, word, limit, why="out of range"):
        self.need(len(word) < 8 and int(word) < limit, why)
        return int(word)

    def letter(self, word):
        self.need(word in self.letters, "unknown name")
        return self.letters[word]

    def proof(self):
        head = self.line()
        self.need(head not in OTHER_HEADS, OTHER_HEADS.get(head))
        self.need(head in HEADS, "version" if re.fullmatch(rf"armc {NUMBER} (safe|unsafe|unknown)", head, re.A) else "bad line")
        kind, version = HEADS[head]
        while (fields := self.fields(rf"states {NUMBER}", *[rf"letter {LETTER}"] * (version == 2)))[0] == "letter":
            letter = self.letter(fields[1])
            self.need(letter not in self.listed, "two letters")
            self.listed.append(letter)
        count = self.below(fields[1], STATES + 1, "too many states")
        edge = rf"edge {NUMBER} {LETTER} {NUMBER}" if version == 1 else rf"edge {NUMBER} {NUMBER}(?: {NUMBER})+"
        while (fields := self.fields(rf"final {NUMBER}", edge, "end"))[0] != "end":
            if fields[0] == "final":
                self.finals.add(self.below(fields[1], count))
            else:
                self.edge(fields[1:], count, version)
        self.at += 1
        self.need(self.lines[self.at - 1:] == [""], "bad line")
        return Proof(kind, count, self.finals, self.edges)

    def edge(self, fields, count, version):
        letters = [self.letter(fields.pop(1))] if version == 1 else []
        source, target = (self.below(each, count) for each in fields[:2])
        letters += [self.listed[self.below(each, len(self.listed))] for each in fields[2:]]
        for letter in letters:
            self.need((source, letter) not in self.edges, "two edges")
            self.edges[source, letter] = target


def read_proof(system, text):
    """The automaton of a certificate in either version, or of what `armc deadlock` prints; else a refusal with status 6 and the line."""
    return ProofReader(system, text).proof()
