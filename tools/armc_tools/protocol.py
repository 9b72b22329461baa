"""A protocol as data, read from its canonical layout (`armc show`), and texts of the same protocol with other rows or another order."""
import collections
import re

Section = collections.namedtuple("Section", "kind name letters")
# The moves of a rule are pairs of a section's name and the words of the move.
Rule = collections.namedtuple("Rule", "name moves")

CELL = "cell"


class Protocol:
    """The parts of a protocol: the words of its head, its sections, its rules, and the lines of its rows as they stand."""

    def __init__(self, text):
        self.lines = text.splitlines()
        self.head = self.lines[0]
        self.sections = [section_of(line) for line in self.lines_of("cell", "array", "channel", "stack", "lossy")]
        self.rules = [rule_of(line) for line in self.lines_of("rule")]
        self.inits, self.bads = self.lines_of("init"), self.lines_of("bad")

    def lines_of(self, *words):
        return [line for line in self.lines[1:] if line.split()[0] in words]

    def text(self, inits=None, bads=None, order=None, rules=None):
        """The text with these rows or rules in the place of its own, or with its sections in this order, a list of their numbers."""
        lines = self.lines_of("cell", "array", "channel", "stack", "lossy")
        sections = [lines[k] for k in order] if order else lines
        inits, bads = self.inits if inits is None else inits, self.bads if bads is None else bads
        return "\n".join([self.head, *sections, *inits, *(self.lines_of("rule") if rules is None else rules), *bads, ""])

    def cells(self):
        """The numbers of the sections that are cells."""
        return [k for k, section in enumerate(self.sections) if section.kind == CELL]


def section_of(line):
    kind, name, letters = re.fullmatch(r"(cell|array|channel|stack|lossy channel) (\w+) \{ (.*) \}", line).groups()
    return Section(kind, name, letters.split())


def rule_of(line):
    name, steps = re.fullmatch(r"rule (\w+) \{ ?(.*) ?\}", line).groups()
    moves, words = [], re.findall(r"[\w]+|->|[{}:;]", steps)
    while words:
        end, depth = 0, 0
        while words[end] != ";" or depth:
            depth += {"{": 1, "}": -1}.get(words[end], 0)
            end += 1
        moves.append((words[0], words[2:end]))
        words = words[end + 1:]
    return Rule(name, moves)


def configuration_of(text):
    """The lists of a configuration's text, section after section."""
    return [[] if part.split(": ")[1] == "empty" else part.split(": ")[1].split() for part in text.split("; ")]


def printed(configuration):
    """The text of a configuration, which may have other white space and comments, as the program prints it."""
    words = re.findall(r"\w+|[:;]", re.sub(r"#[^\n]*", "", configuration))
    return re.sub(r" ([:;])", r"\1", " ".join(words))


def configuration_text(sections, lists):
    return "; ".join(f"{section.name}: {' '.join(letters) or 'empty'}" for section, letters in zip(sections, lists))


def alternatives(words):
    """'a', 'a or b', 'a, b or c'."""
    return words[0] if len(words) == 1 else f"{', '.join(words[:-1])} or {words[-1]}"
