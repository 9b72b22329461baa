"""The texts that searches print, as data: automata in both layouts, runs, and budgets that were reached."""
import collections
import re

# `kind` is the first line without the version: safe, unsafe, unknown, deadlock free or deadlock. `edges` are triples of a state, a letter
# as (section, letter) or None for the separator, and a state; `steps` are pairs of a rule and the configuration after it.
Automaton = collections.namedtuple("Automaton", "kind states finals edges")
Run = collections.namedtuple("Run", "kind start steps")
Spent = collections.namedtuple("Spent", "kind counted")


def letter_of(word):
    return None if word == "|" else tuple(word.split("."))


def read_certificate(text):
    """The certificate of a text that the program printed or judged, or None where the first line is of no such text."""
    lines = text.splitlines()
    head = re.fullmatch(r"(?:armc [12] )?(safe|unsafe|unknown|deadlock free|deadlock)", lines[0]) if lines else None
    if not head:
        return None
    kind, fields = head[1], [line.split(" ") for line in lines[1:]]
    if kind == "unknown":
        return Spent(kind, int(fields[0][1]))
    if kind in ("unsafe", "deadlock"):
        steps = [line.split(" ", 2)[1:] for line in lines[2:] if line.startswith("step ")]
        return Run(kind, lines[1].partition(" ")[2], [(rule, configuration) for rule, configuration in steps])
    letters = [letter_of(field[1]) for field in fields if field[0] == "letter"]
    states = next(int(field[1]) for field in fields if field[0] == "states")
    finals = {int(field[1]) for field in fields if field[0] == "final"}
    edges = [edge for field in fields if field[0] == "edge" for edge in edges_of(field, letters)]
    return Automaton(kind, states, finals, edges)


def edges_of(field, letters):
    """The edges of a line: `edge P LETTER Q`, or `edge P Q I I` where letters are listed at the top."""
    if not letters:
        return [(int(field[1]), letter_of(field[2]), int(field[3]))]
    return [(int(field[1]), letters[int(each)], int(field[2])) for each in field[3:]]


def size_of(certificate):
    """How a reader is told the size: '4 states', '1 step'."""
    count, word = (certificate.states, "state") if isinstance(certificate, Automaton) else (len(certificate.steps), "step")
    return f"{count} {word}{'' if count == 1 else 's'}"
