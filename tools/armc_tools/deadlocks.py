"""Deadlocks as the tools ask for them: rows of ends that are meant, protocols that `check`, `back` and `past` answer in the place of `deadlock`, and
the judgement of what they print.
"""
import itertools
import os
import re
import subprocess
import sys

from .certificate import read_certificate
from .program import TOOLS, USAGE, Kept, Refused
from .stuck import Stuck, atoms_of, everything, language_of

# The rules of one protocol.
RULES = 256


def ends_in(text):
    """The rows of the lines `# may end: ROW` of a protocol's text."""
    return [row.strip() for row in re.findall(r"^#[ \t]*may end:([^\r\n]*)", text, re.M)]


def read_ends(program, protocol, rows):
    """The rows by the names of their sections, as the program reads them: a row that it refuses ends the tool."""
    found = []
    for row in rows:
        with Kept({"protocol.armc": protocol.text(bads=[f"bad {{ {row.strip().rstrip(';')}; }}"])}) as kept:
            ended = program.call("show", kept.path("protocol.armc"))
        if ended.status:
            raise Refused(USAGE, f"'{row}' is no row of the protocol: {ended.err.strip().rpartition(': ')[2]}")
        found.append(dict(re.findall(r"(\w+): ([^;]*);", ended.out.splitlines()[-1].partition("{")[2])))
    return found


def with_stuck_rows(protocol, ends):
    """The protocol with exactly what is stuck as its bad rows."""
    return protocol.text(bads=[f"bad {{ {row} }}" for row in Stuck(protocol, ends).texts()])


def with_rests(protocol, ends):
    """The protocol with rules that lead from ends to themselves, where moves can say so; None where no row of ends is said so."""
    names, lines = {rule.name for rule in protocol.rules}, []
    for row in ends:
        ways = [rests(section, row[section.name]) for section in protocol.sections if section.name in row]
        for moves in itertools.product(*ways) if all(way is not None for way in ways) else ():
            name = next(name for k in itertools.count(1) for name in [f"rest_{k}"] if name not in names)
            names.add(name)
            lines.append(f"rule {name} {{ {' '.join(move for move in moves if move)} }}")
    return protocol.text(rules=[*protocol.lines_of("rule"), *lines]) if lines and len(names) <= RULES else None


def rests(section, pattern):
    """The moves from lists of the pattern to themselves, as few lists as they may be; None where no move says so."""
    atoms = atoms_of(section, pattern)
    if language_of(section, [atoms]) == everything(section):
        return [""]
    letters = [section.letters[place] for place in sorted(atoms[0][0])] if len(atoms) == 1 else []
    if section.kind == "cell" and letters:
        return [f"{section.name}: set {letter} -> {letter};" for letter in letters]
    if section.kind == "array" and letters:
        others = f"{{ {' '.join(letters)} }}" if atoms[0][1] else "{ }"
        return [f"{section.name}: at {letter} -> {letter} when all others in {others};" for letter in letters]
    return None


def as_deadlock(text):
    """What a search prints of a protocol whose bad rows are what is stuck, as `deadlock` prints it."""
    head, _, rest = text.partition("\n")
    return f"{'deadlock free' if read_certificate(text).kind == 'safe' else 'deadlock'}\n{rest}" if head.startswith("armc ") else text


def judged_again(protocol, text, ends=(), seconds=None):
    """What armc-second-opinion says of a text about deadlocks, with these rows as ends that are meant."""
    buts = [word for row in ends for word in ("--but", " ".join(f"{name}: {pattern};" for name, pattern in row.items()))]
    with Kept({"protocol.armc": protocol, "certificate": text}) as kept:
        words = [sys.executable, os.path.join(TOOLS, "armc-second-opinion"), kept.path("protocol.armc"), kept.path("certificate"), *buts]
        try:
            ended = subprocess.run(words, stdin=subprocess.DEVNULL, capture_output=True, text=True, timeout=seconds)
        except subprocess.TimeoutExpired:
            return f"not judged in {seconds:.0f} s"
    return (ended.stdout or ended.stderr).strip()
