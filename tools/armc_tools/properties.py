"""Named properties of a protocol, as `armc checkall` reads them: each a list of bad rows, and the protocol with these rows alone."""
import re

from .program import ANSWERS, Refused


def read_properties(program, protocol, properties):
    """The rows of each property by its name, in the order of their first rows; a text that the program refuses ends the tool. Both are files."""
    ended = program.call("checkall", protocol, properties, "--budget", "1")
    if ended.status not in range(len(ANSWERS)):
        raise Refused(ended.status, (ended.err or ended.out).strip())
    with open(properties, encoding="utf-8", errors="replace") as file:
        return rows_of(file.read())


def rows_of(text):
    """The rows of a text of properties that has no fault."""
    found, bare = {}, re.sub(r"#[^\n]*", " ", text)
    for name, row in re.findall(r"\bbad\s+(\w+)\s*\{((?:[^{}]|\{[^{}]*\})*)\}", bare):
        found.setdefault(name, []).append(f"bad {{ {' '.join(row.split())} }}")
    return found


def parts_of(text):
    """The certificates that `checkall` prints, by the names of properties."""
    pieces = re.split(r"^property (\w+)\n", text, flags=re.M)
    return dict(zip(pieces[1::2], pieces[2::2]))
