"""Compares docs/REFUSALS.md and rows/refusals.md with a program: each row of their tables has a text and the line, without `armc: `, by which
the program refuses it.

A text is made of pieces in back quotes, one of which may stand N times (`33 × `), joined by `+`; `(no line feed)` behind it leaves out the
last line feed. Before it come the two lines that the page names, with the head of language 2 where the cell begins with `(language 2)`. In the
last part a row has a configuration, for examples/handoff.armc. A row of a text of properties has the whole text, for the protocol of the two lines.
Usage: tests/refusals.py [PROGRAM]
"""
import re
import sys
import tempfile

from support import example, main, read, run, write_all

HEAD = "protocol p\narray P { a }\n"
LANGUAGE_2 = "(language 2) "
# The words of the limits of docs/LANGUAGE.md stand in the rows of `too many`.
KINDS = ("bad byte", "unexpected token", "duplicate", "unknown", "touched twice", "wrong kind")


def rows_of(*name):
    """Pairs of a text's cell and the line that is told, of the tables in this file."""
    found = re.findall(r"^\| (.*) \| `((?:protocol|configuration|properties): line \d+ column \d+: .*)` \|$", read(*name), re.M)
    return [(cell.replace("\\|", "|"), f"armc: {told}") for cell, told in found]


def rows():
    """The pairs of both files, those of the page first."""
    return rows_of("docs", "REFUSALS.md") + rows_of("tests", "rows", "refusals.md")


def head_of(cell):
    """The two lines before the text."""
    return HEAD.replace("protocol p", "protocol p language 2") if cell.startswith(LANGUAGE_2) else HEAD


def text_of(cell):
    """The text that the cell describes."""
    line = "".join(piece * int(times or 1) for times, piece in re.findall(r"(?:(\d+) × )?`([^`]*)`", cell))
    return line + ("" if cell.endswith("(no line feed)") else "\n")


def wrong_row(program, cell, told):
    """What is not as the row says: a list of lines, empty where all is."""
    with tempfile.TemporaryDirectory() as folder:
        protocol, head, text = write_all(folder, {"protocol": head_of(cell) + text_of(cell), "head": HEAD, "text": text_of(cell)})
        status, words = ((6, ["steps", example("handoff.armc"), text_of(cell)[:-1]]) if told.startswith("armc: configuration: ") else
                         (6, ["checkall", head, text]) if told.startswith("armc: properties: ") else (5, ["show", protocol]))
        found = run([program, *words])
    answer = (found.returncode, found.stdout, found.stderr)
    return [] if answer == (status, "", told + "\n") else [f"{cell} is answered by {str(answer)[:160]}, and the page says {told}"]


def wrong_rows(program):
    """Where the page and the program do not agree, and the refusals that have no row."""
    limits = re.findall(r"^\| .* \| `(.*)` \|$", read("docs", "LANGUAGE.md").partition("\n## Limits\n")[2].partition("\n## ")[0], re.M)
    told = [line.partition(": line ")[2].partition(": ")[2] for _, line in rows_of("docs", "REFUSALS.md")]
    missing = [kind for kind in [*KINDS, *(f"too many {word}" for word in limits)] if not any(line.startswith(kind) for line in told)]
    wrong = [line for cell, answer in rows() for line in wrong_row(program, cell, answer)]
    return wrong + [f"no row shows {kind}" for kind in missing] + ([] if len(limits) == 9 else [f"the limits are {limits}"])


CHECKS = {"page of refusals": wrong_rows}

if __name__ == "__main__":
    sys.exit(main(CHECKS))
