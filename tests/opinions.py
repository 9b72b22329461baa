"""What armc-export does, and what MONA says of proofs and of mutated ones beside the program and armc-second-opinion. tests/third-opinion, outside the
gate, goes on with all examples, 1,000 mutated proofs and the commands of OpenFst. Usage: tests/opinions.py [PROGRAM] [NAME..]
"""
import functools
import glob
import os
import random
import re
import shutil
import sys
import tempfile

import support
from support import SYSTEMS, canonical, differs, example, main, on_terminal, opinion, printed, read, run, to_full_device, tool_words, write, write_all, wrong_refusal
import refusals
from armc_tools import texts
from armc_tools.mona import Question
from armc_tools.mona_answers import judged
from armc_tools.program import Refused
from armc_tools.protocol import Protocol

SECONDS = 600
MUTANTS = 10
# Proofs of few states, so that MONA is quick; each is mutated twice.
MUTATED = ("token", "tickets", "handoff", "german", "philosophers")
# A pattern that looks back over so many letters has an automaton of 2^16 states.
LOOKS_BACK = "protocol p\narray P { a b }\ninit { P: a; }\nbad { P: any* b " + "any " * 17 + "; }\n"


def export(*words, text="", **how):
    """How armc-export ends, and what it prints."""
    return run(tool_words("armc-export", *words), input=text, **how)


second_checker = functools.lru_cache(maxsize=None)(support.second_checker)


# Mutated proofs

def mutated(text, chooser):
    """A certificate with one end less or more, or one edge less, more or redirected."""
    lines = text.splitlines(True)
    states, edges = int(re.search(r"^states (\d+)", text, re.M)[1]), [at for at, line in enumerate(lines) if line.startswith("edge ")]
    finals = [at for at, line in enumerate(lines) if line.startswith("final ")]
    way = chooser.choice(("less end", "more end", "less edge", "more edge", "redirected"))
    at = chooser.choice(finals if way == "less end" and finals else edges or [len(lines) - 1])
    source, letter, target = (lines[at].split() + ["0"] * 4)[1:4]
    if way == "more end":
        lines.insert(len(lines) - 1, f"final {chooser.randrange(states)}\n")
    elif way == "redirected" and edges:
        lines[at] = f"edge {source} {letter} {chooser.randrange(states)}\n"
    elif way == "more edge" and edges:
        source = chooser.randrange(states)
        lines[:] = [line for line in lines if not line.startswith(f"edge {source} {letter} ")]
        lines.insert(len(lines) - 1, f"edge {source} {letter} {target}\n")
    elif lines[at] != "end\n":
        del lines[at]
    return "".join(lines)


def part_of(line):
    """The verdict of a judgement's line, and the part that fails."""
    return re.match(r"valid|not valid: (?:initial missing|bad held|stuck held|leaves by \w+)|.*", line)[0]


class Judges:
    """A protocol with the judges of its proofs: the program or armc-second-opinion, and MONA."""

    def __init__(self, program, path, bads=None):
        self.program, self.text = program, read(path)
        if bads is not None:
            self.text = Protocol(canonical(program, path)).text(bads=bads)
        self.system = texts.read_system(self.text)
        self.second = second_checker()
        self.machines = self.second.Reader(self.text).protocol()

    def told(self, certificate):
        """What the program says, or armc-second-opinion of what the program does not judge."""
        if certificate.startswith("deadlock"):
            return opinion(self.second, self.machines, certificate)[1]
        with tempfile.NamedTemporaryFile("w", suffix=".armc") as file:
            file.write(self.text)
            file.flush()
            found = run([self.program, "verify", file.name, "-"], input=certificate)
        return (found.stdout or found.stderr).strip()

    def asked(self, certificate, seconds=SECONDS):
        """What MONA says."""
        try:
            return judged(Question(self.system, texts.read_proof(self.system, certificate)), seconds)[1]
        except Refused as refused:
            return f"armc: {refused.text}"

    def wrong(self, certificate):
        """Where MONA does not say what the others say; and where its counterexample shows nothing."""
        told, asked = self.told(certificate), self.asked(certificate)
        if asked.startswith("no opinion"):
            return [f"MONA has no opinion: {asked}"]
        wrong = [] if part_of(told) == part_of(asked) else [f"MONA says {asked!r}, and must say {told!r}"]
        return wrong or self.wrong_example(texts.read_proof(self.system, certificate), asked.split("\n")[0])

    def word(self, configuration):
        return self.second.read_word(self.machines, self.second.Lines(""), configuration)

    def wrong_example(self, proof, line):
        """Where a counterexample is not what the line says of it."""
        _, _, shown = line.partition("missing: ") if "missing: " in line else line.partition("held: ") if "held: " in line else line.partition(": ")
        if line == "valid":
            return []
        second, machines = self.second, self.machines
        if line.startswith("not valid: leaves by "):
            rule, before, after = re.fullmatch(r"not valid: leaves by (\w+): (.*) -> (.*)", line).groups()
            one, two = self.word(before), self.word(after)
            holds = second.least(machines.rules[rule], second.only(one), second.only(two)) is not None
            return [] if holds and accepts(self.system, proof, before) and not accepts(self.system, proof, after) else [f"no such step: {line}"]
        rows = {"initial missing": machines.inits, "bad held": machines.bads}.get(re.match(r"not valid: (\w+ \w+)", line)[1])
        word, wanted = self.word(shown), "initial" not in line
        met = any(second.least(row, second.ANYTHING, second.only(word)) is not None for row in rows) if rows is not None else second.least(
            machines.keep, second.only(word), second.stuck(machines)) is not None
        return [] if met and accepts(self.system, proof, shown) == wanted else [f"no such configuration: {line}"]


def accepts(system, proof, configuration):
    """Whether the automaton accepts the configuration."""
    state, parts = (0 if proof.states else None), configuration.split("; ")
    for k, part in enumerate(parts):
        letters = [(k, letter) for letter in part.partition(": ")[2].split() if letter != "empty"]
        for letter in letters + ([texts.SEPARATOR] if k + 1 < len(parts) else []):
            state = proof.edges.get((state, letter))
    return state in proof.finals


# In the gate

def readers(program):
    """The reader of protocols reads what `show` prints as it reads the text itself, and refuses what the program refuses, at the same line."""
    wrong = []
    for path in sorted(glob.glob(example("*.armc")) + glob.glob(os.path.join(SYSTEMS, "*.armc"))):
        both = read(path), canonical(program, path)
        found = [re.sub(r"\bline=\d+, ", "", str(texts.read_system(text))) for text in both]
        wrong += differs(f"the reader of {os.path.basename(path)}", *found)
    for cell, told in refusals.rows():
        if "configuration: " not in told and "too many" not in told:
            wrong += differs(f"the reader of {cell}", refused_line(cell, told), re.match(r"armc: (\w+: line \d+)", told)[1])
    return wrong


def refused_line(cell, told):
    try:
        if told.startswith("armc: properties"):
            texts.read_properties(texts.read_system(refusals.HEAD), refusals.text_of(cell))
        else:
            texts.read_system(refusals.head_of(cell) + refusals.text_of(cell))
    except Refused as refused:
        return refused.text.partition(" column ")[0]
    return "not refused"


def faults(_):
    """Words that mean nothing, missing files, refused texts, a full device, no mona, and one that gives up."""
    wrong, lock = [], [example("tickets.armc"), example("tickets.cert")]
    with tempfile.TemporaryDirectory() as folder:
        refused, unknown, unsafe = write_all(folder, {"refused.armc": "protocol p\narray P { a a }\n", "unknown.cert": "armc 1 unknown\n", "run.cert": "armc 1 unsafe\n"})
        for words, status, said in (
            ([], 3, "usage: "), (lock, 3, "usage: "), (["--to", "word", *lock], 3, "usage: "), (["--to", "mona", "--parts", *lock], 3, "--out"),
            (["--to", "mona", os.path.join(folder, "nowhere"), lock[1]], 4, "read fault: "), (["--to", "mona", lock[0], os.path.join(folder, "nowhere")], 4, "read fault: "),
            (["--to", "mona", refused, lock[1]], 5, "protocol: line 2 column 13: duplicate a"), (["--to", "mona", lock[0], refused], 6, "certificate: line 1: bad line"),
            (["--judge", lock[0], unknown], 6, "line 1: nothing to verify"), (["--judge", lock[0], unsafe], 6, "line 1: a run, and MONA judges automata"),
            (["--to", "dot", "--out", os.path.join(refused, "x"), *lock], 8, "cannot be made"),
        ):
            wrong += wrong_refusal(f"armc-export {words}", export(*words), status, said)
        wrong += silent_mona(folder, lock)
    for words in (["--to", "mona"], ["--to", "dot"]):
        wrong += differs(f"armc-export {words} with a full device", to_full_device(tool_words("armc-export", *words, *lock)), (8, False))
    found = export("--help")
    return wrong + differs("armc-export --help", (found.returncode, found.stdout.startswith("usage: ")), (0, True))


def silent_mona(folder, lock):
    """What is told where there is no mona, and where one gives up, is killed, or says something else."""
    wrong = []
    for text, status, told in (
        ("", 126, ""), ("echo 'BDD too large (>16777216 nodes)'; kill -6 $$", 2, "no opinion: MONA gives up: BDD too large (>16777216 nodes)\n"),
        ("kill -9 $$", 2, "no opinion: MONA gives up: status -9\n"), ("echo 'Formula is valid'; exit 1", 2, "no opinion: MONA gives up: Formula is valid\n"),
        ("sleep 600", 2, "no opinion: MONA is stopped at the end of its time\n"), ("echo 'Formula is valid'", 0, "valid\n"),
    ):
        path = os.path.join(folder, "mona")
        if text:
            write(path, f"#!/bin/sh\n{text.replace('sleep', 'exec sleep')}\n", script=True)
        os.makedirs(os.path.join(folder, "tools"), exist_ok=True)
        for name in ("sh", "sleep", "stdbuf"):
            if shutil.which(name) and not os.path.exists(os.path.join(folder, "tools", name)):
                os.symlink(shutil.which(name), os.path.join(folder, "tools", name))
        found = export("--judge", "--seconds", "1" if "sleep" in text else "600", *lock, env={**os.environ, "PATH": f"{folder}:{folder}/tools"})
        said = "armc-export: no mona is on the path (Debian has it as the package mona)\n" if not text else ""
        wrong += differs(f"with a mona that does {text!r}", (found.returncode, found.stdout, found.stderr), (status, told, said))
    return wrong


DOT = """digraph "proof" {
  rankdir=LR;
  node [shape=circle];
  0 [shape=doublecircle];
  1 [shape=doublecircle];
  start [shape=none, label=""];
  start -> 0;
  0 -> 0 [label="P.i"];
  0 -> 1 [label="P.w\\nP.c"];
  1 -> 1 [label="P.i\\nP.w"];
}
"""
MATA = ("@NFA-explicit\n%Alphabet-auto\n%Initial q0\n%Final q0 q1\n# 1 is P.i\n# 2 is P.w\n# 3 is P.c\n# 4 is |\n"
        "q0 1 q0\nq0 2 q1\nq0 3 q1\nq1 1 q1\nq1 2 q1\n")
OPENFST = "0\t0\tP.i\n0\t1\tP.w\n0\t1\tP.c\n0\n1\t1\tP.i\n1\t1\tP.w\n1\n"
# The rule `enter`: all on the left are idle.
ENTER = ["", "0\t0\tP.i\tP.i", "0\t1\tP.w\tP.c", "1", "1\t1\tP.c\tP.c", "1\t1\tP.i\tP.i", "1\t1\tP.w\tP.w"]


def formats(_):
    """The proof of the tickets and a rule in each format, in a pipe and on a terminal, and a folder of files."""
    wrong, words = [], [example("tickets.armc"), example("tickets.cert")]
    for to, text in (("openfst", OPENFST), ("dot", DOT), ("mata", MATA)):
        wrong += differs(f"the tickets to {to}", export("--to", to, *words).stdout, text)
        shown, status = on_terminal(tool_words("armc-export", "--to", to, *words))
        wrong += differs(f"the tickets to {to} on a terminal", (status, shown.expandtabs()), (0, text.expandtabs()))
    with tempfile.TemporaryDirectory() as folder:
        rules = [f"rule-{name}" for name in ("enter", "leave", "request")]
        parts = [f"rule-{number}-{name}" for number, name in enumerate(("request", "enter", "leave"), 1)]
        for to, more, names in (("openfst", ["--rules"], ["letters.syms", *(f"{name}.fst.txt" for name in ["proof", *rules])]),
                                ("mata", ["--rules"], ["letters.syms", *(f"{name}.mata" for name in ["proof", *rules])]), ("dot", [], ["letters.syms", "proof.dot"]),
                                ("mona", ["--parts"], [f"{name}.mona" for name in ["bad-1", "initial-1", "proof", *parts]])):
            out = os.path.join(folder, to)
            found = export("--to", to, *more, "--out", out, *words)
            wrong += differs(f"the files of {to}", (found.returncode, found.stderr), (0, ""))
            wrong += differs(f"the files of {to}", (sorted(os.listdir(out)), len(found.stdout.splitlines())), (names, len(names)))
        wrong += differs("a rule to openfst", sorted(read(os.path.join(folder, "openfst", "rule-enter.fst.txt")).split("\n")), ENTER)
        wrong += differs("the table of letters", read(os.path.join(folder, "openfst", "letters.syms")), "<eps>\t0\nP.i\t1\nP.w\t2\nP.c\t3\n|\t4\n")
    return wrong


def judgements(program):
    """Whole judgements by MONA, and what it says of ten mutated proofs."""
    if not shutil.which("mona"):
        return "mona is not there"
    wrong, cases = [], (("tickets.armc", "check"), ("german.armc", "check"), ("tickets.armc", "deadlock"), ("tutorial/lock.armc", "deadlock"))
    for name, command in cases:
        text = printed(program, command, example(name))
        found = export("--judge", example(name), "-", text=text)
        wrong += differs(f"MONA on {command} {name}", (found.returncode, found.stdout, found.stderr), (0, "valid\n", ""))
    wrong += judged_properties(program) + told_example()
    shown, status = on_terminal(tool_words("armc-export", "--judge", example("tickets.armc"), example("tickets.cert")))
    wrong += differs("MONA on a terminal", (status, shown), (0, "valid\n"))
    with tempfile.NamedTemporaryFile("w", suffix=".armc") as file:
        file.write(LOOKS_BACK)
        file.flush()
        found = export("--judge", "--seconds", "1", file.name, "-", text="armc 1 safe\nstates 1\nfinal 0\nedge 0 P.a 0\nend\n")
    wrong += differs("a pattern that looks back", (found.returncode, found.stdout), (2, "no opinion: MONA is stopped at the end of its time\n"))
    return wrong + mutants(program, [(example(f"{name}.armc"), "check") for name in MUTATED], MUTANTS, "gate")


def told_example():
    """What the page of the tools shows of a proof that lacks an edge: the part that fails, whatever counterexample MONA takes."""
    told = re.search(r"--judge\n(not valid: .*\n.*\n)", read("docs", "TOOLS.md"))[1]
    proof = read(example("tickets.cert")).replace("edge 1 P.i 1\n", "")
    found = export("--judge", example("tickets.armc"), "-", text=proof)
    return differs("the page's example", (found.returncode, part_of(found.stdout), found.stdout.split("\n")[1:]), (7, part_of(told), told.split("\n")[1:]))


def judged_properties(program):
    """What `checkall` prints, one of its proofs alone, and a proof that says nothing of a property."""
    words = [example("patterns", f"several_properties.{ending}") for ending in ("armc", "props")]
    text = printed(program, "checkall", *words)
    names = re.findall(r"^property (\w+)\n", text, re.M)
    found = export("--judge", words[0], "-", "--properties", words[1], text=text)
    told = [line for line in found.stdout.splitlines() if not line.startswith("property ")]
    wrong = differs("the properties", (found.returncode, re.findall(r"^property (\w+)$", found.stdout, re.M), told[:2]), (2, names, ["valid", "valid"]))
    proof = text.partition("\n")[2].partition("property ")[0]
    for name, status in ((names[0], 0), (names[2], 7), ("none", 6)):
        found = export("--judge", words[0], "-", "--properties", words[1], "--property", name, text=proof)
        wrong += differs(f"the first proof for {name}", found.returncode, status)
    return wrong


def mutants(program, searches, count, seed):
    """Where MONA does not say of mutated proofs what the others say: so many in all, as many of each search; pairs of a path and a command."""
    wrong, chooser = [], random.Random(seed)
    proofs = [(path, text) for path, command in searches for text in [proof_of(program, path, command)] if text]
    for number in range(count):
        path, text = proofs[number % len(proofs)]
        wrong += [f"{os.path.basename(path)}, mutated proof {number}: {line}" for line in Judges(program, path).wrong(mutated(text, chooser))]
    return wrong


def proof_of(program, path, command, *words):
    """The automaton that a search prints, or nothing."""
    found = run([program, command, path, *words])
    return found.stdout if found.returncode == 0 else ""


CHECKS = {"armc-export, its reader": readers, "armc-export, with faults": faults, "armc-export, its formats": formats, "armc-export, judged by MONA": judgements}


if __name__ == "__main__":
    sys.exit(main(CHECKS))
