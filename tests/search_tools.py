"""What the tools do that put many questions to the program: deadlocks by every method, properties side by side, coverage with limits, the commands
in heads of protocols of a folder, and walks. Usage: tests/search_tools.py [PROGRAM] [NAME..]
"""
import glob
import os
import random
import re
import signal
import sys
import tempfile

from support import SYSTEMS, TOP, bare, call, canonical, differs, example, interrupted, judged, main, on_terminal, printed, read, run, spent, to_full_device, tool_words, without_comments, write, wrong_refusal
import definitions
from armc_tools.protocol import Protocol
from armc_tools.stuck import Stuck, Unsaid

# An end that is meant, without a rule that says so.
ENDS = """protocol ends
cell C { open closed }
array P { w d }
init { C: open; P: w w*; }
rule work { C: set open -> open; P: at w -> d; }
rule close { C: set open -> closed; P: at d -> d when all others in { d }; }
bad { C: closed; P: any* w any*; }
"""
END = "C: closed; P: d*"
# How many protocols are made by chance.
MADE = 40


def made_protocol(chance):
    """A small protocol by chance, with a cell, an array and a channel or a stack, and rules of one or two moves."""
    letters = ["a", "b", "c"][:chance.randint(2, 3)]

    def some():
        return " ".join(sorted(chance.sample(letters, chance.randint(0, len(letters)))))

    def at():
        guards = [f"when {chance.choice(['all', 'all', 'some'])} {chance.choice(['left', 'right', 'others'])} in {{ {some()} }}" for _ in range(chance.choice([0, 1, 1, 2]))]
        return " ".join(["at", chance.choice(letters), "->", chance.choice(letters), *guards])

    def exchange(word):
        return f"{word} {' '.join(chance.choices(letters, k=2))} -> {' '.join(chance.choices(letters, k=2))}"
    moves = {"S": [lambda: f"set {chance.choice('xy')} -> {chance.choice('xy')}"], "P": [at, at, at, lambda: exchange("two"), lambda: exchange("ring"), lambda: exchange("pair")],
             "Q": [lambda: f"{chance.choice(['recv', 'recv', 'send'])} {chance.choice('mn')}"]}
    rules = []
    for number in range(chance.randint(1, 6)):
        named = sorted(chance.sample("SPQ", chance.choice([1, 1, 2, 3])))
        rules.append(f"rule r{number} {{ {' '.join(f'{name}: {chance.choice(moves[name])()};' for name in named)} }}")
    return "\n".join(["protocol p", "cell S { x y }", f"array P {{ {' '.join(letters)} }}", "channel Q { m n }", *rules, ""])


def wrong_stuck(text, most, ends=()):
    """Configurations of which the rows of what is stuck say something else than the definitions; None where there are no rows."""
    steps = definitions.Steps(text)
    try:
        rows = [dict(re.findall(r"(\w+): ([^;]*);", row)) for row in Stuck(Protocol(without_comments(text)), ends).texts()]
    except Unsaid:
        return None
    wrong = []
    for each in definitions.configurations(steps.sections, most):
        said, meant = (any(definitions.matches(steps.sections, row, each) for row in listed) for listed in (rows, ends))
        if said != (definitions.is_stuck(steps, each) and not meant):
            wrong.append(f"{definitions.configuration_text(steps.sections, each)} is{'' if said else ' not'} in the rows {rows} of {text}")
    return wrong


def stuck_rows(_):
    """The rows of what is stuck against the definitions, on the systems and on protocols made by chance; refused where patterns cannot say it."""
    wrong, chance = [], random.Random(66)
    for path in sorted(glob.glob(os.path.join(SYSTEMS, "*.armc"))):
        text = read(path)
        sections = definitions.Steps(text).sections
        for ends in ([], [{sections[0][0]: f"{sections[0][2][0]} any*"}]):
            found = wrong_stuck(text, 3 if len(sections) == 1 else 2, ends)
            wrong += found if found is not None else [f"{path}: what is stuck is not said by rows"]
    texts = [made_protocol(chance) for _ in range(MADE)]
    found = [wrong_stuck(text, 2, ends) for text in texts for ends in ([], [{"S": "x", "P": "a* b any*"}, {"Q": "any*", "P": "b+"}])]
    wrong += sum(filter(None, found), [])
    unsaid = sum(1 for each in found if each is None)
    wrong += [f"{unsaid} of {len(found)} are not said by rows"] if unsaid > len(found) // 4 else []
    # Neighbours a and b nowhere, of three letters: no pattern says it.
    found = wrong_stuck("protocol p\narray P { a b c }\nrule r { P: pair a b -> b a; }\n", 2)
    return wrong + differs("what no pattern says", found, None)


def deadlock_answer(program, path, *words):
    """The answer of the portfolio, and what the second checker says of it."""
    found = call(program, "armc-portfolio", "--deadlock", "--jobs", "2", "--seconds", "900", *words, path)
    buts = [word for at, word in enumerate(words) if "--but" in (word, words[at - 1])]
    told = run(tool_words("armc-second-opinion", path, "/dev/stdin", *buts), input=found.stdout)
    return found, told.stdout.strip()


def deadlocks(program):
    """Answers that agree with `deadlock`, by rows where that alone has none, and ends that are meant."""
    wrong = []
    for name in ("tickets", "open_door", "two_phase_commit", "queue_lock", "peterson2", "tutorial/lock", "philosophers", "handoff", "readers_writers"):
        alone = run([program, "deadlock", example(f"{name}.armc")])
        found, told = deadlock_answer(program, example(f"{name}.armc"), "--one-order")
        wrong += differs(f"deadlocks of {name}", (found.returncode, found.stdout.partition("\n")[0], told), (alone.returncode, alone.stdout.partition("\n")[0], "valid"))
    hard = example("hard", "queued_spinlock.armc")
    found, told = deadlock_answer(program, hard, "--one-order")
    wrong += differs("deadlocks by rows", (found.returncode, found.stdout[:14], told, "where STUCK is what" in found.stderr), (0, "deadlock free\n", "valid", True))
    wrong += differs("the kept rows", without_comments(read(example("hard", "queued_spinlock_stuck.armc"))), call(program, "armc-portfolio", "--stuck", hard).stdout)
    wrong += deadlock_faults(program, hard)
    with tempfile.TemporaryDirectory() as folder:
        path, kept = write(os.path.join(folder, "ends.armc"), ENDS), os.path.join(folder, "kept.armc")
        found, told = deadlock_answer(program, path)
        wrong += differs("an end that is not meant", (found.returncode, found.stdout[-20:], told), (1, "C: closed; P: d\nend\n", "valid"))
        found, told = deadlock_answer(program, path, "--but", END)
        wrong += differs("an end that is meant", (found.returncode, found.stdout[:14], told), (0, "deadlock free\n", "valid"))
        wrong += wrong_stuck_protocol(program, path, kept)
        write(path, f"# may end: {END};\n{ENDS}")
        found, _ = deadlock_answer(program, path)
        wrong += differs("an end that the head means", (found.returncode, f"--but '{END};'" in found.stderr), (0, True))
        for row, said in (("C: shut", "unknown shut"), ("C: open; C: open", "duplicate C"), ("P: d* }", "unexpected token")):
            wrong += wrong_refusal(f"--but {row}", call(program, "armc-portfolio", "--deadlock", "--but", row, path), 3, said)
        return wrong + wrong_refusal("--but alone", call(program, "armc-portfolio", "--but", END, path), 3, "")


def deadlock_faults(program, hard):
    """No answer with a small budget, a full device, an interrupt and a terminal."""
    found = call(program, "armc-portfolio", "--deadlock", "--one-order", "--jobs", "2", "--budget", "100", hard)
    wrong = differs("no deadlock found", (found.returncode, found.stdout, bool(re.search(r"^  check --method length of what is stuck +counted 1\d\d$", found.stderr, re.M))), (2, "", True))
    wrong += differs("deadlocks to a full device", to_full_device(tool_words("armc-portfolio", "--program", program, "--deadlock", example("open_door.armc"))), (8, False))
    shown, status = on_terminal(tool_words("armc-portfolio", "--program", program, "--deadlock", example("open_door.armc")))
    wrong += differs("deadlocks on a terminal", (status, "deadlock\nstart P: i\n" in shown), (1, True))
    status, out, err, left = interrupted(program, "armc-portfolio", ["--deadlock", "--budget", "1000000", hard], signal.SIGTERM, "deadlock")
    return wrong + differs("an interrupt", (status, out, "interrupted; tried" in err, "Traceback" in err, left), (130, "", True, False, []))


def wrong_stuck_protocol(program, path, kept):
    """What --stuck prints is the protocol with rows, of which `check` gives the answer; and a refusal where there are none."""
    rows = call(program, "armc-portfolio", "--stuck", "--but", END, path)
    found = run([program, "check", write(kept, rows.stdout)])
    text = found.stdout.replace("armc 1 safe", "deadlock free", 1)
    told = run(tool_words("armc-second-opinion", path, "/dev/stdin", "--but", END), input=text)
    wrong = differs("the proof for the rows", (rows.returncode, found.returncode, told.stdout), (0, 0, "valid\n"))
    found = call(program, "armc-portfolio", "--stuck", example("patterns", "queue_of_nodes.armc"))
    return wrong + differs("--stuck that is not said", (found.returncode, found.stdout, "what is stuck is not said" in found.stderr), (2, "", True))


# A protocol with a row of each kind that leaves out a section, and a letter that a proof of it shows not to come.
OPEN = """protocol open
cell L { free held }
array P { i c x }
init { P: i i*; }
rule enter { L: set free -> held; P: at i -> c; }
rule leave { L: set held -> free; P: at c -> i; }
bad { P: any* x any*; }
"""


def coverage(program):
    """Limits of time and memory, rows as they come and a table at the end, proofs of the protocol that show what never comes, and open rows."""
    with tempfile.TemporaryDirectory() as folder:
        path = write(os.path.join(folder, "open.armc"), OPEN)
        found = call(program, "armc-coverage", "--jobs", "2", path)
        table = re.search(r"^letter  P.x +never +proof with \d states?  <-- dead$", found.stdout, re.M)
        rows = found.stdout.partition("\nAt the start anything may stand where an init row leaves out a section:\n")[2].splitlines()
        wrong = differs("open rows", (found.returncode, bool(table), rows), (1, True, ["  init { P: i i*; }  L"]))
        wrong += differs("rows as they come", sorted(re.findall(r"^  (\w+ [\w.]+): ", found.stderr, re.M)), sorted(f"{row[0]} {row[1]}" for row in rows_of_table(found.stdout)))
        shown = call(program, "armc-coverage", "--show", "P.x", path)
        wrong += differs("--show of a proof", (shown.returncode, judged(program, path, shown.stdout), shown.stderr), (1, True, ""))
    hard = example("hard", "lamport_fast.armc")
    began = spent()
    found = call(program, "armc-coverage", "--jobs", "2", "--seconds", "2", hard)
    late = spent() - began > 60
    wrong += differs("a limit of time", (late, "Traceback" in found.stderr, len(rows_of_table(found.stdout))), (False, False, asked_names(program, hard)))
    found = call(program, "armc-coverage", "--jobs", "2", "--seconds", "30", "--memory", "16", "--show", "P.cxy", hard)
    return wrong + differs("a limit of memory", ("Traceback" in found.stderr, found.returncode in (0, 1, 2)), (False, True))


def rows_of_table(text):
    """The rows of a table of letters and rules, as words."""
    return [line.split() for line in text.partition("\n\n")[0].splitlines()[1:]]


def asked_names(program, path):
    protocol = Protocol(canonical(program, path))
    return sum(len(section.letters) for section in protocol.sections) + len(protocol.rules)


# Properties of examples/tickets.armc, of which some hold and some fail.
PROPS = """# what holds, and what does not
bad two_inside { P: any* c any* c any*; }
bad behind_the_door { P: any* { i w } any* c any*; }   # (a process that waits on the left)
bad behind_the_door { P: any* w i any* c any*; }
bad waiting { P: any* w any*; }
bad inside_and_waiting_left { P: any* w any* c any*; }
"""


def properties(program):
    """The table, the certificates of a folder, what a given certificate shows, and what is refused."""
    wrong, tickets = [], example("tickets.armc")
    with tempfile.TemporaryDirectory() as folder:
        path, kept = write(os.path.join(folder, "props"), PROPS), os.path.join(folder, "kept")
        found = call(program, "armc-properties", "--jobs", "2", "--certificates", kept, tickets, path)
        rows = {row[0]: row[1:] for row in (line.split() for line in found.stdout.splitlines()[1:])}
        alone = printed(program, "checkall", tickets, path)
        told = dict(re.findall(r"^property (\w+)\narmc 1 (\w+)$", alone, re.M))
        wrong += differs("the answers", (found.returncode, {name: row[0] for name, row in rows.items()}), (1, told))
        for name, row in rows.items():
            files = [os.path.join(kept, f"{name}.armc"), os.path.join(kept, row[-1])]
            wrong += [] if judged(program, files[0], read(files[1])) else [f"{files} are not judged valid"]
        proof = os.path.join(kept, rows["two_inside"][-1])
        found = call(program, "armc-properties", tickets, path, proof)
        shown = [line.split()[:2] for line in found.stdout.splitlines()[1:]]
        wrong += differs("what a proof shows", (found.returncode, shown[0], len(shown)), (2, ["two_inside", "safe"], 4))
        found = call(program, "armc-properties", tickets, path, "-", text=read(os.path.join(kept, rows["waiting"][-1])))
        wrong += differs("what a run shows", (found.returncode, "waiting                  unsafe" in found.stdout), (1, True))
        found = call(program, "armc-properties", tickets, path, "-", text="armc 1 unknown\n")
        wrong += differs("no certificate", (found.returncode, found.stderr), (6, "armc: certificate: line 1: nothing to verify\n"))
        wrong += wrong_properties(program, path)
        # (where each search alone reaches its budget, one check of all together answers)
        found = call(program, "armc-properties", "--jobs", "2", "--budget", "3", "--seconds", "900", tickets, path)
        wrong += differs("by the portfolio", (found.returncode, "unknown" in found.stdout), (1, False))
    for words, told in re.findall(r"^\$ armc-properties (.*)\n((?:.*\n)*?)```$", read("docs", "TOOLS.md"), re.M):
        found = call(program, "armc-properties", *words.split(), cwd=TOP)
        wrong += differs(f"armc-properties {words}", found.stdout, told)
    return wrong


def wrong_properties(program, path):
    """Faults: a text of properties that is refused, missing files, a refused protocol, a full device, an interrupt."""
    wrong, tickets = [], example("tickets.armc")
    with tempfile.TemporaryDirectory() as folder:
        refused = write(os.path.join(folder, "refused"), "bad one { P: any* z; }\n")
        for words, status, said in (([tickets], 3, "usage: "), ([tickets, refused], 6, "armc: properties: line 1 column 19: unknown z\n"),
                                    ([tickets, os.path.join(folder, "nowhere")], 4, "read fault"), ([os.path.join(folder, "nowhere"), path], 4, "read fault"),
                                    ([refused, path], 5, "armc: protocol: line 1 column 1: unexpected token\n"), ([tickets, "-", "-"], 3, "one text alone")):
            wrong += wrong_refusal(f"armc-properties {words}", call(program, "armc-properties", *words), status, said)
        wrong += differs("a full device", to_full_device(tool_words("armc-properties", "--program", program, tickets, path)), (8, False))
    tool = tool_words("armc-properties", "--program", program, "--jobs", "1", tickets, path)
    shown, status = on_terminal(tool)
    piped = run(tool)
    wrong += differs("on a terminal", (status, shown), (piped.returncode, piped.stdout))
    with tempfile.TemporaryDirectory() as folder:
        hard = write(os.path.join(folder, "hard"), "bad both { P: any* { c cy cx cxy } any* { c cy cx cxy } any*; }\n")
        status, out, err, left = interrupted(program, "armc-properties", [example("hard", "lamport_fast.armc"), hard], signal.SIGINT)
    return wrong + differs("an interrupt", (status, out.split()[:2], "Traceback" in err, left), (130, ["property", "answer"], False, []))


def head_commands(program):
    """The commands in heads of protocols of a folder, ends that are meant, sizes of proofs, and words that mean nothing."""
    tickets = bare("tickets")
    with tempfile.TemporaryDirectory() as folder:
        write(os.path.join(folder, "p.props"), PROPS)
        for name, head, text in (
            ("back", "# command: back\n# expect: safe\n", tickets), ("past", "# command: past\n# options: --bound 1\n# expect: safe\n", tickets),
            ("check", "# expect: safe\n", tickets), ("free", "# command: deadlock\n# expect: deadlock free\n", tickets),
            ("end", "# command: deadlock\n# expect: deadlock\n", ENDS), ("meant", f"# command: deadlock\n# may end: {END}\n# expect: deadlock free\n", ENDS),
            ("properties", "# command: properties p.props\n# expect: unsafe\n", tickets), ("none", "# command: backward\n# expect: safe\n", tickets),
            ("options", "# options: --methods length\n# expect: safe\n", tickets),
        ):
            write(os.path.join(folder, f"{name}.armc"), f"{head}{text}\n")
        found = call(program, "check-folder", "--jobs", "2", folder)
    shown = {os.path.basename(line.split()[0])[:-5]: re.sub(r"^.*\d s +| +<-- .*", "", line) for line in found.stdout.splitlines()[1:-1]}
    wrong = differs("commands of heads", (found.returncode, found.stdout.splitlines()[-1]), (1, "7 as expected, 2 not, 0 expect nothing"))
    wrong += differs("words that mean nothing", shown["options"], "the words mean nothing: check --methods length")
    wrong += differs("a command that is none", shown["none"], "backward is no command for a head")
    return wrong + differs("a proof, a run and properties", (shown["free"], shown["end"], shown["properties"]), ("proof with 2 states", "run of 2 steps", "2 safe, 2 unsafe"))


CHECKS = {
    "rows of what is stuck": stuck_rows,
    "deadlocks by every method": deadlocks,
    "coverage with limits": coverage,
    "armc-properties": properties,
    "commands in heads": head_commands,
}

if __name__ == "__main__":
    sys.exit(main(CHECKS))
