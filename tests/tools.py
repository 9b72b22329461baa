"""What the tools beside the program do: armc-walk, armc-portfolio, armc-coverage, armc-explain, armc-second-opinion, armc-check-folder, and the
release. Usage: tests/tools.py [PROGRAM] [NAME..]
"""
import glob
import itertools
import json
import os
import re
import shutil
import signal
import subprocess
import sys
import tarfile
import tempfile
import xml.etree.ElementTree as xml

from support import (SECONDS, SYSTEMS, TOOLS, TOP, call, canonical, differs, example, interrupted, judged, main, module_of, on_terminal, opinion, printed, read,
                     read_bytes, run, second_checker, to_full_device, tool_words, without_comments, write, write_all, wrong_refusal)
import definitions
from armc_tools import automata, drawing, expressions, rows, stuck, words as in_words
from armc_tools.certificate import read_certificate
from armc_tools.protocol import Protocol, Section

DEAD = "protocol dead\narray P { a b c }\ninit { P: a*; }\nrule go { P: at a -> b; }\nrule on { P: at c -> c; }\nbad { P: any* c any*; }\n"
# How many states a search may count whose sum is tried by its budgets.
MOST = 200
# Two counters that have to be compared: no proof with the first letters unknown, and a budget of 1000 is soon reached.
ENDLESS = example("tutorial", "equal_counters.armc")


def faults(program):
    """What each tool does with words that mean nothing, a missing file, a refused protocol, a program that is none, and a full device."""
    wrong = []
    with tempfile.TemporaryDirectory() as folder:
        refused = write(os.path.join(folder, "refused.armc"), "protocol p\narray P { a a }\n")
        for tool in ("armc-walk", "armc-portfolio", "armc-coverage", "armc-explain"):
            nothing = ["--random", "1"] if tool == "armc-walk" else []
            for words, status, said in (
                ([], 3, "usage: "),
                (["--no-such", "f"], 3, "usage: "),
                ([os.path.join(folder, "nowhere")], 4, "armc: read fault: "),
                ([refused], 5, "armc: protocol: line 2 column 13: duplicate a\n"),
            ):
                wrong += wrong_refusal(f"{tool} {words}", call(program, tool, *words), status, said)
            found = call("/bin/true", tool, *nothing, example("first.armc"))
            wrong += differs(f"{tool} with another program", (found.returncode, "does not answer as armc" in found.stderr), (126, True))
            wrong += differs(f"{tool} with a full device", to_full_device(tool_words(tool, "--program", program, *nothing, example("first.armc"))), (8, False))
            found = call(program, tool, "--help")
            wrong += differs(f"{tool} --help", (found.returncode, found.stdout.startswith("usage: ")), (0, True))
    return wrong


def terminals(program):
    """What a terminal shows of the tools that ask nothing is what a pipe gets."""
    wrong, lock = [], example("tutorial", "lock.armc")
    for tool, words in (("armc-coverage", [lock]), ("armc-explain", ["--why", lock]), ("armc-second-opinion", [example("tickets.armc"), example("tickets.cert")]),
                        ("armc-walk", ["--random", "9", "--seed", "1", example("open_door.armc")]), ("check-folder", [example("tutorial")])):
        asked = [] if tool == "armc-second-opinion" else ["--program", program]
        words = tool_words(tool, *asked, *words)
        piped = run(words)
        shown, status = on_terminal(words)
        # (rows that are told as they come have no order of their own)
        texts = [sorted(re.sub(r" *\d+(\.\d s| steps a second) *", " time ", text).splitlines()) for text in (shown, piped.stdout + piped.stderr)]
        wrong += differs(f"{tool} on a terminal", (status, texts[0]), (piped.returncode, texts[1]))
    return wrong


def walk(program):
    """A dialogue in a pipe and on a terminal, random walks, and a walk that ends bad."""
    found = call(program, "armc-walk", "--letters", "2", example("tickets.armc"), text="1\nu\n1\n1\n?\ns P: c x\nr 2\nq\n")
    lines = found.stdout.splitlines()
    wrong = differs("a walk", (found.returncode, lines[:3]), (0, ["0. P: i i", "    1 request -> P: i w", "    2 request -> P: w i"]))
    wrong += [f"a walk does not show {line!r}: {lines}" for line in ("1. P: i w   by request", "2. P: i c   by enter", "took 2 random steps") if line not in lines]
    wrong += [] if "armc: configuration: line 1 column 6: unexpected token" in lines else [f"a wrong configuration is not refused: {lines}"]
    with tempfile.TemporaryDirectory() as folder:
        kept = os.path.join(folder, "run.cert")
        found = call(program, "armc-walk", example("open_door.armc"), "P:i  i # two", text=f"1\n1\nw {kept}\n")
        wrong += [] if found.returncode == 1 and judged(program, example("open_door.armc"), read(kept)) else [f"a bad walk: {found}"]
        wrong += [] if found.stdout.endswith(read(kept)) and "BAD" in found.stdout else [f"a bad walk shows {found.stdout!r}"]
    runs = [call(program, "armc-walk", "--random", "30", "--seed", "7", "--letters", "2", example("open_door.armc")) for _ in range(2)]
    wrong += differs("a random walk taken again", runs[0].stdout, runs[1].stdout)
    wrong += [] if runs[0].returncode == 1 and judged(program, example("open_door.armc"), runs[0].stdout) else [f"a random walk: {runs[0]}"]
    found = call(program, "armc-walk", "--random", "3", example("tickets.armc"))
    told = re.fullmatch(r"armc-walk: 3 steps in 1 walk through \d configurations, \d+ steps a second; no walk ended in a bad configuration\n", found.stderr)
    wrong += differs("a walk that is no run", (found.returncode, found.stdout[:27], bool(told)), (0, "# a walk, not judged\nstart ", True))
    shown, status = on_terminal(tool_words("armc-walk", "--program", program, example("first.armc")), b"q\n")
    return wrong + differs("a walk on a terminal", ("step, u, r, s, p, w, ? or q: " in shown, status), (True, 0))


def portfolio(program):
    """Answers that are judged valid and that the told command line gives; no answer; an interrupt; sections in another order; a terminal."""
    wrong = []
    for name, status in (("tickets", 0), ("burns_no_right", 1), ("snapshot_channel", 0)):
        found = call(program, "armc-portfolio", "--jobs", "2", "--one-order", example(f"{name}.armc"))
        told = re.search(r"s: armc (.*)$", found.stderr, re.M)
        again = run([program, *told[1].split()]) if told else None
        if not told or (found.returncode, again.returncode, again.stdout) != (status, status, found.stdout) or not judged(program, example(f"{name}.armc"), found.stdout):
            wrong.append(f"{name}: {found}")
    found = call(program, "armc-portfolio", "--jobs", "2", "--budget", "3", example("tickets.armc"))
    wrong += differs("no answer", (found.returncode, found.stdout, "no answer after" in found.stderr), (2, "", True))
    wrong += [] if re.search(r"^  check --method length +counted \d+$", found.stderr, re.M) else [f"it tried {found.stderr!r}"]
    return wrong + portfolio_reordered(program) + portfolio_interrupted(program)


def portfolio_reordered(program):
    """Where an answer comes of another order only, the protocol in that order is written, and the certificate belongs to it."""
    with tempfile.TemporaryDirectory() as folder:
        path, other = (os.path.join(folder, name) for name in ("p.armc", "p.reordered.armc"))
        shutil.copy(example("tutorial", "height.armc"), path)
        found = call(program, "armc-portfolio", "--jobs", "2", "--budget", "1000", path)
        if found.returncode or not judged(program, other, found.stdout) or f"{other} has the sections in the order K S" not in found.stderr:
            return [f"another order: {found}"]
        wrong = differs("the other order", Protocol(read(other)).rules, Protocol(canonical(program, path)).rules)
        found = call(program, "armc-portfolio", "--jobs", "2", "--budget", "1000", "--reordered", os.path.join(folder, "no", "p"), path)
        told = (found.returncode, judged(program, other, found.stdout), "in the order K S" in found.stderr)
        return wrong + differs("an order that cannot be written", told, (8, True, True))


def portfolio_interrupted(program):
    """An interrupt ends all searches, and it says what was tried; and what a terminal shows."""
    words, wrong = ["--budget", "1000000", ENDLESS], []
    for number in (signal.SIGINT, signal.SIGTERM):
        status, out, err, left = interrupted(program, "armc-portfolio", words, number)
        wrong += differs("an interrupt", (status, out, "interrupted; tried" in err, left), (130, "", True, []))
    tool = tool_words("armc-portfolio", "--program", program, "--one-order")
    for more, layout in ((words, r"check: budget 1000000, \d"), (words[-1:], r"check: budget 10+, 10\d+ states counted before, \d")):
        # (a busy machine needs more time till there is something to show)
        shown = next((shown for shown in (on_terminal([*tool, "--seconds", seconds, *more])[0] for seconds in ("2", "8", "32", "128")) if re.search(layout, shown)), "")
        wrong += [] if shown else [f"a terminal does not show {layout!r}"]
    return wrong


def coverage(program):
    """Tables and statuses; and the patterns of where a rule can fire against the steps that the definitions give."""
    found = call(program, "armc-coverage", "--jobs", "2", example("tickets.armc"))
    rows = [line.split() for line in found.stdout.splitlines()[1:]]
    wanted = [["letter", "P.i", "occurs", "after", "0", "steps"], ["letter", "P.w", "occurs", "after", "1", "step"], ["letter", "P.c", "occurs", "after", "2", "steps"],
              ["rule", "request", "occurs", "after", "0", "steps"], ["rule", "enter", "occurs", "after", "1", "step"], ["rule", "leave", "occurs", "after", "2", "steps"]]
    wrong = differs("tickets", (found.returncode, rows), (0, wanted))
    with tempfile.TemporaryDirectory() as folder:
        path = os.path.join(folder, "dead.armc")
        for head, status, marks in (("", 1, ["dead", "dead"]), ("# never: P.c on\n", 0, ["as meant", "as meant"]), ("# never: P.c on P.b\n", 1, ["is meant never to come"])):
            write(path, head + DEAD)
            found = call(program, "armc-coverage", "--jobs", "2", path)
            wrong += differs(f"with {head!r}", (found.returncode, all(found.stdout.count(mark) >= marks.count(mark) for mark in marks)), (status, True))
        found = call(program, "armc-coverage", "--show", "P.b", path)
        wrong += differs("--show", found.stdout, "armc 1 unsafe\nstart P: a\nstep go P: b\nend\n")
        found = call(program, "armc-coverage", "--budget", "1", "--show", "P.c", path)
        wrong += differs("a small budget", found.returncode, 2)
        found = call(program, "armc-coverage", "--show", "Q.b", path)
        wrong += differs("an unknown name", found.returncode, 3)
    words = ["--budget", "20000", example("hard", "lamport_fast.armc")]
    status, out, err, left = interrupted(program, "armc-coverage", words, signal.SIGINT)
    told = (status, out.split()[:3], err.endswith("armc-coverage: interrupted\n"), "Traceback" in err, left)
    wrong += differs("an interrupt", told, (130, ["name", "answer", "shown"], True, False, []))
    return wrong + wrong_rows_of_rules()


def wrong_rows_of_rules():
    """Where the rows of a rule do not match exactly the configurations, of at most three letters a section, from which the rule leads on."""
    wrong, tool = [], module_of(os.path.join(TOOLS, "armc-coverage"), "coverage")
    for path in sorted(glob.glob(os.path.join(SYSTEMS, "*.armc"))):
        text = read(path)
        steps, protocol = definitions.Steps(text), Protocol(without_comments(text))
        rows = {rule.name: [] for rule in protocol.rules}
        for question in tool.rule_questions(protocol):
            rows[question.name] += [dict(re.findall(r"(\w+): ([^;]*);", row)) for row in question.rows]
        most = 3 if len(steps.sections) < 3 else 2
        for r, (name, _) in enumerate(steps.rules):
            for configuration in definitions.configurations(steps.sections, most):
                fires = bool(steps.successors(r, configuration))
                if fires != any(definitions.matches(steps.sections, row, configuration) for row in rows[name]):
                    wrong.append(f"{os.path.basename(path)}, rule {name}: {configuration} is {'missed' if fires else 'met'}")
    return wrong


LOCK = """lock.armc: valid.
A proof by an automaton of 4 states.
Each configuration that a run can reach, with any number of processes, is one of these:

Where L is free:
  P is i*   (all i)

Where L is held:
  P is i* c i*   (one c, all others i)

In all of them:
  P: at most one c
"""
DOOR = """open_door.armc: valid.
A run of 2 steps. What changed is in brackets; -x was taken away.

step  rule     P
0     (start)  i i
1     enter    i [c]
2     enter    [c] c

Its end is bad: bad { P: any* c any* c any*; }
"""


def explain(program):
    """The words for a proof and a run, a refused certificate, and pictures; and that what is told of a proof is exactly its configurations."""
    wrong = differs("the lock", call(program, "armc-explain", example("tutorial", "lock.armc")).stdout, LOCK)
    wrong += differs("the door", call(program, "armc-explain", example("open_door.armc")).stdout, DOOR)
    found = call(program, "armc-explain", example("tickets.armc"), "-", text="armc 1 safe\nstates 0\nend\n")
    wrong += differs("a refused proof", (found.returncode, found.stderr), (7, "armc-explain: not valid: initial missing: P: i\n"))
    found = call(program, "armc-explain", example("tickets.armc"), "-", text="armc 1 unknown\ncounted 9\nbudget 9\nend\n")
    wrong += differs("a reached budget", found.returncode, 2)
    found = call(program, "armc-explain", "--seconds", "1", example("hard", "lamport_fast.armc"))
    wrong += wrong_refusal("a search that takes long", found, 2, "the search was stopped after 1 s")
    stuck = "deadlock\nstart P: i\nstep enter P: c\nend\n"
    found = call(program, "armc-explain", example("open_door.armc"), "-", text=stuck)
    told = (found.returncode, "not judged" in found.stdout, found.stdout.endswith("No rule can fire at its end.\n"))
    wrong += differs("a deadlock", told, (0, True, True))
    with tempfile.TemporaryDirectory() as folder:
        for name, part in (("tutorial/lock", "L.held"), ("open_door", "enter")):
            files = [os.path.join(folder, file) for file in ("p.svg", "p.html")]
            call(program, "armc-explain", "--plain", "--svg", files[0], "--html", files[1], example(f"{name}.armc"))
            texts = [read(path) for path in files]
            if not all(part in text and "</svg>" in text for text in texts) or xml.fromstring(texts[0]).tag != "{http://www.w3.org/2000/svg}svg":
                wrong.append(f"the pictures of {name} are {[text[:100] for text in texts]}")
        found = call(program, "armc-explain", "--svg", os.path.join(folder, "no", "p.svg"), example("first.armc"))
        wrong += differs("a picture that cannot be written", found.returncode, 8)
    return wrong + wrong_neighbours() + wrong_proofs(program)


def wrong_proofs(program):
    """Where the rows that are told of a proof, put together again, have other words than the proof; and where an expression has another language."""
    wrong = []
    for path in sorted(glob.glob(example("*.armc")) + glob.glob(example("tutorial", "*.armc"))):
        certificate = read_certificate(printed(program, "check", path, "--budget", "3000"))
        if certificate is None or certificate.kind != "safe":
            continue
        protocol = Protocol(canonical(program, path))
        words = rows.trimmed(certificate, protocol.sections)
        split, told = [()], [()]
        for block, start in rows.blocks_of(words, protocol.sections):
            sections = [protocol.sections[k] for k in block]
            found = rows.rows_of(words, block, start)
            said = [filled(box, row, sections) for boxes, alike in rows.paragraphs(found, sections) for box in boxes for row in alike]
            split, told = ([before + row for before in earlier for row in later] for earlier, later in ((split, found), (told, said)))
        if together(split, protocol) != words:
            wrong.append(f"{os.path.basename(path)}: the rows are not the proof")
        if together(told, protocol) != words:
            wrong.append(f"{os.path.basename(path)}: what is told is not the proof")
        for one in {each for row in split for each in row if len(each) <= 12}:
            if expressions.words_of(expressions.expression(one)) != one:
                wrong.append(f"{os.path.basename(path)}: an expression has another language")
    return wrong


def wrong_neighbours():
    """Where the facts about ends and neighbours of a list are not those of its words of at most five letters."""
    wrong, section = [], Section("array", "P", ["a", "b", "c"])
    for pattern, wanted in (
        ("a b* c", ["first: a", "last: c", "never b right before a"]), ("{ a b }* c", ["last: c"]), ("a any* b", ["first: a", "last: b"]), ("any*", []),
        ("a* b+ a* c", ["never first: c", "last: c"]), ("{ b c } a* { b c }", ["never first: a", "never last: a"]),
    ):
        words = stuck.language_of(section, [stuck.atoms_of(section, pattern)])
        found = in_words.neighbours(words, section.letters)
        lists = [each for count in range(1, 6) for each in itertools.product("abc", repeat=count) if definitions.matches([("P", "array", ["a", "b", "c"])], {"P": pattern}, [each])]
        for line in found:
            wrong += [f"{line} of {pattern} does not hold of {each}" for each in lists if not is_said(line, each)]
        wrong += [f"{line} of {pattern} is not told" for line in wanted if line.startswith(("first", "last", "never first", "never last")) and line not in found]
    return wrong


def is_said(line, letters):
    """Whether a fact about ends or neighbours holds of a list."""
    names = re.findall(r"\b[abc]\b", line)
    if "right before" in line:
        before, behind = (re.findall(r"\b[abc]\b", part) for part in line.split(" right before "))
        return not any(one in before and two in behind for one, two in zip(letters, letters[1:]))
    return (letters[0 if "first" in line else -1] in names) != line.startswith("never")


def filled(box, row, sections):
    """A row of languages for all sections, of the letters of the cells and the languages of the others."""
    letters, lists = iter(box), iter(row)
    return tuple(((False, tuple((letter, 1) for letter in sorted(next(letters)))), (True, ())) if section.kind == "cell" else next(lists) for section in sections)


def together(rows, protocol):
    """The language of the words of all rows, with separators."""
    last = len(protocol.sections) - 1

    def step(state):
        found = {}
        for row, k, q in state:
            for letter, target in rows[row][k][q][1]:
                found.setdefault((k, letter), set()).add((row, k, target))
            if k < last and rows[row][k][q][0]:
                found.setdefault((k, -1), set()).add((row, k + 1, 0))
        return [(letter, frozenset(states)) for letter, states in found.items()]

    def accepts(state):
        return any(k == last and rows[row][k][q][0] for row, k, q in state)
    return automata.language(frozenset((row, 0, 0) for row in range(len(rows))), step, accepts)


def folders(program):
    """Options in the head of a protocol, and the report of JUnit."""
    with tempfile.TemporaryDirectory() as folder:
        report = os.path.join(folder, "report.xml")
        for name, head in (("own", "# options: --method length --budget 300\n"), ("other", ""), ("silent", None)):
            text = read(example("burns_no_right.armc"))
            write(os.path.join(folder, f"{name}.armc"), head + text if head is not None else text.replace("# expect:", "# expected:"))
        found = call(program, "check-folder", "--junit", report, "--budget", "250", folder)
        cases = {case.get("name"): [each.tag for each in case] for case in xml.parse(report).getroot()}
        wanted = {"own.armc": ["system-out"], "other.armc": ["failure", "system-out"], "silent.armc": ["skipped", "system-out"]}
        wrong = differs("options and report", (found.returncode, cases), (1, wanted))
        found = call(program, "check-folder", os.path.join(folder, "nowhere"))
        wrong += differs("a folder that is not there", (found.returncode, "Traceback" in found.stderr), (2, False))
        write(os.path.join(folder, "own.armc"), "# expect: safe\nprotocol p\narray P { a a }\n")
        found = call(program, "check-folder", folder)
        wrong += differs("a refused protocol", (found.returncode, "line 3 column 13: duplicate a" in found.stdout), (1, True))
        return wrong + differs("a full device", to_full_device(tool_words("check-folder", "--program", program, folder)), (126, False))


def release(program):
    """Two builds give the same bytes; the program and the tools run from the archive and the package, where nothing else of armc is seen."""
    with tempfile.TemporaryDirectory() as folder:
        names, wrong = {}, []
        for kind, at in itertools.product(("dist", "deb"), ("one", "two")):
            os.makedirs(os.path.join(folder, at), exist_ok=True)
            names[kind, at] = run(tool_words("make-release", kind, "--program", program, "--folder", os.path.join(folder, at)), check=True).stdout.strip()
        for kind in ("dist", "deb"):
            wrong += [] if read_bytes(names[kind, "one"]) == read_bytes(names[kind, "two"]) else [f"two builds of {kind} are not the same bytes"]
        with tarfile.open(names["dist", "one"]) as archive:
            archive.extractall(folder)
        root = names["dist", "one"].removesuffix(".tar.gz").replace("/one/", "/")
        if shutil.which("dpkg-deb"):
            run(["dpkg-deb", "-x", names["deb", "one"], os.path.join(folder, "deb")], check=True)
            same = run(["diff", "-r", root, os.path.join(folder, "deb", "usr")])
            wrong += [] if same.returncode == 0 else [f"the package differs from the archive: {same.stdout[:200]}"]
        if shutil.which("dpkg") and os.geteuid() == 0:
            wrong += wrong_package(names["deb", "one"], root)
        return wrong + wrong_strays(program) + wrong_root(program, root)


def wrong_strays(program):
    """Whether a file that git does not keep is packed."""
    if not shutil.which("git"):
        return []
    with tempfile.TemporaryDirectory() as folder:
        for name in ("tools", "man", "completions", "docs", "examples", "editors"):
            shutil.copytree(os.path.join(TOP, name), os.path.join(folder, name))
        for name in ("README.md", "LICENSE"):
            shutil.copy(os.path.join(TOP, name), folder)
        for words in (["init", "-q"], ["add", "."]):
            run(["git", "-C", folder, *words], check=True)
        packed, words = [], [os.path.join(folder, "tools", "make-release"), "dist", "--program", program, "--folder", folder]
        for _ in range(2):
            with tarfile.open(run([sys.executable, *words], check=True).stdout.strip()) as archive:
                packed.append(archive.getnames())
            write(os.path.join(folder, "examples", "stray.cert"), "")
        return [] if packed[0] == packed[1] and any(name.endswith("examples/first.cert") for name in packed[0]) else ["a file that git does not keep is packed"]


def wrong_package(package, unpacked):
    """What goes wrong where dpkg installs the package in an empty root, the program runs in it, and dpkg takes the package away again."""
    with tempfile.TemporaryDirectory() as root:
        state = os.path.join(root, "var", "lib", "dpkg")
        for name in ("info", "updates"):
            os.makedirs(os.path.join(state, name))
        for name in ("status", "available"):
            write(os.path.join(state, name), "")
        # (an empty root has no C library that dpkg knows of)
        words = ["dpkg", f"--root={root}", "--force-depends"]
        environment = {**os.environ, "PATH": f"/usr/sbin:/sbin:{os.environ['PATH']}"}
        found = run([*words, "-i", package], env=environment)
        if found.returncode:
            return [f"dpkg -i: {found.stderr[-300:]}"]
        same = run(["diff", "-r", unpacked, os.path.join(root, "usr")])
        wrong = [] if same.returncode == 0 else [f"what dpkg installs differs from the archive: {same.stdout[:200]}"]
        place = os.path.join(root, "usr", "share", "doc", "armc", "examples", "first")
        found = run([os.path.join(root, "usr", "bin", "armc"), "verify", f"{place}.armc", f"{place}.cert"])
        wrong += differs("the installed program", (found.returncode, found.stdout), (0, "valid\n"))
        found = run([*words, "-P", "armc"], env=environment)
        left = [name for _, _, names in os.walk(os.path.join(root, "usr")) for name in names]
        return wrong + ([] if found.returncode == 0 and not left else [f"dpkg -P: {found.stderr[-300:]} {left[:5]}"])


def without_repository():
    """Words before a command that hide the repository from it, in a namespace where it is an empty folder; none where this machine lets nobody do so."""
    words = ["unshare", *([] if os.geteuid() == 0 else ["-r"]), "-m", "sh", "-c", 'mount -t tmpfs none "$0" && exec "$@"', TOP]
    return words if shutil.which("unshare") and run([*words, "true"]).returncode == 0 else []


def wrong_root(program, root):
    """What goes wrong in a root with nothing but the archive and the C library, and, for the tools, where the repository and the toolchain are hidden."""
    needed = re.findall(r"(/\S+)", run(["ldd", program]).stdout)
    other = [path for path in needed if not re.match(r"(ld-linux[\w-]*|libc|libm|libpthread|libdl|librt|libgcc_s)\.so", os.path.basename(path))]
    wrong = [f"the program needs {other}"] if other else []
    place = os.path.join(root, "share", "doc", "armc", "examples")
    tools = [["armc-explain", f"{place}/open_door.armc"], ["armc-explain", "--why", "--html", os.path.join(root, "page.html"), f"{place}/tickets.armc"],
             ["armc-walk", "--random", "9", f"{place}/open_door.armc"], ["armc-portfolio", f"{place}/tickets.armc"],
             ["armc-portfolio", "--deadlock", f"{place}/tickets.armc"], ["armc-properties", f"{place}/patterns/several_properties.armc", f"{place}/patterns/several_properties.props"],
             ["armc-coverage", f"{place}/tickets.armc"], ["armc-check-folder", f"{place}/tutorial", "--budget", "1000"],
             ["armc-expand", "--check", f"{place}/templates/permits.armct", "n=3"], ["armc-explain", "--set", "n=1", f"{place}/templates/permits.armct"],
             ["armc-export", "--to", "dot", "--rules", "--out", os.path.join(root, "exported"), f"{place}/tickets.armc", f"{place}/tickets.cert"],
             ["armc-search-one", "--help"]]
    hide = without_repository()
    # The tools find the program of the archive, which is not on the path.
    environment = {"PATH": f"{os.path.dirname(sys.executable)}:/usr/bin:/bin", "HOME": root}
    for tool, *words in tools:
        words = [os.path.join(root, "bin", tool), *words]
        found = run([*hide, *words], env=environment, cwd=root)
        wrong += [] if found.returncode in (0, 1) and not found.stderr.count("Traceback") and found.stdout else [f"{words}: {found}"]
    for path in needed:
        os.makedirs(root + os.path.dirname(path), exist_ok=True)
        shutil.copy(path, root + path)
    enter = [] if os.geteuid() == 0 else ["unshare", "-r"]
    if shutil.which("chroot") and run([*enter, "true"]).returncode == 0:
        inside = place[len(root):]
        found = run([*enter, shutil.which("chroot"), root, "/bin/armc", "verify", f"{inside}/first.armc", f"{inside}/first.cert"])
        wrong += differs("in a root of its own", (found.returncode, found.stdout, found.stderr), (0, "valid\n", ""))
    return wrong


def pictures(program):
    """The pictures of the pages are those that armc-explain draws, and that of the crates (tests/crate-picture)."""
    wrong = []
    with tempfile.TemporaryDirectory() as folder:
        for name, words in PICTURES.items():
            drawn = os.path.join(folder, name)
            call(program, "armc-explain", "--plain", "--svg", drawn, *words[:-1], example(words[-1]))
            if not os.path.exists(drawn) or read(drawn) != read("docs", "pictures", name):
                wrong.append(f"docs/pictures/{name} is not what armc-explain --plain --svg draws of {words}")
    wrong += differs("docs/pictures/before_merging.svg", read("docs", "pictures", "before_merging.svg"), before_merging(program))
    held = {os.path.basename(path) for path in glob.glob(os.path.join(TOP, "docs", "pictures", "*.svg"))}
    return wrong + differs("the pictures", held, {"before_merging.svg", "crates.svg", *PICTURES})


def before_merging(program):
    """The picture of the automaton N_1 of docs/METHOD.md, which is no proof, so that armc-explain does not draw it."""
    text = "armc 1 safe\nstates 3\nfinal 2\nedge 0 P.n 1\nedge 0 P.t 2\nedge 1 P.t 2\nedge 2 P.n 2\nend\n"
    return drawing.automaton(Protocol(canonical(program, example("token.armc"))), read_certificate(text), True)


PICTURES = {
    "lock.svg": ["--states", "tutorial/lock.armc"],
    "merged.svg": ["--states", "token.armc"],
    "lock_two_steps.svg": ["tutorial/lock_two_steps.armc"],
    "german.svg": ["german.armc"],
    "alternating_bit_any_ack.svg": ["alternating_bit_any_ack.armc"],
}


def told_pages(program):
    """The explanations that the pages and the rows of tests show are those that armc-explain prints."""
    wrong, pages = [], "".join(read(*name) for name in (("docs", "TOOLS.md"), ("docs", "GALLERY.md"), ("tests", "rows", "explained.md")))
    for searched, words, told in re.findall(r"^\$ (?:armc (.*) \| )?armc-explain (.*)\n((?:.*\n)*?)```$", pages, re.M):
        given = run([program, *searched.split()], cwd=TOP).stdout if searched else ""
        found = call(program, "armc-explain", *[os.path.join(TOP, word) if "/" in word else word for word in words.split()], text=given)
        wrong += differs(f"armc-explain {words}", found.stdout, told)
    return wrong


def wrong_sum(program, words, answer, counted, size=None):
    """Where a search does not have this answer, of this size where one is told, with the budget that is just enough, or another sum with one less."""
    wrong = []
    for budget, status in ((counted + 1, ["safe", "unsafe"].index(answer)), (counted, 2)):
        try:
            found = run([program, *words, "--budget", str(budget)], cwd=TOP)
        except subprocess.TimeoutExpired:
            return [f"{words} with budget {budget} does not end in {SECONDS} s"]
        line, steps = found.stdout.partition("\n")[2].partition("\n")[0], str(found.stdout.count("\nstep "))
        told = line if status == 2 else steps if status else line.partition("states ")[2]
        wanted = f"counted {counted}" if status == 2 else size or told
        wrong += differs(f"{words} with budget {budget}", (found.returncode, told), (status, wanted))
    return wrong


def wrong_numbers(program):
    """Where an answer or a number of a table of docs/HARD.md is not what the program says: `check` by its report, the others by their budgets."""
    wrong = []
    for command, words, cells in re.findall(r"^\| `armc (\w+) ([^`]*)` \|(.*)\|$", read("docs", "HARD.md"), re.M):
        answer, counted = [cell.strip() for cell in cells.split("|")][-2:]
        if command != "check":
            wrong += wrong_sum(program, [command, *words.split()], answer, int(counted))
            continue
        found = run([program, "check", "--report", *words.split()], cwd=TOP)
        report = json.loads(found.stderr) if found.stderr.startswith("{") else found.stderr
        wrong += differs(words, [report["verdict"], str(report["counted"])], [answer, counted])
    pair = [example("hard", f"lamport_fast{name}.armc") for name in ("", "_pointers")]
    proof = run([program, "check", pair[1]]).stdout
    return wrong + ([] if judged(program, pair[0], proof) else ["the proof of lamport_fast_pointers is not valid for lamport_fast"])


def other_searches(program):
    """The rows of the table of the other searches in examples/README.md, of searches that count few states: their sums, and the sizes of proofs and runs."""
    page, wrong = read(example("README.md")), []
    answers = dict(re.findall(r"^\| `(\w+)` \|[^|]*\| (safe|unsafe) \| \d+ \|", page, re.M))
    table = page.partition("## The other searches")[2]
    commands = re.findall(r"`(\w+)`", re.search(r"^\| protocol \|(.*)$", table, re.M)[1])
    for name, cells in re.findall(r"^\| `(\w+)` \|(.*)\|$", table, re.M):
        for command, cell in zip(commands, cells.split("|")):
            told = re.fullmatch(r" (?:(free|deadlock), )?(\d+), (\d+) ", cell)
            if not told or int(told[2]) > MOST:
                continue
            answer = {"free": "safe", "deadlock": "unsafe", None: answers[name]}[told[1]]
            wrong += wrong_sum(program, [command, os.path.join("examples", f"{name}.armc")], answer, int(told[2]), told[3])
    return wrong


def changed_certificates(text):
    """The text; without one of its lines, with a line twice, with another number, and cut: a few of each, at fixed places."""
    lines = text.splitlines(True)
    yield text
    for at in {1, len(lines) // 3, len(lines) // 2, len(lines) - 2}:
        yield "".join(lines[:at] + lines[at + 1:])
        yield "".join(lines[:at + 1] + lines[at:])
        yield "".join(lines[:at] + [re.sub(r"\d+$", "0", lines[at])] + lines[at + 1:])
    yield "".join(lines[:2] + ["final 0\n"] + lines[2:])
    yield text[:len(text) * 2 // 3]


def second_opinion(program):
    """The second checker and `verify` say the same of the proofs and runs of the examples, and of changed ones; and its statuses."""
    wrong, second = [], second_checker()
    for path in sorted(glob.glob(example("*.armc")) + glob.glob(example("patterns", "*.armc"))):
        text = printed(program, "check", path, "--budget", "3000")
        if text.startswith("armc 1 unknown") or len(text) > 4000:
            continue
        system = second.Reader(read(path)).protocol()
        for changed in changed_certificates(text):
            found = run([program, "verify", path, "-"], input=changed)
            wrong += differs(f"{os.path.basename(path)} with {changed[:60]!r}", opinion(second, system, changed), (found.returncode, (found.stdout or found.stderr).strip()))
    lock, tickets = example("tutorial", "lock.armc"), [example("tickets.armc"), example("tickets.cert")]
    with tempfile.TemporaryDirectory() as folder:
        free, stuck, none = write_all(folder, {"free": "deadlock free\nstates 1\nfinal 0\nend\n", "stuck": "deadlock\nstart L: free; P: i\nend\n", "none": "x\n"})
        for words, status, told in ((tickets, 0, "valid\n"), ([lock, free], 7, "not valid: initial missing: L: free; P: i\n"), ([lock, stuck], 7, "not valid: not stuck\n"),
                                    ([lock, none], 6, ""), ([none, none], 5, ""), ([lock, os.path.join(folder, "nowhere")], 4, ""), ([lock], 3, "")):
            found = run(tool_words("armc-second-opinion", *words))
            wrong += differs(f"armc-second-opinion {words}", (found.returncode, found.stdout), (status, told))
    return wrong + differs("armc-second-opinion to a full device", to_full_device(tool_words("armc-second-opinion", *tickets)), (8, False))


CHECKS = {
    "tools, with faults": faults,
    "tools on a terminal": terminals,
    "armc-walk": walk,
    "armc-portfolio": portfolio,
    "armc-coverage": coverage,
    "armc-explain": explain,
    "armc-second-opinion": second_opinion,
    "armc-check-folder": folders,
    "pictures": pictures,
    "pages of the tools": told_pages,
    "page of hard protocols": wrong_numbers,
    "other searches": other_searches,
    "release": release,
}

if __name__ == "__main__":
    sys.exit(main(CHECKS))
