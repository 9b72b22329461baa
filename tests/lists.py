"""Lists of searches for many machines, run here by bash and by make: answers as without a list, results that are refused, and ends by force.
tests/cluster, outside the gate, runs lists by GNU parallel over ssh and by Slurm. Usage: tests/lists.py [PROGRAM] [NAME..]
"""
import contextlib
import json
import os
import re
import shutil
import signal
import subprocess
import sys
import tempfile
import xml.etree.ElementTree as xml

from support import SECONDS, call, differs, example, main, on_terminal, read, run, till, to_full_device, tool_words, write, wrong_refusal
from armc_tools import results

PORTFOLIO, FOLDER = "armc-portfolio", "check-folder"
# A search that goes on for long.
ENDLESS = [example("tutorial", "equal_counters.armc"), "--budget", "1000000"]


@contextlib.contextmanager
def made(program, tool, *words):
    """The folder of a list."""
    with tempfile.TemporaryDirectory() as place:
        folder = os.path.join(place, "list")
        found = call(program, tool, *words, "--list", folder)
        assert (found.returncode, found.stdout) == (0, ""), found
        yield folder


def lines_of(folder):
    return read(os.path.join(folder, "list")).splitlines()


def run_lines(folder, lines):
    """Runs lines by bash, in the folder."""
    return run(["bash"], cwd=folder, input="".join(f"{line}\n" for line in lines))


def without_times(text):
    return re.sub(r"\b\d+\.\d( ?s)?\b", "TIME", re.sub(r" +", " ", text))


def portfolio(program):
    """A list of one protocol, run by bash half by half: what is missing, and the answer of the tool with one search at a time."""
    file, wrong = example("tutorial", "height.armc"), []
    words = ["--seconds", "900", "--budget", "1000", file]
    alone = call(program, PORTFOLIO, "--jobs", "1", *words, "--reordered", os.devnull)
    with made(program, PORTFOLIO, *words) as folder:
        lines, rest = lines_of(folder), os.path.join(folder, "rest")
        for count in (0, 2, len(lines)):
            wrong += [line for line in [run_lines(folder, lines[:count]).stderr] if line]
            found = call(program, PORTFOLIO, "--collect", folder, "--rest", rest, "--reordered", os.devnull)
            told = f"{len(lines) - count} of {len(lines)} searches have no result" in found.stderr
            wrong += differs(f"{count} results", (read(rest).splitlines(), told), (lines[count:], count < len(lines)))
            wrong += differs(f"{count} results", (found.returncode, found.stdout), (alone.returncode, alone.stdout) if count == len(lines) else (10, ""))
        wrong += differs("what is told", without_times(found.stderr), without_times(alone.stderr))
        before = os.stat(results.path_of("00000", folder)).st_mtime_ns
        run_lines(folder, lines[:1])
        wrong += differs("a line run twice", os.stat(results.path_of("00000", folder)).st_mtime_ns, before)
    return wrong + first_answer(program, []) + first_answer(program, ["--deadlock"])


def first_answer(program, more):
    """With --first an answer ends the searches behind it, in every order; a search without one ends with status 1."""
    with made(program, PORTFOLIO, "--first", "--seconds", "900", "--budget", "1000", *more, example("handoff.armc")) as folder:
        lines = lines_of(folder)
        run_lines(folder, lines)
        found = [results.read(results.path_of(f"{at:05d}", folder)) for at in range(len(lines))]
        wrong = differs("with --first", [each["why"] for each in found], [""] + ["answered elsewhere"] * (len(lines) - 1))
        wrong += differs("a line without an answer", run_lines(folder, [f"{lines[-1]}; echo $?"]).stdout, "1\n")
        answer = call(program, PORTFOLIO, "--collect", folder)
        return wrong + differs("the first answer", (answer.returncode, answer.stdout), (0, found[0]["out"]))


def folders(program):
    """A list of a folder, run by make: the table, the status and the report are those of the tool without a list."""
    words = ["--budget", "300", example("tutorial")]
    with made(program, FOLDER, *words) as folder:
        found = call(program, FOLDER, "--collect", folder)
        wrong = differs("no result", (found.returncode, found.stdout.count("no result yet")), (10, len(lines_of(folder))))
        for _ in range(2):
            made_by = run(["make", "-C", folder, "-s", "-k", "-j", "2"]) if shutil.which("make") else run_lines(folder, lines_of(folder))
            wrong += differs("make", (made_by.returncode, re.sub(r"^make: Nothing .*\n", "", made_by.stdout)), (0, ""))
        reports = [os.path.join(folder, name) for name in ("alone.xml", "collected.xml")]
        alone = call(program, FOLDER, "--jobs", "2", "--junit", reports[0], *words)
        collected = call(program, FOLDER, "--collect", folder, "--junit", reports[1])
        wrong += differs("the table", (collected.returncode, without_times(collected.stdout), collected.stderr), (alone.returncode, without_times(alone.stdout), alone.stderr))
        told = [[(case.get("classname"), case.get("name"), [(each.tag, each.text, each.get("message")) for each in case]) for case in xml.parse(report).getroot()]
                for report in reports]
        wrong += differs("the report", *told)
        return wrong + refused_results(program, folder) + terminal(program, folder)


# Protocols whose heads ask for tools, which go along with the list then.
HEADS = {"ends.armc": ("# expect: deadlock free\n# command: deadlock\n# may end: P: c*\n", "open_door.armc"),
         "free.armc": ("# expect: deadlock free\n# command: deadlock\n", "tickets.armc"),
         "many.armc": ("# expect: unsafe\n# command: properties many.props\n", "patterns/several_properties.armc")}


def heads(program):
    """A list of protocols whose heads ask for deadlocks, also with ends that are meant, and for properties; a certificate of these that is forged."""
    with tempfile.TemporaryDirectory() as place:
        shutil.copy(example("patterns", "several_properties.props"), os.path.join(place, "many.props"))
        for name, (head, path) in HEADS.items():
            write(os.path.join(place, name), head + re.sub(r"(?m)^# expect:.*\n", "", read(example(path))))
        alone = call(program, FOLDER, "--jobs", "2", place)
        with made(program, FOLDER, place) as folder:
            wrong = differs("lines with tools", run_lines(folder, lines_of(folder)).stderr, "")
            found = call(program, FOLDER, "--collect", folder)
            wrong += differs("heads", (found.returncode, without_times(found.stdout), found.stderr), (0, without_times(alone.stdout), ""))
            path = next(path for path in map(results.path_of, ("00000", "00001", "00002"), [folder] * 3) if results.read(path)["files"])
            whole = results.read(path)
            name = next(name for name, text in whole["files"].items() if text.startswith("armc 1 safe"))
            protocol = next(name for name in whole["files"] if name.endswith(".armc"))
            for change in ({name: "armc 1 safe\nstates 0\nend\n"}, {protocol: re.sub(r"(?m)^init.*\n", "", whole["files"][protocol])}):
                write(path, results.sealed({**whole, "files": {**whole["files"], **change}}))
                found = call(program, FOLDER, "--collect", folder)
                wrong += differs(f"a forged {list(change)}", (found.returncode, found.stderr.count("is refused: ")), (10, 1))
    return wrong


def refused_results(program, folder):
    """Half a file, an empty one, a forged proof, and results of another program or list are refused, told, and put aside."""
    paths = [results.path_of(f"{at:05d}", folder) for at in range(5)]
    whole = read(paths[0])
    proof = next(each for each in map(results.read, paths) if each["judged"] == "valid")
    at = int(proof["task"])
    broken = {at: results.sealed({**proof, "out": "armc 1 safe\nstates 0\nend\n"}), (at + 1) % 5: whole[:len(whole) // 2], (at + 2) % 5: "",
              (at + 3) % 5: results.sealed({**results.read(paths[(at + 3) % 5]), "program": "0" * 64}), (at + 4) % 5: whole if at != 1 else read(paths[2])}
    for number, text in broken.items():
        write(paths[number], text)
    rest = os.path.join(folder, "rest")
    found = call(program, FOLDER, "--collect", folder, "--rest", rest)
    said = [len(re.findall(words, found.stderr)) for words in ("is not whole", "is of another list", "is refused: not valid: initial missing")]
    count = 5 - (broken[0] == whole if 0 in broken else 0)
    wrong = differs("broken results", (found.returncode, said, len(read(rest).splitlines())), (10, [2, count - 3, 1], count))
    run_lines(folder, read(rest).splitlines())
    found = call(program, FOLDER, "--collect", folder, "--rest", rest)
    return wrong + differs("broken results, run again", (found.returncode, found.stderr, read(rest)), (1, "", ""))


def terminal(program, folder):
    """A terminal shows what a pipe gets; a full device."""
    words = tool_words(FOLDER, "--program", program, "--collect", folder)
    shown, status = on_terminal(words)
    piped = run(words)
    wrong = differs("a list on a terminal", (status, shown), (piped.returncode, piped.stdout + piped.stderr))
    wrong += differs("a list to a full device", to_full_device(words), (126, False))
    log = write(os.path.join(folder, "log"), "".join(f"12:00 {read(results.path_of(f'{at:05d}', folder))}" for at in range(2)) + "12:01 armc-result {} 0\n")
    for at in range(2):
        os.remove(results.path_of(f"{at:05d}", folder))
    found = run([*words, "--from", log])
    return wrong + differs("results out of a log", (found.returncode, found.stdout, found.stderr), (piped.returncode, piped.stdout, piped.stderr))


def faults(program):
    """Words that do not go together, folders that are there or are no lists, and a program that is a script."""
    wrong, file = [], example("first.armc")
    with made(program, PORTFOLIO, "--one-order", "--budget", "9", file) as folder:
        script = write(os.path.join(folder, "script"), f'#!/bin/sh\nexec "{program}" "$@"\n', script=True)
        for tool, words, status, said in (
            (PORTFOLIO, [file, "--list", folder], 8, "cannot be made"), (PORTFOLIO, [], 3, "usage: "), (PORTFOLIO, [file, "--collect", folder], 3, "usage: "),
            (PORTFOLIO, [file, "--rest", "x"], 3, "usage: "), (PORTFOLIO, [file, "--first"], 3, "usage: "), (PORTFOLIO, ["--collect", os.path.join(folder, "no")], 4, "read fault: "),
            (FOLDER, ["--collect", folder], 4, "is a list of armc-portfolio"), (PORTFOLIO, ["--collect", folder, "--from", os.path.join(folder, "no")], 4, "read fault: "),
            (PORTFOLIO, ["--collect", folder, "--rest", os.path.join(folder, "list", "x")], 8, "cannot be written"),
            (PORTFOLIO, ["--program", script, file, "--list", os.path.join(folder, "x")], 126, "needs the program itself"),
        ):
            wrong += wrong_refusal(f"{tool} {words}", call(program, tool, *words), status, said)
        plan = json.loads(read(os.path.join(folder, "plan.json")))
        wrong += differs("the plan", [words[:1] for words in plan["tasks"]], [[words.split()[5]] for words in lines_of(folder)])
    return wrong


def line(folder, *words):
    return [sys.executable, os.path.join(folder, "armc-search-one"), *map(str, words)]


def program_runs(folder):
    """Whether the program of the folder runs."""
    found = []
    for number in filter(str.isdigit, os.listdir("/proc")):
        with contextlib.suppress(OSError):
            found += [number] if os.path.realpath(f"/proc/{number}/exe") == os.path.realpath(os.path.join(folder, "armc")) else []
    return bool(found)


def one_search(program):
    """The limits of one search, a full disk, a deadlock's proof, and signals: a search never outlives its line."""
    with made(program, PORTFOLIO, "--one-order", *ENDLESS) as folder:
        name = os.path.join("protocols", os.listdir(os.path.join(folder, "protocols"))[0])
        shutil.copy(example("hard", "ticket_wrap.armc"), os.path.join(folder, "protocols", "large.armc"))
        wrong = []
        for at, (words, wanted) in enumerate((
            ([1, 2048, name, "check", "--budget", "1000000"], {"why": "time", "status": -9, "judged": ""}),
            ([900, 48, os.path.join("protocols", "large.armc"), "check"], {"why": "", "status": 9, "err": "armc: out of memory\n"}),
            ([900, 2048, name, "deadlock"], {"why": "", "status": 0, "judged": "valid"}),
            ([900, 2048, name, "verify"], {"why": "", "status": 3, "judged": ""}),
        )):
            ended = run(line(folder, "--print", f"9{at:04d}", *words), cwd=folder)
            found = results.read(results.path_of(f"9{at:04d}", folder))
            wrong += differs(f"the search {words}", (ended.returncode, ended.stdout, {key: found[key] for key in wanted}), (0, results.sealed(found), wanted))
        for number, status in ((signal.SIGTERM, 75), (signal.SIGKILL, -9)):
            process = subprocess.Popen(line(folder, "98000", 900, 2048, name, "check", "--budget", "1000000"), cwd=folder)
            begun = till(lambda: program_runs(folder))
            process.send_signal(number)
            ended = (process.wait(SECONDS), till(lambda: not program_runs(folder)), os.path.exists(results.path_of("98000", folder)))
            wrong += differs(f"a line with signal {number}", (begun, *ended), (True, status, True, False))
        shutil.rmtree(os.path.join(folder, "results"))
        write(os.path.join(folder, "results"), "")
        ended = run(line(folder, "98001", 900, 2048, name, "check", "--budget", "9"), cwd=folder)
        return wrong + differs("a result that cannot be written", (ended.returncode, "Traceback" in ended.stderr), (75, False))


CHECKS = {"lists of a portfolio": portfolio, "lists of a folder": folders, "lists of heads": heads, "lists, with faults": faults, "armc-search-one": one_search}


if __name__ == "__main__":
    sys.exit(main(CHECKS))
