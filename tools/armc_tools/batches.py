"""Lists of searches for many machines: a folder with all that its searches need and one command line each, and what their results say.

The folder of results is the truth, whatever an engine tells of its own: a line without a whole result of this list is to be run once more.
"""
import glob
import json
import os
import shlex
import shutil
import subprocess

from . import results
from .program import NOT_RUN, READ, TOOLS, WRITE, Refused
from .properties import rows_of
from .protocol import Protocol

# What is copied into the folder beside the program and the protocols.
COPIED = ("armc-search-one", "armc-second-opinion", os.path.join("armc_tools", "__init__.py"), os.path.join("armc_tools", "results.py"))
# What goes along too where a search is made by a tool.
TOOLS_COPIED = ("armc-properties", "armc-portfolio", os.path.join("armc_tools", "*.py"))
MISSING = 10
MAKEFILE = """# The searches of the list that have no result: make -k -j 4
RESULTS := $(shell sed -E 's,^\\./armc-search-one( --[a-z-]+)* ([0-9]+) .*,results/\\2.json,' list)
all: $(RESULTS)
$(RESULTS):
\t@grep -E '^\\./armc-search-one( --[a-z-]+)* $(basename $(notdir $@)) ' list | bash
.PHONY: all
"""


def add_words(words, made_of):
    """The options of lists."""
    words.add_argument("--list", metavar="FOLDER", help=f"make a folder with one command line for each search {made_of}, and run none")
    words.add_argument("--collect", metavar="FOLDER", help="answer by the results in such a folder")
    words.add_argument("--rest", metavar="LIST", help="with --collect: write the lines that have no result")
    words.add_argument("--from", dest="texts", metavar="TEXT", action="append", default=[], help="with --collect: take results out of this text first")


def program_itself(path):
    """The path of the program, which a list holds a copy of; a script that starts it would be neither limited nor ended for sure."""
    found = shutil.which(path)
    if not found:
        raise Refused(NOT_RUN, f"{path} does not run")
    with open(found, "rb") as file:
        if file.read(2) == b"#!":
            raise Refused(NOT_RUN, f"{found} is a script, and a list needs the program itself")
    return found


def make(folder, program, tool, told, protocols, tasks, limits, flags=()):
    """Makes the folder. `protocols` are texts by name, `tasks` the words of searches, `limits` the seconds and megabytes of each, `told` what the tool
    wants to find again."""
    program = program_itself(program)
    try:
        os.makedirs(folder)
        for name in (results.PROTOCOLS, results.RESULTS, results.ANSWERED, "armc_tools"):
            os.mkdir(os.path.join(folder, name))
        shutil.copy(program, os.path.join(folder, results.PROGRAM))
        copied = (*COPIED, *TOOLS_COPIED) if any(words[0].startswith("armc-") for words in tasks) else COPIED
        for path in [path for name in copied for path in glob.glob(os.path.join(TOOLS, name))]:
            shutil.copy(path, os.path.join(folder, os.path.relpath(path, TOOLS)))
        for name, text in protocols.items():
            with open(os.path.join(folder, results.PROTOCOLS, name), "wb") as file:
                file.write(text)
        write_plan(folder, {"tool": tool, "told": told, "tasks": tasks}, limits, flags)
    except OSError as fault:
        raise Refused(WRITE, f"{folder} cannot be made: {fault.strerror}") from None
    return len(tasks)


def write_plan(folder, plan, limits, flags):
    lines = [shlex.join(["./armc-search-one", *flags, f"{at:05d}", *map(str, limits), words[1], words[0], *words[2:]]) for at, words in enumerate(plan["tasks"])]
    for name, text in (("plan.json", json.dumps(plan)), ("list", "".join(f"{line}\n" for line in lines)), ("Makefile", MAKEFILE)):
        with open(os.path.join(folder, name), "w", encoding="utf-8") as file:
            file.write(text)


class Collected:
    """The results of a list: those that are whole, of this list, and whose certificate is judged valid here once more."""

    def __init__(self, folder, tool, program, texts=()):
        self.folder, self.program, self.faults = folder, program, []
        try:
            self.plan, self.lines = self.read_plan()
        except (OSError, ValueError, KeyError):
            raise Refused(READ, f"read fault: {folder} is no folder of a list") from None
        if self.plan["tool"] != tool:
            raise Refused(READ, f"{folder} is a list of {self.plan['tool']}")
        for text in texts:
            self.take_from(text)
        self.digests = {name: results.digest(os.path.join(folder, name)) for name in {words[1] for words in self.plan["tasks"]}}
        self.own = results.digest(os.path.join(folder, results.PROGRAM))
        self.results = [self.result(f"{at:05d}", words) for at, words in enumerate(self.plan["tasks"])]

    def read_plan(self):
        with open(os.path.join(self.folder, "plan.json"), encoding="utf-8") as plan, open(os.path.join(self.folder, "list"), encoding="utf-8") as lines:
            return json.load(plan), lines.read().splitlines()

    def take_from(self, text):
        """Writes each whole result that a text holds, as the output of an engine or a log with the time before each line."""
        try:
            with open(text, encoding="utf-8", errors="replace") as file:
                for line in file:
                    found = results.opened(line[max(0, line.find(results.HEAD)):])
                    if found and str(found["task"]).isdigit():
                        results.write(results.path_of(found["task"], self.folder), results.sealed(found))
        except OSError:
            raise Refused(READ, f"read fault: {text}") from None

    def result(self, task, words):
        """The result of a task, or None. One that is refused is put aside, so that its line runs again."""
        path = results.path_of(task, self.folder)
        found = results.read(path)
        if found is None:
            return self.refuse(path, "is not whole") if os.path.exists(path) else None
        if [found.get(name) for name in results.KEY] != [task, words, self.digests[words[1]], self.own]:
            return self.refuse(path, "is of another list")
        if found["judged"] == "valid":
            file = os.path.join(self.folder, words[1])
            told = results.judged_result(self.program, file, found)
            if told != "valid" or not self.has_its_properties(file, words, found):
                return self.refuse(path, f"is refused: {told}")
        return found

    def has_its_properties(self, file, words, found):
        """Whether the protocols that a result of armc-properties has for its certificates are the given one, in some order of sections, with the rows of
        each property."""
        if words[0] != results.PROPERTIES:
            return True
        protocol = Protocol(subprocess.run([self.program, "show", file], capture_output=True, text=True).stdout)
        with open(os.path.join(self.folder, words[-1]), encoding="utf-8", errors="replace") as text:
            rows = rows_of(text.read())
        names = [line.split()[0] for line in found["out"].splitlines()[1:]]
        files = {name: found["files"].get(f"{name}.armc") for name in names}
        return names == list(rows) and all(text is None or sorted(text.splitlines()) == sorted(protocol.text(bads=rows[name]).splitlines()) for name, text in files.items())

    def refuse(self, path, why):
        self.faults.append(f"{path} {why}")
        os.replace(path, f"{path}.refused")

    def missing(self):
        """The lines without a result."""
        return [line for line, found in zip(self.lines, self.results) if found is None]

    def tell(self, rest):
        """What is told of results that are refused or missing, for standard error; the lines to run again go to the file `rest`."""
        if rest:
            try:
                results.write(os.path.abspath(rest), "".join(f"{line}\n" for line in self.missing()))
            except OSError as fault:
                raise Refused(WRITE, f"{rest} cannot be written: {fault.strerror}") from None
        count = len(self.missing())
        return self.faults + ([f"{count} of {len(self.lines)} searches have no result"] if count else [])
