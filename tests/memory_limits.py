"""The limit of memory under which the launcher and the tools run the program. Usage: tests/memory_limits.py [PROGRAM] [NAME..]"""
import os
import re
import shutil
import sys
import tempfile

import surroundings
from support import call, differs, example, main, read, run, write

# What the system has in all, in kilobytes.
ALL = int(re.search(r"^MemTotal: +(\d+)", read("/proc/meminfo"), re.M)[1]) if os.path.exists("/proc/meminfo") else None


def environment(**changed):
    return {**{name: value for name, value in os.environ.items() if name != "ARMC_MEMORY"}, **changed}


def is_default(limit, jobs=1):
    """Whether a limit, as `ulimit -v` tells it, may be three quarters of what is free, for one of so many at once."""
    return limit == "unlimited" if ALL is None else limit.isdigit() and 0 < int(limit) * jobs <= ALL * 3 // 4


def launcher(program):
    """The limit that the launcher sets, a lower one that stays, a word that is no number, and a search that ends by it."""
    with tempfile.TemporaryDirectory() as folder:
        tree, wrong = surroundings.Tree(folder), []
        built = tree.out("armc", "armc")
        os.makedirs(os.path.dirname(built))
        write(built, "#!/bin/sh\nulimit -v\n", script=True)
        for before, given, wanted in (("", {}, None), ("", {"ARMC_MEMORY": "100"}, "102400"), ("", {"ARMC_MEMORY": "0"}, "unlimited"),
                                      ("ulimit -v 90000;", {"ARMC_MEMORY": "100"}, "90000"), ("ulimit -v 90000;", {}, "90000")):
            words = ["bash", "-c", f"{before} exec {tree.top}/armc"]
            found = run(words, env=environment(**given)).stdout.strip()
            wrong += [] if found == wanted or (wanted is None and is_default(found)) else [f"with {before!r} and {given} the limit is {found!r}"]
        found = run([f"{tree.top}/armc"], env=environment(ARMC_MEMORY="2x"))
        told = "armc: ARMC_MEMORY is no number of megabytes: 2x\n"
        wrong += differs("a word that is no number", (found.returncode, found.stdout, found.stderr), (126, "", told))
        shutil.copy(program, built)
        words = [f"{tree.top}/armc", "check", example("hard", "ticket_wrap.armc")]
        found = run(words, env=environment(ARMC_MEMORY="48"))
        return wrong + differs("a search in 48 MB", (found.returncode, found.stdout, found.stderr), (9, "", "armc: out of memory\n"))


def limits_of_tool(program, tool, words, given):
    """The limits under which a tool runs the searches of the program, and how the tool ended."""
    with tempfile.TemporaryDirectory() as folder:
        told = os.path.join(folder, "told")
        script = write(os.path.join(folder, "program"), f'#!/bin/sh\necho "$1 $(ulimit -v)" >>"{told}"\nexec "{program}" "$@"\n', script=True)
        found = call(script, tool, *words, env=environment(**given))
        lines = read(told).splitlines() if os.path.exists(told) else []
        return {line.split(" ")[1] for line in lines if line.split(" ")[0] in ("check", "checkall")}, found


def of_tools(program):
    """Several searches at once share what there is, one has all of it."""
    wrong, lock = [], example("tutorial", "lock.armc")
    portfolio = ["--one-order", "--budget", "1000", lock]
    for tool, words, given, wanted in (
        ("armc-portfolio", ["--jobs", "2", *portfolio], {"ARMC_MEMORY": "600"}, "307200"),
        ("armc-portfolio", ["--jobs", "1", "--memory", "200", *portfolio], {"ARMC_MEMORY": "600"}, "204800"),
        ("armc-portfolio", ["--jobs", "1", "--memory", "200", *portfolio], {"ARMC_MEMORY": "0"}, "204800"),
        ("armc-coverage", ["--jobs", "3", lock], {"ARMC_MEMORY": "600"}, "204800"),
        ("armc-coverage", ["--jobs", "3", "--memory", "100", "--method", "length", lock], {"ARMC_MEMORY": "600"}, "102400"),
        ("check-folder", ["--jobs", "3", os.path.dirname(lock), "--budget", "300"], {"ARMC_MEMORY": "600"}, "204800"),
        ("check-folder", ["--jobs", "3", os.path.dirname(lock), "--budget", "300"], {"ARMC_MEMORY": "0"}, "unlimited"),
    ):
        found, ended = limits_of_tool(program, tool, words, given)
        wrong += differs(f"{tool} {words} with {given}", (found, "Traceback" in ended.stderr), ({wanted}, False))
    found, _ = limits_of_tool(program, "check-folder", ["--jobs", "2", os.path.dirname(lock), "--budget", "300"], {})
    wrong += [] if found and all(is_default(limit, 2) for limit in found) else [f"check-folder has the limits {found}"]
    for tool, words in (("armc-coverage", [lock]), ("check-folder", [os.path.dirname(lock)])):
        _, ended = limits_of_tool(program, tool, words, {"ARMC_MEMORY": "much"})
        wrong += differs(f"{tool} with a word that is no number", (ended.returncode, ended.stdout, ended.stderr.count("\n")), (126, "", 1))
    return wrong


CHECKS = {"memory of the launcher": launcher, "memory of the tools": of_tools}


if __name__ == "__main__":
    sys.exit(main(CHECKS))
