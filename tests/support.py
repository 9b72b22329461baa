"""What the tests share: where things are, files, calls of the program and of the tools, comparisons, and how cases are run.

A case is a name with a function of the program's path. It gives lines that say what is wrong, none where all is as it must be, or one text that says why
the case is left out. `unittest` does not run them: most cases are folders of tests/cases, they run side by side, and each says all that is wrong with it.
"""
import concurrent.futures
import contextlib
import fnmatch
import glob
import importlib.machinery
import importlib.util
import multiprocessing
import os
import pty
import re
import shutil
import subprocess
import sys
import tempfile
import time
import traceback

sys.dont_write_bytecode = True
TOP = os.path.dirname(os.path.dirname(os.path.abspath(__file__)))
TOOLS = os.path.join(TOP, "tools")
SYSTEMS = os.path.join(TOP, "tests", "systems")
BUILT = os.path.join(TOP, "crates", "armc", "out", "armc")
# Whatever is called ends within so many seconds, on a slow and busy machine too.
SECONDS = 1200
sys.path.insert(0, TOOLS)


# Files

def example(*parts):
    return os.path.join(TOP, "examples", *parts)


def read_bytes(*parts):
    """What a file has; a path that is not whole begins at the top of the repository."""
    with open(os.path.join(TOP, *parts), "rb") as file:
        return file.read()


def read(*parts):
    return read_bytes(*parts).decode()


def write(path, text, script=False):
    """Writes a text or bytes to a file, which others can run where it is a script, and gives its path."""
    with open(path, "wb") as file:
        file.write(text if isinstance(text, bytes) else text.encode())
    if script:
        os.chmod(path, 0o755)
    return path


def write_all(folder, texts):
    """Writes each text to the file of its name in the folder, and gives the paths in their order."""
    return [write(os.path.join(folder, name), text) for name, text in texts.items()]


def without_comments(text):
    """The text without the lines that begin with # and those that are empty."""
    return "".join(f"{line}\n" for line in text.splitlines() if line and not line.startswith("#"))


def bare(name):
    """The protocol of an example, without the lines of its head."""
    return without_comments(read(example(f"{name}.armc")))


# Calls

def run(words, **how):
    """The status of a command and what it prints; its standard input is empty where no other is given."""
    how = {"stdout": subprocess.PIPE, "stderr": subprocess.PIPE, "text": True, "timeout": SECONDS, **({} if "input" in how else {"stdin": subprocess.DEVNULL}), **how}
    return subprocess.run(words, **how)


def printed(*words, **how):
    return run(words, **how).stdout


def tool_words(name, *words):
    """The words that call a tool of the folder tools."""
    return [sys.executable, os.path.join(TOOLS, name), *map(str, words)]


def call(program, name, *words, text="", **how):
    """How a tool ends that is given the program, and what it prints."""
    return run(tool_words(name, "--program", program, *words), input=text, **how)


def to_full_device(words):
    """The status of a command whose standard output takes nothing, and whether it ends by an exception."""
    with open("/dev/full", "w") as full:
        found = run(words, stdout=full)
    return found.returncode, "Traceback" in found.stderr


def on_terminal(words, typed=b""):
    """What a terminal shows of the words, and their status."""
    process, screen = pty.fork()
    if process == 0:
        os.execv(words[0], words)
    os.write(screen, typed)
    shown = b""
    with contextlib.suppress(OSError):
        while piece := os.read(screen, 1 << 16):
            shown += piece
    return shown.decode().replace("\r\n", "\n"), os.waitstatus_to_exitcode(os.waitpid(process, 0)[1])


def interrupted(program, name, words, number, command="check"):
    """What a tool says that gets a signal when its first search has begun and it waits, and which processes that it started still run."""
    with tempfile.TemporaryDirectory() as folder:
        begun = os.path.join(folder, "begun")
        # (a text of properties is read by a call of `checkall` with the budget 1)
        first = f'case "$*" in *"--budget 1") ;; "{command} "* | "checkall "*) : >"{begun}" ;; esac'
        script = write(os.path.join(folder, "program"), f'#!/bin/sh\n{first}\nexec "{program}" "$@"\n', script=True)
        process = subprocess.Popen(tool_words(name, "--program", script, "--jobs", "2", *words), stdout=subprocess.PIPE, stderr=subprocess.PIPE, text=True, start_new_session=True)
        till(lambda: os.path.exists(begun) and all(state == "S" for state, _ in threads_of(process.pid).values()))
        os.kill(process.pid, number)
        out, err = process.communicate(timeout=SECONDS)
        till(lambda: not session_of(process.pid), 20)
        return process.returncode, out, err, session_of(process.pid)


def till(holds, seconds=SECONDS):
    """Waits till it holds, and says whether it does."""
    end = time.monotonic() + seconds
    while not holds() and time.monotonic() < end:
        time.sleep(0.05)
    return holds()


def session_of(pid):
    """The processes that still run in the session that the process began."""
    return printed("ps", "-o", "pid=", "-s", str(pid)).split() if shutil.which("ps") else []


def threads_of(pid):
    """Of each thread of a process its state, R where it is at work or ready to be and S where it sleeps, and how many times it went to sleep."""
    found = {}
    for path in glob.glob(f"/proc/{pid}/task/*/status"):
        with contextlib.suppress(OSError), open(path, errors="replace") as file:
            found[path] = re.findall(r"^(?:State|voluntary_ctxt_switches):\t(\w+)", file.read(), re.M)
    return found


def spent():
    """The processor time of this process and of those that it has started and that have ended, in seconds: a busy machine does not change it."""
    return sum(os.times()[:4])


def processes():
    """Of each process its parent and its own time, in ticks."""
    found = {}
    for number in filter(str.isdigit, os.listdir("/proc")):
        with contextlib.suppress(OSError), open(f"/proc/{number}/stat", errors="replace") as file:
            fields = file.read().rpartition(")")[2].split()
            found[int(number)] = int(fields[1]), int(fields[11]) + int(fields[12])
    return found


def below(pid, known):
    """The process and those that it has started, and they: each behind the one that started it, where `known` has their parents."""
    found = [pid]
    for each in found:
        found += [child for child, (parent, *_) in known.items() if parent == each]
    return found


def canonical(program, path):
    return printed(program, "show", path)


def judged(program, protocol, certificate):
    """Whether `verify` judges the text valid for the protocol in a file."""
    return printed(program, "verify", protocol, "-", input=certificate) == "valid\n"


def module_of(path, name):
    """A script as a module; its last line does not run, where that calls `run_tool`."""
    loader = importlib.machinery.SourceFileLoader(name, path)
    module = importlib.util.module_from_spec(importlib.util.spec_from_loader(name, loader))
    exec(compile(read(path).replace("\nrun_tool(main)\n", "\n"), path, "exec"), module.__dict__)
    return module


def second_checker():
    """The tool armc-second-opinion as a module."""
    return module_of(os.path.join(TOOLS, "armc-second-opinion"), "second_opinion")


def opinion(second, system, text):
    """What the second checker says of a certificate: its status and its line."""
    try:
        return second.judged(system, text)
    except second.Refused as fault:
        return fault.args[0], f"armc: {fault.args[1]}"


# Cases

def differs(what, found, wanted):
    return [] if found == wanted else [f"{what}: {str(found)[:300]!r}, and must be {str(wanted)[:300]!r}"]


def wrong_refusal(what, found, status, said):
    """Where a call does not end with the status, an empty standard output and these words on standard error, without an exception."""
    told = found.returncode, found.stdout, said in found.stderr, "Traceback" in found.stderr
    return [] if told == (status, "", True, False) else [f"{what}: {found.returncode}, {found.stdout[:300]!r}, {found.stderr[:300]!r}, and must be {status} with {said!r}"]


def default_program():
    """The program that the gate built, or else the launcher, which builds it now."""
    if os.access(BUILT, os.X_OK):
        return BUILT
    launcher = os.path.join(TOP, "armc")
    run([launcher], timeout=None)
    return launcher


def outcome(check, program):
    """The lines of a case, or the text that says why it is left out. What is raised is a fault of the case, told with its place."""
    try:
        found = check(program)
        return found if isinstance(found, str) else list(found)
    except Exception as fault:
        place = traceback.extract_tb(fault.__traceback__)[-1]
        return [f"{type(fault).__name__}: {fault} ({os.path.basename(place.filename)}, line {place.lineno})"]


def side_by_side(cases, program):
    """The outcome of each case, in their order; four processes make them."""
    fork = multiprocessing.get_context("fork")
    with concurrent.futures.ProcessPoolExecutor(4, fork, initializer=KNOWN.update, initargs=(cases,)) as pool:
        yield from pool.map(named_outcome, cases, [program] * len(cases))


# (what processes get has to have a name, and the functions of cases may have none)
KNOWN = {}


def named_outcome(name, program):
    return outcome(KNOWN[name], program)


def main(cases):
    """Runs the cases whose names, or patterns of names, are given, or all: `[BINARY] [NAME..]`. The last line is 'N passed, N failed'."""
    names = sys.argv[1:]
    program = os.path.abspath(names.pop(0)) if names and os.path.isfile(names[0]) and os.access(names[0], os.X_OK) else default_program()
    unknown = [name for name in names if not fnmatch.filter(cases, name)]
    if unknown:
        sys.exit(f"no case has the name {unknown[0]}")
    chosen = {name: check for name, check in cases.items() if not names or any(fnmatch.fnmatchcase(name, each) for each in names)}
    passed = failed = 0
    for name, lines in zip(chosen, side_by_side(chosen, program)):
        if isinstance(lines, str):
            print(f"{name}: skipped, since {lines}", flush=True)
            continue
        passed, failed = passed + (not lines), failed + bool(lines)
        for line in lines[:10]:
            print(f"{name}: {line}", flush=True)
    print(f"{passed} passed, {failed} failed")
    return 1 if failed or not passed else 0
