"""Whole runs with several workers: with 4 of them more than one thread is at work at some moment, as the system tells of the process, and with 1 there is
never a second thread; all give the same answer. The rules of the protocol change letters of an array in which no `x` may stand in one place, counted from
the end, so that automata have a state for each set of places near the end, and images and preimages take most of the time.
Usage: tests/workers.py [PROGRAM] [NAME..]
"""
import itertools
import os
import subprocess
import sys
import tempfile
import time

from support import SECONDS, main, threads_of, write_all

PAUSE = 0.002
# A busy machine runs the threads in turn, and may run the watcher seldom: it looks at so many runs at least, and goes on for so many seconds.
LEAST, GOES_ON = 3, 60


def protocol(letters, places):
    """An array with so many letters beside `x`, and a rule from each to each other, in which no `x` may stand so many places from the end."""
    names, rest = [f"a{k}" for k in range(letters)], " any" * (places - 1)
    lines = ["protocol places", f"array P {{ x {' '.join(names)} }}", f"init {{ P: any* {{ {' '.join(names)} }}{rest}; }}"]
    lines += [f"rule {old}_{new} {{ P: at {old} -> {new}; }}" for old in names for new in names if old != new]
    return "\n".join(lines + [f"bad {{ P: any* x{rest}; }}"]) + "\n"


def properties(places):
    """So many times the same property, each under a name of its own."""
    return "".join(f"bad p{k} {{ P: any* x{' any' * (places - 1)}; }}\n" for k in range(4))


def watched(words):
    """The answer of the program, the most threads that it had at one moment, and the most of them at work."""
    most = at_work = 0
    with tempfile.TemporaryFile() as out:
        process = subprocess.Popen(words, stdin=subprocess.DEVNULL, stdout=out, stderr=subprocess.STDOUT)
        end = time.monotonic() + SECONDS
        while process.poll() is None and time.monotonic() < end:
            before, now = threads_of(process.pid), threads_of(process.pid)
            # (what was at work both times and went to sleep never in between was at work at the moment between)
            awake = [thread for thread, (state, slept) in now.items() if state == "R" and before.get(thread) == [state, slept]]
            most, at_work = max(most, len(now)), max(at_work, len(awake))
            time.sleep(PAUSE)
        process.kill()
        process.wait()
        out.seek(0)
        return (process.returncode, out.read()), most, at_work


def wrong_four(words, one):
    """Where 4 workers give another answer than one did, or no two threads are at work at one moment of any of the runs that are watched."""
    end = time.monotonic() + GOES_ON
    for runs in itertools.count(1):
        four, _, at_work = watched([*words, "4"])
        if four != one:
            return ["the answer with 4 workers is another one"]
        if at_work > 1:
            return []
        if runs >= LEAST and time.monotonic() > end:
            return [f"with 4 workers no two threads were at work at one moment of {runs} runs"]


def wrong_threads(program, command, texts, *more):
    """Where the search of the texts, a protocol and perhaps properties, is not made by as many threads as it is told."""
    if not os.path.isdir("/proc/self/task"):
        return "the system does not tell of threads"
    with tempfile.TemporaryDirectory() as folder:
        words = [program, command, *write_all(folder, texts), *more, "--workers"]
        one, most, _ = watched([*words, "1"])
        wrong = [] if one[0] == 0 else [f"the answer is {str(one)[:160]}"]
        wrong += [] if most == 1 else [f"with 1 worker there were {most} threads"]
        return wrong + wrong_four(words, one)


CHECKS = {
    "threads of check": lambda program: wrong_threads(program, "check", {"p": protocol(12, 13)}, "--method", "length", "--bound", "13"),
    "threads of back": lambda program: wrong_threads(program, "back", {"p": protocol(6, 10)}),
    "threads of checkall": lambda program: wrong_threads(program, "checkall", {"p": protocol(6, 10), "props": properties(10)}),
}

if __name__ == "__main__":
    sys.exit(main(CHECKS))
