"""Calls of the program side by side, each in a process of its own with limits of memory and time."""
import collections
import contextlib
import os
import signal
import subprocess
import tempfile
import time

from .program import MEMORY, STOPPED, Ended, limited

SIGNALS = {signal.SIGINT, signal.SIGTERM, signal.SIGHUP}
# So many seconds are between two looks at what runs.
PAUSE = 0.005

# What is to be called: a key by which its end is told, the words, and the seconds that it may take.
Task = collections.namedtuple("Task", "key words seconds")


@contextlib.contextmanager
def held():
    """Signals that end the tool wait, so that what is started is known before it has to be stopped."""
    signal.pthread_sigmask(signal.SIG_BLOCK, SIGNALS)
    try:
        yield
    finally:
        signal.pthread_sigmask(signal.SIG_UNBLOCK, SIGNALS)


def released(memory=None):
    """What a process does first that is started while signals wait."""
    def begin():
        signal.pthread_sigmask(signal.SIG_UNBLOCK, SIGNALS)
        if memory:
            limited(memory)()
    return begin


class Search:
    """A call that runs. What it prints goes to files, so that it never waits for a reader."""

    def __init__(self, program, task, memory, end):
        self.key, self.end = task.key, min(end, time.monotonic() + task.seconds)
        self.texts = [tempfile.TemporaryFile() for _ in range(2)]
        self.process = subprocess.Popen([program.path, *task.words], stdin=subprocess.DEVNULL, stdout=self.texts[0], stderr=self.texts[1], preexec_fn=released(memory))

    def running(self):
        return self.process.poll() is None and time.monotonic() < self.end

    def stop(self):
        """What came of it; where it still runs it is stopped."""
        stopped = self.process.poll() is None
        self.process.kill()
        self.process.wait()
        found = []
        for text in self.texts:
            text.seek(0, os.SEEK_SET)
            found.append(text.read().decode("utf-8", "replace"))
            text.close()
        return Ended(STOPPED if stopped else self.process.returncode, *found)


def side_by_side(program, tasks, jobs, memory, end):
    """Pairs of the key of a task and what came of its call, as they end; at most `jobs` at once, with so many bytes, and none behind `end`.

    The tasks are taken one by one, when there is a place.
    """
    tasks, running = iter(tasks), []
    try:
        while True:
            while len(running) < jobs and time.monotonic() < end and (task := next(tasks, None)):
                with held():
                    running.append(Search(program, task, memory, end))
            if not running:
                return
            for search in [search for search in running if not search.running()]:
                running.remove(search)
                yield search.key, search.stop()
            time.sleep(PAUSE)
    finally:
        for search in running:
            search.stop()


class Searches:
    """The searches of a tool for a protocol, within the time and the memory that its words give."""

    def __init__(self, program, protocol, given, kept):
        self.program, self.protocol, self.given, self.kept = program, protocol, given, kept
        self.end = time.monotonic() + given.seconds

    def run(self, tasks):
        return side_by_side(self.program, tasks, self.given.jobs, self.program.memory, self.end)

    def seconds(self, part=1):
        """A part of all the time."""
        return max(1, self.given.seconds / part)


def why_unknown(ended):
    """Why a call has no answer."""
    if ended.status is STOPPED:
        return "out of time"
    return "out of memory" if ended.status == MEMORY else ended.err.strip().rpartition("\n")[2] or f"ended with status {ended.status}"
