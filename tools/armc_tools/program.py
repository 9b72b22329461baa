"""The program armc as the tools call it: where it is, which commands it has, one call of it, and how a tool ends.

Every verdict that a tool shows is one of this program: the tools read what it prints, and put questions to it.
"""
import argparse
import collections
import functools
import os
import re
import resource
import shlex
import signal
import subprocess
import sys
import tempfile

from .expansion import Unknown, expand, pairs
from .memory import share
from .templates import BYTES, Fault, not_value, value_of

HERE = os.path.dirname(os.path.abspath(__file__))
# The folder of the tools: `tools` of the repository, or `share/armc/tools` where they are installed.
TOOLS = os.path.dirname(HERE)
ANSWERS = ("safe", "unsafe", "unknown")
SAFE, UNSAFE, UNKNOWN, USAGE, READ, PROTOCOL, CERTIFICATE, NOT_VALID, WRITE, MEMORY = range(10)
NOT_RUN, INTERRUPTED = 126, 130
# Of a template one byte more is read than it may have.
MOST_READ = BYTES + 1

# The status of a call that was stopped since its time was over.
STOPPED = None

Ended = collections.namedtuple("Ended", "status out err")


class Refused(Exception):
    """A tool ends with this status, and with this text on standard error."""

    def __init__(self, status, text):
        super().__init__(text)
        self.status, self.text = status, text


def refusal(ended, told=""):
    """The end of a tool by a call that has another status than it may have: with this text, or what the call said."""
    return Refused(ended.status if ended.status > 0 else NOT_RUN, told or (ended.err or ended.out).strip() or f"armc ended with {ended.status}")


def default_program():
    """The launcher of the repository, the program that is installed beside the tools, or the one on the path."""
    for place in (os.path.join(TOOLS, "..", "armc"), os.path.join(TOOLS, "..", "..", "..", "bin", "armc")):
        if os.path.isfile(place) and os.access(place, os.X_OK):
            return os.path.abspath(place)
    return "armc"


class Program:
    """The program at a path, and the commands that its usage line names."""

    def __init__(self, path):
        self.path, self.running = path, set()
        self.share_memory(1)
        here = os.path.dirname(os.path.abspath(path)) if os.sep in path else ""
        if here and os.path.exists(os.path.join(here, "tools", "build-program")):
            # The launcher builds the program where it has to, and says how far it is.
            texts = [os.path.join(here, "examples", name) for name in ("first.armc", "first.cert")]
            if subprocess.run([path, "verify", *texts], stdin=subprocess.DEVNULL, stdout=subprocess.DEVNULL).returncode:
                raise Refused(NOT_RUN, f"{path} does not run")
        told = self.call().err
        found = re.search(r"^armc: usage: (.*)$", told, re.M)
        if not found:
            raise Refused(NOT_RUN, f"{path} does not answer as armc: {told.strip().splitlines()[-1:] or 'it says nothing'}")
        self.commands = {each.split()[0]: each for each in found[1].split("; ")}
        # The launcher has built the program by now, and a call of the program itself is quicker.
        built = os.path.join(here, "crates", "armc", "out", "armc")
        if here and os.access(built, os.X_OK) and os.environ.get("ARMC_TRY", "") in ("", "0"):
            self.path = built

    def share_memory(self, jobs, most=None):
        """The memory of each call from now on, where so many run at once (memory.py), in bytes or None."""
        try:
            self.memory = share(jobs, most)
        except ValueError as fault:
            raise Refused(NOT_RUN, str(fault)) from None

    def has(self, command, option=""):
        return command in self.commands and option in self.commands[command]

    def call(self, *words, memory=None, seconds=None):
        """Status, standard output and standard error of one call, with at most so many bytes of memory, or those of its share, and so many seconds."""
        try:
            process = subprocess.Popen([self.path, *words], stdin=subprocess.DEVNULL, stdout=subprocess.PIPE, stderr=subprocess.PIPE, preexec_fn=limited(memory or self.memory))
        except OSError as fault:
            raise Refused(NOT_RUN, f"{self.path} does not run: {fault.strerror}") from None
        self.running.add(process)
        try:
            out, err = process.communicate(timeout=seconds)
        except subprocess.TimeoutExpired:
            return Ended(STOPPED, "", "")
        finally:
            process.kill()
            process.wait()
            self.running.discard(process)
        return Ended(process.returncode, out.decode("utf-8", "replace"), err.decode("utf-8", "replace"))

    def stop(self):
        """Ends the calls that other threads have made."""
        for process in list(self.running):
            process.kill()

    def asked(self, *words):
        """What a call with status 0 prints; any other status ends the tool with what the program says."""
        ended = self.call(*words)
        if ended.status:
            raise refusal(ended)
        return ended.out

    def judged(self, protocol, certificate):
        """What `verify` says of a certificate: 'valid', or the line that refuses it. Both are texts."""
        with Kept({"protocol.armc": protocol, "certificate": certificate}) as kept:
            ended = self.call("verify", kept.path("protocol.armc"), kept.path("certificate"))
        return (ended.out or ended.err).strip()


def limited(memory):
    """What a started process does first: it takes its limit of memory."""
    hard = resource.getrlimit(resource.RLIMIT_AS)[1]
    least = min(each for each in (memory, hard) if each != resource.RLIM_INFINITY) if memory else None
    return functools.partial(resource.setrlimit, resource.RLIMIT_AS, (least, least)) if memory else None


class Kept:
    """A folder of texts for the program, which is taken away at the end."""

    def __init__(self, texts):
        self.folder = tempfile.TemporaryDirectory(prefix="armc-")
        for name, text in texts.items():
            self.put(name, text)

    def path(self, name):
        return os.path.join(self.folder.name, name)

    def put(self, name, text):
        with open(self.path(name), "w", encoding="utf-8", errors="replace") as file:
            file.write(text)
        return self.path(name)

    def __enter__(self):
        return self

    def __exit__(self, *_):
        self.folder.cleanup()


def read_bytes(name, most=-1):
    """The bytes of a file, or of standard input where the name is -; no more than so many."""
    try:
        if name == "-":
            return sys.stdin.buffer.read(most)
        with open(name, "rb") as file:
            return file.read(most)
    except OSError:
        hint = " (a value of a template is given by --set)" if value_of(name) else ""
        raise Refused(READ, f"read fault: {name}{hint}") from None


def read_text(name):
    return read_bytes(name).decode("utf-8", "replace")


def canonical(program, name):
    """The canonical text of the protocol in a file, by `show`; a refused protocol ends the tool with the program's words and status."""
    if name != "-":
        return program.asked("show", name)
    with Kept({"protocol.armc": read_text("-")}) as kept:
        return program.asked("show", kept.path("protocol.armc"))


def written_by(name, values):
    """The protocol that the template in a file writes with these values; a refused template ends the tool."""
    try:
        return expand(name, read_bytes(name, MOST_READ), values)
    except Fault as fault:
        raise Refused(PROTOCOL, f"template: {fault}") from None
    except Unknown as unknown:
        raise Refused(USAGE, str(unknown)) from None


def shown_by(program, written):
    """The canonical text of what a template wrote; where the program refuses that, it is told of the place in the template."""
    with Kept({"protocol.armc": written.text}) as kept:
        ended = program.call("show", kept.path("protocol.armc"))
    if ended.status:
        raise refusal(ended, written.told((ended.err or ended.out).strip()))
    return ended.out


class Source:
    """The protocol that a tool is given: a file that has it, or a template (docs/TEMPLATES.md) that writes it with the values of --set."""

    def __init__(self, name, values=()):
        self.name, self.values, self.written = name, values_given(values), None
        if name.endswith(".armct"):
            self.written = written_by(name, self.values)
        elif values:
            raise Refused(USAGE, f"--set is for a template, and {name} is none: its name does not end in .armct")

    def canonical(self, program):
        return shown_by(program, self.written) if self.written else canonical(program, self.name)

    def text(self):
        return self.written.text if self.written else read_text(self.name)

    def title(self):
        """The name of the file, and the values of a template."""
        return self.written.title() if self.written else os.path.basename(self.name)

    def command(self, words):
        """The command line of armc with these words, of which the second is the file: what a template writes comes by a pipe."""
        if not self.written:
            return f"armc {shlex.join([words[0], self.name, *words[2:]])}"
        return f"{shlex.join(['armc-expand', self.name, *pairs(self.values)])} | armc {shlex.join([words[0], '-', *words[2:]])}"


class Words(argparse.ArgumentParser):
    """The words of a tool. Words that mean nothing end it with status 3, as they end the program."""

    def __init__(self, description):
        super().__init__(description=description, allow_abbrev=False)
        self.add_argument("--program", default=default_program(), help="the program armc (the one that these tools belong to)")

    def parse_args(self, *words):
        """The words; a file whose name begins with - is named so that no program takes it for an option."""
        given = super().parse_args(*words)
        if (given.file or "").startswith("-") and given.file != "-":
            given.file = os.path.join(os.curdir, given.file)
        return given

    def add_values(self):
        """The option --set, for tools that take a template where they take a protocol."""
        self.add_argument("--set", type=value, action="append", default=[], metavar="NAME=VALUE",
                          help="of a template: a number, or names in braces, for a variable at its top; may be given more than once")

    def add_limits(self):
        """The options of tools that search: the time of all of it, the memory of each search, and how many there are at once."""
        self.add_argument("--seconds", type=number(1), default=60, metavar="N", help="the time for all of it (60)")
        self.add_argument("--memory", type=number(16), default=2048, metavar="MB", help="the memory of each search (2048)")
        self.add_argument("--jobs", type=number(1, 256), default=os.cpu_count() or 1, metavar="N", help="how many searches at once (all processors)")

    def error(self, message):
        if re.match(r"unrecognized arguments: \w+=", message):
            message += " (a value of a template is given by --set)"
        self.exit(USAGE, f"{self.prog}: {message}; {' '.join(self.format_usage().split())}\n")


def number(least, most=10**9):
    """The type of a number within a range."""
    def read(word):
        if not (word.isascii() and word.isdigit() and least <= int(word) <= most):
            raise argparse.ArgumentTypeError(f"'{word}' is no number from {least} to {most}")
        return int(word)
    return read


def value(word):
    """The type of a value for a template: its variable and a number or names."""
    found = value_of(word)
    if not found:
        raise argparse.ArgumentTypeError(not_value(word))
    return found


def values_given(values):
    """The given values by their names, each of which is given once."""
    found = dict(values)
    for name in found:
        if sum(1 for each, _ in values if each == name) > 1:
            raise Refused(USAGE, f"{name} is given two values")
    return found


def columns(rows):
    """The rows as lines, each column as wide as its longest word."""
    widths = [max(map(len, column)) for column in zip(*rows)]
    return ["  ".join(word.ljust(width) for word, width in zip(row, widths)).rstrip() for row in rows]


def write_file(path, text):
    try:
        with open(path, "w", encoding="utf-8") as file:
            file.write(text)
    except OSError as fault:
        raise Refused(WRITE, f"{path} cannot be written: {fault.strerror}") from None


def closed():
    """Standard output fails no more: what is left of the text goes nowhere."""
    os.dup2(os.open(os.devnull, os.O_WRONLY), 1)
    return WRITE


def interrupted(*_):
    raise KeyboardInterrupt


def run_tool(main):
    """Runs the tool and ends with its status: 8 where standard output takes no more, 130 after an interrupt, which a signal to end is too."""
    name = os.path.basename(sys.argv[0])
    for number in (signal.SIGINT, signal.SIGTERM, signal.SIGHUP):
        signal.signal(number, interrupted)
    try:
        try:
            status = main()
        except Refused as refused:
            text = refused.text if refused.text.startswith("armc: ") else f"{name}: {refused.text}"
            sys.stdout.flush()
            print(text, file=sys.stderr)
            status = refused.status
        except KeyboardInterrupt:
            print(f"\n{name}: interrupted", file=sys.stderr)
            status = INTERRUPTED
        sys.stdout.flush()
    except OSError:
        status = closed()
    sys.exit(status)
