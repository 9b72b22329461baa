"""Runs a program once under limits, and tells its answer, its processor time and its greatest memory.

The program is started by a small process (this file, run by itself), so that the memory told is the program's own and not what the caller had.
"""
import collections
import os
import subprocess
import sys
import tempfile
import time

# `processor` is user and system time and `wall` the time that passed, in seconds; `memory` is in bytes, at least some 9 MB, the small process's
# own; `size` is the length of standard output; `out` and `err` are the beginnings of both texts.
Answer = collections.namedtuple("Answer", "status processor wall memory size out err")
KEPT = 1 << 18


def run(program, words, folder=".", seconds=120, memory=4 << 30, stdin=subprocess.DEVNULL):
    """The answer of the program to the words in the folder. It is ended after so many seconds of processor time, and has so many bytes of memory."""
    with tempfile.TemporaryFile() as err, tempfile.TemporaryFile("w+") as told:
        begin = time.monotonic()
        started = subprocess.Popen([sys.executable, "-S", "-E", os.path.abspath(__file__), str(told.fileno()), str(seconds), str(memory), program, *words],
                                   cwd=folder, stdin=stdin, stdout=subprocess.PIPE, stderr=err, pass_fds=[told.fileno()])
        out, size = b"", 0
        while piece := started.stdout.read(1 << 20):
            out, size = (out + piece)[:KEPT] if size < KEPT else out, size + len(piece)
        started.wait()
        wall = time.monotonic() - begin
        told.seek(0)
        err.seek(0)
        status, processor, peak = told.read().split()
        return Answer(int(status), float(processor), wall, int(peak) * 1024, size, out.decode("latin-1"), err.read(KEPT).decode("latin-1"))


def main():
    """FD SECONDS MEMORY PROGRAM WORD..: runs the program, and writes to the descriptor its status, processor time and greatest memory."""
    import resource
    told, seconds, memory = map(int, sys.argv[1:4])
    child = os.fork()
    if child == 0:
        os.set_inheritable(told, False)
        resource.setrlimit(resource.RLIMIT_AS, (memory, memory))
        resource.setrlimit(resource.RLIMIT_CPU, (seconds, seconds))
        resource.setrlimit(resource.RLIMIT_CORE, (0, 0))
        try:
            os.execv(sys.argv[4], sys.argv[4:])
        except OSError:
            os._exit(127)
    _, how, used = os.wait4(child, 0)
    os.write(told, f"{os.waitstatus_to_exitcode(how)} {used.ru_utime + used.ru_stime} {used.ru_maxrss}\n".encode())


if __name__ == "__main__":
    main()
