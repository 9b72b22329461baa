"""Cut texts, texts as long as they may be, standard output and error that take only a part, reads that fail, and running out of memory: what the program
answers is the determined answer, or the one that the fault has, and a sink that failed has a beginning of its text. Usage: tests/failures.py [PROGRAM] [NAME..]
"""
import functools
import os
import re
import subprocess
import sys
import tempfile

from support import bare, differs, main, read_bytes, run, write, write_all

MEGABYTE = 1 << 20
REPORT = ["check", "f", "--report"]
# Runs words in its place under a limit of the system.
LIMITED = """import os, resource, signal, sys
kind, most, *words = sys.argv[1:]
signal.signal(signal.SIGXFSZ, signal.SIG_IGN)
resource.setrlimit(resource.RLIMIT_AS if kind == "memory" else resource.RLIMIT_FSIZE, (int(most), int(most)))
os.execv(words[0], words)
"""


def text_of(name):
    return bare(name).encode()


class Folder:
    """A folder in which the program is run on files that it is given."""

    def __init__(self, program, path):
        self.program, self.path = program, path

    def put(self, **files):
        write_all(self.path, files)

    def run(self, words, **limit):
        """Status, standard output and standard error. `out` or `err` is the most bytes that this one takes, `memory` the address space."""
        # The limit is one of files, so a text that is not limited goes through a pipe.
        with tempfile.TemporaryFile() as short:
            sinks = {name: short if limited in limit else subprocess.PIPE for name, limited in (("stdout", "out"), ("stderr", "err"))}
            before = [sys.executable, "-S", "-E", "-c", LIMITED, *map(str, *limit.items())] if limit else []
            found = run([*before, self.program, *words], cwd=self.path, text=False, **sinks)
            short.seek(0)
            taken = short.read()
        return found.returncode, taken if "out" in limit else found.stdout, taken if "err" in limit else found.stderr


def cut_protocols(folder):
    """Of the prefixes of a protocol those are taken that end with the last brace of the section or of a later item, or with the line feed after it."""
    text = text_of("tickets")
    ends = [match.end() for match in re.finditer(rb"\}\n", text)]
    whole = {end for each in ends for end in (each - 1, each)}
    names = [f"prefix{size}" for size in range(len(text) + 1)]
    folder.put(**{name: text[:size] for size, name in enumerate(names)})
    found = [folder.run(["show", name]) for name in names]
    wrong = differs("how many prefixes are taken", sum(1 for status, _, _ in found if status == 0), 12)
    for size, (status, out, err) in enumerate(found):
        wrong += differs(f"the prefix of {size} bytes", status, 0 if size in whole else 5)
        if status != 0 and (out or not re.fullmatch(rb"armc: protocol: line \d+ column \d+: [^\n]+\n", err)):
            wrong.append(f"the prefix of {size} bytes: {out} and {err}")
    return wrong


def cut_certificates(folder):
    """A certificate of either version that is cut anywhere is truncated, at the line after the last line feed that is left."""
    folder.put(f=text_of("tickets"))
    folder.put(c=folder.run(["check", "f"])[1])
    return [line for version in (1, 2) for line in cut_certificate(folder, version)]


def cut_certificate(folder, version):
    text = folder.run(["check", "f"] if version == 1 else ["migrate", "f", "c"])[1]
    names = [f"cut{version}_{size}" for size in range(len(text) + 1)]
    folder.put(**{name: text[:size] for size, name in enumerate(names)})
    found = [folder.run(["verify", "f", name]) for name in names]
    wrong = differs(f"the whole, version {version}", found.pop(), (0, b"valid\n", b""))
    for size, answer in enumerate(found):
        line = text[:size].count(b"\n") + 1
        wrong += differs(f"the prefix of {size} bytes, version {version}", answer, (6, b"", b"armc: certificate: line %d: truncated\n" % line))
    return wrong


def cut_properties(folder):
    """Of the prefixes of a text of properties those are taken that end with the last brace of a block, or with the line feed after it."""
    text = b"bad none { P: n*; }\nbad pairs { P: any* t any* t any*; }\nbad none { P: empty; }\n"
    whole = {end for match in re.finditer(rb"\}\n", text) for end in (match.end() - 1, match.end())}
    names = [f"properties{size}" for size in range(len(text) + 1)]
    folder.put(f=text_of("token"), **{name: text[:size] for size, name in enumerate(names)})
    wrong = []
    for size, name in enumerate(names):
        status, out, err = folder.run(["checkall", "f", name])
        wrong += differs(f"the prefix of {size} bytes", status, 0 if size in whole else 6)
        if status == 6 and (out or not re.fullmatch(rb"armc: properties: line \d+ column \d+: unexpected token\n", err)):
            wrong.append(f"the prefix of {size} bytes: {out} and {err}")
    return wrong


def long_texts(folder):
    """Protocols of 1 MiB, certificates of 1,000,000 states and of a number of 23 digits, and a bad letter 13 places before the end."""
    token = text_of("token")
    deep = b"protocol deep\narray P { a b }\ninit { P: b; }\nbad { P: any* a" + b" any" * 12 + b"; }\n"
    folder.put(f=token, signs=b"#" * MEGABYTE, braces=b"{" * MEGABYTE, states=b"armc 1 safe\nstates 1000000\nend\n", deep=deep,
               digits=b"armc 1 safe\nstates 1\nedge 0 P.n 99999999999999999999999\nend\n")
    refused = lambda place: (5, b"", b"armc: protocol: line 1 column %d: unexpected token\n" % place)
    wrong = differs("1 MiB of #", folder.run(["show", "signs"]), refused(MEGABYTE + 1))
    wrong += differs("1 MiB of {", folder.run(["show", "braces"]), refused(1))
    wrong += differs("1,000,000 states", folder.run(["verify", "f", "states"]), (7, b"not valid: initial missing: P: t\n", b""))
    wrong += differs("23 digits", folder.run(["verify", "f", "digits"]), (6, b"", b"armc: certificate: line 3: out of range\n"))
    status, out, err = folder.run(["check", "deep", "--report"])
    wrong += differs("a bad letter 13 places before the end", (status, out), (0, b"armc 1 safe\nstates 2\nfinal 1\nedge 0 P.b 1\nend\n"))
    return wrong + ([] if b'"counted":4,' in err else [f"its report is {err}"])


def long_words(folder):
    """A configuration in one word of 131,071 bytes, which are all that the system takes, and in a run of 1 MiB."""
    folder.put(f=text_of("token"), run=b"armc 1 unsafe\nstart P: t" + b" n" * ((MEGABYTE - 4) // 2) + b"\nend\n")
    letters = b" n" * ((131_071 - 4) // 2)
    wrong = differs("one word", folder.run(["steps", "f", b"P: t" + letters]), (0, b"pass -> P: n t" + letters[2:] + b"\n", b""))
    return wrong + differs("a run of 1 MiB", folder.run(["verify", "f", "run"]), (7, b"not valid: not bad\n", b""))


def words_without_text(folder):
    """Words of which one is no UTF-8, the name of a command, of a file that is there, an option or a word too many, mean no command: the usage comes."""
    folder.put(f=text_of("token"))
    write(os.path.join(os.fsencode(folder.path), b"f\xff"), text_of("token"))
    lists = [[b"\xff"], [b"show\xc3"], [b"show", b"f\xff"], [b"show", b"f", b"\x80"], [b"check", b"f", b"--budget\xe2\x82", b"9"],
             [b"check", b"f", b"--budget", b"9\xf8"], [b"steps", b"f", b"P: t\xed\xa0\x80"], [b"verify", b"f", b"\xc0\xaf"]]
    return [line for words in lists for line in differs(words, folder.run(words), (3, b"", read_bytes("tests", "usage")))]


def calls():
    """Words of each command and kind of answer, with their files."""
    token, tickets, door, first = (text_of(name) for name in ("token", "tickets", "open_door", "first"))
    proof = b"armc 1 safe\nstates 1\nfinal 0\nedge 0 P.a 0\nedge 0 P.b 0\nend\n"
    yield "check, safe, with a report", REPORT, {"f": token}
    yield "check, unsafe", ["check", "f"], {"f": door}
    yield "check, unknown", ["check", "f", "--budget", "9"], {"f": token}
    yield "gen", ["gen", "3"], {}
    yield "verify, valid", ["verify", "f", "c"], {"f": first, "c": proof}
    yield "verify, not valid", ["verify", "f", "c"], {"f": first, "c": proof.replace(b"edge 0 P.b 0\n", b"")}
    yield "verify, certificate refused", ["verify", "f", "c"], {"f": first, "c": b"armc 2\n"}
    yield "show", ["show", "f"], {"f": tickets}
    yield "show, protocol refused", ["show", "f"], {"f": b"protocol p\n"}
    yield "show, a name that is missing", ["show", "missing"], {}
    yield "steps", ["steps", "f", "P: w i"], {"f": tickets}
    yield "steps, configuration refused", ["steps", "f", "P: x"], {"f": tickets}
    yield "migrate", ["migrate", "f", "c"], {"f": first, "c": proof}
    yield "back", ["back", "f"], {"f": token}
    yield "past", ["past", "f"], {"f": token}
    yield "deadlock", ["deadlock", "f"], {"f": door}
    yield "checkall", ["checkall", "f", "p"], {"f": token, "p": b"bad none { P: n*; }\n"}
    yield "checkall, properties refused", ["checkall", "f", "p"], {"f": token, "p": b"bad q { Q: any; }\n"}
    yield "usage", ["show"], {}


def short_sinks(folder):
    """Each text of each kind of answer is cut: the status is 8 then, and the sink has exactly what it takes."""
    wrong = []
    for title, words, files in calls():
        folder.put(**files)
        status, out, err = folder.run(words)
        sizes = lambda text: sorted({0, 1, 3, 5, len(text) // 2, len(text) - 1} & set(range(len(text))))
        tries = [("out", size, (8, out[:size], b"")) for size in sizes(out)] + [("err", size, (8, out, err[:size])) for size in sizes(err)]
        tries += [("out", len(out), (status, out, err)), ("err", len(err), (status, out, err))]
        for sink, size, wanted in tries:
            wrong += differs(f"{title}, {sink} takes {size} bytes", folder.run(words, **{sink: size}), wanted)
        with open("/dev/full", "wb") as full:
            found = run([folder.program, *words], cwd=folder.path, text=False, stdout=full)
        wrong += differs(f"{title}, a full device", (found.returncode, found.stderr), (8, b"") if out else (status, err))
    return wrong


def failed_reads(folder):
    """The name that is told is the one whose read failed, and the first of two."""
    folder.put(f=text_of("first"), c=b"")
    fault = lambda name: (4, b"", b"armc: read fault: %s\n" % name)
    wrong = []
    for words, name in ((["verify", "x", "y"], b"x"), (["verify", "f", "y"], b"y"), (["verify", "f", "."], b"."), (["check", "x"], b"x"), (["show", "x"], b"x"),
                        (["steps", "x", "P: a"], b"x"), (["verify", "x", "c"], b"x")):
        wrong += differs(" ".join(words), folder.run(words), fault(name))
    return wrong


def little_memory(folder):
    """Two automata that do not fit into the address space: that of the bad words, and a certificate's."""
    folder.put(f=text_of("token"), c=b"armc 1 safe\nstates 1000000\n" + b"".join(b"edge %d P.n 0\n" % q for q in range(300_000)) + b"end\n",
               deep=b"protocol deep\narray P { a b }\ninit { P: b; }\nbad { P: any* a" + b" any" * 24 + b"; }\n")
    wrong = []
    for words in (["check", "deep"], ["verify", "f", "c"]):
        wrong += differs(" ".join(words), folder.run(words, memory=24 * MEGABYTE), (9, b"", b"armc: out of memory\n"))
    return wrong


def in_folder(check, program):
    with tempfile.TemporaryDirectory() as path:
        return check(Folder(program, path))


CHECKS = {
    "cut protocols": cut_protocols,
    "cut certificates": cut_certificates,
    "cut texts of properties": cut_properties,
    "long texts": long_texts,
    "long configurations": long_words,
    "words that are no text": words_without_text,
    "sinks that take a part": short_sinks,
    "reads that fail": failed_reads,
    "little memory": little_memory,
}
CHECKS = {name: functools.partial(in_folder, check) for name, check in CHECKS.items()}

if __name__ == "__main__":
    sys.exit(main(CHECKS))
