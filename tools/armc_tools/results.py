"""Results of searches as sealed lines of text, written whole or not at all. It imports nothing of the other tools: a copy of it goes along with a list."""
import hashlib
import json
import os
import subprocess
import sys
import tempfile

# A line of a result begins so; its last word is the digest of what stands between.
HEAD = "armc-result "
PROGRAM, PROTOCOLS, RESULTS, ANSWERED = "armc", "protocols", "results", "answered"
# What says which search a result is of.
KEY = ("task", "words", "protocol", "program")
# A search of many properties is made by a tool, which goes along then, and so is one for a deadlock with ends that are meant.
PROPERTIES, DEADLOCKS = "armc-properties", "armc-portfolio"


def sealed(result):
    """A result as one line of text, of which no part is taken for a whole one."""
    body = json.dumps(result, sort_keys=True)
    return f"{HEAD}{body} {hashlib.sha256(body.encode()).hexdigest()}\n"


def opened(text):
    """The result of a line, or None where it is not whole."""
    body, _, seal = text.rstrip("\n").rpartition(" ")
    body = body[len(HEAD):] if body.startswith(HEAD) else ""
    return json.loads(body) if body and seal == hashlib.sha256(body.encode()).hexdigest() else None


def path_of(task, folder="."):
    return os.path.join(folder, RESULTS, f"{task}.json")


def read(path):
    """The result that a file holds, or None."""
    try:
        with open(path, encoding="utf-8") as file:
            return opened(file.read())
    except (OSError, ValueError):
        return None


def write(path, text):
    """Writes a file under another name, flushes it to the disk, and renames it."""
    folder = os.path.dirname(path)
    os.makedirs(folder, exist_ok=True)
    number, name = tempfile.mkstemp(prefix=".part-", dir=folder)
    try:
        with os.fdopen(number, "w", encoding="utf-8") as file:
            file.write(text)
            file.flush()
            os.fsync(file.fileno())
        os.replace(name, path)
    except BaseException:
        os.unlink(name)
        raise


def digest(path):
    with open(path, "rb") as file:
        return hashlib.sha256(file.read()).hexdigest()


def judged(program, file, text, *more):
    """'valid', or the line that refuses a certificate: by `verify`, and by armc-second-opinion with these words more where it is about deadlocks. None
    where a signal ended it."""
    second = os.path.join(os.path.dirname(os.path.dirname(os.path.abspath(__file__))), "armc-second-opinion")
    judge = [sys.executable, second, *more] if text.startswith("deadlock") else [program, "verify"]
    with tempfile.NamedTemporaryFile("w", suffix=".cert", encoding="utf-8") as certificate:
        certificate.write(text)
        certificate.flush()
        ended = subprocess.run([*judge, file, certificate.name], stdin=subprocess.DEVNULL, capture_output=True)
    told = (ended.stdout or ended.stderr).decode("utf-8", "replace").strip()
    return None if ended.returncode < 0 else "valid" if ended.returncode == 0 and told == "valid" else told or f"status {ended.returncode}"


def judged_result(program, file, result):
    """The same of all certificates of a result; nothing where it has none."""
    command, _, *options = result["words"]
    if command == PROPERTIES:
        return judged_properties(program, result)
    buts = [word for at, word in enumerate(options) if "--but" in options[max(0, at - 1):at + 1]]
    return judged(program, file, result["out"], *buts) if result["status"] in (0, 1) else ""


def judged_properties(program, result):
    """Of the table of armc-properties: each certificate, for the protocol with the rows of its property."""
    told, files = "", result["files"]
    for name, answer, *_, certificate in (line.split() for line in result["out"].splitlines()[1:]):
        if answer in ("safe", "unsafe"):
            text, protocol = files.get(certificate, ""), files.get(f"{name}.armc", "")
            with tempfile.NamedTemporaryFile("w", suffix=".armc", encoding="utf-8") as file:
                file.write(protocol)
                file.flush()
                told = judged(program, file.name, text) if text.startswith(f"armc 1 {answer}\n") else f"{certificate} does not fit its row"
            if told != "valid":
                return told
    return told
