"""MONA's answer to a question: valid, a counterexample read back as configurations, or that it gives up, which is no opinion.

MONA tells its verdict in its text alone, and what it says where it aborts is lost if it is kept back: so it is read without a buffer (`stdbuf`).
"""
import collections
import re
import shutil
import subprocess
import time

from .mona import BLANK
from .program import NOT_RUN, NOT_VALID, UNKNOWN, Kept, Refused

# `word` is valid, not valid or no opinion; `words` are the words of a counterexample as lists of numbers, by name.
Answer = collections.namedtuple("Answer", "word told words")
VALID, WRONG, NO_OPINION = "valid", "not valid", "no opinion"
STATUS = {VALID: 0, WRONG: NOT_VALID, NO_OPINION: UNKNOWN}


def command():
    """The words that call MONA."""
    if not shutil.which("mona"):
        raise Refused(NOT_RUN, "no mona is on the path (Debian has it as the package mona)")
    return [*(["stdbuf", "-o0"] if shutil.which("stdbuf") else []), "mona", "-q"]


def asked(text, seconds):
    """The answer to a file of MONA within so many seconds."""
    with Kept({"question.mona": text}) as kept:
        try:
            ended = subprocess.run([*command(), kept.path("question.mona")], stdin=subprocess.DEVNULL, capture_output=True, timeout=max(seconds, 0.01))
        except subprocess.TimeoutExpired:
            return Answer(NO_OPINION, "MONA is stopped at the end of its time", {})
    return answer_of(ended.stdout.decode("utf-8", "replace"), ended.stderr.decode("utf-8", "replace"), ended.returncode)


def answer_of(out, err, status):
    """What MONA's text says. Its status is 0 whether the formula is valid or not, and another one where it gives up."""
    if status == 0 and "Formula is valid" in out:
        return Answer(VALID, "", {})
    told = re.search(r"^A counter-example of least length \((\d+)\) is:\n((?:\w+ +X [01X]*\n)+)", out, re.M)
    if status == 0 and told:
        return Answer(WRONG, "", words_of(told[2], int(told[1])))
    lines = [line for line in (out + err).splitlines() if line.strip()]
    return Answer(NO_OPINION, f"MONA gives up: {lines[-1].strip() if lines else f'status {status}'}", {})


def words_of(rows, length):
    """The numbers of the letters at each place, from the rows of bits `b0 X 0101`; a bit that MONA leaves open is 0."""
    found = {}
    for name, number, row in re.findall(r"^([bc])(\d+) +X ([01X]*)$", rows, re.M):
        word = found.setdefault(name, [0] * length)
        for place, bit in enumerate(row):
            word[place] |= (bit == "1") << int(number)
    return found


def configuration(letters, word):
    """The configuration that a word is, without its blanks."""
    lists, names = [[]], {number: letter for (_, letter), number in letters.number.items()}
    for number in word:
        if number in letters.separators:
            lists.append([])
        elif number != BLANK:
            lists[-1].append(names[number])
    return "; ".join(f"{section.name}: {' '.join(found) or 'empty'}" for section, found in zip(letters.sections, lists))


def told_part(question, part, answer):
    """The line of `verify` for a part that fails, and which part it is."""
    shown = [configuration(question.letters, answer.words[word]) for word in part.words]
    if part.kind == "rule":
        return f"not valid: leaves by {part.name}: {shown[0]} -> {shown[1]}\nrule {part.number}, line {part.line}"
    said = {"initial": "initial missing", "bad": "bad held", "stuck": "stuck held"}[part.kind]
    where = "" if part.kind == "stuck" else f"\n{'init' if part.kind == 'initial' else 'bad'} row {part.number}, line {part.line}"
    return f"not valid: {said}: {shown[0]}{where}"


def judged(question, seconds):
    """The verdict with its status, and what is told: the whole question first, and where that is not valid its parts, till one fails."""
    end = time.monotonic() + seconds
    answer = asked(question.whole(), seconds)
    if answer.word != WRONG:
        return STATUS[answer.word], answer.word + (f": {answer.told}" if answer.told else "")
    silent = []
    for part in question.parts:
        answer = asked(question.of_part(part), end - time.monotonic())
        if answer.word == WRONG:
            return STATUS[WRONG], told_part(question, part, answer)
        silent += [f"{part.kind} {part.name or part.number}"] if answer.word == NO_OPINION else []
    return STATUS[WRONG], f"not valid: one of these parts fails, of which alone there is no opinion: {', '.join(silent)}"
