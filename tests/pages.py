"""Whether pages, manual pages, syntax files and completions have the words of the language and of the program: the reserved words as the
sources have them, the productions as the definition of the grammar has them beside it, and the commands with their options as the
program's usage line has them. Usage: tests/pages.py [PROGRAM] [NAME..]
"""
import glob
import json
import os
import re
import sys

from support import TOP, main, read, run


def source_with(folders, what):
    """The text of the one source below these folders of crates in which this stands."""
    paths = [path for folder in folders for path in glob.glob(os.path.join(TOP, "crates", "*", folder, "**", "*"), recursive=True)]
    texts = [text for path in sorted(paths) if path.endswith((".rt", ".antt")) for text in [read(path)] if what in text]
    assert len(texts) == 1, f"{len(texts)} sources have {what}"
    return texts[0]


def reserved_words():
    """How the reserved words are written, by the list of them."""
    text = source_with(["src"], "pub enum Keyword")
    return re.findall(r'\(Keyword::\w+, b"(\w+)"\)', text)


def differences(name, found, wanted):
    """Words that stand in the one and not in the other."""
    lines = [f"{name} has no {word}" for word in sorted(set(wanted) - set(found))]
    return lines + [f"{name} has {word}, which the program has not" for word in sorted(set(found) - set(wanted))]


def language_page_words():
    sentence = re.search(r"The reserved words are (.*?)\.(?: |$)", read("docs", "LANGUAGE.md"), re.M)
    return re.findall(r"`(\w+)`", sentence[1])


def manual_page_words(words):
    """Those of the words that the manual page of the language shows in quotes."""
    quoted = " ".join(re.findall(r"^\.(?:It )?Ql (.*)$", read("man", "armc-protocol.5"), re.M))
    return set(re.findall(r"\w+", quoted)) & set(words)


def vim_words():
    text = read("editors", "vim", "syntax", "armc.vim")
    grouped = re.findall(r"^syntax keyword \w+ (.*?)(?: nextgroup=.*)?$", text, re.M)
    listed = "".join(re.findall(r"^let s:reserved \.?= '(.*)'$", text, re.M))
    return [word for words in grouped for word in words.split()], listed.split("|")


def textmate_words():
    grammar = json.loads(read("editors", "textmate", "armc.tmLanguage.json"))["repository"]
    grouped = "|".join(re.search(r"\(([\w|]+)\)", rule["match"])[1] for rule in grammar["words"]["patterns"])
    listed = re.search(r"\(\?!\(\?:([\w|]+)\)", grammar["declaration"]["match"])[1]
    return grouped.split("|"), listed.split("|")


def wrong_reserved_words(_):
    """Where a page or a syntax file does not have exactly the reserved words."""
    words = reserved_words()
    lines = differences("docs/LANGUAGE.md", language_page_words(), words)
    lines += differences("man/armc-protocol.5", manual_page_words(words), words)
    for name, found in (("the Vim file", vim_words()), ("the TextMate file", textmate_words())):
        lines += differences(name, found[0], words) + differences(f"the list of {name}", found[1], words)
    return lines


def told_productions():
    """The productions of the language page: each with its alternatives, one a line."""
    block = re.search(r"^## Grammar$.*?^```\n(.*?)^```$", read("docs", "LANGUAGE.md"), re.M | re.S)[1]
    found, name = {}, None
    for line in block.splitlines():
        new, alternative = re.match(r"(\w*) +[=|] (.*)", line).groups()
        name = new or name
        found.setdefault(name, []).append(alternative)
    return found


def defined_productions():
    """The comments of the definition of the grammar, one a line, without the two dashes."""
    return re.findall(r"^-- (.*)$", source_with(["specs"], "-- The grammar of protocol texts"), re.M)


def is_defined(name, alternative, comments):
    """Whether a comment of the definition begins with the production, or with its alternative, or says it for several words."""
    rest = re.sub(r'^"\w+" ', "", alternative)
    starts = (f"{name} = {alternative}", alternative, f"the word, and {rest}")
    return any(comment.startswith(start) or f" {name} = {alternative}" in comment for comment in comments for start in starts)


def wrong_productions(_):
    """Where the language page has a production that the definition of the grammar does not have so, or a word that is not reserved."""
    comments, words, lines = defined_productions(), reserved_words(), []
    for name, alternatives in told_productions().items():
        for alternative in alternatives:
            if not is_defined(name, alternative, comments):
                lines.append(f"docs/LANGUAGE.md has {name} = {alternative}, and the definition has not")
            used = re.findall(r'"([a-z]\w*)"', alternative)
            lines += [f"docs/LANGUAGE.md has the word {word} in {name}, which is not reserved" for word in used if word not in words]
    return lines


def usage(program):
    """The commands of the program's usage line: each with its words, as they stand there."""
    told = run([program]).stderr
    return re.fullmatch(r"armc: usage: (.*)\n", told)[1].split("; ")


def told_commands():
    """The first column of the table of commands on their page."""
    table = re.search(r"^\| words \| what it does \|.*\n\|[-|]*\n((?:\|.*\n)*)", read("docs", "COMMANDS.md"), re.M)[1]
    return [row.replace("\\|", "|") for row in re.findall(r"^\| `([^`]*)` \|", table, re.M)]


def wrong_commands(program):
    """Where a page does not have exactly the commands of the usage line, or the manual page or a completion lacks an option."""
    lines, forms = [], usage(program)
    lines += differences("docs/COMMANDS.md", told_commands(), forms)
    named = re.findall(r"`(\w+)`", re.search("^`show` prints .*?:", read("README.md"), re.M)[0])
    lines += differences("README.md", named, [form.split()[0] for form in forms])
    synopsis = read("man", "armc.1").split(".Sh SYNOPSIS")[1].split(".Sh DESCRIPTION")[0]
    lines += differences("man/armc.1", re.findall(r"^\.Cm (\w+)$", synopsis, re.M), [form.split()[0] for form in forms])
    options = {option for form in forms for option in re.findall(r"--(\w+)", form)}
    lines += differences("man/armc.1", re.findall(r"Fl -(\w+)", synopsis), options)
    for name in ("armc.bash", "_armc", "armc.fish"):
        text = read("completions", name)
        lines += [f"completions/{name} has no {word}" for word in sorted(options) if not re.search(rf"\b{word}\b", text)]
        lines += [f"completions/{name} has no {form.split()[0]}" for form in forms if not re.search(rf"\b{form.split()[0]}\b", text)]
    return lines


def headings(text):
    """What a page can be referred to by: its headings, and the bold words that begin a paragraph."""
    return [heading.replace("`", "") for pair in re.findall(r"^#+ (.*)$|^\*\*(.*?)\.?\*\*", text, re.M) for heading in pair if heading]


def wrong_references(_):
    """Where a page refers to a heading, as `(docs/TOOLS.md, A release)`, that the other page has not, to no page, or by a link to none of its own."""
    names = ["README.md", "CONTRIBUTING.md", "CHANGELOG.md", *sorted(os.path.relpath(path, TOP) for path in glob.glob(os.path.join(TOP, "docs", "*.md")))]
    pages, lines = {name: read(name) for name in names}, []
    for name, text in pages.items():
        for page, heading in re.findall(r"`?(docs/\w+\.md|\bREADME\b)`?(?:, ([A-Z][^,;.()|\n]*))?", text):
            other = pages.get(page.replace("README", "README.md"))
            there = other and (not heading or any(heading.replace("`", "").startswith(each) for each in headings(other)))
            lines += [] if there else [f"{name} refers to {page}, {heading}, which is not there"]
        anchors = [re.sub(r"[^\w -]", "", heading.lower()).replace(" ", "-") for heading in headings(text)]
        lines += [f"{name} has no heading for the link #{link}" for link in re.findall(r"\]\(#([\w-]+)\)", text) if link not in anchors]
    return lines


def told_by(script):
    """What the script says where it fails."""
    found = run([os.path.join(TOP, "tests", script)])
    return (found.stdout + found.stderr).splitlines() if found.returncode else []


CHECKS = {
    "definitions page": lambda _: told_by("definitions-page"),
    "picture and table of crates": lambda _: told_by("crate-picture"),
    "public calls on pages": lambda _: told_by("public-calls"),
    "reserved words on pages": wrong_reserved_words,
    "productions on pages": wrong_productions,
    "commands on pages": wrong_commands,
    "references of pages": wrong_references,
}

if __name__ == "__main__":
    sys.exit(main(CHECKS))
