"""What stands around the program: the launcher and its build, install, manual pages, completions, syntax files for editors, the check of a
folder, and the pages for newcomers. A checker (mandoc, zsh, fish, vim) that is not on this machine leaves its case out.
Usage: tests/surroundings.py [PROGRAM] [NAME..]
"""
import glob
import json
import os
import re
import shutil
import signal
import subprocess
import sys
import tempfile

from support import SECONDS, TOP, call, example, main, read, run, till, tool_words, write

# A toolchain that proves nothing. `rattle` writes the crate that it was asked for to a list and wants the libraries below, and `rattle-link` makes
# a program that prints its words.
RT = """#!/usr/bin/env bash
case $1 in
version) echo "$FAKE_KIT logic 0" ;;
doc) echo "$FAKE_TOP/START-HERE.md" ;;
try) shift 2; echo "words: $*"; printf 'armc: not proved\\nchecked: ended status=5\\nrun=ended status=5 runners=1 races=unchecked proved=no\\n' >&2; exit 5 ;;
esac
"""
RATTLE = """#!/usr/bin/env bash
[ "$2" != --help ] || { echo " --statements"; exit; }
name=$3 made=${!#}
echo "$name" >>"$FAKE_LIST"; [ "$name" != "$FAKE_SLOW" ] || { while [ -e "$FAKE_LIST" ]; do sleep 0.1; done; exit 1; }
for word; do
  case $word in *=*.rlib) [ -e "${word#*=}" ] || echo "$name-without-${word%%=*}" >>"$FAKE_LIST" ;; esac
done
case $name in middle | other)
  for _ in $(seq 600); do [ "$(grep -c 'middle\\|other' "$FAKE_LIST")" -lt 2 ] || break; sleep 0.1; done ;;
esac
[ "$name" != "$FAKE_FAULT" ] || { echo error; exit 1; }
[ "$name" != "$FAKE_EDIT" ] || echo >>src/lib.rt
case "$*" in *"--jobs 1 "*) ;; *) [ "$name" != "$FAKE_KILL" ] || kill -9 $$ ;; esac
mkdir -p "$made"; echo "$*" >"$made/words"
"""
LINKER = """#!/usr/bin/env bash
while [ "$1" != -o ]; do shift; done
cat >"$2" <<'END'
#!/bin/sh
[ "$1" = verify ] && { echo valid; exit 0; }
echo "words: $*"; exit 3
END
chmod +x "$2"
"""
CRATES = "low:\nmiddle: low io\nother: low\ntop: middle other\narmc: top\ntests: top\n"


def differences(found, wanted):
    return [f"{name} is {f!r}, and must be {w!r}" for name, (f, w) in {name: (found.get(name), wanted[name]) for name in wanted}.items() if f != w]


def wrong_end(what, found, words, asked, lines=None):
    """Where the launcher does not end with 126 and these words, in so many lines, and has asked for these crates."""
    right = found["status"] == 126 and words in found["stderr"] and found["asked"] == asked and lines in (None, found["stderr"].count("\n"))
    return [] if right else [f"with {what}: {found}"]


class Tree:
    """A small repository with the launcher and its surroundings, six crates without content and the toolchain above."""

    def __init__(self, folder):
        self.top, self.list = os.path.join(folder, "repository"), os.path.join(folder, "list")
        os.makedirs(os.path.join(self.top, "examples"))
        for name in ("armc", "install"):
            shutil.copy(os.path.join(TOP, name), self.top)
        for name in ("tools", "man", "completions"):
            shutil.copytree(os.path.join(TOP, name), os.path.join(self.top, name))
        for name in ("first.armc", "first.cert"):
            shutil.copy(os.path.join(TOP, "examples", name), os.path.join(self.top, "examples"))
        write(os.path.join(self.top, "crates.txt"), CRATES)
        for line in CRATES.splitlines():
            os.makedirs(os.path.join(self.top, "crates", line.partition(":")[0], "src"))
        write(os.path.join(self.top, "HANDLES"), "Handles allowed: none.\n")
        self.kit = os.path.join(folder, "kit")
        self.bin = os.path.join(self.kit, "bin")
        for name in ("bin", "rlibs/std.rlib", "rlibs/io.rlib"):
            os.makedirs(os.path.join(self.kit, name))
        for name, text in (("rt", RT), ("rattle", RATTLE), ("rattle-link", LINKER)):
            write(os.path.join(self.bin, name), text, script=True)
        self.environment = {**os.environ, "PATH": f"{self.bin}:{os.environ['PATH']}", "FAKE_TOP": self.kit, "FAKE_LIST": self.list}
        self.environment.update(FAKE_KIT="rattle-kit-13b", FAKE_SLOW="", FAKE_FAULT="", FAKE_EDIT="", FAKE_KILL="", TMPDIR=folder, ARMC_JOBS="2")
        self.environment.pop("ARMC_TRY", None)

    def call(self, *words, program="armc", **changed):
        write(self.list, "")
        found = run([os.path.join(self.top, program), *words], env={**self.environment, **changed}, cwd=self.top)
        return {"status": found.returncode, "stdout": found.stdout, "stderr": found.stderr, "asked": read(self.list).split()}

    def out(self, name, *parts):
        return os.path.join(self.top, "crates", name, "out", *parts)

    def forget(self):
        shutil.rmtree(self.out("armc"), ignore_errors=True)

    def change(self, name):
        path = os.path.join(self.top, "crates", name, "src", "lib.rt")
        write(path, (read(path) if os.path.exists(path) else "") + "//\n")


def launcher(_):
    """The launcher over the toolchain above: what it asks of it, what it says, and its status."""
    with tempfile.TemporaryDirectory() as folder:
        tree, wrong = Tree(folder), []
        found = tree.call("show", "a b")
        wrong += differences(found, {"status": 3, "stdout": "words: show a b\n"})
        if found["asked"] not in (["low", *two, "top", "armc"] for two in (["middle", "other"], ["other", "middle"])):
            wrong.append(f"it proves {found['asked']}")
        if "armc: proved 4 of 5 crates, 0 min: top\narmc: the program is built, 0 min\n" not in found["stderr"]:
            wrong.append(f"it says {found['stderr']!r}")
        wrong += ["its logs are left"] if any(name.startswith("armc-build-") for name in os.listdir(folder)) else []
        for name, jobs in (("low", 2), ("middle", 2), ("other", 1), ("top", 2)):
            words = read(tree.out(name, "statements", f"{name}.rlib", "words"))
            wrong += [] if f" --jobs {jobs} --statements -o " in words else [f"words for {name}: {words}"]
        for proved in ({}, {"ARMC_TRY": "0"}):
            wrong += differences(tree.call("x", **proved), {"status": 3, "stdout": "words: x\n", "stderr": "", "asked": []})
        return wrong + launcher_faults(tree)


def launcher_faults(tree):
    """A crate that is not proved, files that are changed during the build and after it, a check that is killed as long as it has more jobs than
    one, an old kit, one without its checker, and none."""
    wrong = []
    tree.change("top")
    wrong += wrong_end("a crate that is not proved", tree.call("x", FAKE_FAULT="top"), "could not be built, at crate top; ", ["top"])
    wrong += wrong_end("a crate that is changed meanwhile", tree.call("x", FAKE_EDIT="top"), "at crate top, whose files were changed meanwhile", ["top"])
    wrong += wrong_end("a file that is changed in the end", tree.call("x", FAKE_EDIT="armc"), "changed while the program was built", ["top", "armc"])
    tree.change("top")
    wrong += differences(tree.call("x", FAKE_KILL="top"), {"status": 3, "stdout": "words: x\n", "asked": ["top", "top", "armc"]})
    tree.forget()
    wrong += wrong_end("an old kit", tree.call("x", FAKE_KIT="rattle-kit-13a"), "rattle-kit-13b or later is needed", [], 1)
    wrong += wrong_end("a kit without its checker", tree.call("x", FAKE_TOP=tree.top), "has no bin/rattle", [])
    os.remove(os.path.join(tree.bin, "rt"))
    if not shutil.which("rt", path=tree.environment["PATH"]):
        wrong += wrong_end("no rt", tree.call("x"), "is not on the path", [], 1)
    return wrong


def launcher_unproved(_):
    """ARMC_TRY=1: the words reach `rt try`, with the files' whole paths, the status is the program's, and it says that nothing is proved."""
    with tempfile.TemporaryDirectory() as folder:
        tree = Tree(folder)
        found = tree.call("verify", "examples/first.armc", "nowhere", ARMC_TRY="1")
        wrong = differences(found, {"status": 5, "stdout": f"words: verify {tree.top}/examples/first.armc nowhere\n", "asked": []})
        lines = found["stderr"].splitlines()
        wrong += [] if lines[1:] == ["armc: not proved"] and "nothing of this run is proved" in lines[0] else [f"it says {lines}"]
        return wrong + wrong_end("an old kit", tree.call("x", ARMC_TRY="1", FAKE_KIT="rattle-kit-12"), "rattle-kit-13b or later is needed", [], 1)


def stopped_build(tree, number):
    """Status and standard error of a build that a signal reaches while it proves the last of the libraries."""
    # (a program that a shell started in the background is handed a SIGINT that is ignored)
    signal.signal(signal.SIGINT, signal.default_int_handler)
    build = subprocess.Popen([os.path.join(tree.top, "tools", "build-program")], env={**tree.environment, "FAKE_SLOW": "top"}, stderr=subprocess.PIPE, text=True)
    till(lambda: os.path.exists(tree.list) and "top" in read(tree.list))
    build.send_signal(number)
    try:
        said = build.communicate(timeout=SECONDS)[1]
    except subprocess.TimeoutExpired:
        build.kill()
        said = build.communicate()[1]
    return build.returncode, said


def launcher_interrupted(_):
    """An interrupt ends what runs, what is proved stays, and the next call goes on; so it does after a build that was killed."""
    wrong = []
    for number, status, words in ((signal.SIGINT, 130, "interrupted; what is proved is kept"), (signal.SIGKILL, -signal.SIGKILL, "")):
        with tempfile.TemporaryDirectory() as folder:
            tree = Tree(folder)
            ended, said = stopped_build(tree, number)
            wrong += [] if ended == status and words in said else [f"status {ended}: {said!r}"]
            wrong += differences(tree.call("x"), {"status": 3, "stdout": "words: x\n", "asked": ["top", "armc"]})
    return wrong


def installed(_):
    """install puts what tools/install-list names under a prefix, and takes all of it away."""
    with tempfile.TemporaryDirectory() as folder:
        tree, prefix = Tree(folder), os.path.join(folder, "prefix")
        found = tree.call(prefix, program="install")
        files = sorted(os.path.relpath(os.path.join(at, name), prefix) for at, _, names in os.walk(prefix) for name in names)
        wanted = sorted(["share/armc/installed", *(line.split()[2] for line in read("tools", "install-list").splitlines())])
        wrong = [] if found["status"] == 0 and files == wanted else [f"installing: {found}, {files}"]
        if shutil.which("mandoc"):
            wrong += lint_pages(os.path.join(prefix, "share", "man"))
        found = tree.call("--uninstall", prefix, program="install")
        left = [name for _, _, names in os.walk(prefix) for name in names] + glob.glob(os.path.join(prefix, "share", "armc"))
        wrong += [] if found["status"] == 0 and not left else [f"taking away: {found}, {left}"]
        found = tree.call("--uninstall", prefix, program="install")
        return wrong + ([] if found["status"] == 1 and "nothing of armc is installed" in found["stderr"] else [f"taking away twice: {found}"])


def lint_pages(folder):
    """What mandoc finds in the manual pages below a folder. They name each other, which mandoc looks for in the folders of the system,
    and where others name the system they name the program with its version."""
    pages = sorted(glob.glob(os.path.join(folder, "man*", "*")))
    found = run(["mandoc", "-Tlint", *pages])
    told = ("referenced manual not found: Xr armc", "operating system explicitly specified: Os armc")
    lines = [line for line in (found.stdout + found.stderr).splitlines() if not any(each in line for each in told)]
    return lines + ([] if len(pages) == 4 else [f"the pages are {pages}"])


def manual_pages(_):
    if not shutil.which("mandoc"):
        return "mandoc is not there"
    with tempfile.TemporaryDirectory() as folder:
        for name in os.listdir(os.path.join(TOP, "man")):
            os.makedirs(os.path.join(folder, f"man{name[-1]}"), exist_ok=True)
            shutil.copy(os.path.join(TOP, "man", name), os.path.join(folder, f"man{name[-1]}"))
        return lint_pages(folder)


# The commands are those of the table on their page, which tests/pages.py compares with the program.
COMMANDS = " ".join(re.findall(r"^\| `(\w+) [^`]*` \|", read("docs", "COMMANDS.md").partition("\n| words |")[2].partition("\n\n")[0], re.M))
OPTIONS = "--method --start --bound --budget --workers --report"


def wrong_words(shell, told, wanted):
    return [] if sorted(told.split()) == sorted(wanted.split()) else [f"{shell} offers {told.split()}, and must offer {wanted.split()}"]


def completions_of_bash(_):
    ask = (
        'source completions/armc.bash; for line in "armc |" "armc check |--" "armc check f --method|" "armc gen |--w" "armc show |examples/tick"; do '
        'read -ra COMP_WORDS <<<"${line/|/}"; [ "${line: -1}" = "|" ] && COMP_WORDS+=(""); COMP_CWORD=$((${#COMP_WORDS[@]}-1)); '
        '_armc; echo "${COMPREPLY[*]}"; done'
    )
    found = run(["bash", "-c", ask], cwd=TOP)
    files = " ".join(sorted(f"examples/{name}" for name in os.listdir(os.path.join(TOP, "examples")) if name.startswith("tick")))
    wanted = [COMMANDS, OPTIONS, "predicates length", "--workers", files]
    told = found.stdout.split("\n")[:-1]
    return found.stderr.splitlines() + ([f"it answers {told}"] if len(told) != len(wanted) else sum(map(wrong_words, ["bash"] * 5, told, wanted), []))


def offered_for(tool):
    """The options that each shell that is there offers for a tool."""
    ask = f'source completions/armc.bash; COMP_WORDS=({tool} --); COMP_CWORD=1; _armc_tools {tool}; echo "${{COMPREPLY[*]}}"'
    yield "bash", run(["bash", "-c", ask], cwd=TOP).stdout
    if shutil.which("zsh"):
        ask = f'_arguments() {{ print -l -- "$@" }}; words=({tool} --); CURRENT=2; service={tool}; source completions/_armc_tools'
        yield "zsh", " ".join(["--help", *re.findall(r"^\*?(--[\w-]+)", run(["zsh", "-fc", ask], cwd=TOP).stdout, re.M)])
    if shutil.which("fish"):
        told = run(["fish", "--no-config", "-c", f"source completions/armc.fish; complete -C '{tool} --'"], cwd=TOP).stdout
        yield "fish", " ".join(["--help", *(line.split("\t")[0] for line in told.splitlines())])


def completions_of_tools(_):
    """The options that the shells offer for each tool are those of its help, and the manual page names them all."""
    wrong, page = [], (read("man", "armc-tools.1") + read("man", "armc-expand.1")).replace("Fl -", "--")
    for tool in ("armc-portfolio", "armc-coverage", "armc-explain", "armc-walk", "armc-properties", "armc-expand", "armc-second-opinion", "armc-export",
                 "armc-search-one", "armc-check-folder"):
        told = run(tool_words(tool.replace("armc-check", "check"), "--help")).stdout
        options = set(re.findall(r"(?<![\w-])--[\w-]+", told))
        for shell, offered in offered_for(tool):
            wrong += wrong_words(f"{shell}, for {tool},", offered, " ".join(options))
        wrong += [f"the manual page does not name {option} of {tool}" for option in options if option not in page]
    return wrong


def completions_of_zsh(_):
    if not shutil.which("zsh"):
        return "zsh is not there"
    # The functions of zsh that offer words are replaced by ones that print what they are given.
    ask = '_describe() { for each in $commands; do echo ${each%%:*}; done }; _arguments() { print -l -- "$@" }; '
    ask += "words=(armc {}); CURRENT={}; source completions/_armc"
    told = [run(["zsh", "-fc", ask.replace("{}", words, 1).replace("{}", at)], cwd=TOP) for words, at in (("''", "2"), ("check ''", "3"), ("gen ''", "3"))]
    wrong = [line for found in told for line in found.stderr.splitlines()] + wrong_words("zsh", told[0].stdout, COMMANDS)
    wrong += wrong_words("zsh", " ".join(re.findall(r"^--\w+", told[1].stdout, re.M)), OPTIONS)
    return wrong + wrong_words("zsh", " ".join(re.findall(r"^--\w+", told[2].stdout, re.M)), "--workers")


def completions_of_fish(_):
    if not shutil.which("fish"):
        return "fish is not there"
    wrong = []
    for line, wanted in (("armc ", COMMANDS), ("armc check --", OPTIONS), ("armc check --method ", "predicates length"), ("armc gen --", "--workers")):
        found = run(["fish", "--no-config", "-c", f"source completions/armc.fish; complete -C '{line}'"], cwd=TOP)
        wrong += found.stderr.splitlines() + wrong_words("fish", " ".join(each.split("\t")[0] for each in found.stdout.splitlines()), wanted)
    return wrong


KINDS = {
    "Declaration": "protocol language lossy cell array channel stack rule",
    "Row": "init bad",
    "Move": "at pair ring two set send recv pop push spawn exit lose",
    "Guard": "when all some in",
    "Region": "left right others",
    "Table": "map",
    "Pattern": "any empty",
}
KIND_OF = {word: kind for kind, words in KINDS.items() for word in words.split()}
# The kinds of the Vim syntax file, and the scopes of the TextMate grammar that stand for them.
SCOPES = {
    "Declaration": "keyword.declaration.armc",
    "Row": "keyword.other.row.armc",
    "Move": "support.function.move.armc",
    "Guard": "keyword.control.guard.armc",
    "Region": "variable.language.region.armc",
    "Table": "keyword.other.table.armc",
    "Pattern": "constant.language.pattern.armc",
    "Declared": "entity.name.armc",
    "Section": "entity.name.type.section.armc",
    "Letter": "variable.other.letter.armc",
    "Arrow": "keyword.operator.arrow.armc",
    "Repeat": "keyword.operator.repeat.armc",
    "Sign": "punctuation.separator.armc",
    "Template": "keyword.control.template.armc",
    "Operator": "keyword.operator.template.armc",
    "Comment": "comment.line.number-sign.armc",
}


def kinds_of(line, template=False):
    """The tokens of a line of a protocol or of a text of properties, or of a template, each with its column and its kind."""
    found, before, named = [], None, False
    for token in re.finditer(r"#.*|\w+|->|\.\.|[=!<>]=|[*+]|[{}:;]" + ("|[()%=<>-]" if template else ""), line):
        text = token[0]
        if text.startswith("#"):
            kind = "Comment"
        elif template and (text in ("let", "for", "if", "same") or not re.match(r"\w|->|[*+{}:;]", text)):
            kind = "Template" if re.match(r"\w", text) else "Operator"
        elif text in KIND_OF:
            kind = KIND_OF[text]
        elif re.match(r"\w", text):
            kind = "Declared" if before == "Declaration" or named else "Section" if re.match(r"\s*:", line[token.end():]) else "Letter"
        else:
            kind = "Arrow" if text == "->" else "Repeat" if text in "*+" else "Sign"
        found.append((token.start(), text, kind))
        before, named = kind, text in ("bad", "let", "for")
    return found


def protocols():
    """The protocols, the texts of properties and the templates below examples."""
    return sorted(path for ending in ("armc", "props", "armct") for path in glob.glob(example("**", f"*.{ending}"), recursive=True))


def scopes_of(grammar, line, other=None):
    """The scope of each column of the line by a TextMate grammar of match rules alone: the earliest match wins, then the first rule. Rules of
    the other grammar may be included."""
    rules, scopes, at = [], [None] * len(line), 0

    def add(patterns, of):
        for rule in patterns:
            if "include" in rule:
                of_rule = of if rule["include"].startswith("#") else other
                inner = of_rule["repository"][rule["include"].partition("#")[2]]
                add(inner.get("patterns", [inner]), of_rule)
            else:
                rules.append((re.compile(rule["match"], re.A), rule))

    add(grammar["patterns"], grammar)
    while at < len(line):
        found = [(match.start(), number) for number, (regex, _) in enumerate(rules) for match in [regex.search(line, at)] if match and match[0]]
        if not found:
            break
        regex, rule = rules[min(found)[1]]
        match = regex.search(line, at)
        parts = [(match.span(int(group)), each["name"]) for group, each in rule.get("captures", {}).items()] or [(match.span(), rule["name"])]
        for (begin, end), name in parts:
            scopes[begin:end] = [name] * (end - begin)
        at = match.end()
    return scopes


def syntax_of_textmate(_):
    wrong, (grammar, templates) = [], (json.loads(read("editors", "textmate", f"{name}.tmLanguage.json")) for name in ("armc", "armct"))
    for name in ("package.json", "language-configuration.json"):
        json.loads(read("editors", "textmate", name))
    for path in protocols():
        template = path.endswith(".armct")
        for number, line in enumerate(read(path).splitlines(), 1):
            scopes = scopes_of(templates, line, grammar) if template else scopes_of(grammar, line)
            for column, text, kind in kinds_of(line, template):
                if set(scopes[column:column + len(text)]) != {SCOPES[kind]}:
                    wrong.append(f"{os.path.basename(path)} line {number}: {text} is {set(scopes[column:column + len(text)])}, and must be {SCOPES[kind]}")
    bad = scopes_of(grammar, "@ -")
    return wrong + ([] if bad[0] == bad[2] == "invalid.illegal.byte.armc" else [f"bad bytes are {bad}"])


VIM = """set nocompatible noswapfile shortmess+=A
set runtimepath^={folder}
syntax on
let out = []
for path in {paths}
  execute 'edit ' . path
  execute 'set filetype=' . (path =~# 'armct$' ? 'armct' : 'armc')
  call add(out, 'file ' . path)
  for number in range(1, line('$'))
    call add(out, join(map(range(1, max([len(getline(number)), 1])), 'synIDattr(synID(number, v:val, 1), "name")'), ' '))
  endfor
endfor
call writefile(out, '{result}')
qall!
"""


def syntax_of_vim(_):
    vim = next((name for name in ("vim", "nvim") if shutil.which(name)), None)
    if not vim:
        return "vim is not there"
    with tempfile.TemporaryDirectory() as folder:
        result, paths = os.path.join(folder, "result"), [*protocols(), write(os.path.join(folder, "bad.armc"), "@ -\n")]
        script = write(os.path.join(folder, "script.vim"), VIM.format(folder=os.path.join(TOP, "editors", "vim"), paths=json.dumps(paths), result=result))
        words = [vim, "-es", "-i", "NONE", "-u", script] if vim == "vim" else [vim, "--headless", "-es", "-i", "NONE", "-u", script]
        found = run(words, cwd=folder, env={**os.environ, "HOME": folder})
        if not os.path.exists(result):
            # Some builds of Vim are without syntax files.
            return "vim has no syntax highlighting" if "+syntax" not in run([vim, "--version"]).stdout else [f"vim gives no answer: {found.stderr[:200]}"]
        told = read(result).split("\n")
    wrong, at = [], 0
    for path in paths:
        at += 1
        for number, line in enumerate(read(path).splitlines() if os.path.exists(path) else [], 1):
            groups = told[at].split(" ")
            at += 1
            for column, text, kind in kinds_of(line, path.endswith(".armct")):
                group = groups[column] if column < len(groups) else ""
                if group not in (f"armc{kind}", "armcExpect" if kind == "Comment" else ""):
                    wrong.append(f"{os.path.basename(path)} line {number}: {text} is {group or 'nothing'}, and must be armc{kind}")
    groups = told[at].split(" ") if at < len(told) else []
    return wrong + ([] if groups[:1] == groups[2:3] == ["armcBadByte"] else [f"bad bytes are {groups}"])


def check_of_folders(program):
    """tools/check-folder on all of examples, and on folders with a wrong expectation, without one, and without a protocol."""
    found = call(program, "check-folder", "--jobs", "4", example())
    wrong = [] if found.returncode == 0 else [line for line in found.stdout.splitlines() + found.stderr.splitlines() if "<--" in line or "check-folder" in line]
    wrong += [f"examples: status {found.returncode}"] if found.returncode else []
    with tempfile.TemporaryDirectory() as folder:
        if call(program, "check-folder", folder).returncode != 2:
            wrong.append("a folder without a protocol does not end with 2")
        protocol = read("examples", "first.armc")
        for text, wanted in ((protocol.replace("expect: safe", "expect: unsafe"), 1), (protocol.replace("expect: safe", ""), 2), (protocol, 0)):
            write(os.path.join(folder, "p.armc"), text)
            status = call(program, "check-folder", folder).returncode
            wrong += [] if status == wanted else [f"the status is {status}, and must be {wanted}"]
    return wrong


def pages_for_newcomers(_):
    """The protocols that the pages show stand in a file of examples, and the files that they name are there."""
    wrong, shown = [], {"".join(line for line in read(path).splitlines(True) if not line.startswith("#")) for path in protocols()}
    for page in ("TUTORIAL.md", "MODELLING.md", "CI.md", "TOOLS.md", "HARD.md", "GALLERY.md"):
        text = read("docs", page)
        for block in re.findall(r"^```\n(protocol .*?)^```$", text, re.M | re.S):
            wrong += [] if block in shown else [f"{page}: {block.splitlines()[0]} is in no file of examples"]
        lines = re.findall(r"^(?:init|rule|bad) .*\{.*$", "".join(re.findall(r"^```\n(.*?)^```$", text, re.M | re.S)), re.M)
        wrong += [f"{page}: no file of examples has the line {line}" for line in lines if not any(line in each for each in shown)]
        for path in re.findall(r"`((?:examples|docs|tools|tests)/[\w/.-]+)", text):
            wrong += [] if os.path.exists(os.path.join(TOP, path)) or "NAME" in path else [f"{page}: {path} is not there"]
        if page == "TUTORIAL.md":
            for name in re.findall(r"`(tutorial_\w+)`", text):
                wrong += [] if os.path.isdir(os.path.join(TOP, "tests", "cases", name)) else [f"{page}: tests/cases has no {name}"]
    patterns = {os.path.basename(path)[:-5] for path in glob.glob(example("patterns", "*.armc"))}
    named = set(re.findall(r"\(`(\w+)`[,)]", read("docs", "MODELLING.md"))) | {"pointer"}
    wrong += [f"MODELLING.md does not name {name}" for name in sorted(patterns - named)]
    return wrong + [f"there is no pattern {name}" for name in sorted(named - patterns)]


def edits(_):
    """Each edit that the prover has to refuse can still be applied, also those that the gate does not try."""
    told = run([os.path.join(TOP, "tests", "edits"), "--look"])
    return [] if told.returncode == 0 else [*told.stdout.splitlines(), *told.stderr.splitlines()[-1:]]


CHECKS = {
    "launcher": launcher,
    "launcher, without proofs": launcher_unproved,
    "launcher, interrupted": launcher_interrupted,
    "install": installed,
    "manual pages": manual_pages,
    "completions of bash": completions_of_bash,
    "completions of the tools": completions_of_tools,
    "completions of zsh": completions_of_zsh,
    "completions of fish": completions_of_fish,
    "syntax file of Vim": syntax_of_vim,
    "syntax file of TextMate": syntax_of_textmate,
    "pages for newcomers": pages_for_newcomers,
    "edits can be applied": edits,
    "check of folders": check_of_folders,
}

if __name__ == "__main__":
    sys.exit(main(CHECKS))
