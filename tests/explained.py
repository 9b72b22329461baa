"""What armc-explain says of why a proof is closed, and the pages that it and armc-check-folder write. A browser opens such pages in tests/browser, which
is no part of this. Usage: tests/explained.py [PROGRAM] [NAME..]
"""
import glob
import html
import html.parser
import json
import os
import re
import shutil
import sys
import tempfile
import urllib.parse

from support import SYSTEMS, call, canonical, differs, example, main, printed, read, without_comments, write, write_all
import definitions
from armc_tools import closure, pages, rows, source, ways
from armc_tools.certificate import Automaton, read_certificate
from armc_tools.protocol import Protocol, Section, configuration_of, configuration_text

# Proofs that are told and compared: of cells, arrays that grow, tables, rings, channels, lossy channels and stacks.
PROVED = ("tutorial/lock", "tickets", "peterson2", "token_ring", "msi", "patterns/crowd", "patterns/lossy_channel", "patterns/loses_and_repeats", "recursive_lock", "handoff")


# Why a proof is closed.

def accepts(words, sections, configuration):
    """Whether a language of words of configurations has the one with these lists."""
    state = 0 if words else None
    for letter in word_of(sections, configuration):
        state = dict(words[state][1]).get(letter) if state is not None else None
    return state is not None and words[state][0]


def word_of(sections, configuration):
    word = [((k, -1) if at < 0 else (k, sections[k].letters.index(letters[at]))) for k, letters in enumerate(configuration) for at in range(-(k > 0), len(letters))]
    return [(k - 1, place) if place < 0 else (k, place) for k, place in word]


def configurations(sections, most):
    return [list(map(list, lists)) for lists in definitions.configurations([(each.name, "cell" if each.kind == "cell" else "list", each.letters) for each in sections], most)]


def everything(sections):
    """The automaton of all configurations."""
    edges = [(0, (each.name, letter), 0) for each in sections for letter in each.letters] + [(0, None, 0)]
    return Automaton("safe", 1, {0}, edges)


def wrong_sets_of_moves():
    """Where the sets that a rule reads and writes among all configurations are not those of the definitions: each kind of move, in the systems of the tests."""
    wrong = []
    for path in sorted(glob.glob(os.path.join(SYSTEMS, "*.armc"))):
        text = read(path)
        steps, protocol = definitions.Steps(text), Protocol(without_comments(text))
        sections = protocol.sections
        told = closure.closure_of(protocol, rows.trimmed(everything(sections), sections))
        most = 3 if len(sections) == 1 else 2 if len(sections) == 2 else 1
        for r, (rule, found) in enumerate(told):
            before = configurations(sections, most + 1)
            after = {json.dumps(d) for c in before for d in steps.successors(r, c)}
            for c in configurations(sections, most):
                fires, reached = bool(steps.successors(r, c)), json.dumps(c) in after
                said = [any(accepts(each, sections, c) for each in sets) for sets in ([way.reads for way in found], [way.writes for way in found])]
                if said != [fires, reached]:
                    wrong.append(f"{os.path.basename(path)}, rule {rule.name}: {c} is told as {said}, and must be {[fires, reached]}")
    return wrong


def pattern_of(expression):
    """An expression of --why as a regular expression over letters with a space behind each; everything, where it is not told."""
    if expression.startswith(("(a list", "(an expression")):
        return ".*"
    found = ""
    for word in re.findall(r"\{[^}]*\}|\w+|[()?*+]", expression):
        if word == "or":
            found += "|"
        elif word in ("any", "empty"):
            found += r"(?:\w+ )" if word == "any" else ""
        else:
            found += word.replace("(", "(?:") if not re.match(r"[\w{]", word) else "(?:" + "|".join(f"{letter} " for letter in re.findall(r"\w+", word)) + ")"
    return found


class Said:
    """A line of --why with those below it: the values of cells and the lists of other sections that a rule reads and writes."""

    def __init__(self, rule):
        self.rule, self.values, self.lists = rule, ({}, {}), ({}, {})

    def read(self, line):
        name, colon, rest = line.strip().partition(": ")
        pair = (rest if colon else line.strip()).split(" -> ")
        if colon:
            for at in (0, 1):
                self.lists[at][name] = pattern_of(pair[at % len(pair)])
        elif line.strip() != "always":
            for at in (0, 1):
                self.values[at].update((part.split(" ")[0], re.split(", | or ", part.partition(" ")[2])) for part in pair[at].split("; "))

    def has(self, at, sections, configuration):
        """Whether the configuration is one that the rule reads (0) or writes (1), as far as is said."""
        for section, letters in zip(sections, configuration):
            if section.name in self.values[at] and letters[0] not in self.values[at][section.name]:
                return False
            if section.name in self.lists[at] and not re.fullmatch(self.lists[at][section.name], "".join(f"{letter} " for letter in letters)):
                return False
        return True


def said_of(lines, rules):
    """What the lines of --why say: for each rule its ways. A line that names no section begins a new one; so does one that names a section again."""
    found, rule = {name: [] for name in rules}, None
    for line in lines:
        head = re.match(r"(\w+): *", line) if not line.startswith(" ") else None
        rest = line[head.end():] if head else line.strip()
        if head:
            rule = head[1]
            if rest == "fires nowhere":
                continue
        name = re.match(r"(\w+): ", rest)
        if head or not name or name[1] in found[rule][-1].lists[0]:
            found[rule].append(Said(rule))
        found[rule][-1].read(rest)
    return found


def wrong_ways(program):
    """Where what --why prints, put together, is not what `armc steps` says of all small configurations of a proof."""
    wrong = []
    for name in PROVED:
        protocol = Protocol(canonical(program, example(f"{name}.armc")))
        sections, certificate = protocol.sections, read_certificate(printed(program, "check", example(f"{name}.armc")))
        words = rows.trimmed(certificate, sections)
        told = call(program, "armc-explain", "--why", example(f"{name}.armc")).stdout.partition("where it leads:\n\n")[2].splitlines()
        said, exact = said_of(told, [rule.name for rule in protocol.rules]), dict((rule.name, found) for rule, found in closure.closure_of(protocol, words))
        most = 3 if sum(len(each.letters) for each in sections if each.kind != "cell") < 5 else 2
        for c in configurations(sections, most):
            if accepts(words, sections, c):
                steps = [line.split(" -> ", 1) for line in printed(program, "steps", example(f"{name}.armc"), configuration_text(sections, c)).splitlines()]
                wrong += [f"{name}: {line}" for line in wrong_way(c, steps, said, exact, sections)]
    return wrong


def wrong_way(c, steps, said, exact, sections):
    """Where the rules that lead on from a configuration, and where they lead, are not as it is said."""
    for rule in said:
        after = [configuration_of(text) for name, text in steps if name == rule]
        if any(accepts(way.reads, sections, c) for way in exact[rule]) != bool(after):
            yield f"the set of {rule} has {c} where it leads to {after}"
        for d in after:
            if not any(way.has(0, sections, c) and way.has(1, sections, d) for way in said[rule]):
                yield f"nothing is said of {rule} from {c} to {d}"
            if not any(accepts(way.reads, sections, c) and accepts(way.writes, sections, d) for way in exact[rule]):
                yield f"no sets of {rule} have {c} and {d}"


LOCK = "take:  L free -> L held\n         P: i+ -> i* c i*\nleave: L held -> L free\n         P: i* c i* -> i+\n"


def why(program):
    """The lock and a rule that fires nowhere; the sets of each kind of move; and what is said, put together."""
    wrong = differs("the lock", call(program, "armc-explain", "--why", example("tutorial/lock.armc")).stdout.partition("where it leads:\n\n")[2], LOCK)
    told = call(program, "armc-explain", "--why", example("patterns/lossy_channel.armc")).stdout
    wrong += [] if re.search("^get_a_late: +fires nowhere$", told, re.M) else [f"a rule that fires nowhere: {told[-200:]}"]
    return wrong + wrong_sets_of_moves() + wrong_ways(program)


# Pages.

LONG = "n" * 32
HOSTILE = f"""# </script><script>document.title = "taken"</script> <img src=x onerror=alert()> &lt;b&gt; ]]> <!--
protocol constructor # \u2028 "quotes' and \\ and </pre>
cell __proto__ {{ toString hasOwnProperty }}
array {LONG} {{ {LONG[:-1]}a {LONG[:-1]}b valueOf }}
init {{ __proto__: toString; {LONG}: {LONG[:-1]}a*; }}
rule isPrototypeOf {{ {LONG}: at {LONG[:-1]}a -> {LONG[:-1]}b; }}
bad {{ {LONG}: any* UNTIL any*; }}
"""
TAGS = set("html head meta title style body header h1 h2 p code div main section aside pre i b span form label input button svg path select option table thead tbody tr "
           "th td footer script br wbr ins del li a g circle text marker defs ellipse polygon".split())


class Elements(html.parser.HTMLParser):
    """The elements of a page with their attributes, its data, and the text of the protocol in it."""

    def __init__(self, text):
        super().__init__()
        self.found, self.data, self.source, self.inside = [], "", "", ""
        self.feed(text)

    def handle_starttag(self, tag, attributes):
        self.found.append((tag, dict(attributes)))
        self.inside = dict(attributes).get("id") or dict(attributes).get("class") or self.inside if tag in ("script", "pre") else self.inside

    def handle_endtag(self, tag):
        self.inside = "" if tag in ("script", "pre") else self.inside

    def handle_data(self, data):
        self.data += data if self.inside == "data" else ""
        self.source += data if self.inside == "source" else ""


def wrong_elements(what, page):
    """Where a page has other elements than its own, loads something, or has a script beside its own two."""
    wrong = [f"{what} has the element {tag}" for tag, _ in page.found if tag not in TAGS]
    wrong += [f"{what} has {tag} with {name}" for tag, attributes in page.found for name in attributes if name in ("src", "srcset", "action") or name.startswith("on")]
    wrong += [f"{what} leads to {attributes['href']}" for _, attributes in page.found if re.match(r"\w+:|/", attributes.get("href") or "")]
    return wrong + differs(f"the scripts of {what}", [attributes for tag, attributes in page.found if tag == "script"], [{"type": "application/json", "id": "data"}, {}])


def written(program, path, *words):
    """The page that armc-explain writes, and its text."""
    with tempfile.TemporaryDirectory() as folder:
        page = os.path.join(folder, "page.html")
        found = call(program, "armc-explain", "--plain", "--html", page, path, *words)
        if found.returncode:
            return f"{found.stderr}", None
        return read(page), Elements(read(page))


def hostile_pages(program):
    """Names and comments become text alone, in the page of a proof and in that of a run."""
    wrong = []
    with tempfile.TemporaryDirectory() as folder:
        for kind, until in (("safe", "valueOf"), ("unsafe", f"{LONG[:-1]}b")):
            path = write(os.path.join(folder, f"<b> & 'p' {kind}.armc"), HOSTILE.replace("UNTIL", until))
            text, page = written(program, path)
            if page is None:
                wrong.append(f"the page of a hostile {kind} protocol: {text}")
                continue
            sections = [["cell", "__proto__", ["toString", "hasOwnProperty"]], ["array", LONG, [f"{LONG[:-1]}a", f"{LONG[:-1]}b", "valueOf"]]]
            wrong += wrong_elements(f"the page of a hostile {kind} protocol", page)
            wrong += differs("the data", json.loads(page.data)["sections"], sections)
            wrong += differs("the text of the protocol", page.source, HOSTILE.replace("UNTIL", until))
            wrong += [] if "<b> &" not in text.partition("<body")[2] else ["the name of the file is markup"]
    return wrong


def wrong_runs_of_pages(program):
    """Where the edits that a page has of a run do not lead through its configurations."""
    wrong = []
    for path in sorted(glob.glob(example("*.armc"))):
        run = read_certificate(printed(program, "check", path, "--budget", "3000"))
        if run is None or run.kind != "unsafe":
            continue
        protocol = Protocol(canonical(program, path))
        lists = configuration_of(run.start)
        for (rule, text), (number, edits) in zip(run.steps, pages.steps_of(run, protocol)):
            for k, edit in edits:
                lists[k] = edited(lists[k], *edit)
            if (protocol.rules[number].name, lists) != (rule, configuration_of(text)):
                wrong.append(f"{os.path.basename(path)}: {rule} leads to {lists}, and must lead to {text}")
    return wrong


def edited(letters, kind, first, new=()):
    if kind == "r":
        return [dict(zip(first, new)).get(k, letter) for k, letter in enumerate(letters)]
    return letters + first if kind == "a" else letters[:first] + letters[first + 1:] if kind == "d" else [*new, *letters[first:]]


def wrong_places():
    """Where a pattern is met by other lists than it matches."""
    section = Section("array", "P", ["a", "b"])
    return [f"{pattern}: {letters}" for pattern in definitions.PATTERNS for letters in definitions.lists("ab", 4)
            if (source.places_of(pattern, letters, section) is not None) != bool(re.fullmatch(definitions.expression(pattern, "ab"), "".join(letters)))]


def wrong_short_ones(program):
    """Where a short configuration of a bad row does not meet it, or there is none."""
    wrong = []
    for name in PROVED:
        protocol = Protocol(canonical(program, example(f"{name}.armc")))
        for row in protocol.bads:
            found = source.short_ones(row, protocol.sections, 8)
            wrong += [f"{name}: {text} does not meet {row}" for text in found if source.letters_met(row, text, protocol.sections) is None]
            wrong += [] if found else [f"{name}: nothing short meets {row}"]
    return wrong


def wrong_least_words():
    """Where the least configuration through a state is another one than that of all small configurations."""
    wrong, sections = [], [Section("array", "P", ["x", "y"]), Section("cell", "S", ["a", "b"]), Section("channel", "C", ["m"])]
    letters = [(each.name, letter) for each in sections for letter in each.letters] + [None]
    every = sorted((word_of(sections, c) for c in configurations(sections, 3)), key=lambda word: (len(word), ways.order_of(word)))
    for seed in range(40):
        edges = [(p, letter, (p * 7 + k * 5 + seed * (k + 3)) % 5) for p in range(5) for k, letter in enumerate(letters) if (p * 3 + k * 7 + seed * 11) % 4]
        automaton = Automaton("safe", 5, {seed % 5, (seed // 3) % 5}, edges)
        moves = {(p, letter): q for p, letter, q in edges}
        found, _ = ways.least_words(automaton, sections, 10**6)
        first = {}
        for word in every:
            path = [0]
            for k, place in word:
                path.append(moves.get((path[-1], (sections[k].name, sections[k].letters[place]) if place >= 0 else None)))
            if path[-1] in automaton.finals:
                for q in path:
                    first.setdefault(q, word)
        wrong += [f"seed {seed}, state {q}: {found.get(q)}, and must be {word}" for q, word in first.items() if q not in found or found[q][0] != word]
    return wrong


def long_texts(folder):
    """A run of 3,000 steps and a proof of 1,000 states."""
    row = " ".join("i" * 30)
    steps = [f"step {rule} A: {letter}; P: {row}; C: {queue}" for rule, letter, queue in (("to", "b", "m"), ("fro", "a", "empty"))] * 1500
    texts = {"run.armc": "protocol long\ncell A { a b }\narray P { i }\nchannel C { m }\ninit { A: a; C: empty; }\nrule to { A: set a -> b; C: send m; }\n"
                         "rule fro { A: set b -> a; C: recv m; }\nbad { A: a; }\n",
             "run.cert": "\n".join(["armc 1 unsafe", f"start A: a; P: {row}; C: empty", *steps, "end", ""]),
             "proof.armc": "protocol long\narray P { a b }\ninit { P: empty; }\nrule go { P: at a -> b; }\n",
             "proof.cert": "\n".join(["armc 1 safe", "states 1000", *(f"final {k}" for k in range(1000)), *(f"edge {k} P.{a} {k + 1}" for k in range(999) for a in "ab"), "end", ""])}
    paths = write_all(folder, texts)
    return paths[:2], paths[2:]


def wrong_long_pages(program):
    """Where a page of much is larger than a megabyte, or does not say what it leaves out."""
    wrong = []
    with tempfile.TemporaryDirectory() as folder:
        for words, told in zip(long_texts(folder), (["2701 rows are left out"], ["The picture of 1000 states is left out", "armc-explain --svg picture.svg /", "The list has 200 states and scrolls.", "800 states more are left out"])):
            text, page = written(program, *words)
            wrong += [] if page and len(text) < 1_000_000 and all(each in text for each in told) else [f"the page of {words} has {len(text)} bytes, {text[-300:]!r}"]
    return wrong


def html_pages(program):
    """What the pages of proofs and runs have."""
    text, page = written(program, example("tutorial/lock.armc"))
    wrong = wrong_elements("the page of the lock", page) + [f"the page of the lock has no {part!r}" for part in ("Where L is held:", "P: <code>i+</code>", "data-row=\"rule-1\"") if part not in text]
    text, page = written(program, example("open_door.armc"))
    wrong += differs("the end of the door", json.loads(page.data)["met"], [[0, "bad { P: any* c any* c any*; }", [[0, [0, 1]]]]])
    found = call(program, "armc-explain", "--html", os.path.join(os.devnull, "page.html"), example("first.armc"))
    wrong += differs("a page that cannot be written", found.returncode, 8)
    return wrong + hostile_pages(program) + wrong_runs_of_pages(program) + wrong_places() + wrong_short_ones(program) + wrong_least_words() + wrong_long_pages(program)


def folder_page(program):
    """The report of a folder: its rows, the pages beside it, and what has none."""
    with tempfile.TemporaryDirectory() as folder:
        report, below = os.path.join(folder, "report.html"), os.path.join(folder, "of <all>", "it's below")
        os.makedirs(below)
        for name, head, text in (("lock", "safe", "tutorial/lock.armc"), ("door", "safe", "open_door.armc")):
            write(os.path.join(below, f"{name}.armc"), f"# expect: {head}\n{read(example(text))}")
        write(os.path.join(below, "x<i>.armc"), "# expect: safe\nprotocol p\narray P { a a }\n")
        write(os.path.join(below, "a.armc"), read(example("tutorial/lock.armc")).replace("# expect:", "# expected:"))
        found = call(program, "check-folder", "--html", report, os.path.dirname(below))
        text = read(report)
        order = re.findall(r"<tr( class=\w+)?><td><a[^>]*>(?:[^<]*/)?(\S+).armc", text.replace("<wbr>", ""))
        page = Elements(text)
        links = [html.unescape(attributes["href"]) for tag, attributes in page.found if tag == "a"]
        wrong = differs("the report", (found.returncode, text.count('class=wrong'), text.count("<b>, not as"), text.count("<b>, expects nothing"), len(links)), (1, 2, 2, 1, 6))
        wrong += differs("the order of the report", order, [(" class=wrong", "door"), (" class=silent", "a"), ("", "lock")])
        marks = {line.split(".armc")[0].split("/")[-1]: line.partition("<-- ")[2] for line in found.stdout.splitlines()[1:-1]}
        wrong += differs("the table", marks, {"a": "expects nothing", "door": "not as expected", "lock": "", "x<i>": "not as expected"})
        wrong += [f"no page {link}" for link in links if not os.path.exists(os.path.join(folder, urllib.parse.unquote(link)))]
        wrong += [f"the report has {tag}" for tag, _ in page.found if tag not in TAGS] + ([] if "<i>" not in text else ["a name is markup in the report"])
        # (of a template each of its cases has a page)
        os.makedirs(os.path.join(folder, "templates"))
        shutil.copy(example("templates", "filter.armct"), os.path.join(folder, "templates"))
        call(program, "check-folder", "--html", report, "--set", "n=2", os.path.join(folder, "templates"))
        title = read(os.path.join(folder, "report-pages", "filter.armct n=2.html"))
        wrong += [] if "<h1>filter.armct n=2</h1>" in title else [f"the page of a template: {title[:300]}"]
        found = call(program, "check-folder", "--html", "/dev/null/report.html", below)
        return wrong + differs("a report that cannot be written", (found.returncode, "Traceback" in found.stderr), (126, False))


CHECKS = {"why a proof is closed": why, "pages of proofs and runs": html_pages, "page of a folder": folder_page}

if __name__ == "__main__":
    sys.exit(main(CHECKS))
