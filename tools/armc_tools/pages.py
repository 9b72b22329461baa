"""Pages of HTML that one can look at and step through: one file each, which loads nothing, reads without its script, and prints.

What stands in a protocol or a certificate becomes text alone: it is escaped in the page, and the script gets it as data and writes it as text. A
policy in the head of the page lets no other script run.
"""
import base64
import collections
import hashlib
import html
import itertools
import json
import os
import re
import shlex

from . import drawing, source
from .automata import reached
from .certificate import Automaton, size_of
from .closure import Told, configuration
from .expansion import pairs
from .protocol import configuration_of
from .ways import least_words

HERE = os.path.dirname(os.path.abspath(__file__))
# Of a run so many rows are in the table, the last of them at its end, and the script gets steps of at most so many bytes.
STEPS, LAST, RUN_BYTES = 300, 50, 20_000_000
# Of a proof so many lines are told, states drawn and listed, and edges given to the script; of a rule so many ways.
LINES, DRAWN, STATES, EDGES, WAYS = 400, 40, 200, 200_000, 200
# The list of states shows so many without scrolling.
ROWS = 9
# The least words through its states have at most so many letters together, and the one to begin with so many, where there is such a one.
LETTERS, SHORT = 200_000, 12
# So many configurations of a kind are there to try.
EXAMPLES = 8

# What is told: the name of the file, its text, the protocol, the certificate and what `verify` says of it, the lines that tell it, the bad rows that
# the end of a run meets, the ways of the rules of a proof (or a line that says why they are not told), and the words of the tool: the longest expression,
# whether Graphviz may draw, and whether the automaton is that of the certificate.
Explained = collections.namedtuple("Explained", "name text protocol certificate judged lines met closure given")


def asset(name):
    with open(os.path.join(HERE, name), encoding="utf-8") as file:
        return file.read()


def data_html(data):
    """Data for the script, in which nothing can end the element."""
    text = json.dumps(data, separators=(",", ":"))
    return f'<script type="application/json" id="data">{re.sub("[<>&]", lambda found: f"{chr(92)}u{ord(found[0]):04x}", text)}</script>'


def document(title, body, script, data=None, kind=""):
    """A whole page."""
    code = asset(script)
    policy = f"default-src 'none'; style-src 'unsafe-inline'; script-src 'sha256-{base64.b64encode(hashlib.sha256(code.encode()).digest()).decode()}'"
    return "\n".join([
        "<!doctype html>", '<html lang="en">', "<head>", '<meta charset="utf-8">', '<meta name="viewport" content="width=device-width, initial-scale=1">',
        f'<meta http-equiv="Content-Security-Policy" content="{policy}">', f"<title>{html.escape(title)}</title>", f"<style>\n{asset('page.css')}</style>", "</head>",
        f'<body class="{kind}">', *body, *([data_html(data)] if data is not None else []), f"<script>{code}</script>", "</body>", "</html>", ""])


def section(title, *parts, kind="", hidden=False):
    return [f'<section{f" class={chr(34)}{kind}{chr(34)}" if kind else ""}{" hidden" if hidden else ""}>', f"<h2>{title}</h2>", *parts, "</section>"]


VERDICTS = {"safe": ("good", "Safe, for every number of processes"), "deadlock free": ("good", "No run gets stuck, for any number of processes"),
            "unsafe": ("bad", "Unsafe: a run leads to a bad configuration"), "deadlock": ("bad", "A run gets stuck")}


def head(told):
    mark, verdict = VERDICTS[told.certificate.kind]
    what = told.lines[1].rstrip(".").lower() if isinstance(told.certificate, Automaton) else f"a run of {size_of(told.certificate)}"
    judged = "judged valid by <code>armc verify</code>" if told.judged == "valid" else html.escape(told.judged)
    return ["<header>", f"<h1>{html.escape(told.name)}</h1>", f'<p class="verdict {mark}">{verdict}</p>', f'<p class="soft">Shown by {what}, {judged}.</p>', "</header>"]


def page(told):
    """The page of a proof or a run."""
    proof = isinstance(told.certificate, Automaton)
    main, below, data = (proof_main if proof else run_main)(told)
    data["sections"] = [[each.kind, each.name, each.letters] for each in told.protocol.sections]
    aside = ["<aside>", *section("Protocol", f'<pre class="source">{source.source_html(told.text, told.protocol)}</pre>'), "</aside>"]
    body = [*head(told), '<div class="columns">', "<main>", *main, "</main>", *aside, "</div>", *below, '<footer class="soft">Written by <code>armc-explain</code>.</footer>']
    return document(f"{told.name}: {told.certificate.kind}", body, "page.js", data, "proof" if proof else "run")


# Runs.

def edit_of(before, after, words):
    """How a move changed a list: replaced letters ('r'), one taken away ('d'), letters added at the end ('a') or changed at the top of a stack ('s')."""
    kind = words[0] if words else ""
    if kind in ("pop", "push"):
        gone = int(kind == "pop")
        return ["s", gone, after[:len(after) - len(before) + gone]]
    if len(after) > len(before):
        return ["a", after[len(before):]]
    if len(after) < len(before):
        return ["d", 0 if kind == "recv" else next((k for k, (a, b) in enumerate(zip(before, after)) if a != b), len(after))]
    places = [k for k, (a, b) in enumerate(zip(before, after)) if a != b]
    return ["r", places, [after[k] for k in places]] if places else None


def steps_of(run, protocol):
    """For each step the number of its rule, and pairs of a section and its edit."""
    numbers = {rule.name: k for k, rule in enumerate(protocol.rules)}
    before, found = configuration_of(run.start), []
    for rule, text in run.steps:
        after, moves = configuration_of(text), dict(protocol.rules[numbers[rule]].moves)
        edits = [(k, edit_of(before[k], after[k], moves.get(each.name))) for k, each in enumerate(protocol.sections)]
        found.append((numbers[rule], [(k, edit) for k, edit in edits if edit]))
        before = after
    return found


def letters_html(letters, edit):
    """A list in the table of steps, with what changed marked."""
    marks, kind = {}, edit[0] if edit else ""
    parts = [html.escape(letter) for letter in letters]
    if kind == "r":
        marks = dict.fromkeys(edit[1], "ins")
    elif kind in ("a", "s"):
        marks = dict.fromkeys(range(len(letters) - len(edit[1]), len(letters)) if kind == "a" else range(len(edit[2])), "ins")
    return [f"<{marks[k]}>{part}</{marks[k]}>" if k in marks else part for k, part in enumerate(parts)]


def cell_html(before, after, edit):
    parts = letters_html(after, edit)
    if edit and edit[0] == "d":
        parts.insert(edit[1], f"<del>{html.escape(before[edit[1]])}</del>")
    if edit and edit[0] == "s" and edit[1]:
        parts.insert(0, f"<del>{html.escape(before[0])}</del>")
    return f"<td>{' '.join(parts) or '<span class=soft>empty</span>'}</td>"


def steps_table(run, protocol, steps):
    """The table of all steps, or of the first and the last ones where there are many."""
    configurations = [configuration_of(text) for text in [run.start, *(text for _, text in run.steps)]]
    last, sections = len(steps), protocol.sections
    shown = list(range(last + 1)) if last <= STEPS else [*range(STEPS - LAST), None, *range(last + 1 - LAST, last + 1)]
    yield '<div class="wide"><table class="steps">'
    yield f"<thead><tr><th>step</th><th>rule</th>{''.join(f'<th>{html.escape(each.name)}</th>' for each in sections)}</tr></thead><tbody>"
    for at in shown:
        if at is None:
            yield f'<tr class="left-out"><td colspan="{len(sections) + 2}">{last + 1 - STEPS} rows are left out here; the buttons above step through all of them.</td></tr>'
            continue
        edits = dict(steps[at - 1][1]) if at else {}
        cells = "".join(cell_html(configurations[at - 1][k], configurations[at][k], edits.get(k)) for k in range(len(sections)))
        rule = f"<td>{html.escape(run.steps[at - 1][0])}</td>" if at else '<td class="soft">start</td>'
        yield f'<tr data-step="{at}"><td class="number">{at}</td>{rule}{cells}</tr>'
    yield "</tbody></table></div>"


def end_of(told):
    """What holds at the end of a run: paragraphs, and for the script the bad rows that are met, with the places whose letters make it so."""
    run, protocol = told.certificate, told.protocol
    last = run.steps[-1][1] if run.steps else run.start
    if run.kind == "deadlock":
        return ['<p class="end bad">No rule can fire at the end.</p>'], []
    met = [[protocol.bads.index(row), row, sorted((source.letters_met(row, last, protocol.sections) or {}).items())] for row in told.met]
    return [f'<p class="end bad">The end is bad: <code>{html.escape(row)}</code></p>' for row in told.met], met


PLAYER = """<div class="controls" role="group" aria-label="Steps">
<button type="button" data-go="first" aria-label="First configuration" title="First (Home)"><svg viewBox="0 0 16 16" aria-hidden="true"><path d="M3 3h2v10H3zM13 3v10L6 8z"/></svg></button>
<button type="button" data-go="back" aria-label="One step back" title="Back (left arrow)"><svg viewBox="0 0 16 16" aria-hidden="true"><path d="M11 3v10L4 8z"/></svg></button>
<button type="button" data-go="play" aria-label="Play" title="Play (space)"><svg viewBox="0 0 16 16" aria-hidden="true"><path class="to-play" d="M4 2v12l9-6z"/><path class="to-pause" d="M4 3h3v10H4zM9 3h3v10H9z"/></svg></button>
<button type="button" data-go="next" aria-label="One step on" title="On (right arrow)"><svg viewBox="0 0 16 16" aria-hidden="true"><path d="M5 3v10l7-5z"/></svg></button>
<button type="button" data-go="last" aria-label="Last configuration" title="Last (End)"><svg viewBox="0 0 16 16" aria-hidden="true"><path d="M11 3h2v10h-2zM3 3v10l7-5z"/></svg></button>
<input type="range" min="0" value="0" aria-label="Step">
<label class="speed">Speed <select><option value="1600">slow</option><option value="900" selected>normal</option><option value="250">fast</option><option value="40">very fast</option></select></label>
</div>
<p class="caption" aria-live="polite"></p>
<div class="stage"></div>
<p class="soft hint">Each letter of a section has a colour of its own. Arrow keys step, Home and End go to the ends, the space bar plays.</p>"""


def run_main(told):
    run, protocol = told.certificate, told.protocol
    steps, (end, met) = steps_of(run, protocol), end_of(told)
    inits = [k for k, row in enumerate(protocol.inits) if source.letters_met(row, run.start, protocol.sections) is not None]
    places = [{letter: k for k, letter in enumerate(each.letters)} for each in protocol.sections]
    data = {"start": [[places[k][letter] for letter in letters] for k, letters in enumerate(configuration_of(run.start))],
            "steps": [[rule, [[k, *numbered(edit, places[k])] for k, edit in edits]] for rule, edits in steps],
            "rules": [rule.name for rule in protocol.rules], "inits": inits, "met": met, "stuck": run.kind == "deadlock"}
    table = section("All steps", *steps_table(run, protocol, steps), *end)
    if len(str(data["steps"])) > RUN_BYTES:
        return [f'<p class="note">The run of {size_of(run)} is too long to step through here: the player is left out.</p>', *table], [], {}
    return [*section("Step through the run", PLAYER, kind="player", hidden=True), *table], [], data


def numbered(edit, places):
    """An edit with letters by their places."""
    return [[places[each] for each in part] if isinstance(part, list) and part and isinstance(part[0], str) else part for part in edit]


# Proofs.

def told_html(lines):
    """The lines that tell a proof, as paragraphs with the lists of their sections."""
    heading = False
    for line in lines:
        row = re.fullmatch(r"  (\w+) +is (.*?)(?:   \((.*)\))?", line)
        if not line.strip():
            heading = False
        elif line.startswith("      "):
            yield f'<li>{html.escape(line.strip())}</li>'
        elif line == "  or":
            yield '<p class="or">or</p>'
        elif row:
            words = f' <span class="soft">{html.escape(row[3])}</span>' if row[3] else ""
            said = html.escape(row[2]) if row[2].startswith("such a list") else f"<code>{html.escape(row[2])}</code>"
            yield f'<p class="list"><b>{html.escape(row[1])}</b> is {said}{words}</p>'
        elif line.startswith("  ") and not line.startswith("   or "):
            yield f'<p class="list">{html.escape(line.strip())}</p>'
        else:
            yield f'<p class="{"case more" if heading else "case"}">{html.escape(line.strip())}</p>'
            heading = True


def cards(lines):
    """The paragraphs of a proof, each in a box of its own."""
    paragraph = []
    for line in [*lines, ""]:
        if line:
            paragraph.append(line)
        elif paragraph:
            yield '<div class="card">'
            yield from told_html(paragraph)
            yield "</div>"
            paragraph = []


def proof_lines(told):
    """What holds, by the lines that tell it; the first three of those say what is said in the head."""
    lines = told.lines[3:]
    yield '<p>Each configuration that a run can reach, with any number of processes, is one of these.</p>'
    yield '<div class="cards">'
    yield from cards(lines[:LINES])
    yield "</div>"
    yield NOTATION
    if len(lines) > LINES:
        yield f'<p class="note">{len(lines) - LINES} lines more are left out here; <code>armc-explain</code> prints them.</p>'


NOTATION = """<p class="soft hint"><code>a*</code> is any number of <code>a</code>, <code>a+</code> at least one, <code>a?</code> one or none,
<code>{ a b }</code> one of these, <code>(a b or c)</code> one of these rows, <code>any</code> one of all letters of the section.</p>"""
TRY = """<p>What is outside of the proof is never reached by a run; what is inside may be.</p>
<form class="try"><label for="configuration">A configuration, as <code class="example"></code></label>
<div class="line"><input id="configuration" type="text" autocomplete="off" autocapitalize="off" spellcheck="false"><button type="submit">Look it up</button></div></form>
<div class="examples"></div>
<div class="answer" aria-live="polite"></div>"""


def closure_table(told):
    """The table of rules: from where each can fire, and into which case it leads."""
    words = Told(told.protocol, told.given.width)
    yield '<div class="wide"><table class="closure"><thead><tr><th>rule</th><th>fires where</th><th>and leads to</th><th>a least step</th></tr></thead>'
    for (rule, ways), line in zip(told.closure, told.protocol.lines_of("rule")):
        yield "<tbody>"
        moves = re.fullmatch(r"rule \w+ \{ ?(.*?) ?\}", line)[1]
        name = f'<th scope="rowgroup" rowspan="{max(1, min(len(ways), WAYS))}">{html.escape(rule.name)}<code>{html.escape(moves)}</code></th>'
        if not ways:
            yield f'<tr>{name}<td colspan="3" class="soft">nowhere: no configuration of the proof lets it fire</td></tr>'
        for at, way in enumerate(ways[:WAYS]):
            yield f"<tr>{'' if at else name}{way_html(words, way, told.protocol.sections)}</tr>"
        if len(ways) > WAYS:
            yield f'<tr><td></td><td colspan="3" class="note">{len(ways) - WAYS} more are left out here.</td></tr>'
        yield "</tbody>"
    yield "</table></div>"


def way_html(words, way, sections):
    ends, lists = words.ends(way), words.lists(way)
    cells = []
    for at in (0, 1):
        value = f"<b>{html.escape(ends[at])}</b>" if ends[at] else ""
        said = [f"{html.escape(name)}: <code>{html.escape(pair[at])}</code>" for name, *pair in lists]
        cells.append(f"<td>{'<br>'.join([*filter(None, [value]), *said]) or 'always'}</td>")
    step = [f"<code>{html.escape(configuration(sections, word))}</code>" for word in (way.before, way.after)]
    return "".join(cells) + f"<td>{step[0]}<br>&rarr; {step[1]}</td>"


def states_table(automaton, sections, least, left_out):
    """The states of the automaton, each with the least configuration through it."""
    yield '<div class="wide scroll"><table class="states"><thead><tr><th>state</th><th>the least configuration through it</th></tr></thead><tbody>'
    for state in range(min(automaton.states, STATES)):
        said = '<span class="soft">left out here</span>' if state in left_out else '<span class="soft">none: it is on the way of no configuration</span>'
        said = f"<code>{html.escape(configuration(sections, least[state][0]))}</code>" if state in least else said
        yield f'<tr data-state="{state}"><td class="number">{state}</td><td>{said}</td></tr>'
    yield "</tbody></table></div>"
    if automaton.states > STATES:
        yield f'<p class="note">{automaton.states - STATES} states more are left out here.</p>'


def proof_main(told):
    automaton, protocol = told.certificate, told.protocol
    sections = protocol.sections
    parts = section("What holds", *proof_lines(told))
    least, left_out = least_words(automaton, sections, LETTERS)
    data = {"states": automaton.states, "finals": sorted(automaton.finals), "edges": [], "least": [], "leftOut": sorted(left_out), "examples": examples_of(told, least)}
    if len(automaton.edges) <= EDGES:
        numbers = {(each.name, letter): (k, place) for k, each in enumerate(sections) for place, letter in enumerate(each.letters)}
        data["edges"] = [[p, *(numbers[letter] if letter else (-1, -1)), q] for p, letter, q in automaton.edges]
        data["least"] = [[configuration(sections, least[state][0]), least[state][1]] if state in least else None for state in range(automaton.states)]
        parts += section("Is a configuration in the proof?", TRY, kind="member", hidden=True)
    else:
        parts += [f'<p class="note">The automaton has {len(automaton.edges)} edges: looking up a configuration is left out here.</p>']
    parts += section("The automaton", *automaton_html(told, least, left_out))
    if isinstance(told.closure, str):
        return parts, section("Why it stays so", f'<p class="note">{html.escape(told.closure)}</p>'), data
    outside = any(way.into is None for _, ways in told.closure for way in ways)
    leads = "" if outside else "Wherever a rule can fire, it leads from a configuration of the proof to one of the proof. "
    return parts, section("Why it stays so", f"<p>{leads}Of each rule these are the configurations.</p>", *closure_table(told)), data


def automaton_html(told, least, left_out):
    automaton = told.certificate
    between = ", with <code>|</code> between two sections" if len(told.protocol.sections) > 1 else ""
    yield f"<p>{which_automaton(told)} It reads the letters of a configuration from left to right{between}, from state 0, and accepts in the states with two circles.</p>"
    if automaton.states <= DRAWN:
        picture, wide = bare(drawing.automaton(told.protocol, automaton, told.given.plain))
        yield f'<div class="picture" style="--wide: {wide}px">{with_edges(picture, drawing.labels_of(told.protocol, automaton))}</div>'
        yield '<p class="wider soft hint" hidden>The picture is wider than its place: scroll it sideways.</p>'
        yield '<p class="picked soft" hidden>Click on a state to see the least configuration through it.</p>'
    else:
        yield f'<p class="note">The picture of {size_of(automaton)} is left out here; <code>{html.escape(command_of_picture(told.given))}</code> draws it.</p>'
    if automaton.states > ROWS:
        yield f'<p class="soft">The list has {min(automaton.states, STATES)} states and scrolls.</p>'
    yield from states_table(automaton, told.protocol.sections, least, left_out)


def which_automaton(told):
    """Whether the automaton is that of the certificate, with both numbers of states where it is not."""
    given = re.search(r"automaton of (\d+ states?)", told.lines[1])
    if told.given.states or not given:
        return "This is the automaton of the certificate."
    return (f"The automaton of the certificate has {given[1]}. The smallest one that keeps the sections apart has {told.certificate.states}, "
            "with numbers of their own, and is shown here.")


def command_of_picture(given):
    """The command line that draws the automaton."""
    # (a certificate from standard input belongs to a file that another tool has written, and that is gone)
    file = os.path.basename(given.file) if given.certificate == "-" else given.file
    states = ["--states"] if given.states else []
    return shlex.join(["armc-explain", "--svg", "picture.svg", *states, *given.options, *(f"--set={pair}" for pair in pairs(dict(given.set))), file, *filter(None, [given.certificate])])


def bare(picture):
    """The picture without a head, a style and a size of its own, since the page has them; and how many pixels it is wide."""
    picture = re.sub(r"<style>.*?</style>\s*|<rect [^>]*fill=\"#fff\"/>\s*", "", picture[picture.index("<svg"):], flags=re.S)
    size = re.search(r'width="(\d+)(pt|)" height="\d+(?:pt|)"', picture)
    return picture.replace(size[0], "", 1), int(size[1]) * (4 if size[2] else 3) // 3


def with_edges(picture, labels):
    """A plain picture with the states of each arrow named, so that the script finds it: behind that of the start, the arrows stand in the order of the labels."""
    drawn = reached([0], lambda state: [q for p, q in labels if p == state])
    pairs = [pair for pair in labels if pair[0] in drawn]
    parts = picture.split('<path class="edge"')
    if len(parts) != len(pairs) + 2:
        return picture
    return '<path class="edge"'.join(parts[:2]) + "".join(f'<path class="edge" data-edge="{p}-{q}"{part}' for (p, q), part in zip(pairs, parts[2:]))


def examples_of(told, least):
    """Configurations to begin with, by what is said of them: those of the proof, and bad ones, of each row in turn."""
    sections, known = told.protocol.sections, sorted((word for word, _ in least.values()), key=len)
    short = [word for word in known if len(word) <= SHORT] or known[:1]
    bad = [source.short_ones(row, sections, EXAMPLES) for row in told.protocol.bads] if told.certificate.kind == "safe" else []
    turns = [text for texts in itertools.zip_longest(*bad) for text in texts if text]
    found = {"one of the proof": [configuration(sections, word) for word in short[::-1]], "a bad one": turns}
    return [[said, list(dict.fromkeys(texts))[:EXAMPLES]] for said, texts in found.items() if texts]
