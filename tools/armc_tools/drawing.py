"""Pictures as SVG: automata, by Graphviz or by a plain layout in layers, and runs as charts."""
import html
import shutil
import subprocess

from .program import Refused
from .protocol import configuration_of

LETTER, LINE, RADIUS = 7.2, 18, 16
STYLE = """<style>
text { font: 12px monospace; fill: #222 } .label { fill: #035; paint-order: stroke; stroke: #fff; stroke-width: 4px } .new { font-weight: bold; fill: #a00 } .bad { fill: #a00 }
.state, .box { fill: #fff; stroke: #222 } .edge { fill: none; stroke: #555 } .life { stroke: #bbb } .step { stroke: #555; stroke-dasharray: 2 2 }
</style>"""


def svg(width, height, body):
    width, height = round(width), round(height)
    head = f'<svg xmlns="http://www.w3.org/2000/svg" viewBox="0 0 {width} {height}" width="{width}" height="{height}">'
    arrow = '<marker id="arrow" viewBox="0 0 8 8" refX="8" refY="4" markerWidth="8" markerHeight="8" markerUnits="userSpaceOnUse" orient="auto"><path d="M0 0L8 4L0 8z" fill="#555"/></marker>'
    return "\n".join([head, STYLE, f"<defs>{arrow}</defs>", f'<rect width="{width}" height="{height}" fill="#fff"/>', *body, "</svg>", ""])


def words(x, y, text, kind="", anchor="middle"):
    return f'<text x="{x:.0f}" y="{y:.0f}" text-anchor="{anchor}"{f" class={chr(34)}{kind}{chr(34)}" if kind else ""}>{html.escape(text)}</text>'


def labels_of(protocol, certificate):
    """The label of each pair of states with an edge: the letters, those of one section together."""
    found = {}
    for source, letter, target in certificate.edges:
        found.setdefault((source, target), []).append(letter)
    return {pair: label_of(protocol, set(letters)) for pair, letters in sorted(found.items())}


def label_of(protocol, letters):
    said = []
    for section in protocol.sections:
        names = [letter for letter in section.letters if (section.name, letter) in letters]
        before = f"{section.name}." if len(protocol.sections) > 1 else ""
        if names:
            said.append(before + ("any" if len(names) == len(section.letters) > 1 else " ".join(names)))
    return ", ".join(said + (["|"] if None in letters else []))


def automaton(protocol, certificate, plain):
    """The automaton of a proof, with the numbers of its states."""
    labels = labels_of(protocol, certificate)
    if shutil.which("dot") and not plain:
        return by_graphviz(certificate, labels)
    return in_layers(certificate, labels)


def by_graphviz(certificate, labels):
    states = [f'{k} [shape={"doublecircle" if k in certificate.finals else "circle"}]' for k in range(certificate.states)]
    edges = [f'{p} -> {q} [label="{label}"]' for (p, q), label in labels.items()]
    text = "\n".join(["digraph proof { rankdir=LR; start [shape=point]; start -> 0", *states, *edges, "}"])
    drawn = subprocess.run(["dot", "-Tsvg"], input=text, capture_output=True, text=True)
    if drawn.returncode:
        raise Refused(126, f"dot does not draw: {drawn.stderr.strip()}")
    return drawn.stdout


def layers_of(certificate, labels):
    """The states by their distance from the start; each layer in the order of the states that lead to it."""
    layers, seen = [[0]] if certificate.states else [], {0}
    while layers and layers[-1]:
        ahead = [q for p in layers[-1] for (source, q) in labels if source == p and q not in seen]
        layers.append(list(dict.fromkeys(ahead)))
        seen.update(ahead)
    return layers[:-1]


def columns_of(layers, layer_of, labels):
    """Where each layer stands: so far from the one before that the labels between them and those above their states have room; and how wide it all is."""
    between, above = [0] * len(layers), [0] * len(layers)
    for (p, q), label in labels.items():
        if p in layer_of and abs(layer_of[p] - layer_of[q]) < 2:
            room, k = (above if p == q else between), min(layer_of[p], layer_of[q])
            room[k] = max(room[k], len(label) * LETTER)
    found = [max(60, above[0] / 2 + 10)] if layers else [0]
    for k in range(1, len(layers)):
        found.append(found[-1] + max(90, between[k - 1] + 3 * RADIUS, (above[k - 1] + above[k]) / 2 + RADIUS))
    return found, found[-1] + max([60, *(wide / 2 + 10 for wide in above[-1:])])


def in_layers(certificate, labels):
    """A picture of the states that are reached, layer by layer from the left: edges to the next layer are straight, others curved, and dashed where they lead back."""
    layers = layers_of(certificate, labels)
    layer_of = {state: k for k, layer in enumerate(layers) for state in layer}
    (columns, wide), high = columns_of(layers, layer_of, labels), max(map(len, layers), default=1) * 100
    place = {state: (columns[k], 40 + high * (j + 0.5) / len(layer)) for k, layer in enumerate(layers) for j, state in enumerate(layer)}
    body = ['<path class="edge" d="M{0:.0f} {2:.0f}L{1:.0f} {2:.0f}" marker-end="url(#arrow)"/>'.format(columns[0] - 40, columns[0] - 18, place[0][1])] if place else []
    for (p, q), label in labels.items():
        if p in place:
            straight = layer_of[q] == layer_of[p] + 1 and (q, p) not in labels
            body += loop(place[p], label) if p == q else edge(place[p], place[q], label, 0 if straight else 36, layer_of[q] < layer_of[p])
    # (no arrow runs over a label)
    body.sort(key=lambda part: part.startswith("<text"))
    for state, (x, y) in place.items():
        body.append(f'<circle class="state" cx="{x:.0f}" cy="{y:.0f}" r="{RADIUS}"/>')
        if state in certificate.finals:
            body.append(f'<circle class="state" cx="{x:.0f}" cy="{y:.0f}" r="{RADIUS - 4}"/>')
        body.append(words(x, y + 4, str(state)))
    return svg(wide, 80 + high, body)


def loop(at, label):
    x, y = at
    path = f"M{x - 8:.0f} {y - 14:.0f}A12 12 0 1 1 {x + 8:.0f} {y - 14:.0f}"
    return [f'<path class="edge" d="{path}" marker-end="url(#arrow)"/>', words(x, y - 44, label, "label")]


def edge(start, end, label, bend, back=False):
    """An arrow from state to state, bent to its left by so much in the middle, and dashed where it leads back."""
    (x1, y1), (x2, y2) = start, end
    length = max(1.0, ((x2 - x1) ** 2 + (y2 - y1) ** 2) ** 0.5)
    across = ((y2 - y1) / length, -(x2 - x1) / length)
    bend = bend and bend + length / 8
    middle = ((x1 + x2) / 2 + 2 * bend * across[0], (y1 + y2) / 2 + 2 * bend * across[1])

    def shortened(x, y):
        far = max(1.0, ((middle[0] - x) ** 2 + (middle[1] - y) ** 2) ** 0.5)
        return x + (middle[0] - x) * (RADIUS + 1) / far, y + (middle[1] - y) * (RADIUS + 1) / far
    (ax, ay), (bx, by) = shortened(x1, y1), shortened(x2, y2)
    path = f"M{ax:.0f} {ay:.0f}Q{middle[0]:.0f} {middle[1]:.0f} {bx:.0f} {by:.0f}"
    x, y = (x1 + x2) / 2 + bend * across[0], (y1 + y2) / 2 + bend * across[1]
    dashed = ' stroke-dasharray="6 3"' if back else ""
    return [f'<path class="edge" d="{path}"{dashed} marker-end="url(#arrow)"/>', words(x, y - 4, label, "label")]


def run(protocol, certificate, _plain):
    """A run as a chart: a line for each section, time downward, and at each step a box with the new list of each section that it changes."""
    lists = [configuration_of(text) for text in [certificate.start, *(text for _, text in certificate.steps)]]
    rules = ["start", *(rule for rule, _ in certificate.steps)]
    wide = [max(len(" ".join(each[k]) or "empty") for each in lists) * LETTER + 24 for k in range(len(protocol.sections))]
    left = max(map(len, rules)) * LETTER + 30
    middle = [left + sum(wide[:k]) + 20 * k + wide[k] / 2 for k in range(len(wide))]
    high = 50 + 2 * LINE * len(lists)
    body = [f'<line class="life" x1="{x:.0f}" x2="{x:.0f}" y1="34" y2="{high:.0f}"/>' for x in middle]
    body += [words(x, 24, section.name, "label") for x, section in zip(middle, protocol.sections)]
    for at, (rule, after) in enumerate(zip(rules, lists)):
        y = 50 + 2 * LINE * at
        before = lists[at - 1] if at else [None] * len(after)
        changed = [k for k in range(len(after)) if before[k] != after[k]]
        body.append(words(left - 12, y + 4, rule, "bad" if at + 1 == len(lists) else "", "end"))
        if changed:
            body.append(f'<line class="step" x1="{left - 8:.0f}" x2="{middle[changed[-1]]:.0f}" y1="{y}" y2="{y}"/>')
        for k in changed:
            body += list_box(middle[k], y, wide[k], before[k], after[k])
    return svg(left + sum(wide) + 20 * len(wide), high + 10, body)


def list_box(x, y, wide, before, after):
    """The box of a list, with the letters that are new in bold: those that differ from the letter that stood in this place."""
    spans = []
    for k, letter in enumerate(after or ["empty"]):
        same = before is None or not after or (len(before) == len(after) and before[k] == letter) or (len(before) < len(after) and before[k:k + 1] == [letter])
        spans.append(html.escape(letter) if same or (before is not None and len(before) > len(after)) else f'<tspan class="new">{html.escape(letter)}</tspan>')
    box = f'<rect class="box" x="{x - wide / 2 + 4:.0f}" y="{y - 12}" width="{wide - 8:.0f}" height="24" rx="4"/>'
    return [box, f'<text x="{x:.0f}" y="{y + 4}" text-anchor="middle">{" ".join(spans)}</text>']

