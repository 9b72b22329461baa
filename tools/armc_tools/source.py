"""The text of a protocol as HTML, with its rows marked so that a page can point at them; and by which letters a configuration meets a row."""
import html
import itertools
import re

from .protocol import configuration_of, configuration_text

TOKEN = re.compile(r"#[^\n]*|[A-Za-z0-9_]+|->|\s+|.", re.S)
KEYWORDS = ("protocol", "language", "cell", "array", "channel", "stack", "lossy", "init", "rule", "bad", "any", "empty", "at", "pair", "ring", "two", "set", "send",
            "recv", "pop", "push", "spawn", "exit", "lose", "when", "all", "some", "left", "right", "others", "in", "map")
ROWS = ("init", "rule", "bad")
# So many configurations of a row are made, of which the shortest are taken.
TRIED = 500


def token_html(token):
    if token.startswith("#"):
        return f'<i class="comment">{html.escape(token)}</i>'
    if token == "->":
        return '<span class="to">-&gt;</span>'
    return f"<b>{token}</b>" if token in KEYWORDS else html.escape(token)


def marked_text(text):
    """The text as HTML, each row in a span with its kind and number; and how many rows there are of each kind."""
    found, depth, counts, row = [], 0, dict.fromkeys(ROWS, 0), False
    for token in TOKEN.findall(text):
        if token in ROWS and not depth and not row:
            found.append(f'<span class="row" data-row="{token}-{counts[token]}">')
            counts[token] += 1
            row = True
        found.append(token_html(token))
        depth += {"{": 1, "}": -1}.get(token, 0)
        if token == "}" and not depth and row:
            found.append("</span>")
            row = False
    return "".join(found) + "</span>" * row, counts


def source_html(text, protocol):
    """The text, where its rows are those of the protocol, or else the protocol in its canonical layout."""
    marked, counts = marked_text(text.replace("\r", ""))
    wanted = {"init": len(protocol.inits), "rule": len(protocol.rules), "bad": len(protocol.bads)}
    return marked if counts == wanted else marked_text(protocol.text())[0]


def atoms_of(pattern, section):
    """The atoms of a pattern, as pairs of a set of letters and whether it may stand any number of times; `a+` is `a a*`."""
    found = []
    for base, sign in re.findall(r"(\w+|\{[^}]*\}) ?([*+]?)", "" if pattern == "empty" else pattern):
        letters = set(section.letters) if base == "any" else set(re.findall(r"\w+", base))
        found += [(letters, False)] if sign in ("", "+") else []
        found += [(letters, True)] if sign else []
    return found


def places_of(pattern, letters, section):
    """The places of a list whose letters matter where it matches the pattern: those that an atom without every letter takes. None where it does not match."""
    atoms, n = atoms_of(pattern, section), len(letters)
    can = [[False] * (len(atoms) + 1) for _ in range(n + 1)]
    for i in range(n, -1, -1):
        can[i][len(atoms)] = i == n
        for j in range(len(atoms) - 1, -1, -1):
            allowed, many = atoms[j]
            takes = i < n and letters[i] in allowed
            can[i][j] = (many and can[i][j + 1]) or (takes and can[i + 1][j if many else j + 1])
    if not can[0][0]:
        return None
    found, i, j = [], 0, 0
    while i < n:
        allowed, many = atoms[j]
        if many and can[i][j + 1]:
            j += 1
            continue
        found += [i] if len(allowed) < len(section.letters) else []
        i, j = i + 1, j if many else j + 1
    return found


def parts_of_row(row):
    """The patterns of a row by the names of its sections."""
    return dict(re.findall(r"(\w+): ([^;]*);", row))


def letters_met(row, configuration, sections):
    """The places whose letters make the configuration meet the row: a list for each section that the row names, by its number; None where it does not."""
    patterns, found = parts_of_row(row), {}
    for k, (section, letters) in enumerate(zip(sections, configuration_of(configuration))):
        if section.name in patterns:
            found[k] = places_of(patterns[section.name], letters, section)
            if found[k] is None:
                return None
    return found


def short_ones(row, sections, most):
    """Short configurations of the row as texts, the shortest first, at most so many: each atom takes a letter, and one that may stand any number of times
    none or one. None where an atom has no letter."""
    patterns, choices = parts_of_row(row), []
    for k, section in enumerate(sections):
        atoms = atoms_of(patterns[section.name], section) if section.name in patterns else []
        if section.kind == "cell":
            # (its one letter is that of an atom that has to stand, where there is one)
            atoms = [(allowed, False) for allowed, _ in sorted(atoms, key=lambda atom: atom[1]) or [(set(section.letters), False)]][:1]
        choices += [[*([()] if many else []), *((k, letter) for letter in section.letters if letter in allowed)] for allowed, many in atoms]
    found = []
    for chosen in itertools.islice(itertools.product(*choices), TRIED):
        lists = [[letter for of, letter in filter(None, chosen) if of == k] for k in range(len(sections))]
        found.append((sum(map(len, lists)), configuration_text(sections, lists)))
    return list(dict.fromkeys(text for _, text in sorted(found, key=lambda each: each[0])))[:most]
