"""The configurations from which no rule leads, as rows: what `armc deadlock` takes for bad, said by patterns.

No rule leads from a configuration where for each rule the list of some section is not one at which its move can be made: one *clause* a rule,
of which some part has to hold. A row is found from a configuration that no row has yet: its lists are made patterns, and the patterns larger as
long as each of their configurations is stuck. Where no configuration is left, the rows are exactly the stuck ones; that is decided section
after section, by automata. What patterns cannot say, or not in few rows, is refused.
"""
import collections
import re

from .automata import NONE, language, reached, union
from .firing import braces, enabled

# The rows of one protocol, and the letters of a list that is made a pattern, of which every second atom may be one of them.
ROWS, LETTERS = 32, 15
# So many states are walked through before it is given up.
STATES = 150_000


class Unsaid(Exception):
    """What is stuck is not said by so few rows."""


# Patterns: tuples of atoms, each a set of places of letters and the sign '', '*' or '+'

def atoms_of(section, pattern):
    """The atoms of a pattern's text."""
    places = {letter: place for place, letter in enumerate(section.letters)}
    found = [] if pattern.split() == ["empty"] else re.findall(r"(\{[^}]*\}|\w+)\s*([*+]?)", pattern)
    return tuple((frozenset(places.values() if base == "any" else (places[name] for name in re.findall(r"\w+", base))), sign) for base, sign in found)


def pattern_text(section, atoms):
    """The pattern of the atoms, as it is written."""
    return " ".join(braces(section, {section.letters[place] for place in letters}) + sign for letters, sign in atoms) or "empty"


def language_of(section, patterns):
    """The language of lists of the section that match one of the patterns; of a cell those of one letter."""
    most = 1 if section.kind == "cell" else None
    # The places are those before each atom of each pattern, and the end of each.
    atoms = [atom for pattern in patterns for atom in [*pattern, None]]
    starts = [at for at in range(len(atoms)) if at == 0 or atoms[at - 1] is None]

    def closed(places):
        """The places with those behind atoms that may take nothing."""
        found = set(places)
        for at in places:
            while atoms[at] and atoms[at][1] == "*":
                at += 1
                found.add(at)
        return frozenset(found)

    def step(state):
        found, (read, places) = collections.defaultdict(set), state
        for at in places if read != most else ():
            for letter in atoms[at][0] if atoms[at] else ():
                found[letter].update([at] if atoms[at][1] == "*" else [at, at + 1] if atoms[at][1] else [at + 1])
        return [(letter, (read + 1 if most else 0, closed(targets))) for letter, targets in found.items()]

    def accepts(state):
        return (not most or state[0] == most) and any(atoms[at] is None for at in state[1])
    return language((0, closed(starts)), step, accepts)


def everything(section):
    """All lists of the section."""
    letters = frozenset(range(len(section.letters)))
    return language_of(section, [((letters, "" if section.kind == "cell" else "*"),)])


class Languages:
    """Languages by number, so that they are compared at once, and what is known of them."""

    def __init__(self):
        self.words, self.numbers, self.unions, self.steps = [], {}, {}, {}
        self.none = self.number(NONE)

    def number(self, words):
        if words not in self.numbers:
            self.numbers[words] = len(self.words)
            self.words.append(words)
        return self.numbers[words]

    def union(self, numbers):
        """The number of the union of languages."""
        found = self.none
        for number in sorted(numbers):
            if (found, number) not in self.unions:
                self.unions[found, number] = self.number(union(self.words[found], self.words[number]))
            found = self.unions[found, number]
        return found

    def meets(self, atoms, number):
        """Whether a list matches the pattern and is in the language."""
        words, states = self.words[number], frozenset([0] if number != self.none else [])
        for letters, sign in atoms:
            key = number, states, letters, sign
            if key not in self.steps:
                self.steps[key] = behind(words, states, letters, sign)
            states = self.steps[key]
        return any(words[state][0] for state in states)


def behind(words, states, letters, sign):
    """The states of the language to which an atom leads from some states."""
    def ahead(state):
        return [target for letter, target in words[state][1] if letter in letters]
    found = {target for state in states for target in ahead(state)}
    return frozenset(reached(found, ahead) | (states if sign == "*" else set()) if sign else found)


def sure_state(words, letters):
    """The state behind which every list is in the language, or None."""
    return next((state for state, (accepts, edges) in enumerate(words) if accepts and edges == tuple((letter, state) for letter in range(letters))), None)


class Stuck:
    """The stuck configurations of a protocol, without those that match a row of `ends`, by the names of its sections.

    They are told by clauses, one for each rule and each of these rows: sets of pairs of a section's number and the number of a language, of which
    some section's list has to be outside of its language.
    """

    def __init__(self, protocol, ends=()):
        self.sections, self.languages = protocol.sections, Languages()
        self.whole = [self.languages.number(everything(section)) for section in self.sections]
        self.walked, self.left, self.patterns = 0, {}, {}
        # Sections with few kinds of lists are looked at first.
        kinds = ["cell", "channel", "lossy channel", "stack", "array"]
        self.order = sorted(range(len(self.sections)), key=lambda k: kinds.index(self.sections[k].kind))
        self.clauses = self.fewer(frozenset(self.clauses_of(protocol, ends)))

    def clauses_of(self, protocol, ends):
        numbers = {section.name: k for k, section in enumerate(self.sections)}
        rows = [[(numbers[name], enabled(self.sections[numbers[name]], move)) for name, move in rule.moves] for rule in protocol.rules]
        rows += [[(numbers[name], [pattern]) for name, pattern in row.items()] for row in ends]
        for row in rows:
            parts = {(k, self.of_texts(k, patterns)) for k, patterns in row if patterns is not None}
            yield frozenset((k, number) for k, number in parts if number != self.whole[k])

    def of_texts(self, k, patterns):
        return self.languages.number(language_of(self.sections[k], [atoms_of(self.sections[k], each) for each in patterns]))

    def of_pattern(self, k, atoms):
        if (k, atoms) not in self.patterns:
            self.patterns[k, atoms] = self.languages.number(language_of(self.sections[k], [atoms]))
        return self.patterns[k, atoms]

    def fewer(self, clauses):
        """The same clauses as few: those that have the same other parts are joined, and one that another has in it is left out."""
        clauses = {clause for clause in clauses if all(number != self.languages.none for _, number in clause)}
        while True:
            groups = collections.defaultdict(set)
            for clause in clauses:
                for k, number in clause:
                    groups[clause - {(k, number)}, k].add(number)
            (rest, k), numbers = next(((key, numbers) for key, numbers in groups.items() if len(numbers) > 1), ((None, None), ()))
            if not numbers:
                return frozenset(clause for clause in clauses if not any(other < clause for other in clauses))
            joined = (k, self.languages.union(numbers))
            clauses = clauses.difference(rest | {(k, number)} for number in numbers) | {rest | {joined} if joined[1] != self.whole[k] else rest}

    def behind(self, clauses, k, outside):
        """What is left of the clauses behind section k, whose list is outside of these languages: None where one has no part left."""
        if (clauses, k, outside) not in self.left:
            left = {clause.difference([(k, number) for each, number in clause if each == k]) for clause in clauses
                    if not any(each == k and number in outside for each, number in clause)}
            self.left[clauses, k, outside] = None if frozenset() in left else self.fewer(left)
        return self.left[clauses, k, outside]

    def holds(self, row):
        """Whether each configuration of the row is stuck."""
        return all(any(not self.languages.meets(row[k], number) for k, number in clause) for clause in self.clauses)

    def outside(self, rows):
        """A stuck configuration that matches none of the rows, as the list of each section, or None."""
        of_rows = [[self.of_pattern(k, row[k]) for row in rows] for k in range(len(self.sections))]
        known = {}

        def found(place, clauses, matched):
            """The lists from this place of the order on; `matched` are the rows that the lists before match."""
            if place == len(self.order):
                return None if clauses or matched else {}
            if (place, clauses, matched) not in known:
                known[place, clauses, matched] = search(place, clauses, matched)
            return known[place, clauses, matched]

        def search(place, clauses, matched):
            k, tried = self.order[place], set()
            for letters, left, numbers in self.ways(k, clauses, {row: of_rows[k][row] for row in sorted(matched)}):
                if (left, numbers) not in tried:
                    tried.add((left, numbers))
                    rest = found(place + 1, left, numbers)
                    if rest is not None:
                        return {k: letters, **rest}
            return None
        lists = found(0, self.clauses, frozenset(range(len(rows)))) if frozenset() not in self.clauses else None
        return lists and [lists[k] for k in range(len(self.sections))]

    def ways(self, k, clauses, rows):
        """The lists of section k, shorter ones first, each with what is left of the clauses, and which of the rows' languages it is in.

        Two lists that lead to the same states of all automata are one.
        """
        asked = sorted({number for clause in clauses for each, number in clause if each == k})
        numbers = [self.whole[k], *asked, *rows.values()]
        automata = [self.languages.words[number] for number in numbers]
        # Languages in which the list must not be, since no other section can meet the clause: by their places, the state that never leaves them.
        never = {number for clause in clauses if all(each == k for each, _ in clause) for _, number in clause}
        sure = [(at, sure_state(automata[at], len(self.sections[k].letters))) for at, number in enumerate(numbers[:len(asked) + 1]) if at and number in never]
        moves = [[dict(edges) for _, edges in words] for words in automata]
        start = tuple(0 if words else None for words in automata)
        seen, waiting = {start}, collections.deque([(start, ())])
        while waiting:
            state, letters = waiting.popleft()
            inside = [at is not None and words[at][0] for words, at in zip(automata, state)]
            if inside[0]:
                left = self.behind(clauses, k, frozenset(number for number, accepted in zip(asked, inside[1:]) if not accepted))
                if left is not None:
                    yield letters, left, frozenset(row for row, accepted in zip(rows, inside[len(asked) + 1:]) if accepted)
            here = [each[at] if at is not None else {} for each, at in zip(moves, state)]
            for letter in here[0]:
                after = tuple(each.get(letter) for each in here)
                if after not in seen and not any(state is not None and after[at] == state for at, state in sure):
                    self.walked += 1
                    if self.walked > STATES:
                        raise Unsaid(f"what is stuck takes more than {STATES} states to say")
                    seen.add(after)
                    waiting.append((after, (*letters, letter)))

    def rows(self):
        """Rows that have exactly the stuck configurations: for each a pattern for each section."""
        rows = next((rows for rows in map(self.rows_found, (True, False)) if rows is not None), None)
        if rows is None:
            raise Unsaid(f"what is stuck is not said by {ROWS} rows")
        # A row that the others say too is left out.
        for row in list(rows):
            others = [each for each in rows if each is not row]
            rows = rows if self.outside(others) else others
        return [tuple(shorter(section, atoms) for section, atoms in zip(self.sections, row)) for row in rows]

    def rows_found(self, cells_first):
        """The rows, where the patterns of cells are made larger before the others, or behind them; None where they are too many."""
        rows, self.walked = [], 0
        while lists := self.outside(rows):
            if any(len(letters) > LETTERS for letters in lists):
                raise Unsaid(f"what is stuck is not said by rows of which each has a configuration of at most {LETTERS} letters a section")
            if len(rows) == ROWS:
                return None
            rows.append(self.larger([begun(section, letters) for section, letters in zip(self.sections, lists)], cells_first))
        return rows

    def larger(self, row, cells_first):
        """The row made larger, part after part, as long as each of its configurations is stuck."""
        row, cells = list(row), [k for k in self.order if self.sections[k].kind == "cell"]
        others = [k for k in self.order if k not in cells]
        for k in cells + others if cells_first else others + cells:
            # A change that is too much for a pattern is too much for a larger one too: each is tried once.
            for change in changes(len(row[k]), len(self.sections[k].letters), k in cells):
                more = change(row[k])
                if more != row[k] and self.holds([*row[:k], more, *row[k + 1:]]):
                    row[k] = more
            row[k] = tuple(atom for atom in row[k] if atom != NOTHING)
        return tuple(row)

    def texts(self):
        """The rows as texts, without their braces: a section that may have any list is not named."""
        return [" ".join(f"{section.name}: {pattern_text(section, atoms)};" for k, (section, atoms) in enumerate(zip(self.sections, row))
                         if self.of_pattern(k, atoms) != self.whole[k]) for row in self.rows()]


# Changes that make a pattern larger. The pattern of a list begins as its letters with an atom that takes nothing in each gap.

NOTHING = (frozenset(), "*")


def begun(section, letters):
    """The pattern of one list."""
    if section.kind == "cell":
        return ((frozenset(letters), ""),)
    return (NOTHING, *(each for letter in letters for each in ((frozenset([letter]), ""), NOTHING)))


def changes(atoms, letters, is_cell):
    """All changes of a pattern of so many atoms that are tried, in their order."""
    gaps, singles = range(0, atoms, 2), range(1, atoms, 2)
    if is_cell:
        gaps, singles = (), (0,)
    yield from (with_letter(gaps, letter) for letter in range(letters) if gaps)
    yield from (with_letter([at], letter) for at in gaps for letter in range(letters))
    yield from (starred(at) for at in singles if gaps)
    yield from (merged(at) for at in range(1, atoms) if gaps)
    yield from (with_letter([at], letter) for at in singles for letter in range(letters))


def with_letter(places, letter):
    """A letter more in these atoms."""
    return lambda atoms: tuple((letters | {letter}, sign) if at in places else (letters, sign) for at, (letters, sign) in enumerate(atoms))


def starred(place):
    """The atom any number of times."""
    return lambda atoms: tuple((letters, "*" if at == place else sign) for at, (letters, sign) in enumerate(atoms))


def merged(place):
    """The atom and the one before it as one, where both are taken any number of times."""
    def change(atoms):
        (one, sign), (two, other) = atoms[place - 1:place + 1]
        return (*atoms[:place - 1], NOTHING, (one | two, "*"), *atoms[place + 1:]) if sign == other == "*" else atoms
    return change


def shorter(section, atoms):
    """The same lists with fewer atoms."""
    words = language_of(section, [atoms])
    while less := next((each for at in range(len(atoms)) for each in [atoms[:at] + atoms[at + 1:]] if language_of(section, [each]) == words), None):
        atoms = less
    for at in range(len(atoms) - 1, 0, -1):
        (before, sign), (behind, other) = atoms[at - 1:at + 1]
        if before == behind and {sign, other} == {"", "*"}:
            atoms = (*atoms[:at - 1], (before, "+"), *atoms[at + 1:])
    return atoms
