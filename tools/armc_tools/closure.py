"""Why a proof is closed: from which of its cases each rule can fire, and into which it leads, as sets of configurations.

A case is a box of values of the cells, with the lists of the other sections that go with it; the cases of a proof are the boxes of its
paragraphs. The transducer of a rule is walked in product with two cases: where that walk comes to an end, the rule leads from the one into the
other, and what the product reads and what it writes are the two sets.
"""
import collections
import itertools

from .automata import language, reached
from .expressions import expression, text as expression_text
from .moves import move_of
from .protocol import alternatives, configuration_text
from .rows import TooMany, blocks_of, paragraphs, rows_of

# More cases, or more states of all products, are not looked at, and a set of more states is not told by an expression.
CASES, STATES, TOLD = 200, 200_000, 30

# A case: for each cell, by the number of its section, the places of its letters; and the language of its words.
Case = collections.namedtuple("Case", "box words")
# What a rule does from one case into another, or out of the proof (None): the sets that it reads and writes, and the words of a least step.
Way = collections.namedtuple("Way", "rule source into reads writes before after")


def part_of(words, box):
    """The words in which each cell has a letter of its set in the box."""
    return language(0, lambda state: [(letter, target) for letter, target in words[state][1] if letter[1] in box.get(letter[0], (letter[1],)) or letter[1] < 0],
                    lambda state: words[state][0])


def cases_of(words, sections):
    """The cases of a proof, given by its words: they differ in the values of the cells, and together they are all of it."""
    found = []
    for block, start in blocks_of(words, sections):
        cells = [k for k in block if sections[k].kind == "cell"]
        told = paragraphs(rows_of(words, block, start), [sections[k] for k in block])
        found.append([dict(zip(cells, box)) for boxes, _ in told for box in boxes])
    count = 1
    for boxes in found:
        count *= len(boxes)
    if count > CASES:
        raise TooMany
    boxes = [{k: letters for box in choice for k, letters in box.items()} for choice in itertools.product(*found)]
    return [Case(box, part_of(words, box)) for box in boxes]


class Product:
    """The steps of a rule from the words of one language into those of another. A state is one of each, the section, and the state of its move.

    Where `out` holds, it has the steps that end outside of the other language. `left` has the number of states that may still be looked at.
    """

    def __init__(self, moves, one, two, left, out=False):
        self.moves, self.one, self.two, self.left, self.out = moves, one, two, left, out
        self.start = (0, 0 if two else None, 0, moves[0].start)
        self.known = {}
        self.next_of = [dict(edges) for _, edges in two]

    def behind(self, q, letter):
        """The state of the other language behind a letter, and whether there is one."""
        q = self.next_of[q].get(letter) if q is not None else None
        return q, self.out or q is not None

    def step(self, state):
        """Triples of the letter that is read, the one that is written, and the state behind them."""
        if state in self.known:
            return self.known[state]
        self.left[0] -= 1
        if self.left[0] < 0:
            raise TooMany
        (p, q, k, m), found = state, []
        edges = dict(self.one[p][1])
        for read, written, m_next in self.moves[k].step(m):
            if read is None or (k, read) in edges:
                q_next, there = (q, True) if written is None else self.behind(q, (k, written))
                if there:
                    letters = [None if each is None else (k, each) for each in (read, written)]
                    found.append((*letters, (p if read is None else edges[k, read], q_next, k, m_next)))
        if (k, -1) in edges and self.moves[k].accepts(m):
            q_next, there = self.behind(q, (k, -1))
            if there:
                found.append(((k, -1), (k, -1), (edges[k, -1], q_next, k + 1, self.moves[k + 1].start)))
        self.known[state] = found
        return found

    def accepts(self, state):
        p, q, k, m = state
        inside = q is not None and self.two[q][0]
        return k + 1 == len(self.moves) and self.moves[k].accepts(m) and self.one[p][0] and inside != self.out

    def least(self):
        """The words of a least step, or None where there is no step."""
        if not self.one:
            return None
        before, waiting = {self.start: None}, collections.deque([self.start])
        while waiting:
            state = waiting.popleft()
            if self.accepts(state):
                return self.words_to(state, before)
            for read, written, target in self.step(state):
                if target not in before:
                    before[target] = state, read, written
                    waiting.append(target)
        return None

    @staticmethod
    def words_to(state, before):
        found = []
        while before[state]:
            state, *letters = before[state]
            found.append(letters)
        return tuple([pair[at] for pair in reversed(found) if pair[at] is not None] for at in (0, 1))

    def side(self, at):
        """The words that the product reads (0) or writes (1)."""
        def closed(states):
            return frozenset(reached(states, lambda state: [each[2] for each in self.step(state) if each[at] is None]))

        def step(states):
            found = {}
            for each in (each for state in states for each in self.step(state) if each[at] is not None):
                found.setdefault(each[at], set()).add(each[2])
            return [(letter, closed(targets)) for letter, targets in found.items()]
        return language(closed([self.start]), step, lambda states: any(map(self.accepts, states)))


def ways_of(rule, cases, words, sections, left):
    """The ways of a rule: from each case into each, and out of the proof where it leads out of it."""
    moves = [move_of(dict(rule.moves).get(section.name), section) for section in sections]
    found = []
    for source in cases:
        for into, target in [*((case, case.words) for case in cases), (None, words)]:
            if into is None or may_lead(rule, source, into, sections):
                product = Product(moves, source.words, target, left, into is None)
                step = product.least()
                if step:
                    found.append(Way(rule.name, source, into, product.side(0), product.side(1), *step))
    return found


def may_lead(rule, source, into, sections):
    """Whether the cells alone let the rule lead from the one case into the other."""
    words = dict(rule.moves)
    for k in source.box:
        move, letters = words.get(sections[k].name), sections[k].letters
        old, new = ({letters.index(move[1])}, {letters.index(move[3])}) if move else (source.box[k], source.box[k])
        if not source.box[k] & old or not into.box[k] & new:
            return False
    return True


def closure_of(protocol, words):
    """The ways of each rule, in their order: pairs of a rule and its ways."""
    cases, left = cases_of(words, protocol.sections), [STATES]
    return [(rule, ways_of(rule, cases, words, protocol.sections, left)) for rule in protocol.rules]


def list_of(words, k):
    """The lists that section k has in the words."""
    def inside(states):
        found = {}
        for letter, target in (edge for state in states for edge in words[state][1] if edge[0] == (k, edge[0][1]) and edge[0][1] >= 0):
            found.setdefault(letter[1], set()).add(target)
        return [(letter, frozenset(targets)) for letter, targets in found.items()]

    def ends(states):
        return any(words[state][0] or any(place < 0 for (_, place), _ in words[state][1]) for state in states)
    starts = [target for _, edges in words for letter, target in edges if letter == (k - 1, -1)] if k else [0]
    return language(frozenset(starts), inside, ends)


def configuration(sections, word):
    """The text of a configuration, of its word."""
    lists = [[section.letters[place] for at, place in word if at == k and place >= 0] for k, section in enumerate(sections)]
    return configuration_text(sections, lists)


class Told:
    """The ways of rules in words."""

    def __init__(self, protocol, width):
        self.cells, self.sections, self.width = protocol.cells(), protocol.sections, width
        self.moved = {rule.name: {name for name, _ in rule.moves} for rule in protocol.rules}
        self.known = {}

    def values(self, way, words):
        """The values of the cells in a set: 'L free', of those cells that the rule moves or that do not have every letter in the case."""
        said = []
        for k in self.cells:
            section = self.sections[k]
            if section.name in self.moved[way.rule] or len(way.source.box[k]) < len(section.letters):
                letters = sorted(letter for letter, _ in list_of(words, k)[0][1])
                said.append(f"{section.name} {alternatives([section.letters[letter] for letter in letters])}")
        return "; ".join(said)

    def expression(self, words, section):
        if len(words) > TOLD:
            return f"(a list, by {len(words)} states)"
        key = words, section.name
        if key not in self.known:
            found = expression_text(expression(words), section.letters)
            self.known[key] = found if len(found) <= self.width else f"(an expression of {len(found)} characters)"
        return self.known[key]

    def lists(self, way):
        """Triples of a section, its list before, and its list after, of the sections that the rule moves or that it does not leave as they are in the case."""
        found = []
        for k, section in enumerate(self.sections):
            if section.kind != "cell":
                before, after = list_of(way.reads, k), list_of(way.writes, k)
                if section.name in self.moved[way.rule] or before != list_of(way.source.words, k):
                    found.append((section.name, self.expression(before, section), self.expression(after, section)))
        return found

    def ends(self, way):
        """From where it leads, and whereto, by the values of cells."""
        return self.values(way, way.reads), "out of the proof" if way.into is None else self.values(way, way.writes)


def told_closure(protocol, closure, width):
    """The lines of the table: for each rule a line for each two cases between which it leads, with the lists of other sections below it."""
    told = Told(protocol, width)
    wide = max((len(rule.name) for rule, _ in closure), default=0) + 1
    for rule, ways in closure:
        if not ways:
            yield f"{rule.name + ':':<{wide}} fires nowhere"
        for at, way in enumerate(ways):
            (source, into), lists = told.ends(way), [f"{name}: {before}{f' -> {after}' if before != after else ''}" for name, before, after in told.lists(way)]
            rows = [f"{source} -> {into}", *(f"  {line}" for line in lists)] if source or into else lists or ["always"]
            for row, line in enumerate(rows):
                yield f"{'' if at or row else rule.name + ':':<{wide}} {line}"
