"""A proof in parts: for each value of the cells the languages of the other sections, with values that are alike taken together.

The automaton of a proof is cut down to words of configurations and made smallest. Between two separators such an automaton reads the list of
one section, so each way from the start over the separators to the end is a *row* of languages, one for each section, and the proof is the
union of its rows. Rows of the same value of the cells that differ in one section alone are made one row. Sections that have nothing to do with
each other are told in blocks of their own.
"""
import functools
import itertools

from .automata import NONE, every_list, language, reached, union
from .certificate import Automaton
from .ways import walk_of

# More rows, or more values of the cells, are not taken apart.
ROWS = 1000


class TooMany(Exception):
    """The proof has more rows than anybody reads."""


def trimmed(automaton, sections):
    """The smallest automaton of the words of configurations that the proof accepts."""
    return language((0, False, 0), *walk_of(automaton, sections)) if automaton.states else NONE


def certificate_of_words(words, sections):
    """The automaton of such words as a certificate has it."""
    def letter(k, place):
        return None if place < 0 else (sections[k].name, sections[k].letters[place])
    edges = [(state, letter(*each), target) for state, (_, moves) in enumerate(words) for each, target in moves]
    return Automaton("safe", len(words), {state for state, (accepts, _) in enumerate(words) if accepts}, edges)


def separator(words, state):
    """The state behind the separator, or None."""
    return next((target for (_, place), target in words[state][1] if place < 0), None)


def within(words, state):
    """The edges inside the list of a section, by places."""
    return [(place, target) for (_, place), target in words[state][1] if place >= 0]


def behind(words, entry):
    """The states behind the separators that are reached from this state within its list."""
    return {separator(words, state) for state in reached([entry], lambda state: [target for _, target in within(words, state)])} - {None}


def blocks_of(words, sections):
    """The sections in blocks that have nothing to do with each other: pairs of the numbers of a block and the state in which it begins.

    Where all words are in one state behind a separator, what was read before has no part in what may follow.
    """
    entries = [{0}]
    for _ in sections[1:]:
        entries.append(set().union(*(behind(words, entry) for entry in entries[-1])))
    starts = [k for k, states in enumerate(entries) if len(states) == 1]
    return [(range(first, end), min(entries[first])) for first, end in zip(starts, [*starts[1:], len(sections)])]


def rows_of(words, block, start):
    """The rows of a block: tuples of a language for each of its sections."""
    def list_from(entry, end):
        return language(entry, lambda state: within(words, state), end)

    def ways(left, entry):
        if left == 1:
            return [(list_from(entry, lambda state: words[state][0] or separator(words, state) is not None),)]
        found = []
        for target in sorted(behind(words, entry)):
            here = list_from(entry, lambda state, target=target: separator(words, state) == target)
            found += [(here, *rest) for rest in ways(left - 1, target)]
            if len(found) > ROWS:
                raise TooMany
        return found
    return ways(len(block), start)


def merged(rows, unite):
    """The rows with those that differ in one place alone made one, as long as there are such."""
    rows = list(dict.fromkeys(rows))
    while pair := next((pair for pair in itertools.combinations(rows, 2) if sum(a != b for a, b in zip(*pair)) == 1), None):
        rows = [row for row in rows if row not in pair] + [tuple(a if a == b else unite(a, b) for a, b in zip(*pair))]
        rows = list(dict.fromkeys(rows))
    return rows


def by_value(rows, sections):
    """For each value of the cells, a tuple of places, the rows of the other sections."""
    cells = [k for k, section in enumerate(sections) if section.kind == "cell"]
    found = {}
    for row in rows:
        for value in itertools.product(*([letter for letter, _ in row[k][0][1]] for k in cells)):
            found.setdefault(value, []).append(tuple(each for k, each in enumerate(row) if k not in cells))
            if len(found) > ROWS:
                raise TooMany
    return {value: merged(found[value], union) for value in sorted(found)}


def boxes(values):
    """The values as few products: tuples of sets, of which two that differ in one place are made one."""
    found = merged((tuple(frozenset([letter]) for letter in value) for value in values), frozenset.union)
    return sorted(found, key=lambda box: [sorted(letters) for letters in box])


def paragraphs(rows, sections):
    """Pairs of boxes of values of the cells and the rows that all these values have."""
    found = {}
    for value, alike in by_value(rows, sections).items():
        found.setdefault(frozenset(alike), []).append(value)
    return [(boxes(values), sorted(alike, key=lambda row: [len(str(each)) for each in row])) for alike, values in found.items()]


def is_everything(words, section):
    """Whether the language has every list of the section."""
    every = every_list(section.letters, 0)
    return words == (((False, tuple((place, 1) for place, _ in every[0][1])), (True, ())) if section.kind == "cell" else every)


def whole(rows, k):
    """All lists that section k has in some row."""
    return functools.reduce(union, dict.fromkeys(row[k] for row in rows), NONE)
