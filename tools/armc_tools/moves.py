"""Moves as transducers: for each move of a rule a small automaton that reads the list of a section and writes the new one.

An edge reads a letter and writes one, by their places in the section; None in the place of either says that a letter comes or goes. A guard of
`at` is kept in the state until it is met.
"""


class Move:
    """A transducer by its edges, which are few: `edges` has for each state triples of a letter that is read, one that is written, and a state."""

    start = 0

    def __init__(self, ends, edges):
        self.ends, self.edges = ends, edges

    def step(self, state):
        return self.edges.get(state, ())

    def accepts(self, state):
        return state in self.ends


class At:
    """`at a -> b` with its guards and its table. A state is whether the moving place was read, and which `some` guards are met."""

    start = (False, frozenset())

    def __init__(self, old, new, guards, table, letters):
        self.old, self.new, self.guards, self.table, self.letters = old, new, guards, table, letters

    def step(self, state):
        after, met = state
        found = [] if after else [(self.old, self.new, (True, met))]
        sides = ("right" if after else "left", "others")
        for letter in self.letters:
            here = [(k, letter in allowed) for k, (_, side, allowed) in enumerate(self.guards) if side in sides]
            if all(holds for k, holds in here if self.guards[k][0] == "all"):
                now = met.union(k for k, holds in here if holds and self.guards[k][0] == "some")
                found.append((letter, self.table.get(letter, letter), (after, now)))
        return found

    def accepts(self, state):
        after, met = state
        return after and all(k in met for k, (quantifier, _, _) in enumerate(self.guards) if quantifier == "some")


def names_in_braces(words, at):
    """The words between the brace at this place and the next one that closes, and the place behind it."""
    end = words.index("}", at)
    return words[at + 1:end], end + 1


def at_move(words, place, letters):
    old, new, at = place[words[1]], place[words[3]], 4
    guards, table = [], {}
    while at < len(words) and words[at] == "when":
        quantifier, side = words[at + 1:at + 3]
        names, at = names_in_braces(words, at + 4)
        guards.append((quantifier, side, {place[name] for name in names}))
    if at < len(words):
        names, _ = names_in_braces(words, at + 1)
        table = {place[names[k]]: place[names[k + 2]] for k in range(0, len(names), 4)}
    return At(old, new, guards, table, letters)


def of_neighbours(words, place, same):
    """`pair`, `ring` and `two`: two places that change together."""
    a, b, c, d = (place[word] for word in words[1:] if word != "->")
    if words[0] == "pair":
        return Move({2}, {0: [*same(0), (a, c, 1)], 1: [(b, d, 2)], 2: same(2)})
    if words[0] == "ring":
        return Move({2}, {0: [(b, d, 1)], 1: [*same(1), (a, c, 2)]})
    return Move({3}, {0: [*same(0), (a, c, 1), (b, d, 2)], 1: [*same(1), (b, d, 3)], 2: [*same(2), (a, c, 3)], 3: same(3)})


def of_stack(words, place, same):
    """`pop a push x y`, or one of both."""
    gone = [place[words[1]]] if words[0] == "pop" else []
    new = [place[word] for word in words[words.index("push") + 1:]] if "push" in words else []
    row = [(letter, None) for letter in gone] + [(None, letter) for letter in new]
    edges = {k: [(read, written, k + 1)] for k, (read, written) in enumerate(row)}
    return Move({len(row)}, {**edges, len(row): same(len(row))})


def move_of(words, section):
    """The transducer of a move, given by its words; of a section without a move where there are none."""
    place, letters = {name: k for k, name in enumerate(section.letters)}, range(len(section.letters))

    def same(state):
        return [(letter, letter, state) for letter in letters]
    kind = words[0] if words else ""
    if kind == "at":
        return at_move(words, place, letters)
    if kind in ("pair", "ring", "two"):
        return of_neighbours(words, place, same)
    if kind in ("pop", "push"):
        return of_stack(words, place, same)
    if kind == "set":
        return Move({1}, {0: [(place[words[1]], place[words[3]], 1)]})
    if kind in ("send", "spawn"):
        return Move({1}, {0: [*same(0), (None, place[words[1]], 1)]})
    if kind == "recv":
        return Move({1}, {0: [(place[words[1]], None, 1)], 1: same(1)})
    if kind in ("exit", "lose"):
        names = section.letters if words[1] == "any" else [word for word in words[1:] if word not in "{}"]
        return Move({1}, {0: [*same(0), *((place[name], None, 1) for name in names)], 1: same(1)})
    return Move({0}, {0: same(0)})
