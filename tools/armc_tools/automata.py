"""Languages of finite automata, each as its smallest automaton, so that two are equal exactly where their values are.

A language is a tuple of states, state 0 the start: whether it accepts, and its edges as pairs of a letter and a state, by letter. The empty
language is the empty tuple. All states are reached and reach an end; the states are numbered in the order in which a walk by letters meets them.
"""
import collections

NONE = ()


def language(start, step, accepts):
    """The language of an automaton given by its start, the edges `step(state)` as pairs of a letter and a state, and which states accept."""
    names, moves = {start: 0}, []
    waiting = collections.deque([start])
    while waiting:
        state = waiting.popleft()
        moves.append(sorted((letter, target) for letter, target in step(state)))
        for _, target in moves[-1]:
            if target not in names:
                names[target] = len(names)
                waiting.append(target)
    order = list(names)
    numbered = [{letter: names[target] for letter, target in edges} for edges in moves]
    return minimal(numbered, {k for k, state in enumerate(order) if accepts(state)})


def reached(starts, step):
    """These states and all that `step` leads to from them."""
    found, waiting = set(starts), list(starts)
    while waiting:
        more = set(step(waiting.pop())) - found
        found |= more
        waiting += more
    return found


def minimal(moves, finals):
    """The smallest automaton: states that reach no end are left out, and those of one class are made one."""
    into = {}
    for k, edges in enumerate(moves):
        for target in edges.values():
            into.setdefault(target, []).append(k)
    live = reached(finals, lambda k: into.get(k, ()))
    if 0 not in live:
        return NONE
    moves = {k: {letter: t for letter, t in moves[k].items() if t in live} for k in live}
    classes = classes_of_states(moves, set(finals))
    return renumbered({classes[k]: {letter: classes[t] for letter, t in edges.items()} for k, edges in moves.items()}, classes[0], {classes[k] for k in finals})


def classes_of_states(moves, finals):
    """The class of each state: two are of one class where the same words lead from them to an end. A class is split by the states that a letter
    leads into another class, and the smaller part is waited for (Hopcroft 1971)."""
    into = {}
    for k, edges in moves.items():
        for letter, target in edges.items():
            into.setdefault(letter, {}).setdefault(target, []).append(k)
    blocks = [block for block in (finals, moves.keys() - finals) if block]
    class_of = {k: number for number, block in enumerate(blocks) for k in block}
    waiting = set(range(len(blocks)))
    while waiting:
        splitter = list(blocks[waiting.pop()])
        for sources in into.values():
            parts = {}
            for k in (k for target in splitter for k in sources.get(target, ())):
                parts.setdefault(class_of[k], set()).add(k)
            for number, part in parts.items():
                if len(part) < len(blocks[number]):
                    new, blocks[number] = sorted((part, blocks[number] - part), key=len)
                    class_of.update(dict.fromkeys(new, len(blocks)))
                    waiting.add(len(blocks))
                    blocks.append(new)
    return class_of


def renumbered(edges, start, finals):
    place, order = {start: 0}, [start]
    for state in order:
        for _, target in sorted(edges[state].items()):
            if target not in place:
                place[target] = len(order)
                order.append(target)
    return tuple((state in finals, tuple((letter, place[t]) for letter, t in sorted(edges[state].items()))) for state in order)


def union(one, two):
    """The words of either."""
    def step(pair):
        moves = [dict(each[k][1]) if k is not None else {} for each, k in zip((one, two), pair)]
        return [(letter, (moves[0].get(letter), moves[1].get(letter))) for letter in {**moves[0], **moves[1]}]
    start = tuple(0 if each else None for each in (one, two))
    return language(start, step, lambda pair: any(k is not None and each[k][0] for each, k in zip((one, two), pair)))


def is_commutative(words):
    """Whether the order of the letters has no part in it: each two letters lead from each state to the same state in either order."""
    moves = [dict(edges) for _, edges in words]
    letters = sorted({letter for edges in moves for letter in edges})

    def by(state, *path):
        for letter in path:
            state = moves[state].get(letter) if state is not None else None
        return state
    return all(by(k, a, b) == by(k, b, a) for k in range(len(words)) for a in letters for b in letters if a < b)


def counts(words, letter, most=2):
    """How often the letter can stand in a word: the numbers below `most`, and `most` for as often or more."""
    found = reached([(0, 0)], lambda state: [(target, min(most, state[1] + (each == letter))) for each, target in words[state[0]][1]])
    return frozenset(count for state, count in found if words[state][0])


def with_counts(allowed, most=2):
    """The words over the letters of `allowed` in which each stands as often as it says, by a set of counts for each letter."""
    limited = sorted(letter for letter, often in allowed.items() if len(often) <= most)

    def step(state):
        found = {letter: state for letter in allowed}
        found.update({letter: state[:k] + (min(most, state[k] + 1),) + state[k + 1:] for k, letter in enumerate(limited)})
        return list(found.items())
    return language((0,) * len(limited), step, lambda state: all(count in allowed[letter] for count, letter in zip(state, limited)))


def every_list(names, least):
    """All lists of at least so many letters."""
    return language(0, lambda state: [(place, min(state + 1, least)) for place in range(len(names))], lambda state: state == least)
