"""The least configuration through each state of an automaton.

A walk over pairs of a state and a place in the layout of configurations finds for each pair a least word that leads to it and, backward, a least
one from it to an end. Words are compared by their lengths, and then letter by letter, in the order of the protocol with the separator last.
"""


def walk_of(automaton, sections):
    """The steps of the walk, and whether a configuration ends in a state: the section, whether that is a cell that has its letter, and the state of
    the automaton. Letters are (section, place); the separator behind a section is (section, -1)."""
    moves = {}
    for p, letter, q in automaton.edges:
        moves.setdefault(p, {})[letter] = q

    def step(state):
        k, full, q = state
        cell = sections[k].kind == "cell"
        for place, letter in enumerate([] if full else sections[k].letters):
            target = moves.get(q, {}).get((sections[k].name, letter))
            if target is not None:
                yield (k, place), (k, cell, target)
        if k + 1 < len(sections) and full == cell and None in moves.get(q, {}):
            yield (k, -1), (k + 1, False, moves[q][None])

    def is_end(state):
        k, full, q = state
        return k + 1 == len(sections) and full == (sections[k].kind == "cell") and q in automaton.finals
    return step, is_end


def order_of(word):
    return [(k, place < 0, place) for k, place in word]


def ahead_of(step, start):
    """For each state that is reached the state and the letter before it on a least way, and the number of letters to it; and the edges backward."""
    before, far, back = {start: None}, {start: 0}, {}
    for state in (order := [start]):
        for letter, target in step(state):
            back.setdefault(target, []).append((letter, state))
            if target not in before:
                before[target], far[target] = (state, letter), far[state] + 1
                order.append(target)
    return before, far, back


def behind_of(back, ends):
    """For each state from which an end is reached the letter and the state behind it on a least way, and the number of letters on it."""
    behind, far, level, count = dict.fromkeys(ends), dict.fromkeys(ends, 0), {end: 0 for end in ends}, 0
    while level:
        found, count = {}, count + 1
        for target, rank in level.items():
            for letter, state in back.get(target, []):
                key = (order_of([letter]), rank)
                if state not in behind and (state not in found or key < found[state][0]):
                    found[state] = (key, (letter, target))
        ordered, level = sorted(found, key=lambda state: found[state][0]), {}
        for state in ordered:
            # (words that begin alike and go on alike have the same rank)
            same = level and found[state][0] == found[last][0]
            level[state] = level[last] if same else len(level)
            last = state
            behind[state], far[state] = found[state][1], count
    return behind, far


def word_through(state, before, behind):
    """The word of the way to the state and on from it, and how many of its letters lead to it."""
    ahead, rest, at = [], [], state
    while before[at]:
        at, letter = before[at]
        ahead.append(letter)
    while behind[state]:
        letter, state = behind[state]
        rest.append(letter)
    return ahead[::-1] + rest, len(ahead)


def least_words(automaton, sections, letters):
    """For each state the word of the least configuration through it, and how many of its letters come before the state; and the states for which it
    is left out, since all these words together would have more letters than these."""
    if not automaton.states:
        return {}, set()
    step, is_end = walk_of(automaton, sections)
    before, near, back = ahead_of(step, (0, False, 0))
    behind, far = behind_of(back, list(filter(is_end, before)))
    lengths, found, left_out = {}, {}, set()
    for state in before.keys() & behind.keys():
        lengths.setdefault(state[2], {}).setdefault(near[state] + far[state], []).append(state)
    for length, q in sorted((min(each), q) for q, each in lengths.items()):
        letters -= length
        if letters < 0:
            left_out.add(q)
        else:
            found[q] = min((word_through(state, before, behind) for state in lengths[q][length]), key=lambda each: order_of(each[0]))
    return found, left_out
