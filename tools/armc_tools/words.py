"""What a language of lists says in words: how often its letters stand in a list, which of them stand together, in which order, and side by side.

Letters that are read alike in every state are one class, and the language is told by one letter of each class. Where the order of letters has no part
in it, it is told as few products of counts: 'one c, all others i'.
"""
import itertools

from .automata import counts, every_list, is_commutative, language, reached, with_counts
from .protocol import alternatives

FREE = frozenset({0, 1, 2})
MOST_LIMITED = 5
SAID = {frozenset({1}): "one {}", frozenset({0, 1}): "at most one {}", frozenset({1, 2}): "at least one {}", frozenset({2}): "two or more {}",
        frozenset({0, 2}): "not just one {}"}


def classes_of(words, names):
    """The letters of the language in classes that are read alike in every state, each in the order of the names; and the letters that never occur."""
    found = {}
    for k in range(len(names)):
        column = tuple(dict(edges).get(k) for _, edges in words)
        found.setdefault(column, []).append(k)
    absent = found.pop((None,) * len(words), [])
    return sorted(found.values()), absent


def of_classes(words, classes):
    """The language with the first letter of each class in the place of all its letters."""
    first = {each[0] for each in classes}
    return language(0, lambda state: [(letter, target) for letter, target in words[state][1] if letter in first], lambda state: words[state][0])


def in_words(words, names):
    """What a language says in words, where only the numbers of its letters count; empty where their order counts, or the numbers hang together."""
    classes, absent = classes_of(words, names)
    if words == ((True, ()),):
        return "empty"
    if not is_commutative(words):
        return ""
    said = {each[0]: alternatives([names[k] for k in each]) for each in classes}
    if len(names) > 1 and words == every_list(names, 1):
        return "not empty"
    if with_counts({k: FREE for each in classes for k in each}) == words:
        return "anything" if not absent else f"no {alternatives([names[k] for k in absent])}" if 2 * len(absent) < len(names) else f"all {said[classes[0][0]]}"
    return ", or ".join(in_counts(box, said) for box in boxes_of_counts(of_classes(words, classes)))


def boxes_of_counts(words, depth=2):
    """The language as few products of counts, one set of counts for each letter; none where there is no such product within the depth."""
    letters = sorted({letter for _, edges in words for letter, _ in edges})
    box = {letter: counts(words, letter) for letter in letters}
    limited = [letter for letter in letters if box[letter] != FREE]
    if len(limited) > MOST_LIMITED:
        return []
    if with_counts(box) == words:
        return [box]
    ways = []
    for letter in (limited or letters) if depth else []:
        found = [boxes_of_counts(part_with(words, letter, count), depth - 1) for count in sorted(box[letter])]
        ways += [sum(found, [])] if all(found) else []
    return min(ways, key=len, default=[])


def part_with(words, letter, count, most=2):
    """The words that have the letter so often (`most`: so often or more)."""
    def step(state):
        return [(each, (target, min(most, state[1] + (each == letter)))) for each, target in words[state[0]][1]]
    return language((0, 0), step, lambda state: words[state[0]][0] and state[1] == count)


def in_counts(box, said):
    """A product of counts in words: 'one c, all others i'. `said` has the names of each class of letters."""
    free = [said[letter] for letter, often in sorted(box.items()) if often == FREE]
    found = [SAID[often].format(said[letter]) for letter, often in sorted(box.items()) if often in SAID]
    if len(box) == 1 and set(box.values()) == {frozenset({1, 2})}:
        return f"all {next(iter(said.values()))}, and at least one"
    if not free:
        return ", ".join(found) + " and nothing else"
    if not found:
        return f"all {alternatives(free)}"
    return ", ".join([*found, f"all others {alternatives(free)}"])


def facts(words, names):
    """What holds of every word of the language, as far as numbers and places of letters go: what is said where an expression is too long to read."""
    if not words:
        return []
    classes, absent = classes_of(words, names)
    said = {each[0]: alternatives([names[k] for k in each]) for each in classes}
    quotient = of_classes(words, classes)
    found = [f"never {alternatives([names[k] for k in absent])}"] if absent else []
    found += [SAID[often].format(said[k]) for k in said for often in [counts(quotient, k)] if often in SAID]
    apart, ordered = {}, {}
    for a, b in itertools.permutations(said, 2):
        if not ever_before(quotient, a, b):
            both = ever_before(quotient, b, a)
            if both or a < b:
                (ordered if both else apart).setdefault(a, []).extend(names[k] for each in classes if each[0] == b for k in each)
    found += [f"never {said[a]} together with {alternatives(others)}" for a, others in apart.items()]
    return found + [f"never {said[a]} left of {alternatives(others)}" for a, others in ordered.items()]


def neighbours(words, names):
    """What holds of the ends of every word of the language that is not empty, and of the letters that stand next to each other: what is said besides."""
    if not words:
        return []
    classes, _ = classes_of(words, names)
    letters = {each[0]: [names[k] for k in each] for each in classes}
    quotient = of_classes(words, classes)
    firsts = {letter for letter, _ in quotient[0][1]}
    lasts = {letter for _, edges in quotient for letter, target in edges if quotient[target][0]}
    beside = {(a, b) for _, edges in quotient for a, target in edges for b, _ in quotient[target][1]}
    found = [said_of_end(word, ends, letters) for word, ends in (("first", firsts), ("last", lasts)) if ends < set(letters)]
    for a, said in letters.items():
        apart = [name for b in letters if (a, b) not in beside and ever_before(quotient, a, b) for name in letters[b]]
        found += [f"never {alternatives(said)} right before {alternatives(apart)}"] if apart else []
    return found


def said_of_end(word, ends, letters):
    """What may stand first, or last: the fewer letters are named."""
    inside, outside = ([name for letter, names in letters.items() if (letter in ends) == wanted for name in names] for wanted in (True, False))
    return f"{word}: {alternatives(inside)}" if len(inside) <= len(outside) else f"never {word}: {alternatives(outside)}"


def ever_before(words, first, second):
    """Whether some word has the first letter somewhere left of the second."""
    found = reached([(0, False)], lambda state: [(target, state[1] or letter == first) for letter, target in words[state[0]][1]])
    return any(met and letter == second for state, met in found for letter, _ in words[state][1])
