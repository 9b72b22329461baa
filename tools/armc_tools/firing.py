"""Where rules can fire: for each move the patterns of the lists at which it can be made.

A rule can fire where the list of each section that it moves matches one of the patterns of its move; its step is then possible, also where it
changes nothing. A `some` guard gives a pattern for each order in which the guards may be met.
"""
import itertools
import re


def enabled(section, move):
    """The patterns of the lists at which a move can be made: a list matches one of them. None where it can be made at every list."""
    word, letters = move[0], [each for each in move[1:] if each != "->"]
    if word in ("send", "spawn", "push"):
        return None
    if word in ("recv", "pop"):
        return [f"{letters[0]} any*"]
    if word == "set":
        return letters[:1]
    if word == "exit":
        return [f"any* {letters[0]} any*"]
    if word == "lose":
        return [f"any* {' '.join(move[1:])} any*"]
    first, second = letters[:2]
    if word == "pair":
        return [f"any* {first} {second} any*"]
    if word == "ring":
        return [f"{second} any* {first}"]
    if word == "two":
        return list(dict.fromkeys([f"any* {first} any* {second} any*", f"any* {second} any* {first} any*"]))
    return [f"{left} {first} {right}" for left, right in sides(section, guards_of(move))]


def guards_of(move):
    """The guards of an `at` move: triples of all or some, a region, and a set of letters."""
    found = re.findall(r"when (all|some) (left|right|others) in \{ ?([^}]*)\}", " ".join(move))
    return [(quantifier, region, frozenset(names.split())) for quantifier, region, names in found]


def sides(section, guards):
    """The patterns of what stands left and right of a position where the guards hold, for each way to meet the `some` guards."""
    every = frozenset(section.letters)
    allowed = {side: every.intersection(*(names for quantifier, region, names in guards if quantifier == "all" and region in (side, "others")))
               for side in ("left", "right")}
    some = [(names, ("left", "right") if region == "others" else (region,)) for quantifier, region, names in guards if quantifier == "some"]
    found = {}
    for chosen in itertools.product(*(where for _, where in some)):
        met = {side: [names for (names, _), where in zip(some, chosen) if where == side] for side in allowed}
        lines = [list(dict.fromkeys(met_in_order(section, allowed[side], met[side]))) for side in ("left", "right")]
        found.update(dict.fromkeys(itertools.product(*lines)))
    return list(found)


def met_in_order(section, allowed, sets):
    """The patterns of lists over the allowed letters in which each of the sets is met: one for each order, and one position may meet several."""
    between = f"{braces(section, allowed)}*"
    for blocks in ordered_partitions(sets):
        met = [allowed.intersection(*block) for block in blocks]
        if all(met):
            yield " ".join([between, *(f"{braces(section, each)} {between}" for each in met)])


def ordered_partitions(sets):
    """All ways to put the sets into an ordered list of blocks that are not empty."""
    if not sets:
        return [[]]
    first, found = sets[0], []
    for blocks in ordered_partitions(sets[1:]):
        found += [blocks[:k] + [[first]] + blocks[k:] for k in range(len(blocks) + 1)]
        found += [blocks[:k] + [[first, *blocks[k]]] + blocks[k + 1:] for k in range(len(blocks))]
    return found


def braces(section, letters):
    """A set of letters as an atom: any, a letter, or a set."""
    if len(letters) == len(section.letters):
        return "any"
    names = [letter for letter in section.letters if letter in letters]
    return names[0] if len(names) == 1 else " ".join(["{", *names, "}"])
