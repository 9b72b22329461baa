"""Regular expressions for languages, in the notation of patterns, made small so that people can read them.

An expression is one of ("set", letters), ("cat", parts), ("or", parts), ("star", part), ("plus", part) and ("opt", part); the empty word is
("cat", ()). States are eliminated one by one, and then parts are changed as long as the expression gets smaller and its language, compared
as an automaton, stays the same.
"""
import itertools

from .automata import language

EMPTY = ("cat", ())
# An expression of more parts than this is not made smaller, since each change is compared.
LARGE = 60


def cat(*parts):
    found = []
    for part in parts:
        found += part[1] if part[0] == "cat" else [part]
    for k in range(len(found) - 1, 0, -1):
        if found[k] == ("star", found[k - 1]) or found[k - 1] == ("star", found[k]):
            found[k - 1:k + 1] = [("plus", found[k][1] if found[k][0] == "star" else found[k])]
    return found[0] if len(found) == 1 else ("cat", tuple(found))


def either(*parts):
    """One of the parts, with letters in one set and what two parts begin or end with said once."""
    found = list(dict.fromkeys(each for part in parts for each in (part[1] if part[0] == "or" else [part])))
    if EMPTY in found:
        return optional(either(*[part for part in found if part != EMPTY])) if len(found) > 1 else EMPTY
    if any(part[0] == "opt" for part in found):
        return optional(either(*[part[1] if part[0] == "opt" else part for part in found]))
    sets = [part for part in found if part[0] == "set"]
    if len(sets) > 1:
        found = [("set", frozenset().union(*(letters for _, letters in sets)))] + [part for part in found if part[0] != "set"]
    for one, two in itertools.combinations(found, 2):
        if shared := factored(one, two):
            return either(shared, *[part for part in found if part not in (one, two)])
    return found[0] if len(found) == 1 else ("or", tuple(found))


def parts_of(part):
    return part[1] if part[0] == "cat" else (part,)


def factored(one, two):
    """Both as one expression where they begin or end with the same part."""
    first, second = parts_of(one), parts_of(two)
    if first and second and first[0] == second[0]:
        return cat(first[0], either(cat(*first[1:]), cat(*second[1:])))
    if first and second and first[-1] == second[-1]:
        return cat(either(cat(*first[:-1]), cat(*second[:-1])), first[-1])
    return None


def optional(part):
    return part if part[0] in ("opt", "star") or part == EMPTY else ("star", part[1]) if part[0] == "plus" else ("opt", part)


def star(part):
    return EMPTY if part == EMPTY else star(part[1]) if part[0] in ("star", "plus", "opt") else ("star", part)


def eliminated(words):
    """An expression for a language that is not empty, by elimination of states: those with the fewest ways through them first."""
    edges, end = {}, len(words)
    for k, (accepts, moves) in enumerate(words):
        for letter, target in moves:
            edges[k, target] = either(*filter(None, [edges.get((k, target)), ("set", frozenset([letter]))]))
        if accepts:
            edges[k, end] = EMPTY
    edges[-1, 0] = EMPTY
    left = set(range(len(words)))
    while left:
        def ways(k):
            into, out = ([edges[e] for e in edges if e[at] == k and e[1 - at] != k] for at in (1, 0))
            return (len(into) * len(out), sum(map(size, into + out)), k)
        state = min(left, key=ways)
        left.remove(state)
        again = star(edges.pop((state, state), EMPTY))
        before, after = ([(e[1 - at], edges.pop(e)) for e in list(edges) if e[at] == state] for at in (1, 0))
        for (p, one), (q, two) in itertools.product(before, after):
            way = cat(one, again, two)
            edges[p, q] = either(edges[p, q], way) if (p, q) in edges else way
    return edges[-1, end]


def size(part):
    """How much there is to read: letters, signs and parentheses."""
    kind, inner = part
    if kind == "set":
        return 1 + (len(inner) > 1) + len(inner)
    if kind in ("cat", "or"):
        return sum(map(size, inner)) + (2 * len(inner) if kind == "or" else 0)
    return 1 + size(inner) + (2 if inner[0] in ("cat", "or") else 0)


def nullable(part):
    kind, inner = part
    if kind in ("cat", "or"):
        return (all if kind == "cat" else any)(map(nullable, inner))
    return kind in ("star", "opt") or (kind == "plus" and nullable(inner))


def heads(parts):
    """What a row of expressions may begin with: pairs of a set of letters and the row that follows it (partial derivatives, Antimirov 1996)."""
    if not parts:
        return []
    (kind, inner), rest = parts[0], parts[1:]
    if kind == "set":
        return [(inner, rest)]
    if kind == "cat":
        return heads(inner + rest)
    if kind == "or":
        return [each for one in inner for each in heads((one, *rest))]
    if kind == "opt":
        return heads((inner, *rest)) + heads(rest)
    again = [(letters, after + (("star", inner),) + rest) for letters, after in heads((inner,))]
    return again + (heads(rest) if nullable(parts[0]) else [])


def words_of(part):
    """The language of an expression."""
    def step(state):
        found = {}
        for letters, rest in (each for row in state for each in heads(row)):
            for letter in letters:
                found.setdefault(letter, set()).add(rest)
        return [(letter, frozenset(rests)) for letter, rests in found.items()]
    return language(frozenset([(part,)]), step, lambda state: any(all(map(nullable, row)) for row in state))


def variants(part):
    """The expression with one change that may leave its language as it is: a letter or a part less, or less of it optional."""
    kind, inner = part
    if kind == "set":
        yield from (("set", inner - {letter}) for letter in sorted(inner) if len(inner) > 1)
    elif kind in ("cat", "or"):
        join = cat if kind == "cat" else either
        for k, each in enumerate(inner):
            before, after = inner[:k], inner[k + 1:]
            yield join(*before, *after) if len(inner) > 1 else EMPTY
            if kind == "cat" and each[0] == "opt" and each[1][0] == "cat":
                row = each[1][1]
                yield cat(*before, optional(row[0]), *row[1:], *after)
                yield cat(*before, *row[:-1], optional(row[-1]), *after)
            yield from (join(*before, changed, *after) for changed in variants(each))
    else:
        yield from (rebuilt(kind, changed) for changed in [*variants(inner)])
        if kind == "opt":
            yield inner


def rebuilt(kind, part):
    return star(part) if kind == "star" else optional(part) if kind == "opt" else (kind, part)


def small(part, words):
    """The expression changed as long as it gets smaller and keeps its language."""
    changed = size(part) <= LARGE
    while changed:
        changed = next((each for each in sorted(variants(part), key=size) if size(each) < size(part) and words_of(each) == words), None)
        part = changed or part
    return part


def expression(words):
    """A small expression for a language, or None for the language without a word."""
    return small(eliminated(words), words) if words else None


def text(part, names):
    """The expression in the notation of patterns, with `?` for what may be missing and `or` in parentheses."""
    kind, inner = part
    if kind == "set":
        letters = [name for k, name in enumerate(names) if k in inner]
        return letters[0] if len(letters) == 1 else "any" if len(letters) == len(names) else f"{{ {' '.join(letters)} }}"
    if kind == "cat":
        return " ".join(text(each, names) for each in inner) or "empty"
    if kind == "or":
        return f"({' or '.join(text(each, names) for each in inner)})"
    sign = {"star": "*", "plus": "+", "opt": "?"}[kind]
    return f"({text(inner, names)}){sign}" if inner[0] == "cat" else f"{text(inner, names)}{sign}"
